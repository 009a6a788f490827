#!/usr/bin/env python3
"""Writes docs/PROOF_RUN.md, the record of a full run of ./check.

    checks/lib/proof_run.py --can-record
    checks/lib/proof_run.py FOLDER

`./check --record` calls it. The first form fails unless the clone is a commit without changes. The second form reads
what ./check kept in FOLDER:

    crates            the output of the check `crates`, which is that of `rt ci`
    edits             the output of the check `edits`
    NAME.before       the output of `times` of sh before these two checks
    NAME.after        the same after them
    began             the time at which the run began, in seconds since 1970
    commit            the commit at that time
    passed            a line for each check that passed
    skipped           a line for each part that a check skipped, if there is one

It writes no record if the commit or a file has changed since the run began, or if the output of `rt ci` lacks a crate,
or if the output of `edits` contains another number of edits than its last line says.
"""
import os
import re
import subprocess
import sys
import time

TOP = os.path.dirname(os.path.dirname(os.path.dirname(os.path.realpath(__file__))))
PAGE = os.path.join(TOP, "docs", "PROOF_RUN.md")

HEAD = """# The record of a full run

This page records how all proofs and tests of one commit ended. `./check --record` runs them all, and then writes this
page. If you do not have [the kit](../README.md#the-kit), you cannot repeat the run. Then you have to take our word that
it took place. With the kit, `./check` repeats it ([how](CHANGING.md#builds-and-the-gate)).

| | |
|---|---|
"""
CRATES = """
## The crates

`rt ci` proves the crates and their tests, and tries the edits in `must-fail`. `checks/edits` tries the others. Their last
lines were:

```text
{end}
```

An *edit* breaks the code of a crate on purpose, and the checker must refuse it. A function that *may wait* can wait for
another thread, so termination is not proved of it. The tests are proved together with the functions of their crate. An
empty cell means none.{kept}

| Crate | Proved functions | Of these, may wait | Edits refused | Functions with the tests | Tests passed |
|---|---:|---:|---:|---:|---:|
"""
CHECKS = """
## All checks

Each line is a check that passed, in the order of the run:

```text
{passed}```

{skipped}
"""
NONE_SKIPPED = "No check skipped a part."
SKIPPED = """Parts of these checks were skipped:

```text
{skipped}
```"""


def command(*words):
    return subprocess.run(words, cwd=TOP, capture_output=True, text=True, check=True).stdout.strip()


def can_record():
    try:
        changed = command("git", "status", "--porcelain", "--untracked-files=no")
    except (OSError, subprocess.CalledProcessError) as error:
        sys.exit(f"check: a record names the commit, but git failed: {error}")
    if changed:
        sys.exit(f"check: a record names the commit, so commit these changes first:\n{changed}")


# ---- the output of rt ci and of checks/edits

# The numbers of a crate, in the order of the columns of the table.
KINDS = ("functions", "waits", "edits", "of_tests", "tests")


def crates_of(said):
    """The crates in the output of `rt ci`, each with its numbers of some KINDS. Proofs that were kept from an earlier
    run have no number of functions."""
    crates, crate, of_tests, tests = {}, None, None, None
    for line in said.splitlines():
        if found := re.match(r"== (\w+)(: its tests)?$", line):
            crate, of_tests = crates.setdefault(found[1], {}), bool(found[2])
        elif found := re.match(r"rt: (\w+) is kept: ", line):
            crates.setdefault(found[1], {})
        elif crate is not None and (found := re.match(r"logic=proved .*?\bfunctions=(\d+) (.*)", line)):
            crate["of_tests" if of_tests else "functions"] = int(found[1])
            waits = re.search(r"\bmay-wait=(\d+)", found[2])
            if waits and not of_tests:
                crate["waits"] = int(waits[1])
        elif found := re.match(r"rt: must-fail (\w+)/\S+: refused, as it must be", line):
            of = crates.setdefault(found[1], {})
            of["edits"] = of.get("edits", 0) + 1
        elif found := re.match(r"test result: ok\D+(\d+) passed", line):
            tests = int(found[1])
        elif (found := re.match(r"rt: (\w+): its tests passed", line)) and tests is not None:
            crates.setdefault(found[1], {})["tests"] = tests
            tests = None
    return crates


def checked(said, tried, names):
    """The crates in the output of `rt ci`, in the order of these names, with the edits in the output of `checks/edits`.
    Fails if one of them is of other crates, or counts other edits in its last lines."""
    crates = crates_of(said)
    if set(crates) != set(names):
        sys.exit(f"check: the output of rt ci is not of these crates: {', '.join(sorted(set(crates) ^ set(names)))}")
    of_kit = sum(numbers.get("edits", 0) for numbers in crates.values())
    counted = re.search(r"; must-fail edits: (\d+) refused", said)
    if of_kit != (int(counted[1]) if counted else 0):
        sys.exit(f"check: the output of rt ci has {of_kit} edits that were refused, but it counts others")
    edits = re.findall(r"^checks/edits: (\w+)/\w+: refused, ", tried, re.M)
    if f"checks/edits: {len(edits)} edits of {len(set(edits))} crates refused" not in tried.splitlines():
        sys.exit(f"check: the output of checks/edits has {len(edits)} edits that were refused, but it counts others")
    for name in edits:
        if name not in crates:
            sys.exit(f"check: the output of checks/edits has an unknown crate, {name}")
        crates[name]["edits"] = crates[name].get("edits", 0) + 1
    return {name: crates[name] for name in names}


def rows(crates):
    for name, numbers in crates.items():
        kept = {"functions": "kept", "of_tests": "kept" if "tests" in numbers else ""}
        cells = [str(numbers.get(kind, kept.get(kind)) or "") for kind in KINDS]
        yield f"| `{name}` | {' | '.join(cells)} |\n"


# ---- the run and the machine

def minutes(times):
    """The processor minutes of the processes that a shell waited for, from the output of its `times`."""
    user, system = re.findall(r"(\d+)m([\d.]+)s", times.splitlines()[1])
    return sum(int(whole) + float(seconds) / 60 for whole, seconds in (user, system))


def first_match(path, pattern, missing):
    try:
        with open(path, encoding="utf-8") as file:
            found = re.search(pattern, file.read(), re.M)
    except OSError:
        found = None
    return found[1].strip() if found else missing


def machine():
    model = first_match("/proc/cpuinfo", r"^model name\s*: (.*)$", "an unknown processor")
    memory = int(first_match("/proc/meminfo", r"^MemTotal:\s*(\d+)", "0")) / 1e6
    system = first_match("/etc/os-release", r'^PRETTY_NAME="?([^"\n]*)', "an unknown system")
    return f"{os.uname().machine}, {os.cpu_count()} processors ({model}), {memory:.0f} GB of memory, {system}"


def facts(read):
    begin, end = time.gmtime(float(read("began"))), time.gmtime()
    day = "" if begin[:3] == end[:3] else "%Y-%m-%d, "
    return {
        "Sources": f"commit `{read('commit').strip()}`",
        "Date": f"{time.strftime('%Y-%m-%d, from %H:%M UTC', begin)} to {time.strftime(day + '%H:%M UTC', end)}",
        "Kit": f"`{command('rt', 'version')}`, the output of `rt version`",
        "Machine": machine(),
        "Command": "`./check --record`, which starts `rt ci` and `checks/edits` for the crates",
        "Result": "every check passed, exit status 0",
        "Time for the crates": time_of(read, "crates"),
        "Time for the edits": time_of(read, "edits"),
    }


def time_of(read, name):
    spent = minutes(read(f"{name}.after")) - minutes(read(f"{name}.before"))
    (by_clock,) = re.findall(rf"^check: {name} passed after (\d+) s$", read("passed"), re.M)
    return f"{spent:.0f} processor minutes, {int(by_clock) / 60:.0f} minutes by the clock"


def page(read, names):
    said, tried = read("crates"), read("edits")
    crates = checked(said, tried, names)
    table = "".join(rows(crates))
    kept = "\n*Kept* means that an earlier run on this machine proved the same files." if " kept " in table else ""
    skipped = read("skipped").strip()
    skipped = SKIPPED.format(skipped=skipped) if skipped else NONE_SKIPPED
    return (HEAD + "".join(f"| {name} | {value} |\n" for name, value in facts(read).items())
            + CRATES.format(end="\n".join([*said.splitlines()[-2:], tried.splitlines()[-1]]), kept=kept) + table
            + CHECKS.format(passed=read("passed"), skipped=skipped))


def names_of(crates_txt):
    """The crates of crates.txt, in its order."""
    heads = (line.split("#")[0].partition(":")[0].split() for line in crates_txt.splitlines())
    return [head[0] for head in heads if head]


def main(words):
    if words == ["--can-record"]:
        can_record()
        return
    (folder,) = words

    def read(name):
        with open(os.path.join(folder, name), encoding="utf-8", errors="replace") as file:
            return file.read()

    can_record()
    if command("git", "rev-parse", "HEAD") != read("commit").strip():
        sys.exit("check: the commit has changed since the run began, so there is no record")
    with open(os.path.join(TOP, "crates.txt"), encoding="utf-8") as file:
        text = page(read, names_of(file.read()))
    with open(PAGE, "w", encoding="utf-8") as file:
        file.write(text)
    print("check: wrote docs/PROOF_RUN.md")


if __name__ == "__main__":
    main(sys.argv[1:])
