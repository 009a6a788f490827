"""Runs the examples of a page, as if a reader pasted them at the top of the repository."""
import os
import re
import tempfile

from shared import TOP, fail, start

# The examples of these tasks may be about bad inputs, so they may end with a status other than 0.
FINDING = ("check", "judge")


def examples_in(block):
    """The commands of a block. A command begins at the lowest indent, and further lines of it have a higher indent."""
    lines = block.rstrip("\n").split("\n")
    indent = min(len(line) - len(line.lstrip(" ")) for line in lines)
    return re.split(rf"\n {{{indent}}}(?! )", "\n" + "\n".join(lines))[1:]


def run_examples(program, place, block):
    """Runs the commands of a block, and returns their number. Each must end well, and report no missing file."""
    commands = examples_in(block)
    with tempfile.TemporaryDirectory() as folder:
        os.symlink(os.path.join(TOP, "examples"), os.path.join(folder, "examples"))
        os.symlink(os.path.abspath(program), os.path.join(folder, "mencius"))
        around = {**os.environ, "PATH": folder + os.pathsep + os.environ["PATH"]}
        for command in commands:
            ended = start(["bash", "-o", "pipefail", "-c", command], cwd=folder, env=around)
            tasks = re.findall(r"mencius ([a-z]+)", command)
            statuses = (0, 1, 3) if tasks and tasks[-1] in FINDING else (0,)
            if not tasks or ended.status not in statuses or re.search("error:|No such file", ended.said):
                fail(f"{place} has an example that fails, with status {ended.status}:\n{command}\n{ended.said}")
    return len(commands)
