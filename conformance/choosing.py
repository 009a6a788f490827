"""Chooses the schedules to compare: those of the suite that match the command line, or drawn ones."""
import collections
import dataclasses
import itertools

import drawing
import members
import reference
import suite

NOUNS = {"servers": "number of servers"}
OTHER_SEEDS = 20
LIMITS = "reach a limit (--limits adds them)"


@dataclasses.dataclass
class Choice:
    """The schedules to compare, and their number. For the suite, also why other schedules were left out, the options
    that left out no schedule that the options before them had kept, and the features that no schedule has any more."""
    schedules: object
    count: int
    left_out: collections.Counter = dataclasses.field(default_factory=collections.Counter)
    idle: list = dataclasses.field(default_factory=list)
    lacking: list = dataclasses.field(default_factory=list)

    def remarks(self):
        """Says how many schedules of the suite were left out, and why."""
        remarks, left_out = [], sum(self.left_out.values())
        if left_out:
            reasons = sorted(self.left_out.items(), key=lambda pair: (-pair[1], pair[0]))
            remarks.append(f"{left_out} of {self.count + left_out} left out: "
                           + ", ".join(f"{count} {reason}" for reason, count in reasons))
        remarks += [f"{option} left no other schedule out" for option in self.idle]
        if self.lacking and self.count:
            remarks.append("no schedule is left with: " + ", ".join(self.lacking))
        return remarks


def choose(chosen):
    """The schedules that the command line wishes for."""
    return Choice(drawn(chosen), chosen.seeds) if chosen.seeds else in_suite(chosen)


def members_wanted(chosen):
    """The fields of the cluster that the command line gives."""
    return {name: getattr(chosen, name) for name in members.FIELDS if getattr(chosen, name) is not None}


def drawn(chosen):
    """The schedules of the seeds. Each is drawn when the caller asks for it."""
    rates = {name: getattr(chosen, name) for name in drawing.RATES if getattr(chosen, name) is not None}
    wish = drawing.Wish(chosen.events, members_wanted(chosen), not chosen.no_cas, not chosen.no_refusals, rates)
    for seed in range(chosen.first_seed, chosen.first_seed + chosen.seeds):
        yield drawing.draw(seed, wish)


def others(chosen):
    """More schedules that match the command line: those of the suite, and those of the first seeds."""
    chosen = type(chosen)(**{**vars(chosen), "limits": False, "first_seed": 1, "seeds": OTHER_SEEDS})
    return itertools.chain(in_suite(chosen).schedules, drawn(chosen))


def in_suite(chosen):
    """The schedules of the suite that match the command line."""
    choice, tests = Choice([], 0), tests_of(chosen)
    before, after = set(), set()
    for name in suite.names():
        if name.startswith("limit_") and not chosen.limits:
            choice.left_out[LIMITS] += 1
            continue
        schedule = reference.schedule_of(name, suite.scenario(name))
        found = features(schedule)
        before |= found
        reason = next((reason for _, reason, is_out in tests if is_out(schedule, found)), None)
        if reason:
            choice.left_out[reason] += 1
        else:
            after |= found
            choice.schedules.append(schedule)
    choice.count = len(choice.schedules)
    choice.idle = [option for option, reason, _ in tests if not choice.left_out[reason]]
    choice.left_out = +choice.left_out
    choice.lacking = sorted(before - after - unwanted(chosen))
    return choice


def features(schedule):
    """The features of a schedule of the suite that another schedule may lack."""
    words = [event.split(" ") for event in schedule.events]
    return ({event[0] for event in words} | {event[3] for event in words if event[0] == "submit"}
            | ({"beta"} if schedule.members["beta"] > 0 else set())
            | ({"refusals"} if suite.report(schedule.name)[0].startswith("refused ") else set()))


def unwanted(chosen):
    """The features that the command line leaves out."""
    return {name for name, is_out in (("cas", chosen.no_cas), ("refusals", chosen.no_refusals),
                                      ("beta", chosen.beta == 0)) if is_out}


def tests_of(chosen):
    """The options that leave schedules out. Each has its reason, and a test of a schedule and its features."""
    tests = []
    for name, value in members_wanted(chosen).items():
        reason = f"have a {name}" if value == 0 else f"have another {NOUNS.get(name, name)}"
        tests.append((f"--{name} {value}", reason,
                      lambda schedule, _, name=name, value=value: schedule.members[name] != value))
    for feature in ("cas", "refusals"):
        if getattr(chosen, "no_" + feature):
            tests.append((f"--no-{feature}", f"have {'a ' * (feature == 'cas')}{feature}",
                          lambda _, found, feature=feature: feature in found))
    return tests
