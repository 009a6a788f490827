"""The fields of a scenario that describe its cluster: the number of servers, and the settings that they share."""
import collections

# `least` is also the default of a field that may be missing. `meaning` describes schedules with one value of the field.
# `drawn` lists the values of drawn schedules, and repeats a value to make it more likely.
Field = collections.namedtuple("Field", "least greatest is_needed meaning drawn")

FIELDS = {
    "servers": Field(1, 7, True, "with N servers", (1, 1, 1, 1, 1, 2, 2, 3, 3, 3, 3, 3, 3, 3, 4, 4, 4, 5, 5, 6, 7)),
    "beta": Field(0, 4_095, False, "with this beta", (*(0, 0, 0, 0, 1, 2, 3, 5) * 3, 2_047, 4_095)),
}


def members_of(scenario):
    """The value of each field in a scenario."""
    return {name: scenario.get(name, field.least) for name, field in FIELDS.items()}


def written(members):
    """The fields of these members that a scenario must contain."""
    return {name: value for name, value in members.items()
            if FIELDS[name].is_needed or value != FIELDS[name].least}


def smaller(members):
    """Members with a smaller value in one field: at most the eight least values of each field, in rising order."""
    for name, value in members.items():
        least = FIELDS[name].least
        for less in range(least, min(value, least + 8)):
            yield {**members, name: less}
