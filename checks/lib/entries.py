"""Compares the fields and texts in the entries of a page with those of the program, one entry after another."""
import itertools
import re

from grammar import PARTS
from shared import fail


def in_line(text):
    return " ".join(text.split())


def has_number(text, range_of):
    """Whether a text contains a range, and not only as a part of longer numbers."""
    return re.search(f"(?<![0-9,]){re.escape(range_of)}(?![0-9]|,[0-9])", text) is not None


def pairs(place, wanted, found):
    """Pairs the wanted items with the entries of a page. Fails unless both have the same number."""
    for one, other in itertools.zip_longest(wanted, found):
        if other is None:
            fail(f"{place} omits {one}")
        if one is None:
            fail(f"{place} has an extra entry: {other[0]}")
        yield one, other


def compare_forms(place, forms, first_version, entries):
    """Compares entries of texts. An entry has a text, and words that name its version unless that is the first one."""
    for form, (written, words) in pairs(place, forms, entries):
        if not form.is_written(in_line(written)):
            fail(f"{place} has {written!r} instead of {str(form)!r}")
        versions = {int(number) for number in re.findall("version ([0-9]+)", in_line(words))}
        if versions != {form.version} - {first_version}:
            fail(f"{place} names the versions {sorted(versions)} for {written!r}, which begins with {form.version}")


def compare_fields(place, fields, entries, separator=""):
    """Compares entries of fields. An entry has a name, and words with the range. If the field may be left out, they say
    so or name its default."""
    for field, (name, words) in pairs(place, [f"the field {name}" for name in fields], entries):
        field = fields[field.split()[-1]]
        if name != field.name:
            fail(f"{place} has the field {name} instead of {field.name}")
        if not field.is_list and not has_number(in_line(words), field.range(separator)):
            fail(f"{place} does not say of {name} that it is {field.range(separator)}")
        if bool(re.search("left out|default", in_line(words))) == field.is_needed:
            fail(f"{place} is wrong about whether {name} may be left out")


def compare_kinds(place, kinds, entries):
    """Compares entries of parts. An entry has the signs of parts with the same range, and words with that range."""
    written = {sign: kind for part, kind in kinds.items() for sign in PARTS[part][0]}
    for signs, words in entries:
        for sign in signs:
            if sign not in written:
                fail(f"{place} has {sign}, which does not occur in any text")
            kind = written.pop(sign)
            if not has_number(words, f"{kind.least} to {kind.greatest:,}"):
                fail(f"{place} does not say of {sign} that it is {kind.least} to {kind.greatest:,}")
    if written:
        fail(f"{place} omits {', '.join(written)}")


def quoted_commands(text):
    """The commands in backquotes, each with the words that name its version."""
    found = re.findall(r"(in version [0-9]+ )?`(ID [^`]+)`", in_line(text))
    return [(command, version) for version, command in found]
