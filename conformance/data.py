"""Keys, texts, identities and numbers of drawn schedules. Naive stores confuse some of them, or change them.

A family consists of groups of words. A naive store may take the words of a group for the same word. A schedule takes
its keys from one family, and its texts from one family.
"""
from operations import NEWEST, OPERATIONS, of_version, text_after

LONGEST_KEY, LONGEST_TEXT = 64, 256  # bytes
GREATEST = 2**32 - 1  # the greatest client, number of a command, and number of a message
GREATEST_SERVER = 255


def long_words(length):
    """A group of words that differ only in their last bytes."""
    front = "k" * (length - 1)
    return front + "0", front + "1", front


PLAIN_KEYS = (("a",), ("a",), ("a",), ("a",), ("b",), ("A",))
PLAIN_TEXTS = (("x", "xy"), ("7", "007"))
NUMBERS = (("7", "007"), ("0", "-0", "00"), ("1000", "1e3"))
NOTHING = (("null", "none", "undefined"), ("true", "True"), ("false", "0"))
KEY_FAMILIES = (
    (("__proto__", "constructor"), ("toString", "valueOf"), ("hasOwnProperty",)),  # a JavaScript object inherits these
    NUMBERS,
    NOTHING,
    (("a", "A"), ("b", "b.", ".b", "b.."), ("c_", "c-", ".", "..")),
    (long_words(LONGEST_KEY),),
)
TEXT_FAMILIES = (NUMBERS, NOTHING, (("x", "X", "xx"), ("y", "y.", "-y")), (long_words(LONGEST_TEXT),))

# The first client and the first number of its commands. The first pair is the usual one.
FIRST_IDENTITIES = ((1, 0), (1, 1), (0, 0), (255, 255), (65_535, 65_535), (2**31 - 2, 2**31 - 2))


class Words:
    """The keys, the texts and the identities of a schedule. `rate` of 100 schedules take a family that is not plain."""

    def __init__(self, dice, rate):
        self.dice = dice
        # Few keys, so that one command sees the effects of another.
        keys = dice.order(dice.pick(KEY_FAMILIES))[:dice.pick((1, 2))] if dice.chance(rate) else PLAIN_KEYS
        self.text_groups = dice.pick(TEXT_FAMILIES) if dice.chance(rate) else PLAIN_TEXTS
        self.empty_rate = 25 if self.text_groups is PLAIN_TEXTS else 10
        self.keys = [key for group in keys for key in group]
        self.texts = [text for group in self.text_groups for text in group]
        self.held = {}  # for a key, the text that it holds if the commands are executed as they were drawn
        self.client, self.number = dice.pick(FIRST_IDENTITIES) if dice.chance(rate) else FIRST_IDENTITIES[0]
        self.counts_down = dice.chance(rate / 5)

    def identity(self, server, count):
        """The identity of the command that a server submits after `count` others. The numbers of some schedules count
        down from the greatest ones. Some servers have two clients, such as 1 and 11, so that 1.10 and 11.0 exist."""
        if self.counts_down:
            return f"{GREATEST - server}.{GREATEST - count}"
        client = self.client + server
        if client < 10 and self.dice.chance(15):
            client *= 11
        return f"{client}.{self.number + count}"

    def next_identity(self, server, count):
        """The identity of the command that a server probably submits after `count` others."""
        return f"{self.client + server}.{self.number + count}"

    def operation(self, has_cas):
        key = self.dice.pick(self.keys)
        words = of_version(NEWEST if has_cas else 1)
        word = self.dice.pick(words) if key in self.held or self.dice.chance(50) else "set"
        texts = [self.text() for _ in range(OPERATIONS[word].texts)]
        if len(texts) == 2 and self.dice.chance(80):
            texts[0] = self.alike(self.held.get(key, ""))
        self.held[key] = text_after(self.held.get(key), word, texts)
        if self.held[key] is None:
            del self.held[key]
        return " ".join([word, key, *texts])

    def text(self):
        return "" if self.dice.chance(self.empty_rate) else self.dice.pick(self.texts)

    def alike(self, text):
        """A word of the same group, which may be the text itself."""
        return self.dice.pick(next((group for group in self.text_groups if text in group), [text]))


def server_beyond(dice, count):
    """A server that a cluster of `count` servers does not have. A store that keeps too few bits of its number takes it
    for a server of the cluster."""
    server = dice.below(count)
    return dice.pick((count, count, count + 1, 8 + server, 16 + server, 128 + server, GREATEST_SERVER))


def message_beyond(dice, count):
    """The number of a message that was not sent, if `count` messages were sent."""
    number = dice.below(count + 1)
    return dice.pick((count, count + 1, 65_536 + number, 2**31 + number, GREATEST - number))
