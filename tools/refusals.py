"""What each refusal means, the line that tells one, and the lines that tell its place; and what `why` answers. For tools/trace, tools/inspect and tools/why.

The words are those of `pradulins_refusal_text` in include/pradulins.h; tools/docs tests that they agree. No call of the C interface gives 33. The names of
fields are those of host/src/place.rs.
"""

import re

WORDS = {
    1: "a varint is cut short",
    2: "a varint is above 64 bits",
    3: "a varint is longer than it needs to be",
    4: "a field passes the end",
    5: "a wire type that is not supported",
    6: "a field number out of range",
    14: "an end tag with no open group, or of another number",
    15: "groups are more than 32 deep",
    16: "the body ends inside a group",
    7: "a topic is not UTF-8",
    10: "the body has above 65,536 bytes",
    11: "the body has above 512 records",
    12: "no room for the answer",
    13: "the RPC has above 65,536 bytes",
    20: "no message at that index",
    21: "the message has no from",
    22: "from has 0 or above 64 bytes",
    23: "seqno is missing, or has 0 or above 64 bytes",
    24: "the message has a key and no signature",
    25: "the message has no signature and no key",
    26: "the signature does not have 64 bytes",
    27: "the host did not verify the signature",
    28: "the message has no topic, or above 4",
    29: "a topic has above 1,024 bytes",
    30: "the message has above 4,096 bytes",
    31: "the reading is before the node's clock",
    33: "an id has above 129 bytes",
    34: "the sender is no peer id",
    35: "the key does not decode",
    36: "the key is not the sender's, or there is none",
    40: "a setting is out of range, or the seen store is too short",
    41: "a store has not the length that the settings say",
    42: "node and stores, or the rows of an RPC, are not well formed",
}

# Which numbers stand beside each refusal; beside the others none does.
VALUES = {
    4: ("offset", "length", "remaining"), 5: ("type", "offset"), 6: ("number", "offset"), 7: ("offset",),
    10: ("length",), 11: ("number",), 12: ("needed",), 13: ("length",), 20: ("number",), 22: ("length",), 26: ("length",), 28: ("number",), 29: ("length",),
    30: ("length",), 31: ("clock",), 33: ("length",),
}


# What stands at the place of a refusal of a body, and what the fields around it are called, by the numbers on the way to each.
AT = {
    1: "where the varint was to stand", 2: "where the varint begins", 3: "where the varint begins", 4: "where its bytes were to begin", 5: "behind the tag",
    6: "where the tag begins", 7: "where the topic's length begins",
}
FIELDS = {
    (1,): "subscription", (2,): "message", (3,): "control", (3, 1): "ihave", (3, 2): "iwant", (3, 3): "graft", (3, 4): "prune", (3, 4, 2): "peer",
    (3, 5): "idontwant",
}


def some(n, one):
    return "%s %s%s" % (format(n, ","), one, "" if n == 1 else "s")


def beside(number, values):
    """What the numbers beside a refusal say; "" where they say nothing more. The offsets among them count from the innermost field around it: `at` tells
    the place in the whole body instead."""
    if len(values) != len(VALUES.get(number, ())):
        return ""
    if number == 4:
        _, length, remaining = values
        return "it was to have %s, and %s %s" % (some(length, "byte"), format(remaining, ","), "remains" if remaining == 1 else "remain")
    if number == 5:
        return "type %d" % values[0]
    if number == 6:
        return "number %d" % values[0]
    if number in (10, 13, 22, 26, 29, 30, 33):
        return "it has %s" % some(values[0], "byte")
    if number in (11, 28):
        return "it has %s" % format(values[0], ",")
    if number == 12:
        return "%s %s needed" % (format(values[0], ","), "is" if values[0] == 1 else "are")
    if number == 20:
        return "there %s %s" % ("is" if values[0] == 1 else "are", some(values[0], "message") if values[0] else "no messages")
    if number == 31:
        return "it is %d" % values
    return ""


def told(number, values=(), _=None):
    """The line of a refusal: its number, what it means, and what the numbers beside it say; without its place."""
    return ": ".join(filter(None, ("refused %d" % number, WORDS.get(number, ""), beside(number, values))))


def at(number, place, size):
    """The lines of a refusal's place in a body of this size, in words and numbers. The first byte is byte 0."""
    yield "at byte %s of the body, %s%s" % (format(place.offset, ","), AT[number], ": that is its end" if place.offset == size else "")
    names = [FIELDS.get(place.fields[:n], "not known") for n in range(1, len(place.fields) + 1)]
    yield "in " + (", ".join("%s (field %d)" % pair for pair in zip(names, place.fields)) or "the body itself")


def in_numbers(number, values, place):
    """A refusal as the programs print it."""
    return " ".join(map(str, ["refused", number, *values, "at", place.offset] + (["in", *place.fields] if place.fields else [])))


# What the program `why` says of an id, in words; in an older window its age follows.
WHY = {"listed": "listed", "missing": "not in the cache", "topic": "in the cache, without that topic", "window": "in the cache, in a window of age"}


def told_why(answer):
    """The words of an answer of `why` that is no refusal; None where it is none that the program gives."""
    found = re.fullmatch("(listed|missing|topic)|(window) ([0-9]{1,3})", answer)
    if not found:
        return None
    return WHY[found[1]] if found[1] else "%s %d" % (WHY["window"], int(found[3]))
