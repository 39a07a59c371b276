"""Where in a body a refusal stands: a finder of places that shares nothing with the readers it is held against.

It is written from the encoding of Protocol Buffers and the scope's rules for reading a body, in every dialect: either edition of gossipsub, and groups refused or
skipped. It goes over the bytes once, from the first to the last, and cuts nothing: each place is one in the whole body, and the messages that are open at a place are
a list, each with its end and with the numbers of the groups that are open in it.
`find` gives the first refusal 1 to 7 or 14 to 16 of a body, `find_field` that of a walk's one step, as a Place or None; that of 14 to 16 has no offset. The numbers and the values beside
them are the Rust's to say, or a model's; the comparisons put a place behind these words by `with_place`, which also holds the two to each other: they
must have the same number, and the Rust's own offset must be the place, counted from the start of the message that it stands in.
"""

import collections

# The refusal's number, its place (None for 14 to 16), the numbers of the fields around that, the outermost first, and where the innermost of these messages starts.
Place = collections.namedtuple("Place", "number offset fields start")

# The editions of gossipsub, by the numbers that records and calls have for them.
V1_1, V1_2 = EDITIONS = 0, 1

# What is added to an edition where groups are skipped, and all dialects. The flags of a node have the same bit for it.
GROUPS = 2
DIALECTS = V1_1, V1_2, V1_1 | GROUPS, V1_2 | GROUPS


def edition_of(dialect):
    return dialect % 2


def skips_groups(number):
    """Whether a dialect, or the flags of a node, skip groups."""
    return number // GROUPS % 2 == 1


# Which fields of a message are messages, by the edition, and which one is text; with a length before them, both.
MESSAGES = {
    V1_1: {
        "RPC": {1: "SubOpts", 2: "Message", 3: "Control"},
        "Control": {1: "IHave", 2: "IWant", 3: "Graft", 4: "Prune"},
        "Prune": {2: "PeerInfo"},
    },
    V1_2: {
        "RPC": {1: "SubOpts", 2: "Message", 3: "Control"},
        "Control": {1: "IHave", 2: "IWant", 3: "Graft", 4: "Prune", 5: "IDontWant"},
        "Prune": {2: "PeerInfo"},
    },
}
TEXT = {"SubOpts": 2, "Message": 4, "IHave": 1, "Graft": 1, "Prune": 1}

SHORT, OVERFLOW, NOT_MINIMAL, PASSES_END, WIRE_TYPE, FIELD_NUMBER, NOT_UTF8 = range(1, 8)
OTHER_END, TOO_DEEP, LEFT_OPEN = OF_GROUPS = 14, 15, 16
OF_A_BODY = range(SHORT, NOT_UTF8 + 1)
VARINT, EIGHT_BYTES, LENGTH, START_GROUP, END_GROUP, FOUR_BYTES = range(6)
MAX_OPEN = 32  # groups
LAST_FIELD = 2**29 - 1

# Which of the values beside a refusal is the Rust's own offset.
OWN_OFFSET = {PASSES_END: 0, WIRE_TYPE: 1, FIELD_NUMBER: 1, NOT_UTF8: 0}

# Every path that a place can have in an edition, and those of a text in either.
PATHS = {V1_1: [(), (1,), (2,), (3,), (3, 1), (3, 2), (3, 3), (3, 4), (3, 4, 2)]}
PATHS[V1_2] = PATHS[V1_1] + [(3, 5)]
TEXT_PATHS = [(1,), (2,), (3, 1), (3, 3), (3, 4)]


class Found(Exception):
    """A refusal, by its number and its place."""


# --- the finder ------------------------------------------------------------------

def varint_at(body, at, end):
    """The number that starts at a place, and where it ends. It may not pass `end`."""
    some = body[at:min(at + 10, end)]
    size = next((n for n, byte in enumerate(some, 1) if byte < 0x80), 0)
    if len(some) == 10 and size in (0, 10) and some[9] > 1:
        raise Found(OVERFLOW, at)
    if not size:
        raise Found(SHORT, at)
    if size > 1 and not some[size - 1]:
        raise Found(NOT_MINIMAL, at)
    return sum((byte & 0x7F) * 128**n for n, byte in enumerate(some[:size])), at + size


def field_at(body, at, end, groups=None):
    """The field that starts at a place of a message which ends at `end`: (number, wire type, end of its tag, start of what it holds, its end). `groups` are the
    numbers of the groups that are open there, and are kept up; None where groups are refused. A tag that opens or closes one is a field that holds nothing."""
    tag, tag_end = varint_at(body, at, end)
    number, wire = divmod(tag, 8)
    if number < 1 or number > LAST_FIELD:
        raise Found(FIELD_NUMBER, at)
    if groups is not None and wire in (START_GROUP, END_GROUP):
        if wire == START_GROUP:
            groups.append(number)
            if len(groups) > MAX_OPEN:
                raise Found(TOO_DEEP, None)
        elif not groups or groups.pop() != number:
            raise Found(OTHER_END, None)
        return number, wire, tag_end, tag_end, tag_end
    if wire == VARINT:
        return number, wire, tag_end, tag_end, varint_at(body, tag_end, end)[1]
    if wire == LENGTH:
        size, start = varint_at(body, tag_end, end)
    elif wire in (EIGHT_BYTES, FOUR_BYTES):
        size, start = (8 if wire == EIGHT_BYTES else 4), tag_end
    else:
        raise Found(WIRE_TYPE, tag_end)
    if start + size > end:
        raise Found(PASSES_END, start)
    return number, wire, tag_end, start, start + size


def is_text(data):
    try:
        data.decode("utf-8", "strict")
    except UnicodeDecodeError:
        return False
    return True


def find(body, dialect=V1_1):
    """The first refusal in reading order, with the fields around its place, the outermost first; None where there is none."""
    def opened(name, start, end):
        return name, start, end, [] if skips_groups(dialect) else None

    at, path, around, messages = 0, [], [opened("RPC", 0, len(body))], MESSAGES[edition_of(dialect)]
    try:
        while around:
            name, _, end, groups = around[-1]
            if at == end:
                if groups:
                    raise Found(LEFT_OPEN, None)
                around.pop()
                del path[-1:]
                continue
            number, wire, tag_end, start, after = field_at(body, at, end, groups)
            known = wire == LENGTH and not groups
            inner = messages.get(name, {}).get(number) if known else None
            if inner:
                around.append(opened(inner, start, after))
                path.append(number)
                at = start
                continue
            if known and TEXT.get(name) == number and not is_text(body[start:after]):
                raise Found(NOT_UTF8, tag_end)
            at = after
    except Found as found:
        return Place(*found.args, tuple(path), around[-1][1])
    return None


def find_field(body, at, dialect=V1_1):
    """The refusal of the top-level field at a place, for a walk: no field encloses it. A group is one field."""
    groups = [] if skips_groups(dialect) else None
    try:
        if at < len(body):
            *_, at = field_at(body, at, len(body), groups)
        while groups:
            if at == len(body):
                raise Found(LEFT_OPEN, None)
            *_, at = field_at(body, at, len(body), groups)
    except Found as found:
        return Place(*found.args, (), 0)
    return None


# --- the words of a line -----------------------------------------------------------

def words(place):
    """How a line ends that tells a place; 14 to 16 tell none."""
    return "" if place.offset is None else " at %d" % place.offset + "".join(" in" + "".join(" %d" % field for field in fields) for fields in [place.fields] if fields)


def agrees(refused, place):
    """Whether the words of a refusal 1 to 7 or 14 to 16, as the Rust or a model has them, and a place that was found are of one refusal."""
    number, *values = map(int, refused.split(" ")[1:])
    return place is not None and place.number == number and (
        number not in OWN_OFFSET or place.start + values[OWN_OFFSET[number]] == place.offset)


def with_place(refused, found, *given):
    """The words of a refusal, `refused N ..`, and its place, by `find` or `find_field`; other refusals, and None, stay as they are."""
    if refused is None or int(refused.split(" ")[1]) not in (*OF_A_BODY, *OF_GROUPS):
        return refused
    place = found(*given)
    assert agrees(refused, place), "%s, and the finder has %s" % (refused, place)
    return refused + words(place)


def parted(line):
    """A line without its place, and the place's words, "" where there is none."""
    front, at, rest = line.partition(" at ")
    return front, at + rest


# --- rows --------------------------------------------------------------------------

# Bodies and what is told of each, written by hand: the table of the scope, "Where in a body", and what stands beside it.
ROWS = [
    ("80", "refused 1 at 0"),
    ("8000", "refused 3 at 0"),
    ("80" * 9 + "02", "refused 2 at 0"),
    ("00", "refused 6 0 0 at 0"),
    ("0b", "refused 5 3 1 at 1"),
    ("0a0508", "refused 4 2 5 1 at 2"),
    ("08", "refused 1 at 1"),
    ("0a", "refused 1 at 1"),
    ("09", "refused 4 1 8 0 at 1"),
    ("0a000b", "refused 5 3 3 at 3"),
    ("0a01800b", "refused 1 at 2 in 1"),
    ("0a01080a00", "refused 1 at 3 in 1"),
    ("0a031201ff", "refused 7 1 at 3 in 1"),
    ("12032201ff", "refused 7 1 at 3 in 2"),
    ("128001127b" + "00" * 123 + "2201ff", "refused 7 126 at 129 in 2"),
    ("1a001a0180", "refused 1 at 4 in 3"),
    ("1a050a030a01ff", "refused 7 1 at 5 in 3 1"),
    ("1a0422021205", "refused 4 2 5 0 at 6 in 3 4"),
    ("1a06220412020a05", "refused 4 2 5 0 at 8 in 3 4 2"),
    ("1a05220312010b", "refused 5 3 1 at 7 in 3 4 2"),
    ("1a052203120100", "refused 6 0 0 at 6 in 3 4 2"),
]

# More of them: each path with other refusals, a varint of no bytes where another field begins, a field of another type that is not entered, a
# length that passes the end of what encloses it.
MORE_ROWS = [
    ("0a018001", "refused 1 at 2 in 1"),
    ("1a0212051a00", "refused 4 2 5 0 at 4 in 3"),
    ("1a031201800a00", "refused 1 at 4 in 3 2"),
    ("1a061a040a02c080", "refused 7 1 at 5 in 3 3"),
    ("1a0622040a02c080", "refused 7 1 at 5 in 3 4"),
    ("1a0522031a01800a00", None),
    ("1a0412020d00", "refused 4 1 4 1 at 5 in 3 2"),
    ("1a0c0a0a" + "80" * 9 + "02", "refused 2 at 4 in 3 1"),
    ("1a0722051203" + "0a8000", "refused 3 at 7 in 3 4 2"),
    ("1a001a030a0180", "refused 1 at 6 in 3 1"),
    ("12000a0012020a0912", "refused 4 2 9 0 at 8 in 2"),
    ("18001a04220218800a00", "refused 1 at 7 in 3 4"),
    ("1a0212001a041a020c00", "refused 5 4 1 at 9 in 3 3"),
    ("0a06" + "8080808010" + "00", "refused 6 536870912 0 at 2 in 1"),
    ("1a020a00" * 3 + "00", "refused 6 0 12 at 12"),
]

# Bodies about the field that 1.2 adds to a control, and what is told of each in 1.1 and in 1.2; None where it is taken.
EDITION_ROWS = [
    ("1a032a0180", None, "refused 1 at 4 in 3 5"),
    ("1a052a030a0241", None, "refused 4 2 2 1 at 6 in 3 5"),
    ("1a052a030a01ff", None, None),
    ("1a072a030a01412200", None, None),
    ("1a022a001a022200", None, None),
    ("1a022807", None, None),
    ("1a042a021007", None, None),
    # Each other refusal in it, and a second entry, in a second control.
    ("1a0c2a0a" + "80" * 9 + "02", None, "refused 2 at 4 in 3 5"),
    ("1a052a030a8000", None, "refused 3 at 5 in 3 5"),
    ("1a032a010b", None, "refused 5 3 1 at 5 in 3 5"),
    ("1a032a0100", None, "refused 6 0 0 at 4 in 3 5"),
    ("1a032a010d", None, "refused 4 1 4 0 at 5 in 3 5"),
    ("1a022a001a062a002a020a01", None, "refused 4 2 1 0 at 12 in 3 5"),
    # Its ids are no text, and other fields in it are passed over; a field 5 of another type is not entered.
    ("1a062a040a02c080", None, None),
    ("1a072a0512030a0180", None, None),
    ("1a0929" + "80" * 8, None, None),
    ("1a052d80808080", None, None),
    # What is refused before it, and behind it; its own tag and its own length are refused in both.
    ("1a060a01802a0180", "refused 1 at 4 in 3 1", "refused 1 at 4 in 3 1"),
    ("1a042a01800b", "refused 5 3 4 at 6 in 3", "refused 1 at 4 in 3 5"),
    ("1a022a05", "refused 4 2 5 0 at 4 in 3", "refused 4 2 5 0 at 4 in 3"),
    ("1a012a", "refused 1 at 3 in 3", "refused 1 at 3 in 3"),
    ("1a012b", "refused 5 3 1 at 3 in 3", "refused 5 3 1 at 3 in 3"),
    # The number 5 elsewhere: in a message it is the signature, and at the top it is not known.
    ("12032a0180", None, None),
    ("2a0180", None, None),
]

# Bodies with groups, and what is told of each where these are refused and where they are skipped; None where it is taken. In either edition.
DEEP, ENDS = "0b" * 32, "0c" * 32
GROUP_ROWS = [
    ("0b0c", "refused 5 3 1 at 1", None),
    ("1b1c", "refused 5 3 1 at 1", None),
    ("83018401", "refused 5 3 2 at 2", None),
    ("0b13140c", "refused 5 3 1 at 1", None),
    ("0b", "refused 5 3 1 at 1", "refused 16"),
    ("0b0801", "refused 5 3 1 at 1", "refused 16"),
    ("1a010b0c", "refused 5 3 1 at 3 in 3", "refused 16"),
    ("0c", "refused 5 4 1 at 1", "refused 14"),
    ("0b14", "refused 5 3 1 at 1", "refused 14"),
    ("0b130c", "refused 5 3 1 at 1", "refused 14"),
    ("0b0c0c", "refused 5 3 1 at 1", "refused 14"),
    ("12010c", "refused 5 4 1 at 3 in 2", "refused 14"),
    (DEEP + ENDS, "refused 5 3 1 at 1", None),
    ("1a40" + DEEP + ENDS, "refused 5 3 1 at 3 in 3", None),
    (DEEP + "0b" + "0c" + ENDS, "refused 5 3 1 at 1", "refused 15"),
    (DEEP + "0b", "refused 5 3 1 at 1", "refused 15"),
    (DEEP + "03", "refused 5 3 1 at 1", "refused 6 0 32 at 32"),
    (DEEP, "refused 5 3 1 at 1", "refused 16"),
    ("0b04", "refused 5 3 1 at 1", "refused 6 0 1 at 1"),
    ("0b0e", "refused 5 3 1 at 1", "refused 5 6 2 at 2"),
    ("0b0a0508", "refused 5 3 1 at 1", "refused 4 3 5 1 at 3"),
    ("0b08", "refused 5 3 1 at 1", "refused 1 at 2"),
    ("0b80", "refused 5 3 1 at 1", "refused 1 at 1"),
    ("0b8c00", "refused 5 3 1 at 1", "refused 3 at 1"),
    ("12020b0c", "refused 5 3 1 at 3 in 2", None),
    ("12080a01420b0a01410c", "refused 5 3 4 at 6 in 2", None),
    ("1a020b0c", "refused 5 3 1 at 3 in 3", None),
    ("0a050b1201ff0c", "refused 5 3 1 at 3 in 1", None),
    ("0b1096010c1a00", "refused 5 3 1 at 1", None),
    ("2a010b", None, None),
]

# More of them: other refusals in a group, what stands behind one, groups in each message, depth that begins anew, text and messages that are not entered.
MORE_GROUP_ROWS = [
    ("0b0f0c", "refused 5 3 1 at 1", "refused 5 7 2 at 2"),
    ("0b" + "80" * 9 + "02", "refused 5 3 1 at 1", "refused 2 at 1"),
    ("0b08" + "80" * 9 + "02" + "0c", "refused 5 3 1 at 1", "refused 2 at 2"),
    ("0b0a80000c", "refused 5 3 1 at 1", "refused 3 at 2"),
    ("0b090c", "refused 5 3 1 at 1", "refused 4 2 8 1 at 2"),
    ("0b0c80", "refused 5 3 1 at 1", "refused 1 at 2"),
    ("0b0c0a031201ff", "refused 5 3 1 at 1", "refused 7 1 at 5 in 1"),
    ("0a050b0c1201ff", "refused 5 3 1 at 3 in 1", "refused 7 3 at 5 in 1"),
    ("0a070b0c1203ff0c0c", "refused 5 3 1 at 3 in 1", "refused 7 3 at 5 in 1"),
    ("0b12030a01800c", "refused 5 3 1 at 1", None),
    ("0b0a030801800c", "refused 5 3 1 at 1", None),
    ("0b1a022a000c", "refused 5 3 1 at 1", None),
    ("f3ffffff0ff4ffffff0f", "refused 5 3 5 at 5", None),
    ("8380808010", "refused 6 536870912 0 at 0", "refused 6 536870912 0 at 0"),
    ("0b8480808010", "refused 5 3 1 at 1", "refused 6 536870912 1 at 1"),
    ("0c80", "refused 5 4 1 at 1", "refused 14"),
    ("0b0c0b", "refused 5 3 1 at 1", "refused 16"),
    ("0b0c130c", "refused 5 3 1 at 1", "refused 14"),
    ("0b0b0c", "refused 5 3 1 at 1", "refused 16"),
    ("0b0b0c0c", "refused 5 3 1 at 1", None),
    ("0b130c14", "refused 5 3 1 at 1", "refused 14"),
    ("8b000c", "refused 3 at 0", "refused 3 at 0"),
    ("1a042202" + "0b0c", "refused 5 3 1 at 5 in 3 4", None),
    ("1a0622041202" + "0b0c", "refused 5 3 1 at 7 in 3 4 2", None),
    ("1a0522031201" + "0b0c", "refused 5 3 1 at 7 in 3 4 2", "refused 16"),
    ("1a0522031201" + "0c", "refused 5 4 1 at 7 in 3 4 2", "refused 14"),
    ("1a0422020b04", "refused 5 3 1 at 5 in 3 4", "refused 6 0 1 at 5 in 3 4"),
    ("1a0322010b80", "refused 5 3 1 at 5 in 3 4", "refused 16"),
    ("0b1a400c", "refused 5 3 1 at 1", "refused 4 3 64 1 at 3"),
    ("0b" * 31 + "1a02" + "0b0c" + "0c" * 31, "refused 5 3 1 at 1", None),
    ("0b1a40" + DEEP + ENDS + "0c", "refused 5 3 1 at 1", None),
    ("0b0c1a40" + DEEP + ENDS, "refused 5 3 1 at 1", None),
    ("1a42" + DEEP + "0b0c" + ENDS, "refused 5 3 1 at 3 in 3", "refused 15"),
    ("0b" * 31 + "0c" * 31 + DEEP + ENDS, "refused 5 3 1 at 1", None),
    ("0b0c" * 40, "refused 5 3 1 at 1", None),
]
