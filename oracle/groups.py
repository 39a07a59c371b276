"""Bodies in every dialect: a reader that skips groups, and the lines of `inspect` 21 to 25.

The Rust refuses groups, so the mode in which they are skipped is compared with this model. It is
written from the document on the encoding of Protocol Buffers, which has

    message := (tag value)*
    value   := varint | i32 | i64 | len-prefix | <empty> for SGROUP and EGROUP

and says of a group that it is what stands between a start tag and an end tag of the same number. So a
message is read here as one list of tags and values, and the groups that are open are a stack of numbers;
the library's reader, and nodes.py, have two functions that call each other instead. How deep groups may
be and what is refused is the scope's. All else is editions.py: the messages, the records, what is
written anew. Where groups are refused, its answers are the ones here, too.

A case is (call, body, place), where the call is one of decode, encode, sign and id, with an index, or
walk, with a place. `lines` gives what the program prints for it, the first line without its number.
"""

import editions
from editions import MAX_BODY, Message, Refused
from places import edition_of, skips_groups

SGROUP, EGROUP = 3, 4
DEEPEST = 32
END_GROUP, GROUP_DEPTH, GROUP_OPEN = 14, 15, 16


class Reader(editions.Reader):
    """Reads a body in an edition, and skips groups."""

    def record(self, at, start, end, path):
        """A tag and its value, which is empty for a start tag and an end tag: as `field` gives it."""
        tag, tag_end = self.varint(at, end, path)
        number, kind = tag >> 3, tag & 7
        if kind in (SGROUP, EGROUP) and 1 <= number < 2**29:
            return number, kind, tag_end, tag_end, tag_end
        return self.field(at, start, end, path)

    def message(self, kind, start, end, path=()):
        fields, at, opened = [], start, ()
        while at < end:
            number, wire, *places = self.record(at, start, end, path)
            if wire in (SGROUP, EGROUP):
                opened = moved(opened, number, wire)
            elif not opened:
                fields += self.taken(kind, number, wire, places, start, end, path)
            at = places[-1]
        if opened:
            raise Refused(GROUP_OPEN)
        return Message(kind, self.body[start:end], fields)


def moved(opened, number, wire):
    """Which groups are open after a start tag or an end tag."""
    if wire == SGROUP:
        if len(opened) == DEEPEST:
            raise Refused(GROUP_DEPTH)
        return *opened, number
    if opened[-1:] != (number,):
        raise Refused(END_GROUP)
    return opened[:-1]


def reader_of(dialect):
    return Reader if skips_groups(dialect) else editions.Reader


def read(body, dialect):
    """The RPC that a body is in a dialect, within the limits; or Refused."""
    return editions.read(body, edition_of(dialect), reader_of(dialect))


# --- the walk ------------------------------------------------------------------------

def step(body, place, dialect):
    """(number, type, where its tag ends, where the next begins) of the top-level field at a place, or None at the end. A group is one field."""
    if len(body) > MAX_BODY:
        raise Refused(10, (len(body),))
    if place >= len(body):
        return None
    reader, end, opened = reader_of(dialect)(body, edition_of(dialect)), len(body), ()
    if not skips_groups(dialect):
        number, wire, tag_end, _, after = reader.field(place, 0, end, ())
        return number, wire, tag_end, after
    first, at = None, place
    while first is None or opened:
        if at == end:
            raise Refused(GROUP_OPEN)
        number, wire, tag_end, _, at = reader.record(at, 0, end, ())
        first = first or (number, wire, tag_end)
        if wire in (SGROUP, EGROUP):
            opened = moved(opened, number, wire)
    return *first, at


# --- the lines -------------------------------------------------------------------------

def walk_line(body, place, dialect):
    try:
        found = step(body, place, dialect)
        return "walk " + (" ".join(map(str, found)) if found else "end")
    except Refused as why:
        return "walk %s" % why


def lines(case, dialect, read=read):
    """The lines of a case. `read` may be one that remembers what it has read."""
    call, body, place = case
    if call == "walk":
        return [walk_line(body, place, dialect)]
    return editions.lines(case, edition_of(dialect), lambda body, _: read(body, dialect))


# --- what holds between the modes ---------------------------------------------------------

def differ(line):
    """Whether a first line that was printed where groups are refused may be another where they are skipped: it is refused for the type 3 or 4."""
    return " refused 5 3 " in line or " refused 5 4 " in line
