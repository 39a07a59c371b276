"""The records of the programs, for caches.py, nodes.py, states.py and whys.py.

A record is its content's length, its kind and its content, little-endian. A step is a
call, its numbers and then its bytes.
"""


LENGTHS = (2, 4)  # bytes of the length before the first of two strings; True, which is 1, is none of them


def header(length, kind):
    return length.to_bytes(4, "little") + kind.to_bytes(2, "little")


class Records:
    """The records of one program. `form` has of each call its kind, how many bytes its numbers have, and whether bytes follow them: True, or 2 or 4 for two
    strings of bytes, of which the first has its length before it, in so many bytes. Content above `most` bytes ends a run; `more` has kinds with another most."""

    def __init__(self, form, most, more=None):
        self.form, self.most, self.more = form, most, more or {}
        self.calls = {kind: call for call, (kind, _, _) in form.items()}

    def record(self, step):
        kind, sizes, rest = self.form[step[0]]
        two = rest in LENGTHS
        assert len(step) == 1 + len(sizes) + (2 if two else rest), step[0]
        content = b"".join(n.to_bytes(size, "little") for n, size in zip(step[1:], sizes))
        content += (len(step[-2]).to_bytes(rest, "little") + step[-2] if two else b"") + (step[-1] if rest else b"")
        assert len(content) <= self.more.get(kind, self.most), step[0]
        return header(len(content), kind) + content

    def least(self, call):
        """How many bytes the content of a call has at least."""
        _, sizes, rest = self.form[call]
        return sum(sizes) + (rest if rest in LENGTHS else 0)

    def records(self, steps):
        return b"".join(map(self.record, steps))

    def step_of(self, kind, content):
        """The step of a record, or None where its kind or its length is wrong."""
        if kind not in self.calls:
            return None
        call = self.calls[kind]
        _, sizes, rest = self.form[call]
        if len(content) < self.least(call) or (len(content) > self.least(call) and not rest):
            return None
        step, at = [call], 0
        for size in sizes:
            step.append(int.from_bytes(content[at:at + size], "little"))
            at += size
        if rest in LENGTHS:
            start = at + rest
            at = start + int.from_bytes(content[at:start], "little")
            if at > len(content):
                return None
            step.append(content[start:at])
        return tuple(step + [content[at:]] if rest else step)

    def too_long(self, head):
        """Whether a header, or the start of one, says more than a record may have. The kind counts where it is there."""
        size, kind = int.from_bytes(head[:4], "little"), int.from_bytes(head[4:6], "little")
        return len(head) >= 4 and size > (self.more.get(kind, self.most) if len(head) >= 6 else max(self.most, *self.more.values(), 0))

    def steps(self, data):
        """The steps of an input, one after the other, and then the word that ends it: "", "bad" or "long"."""
        at = 0
        while at < len(data):
            size = int.from_bytes(data[at:at + 4], "little")
            if self.too_long(data[at:at + 6]):
                yield "long"
                return
            step = self.step_of(int.from_bytes(data[at + 4:at + 6], "little"), data[at + 6:at + 6 + size]) if len(data) - at >= 6 + size else None
            if step is None:
                yield "bad"
                return
            yield step
            at += 6 + size
        yield ""
