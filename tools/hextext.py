"""Bytes as people write them: hex words, HEX*TIMES, peer:KEY, $NAME, @FILE; topics as text. For tools/trace, tools/inspect and tools/why."""

import os
import re

MOST_TIMES = 65536
MOST_BYTES = 2**24
CUT_TEXT = 28
TOO_MANY = "the bytes are above %d" % MOST_BYTES

# The peer id of an Ed25519 key is this and the key's 32 bytes: identity, 36 bytes; type 1, 32 bytes of data.
PEER = "peer:"
BEFORE_KEY = bytes.fromhex("00 24 08 01 12 20")
KEY_SIZE = 32


class Mistake(Exception):
    """Something in the text that is not as it should be."""


def cut(text, most):
    return text if len(text) <= most else text[:most].rstrip() + ".."


def number(word, name, most):
    if not re.fullmatch("[0-9]{1,20}", word) or int(word) > most:
        raise Mistake("%s is '%s': expected %s" % (name, cut(word, CUT_TEXT), "0 or 1" if most == 1 else "a number from 0 to %d" % most))
    return int(word)


def no_file(name, folder=""):
    return "no file '%s'%s" % (name, "" if os.path.isabs(name) else " in %s" % (folder or "this folder"))


BESIDE = "@FILE with a path from the trace's folder"


def file_bytes(name, folder, wanted=BESIDE):
    try:
        with open(os.path.join(folder, name), "rb") as file:
            data = file.read(MOST_BYTES + 1)
    except FileNotFoundError:
        raise Mistake("%s: expected %s" % (no_file(name, folder), wanted)) from None
    except OSError as why:
        raise Mistake("cannot read the file '%s': %s" % (name, why.strerror)) from None
    except ValueError:
        raise Mistake("the file's name '%s' has a zero byte: expected %s" % (name.replace("\0", "\ufffd"), wanted)) from None
    if len(data) > MOST_BYTES:
        raise Mistake("the file '%s' has above %d bytes" % (name, MOST_BYTES))
    return data


def hexed(word, whole):
    bad = re.search("[^0-9a-fA-F]", word)
    if bad:
        raise Mistake("'%s' is no hex (its character %d is '%s'): expected two hex digits for each byte, HEX*TIMES, peer:KEY, $NAME, or @FILE alone"
                      % (cut(whole, CUT_TEXT), bad.start() + 1, bad.group()))
    if len(word) % 2:
        raise Mistake("'%s' has an odd number of hex digits: expected two for each byte" % cut(whole, CUT_TEXT))
    return bytes.fromhex(word)


def peer_bytes(word, names):
    key = word_bytes(word[len(PEER):], names)
    if len(key) != KEY_SIZE:
        raise Mistake("the key in '%s' has the length %d: expected the %d bytes of an Ed25519 key" % (cut(word, CUT_TEXT), len(key), KEY_SIZE))
    return BEFORE_KEY + key


def word_bytes(word, names):
    if word.startswith(PEER):
        return peer_bytes(word, names)
    if word.startswith("$"):
        if word[1:] not in names:
            raise Mistake("no name '%s': expected a line `let %s BODY` before this one" % (word, word[1:] or "NAME"))
        return names[word[1:]]
    one, star, times = word.partition("*")
    if not star:
        return hexed(word, word)
    data, count = hexed(one, word), number(times, "TIMES", MOST_TIMES)
    if len(data) * count > MOST_BYTES:
        raise Mistake(TOO_MANY)
    return data * count


def joined(words, names):
    """The bytes of some words; each is a text, and the place to name where it is wrong, or nothing."""
    out = bytearray()
    for word, place in words:
        try:
            out += word_bytes(word, names)
            if len(out) > MOST_BYTES:
                raise Mistake(TOO_MANY)
        except Mistake as why:
            raise Mistake("%s: %s" % (place, why) if place else str(why)) from None
    return bytes(out)


def body_bytes(text, folder, names, wanted=BESIDE):
    """A body as a line of a trace has it: nothing or -, @FILE, or words."""
    if text in ("", "-"):
        return b""
    if text.startswith("@"):
        return file_bytes(text[1:], folder, wanted)
    return joined(((word, "") for word in text.split()), names)


def topic_bytes(text, folder, names, wanted=BESIDE):
    """A topic: text as it stands, nothing or -, @FILE, or =BODY."""
    if text.startswith("="):
        return body_bytes(text[1:].strip(), folder, names, wanted)
    return text.encode() if text != "-" and not text.startswith("@") else body_bytes(text, folder, names, wanted)
