"""The heads of the requests that the fuzz makes, and what breaks a head.

A part of `checks/fuzz`; it is no check of its own.
"""
from lib.fuzz_calls import CALLERS

METHODS = ["GET", "PUT", "POST", "DELETE", "OPTIONS", "post", "G", "HEAD", "HEAD", "HEAD"]
VERSIONS = [b"1.0", b"1.0", b"1.2", b"2.0", b"1.", b"11", b"0.9"]
TARGETS = ["/", "*", "/blobs/", "/blobs/a/b/c", "/blobs//a", "/nowhere", "/bot/poll#"]
FURTHER_FIELDS = [
    ("Host", b" lab"), ("Expect", b"100-continue"), ("accept", b""), ("X-Swarming-Front", b" 7"), ("Connection", b" keep-alive"),
]
ODD_FIELDS = [
    ("Content-Length", b" 1"), ("Content-Length", b" x"), ("Content-Length", b" 0000000000"), ("Content-Length", b" 00000000000"),
    ("Content-Length", b" +1"), ("Content-Length", b" 65537"), ("Content-Length", b" 16777217"), ("Content-Length", b""),
    ("Transfer-Encoding", b" chunked"), ("Transfer-Encoding", b""),
    ("Connection", b" close"), ("Connection", b" keep-alive, CLOSE"), ("Connection", b" closed"),
    ("X-Swarming-Caller", b" eve"), ("X-Swarming-Caller", b""), ("X-Swarming-Caller", b" " + b"c" * 129),
    ("X-Swarming-Caller", b" " + b"c" * 128), ("X-Swarming-Caller", b" a b"),
    ("X-Swarming-After", b" x"), ("X-Swarming-After", b" 1"), ("X-Swarming-After", b" " + b"0" * 19),
    ("X-Swarming-After", b" " + b"0" * 20), ("X-Swarming-After", b""),
    ("a b", b" c"), ("", b" c"), ("folded", b" a\r\n b"), ("control", b" \x01"), ("high", b" \xc3\xa9"), ("tab", b" a\tb"),
    ("delete", b" \x7f"), ("many", b" a" + b"\r\nmany: a" * 61), ("few", b" a" + b"\r\nfew: a" * 59), ("long", b" " + b"l" * 16300),
]
FIRST_BYTES = [b"\r\n", b"\n", b"\r\n\r\n", b" ", b"\r"]
NO_HEADS = [b"", b"GET / HTTP/1.1\r\n", b"X" * 20000]


def written(method, target, version, fields, end=b"\r\n"):
    lines = [b"%s %s HTTP/%s" % (method.encode(), target.encode(), version)]
    lines += [name.encode() + b":" + value for name, value in fields]
    return end.join(lines) + b"\r\n\r\n"


class Heads:
    """Makes heads."""

    def __init__(self, random):
        self.random = random

    def chance(self, share):
        return self.random.random() < share

    def fields(self, body, method, some_pool):
        caller = self.random.choice(CALLERS) if self.chance(0.5) else "ana"
        found = [("X-Swarming-Caller", b" " + caller.encode())]
        if body or method != "GET":
            found.append(("Content-Length", b" %d" % len(body)))
        if self.chance(0.06):
            after = max(0, some_pool().front() + self.random.choice([-2, -1, 0, 0, 1, 5]))
            found.append(("X-Swarming-After", b" %d" % after))
        if self.chance(0.1):
            found.append(self.random.choice(FURTHER_FIELDS))
        if self.chance(0.1):
            self.random.shuffle(found)
            found = [self.in_another_form(*it) for it in found]
        return found

    def in_another_form(self, name, value):
        return self.random.choice([str.lower, str.upper, str])(name), self.random.choice([value, value.strip(), b"\t" + value + b" "])

    def broken(self, method, target, fields):
        kind = self.random.randrange(9)
        if kind == 0:
            return written(self.method(), target, b"1.1", fields)
        if kind == 1:
            others = [target + "/", target + "?", target[1:], target[:-1] or "/", target.upper(), "http://lab" + target]
            return written(method, self.random.choice(others + TARGETS), b"1.1", fields)
        if kind == 2:
            return written(method, target, self.random.choice(VERSIONS), fields)
        if kind in (3, 4):
            return written(self.method() if self.chance(0.2) else method, target, b"1.1", self.broken_fields(fields))
        if kind == 5:
            return written(method, target, b"1.1", fields, end=b"\n")
        if kind == 6:
            return self.random.choice(FIRST_BYTES) + written(method, target, b"1.1", fields)
        if kind == 7:
            return self.random.choice(NO_HEADS) + b"\r\n\r\n"
        text = bytearray(written(method, target, b"1.1", fields))
        text[self.random.randrange(len(text) - 4)] = self.random.choice([0, 9, 10, 13, 32, 58, 127, 200, self.random.randrange(33, 127)])
        return bytes(text)

    def method(self):
        return self.random.choice(METHODS)

    def broken_fields(self, fields):
        extra = self.random.choice(ODD_FIELDS)
        kept = [it for it in fields if it[0].lower() != extra[0].lower() or self.chance(0.4)]
        if self.chance(0.15) and kept:
            kept.remove(self.random.choice(kept))
        kept.insert(self.random.randrange(len(kept) + 1), extra)
        return kept
