"""Values that the fuzz sends: JSON whose objects may have a key twice, odd values, and what breaks a body.

A part of `checks/fuzz`; it is no check of its own.
"""
import json


class Pairs(list):
    """An object as a list of its keys and values, in the order in which they are written."""

    def __init__(self, items=(), **more):
        super().__init__([*items, *more.items()])

    def get(self, key):
        return next((value for it, value in reversed(self) if it == key), None)


class Raw(str):
    """JSON that is written as it stands."""


ODD_NUMBERS = [
    0, 1, -1, 2, 7, 49, 50, 51, 59, 60, 61, 199, 200, 201, 255, 256, 300, 600, 1199, 1200, 1201, 3600, 3601, 32768, 65535, 65536, 65537,
    604800, 604801, 262144, 262145, 1048576, 1048577, 16777216, 16777217, 67108864, 67108865, (1 << 31) - 1, 1 << 31, -(1 << 31), -(1 << 31) - 1,
    1 << 40, (1 << 40) + 1, 1 << 53, (1 << 53) + 1, (1 << 63) - 1, 1 << 63, -(1 << 63), -(1 << 63) - 1, (1 << 64) - 1, 1 << 64, 10 ** 20, 10 ** 300,
]
ODD_TEXTS = [
    "", "a", "-", "_", ".", "..", "/", "a/b", "a//b", "a/", "/a", "./a", "a/../b", "a\\b", "0", "-1", "00", "01", "-0", "+1", "1.0", "255", "256",
    "99999999999999999999", "100000000000000000000", "-99999999999999999999", "ALL", "PENDING", "pending", "NO_RESOURCE", "x y", " x", "x ", "a|b",
    "a||b", "|", "a| b", "a |b", "\0", "\x01", "\x1f", "\x7f", "\t", "\n", "\"", "\u20ac", "\U0001f600",
    "\u00e9", "x" * 63, "x" * 64, "x" * 65, "x" * 127, "x" * 128, "y" * 255, "y" * 256, "y" * 257, "\u00e9" * 128, "\u00e9" * 129,
    "z" * 4096, "z" * 4097, "aGk=", "aGk", "aGl=", "aGlp", "a===", "====", "aG k", "aGk=\n", "-_-_", "1" * 64, "g" * 64, "A" * 64, "f" * 63, "f" * 65,
]
ODD_RAW = [Raw(it) for it in (
    "1.0", "1e2", "1E2", "-0", "-0.0", "0.0", "0e0", "1e308", "1e309", "-1e400", "1e-400", "1.5", "01", "+1", ".5", "1.", "1e", "NaN", "Infinity", "-Infinity",
    "\"\\ud800\"", "\"\\udc00\\ud800\"", "\"\\ud83d\\ude00\"", "\"\\u0000\"", "\"\\u00\"", "\"\\x\"", "\"\\/\"", "\"a", "'a'", "tru", "nul",
    "{", "[", "]", "[1,]", "{\"a\":1,}",
    "\"\t\"", "\"\\t\"", "[[[[]]]]", "{\"a\":{\"b\":null}}", "/* */1", "\"\x7f\"", "--1", "0x10",
    "1_000", "\"\\U0041\"", "\"\\u0041\"", "\"\\ud83d\"", "\"\\uD83D\\uDE00\"", "-", "1" * 309, "1" * 400,
)]


def odd_value(random):
    """A value that most fields don't take."""
    kind = random.randrange(12)
    if kind < 3:
        return random.choice(ODD_NUMBERS)
    if kind < 6:
        return random.choice(ODD_TEXTS)
    if kind < 7:
        return random.choice(ODD_RAW)
    if kind < 9:
        return random.choice([None, True, False, [], Pairs()])
    if kind < 10:
        return [odd_value(random) for _ in range(random.randrange(1, 4))]
    if kind < 11:
        return Pairs([(random.choice(["a", "key", "value", "name", "path", "digest", "x"]), odd_value(random))])
    return str(random.choice(ODD_NUMBERS))


def write_text(random, text):
    """A text in JSON, with some of its characters escaped."""
    if random.random() < 0.97:
        return json.dumps(text, ensure_ascii=False)
    return json.dumps(text) if random.random() < 0.5 else "\"" + "".join(f"\\u{ord(it):04x}" if ord(it) < 65536 else it for it in text) + "\""


def write(random, value, spaces=False):
    """The value as JSON; `spaces` puts white space between its parts."""
    def gap():
        return random.choice(["", "", " ", "\n", "\r\n", "\t"]) if spaces else ""

    if isinstance(value, Raw):
        return str(value)
    if isinstance(value, str):
        return write_text(random, value)
    if isinstance(value, Pairs):
        items = [gap() + write_text(random, key) + gap() + ":" + gap() + write(random, it, spaces) + gap() for key, it in value]
        return "{" + (",".join(items) or gap()) + "}"
    if isinstance(value, list):
        return "[" + (",".join(gap() + write(random, it, spaces) + gap() for it in value) or gap()) + "]"
    return json.dumps(value)


def nodes_of(value):
    """Each list and object of a value."""
    if isinstance(value, list):
        yield value
        for it in value:
            yield from nodes_of(it[1] if isinstance(value, Pairs) else it)


def break_value(random, value):
    """Changes a body at one place, or at a few."""
    for _ in range(random.choice([1, 1, 1, 2, 3])):
        nodes = list(nodes_of(value))
        if not nodes:
            return
        # The inner ones are many, so the outer ones are taken more often than by their number.
        node = nodes[0] if random.random() < 0.35 else random.choice(nodes)
        break_node(random, node)


def break_node(random, node):
    kind = random.randrange(8)
    at = random.randrange(len(node)) if node else 0
    if isinstance(node, Pairs):
        if kind == 0 or not node:
            key = random.choice(["foo", "", "a.b", "zz", "\u00e9", "command", "key", "Name", "X"])
            node.insert(random.randrange(len(node) + 1), (key, random.choice([None, 1, "x", [], Pairs()])))
        elif kind == 1:
            del node[at]
        elif kind == 2:
            node.insert(random.randrange(len(node) + 1), (node[at][0], odd_value(random)))
        elif kind == 3:
            random.shuffle(node)
        else:
            node[at] = (node[at][0], odd_value(random))
        return
    if kind == 0 or not node:
        node.insert(at, odd_value(random))
    elif kind == 1:
        del node[at]
    elif kind < 5:
        node.insert(random.randrange(len(node) + 1), node[at])
    elif kind == 5 and len(node) < 10:
        node[:] = node * random.choice([2, 9, 33, 65, 70])
    else:
        node[at] = odd_value(random)


def break_bytes(random, text):
    """Changes some bytes of a body."""
    text = bytearray(text)
    for _ in range(random.choice([1, 1, 2, 5])):
        at = random.randrange(len(text) + 1)
        kind = random.randrange(4)
        if kind == 0:
            text[at:at] = bytes([random.choice(b"{}[]\",:0 \n\\x\x00\x80\xff\xc3")])
        elif kind == 1:
            del text[at:at + random.choice([1, 1, 3, 20])]
        elif kind == 2 and at < len(text):
            text[at] = random.randrange(256)
        else:
            text[at:at] = text[at:at + random.choice([1, 5, 30])]
    return bytes(text)
