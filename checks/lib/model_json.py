"""What docs/protocol.md says of bodies in general: JSON, and how its fields are read and refused.

A part of the model that `checks/fuzz` holds the program against; it is no check of its own.
"""
import base64
import json
import math
import re

from lib.model_heads import Refused

MOST_DEPTH = 127
LEAST_WHOLE, MOST_WHOLE = -(1 << 63), (1 << 64) - 1
DIGITS = re.compile(r"-?(?:0|[1-9][0-9]*)")
SURROGATE = re.compile("[\ud800-\udfff]")
ESCAPED_SURROGATE = re.compile(r"\\u[dD][89a-fA-F]")
NAME = re.compile(r"[A-Za-z0-9._-]*")
DIGEST = re.compile(r"[0-9a-f]{64}")
DIMENSION_KEY = re.compile(r"[A-Za-z._-][A-Za-z0-9._-]{0,63}")
CONTROL = re.compile("[\0-\x1f\x7f]")


class Float:
    """A number that is not read as a whole one."""


def bad(field, rule):
    return Refused(400, "bad_field", field=field, rule=rule)


def whole(text):
    if math.isinf(float(text)):
        raise ValueError("beyond a double")
    if text == "-0" or len(text) > 21 or not LEAST_WHOLE <= int(text) <= MOST_WHOLE:
        return Float
    return int(text)


def real(text):
    if math.isinf(float(text)):
        raise ValueError("beyond a double")
    return Float


def no_constant(text):
    raise ValueError(text)


def is_too_deep(text):
    depth = 0
    for found in re.finditer(r'"(?:[^"\\]|\\.)*"|[\[{]|[\]}]', text, re.DOTALL):
        if found.group() in "[{":
            depth += 1
            if depth > MOST_DEPTH:
                return True
        elif found.group() in "]}":
            depth -= 1
    return False


def with_surrogate(value):
    if isinstance(value, str):
        return bool(SURROGATE.search(value))
    if isinstance(value, list):
        return any(with_surrogate(it) for it in value)
    if isinstance(value, dict):
        return any(with_surrogate(key) or with_surrogate(it) for key, it in value.items())
    return False


def pairs(items):
    # A key that comes twice counts as its last value; a lone surrogate in one that is dropped counts too.
    if any(with_surrogate(key) or with_surrogate(value) for key, value in items):
        raise ValueError("surrogate")
    return dict(items)


NUMBERS = {"parse_int": whole, "parse_float": real, "parse_constant": no_constant}
PLAIN, WITH_SURROGATES = json.JSONDecoder(**NUMBERS), json.JSONDecoder(object_pairs_hook=pairs, **NUMBERS)


def read_json(body):
    """The value that a body is."""
    try:
        text = body.decode("utf-8")
        if is_too_deep(text):
            raise ValueError("depth")
        # White space of JSON alone; the decoder itself takes none before a value.
        text = text.strip(" \t\r\n")
        if not ESCAPED_SURROGATE.search(text):
            return PLAIN.decode(text)
        value = WITH_SURROGATES.decode(text)
        if with_surrogate(value):
            raise ValueError("surrogate")
        return value
    except (ValueError, RecursionError):
        raise Refused(400, "bad_json") from None


def read_object(body):
    value = read_json(body)
    if not isinstance(value, dict):
        raise bad("", "type")
    return value


# How a field is read, by the rules `missing` and `type`.

def has(item, key):
    return item.get(key) is not None


def required(item, key, path):
    if not has(item, key):
        raise bad(path, "missing")


def text_of(item, key, path):
    value = item.get(key)
    if value is None:
        return ""
    if not isinstance(value, str):
        raise bad(path, "type")
    return value


def required_text(item, key, path):
    required(item, key, path)
    return text_of(item, key, path)


def truth_of(item, key, path):
    value = item.get(key)
    if value is None:
        return False
    if not isinstance(value, bool):
        raise bad(path, "type")
    return value


def number_of(item, key, path, absent=0):
    value = item.get(key)
    if value is None:
        return absent
    if isinstance(value, str) and DIGITS.fullmatch(value) and value != "-0" and len(value.lstrip("-")) <= 20:
        return int(value)
    if isinstance(value, int) and not isinstance(value, bool):
        return value
    raise bad(path, "type")


def list_of(item, key, path):
    value = item.get(key)
    if value is None:
        return []
    if not isinstance(value, list):
        raise bad(path, "type")
    return value


def required_list(item, key, path):
    required(item, key, path)
    return list_of(item, key, path)


def object_of(value, path):
    if not isinstance(value, dict):
        raise bad(path, "type")
    return value


# The other rules.

def size(text):
    return len(text.encode())


def check_count(number, least, most, path):
    if not least <= number <= most:
        raise bad(path, "count")


def check_range(number, least, most, path):
    if not least <= number <= most:
        raise bad(path, "range")


def check_name(text, path):
    check_count(size(text), 1, 64, path)
    if not NAME.fullmatch(text):
        raise bad(path, "grammar")


def check_digest(text, path):
    if not DIGEST.fullmatch(text):
        raise bad(path, "grammar")


def check_path(text, path):
    check_count(size(text), 1, 255, path)
    if CONTROL.search(text) or "\\" in text or any(part in ("", ".", "..") for part in text.split("/")):
        raise bad(path, "grammar")


def is_dimension_value(text):
    return 1 <= size(text) <= 256 and not CONTROL.search(text)


def read_base64(text, path):
    """The bytes of a text in standard base64 with its padding."""
    if not re.fullmatch(r"(?:[A-Za-z0-9+/]{4})*(?:[A-Za-z0-9+/]{2}==|[A-Za-z0-9+/]{3}=)?", text):
        raise bad(path, "grammar")
    value = base64.b64decode(text)
    if base64.b64encode(value).decode() != text:
        raise bad(path, "grammar")
    return value


# Compact JSON with sorted keys, as replies have it.

def write_json(value):
    return json.dumps(value, ensure_ascii=False, separators=(",", ":"), sort_keys=True).encode()
