"""The values of literals, as the Reference has them: https://doc.rust-lang.org/reference/tokens.html#literals"""
from __future__ import annotations

from typing import Any

from rap._library import ffi, lib
from rap.kinds import Kind

STRINGS = frozenset((Kind.STRING, Kind.BYTE_STRING, Kind.C_STRING))
NUMBERS = frozenset((Kind.INT_NUMBER, Kind.FLOAT_NUMBER))
CHARACTERS = frozenset((Kind.CHAR, Kind.BYTE))
WORDS = {Kind.TRUE_KW: True, Kind.FALSE_KW: False}


def _is_value(status: int) -> bool:
    """Whether a call found a value. MemoryError where there was no memory for it."""
    if status == lib.RAP_NO_MEMORY:
        raise MemoryError
    return bool(status == lib.RAP_OK)


def _string(kind: Kind, text: bytes) -> str | bytes | None:
    """What a string stands for. No string stands for more bytes than its text has."""
    room = ffi.new('uint8_t[]', len(text))
    answer = lib.rap_string_value(text, len(text), kind, room, len(text))
    if not _is_value(answer.status):
        return None
    value = bytes(ffi.buffer(room, answer.bytes))
    return value.decode() if kind == Kind.STRING else value


def _number(kind: Kind, text: bytes) -> Any:
    return lib.rap_number_value(text, len(text), kind)


def value_of(kind: Kind, text: bytes) -> str | bytes | int | float | bool | None:
    """What a token of a kind stands for, by its text."""
    if kind in STRINGS:
        return _string(kind, text)
    if kind in WORDS:
        return WORDS[kind]
    if kind not in NUMBERS and kind not in CHARACTERS:
        return None
    answer = _number(kind, text)
    if not _is_value(answer.status):
        return None
    if kind == Kind.FLOAT_NUMBER:
        return float(answer.real)
    value = int(answer.high) << 64 | int(answer.low)
    return chr(value) if kind == Kind.CHAR else value


def suffix_of(kind: Kind, text: bytes) -> str | None:
    """What follows the digits of a number of a kind, if anything does."""
    answer = _number(kind, text) if kind in NUMBERS else None
    if answer is None or not _is_value(answer.status) and answer.status != lib.RAP_NO_NUMBER:
        return None
    return text[answer.suffix:].decode() or None
