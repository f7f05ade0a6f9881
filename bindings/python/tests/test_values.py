"""The values of literals: a table by hand, and texts whose escapes are written here."""
import pytest
from hypothesis import given
from hypothesis import strategies as st

import rap

# The text of a token, what it stands for, and its suffix.
CASES: list[tuple[str, str | bytes | int | float | None, str | None]] = [
    ('"a\\n\\u{e9}"', 'a\né', None),
    ('"a\\\n   b"x', 'ab', None),
    ('r#"\\n"#', '\\n', None),
    ('b"\\xff\\0"', b'\xff\0', None),
    ('br"\\x"', b'\\x', None),
    ('c"\\xff\u00e9"', b'\xff\xc3\xa9', None),
    ("'\\''", "'", None),
    ("b'\\n'", 10, None),
    ('1_000', 1000, None),
    ('0xff_u8', 255, 'u8'),
    ('0o17', 15, None),
    ('0b12u8', None, 'u8'),
    ('1f32', 1, 'f32'),
    (str(2 ** 128 - 1), 2 ** 128 - 1, None),
    (str(2 ** 128), None, None),
    ('1_5.25e-1f32', 1.525, 'f32'),
    ('2.', 2.0, None),
    ('1e', None, None),
    ('"\\q"', None, None),
    ("''", None, None),
    ('c"\\0"', None, None),
    ('true', True, None),
    ('x', None, None),
    (' ', None, None),
]


@pytest.mark.parametrize(('text', 'value', 'suffix'), CASES)
def test_values(text: str, value: str | bytes | int | float | None, suffix: str | None) -> None:
    [token] = rap.tokens(text)
    assert (token.value, token.suffix) == (value, suffix) and type(token.value) is type(value)


@given(st.text())
def test_escapes_of_texts(text: str) -> None:
    [token] = rap.tokens('"' + ''.join(f'\\u{{{ord(it):_x}}}' for it in text) + '"')
    assert token.value == text


@given(st.binary())
def test_escapes_of_bytes(value: bytes) -> None:
    [token] = rap.tokens('b"' + ''.join(f'\\x{it:02x}' for it in value) + '"')
    assert token.value == value


@given(st.integers(0, 2 ** 128 - 1), st.sampled_from('box'))
def test_integers(value: int, base: str) -> None:
    [token] = rap.tokens(f'0{base}{value:_{base}}')
    assert token.value == value


@given(st.floats(0, allow_nan=False, allow_infinity=False))
def test_floats(value: float) -> None:
    text = repr(abs(value))
    [token] = rap.tokens(text if '.' in text else text.replace('e', '.0e'))
    assert token.value == value
