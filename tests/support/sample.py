"""The replayed sample, the names of the entries, and the hash of a tree's lines."""
import re
from collections.abc import Iterator

from support import TOP

SAMPLE = f'{TOP}/crates/rast_replay/data/texts.txt'

# The entries, in the order of their numbers in include/rap.h.
TOPS = ['SourceFile', 'MacroStmts', 'MacroItems', 'Pattern', 'Type', 'Expr', 'MetaItem']
PREFIXES = ['Vis', 'Block', 'Stmt', 'Pat', 'PatTop', 'Ty', 'Expr', 'Path', 'Item', 'MetaItem']

LETTERS = {'n': '\n', 'r': '\r', 't': '\t', '0': '\0'}

# The line, the edition, how the text is read, and the text.
Row = tuple[str, str, str, str]


def unquoted(quoted: str) -> str:
    """The text in these quotes."""
    def plain(found: re.Match[str]) -> str:
        code, letter = found.groups()
        return chr(int(code, 16)) if code else LETTERS.get(letter, letter)
    return re.sub(r'\\(?:u\{([0-9a-f]+)\}|(.))', plain, quoted[1:-1])


def fnv1a(data: bytes) -> int:
    """The FNV-1a hash, of 64 bits."""
    value = 0xcbf29ce484222325
    for byte in data:
        value = (value ^ byte) * 0x100000001b3 % 2 ** 64
    return value


def lines_of(file: str) -> list[str]:
    """The lines of a file, whose line feeds alone part them."""
    with open(file, encoding='utf-8', newline='') as lines:
        return lines.read().split('\n')


def rows() -> Iterator[Row]:
    """The rows of the replayed sample."""
    for line in lines_of(SAMPLE):
        if line:
            edition, way, _hash, text = line.split(' ', 3)
            yield line, edition, way, unquoted(text)


def longest_rows() -> list[Row]:
    """For each way of reading the row with the longest text."""
    found: dict[str, Row] = {}
    for row in rows():
        if row[2] not in found or len(row[3]) > len(found[row[2]][3]):
            found[row[2]] = row
    return list(found.values())


def shortest_rows() -> list[Row]:
    """For each way of reading the row with the shortest text that is not empty."""
    found: dict[str, Row] = {}
    for row in rows():
        if row[3] and (row[2] not in found or len(row[3]) < len(found[row[2]][3])):
            found[row[2]] = row
    return list(found.values())
