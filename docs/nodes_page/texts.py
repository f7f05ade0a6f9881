"""Texts that the parser takes without a message and Rust does not: texts.txt beside this file."""
import os
import re
import sys
from typing import NamedTuple

FILE = f'{os.path.dirname(os.path.abspath(__file__))}/texts.txt'
ROW = re.compile(r'(\w+) \| (.+?) +\| (.+?) +\| (\w+) (.+)')


class Text(NamedTuple):
    """A text with its entry, what is not Rust in it, and a node of its tree: its kind, and its children as they are
    written."""
    entry: str
    text: str
    what: str
    kind: str
    children: list[str]


def read_texts() -> list[Text]:
    """The rows of the file. Stops at one that is none."""
    found = []
    with open(FILE, encoding='utf-8') as lines:
        for line in lines:
            row = ROW.fullmatch(line.rstrip())
            if row:
                found.append(Text(row[1], row[2], row[3], row[4], row[5].split()))
            elif line.strip() and line[0] != '#':
                sys.exit(f'docs/nodes_page/texts.txt: no row: {line.rstrip()}')
    return found
