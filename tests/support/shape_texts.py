"""Texts of the repository whose trees are held to the shapes of nodes."""
import glob
import os
import re
import sys

from nodes_page.texts import Text as OddText, read_texts
from support import TOP
from support.shape_trees import Text
from support.texts import rows_of_tables

EDITION = '2024'

# A row of tests/tight.texts.
ROW = re.compile(r'(?:(20\d\d) )?(\w+) \| (.+)')


def tight_texts() -> list[Text]:
    """The rows of tests/tight.texts. Stops at one that is none."""
    found = []
    with open(f'{TOP}/tests/tight.texts', encoding='utf-8') as lines:
        for number, line in enumerate(lines, 1):
            row = ROW.fullmatch(line.rstrip())
            if row:
                name = f'tests/tight.texts, line {number}'
                found.append(Text(name, row[1] or EDITION, row[2], row[3].replace('¶', '\n').encode()))
            elif line.strip() and line[0] != '#':
                sys.exit(f'tests/tight.texts: no row: {line.rstrip()}')
    return found


def odd_texts() -> list[tuple[OddText, Text]]:
    """The rows of docs/nodes_page/texts.txt, each with its text."""
    return [(it, Text(it.text, EDITION, it.entry, it.text.encode())) for it in read_texts()]


def table_texts() -> list[Text]:
    """The texts of the tables of crates/rast_rows, of which many are wrong. Each stands once for an entry."""
    rows = dict.fromkeys(rows_of_tables())
    return [Text(text, edition, entry, text.encode()) for edition, entry, text in rows]


def file_texts(edition: str, files: list[str]) -> list[Text]:
    """Files. One that cannot be read is left out."""
    found = []
    for file in files:
        if os.path.isfile(file):
            with open(file, 'rb') as data:
                found.append(Text(file.removeprefix(f'{TOP}/'), edition, 'SourceFile', data.read()))
    return found


def data_files() -> list[str]:
    """The files in Rust that the programs are tried with, and those of the packages."""
    names = 'crates/*/data/*.rs', 'bindings/*/src/**/*.rs'
    return sorted(file for it in names for file in glob.glob(f'{TOP}/{it}', recursive=True))
