"""The rows of the core grammar, as docs/core_page has them, and the tests in them."""
import sys
from dataclasses import dataclass
from typing import Any

from support import TOP

sys.path.insert(1, f'{TOP}/docs')

from core_page.table import Table  # type: ignore[import]  # noqa: E402

# A row of the table, and a piece of one.
Piece = tuple[Any, ...]
Row = tuple[Piece, ...]


@dataclass(frozen=True)
class Record:
    """A token of the input: its kind, the word that it may be read as, and whether it touches the next one."""
    kind: int
    word: int
    joint: bool


class Kinds:
    """The kinds, as crates/rap_base/kinds.txt lists them."""

    def __init__(self) -> None:
        self.numbers: dict[str, int] = {}
        self.names: dict[int, str] = {}
        self.words: dict[str, int] = {}
        self.texts: dict[int, str] = {}
        self.reserved: dict[int, str] = {}
        with open(f'{TOP}/crates/rap_base/kinds.txt', encoding='utf-8') as lines:
            for line in lines:
                number, *parts = line.split() or ['']
                if number.isdigit():
                    self.numbers[parts[0]], self.names[int(number)] = int(number), parts[0]
                    if parts[1] == 'contextual':
                        self.words[parts[2]] = int(number)
                    elif parts[1] == 'punctuation':
                        self.texts[int(number)] = parts[2]
                    elif parts[1].startswith('reserved'):
                        self.reserved[int(number)] = parts[2]
        self.marks = {text: kind for kind, text in self.texts.items() if len(text) == 1}
        self.ident = self.numbers['IDENT']


KINDS = Kinds()


class Rows:
    """The rows of the table, by the numbers of their categories."""

    def __init__(self) -> None:
        self.table = Table(TOP)
        self.rows: list[list[Row]] = self.table.rows
        self.numbers = {name: number for number, (name, given) in self.table.names.items() if not given}

    def holds(self, test: Any, records: list[Record]) -> bool:
        """Whether a test holds before these records."""
        name, given = test.name, test.arguments
        if name == 'negated':
            return not self.holds(given[0], records)
        if name in ('also', 'or_else'):
            return (all if name == 'also' else any)(self.holds(it, records) for it in given)
        if name == 'told':
            return bool(given[0])
        record = at(records, given[0])
        if name in ('kind_so', 'word_so'):
            value = record.kind if name == 'kind_so' else record.word
            return bool(self.table.evaluator.give(given[1], [value]))
        if name == 'borne':
            return bool(record.kind == given[1] or record.kind == KINDS.ident and record.word == given[1])
        assert name == 'comes', name
        text = KINDS.texts.get(given[1], '')
        if len(text) < 2:
            return bool(record.kind == given[1])
        parts = [at(records, given[0] + it) for it in range(len(text))]
        return all(part.kind == KINDS.marks[it] for part, it in zip(parts, text)) and all(it.joint for it in parts[:-1])


def at(records: list[Record], number: int) -> Record:
    """A record, or the end."""
    return records[number] if number < len(records) else Record(0, 0, False)
