"""What crates/rap_base/fields.txt says, and how its head tells to write it."""
import re
import sys
from dataclasses import dataclass, field
from typing import NamedTuple

from core_page.text import Kinds
from nodes_page.shapes import Shapes
from support.written import snake_case

FILE = 'crates/rap_base/fields.txt'

HOW = ('first', 'last')
PLACES = ('before', 'only_before', 'after', 'past')

LINES = [(re.compile(r'set (\w+) = (.+)'), 'read_set'), (re.compile(r'call (\w+) (\w+)'), 'read_call'),
         (re.compile(r'trait (\w+) = (.+)'), 'read_trait'), (re.compile(r'left (\w+) = (.+)'), 'read_left'),
         (re.compile(r'twice (\w+)\.(\w+) (\w+) = (.+)'), 'read_twice'),
         (re.compile(r'(\w+)\.(\w+) = (?:(first|last) )?(.+)'), 'read_field')]


class Place(NamedTuple):
    """Where a child stands: a word of PLACES, and the field that it is about."""
    word: str
    field: str


class Said(NamedTuple):
    """What is said of a field: its name, which children it has and how many of them, and where these stand. `what` is
    the set or the kind that was written, and empty where there are several."""
    name: str
    what: str
    kinds: frozenset[int]
    how: str
    places: tuple[Place, ...]


class Member(NamedTuple):
    """A kind or a set in a set, with the name of its variant."""
    variant: str
    what: str


def camel_case(kind: str) -> str:
    """A name as `GenericArgs` of `GENERIC_ARGS`."""
    return ''.join(it.capitalize() for it in kind.split('_')) if kind.isupper() else kind


@dataclass
class Description:
    """The sets, the traits, and what is said of the fields of each kind."""
    members: dict[str, list[Member]] = field(default_factory=dict)
    sets: dict[str, frozenset[int]] = field(default_factory=dict)
    called: dict[str, str] = field(default_factory=dict)
    traits: dict[str, list[str]] = field(default_factory=dict)
    fields: dict[int, list[Said]] = field(default_factory=dict)
    left: dict[int, frozenset[int]] = field(default_factory=dict)
    twice: dict[tuple[int, str, str], frozenset[int]] = field(default_factory=dict)


class Reader:
    """Reads the file, over the kinds and the lists of the shapes."""

    def __init__(self, shapes: Shapes, kinds: Kinds) -> None:
        self.names = kinds.names
        self.numbers = {name: number for number, name in kinds.names.items()}
        self.tokens = set(kinds.tokens)
        self.lists = {name: list(listed) for listed, name in shapes.kind_sets().items()}
        self.found = Description()

    def read(self, whole: str) -> Description:
        """What a text says, which is the file's."""
        for number, line in enumerate(whole.splitlines(), 1):
            text = line.partition('#')[0].strip()
            if text:
                self.read_line(f'{FILE}:{number}', text)
        return self.found

    def read_line(self, place: str, text: str) -> None:
        for pattern, reader in LINES:
            here = pattern.fullmatch(text)
            if here:
                try:
                    getattr(self, reader)(*here.groups())
                except KeyError as why:
                    sys.exit(f'{place}: {why} is no kind, set or list')
                return
        sys.exit(f'{place}: no line of these: {text}')

    def kinds_of(self, what: str) -> list[int]:
        """The kinds that a word names."""
        if what in self.found.sets:
            return sorted(self.found.sets[what])
        return self.lists[what] if what in self.lists else [self.numbers[what]]

    def all_of(self, words: str) -> frozenset[int]:
        return frozenset(kind for it in words.split() for kind in self.kinds_of(it))

    def read_set(self, name: str, words: str) -> None:
        members = []
        for word in words.split():
            variant, colon, what = word.rpartition(':')
            parts = [what] if what in self.found.sets else [self.names[it] for it in self.kinds_of(what)]
            members += [Member(variant if colon else camel_case(it), it) for it in parts]
        self.found.members[name] = sorted(members)
        self.found.sets[name] = self.all_of(' '.join(it.what for it in members))

    def read_call(self, what: str, name: str) -> None:
        self.kinds_of(what)
        self.found.called[what] = name

    def read_trait(self, name: str, fields: str) -> None:
        self.found.traits[name] = fields.split()

    def read_left(self, kind: str, words: str) -> None:
        self.found.left[self.numbers[kind]] = self.all_of(words)

    def read_twice(self, kind: str, one: str, other: str, words: str) -> None:
        self.found.twice[self.numbers[kind], one, other] = self.all_of(words)

    def read_field(self, kind: str, name: str, how: str | None, words: str) -> None:
        parts = words.split()
        at = next((i for i, it in enumerate(parts) if it in PLACES), len(parts))
        what, places = parts[:at], [Place(*it) for it in zip(parts[at::2], parts[at + 1::2])]
        said = Said(name, what[0] if len(what) == 1 and what[0] not in self.lists else '', self.all_of(' '.join(what)),
                    how or '', tuple(places))
        self.found.fields.setdefault(self.numbers[kind], []).append(said)

    def name_of(self, what: str) -> str:
        """What a field of a kind or a set is called."""
        name = self.found.called.get(what)
        is_kind = what in self.numbers
        if name is None:
            name = what.lower().removesuffix('_kw') if is_kind else snake_case(what)
        return f'{name}_token' if is_kind and self.numbers[what] in self.tokens else name
