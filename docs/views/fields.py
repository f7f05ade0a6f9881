"""The fields of each kind of nodes: those of fields.txt, and those that the shapes give."""
import sys
from functools import cache
from typing import Iterable, Iterator, NamedTuple, Optional

from core_page.text import Kinds as Table
from nodes_page.shapes import Letter, Shapes, State, automaton
from support import TOP
from support.written import held
from views import paths
from views.description import FILE, Description, Place, Reader, Said, camel_case

# Fields that a pattern of Python does not ask for by their places.
COMMON = ('attrs', 'doc_comments', 'visibility')


class Field(NamedTuple):
    """A field of a kind: its name; the set or the kind of what it has, empty where there are several kinds; all of its
    kinds; whether they are tokens; how it finds them, `first`, `last` or `all`; the places where it does; and how many
    such children a node without a message or an ERROR right under it has at least and at most."""
    name: str
    what: str
    kinds: frozenset[int]
    is_token: bool
    how: str
    places: tuple[Place, ...]
    fewest: int
    most: Optional[int]

    @property
    def is_list(self) -> bool:
        return self.how == 'all'

    def is_wide(self, fields: Iterable['Field']) -> bool:
        """Whether its shape takes more than it finds, and no other field is about what is behind."""
        is_one_of_several = self.how == 'first' and self.most != 1
        return is_one_of_several and not any(place.field == self.name for it in fields for place in it.places)

    @property
    def amount(self) -> str:
        """How many it has, in words."""
        return 'any number' if self.is_list else 'one' if self.fewest else 'at most one'


class Node(NamedTuple):
    """A kind of nodes: its number and name, its fields, its traits, and the kinds of children that no field finds."""
    kind: int
    name: str
    fields: list[Field]
    traits: list[str]
    left: frozenset[int]

    @property
    def camel(self) -> str:
        return camel_case(self.name)

    def field(self, name: str) -> Field:
        return next(it for it in self.fields if it.name == name)

    @property
    def nodes(self) -> list[Field]:
        return [it for it in self.fields if not it.is_token]

    @property
    def tokens(self) -> list[Field]:
        return [it for it in self.fields if it.is_token]


def located(fields: Iterable[Field], word: paths.Word, field: Field) -> list[int]:
    """Where in a word the children stand that a field finds: what the words of fields.txt mean."""
    low, high = 0, len(word)
    for place, name in field.places:
        there = located(fields, word, next(it for it in fields if it.name == name))
        if place in ('before', 'only_before'):
            high = min(high, there[0] if there else 0 if place == 'only_before' else high)
        else:
            low = max(low, there[0] + 1 if there else high if place == 'after' else low)
    found = [at for at in range(low, high) if word[at] in field.kinds]
    return found[-1:] if field.how == 'last' else found[:1] if field.how == 'first' else found


@cache
def shapes() -> Shapes:
    """The table of shapes, which is evaluated once."""
    return Shapes(TOP)


@cache
def states_of(kind: int) -> list[State]:
    """The automaton of a kind."""
    return automaton(shapes().by_kind[kind])


class Maker:
    """Makes the fields of a kind."""

    def __init__(self, views: 'Views', kind: int) -> None:
        self.views, self.kind = views, kind
        self.states = states_of(kind)
        self.letters = list(paths.letters(shapes().by_kind[kind]))
        self.said = views.said.fields.get(kind, [])

    def stop(self, why: str) -> None:
        sys.exit(f'{FILE}: {self.views.names[self.kind]}: {why}')

    def of_letters(self) -> Iterator[Said]:
        """What is said of the children that no line is about, in the order of the shape."""
        claimed = set(self.views.said.left.get(self.kind, ())).union(*(it.kinds for it in self.said))
        letters = [Letter(it.form, tuple(kind for kind in it.kinds if kind not in claimed)) for it in self.letters]
        found = [self.views.set_of(it.kinds) for it in letters if it.form == 'node_of' and len(it.kinds) > 1]
        sets = [it for it in found if it]
        done: set[str] = set()
        for letter, kind in ((it, kind) for it in letters for kind in it.kinds if self.is_told(it, kind)):
            what = next((it for it in sets if kind in self.views.said.sets[it]), self.views.names[kind])
            if what not in done:
                done.add(what)
                kinds = self.views.said.sets.get(what, frozenset({kind}))
                yield Said(self.views.reader.name_of(what), what, kinds, '', ())

    def is_told(self, letter: Letter, kind: int) -> bool:
        """Whether a child has a field: each node, and a token that is not one of a list and does not stand among any
        others."""
        if letter.form == 'node_of':
            return True
        weight = paths.Kinds(frozenset({kind}))
        return paths.most(self.states, weight.may) is not None and not paths.repeats(self.states, 'any_leaf')

    def fields(self) -> list[Field]:
        """All of them: first those of nodes, in the order of the shape."""
        said = [*self.said, *self.of_letters()]
        fields = sorted(self.ordered([self.field(it, it in self.said) for it in said]), key=lambda it: it.is_token)
        names = [it.name for it in fields]
        if len(set(names)) < len(names):
            self.stop(f'two fields of one name: {sorted(it for it in names if names.count(it) > 1)}')
        return [self.counted(fields, it) for it in fields]

    def ordered(self, fields: list[Field]) -> list[Field]:
        """Fields in the order of the text: one stands before another if it may and the other may not."""
        first = {it: at for at, letter in reversed(list(enumerate(self.letters))) for it in letter.kinds}
        none = len(self.letters)
        rest = sorted(fields, key=lambda it: min(first.get(kind, none) for kind in it.kinds))
        later = paths.behind(self.states)
        steps = [(at, set(letter.kinds), target) for at, it in enumerate(self.states) for letter, target in it.steps]

        def may_precede(one: Field, other: Field) -> bool:
            after = {it for _, kinds, target in steps if kinds & one.kinds for it in later[target]}
            return any(at in after and kinds & other.kinds for at, kinds, _ in steps)

        found: list[Field] = []
        while rest:
            free = [it for it in rest if not any(may_precede(other, it) and not may_precede(it, other)
                                                 for other in rest)]
            found.append((free or rest)[0])
            rest.remove(found[-1])
        return found

    def field(self, said: Said, is_said: bool) -> Field:
        weight = paths.Kinds(said.kinds)
        is_token = said.kinds <= self.views.tokens
        least, greatest = (paths.fewest(self.states, weight.must), paths.most(self.states, weight.may))
        how = said.how or ('first' if is_token or greatest == 1 or said.places else 'all')
        name = said.name if is_said or how != 'all' else f'{said.name}s'
        return Field(name, said.what, said.kinds, is_token, how, said.places, least, greatest)

    def counted(self, fields: list[Field], field: Field) -> Field:
        """A field with what it finds in words, if it has a place: all there, where there may be several."""
        if not field.places:
            return field
        words = self.words(fields)
        every = [len(located(fields, it, field._replace(how='all'))) for it in words]
        is_said = any(it.name == field.name and it.how for it in self.said)
        greatest = None if max(every) >= 3 else max(every)
        how = field.how if is_said or max(every) <= 1 else 'all'
        return field._replace(how=how, fewest=min(every), most=greatest)

    def words(self, fields: list[Field]) -> set[paths.Word]:
        """The words of the shape, of the kinds that a field with a place or another one of the same kinds is about."""
        return paths.words(self.states, [it.kinds for it in self.entangled(fields)])

    def entangled(self, fields: list[Field]) -> list[Field]:
        """The fields of which one cannot be told from another by kinds alone, and those that places are about."""
        asked = {place.field for it in fields for place in it.places}
        return [it for it in fields if it.places or it.name in asked or it.how == 'last'
                or any(it.kinds & other.kinds & self.present for other in fields if other is not it)]

    @property
    def present(self) -> set[int]:
        """The kinds of the shape."""
        return {kind for it in self.letters for kind in it.kinds}


class Views:
    """The sets, the traits and all kinds of nodes with their fields."""

    def __init__(self, text: Optional[str] = None) -> None:
        """Of the text of fields.txt, or of another one in its place."""
        self.table = Table(TOP)
        self.names: dict[int, str] = self.table.names
        self.tokens = frozenset(self.table.tokens)
        self.reader = Reader(shapes(), self.table)
        self.said: Description = self.reader.read(held(f'{TOP}/{FILE}') if text is None else text)
        self.makers = {it: Maker(self, it) for it in sorted(shapes().by_kind)}
        self.nodes = [self.node(it) for it in self.makers]

    def set_of(self, kinds: Iterable[int]) -> Optional[str]:
        """The smallest set that has these kinds."""
        wanted = set(kinds)
        fitting = [(len(it), name) for name, it in self.said.sets.items() if wanted <= it]
        return min(fitting)[1] if fitting else None

    def node(self, kind: int) -> Node:
        fields = self.makers[kind].fields()
        names = {it.name for it in fields}
        traits = [it for it, wanted in self.said.traits.items() if set(wanted) <= names]
        return Node(kind, self.names[kind], fields, traits, self.said.left.get(kind, frozenset()))

    def kind_names(self, kinds: Iterable[int]) -> list[str]:
        return [self.names[it] for it in sorted(kinds)]
