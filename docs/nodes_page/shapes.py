"""The shapes of nodes as crates/rap_grammar_shapes/specs/Shapes.antt gives them, and what may follow in one.

A shape is a constructor with its arguments (`Made`), as values.py of core_page makes them. A child is a letter: a leaf
or a node of one of some kinds, or any leaf. These are apart from one another, as they are in the scripts, where what
takes any token names no kind."""
from typing import NamedTuple, Optional

from core_page.values import Evaluator, Made, Modules

CRATES = ('rap_grammar_shapes', 'rap_base')
MODULE = 'Shapes'

# The constructors of a shape. Those of one child are letters; the others are put together of shapes.
LETTERS = ('leaf_of', 'node_of', 'any_leaf')
FORMS = ('nothing', 'any_of', '⋅', 'or', *LETTERS)
NOTHING = Made('nothing')


class Letter(NamedTuple):
    """What a child may be: its form, and the kinds of a leaf or a node."""
    form: str
    kinds: tuple[int, ...] = ()


class Terms(Evaluator):
    """Evaluates terms that are made of shapes, and rows of these."""

    def name(self, name, module, names):
        return Made(name) if name in FORMS else super().name(name, module, names)

    def operation(self, operator, left, right, module, names):
        if operator in (*FORMS, 'has'):
            parts = self.value(left, module, names), self.value(right, module, names)
            return parts if operator == 'has' else Made(operator, parts)
        return super().operation(operator, left, right, module, names)


class Shapes:
    """The table of shapes over the crates of a repository."""

    def __init__(self, top: str) -> None:
        self.terms = Terms(Modules([f'{top}/crates/{it}/specs' for it in CRATES]))
        self.module = self.terms.library.modules[MODULE]
        rows = self.terms.of(MODULE, 'shapes')
        self.by_kind: dict[int, Made] = dict(rows)
        if len(self.by_kind) < len(rows):
            kinds = [kind for kind, _ in rows]
            raise ValueError(f'more than one shape of the kinds {sorted({it for it in kinds if kinds.count(it) > 1})}')

    def group(self, name: str) -> tuple[tuple[int, Made], ...]:
        """The rows of a part of the table."""
        return self.terms.of(MODULE, name)

    def kind_sets(self) -> dict[tuple[int, ...], str]:
        """The lists of kinds that have names, each with its name."""
        names = [it.name for it in self.module.definitions.values() if it.result == 'List ℕ' and not it.parameters]
        return {self.terms.of(MODULE, it): it for it in names}


def can_end(shape: Made) -> bool:
    """Whether no child is of a shape."""
    given = shape.arguments
    if shape.name in ('nothing', 'any_of'):
        return True
    if shape.name == '⋅':
        return can_end(given[0]) and can_end(given[1])
    return shape.name == 'or' and (can_end(given[0]) or can_end(given[1]))


def after(first: Made, second: Made) -> Made:
    """One shape after another."""
    return second if first == NOTHING else Made('⋅', (first, second))


def either(first: Optional[Made], second: Optional[Made]) -> Optional[Made]:
    """One of two shapes, of which each may be none."""
    if first is None or second is None:
        return second if first is None else first
    return Made('or', (first, second))


def past(letter: Letter, shape: Made) -> Optional[Made]:
    """What may follow in a shape after a child of any of a letter's kinds; none where there is no such child."""
    given = shape.arguments
    if shape.name == 'any_leaf':
        return NOTHING if letter.form == shape.name else None
    if shape.name in LETTERS:
        return NOTHING if letter.form == shape.name and set(letter.kinds) <= set(given[0]) else None
    if shape.name == 'or':
        return either(past(letter, given[0]), past(letter, given[1]))
    if shape.name == 'nothing':
        return None
    first = past(letter, given[0])
    following = None if first is None else after(first, shape if shape.name == 'any_of' else given[1])
    skips = shape.name == '⋅' and can_end(given[0])
    return either(following, past(letter, given[1])) if skips else following


def firsts(shape: Made) -> list[Letter]:
    """The letters that may stand first, as they are written."""
    if shape.name in LETTERS:
        return [Letter(shape.name, *shape.arguments)]
    if shape.name == '⋅' and not can_end(shape.arguments[0]):
        return firsts(shape.arguments[0])
    return [letter for it in shape.arguments for letter in firsts(it)]


def first_steps(shape: Made) -> list[Letter]:
    """The letters that may stand first, each once: two kinds are in one where they stand in the same ones of those
    written."""
    written = firsts(shape)
    found: dict[object, Letter] = {}
    for letter in written:
        for kind in letter.kinds or (0,):
            places = tuple(at for at, it in enumerate(written)
                           if it.form == letter.form and (not it.kinds or kind in it.kinds))
            kinds = found.get(places, Letter(letter.form)).kinds
            if letter.kinds and kind not in kinds:
                kinds += (kind,)
            found[places] = Letter(letter.form, kinds)
    return list(found.values())


class State(NamedTuple):
    """A state of an automaton: whether children may end in it, and to which state each letter leads."""
    ends: bool
    steps: list[tuple[Letter, int]]


def automaton(shape: Made) -> list[State]:
    """The states of a shape: what is left of it after some children, in the order in which they are met."""
    left, states = [shape], []
    for it in left:
        steps = []
        for letter in first_steps(it):
            rest = past(letter, it)
            if rest is None:
                raise ValueError(f'no way past {letter} in {it}')
            if rest not in left:
                left.append(rest)
            steps.append((letter, left.index(rest)))
        states.append(State(can_end(it), steps))
    return states


def is_of_shape(states: list[State], shape: Made) -> bool:
    """Whether each list of children that an automaton takes is of a shape: what the proof computes. The first step into
    a state tells what is left of the shape there."""
    left = [shape]
    for at, state in enumerate(states):
        if at >= len(left) or state.ends and not can_end(left[at]):
            return False
        for letter, target in state.steps:
            rest = past(letter, left[at])
            if rest is None or target > len(left):
                return False
            if target == len(left):
                left.append(rest)
            if left[target] != rest:
                return False
    return len(left) == len(states)


class Child(NamedTuple):
    """A child of a node as it is printed: a leaf or a node, and its kind."""
    is_node: bool
    kind: int

    def fits(self, letter: Letter) -> bool:
        """Whether a letter may be this child."""
        if letter.form == 'any_leaf':
            return not self.is_node
        return letter.form == ('node_of' if self.is_node else 'leaf_of') and self.kind in letter.kinds


def takes(states: list[State], children: list[Child]) -> bool:
    """Whether an automaton takes children."""
    at = {0}
    for child in children:
        at = {target for it in at for letter, target in states[it].steps if child.fits(letter)}
    return any(states[it].ends for it in at)


def takes_printed(states: list[State], children: list[Child], field: int, dot: int) -> bool:
    """The same where a dot may stand behind a field: the last part of a float, as in `x.1. ..2`."""
    if takes(states, children):
        return True
    behind = [at for at, (it, following) in enumerate(zip(children, children[1:]))
              if it == Child(True, field) and following == Child(False, dot)]
    return any(takes_printed(states, children[:at + 1] + children[at + 2:], field, dot) for at in behind)
