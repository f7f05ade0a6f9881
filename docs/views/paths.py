"""How many children of some kinds a node may have, over all paths of an automaton of its shape; and the words of a
shape in which kinds stand for one another that no field tells apart."""
from typing import Callable, Iterator, Optional

from nodes_page.shapes import Letter, Made, LETTERS, State

# How long the words are in which fields with a place are looked for.
LENGTH = 6


def letters(shape: Made) -> Iterator[Letter]:
    """The letters of a shape as they are written, from left to right."""
    if shape.name in LETTERS:
        yield Letter(shape.name, *shape.arguments)
    else:
        for part in shape.arguments:
            yield from letters(part)


class Kinds:
    """What a letter may be and what it must be."""

    def __init__(self, kinds: frozenset[int]) -> None:
        self.kinds = kinds

    def must(self, letter: Letter) -> int:
        return int(letter.form != 'any_leaf' and set(letter.kinds) <= self.kinds)

    def may(self, letter: Letter) -> int:
        return int(bool(set(letter.kinds) & self.kinds))


def fewest(states: list[State], weight: Callable[[Letter], int]) -> int:
    """The least sum of weights on a way to an end."""
    best: list[Optional[int]] = [None] * len(states)
    best[0] = 0
    for _ in states:
        for at, state in enumerate(states):
            here = best[at]
            for letter, target in state.steps if here is not None else ():
                there, new = best[target], (here or 0) + weight(letter)
                if there is None or new < there:
                    best[target] = new
    return min(found for found, state in zip(best, states) if state.ends and found is not None)


def most(states: list[State], weight: Callable[[Letter], int]) -> Optional[int]:
    """The greatest sum of weights; none where there is no greatest."""
    best = [-1] * len(states)
    best[0] = 0
    for _ in range(len(states) + 1):
        changed = False
        for at, state in enumerate(states):
            for letter, target in state.steps if best[at] >= 0 else ():
                if best[at] + weight(letter) > best[target]:
                    best[target], changed = best[at] + weight(letter), True
        if not changed:
            return max(found for found, state in zip(best, states) if state.ends)
    return None


def repeats(states: list[State], form: str) -> bool:
    """Whether letters of a form may stand in a row without an end."""
    return most(states, lambda it: int(it.form == form)) is None


def behind(states: list[State]) -> list[set[int]]:
    """The states that may be met from each one on, itself among them."""
    found = [{at, *(target for _, target in state.steps)} for at, state in enumerate(states)]
    while True:
        more = [its.union(*(found[it] for it in its)) for its in found]
        if more == found:
            return found
        found = more


Word = tuple[int, ...]


def words(states: list[State], told_apart: list[frozenset[int]]) -> set[Word]:
    """The words of a shape, of the kinds that are in one of some sets; of those that are in the same ones the least."""
    known: set[int] = set().union(*told_apart)
    chosen = {it: min(other for other in known if all((other in one) == (it in one) for one in told_apart))
              for it in known}

    def choices(letter: Letter) -> set[Optional[int]]:
        if letter.form == 'any_leaf':
            return {None}
        return {chosen.get(it) for it in letter.kinds}

    met: set[tuple[int, Word]] = {(0, ())}
    rest = list(met)
    while rest:
        at, word = rest.pop()
        for letter, target in states[at].steps:
            for choice in choices(letter):
                new = target, word if choice is None else (*word, choice)
                if new not in met and len(new[1]) <= LENGTH:
                    met.add(new)
                    rest.append(new)
    return {word for at, word in met if states[at].ends}
