"""The steps that children of nodes make in the automata of their shapes.

A step is a state with a child that may stand there, or with the end of the children. Where a child may be of one of
several kinds, there is a step for each of them; but if these are one of the lists that have names, as `expressions`,
there is one step for all, and each kind must be seen where the list stands, anywhere."""
from typing import Iterable, Iterator, NamedTuple, Optional

from nodes_page.shapes import Letter, Shapes, State, automaton
from support import TOP
from support.kinds import read_kinds
from support.shape_trees import Floats, Node, Tree

# How the end of the children is written, and a child that is any token.
END = 'end'
FORMS = {'any_leaf': 'TOKEN'}


class Move(NamedTuple):
    """A way in an automaton: from a state by a child of a kind, or of any where there is none, to a state."""
    at: int
    letter: Letter
    target: int

    def fits(self, child: Node, number: Optional[int]) -> bool:
        """Whether a child, and the number of its kind, is such a one."""
        if self.letter.form == 'any_leaf':
            return not child.is_node
        return self.letter.form == ('node_of' if child.is_node else 'leaf_of') and number in self.letter.kinds


class Automata:
    """The automata of all kinds, with the names of their steps."""

    def __init__(self) -> None:
        kinds, shapes = read_kinds(), Shapes(TOP)
        self.numbers = {it.name: it.number for it in kinds}
        self.names = {it.number: it.name for it in kinds}
        self.texts = {it.number: f'`{it.text}`' if it.has_text else it.name for it in kinds}
        self.sets = {frozenset(it): name for it, name in shapes.kind_sets().items() if len(it) > 1}
        self.automata = {self.names[kind]: automaton(shape) for kind, shape in shapes.by_kind.items()}
        self.words = {kind: list(self.words_of(states)) for kind, states in self.automata.items()}
        # whether the children of a kind, as they are written, are of its shape
        self.known: dict[tuple[str, ...], bool] = {}

    def written(self, letter: Letter) -> list[str]:
        """How a child is written: a list by its name, and else each kind."""
        if not letter.kinds:
            return [FORMS[letter.form]]
        name = self.sets.get(frozenset(letter.kinds))
        return [name] if name else [self.texts[it] for it in letter.kinds]

    def words_of(self, states: list[State]) -> Iterator[str]:
        """For each state the shortest children that lead there, as they are written, with a space behind each."""
        found = {0: ''}
        for at, state in enumerate(states):
            for letter, target in state.steps:
                found.setdefault(target, f'{found[at]}{self.written(letter)[0]} ')
        return (found[at] for at in range(len(states)))

    def all_steps(self) -> Iterator[str]:
        """The names of all steps, and of the kinds in lists: the kind or the list, and what leads there."""
        for kind, states in self.automata.items():
            for at, state in enumerate(states):
                for letter, _ in state.steps:
                    yield from (f'{kind}: {self.words[kind][at]}{it}' for it in self.written(letter))
                if state.ends:
                    yield f'{kind}: {self.words[kind][at]}{END}'
        letters = {letter for states in self.automata.values() for state in states for letter, _ in state.steps}
        for kinds in sorted({it.kinds for it in letters}):
            if frozenset(kinds) in self.sets:
                yield from (f'{self.sets[frozenset(kinds)]}: {self.texts[it]}' for it in kinds)

    def moves(self, kind: str, at: Iterable[int], child: Node) -> list[Move]:
        """The ways from states by a child."""
        number = self.numbers.get(child.kind)
        found = [Move(it, *step) for it in at for step in self.automata[kind][it].steps]
        return [it for it in found if it.fits(child, number)]

    def steps(self, kind: str, children: list[Node]) -> Optional[set[str]]:
        """The names of the steps on all ways by which an automaton takes children. None if it does not."""
        states, at, rows = self.automata[kind], {0}, []
        for child in children:
            rows.append(self.moves(kind, at, child))
            at = {it.target for it in rows[-1]}
        at = {it for it in at if states[it].ends}
        found = {f'{kind}: {self.words[kind][it]}{END}' for it in at}
        for child, row in zip(reversed(children), reversed(rows)):
            taken = [it for it in row if it.target in at]
            for it in taken:
                found |= set(self.names_of(kind, it, child))
            at = {it.at for it in taken}
        return found if at else None

    def is_so(self, kind: str, children: list[Node]) -> bool:
        """Whether children are of the shape of a kind."""
        key = kind, *(f'{it.is_node:d}{it.kind}' for it in children)
        if key not in self.known:
            self.known[key] = self.steps(kind, children) is not None
        return self.known[key]

    def names_of(self, kind: str, move: Move, child: Node) -> Iterator[str]:
        """The names of a step, and of the kind in its list if it has one."""
        listed = self.sets.get(frozenset(move.letter.kinds))
        text = FORMS.get(move.letter.form) or self.texts[self.numbers[child.kind]]
        yield f'{kind}: {self.words[kind][move.at]}{listed or text}'
        if listed:
            yield f'{listed}: {text}'

    def of_tree(self, tree: Tree) -> Optional[set[str]]:
        """The names of the steps in the nodes of a tree that are measured. None if one is not of its shape."""
        floats, found = Floats(tree), set()
        for node in tree.nodes:
            if tree.is_whole(node):
                steps = self.steps(node.kind, floats.children(node))
                if steps is None:
                    return None
                found |= steps
        return found
