"""Random derivations of the core grammar: tokens with their tree, drawn from the rows as docs/core_page has them."""
import random
from collections.abc import Iterator
from dataclasses import dataclass
from typing import Any, Optional

from support.rows import KINDS, Piece, Record, Row, Rows

# Texts of tokens that have none of their own.
TEXTS = {
    'IDENT': ['a', 'b', 'value', 'T', 'r#fn', '日本'], 'LIFETIME_IDENT': ["'a", "'static"],
    'INT_NUMBER': ['0', '1_000', '0xff_u8'], 'FLOAT_NUMBER': ['1.0', '2.', '1e3', '1.5f32'], 'CHAR': ["'c'", "'\\n'"],
    'BYTE': ["b'c'"], 'STRING': ['"s"', '"\\u{e9}"', 'r#"s"#'], 'BYTE_STRING': ['b"s"', 'br"s"'],
    'C_STRING': ['c"s"', 'cr"s"'], 'INNER_DOC_COMMENT': ['//! d\n', '/*! d */'],
    'OUTER_DOC_COMMENT': ['/// d\n', '/** d */'], 'SHEBANG': ['#!/bin/x\n'], 'FRONTMATTER': ['---\na\n---\n'],
}
BETWEEN = [' ', ' ', ' ', '\n', ' /* c */ ', ' // c\n']

# Marks that may touch any other mark: no two of them are the beginning of a comment or of frontmatter.
TOUCHING = set('()[]{};,<>@~?$&|+*^%.:=!')


# Farther than anything is.
FAR = 1000


class Redraw(Exception):
    """A row whose tokens a test of it refuses."""


@dataclass(eq=False)
class Token:
    """A token that was drawn. The parts of an operator but the last one must touch what follows them."""
    kind: int
    word: int
    joint: bool
    is_part: bool = False
    text: str = ''

    def record(self) -> Record:
        return Record(self.kind, self.word, self.joint)


# A tree: a node's kind with its children, or a leaf's kind with the number of its tokens.
Tree = tuple[int, Any]


@dataclass
class Draw:
    """Tokens, their tree, and for each test that must not hold the number of the token that comes next there."""
    tokens: list[Token]
    trees: list[Tree]
    tests: list[tuple[Any, int]]

    def add(self, other: 'Draw') -> None:
        self.tests += [(test, len(self.tokens) + at) for test, at in other.tests]
        self.tokens += other.tokens
        self.trees += other.trees


def is_of_text(kind: int) -> bool:
    """Whether a text can have a token of this kind in any place."""
    name = KINDS.names[kind]
    return name in TEXTS and name not in ('SHEBANG', 'FRONTMATTER') or kind in KINDS.reserved \
        or kind in KINDS.texts and len(KINDS.texts[kind]) == 1


class Drawer:
    """Draws derivations. What was drawn least often is drawn most likely."""

    def __init__(self, rows: Rows, source: random.Random) -> None:
        self.rows, self.random = rows, source
        self.in_text = True
        self.drawn: dict[Any, int] = {}
        self.near: dict[Any, int] = {}
        self.costs = [1_000_000] * len(rows.rows)
        while any(self.lower(number) for number in range(len(rows.rows))):
            pass

    # -- the fewest tokens

    def lower(self, number: int) -> bool:
        old = self.costs[number]
        self.costs[number] = min([old, *(self.cost(it) for it in self.rows.rows[number])])
        return self.costs[number] < old

    def cost(self, row: Row) -> int:
        return sum(self.cost_of(it) for it in row)

    def cost_of(self, it: Piece) -> int:
        """The fewest tokens of a piece."""
        if it[0] == 'unless':
            return 0
        if it[0] == 'category':
            return self.costs[it[1]]
        if it[0] == 'node':
            return self.cost(it[2])
        if it[0] == 'choice':
            return min(self.cost(it[1]), self.cost(it[2]))
        if it[0] == 'repeat':
            return self.cost(it[2])
        return self.cost(it[1]) if it[0] == 'around' else 1

    # -- drawing

    def pick(self, ways: list[tuple[Any, Row]], depth: int) -> Row:
        """One of some rows, each with what it is counted by."""
        if depth <= 0:
            least = min(self.cost(row) for _, row in ways)
            ways = [it for it in ways if self.cost(it[1]) == least]
        row: Row = self.weighed(ways)
        return row

    def weighed(self, ways: list[tuple[Any, Any]]) -> Any:
        """One of some ways: the more likely, the less often it was drawn, and the nearer it is to what never was."""
        weights = [1 / (1 + self.drawn.get(key, 0)) + 40 * 0.5 ** self.near.get(key, FAR) for key, _ in ways]
        key, way = self.random.choices(ways, weights)[0]
        self.count(key)
        return way

    def count(self, key: Any) -> None:
        self.drawn[key] = self.drawn.get(key, 0) + 1

    def turns(self, depth: int) -> int:
        """How many turns to take."""
        return 0 if depth <= 0 else self.random.choice([0, 0, 1, 1, 2, 3])

    def row(self, row: Row, depth: int) -> Draw:
        """A derivation of a row. What a test of it refuses is drawn again."""
        for _ in range(20):
            found = Draw([], [], [])
            for it in row:
                self.piece(it, found, depth)
            if not any(self.refuses(test, found.tokens[at:]) for test, at in found.tests):
                return found
        raise Redraw

    def refuses(self, test: Any, tokens: list[Token]) -> bool:
        """Whether a test holds that must not, whatever follows these tokens."""
        end = [Token(KINDS.numbers['EOF'], 0, False)] * 4
        other = [Token(KINDS.numbers['SEMICOLON'], 0, False)] * 4
        return all(self.holds(test, [*tokens, *it]) for it in (end, other))

    def holds(self, test: Any, tokens: list[Token]) -> bool:
        return self.rows.holds(test, [it.record() for it in tokens[:8]])

    def piece(self, it: Piece, found: Draw, depth: int) -> None:
        """Adds a derivation of a piece."""
        if it[0] == 'unless':
            found.tests.append((it[1], len(found.tokens)))
        elif it[0] == 'category':
            ways = [((it[1], at), row) for at, row in enumerate(self.rows.rows[it[1]])]
            found.add(self.row(self.pick(ways, depth - 1), depth - 1))
        elif it[0] == 'node':
            inner = self.row(it[2], depth)
            found.add(Draw(inner.tokens, [(it[1], inner.trees)], inner.tests))
        elif it[0] == 'choice':
            found.add(self.row(self.pick([((id(it), at), it[at]) for at in (1, 2)], depth), depth))
        elif it[0] == 'repeat':
            for _ in range(self.turns(depth)):
                self.count((id(it), 1))
                found.add(self.row(it[1], depth - 1))
            found.add(self.row(it[2], depth))
        elif it[0] == 'around':
            self.around(it, found, depth)
        else:
            self.leaf(it, found)

    def around(self, it: Piece, found: Draw, depth: int) -> None:
        """Adds a node, and nodes around it."""
        _, row, number, turns = it
        last = self.row(row, depth)
        for _ in range(self.turns(depth)):
            ways = [((id(it), at), turn) for at, turn in enumerate(turns) if number in turn[0]]
            if not ways:
                break
            _, turn, kind, number = self.weighed(ways)
            [tree] = last.trees
            last = Draw(last.tokens, [], last.tests)
            last.add(self.row(turn, depth - 1))
            last.trees = [(kind, [tree, *last.trees])]
        found.add(last)

    def leaf(self, it: Piece, found: Draw) -> None:
        """Adds a leaf."""
        if it[0] == 'word':
            tokens, leaf = [self.token(KINDS.ident, it[1])], it[1]
        elif it[0] == 'operator':
            tokens, leaf = [self.token(KINDS.marks[mark], 0) for mark in KINDS.texts[it[1]]], it[1]
            for token in tokens[:-1]:
                token.joint = token.is_part = True
        else:
            leaf = self.random.choice(self.kinds(it[1]))
            words = None if it[2].name == 'None' else it[2].arguments[0]
            tokens = [self.token(leaf, self.word(words) if leaf == KINDS.ident else 0)]
        found.tokens += tokens
        found.trees.append((leaf, len(tokens)))

    def kinds(self, kinds: tuple[int, ...]) -> list[int]:
        """The kinds of which one is drawn."""
        some = [it for it in kinds if is_of_text(it)] if self.in_text else []
        return some or list(kinds)

    def word(self, words: Optional[tuple[int, ...]]) -> int:
        """The word as which an identifier is read, mostly none."""
        if self.random.random() < 0.7:
            return KINDS.ident
        some = [it for it in (words or sorted(KINDS.words.values())) if not self.in_text or it in KINDS.words.values()]
        return self.random.choice(some or [KINDS.ident])

    def token(self, kind: int, word: int) -> Token:
        return Token(kind, word, self.random.random() < 0.3)

    # -- what was not drawn

    def aim(self) -> None:
        """Computes how near each way is to what was never drawn, in categories inside one another."""
        self.near = {}
        categories = [FAR] * len(self.rows.rows)
        is_new = True
        while is_new:
            is_new = False
            for number, rows in enumerate(self.rows.rows):
                found = min(self.way((number, at), row, categories) for at, row in enumerate(rows)) + 1
                if found < categories[number]:
                    categories[number], is_new = found, True

    def way(self, key: Any, row: Row, categories: list[int]) -> int:
        """How near a way is, by how near the categories are."""
        found = min([FAR, *(self.nearness(it, categories) for it in row)])
        self.near[key] = found if key in self.drawn else 0
        return self.near[key]

    def nearness(self, it: Piece, categories: list[int]) -> int:
        """How near a piece is."""
        if it[0] == 'category':
            return categories[it[1]]
        if it[0] == 'node':
            return min([FAR, *(self.nearness(inner, categories) for inner in it[2])])
        if it[0] == 'choice':
            return min(self.way((id(it), at), it[at], categories) for at in (1, 2))
        if it[0] == 'repeat':
            inner = [self.nearness(piece, categories) for piece in it[2]]
            return min([self.way((id(it), 1), it[1], categories), *inner])
        if it[0] == 'around':
            turns = [self.way((id(it), at), turn[1], categories) for at, turn in enumerate(it[3])]
            return min([*turns, *(self.nearness(inner, categories) for inner in it[1])])
        return FAR

    def keys(self, row: Row) -> Iterator[tuple[Any, str]]:
        """What drawing counts in a row, each with a name."""
        for it in row:
            if it[0] == 'node':
                yield from self.keys(it[2])
            elif it[0] == 'choice':
                for at in (1, 2):
                    yield (id(it), at), f'way {at} of {it}'
                    yield from self.keys(it[at])
            elif it[0] == 'repeat':
                yield (id(it), 1), f'a turn of {it}'
                yield from self.keys(it[1])
                yield from self.keys(it[2])
            elif it[0] == 'around':
                yield from self.keys(it[1])
                for at, (numbers, turn, _, _) in enumerate(it[3]):
                    if it[2] in numbers or any(it[2] in way[0] or way[3] in numbers for way in it[3]):
                        yield (id(it), at), f'turn {at} of {it}'
                    yield from self.keys(turn)

    def not_drawn(self) -> Iterator[str]:
        """The rows, and the ways and turns in them, that no derivation had."""
        for number, rows in enumerate(self.rows.rows):
            name = self.rows.table.names[number]
            for at, row in enumerate(rows):
                for key, what in [((number, at), 'the row'), *self.keys(row)]:
                    if key not in self.drawn:
                        yield f'{name} row {at}: {what}'


def given_text(drawer: Drawer, token: Token) -> str:
    """A text of a token."""
    if token.kind == KINDS.ident:
        words = {kind: word for word, kind in KINDS.words.items()}
        return words.get(token.word) or drawer.random.choice(TEXTS['IDENT'])
    name = KINDS.names[token.kind]
    return drawer.random.choice(TEXTS[name]) if name in TEXTS else KINDS.texts.get(token.kind) \
        or KINDS.reserved[token.kind]


def is_head(tokens: list[Token]) -> bool:
    """Whether there are tokens, and each may stand at the front of a text alone."""
    return bool(tokens) and all(KINDS.names[it.kind] in ('SHEBANG', 'FRONTMATTER') for it in tokens)


def has_text(tokens: list[Token]) -> bool:
    """Whether a text can have these tokens."""
    heads = [at for at, token in enumerate(tokens) if is_head([token])]
    names = [KINDS.names[tokens[at].kind] for at in heads]
    return heads == list(range(len(heads))) and names in ([], ['SHEBANG'], ['FRONTMATTER'], ['SHEBANG', 'FRONTMATTER'])


def text_of(drawer: Drawer, tokens: list[Token]) -> str:
    """A text of tokens, which notes what of them touches in it."""
    text = '' if is_head(tokens[:1]) else drawer.random.choice(['', ' ', '// c\n'])
    for token, after in zip(tokens, [*tokens[1:], None]):
        token.text = given_text(drawer, token)
        touches = token.is_part or token.joint and after and token.text in TOUCHING and \
            KINDS.texts.get(after.kind, ' ') in TOUCHING or is_head([token]) and after and is_head([after])
        between = '' if touches else '\n' if is_head([token]) else drawer.random.choice(BETWEEN)
        token.joint = not token.text.endswith('.') if KINDS.names[token.kind] == 'FLOAT_NUMBER' else bool(touches)
        text += token.text + between
    return text
