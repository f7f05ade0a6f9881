"""Tests of the tokens that come next. A test is `True`, `False`, or one of these; each is hashable."""
from dataclasses import dataclass, replace


@dataclass(frozen=True)
class At:
    """The token at a place is of one of these kinds."""
    place: int
    kinds: frozenset


@dataclass(frozen=True)
class Operator:
    """At a place is an operator of several tokens."""
    place: int
    kind: str


@dataclass(frozen=True)
class ReadsAs:
    """At a place is an identifier that may be read as this keyword."""
    place: int
    kind: str


@dataclass(frozen=True)
class Last:
    """The last token that was consumed is of this kind."""
    kind: str


@dataclass(frozen=True)
class There:
    """Another rule comes next, by its own test."""
    rule: object


@dataclass(frozen=True)
class Said:
    """A test that can only be given in words, with its negation in words."""
    text: str
    opposite: str


@dataclass(frozen=True)
class Not:
    test: object


@dataclass(frozen=True)
class And:
    left: object
    right: object


@dataclass(frozen=True)
class Or:
    left: object
    right: object


def no(test):
    if isinstance(test, bool):
        return not test
    return test.test if isinstance(test, Not) else Not(test)


def both(left, right):
    if isinstance(left, bool):
        return right if left else False
    if isinstance(right, bool):
        return left if right else False
    return And(left, right)


def either(left, right):
    if isinstance(left, bool):
        return True if left else right
    if isinstance(right, bool):
        return True if right else left
    return Or(left, right)


def reach(test, kinds):
    """How many tokens a test looks at."""
    if isinstance(test, Not):
        return reach(test.test, kinds)
    if isinstance(test, (And, Or)):
        return max(reach(test.left, kinds), reach(test.right, kinds))
    if isinstance(test, Operator):
        return test.place + len(kinds.parts[test.kind])
    return test.place + 1 if isinstance(test, (At, ReadsAs)) else 0


def after(test, width):
    """What a test says about the tokens after the first ones, as tests."""
    if isinstance(test, And):
        return after(test.left, width) + after(test.right, width)
    moved = moved_by(test, width)
    return [] if moved is None else [moved]


def moved_by(test, width):
    """A test as it reads after `width` tokens; `None` if it is about these."""
    if isinstance(test, (At, Operator, ReadsAs)):
        return replace(test, place=test.place - width) if test.place >= width else None
    if isinstance(test, Not):
        inner = moved_by(test.test, width)
        return None if inner is None else Not(inner)
    if isinstance(test, Or):
        left, right = moved_by(test.left, width), moved_by(test.right, width)
        return None if left is None or right is None else Or(left, right)
    return None


def bounds(test, kinds):
    """The kinds of the next token with which a test surely holds, and those with which it may hold."""
    everything, nothing = kinds.tokens, frozenset()
    if isinstance(test, bool):
        return (everything, everything) if test else (nothing, nothing)
    if isinstance(test, At) and test.place == 0:
        return test.kinds, test.kinds
    if isinstance(test, Operator) and test.place == 0:
        return nothing, frozenset([kinds.parts[test.kind][0]])
    if isinstance(test, ReadsAs) and test.place == 0:
        return nothing, frozenset(['IDENT'])
    if isinstance(test, Not):
        surely, maybe = bounds(test.test, kinds)
        return everything - maybe, everything - surely
    if isinstance(test, (And, Or)):
        left, right = bounds(test.left, kinds), bounds(test.right, kinds)
        join = frozenset.__and__ if isinstance(test, And) else frozenset.__or__
        return join(left[0], right[0]), join(left[1], right[1])
    return nothing, everything


def is_of_next_kind(test, kinds):
    """Whether the kind of the next token alone decides a test."""
    surely, maybe = bounds(test, kinds)
    return surely == maybe
