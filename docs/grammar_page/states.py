"""The states of the ways through a script and how they end, what was noted on them, and how ways are joined."""
from dataclasses import dataclass, replace
from typing import Optional

from grammar_page.forms import Node, added, shared_head, unmarked
from grammar_page.shorten import alternatives, sequence
from grammar_page.values import NOTHING, Outcome

# Ways are kept apart where so few kinds of tokens may come next.
FEW_KINDS = 2


@dataclass(frozen=True)
class State:
    """The state of a way: what it has read, which kinds the next token may have, which tests hold of the next tokens,
    and whether something was reported."""
    form: tuple
    facts: frozenset
    tests: tuple = ()
    fault: bool = False


@dataclass(frozen=True)
class Exit:
    """How a way ends: what the rule returns, and the state then."""
    outcome: Outcome
    state: State


@dataclass(frozen=True)
class Limit:
    """A form that is read where a test holds, the form that is read elsewhere, and which kinds the next token may
    have."""
    test: object
    form: tuple
    otherwise: tuple
    facts: frozenset


@dataclass(frozen=True)
class Call:
    """A call of another rule: what it is given, what was read before, and whether it may find nothing of its own."""
    rule: object
    given: tuple
    before: tuple
    is_free: bool


@dataclass
class Message:
    """What is reported.

    `how` says in which way: a token is `missing`; a `report`; a `skip`, with the next token in an `ERROR`; or
    `recover`, which is a skip unless that token is one of those in `keeps`. `before` is what was read before,
    `tests` holds there; `late` says that something was reported before. In a loop's turn `element` is what stands in
    this place in one that is right, and `in_list` says that it may be several things. `by` is the rule that reports
    it, if that is another one. `after` is what is read next, `closed` the node that ends there, `outcome` what is
    returned; where that depends on a test, it is something where `goes_on` holds."""
    text: str
    how: str
    before: tuple
    tests: tuple
    late: bool
    keeps: object = None
    by: object = None
    element: Optional[tuple] = None
    in_list: bool = False
    after: tuple = ()
    closed: str = ''
    outcome: object = None
    goes_on: object = None

    def follow(self, state, exits, is_last):
        """Notes what follows the message; `is_last` says that the rule ends then."""
        if not exits:
            return
        self.after, self.closed = added(unmarked(state.form), unmarked(exits[0].state.form))
        if len({it.outcome for it in exits}) == 1:
            self.outcome = exits[0].outcome if is_last else None
        elif exits[0].state.tests and exits[0].outcome != NOTHING:
            self.goes_on = exits[0].state.tests[-1]


def without_end(exits):
    """The ways that reported nothing; of these not those that the end of the input cut short, where others go on as
    well: it may come next after those."""
    right = [it for it in exits if not it.state.fault]
    cut = {it.outcome for it in right if it.state.facts == {'EOF'}}
    going = {it.outcome for it in right if it.state.facts != {'EOF'}}
    kept = [it for it in right if it.state.facts != {'EOF'} or it.outcome not in going]
    return [Exit(it.outcome, with_end(it.state)) if it.outcome in cut & going else it for it in kept]


def with_end(state):
    return replace(state, facts=state.facts | {'EOF'})


def groups_of(exits):
    """The states of ways that go on: apart where it is known what comes next or which node was made."""
    groups = {}
    for it in without_end(exits) or exits:
        known = it.state.facts if len(it.state.facts) <= FEW_KINDS and not it.state.fault else None
        nodes = [part.kind for part in it.state.form if isinstance(part, Node)]
        groups.setdefault((known, *nodes), []).append(it)
    return [merged(it) for it in groups.values()]


def merged(exits):
    """The state of ways that go on together: those that reported nothing, if there are any."""
    right = [it.state for it in without_end(exits)]
    states = right or [it.state for it in exits]
    facts = frozenset().union(*(it.facts for it in states))
    if not right:
        return State(states[0].form, facts, (), True)
    head = shared_head([it.form for it in states])
    form = sequence((*states[0].form[:head], *alternatives([it.form[head:] for it in states])))
    tests = states[0].tests if all(it.tests == states[0].tests for it in states) else ()
    return State(form, facts, tests)


def read_by(state, exits):
    """What is read after a state on the ways that report nothing; `None` if there is no such way."""
    forms = [added(unmarked(state.form), unmarked(it.state.form))[0] for it in exits if not it.state.fault]
    return alternatives(forms) if forms else None
