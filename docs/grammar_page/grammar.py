"""The rules that have an entry on the page, each with what it reads, and what it reports."""
from dataclasses import dataclass, field
from typing import Optional

from grammar_page.antt import Library
from grammar_page.forms import Rule, form_width, is_absent
from grammar_page.kinds import Kinds, elements
from grammar_page.states import State, without_end
from grammar_page.values import Case, Evaluator, Fields, Given, KindOf, Outcome, Scope, Undecided
from grammar_page.walk import ENDS, GIVE_NOTHING, STEPS, Walker

# How many rules are followed into one another at once; those that lie deeper wait.
DEEPEST = 10
ROOTS = (('Entry', 'source_file', ()), ('Modules', 'items', (False,)), ('Entry', 'macro_stmts', ()))


@dataclass
class Summary:
    """How a rule can end that begins where the next token is of some kinds: the outcomes with which something is
    read, those with which nothing is read, each with the kinds of the next token then, and those after a message; and
    how many tokens are read, if it is always as many."""
    present: tuple = ()
    absent: dict = field(default_factory=dict)
    fault: tuple = ()
    width: Optional[int] = None


class Grammar:
    """The grammar of the scripts in the crates of a folder. `names` says which rules have an entry, or have none."""

    def __init__(self, crates, names):
        self.kinds = Kinds(crates)
        self.library = Library(f'{crates}/rap_grammar_scripts/specs')
        self.evaluator = Evaluator(self.library, self.kinds)
        self.names = names
        self.entries, self.turns, self.cases = {}, self.find_turns(), self.find_cases()
        # Of each rule with its arguments: the kinds that the next token may have, the kinds that it is given, its
        # other names, and its outcomes; and of a rule with any arguments: the kinds that the next token may have.
        self.facts, self.kinds_given, self.labels, self.outcomes, self.firsts = {}, {}, {}, {}, {}
        # How rules can end, and which rules depend on it; the tests of scripts; what is still to explore, and what is
        # being explored.
        self.summaries, self.users, self.tests, self.waiting, self.current = {}, {}, {}, {}, [None]

    # -- which rules have an entry

    def is_entry(self, definition):
        """Whether a rule has an entry: it makes a node from its beginning on, or is named."""
        key = definition.module, definition.name
        if key not in self.entries:
            named = self.names.get(key)
            made = all(self.makes_node(body) for _, body in self.library.clauses_of(definition))
            self.entries[key] = named != ['inline'] if named else made and key not in self.turns
        return self.entries[key]

    def find_turns(self):
        """The scripts that are turns of loops."""
        turns = set()
        for definition in self.library.scripts():
            for _, body in self.library.clauses_of(definition):
                if body[0] == 'call' and body[1] == ('name', 'loop'):
                    turn = body[2][0]
                    found = self.library.find(definition.module, turn[1][1] if turn[0] == 'call' else turn[1])
                    turns.add((found.module, found.name))
        return turns

    def makes_node(self, term):
        """Whether a script begins with a marker, after its tests."""
        if term[0] == 'op':
            return term[2] in (('name', 'start'), ('name', 'precede'))
        if term[0] != 'call':
            return False
        word, arguments = term[1][1], term[2]
        if word in ('optional', 'only_if', 'test', 'choose'):
            ways = [it[1][1] for it in elements(arguments[0])] if word == 'choose' else [arguments[1]]
            ways = [it for it in [*ways, *arguments[2:], *arguments[1:2]] if not self.only_reports(it)]
            return bool(ways) and all(map(self.makes_node, ways))
        return False

    def only_reports(self, term):
        """Whether a script begins with a message, or ends at once."""
        head = term[2] if term[0] == 'op' else term
        name = head[1][1] if head[0] == 'call' else head[1]
        return name in ('report', 'skip', 'recover', 'done', 'give')

    def is_alias(self, definition):
        """Whether a rule is but another name of a rule that has an entry, with what that is given."""
        is_hidden = self.names.get((definition.module, definition.name)) == ['inline']
        if definition.parameters or len(definition.clauses) != 1 or is_hidden:
            return False
        (_, body), = self.library.clauses_of(definition)
        target = self.called_alone(body, definition.module)
        return target is not None and bool(target.parameters) and self.is_entry(target)

    def called_alone(self, body, module):
        """The rule that a script consists of; `None` if it does more."""
        if body[0] == 'op' and body[3] == ('name', 'done') and body[2][0] == 'call':
            word, (target,) = body[2][1][1], body[2][2]
            return self.target(target, word == 'recur', module) if word in ('recur', 'call') else None
        if body[0] == 'call' and body[1][1] == 'rule':
            (name,), rest = body[2][1][1:]
            outcome = ('name', name)
            some = ('call', ('name', 'if_some'), (outcome, ('name', 'done'), GIVE_NOTHING))
            is_alone = rest in (some, ('call', ('name', 'give'), (outcome,)))
            return self.target(body[2][0], True, module) if is_alone else None
        if body[0] == 'call' and body[1][1] not in ENDS and body[1][1] not in STEPS:
            return self.target(body, False, module)
        return None

    def target(self, term, is_phrase, module):
        """The definition of a rule that is called."""
        if is_phrase:
            (body, scope) = self.script_of(term, Scope(module))
            return self.target(body, False, scope.module)
        return self.library.find(module, (term[1] if term[0] == 'call' else term)[1])

    # -- calls

    def script_of(self, term, scope):
        """The script of a rule of the knot, and what its names mean."""
        name, arguments = (term[1][1], term[2]) if term[0] == 'call' else (term[1], ())
        for (pattern,), body in self.library.clauses_of(self.library.find_in('Knot', 'script_of')):
            if (pattern[1][1] if pattern[0] == 'call' else pattern[1]) == name:
                names = [it[1] for it in pattern[2]] if pattern[0] == 'call' else []
                return body, Scope('Knot', dict(zip(names, (self.number(it, scope) for it in arguments))))
        raise ValueError(f'no script of {name}')

    def number(self, term, scope):
        try:
            return self.evaluator.value(term, scope)
        except Undecided as undecided:
            if undecided.question == 'outcome':
                raise
            return Given('a number')

    def parameters(self, definition):
        """The names of a definition's parameters: those in its clauses, or those where the knot calls it."""
        clauses = self.library.clauses_of(definition)
        rows = [[it[1] if it[0] == 'name' else '' for it in patterns] for patterns, _ in clauses]
        for _, body in self.library.clauses_of(self.library.find_in('Knot', 'script_of')):
            if body[0] == 'call' and body[1][1] == definition.name:
                rows.append([it[1] for it in body[2]])
        known = [[it for it in column if it not in ('', 'true', 'false') and '.' not in it] for column in zip(*rows)]
        return [it[0] if it else '' for it in known]

    def key_of(self, definition, values):
        """A rule with those of its arguments that are no numbers, kinds, messages and tests."""
        named = zip(values, self.parameters(definition))
        kept = tuple(it if isinstance(it, (bool, Case, Outcome, Fields)) else Given(name) for it, name in named)
        return definition.module, definition.name, kept

    def called(self, key, values, facts):
        """Notes a call: the kinds of the next token, and the kinds that are given."""
        before = self.facts.get(key)
        if before is None or not facts <= before:
            self.facts[key] = (before or frozenset()) | facts
            self.firsts[key[:2]] = self.firsts.get(key[:2], frozenset()) | facts
            self.waiting[key, None] = None
        for at, value in enumerate(values):
            kinds = value.kinds if isinstance(value, KindOf) else frozenset([value] if self.is_kind(value) else [])
            known = self.kinds_given.get((key, at), frozenset())
            if not kinds <= known:
                self.kinds_given[key, at] = known | kinds
                self.waiting[key, None] = None
                self.waiting.update((it, None) for it in self.summaries if it[0] == key)

    def order_of(self, key):
        """The place of a rule with its arguments among the same with others: the cases of an enumeration are in the
        order in which clauses have them, and what holds is before what does not, except in a record."""
        order = []
        for value in key[2]:
            if isinstance(value, Fields):
                order += [holds for _, holds in value.fields]
            else:
                order.append(self.cases.get(value.name, 0) if isinstance(value, Case) else value is not True)
        return (*key[:2], *map(int, order))

    def find_cases(self):
        """The cases of enumerations, in the order in which clauses have them."""
        definitions = [it for module in self.library.modules.values() for it in module.definitions.values()]
        patterns = [it for definition in definitions for row, _ in self.library.clauses_of(definition) for it in row]
        names = [it[1].partition('.')[2] for it in patterns if it[0] == 'name']
        return {name: at for at, name in enumerate(dict.fromkeys(it for it in names if it))}

    def is_kind(self, value):
        return isinstance(value, str) and (value in self.kinds.tokens or value in self.kinds.nodes)

    def arguments(self, key):
        """The arguments of a rule, as far as they are the same at all calls."""
        arguments = []
        for at, kept in enumerate(key[2]):
            kinds = self.kinds_given.get((key, at))
            one = next(iter(kinds)) if kinds and len(kinds) == 1 else None
            arguments.append(one or (KindOf(kinds, name=kept.name) if kinds else kept))
        return arguments

    # -- what rules read

    def run(self, key, facts, lazy):
        """A walker that went along a rule, and the rule's exits."""
        definition = self.library.modules[key[0]].definitions[key[1]]
        walker = Walker(self, lazy)
        body, scope = self.evaluator.clause(definition, self.arguments(key))
        return walker, walker.walk(body, scope, State((), facts))

    def summary(self, key, facts):
        """How a rule can end; of one that is being looked at, what is known so far."""
        place = key, facts
        self.users.setdefault(place, {})[self.current[-1]] = None
        if place not in self.summaries:
            self.summaries[place] = Summary()
            if len(self.current) < DEEPEST:
                self.look_at(place)
            else:
                self.waiting[place] = None
        return self.summaries[place]

    def look_at(self, place):
        """Goes along a rule: once more from the next tokens on that all calls have, or to find out how it can end."""
        key, facts = place
        self.current.append(place)
        if facts is None:
            self.run(key, self.facts[key], True)
        else:
            found = self.summarize(self.run(key, facts, False)[1])
            self.outcomes.setdefault(key, set()).update([*found.present, *found.absent])
            if found != self.summaries[place]:
                self.summaries[place] = found
                self.waiting.update(self.users[place])
        self.current.pop()

    def rule(self, key, definition, label, facts):
        """A rule as a part of a form, where the next token is of some kinds."""
        every = frozenset(self.outcomes.get(key, ()))
        labels = self.labels.setdefault(key, [])
        if label != definition.name and label not in labels:
            labels.append(label)
        few = len(self.firsts[key[:2]]) <= 3
        first = facts if few else frozenset()
        return Rule(definition.module, definition.name, label, self.is_loop(definition), every, every, first, key[2])

    def is_loop(self, definition):
        """Whether a rule is a loop alone, which may have no turn."""
        bodies = [body for _, body in self.library.clauses_of(definition)]
        return all(it[0] == 'call' and it[1] == ('name', 'loop') for it in bodies)

    def summarize(self, exits):
        present, absent, widths = [], {}, set()
        for it in without_end(exits):
            if is_absent(it.state.form):
                absent[it.outcome] = absent.get(it.outcome, frozenset()) | it.state.facts
            else:
                present.append(it.outcome)
                widths.add(form_width(it.state.form, self.kinds))
        fault = dict.fromkeys(it.outcome for it in exits if it.state.fault)
        width = widths.pop() if len(widths) == 1 else None
        return Summary(tuple(dict.fromkeys(present)), absent, tuple(fault), width)

    def explore(self):
        """Finds all rules that are called, until nothing new is found."""
        for module, name, values in ROOTS:
            definition = self.library.modules[module].definitions[name]
            self.called(self.key_of(definition, values), values, self.kinds.tokens)
            while self.waiting:
                place = next(iter(self.waiting))
                del self.waiting[place]
                self.look_at(place)
