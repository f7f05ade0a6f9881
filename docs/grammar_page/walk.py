"""Goes along a script as the parser does, on all ways at once, and collects what is read on each way that reports
nothing, what is reported on the others, and which tests choose between the ways."""
from dataclasses import dataclass, replace

from grammar_page.forms import Mark, Maybe, Token, abandon, finish, form_width, is_absent, may_be_empty, since_start
from grammar_page.loops import Loop
from grammar_page.states import Call, Exit, Limit, Message, State, groups_of, read_by
from grammar_page.tests import Last, Not, ReadsAs, There, after, bounds, no
from grammar_page.values import NOTHING, SOMETHING, UNKNOWN, Given, KindOf, Scope, Undecided

# The words of scripts that something follows, and how many arguments each has.
STEPS = {'token': 1, 'any': 0, 'bear': 1, 'report': 1, 'report_next': 1, 'skip': 1, 'start': 0, 'precede': 0,
         'finish': 1, 'extend': 0, 'abandon': 0, 'eat': 1, 'eat_as': 1, 'expect': 1, 'call': 1, 'recur': 1}
# Those that end a script.
ENDS = ('give', 'done', 'test', 'choose', 'optional', 'only_if', 'recover', 'ends_with', 'after', 'rule', 'loop',
        'by_operator', 'split_float', 'if_some')
GIVE_NOTHING = ('call', ('name', 'give'), (('name', 'nothing'),))


@dataclass(frozen=True)
class Thunk:
    """A script that is an argument."""
    term: tuple
    scope: Scope

    def __hash__(self):
        return id(self)


class Walker:
    """Goes along the script of one rule."""

    def __init__(self, grammar, lazy):
        self.grammar, self.evaluator, self.kinds = grammar, grammar.evaluator, grammar.kinds
        self.lazy = lazy
        self.label, self.begins, self.depth = None, [()], 0
        self.messages, self.limits, self.loose, self.calls = [], [], [], []

    # -- scripts

    def walk(self, term, scope, state):
        """All exits of a script."""
        if term[0] == 'op' and term[1] == '▸':
            return self.step(term[2], term[3], scope, state)
        if term[0] == 'if':
            return self.either(self.evaluator.value(term[1], scope), term[2], term[3], scope, state)
        head, arguments = (term[1], term[2]) if term[0] == 'call' else (term, ())
        word = head[1]
        if word in scope.names:
            thunk = scope.names[word]
            return self.walk(thunk.term, thunk.scope, state)
        if STEPS.get(word) == len(arguments) - 1:
            word = ('call', head, arguments[:-1]) if arguments[:-1] else head
            return self.step(word, arguments[-1], scope, state)
        if word in ENDS:
            return getattr(self, f'end_{word}')(scope, state, *arguments)
        return self.named(head, arguments, scope, state)

    def named(self, head, arguments, scope, state):
        """The exits of a script that has a name."""
        definition = self.grammar.library.find(scope.module, head[1])
        if definition is None:
            raise ValueError(f'{scope.module}: no script {head[1]}')
        values = [self.argument(it, kind, scope) for it, kind in zip(arguments, definition.parameters)]
        if self.grammar.is_entry(definition):
            return self.enter(definition, values, state)
        if self.grammar.is_alias(definition):
            self.label = definition.name
        body, inner = self.evaluator.clause(definition, values)
        self.begins.append(state.form)
        exits = self.walk(body, inner, state)
        self.begins.pop()
        return exits

    def argument(self, term, kind, scope):
        if kind.startswith('Script'):
            if term[0] == 'name' and isinstance(scope.names.get(term[1]), Thunk):
                return scope.names[term[1]]
            return Thunk(term, scope)
        if kind == 'Test':
            return Thunk(term, scope)
        return self.evaluator.value(term, scope)

    def step(self, word, rest, scope, state):
        """The exits after a word and what follows it."""
        arguments = word[2] if word[0] == 'call' else ()
        name = word[1][1] if word[0] == 'call' else word[1]
        if name == 'abandon' and rest == GIVE_NOTHING and not state.fault:
            return self.unmade(state)
        if name in ('call', 'recur'):
            run = self.walk if name == 'call' else self.phrase
            states = groups_of(self.within(run, arguments[0], scope, state))
            return [it for at in states for it in self.rest(rest, scope, at)]
        passed = getattr(self, f'step_{name}')(state, scope, *arguments)
        message = self.messages[-1] if name in ('report', 'report_next', 'skip') else None
        exits = self.rest(rest, scope, passed)
        if message:
            message.follow(passed, exits, not self.depth)
        return exits

    def within(self, run, *arguments):
        """The exits of a script with which this one does not end."""
        self.depth += 1
        try:
            return run(*arguments)
        finally:
            self.depth -= 1

    def rest(self, rest, scope, state):
        """The exits of the rest of a script. Where that is another rule, which is not there and returns nothing, what
        was read before it counts as not read."""
        exits = self.walk(rest, scope, state)
        head = rest[1] if rest[0] == 'call' else rest
        definition = self.grammar.library.find(scope.module, head[1]) if head[0] == 'name' else None
        if state.fault or not definition or not definition.is_script() or not self.grammar.is_entry(definition):
            return exits
        kept = [it for it in exits if it.outcome != NOTHING or it.state.form != state.form or it.state.fault]
        read = state.form[len(self.begins[-1]):]
        if len(kept) == len(exits) or is_absent(read):
            return exits
        self.loose.append(read)
        return kept

    def unmade(self, state):
        """Exits where a node was not made and nothing is returned: what it would have in it counts as not read."""
        before, inside = since_start(state.form)
        if before is None:
            return [Exit(NOTHING, replace(state, form=abandon(state.form)))]
        if not is_absent(inside):
            self.loose.append(inside)
        return [Exit(NOTHING, replace(state, form=before))] if may_be_empty(inside) else []

    # -- words

    def took(self, state, part, width=None):
        """The state after a part; if its width is known, tests of what follows it still hold."""
        width = form_width((part,), self.kinds) or width
        tests = tuple(it for test in state.tests for it in after(test, width)) if width else ()
        facts = self.kinds.tokens
        for test in tests:
            facts &= bounds(test, self.kinds)[1]
        return State((*state.form, part), facts, tests, state.fault)

    def kind(self, term, scope):
        value = self.evaluator.value(term, scope)
        return value.kinds if isinstance(value, KindOf) else frozenset([value])

    def step_token(self, state, scope, kind):
        return self.took(state, Token(self.kind(kind, scope)))

    def step_bear(self, state, scope, kind):
        kinds = self.kind(kind, scope)
        return self.took(state, Token(state.facts if kinds == {'IDENT'} else kinds))

    def step_any(self, state, scope):
        return self.took(state, Token(state.facts - {'EOF'}))

    def step_start(self, state, scope):
        return replace(state, form=(*state.form, Mark('start')))

    def step_precede(self, state, scope):
        return replace(state, form=(*state.form, Mark('precede')))

    def step_finish(self, state, scope, kind):
        return replace(state, form=finish(state.form, self.evaluator.value(kind, scope)))

    def step_extend(self, state, scope):
        return replace(state, form=abandon(state.form))

    def step_abandon(self, state, scope):
        return replace(state, form=abandon(state.form))

    def report(self, state, how, text, keeps=None):
        self.messages.append(Message(text, how, state.form, state.tests, state.fault, keeps))

    def step_report(self, state, scope, text):
        self.report(state, 'report', self.evaluator.value(text, scope))
        return replace(state, fault=True)

    def step_report_next(self, state, scope, text):
        self.report(state, 'report', self.evaluator.value(text, scope) + 'KIND')
        return replace(state, fault=True)

    def step_skip(self, state, scope, text):
        self.report(state, 'skip', self.evaluator.value(text, scope))
        return replace(state, facts=self.kinds.tokens, tests=(), fault=True)

    def step_eat(self, state, scope, kind):
        test = self.evaluator.native_comes(0, self.evaluator.value(kind, scope))
        return self.eaten(state, self.kind(kind, scope), test)

    def step_eat_as(self, state, scope, kind):
        return self.eaten(state, self.kind(kind, scope), ReadsAs(0, self.evaluator.value(kind, scope)))

    def eaten(self, state, kinds, test):
        holds = self.decide(test, state)
        if holds is None:
            return self.took(state, Maybe((Token(kinds),)))
        return self.took(state, Token(kinds)) if holds else state

    def step_expect(self, state, scope, kind):
        kind = self.evaluator.value(kind, scope)
        test = self.evaluator.native_comes(0, kind)
        holds = self.decide(test, state)
        if holds is not True:
            self.report(state, 'missing' if holds is None else 'report', f'expected {self.given(kind)}')
        if holds is False:
            return replace(state, fault=True)
        return self.took(state, Token(frozenset([kind])))

    def given(self, value):
        return value.name if isinstance(value, Given) else value

    def phrase(self, term, scope, state):
        """The exits of a rule of the knot."""
        body, inner = self.grammar.script_of(term, scope)
        return self.walk(body, inner, state)

    # -- ends

    def end_done(self, scope, state):
        return [Exit(SOMETHING, state)]

    def end_give(self, scope, state, term):
        try:
            outcome = self.evaluator.value(term, scope)
        except Undecided as undecided:
            if undecided.question != 'outcome' or not self.lazy:
                raise
            outcome = UNKNOWN
        return [Exit(outcome, state)]

    def end_test(self, scope, state, test, yes, otherwise):
        return self.either(self.test(test, scope), yes, otherwise, scope, state)

    def end_choose(self, scope, state, ways, otherwise):
        if ways == ('name', '[]'):
            return self.walk(otherwise, scope, state)
        test, way = ways[2][1]
        return self.branch(
            self.test(test, scope), lambda it: self.walk(way, scope, it),
            lambda it: self.end_choose(scope, it, ways[3], otherwise), state)

    def end_optional(self, scope, state, test, yes):
        return self.end_test(scope, state, test, yes, ('name', 'done'))

    def end_only_if(self, scope, state, test, yes):
        def nothing(at):
            return [Exit(NOTHING, self.given_up(at))]
        return self.branch(self.test(test, scope), lambda it: self.walk(yes, scope, it), nothing, state)

    def given_up(self, state):
        """The state of a rule that returns nothing: what it may have read before counts as not read."""
        begin = self.begins[-1]
        rest = state.form[len(begin):]
        if state.fault or not rest or is_absent(rest) or state.form[:len(begin)] != begin or not may_be_empty(rest):
            return state
        self.loose.append(rest)
        return replace(state, form=begin)

    def end_ends_with(self, scope, state, kind, yes, otherwise):
        return self.either(Last(self.evaluator.value(kind, scope)), yes, otherwise, scope, state)

    def end_recover(self, scope, state, text, kept, reported, skipped):
        keeps = self.evaluator.value(kept, scope)
        self.report(state, 'recover', self.evaluator.value(text, scope), self.kept(keeps))
        message = self.messages[-1]
        exits = self.walk(reported, scope, replace(state, fault=True))
        message.follow(state, exits, not self.depth)
        return exits + self.walk(skipped, scope, State(state.form, self.kinds.tokens, (), True))

    def kept(self, function):
        """The tokens that a recovery does not skip."""
        if isinstance(function, Given):
            return function
        return self.evaluator.native_kind_so(0, function)

    def end_if_some(self, scope, state, outcome, some, none):
        value = self.evaluator.value(outcome, scope)
        self.evaluator.known(value)
        return self.walk(none if value == NOTHING else some, scope, state)

    def end_rule(self, scope, state, phrase, function):
        return self.exits_after(lambda it: it.within(it.phrase, phrase, scope, state), function, scope, state)

    def end_after(self, scope, state, rule, function):
        return self.exits_after(lambda it: it.within(it.walk, rule, scope, state), function, scope, state)

    def exits_after(self, run, function, scope, state):
        """The exits after a rule whose outcome a function may look at."""
        name, body = function[1][0], function[2]
        label = self.label
        exits = run(self)
        if self.lazy:
            count = len(self.messages), len(self.limits)
            try:
                inner = scope.bind({name: UNKNOWN})
                return [it for state in groups_of(exits) for it in self.walk(body, inner, state)]
            except Undecided as undecided:
                if undecided.question != 'outcome':
                    raise
                del self.messages[count[0]:], self.limits[count[1]:]
        if any(it.outcome == UNKNOWN for it in exits):
            exits = run(self.eager(label))
        results = []
        for outcome in dict.fromkeys(it.outcome for it in exits):
            for state in groups_of([it for it in exits if it.outcome == outcome]):
                results += self.walk(body, scope.bind({name: outcome}), state)
        return results

    def eager(self, label):
        """Another walker, which explores each outcome; what is reported was noted before."""
        walker = Walker(self.grammar, False)
        walker.label, walker.begins = label, list(self.begins)
        return walker

    def end_by_operator(self, scope, state, function):
        return self.by_operator(function, frozenset(self.kinds.powers), scope, state)

    def by_operator(self, function, operators, scope, state):
        """The exits of a script for one of these operators, which comes next."""
        count = len(self.messages), len(self.limits)
        try:
            term = ('call', function[1], (*function[2], ('name', 'the operator')))
            return self.walk(term, scope.bind({'the operator': KindOf(operators, asked=True)}), state)
        except Undecided as undecided:
            if undecided.question != 'operator':
                raise
            answers = undecided.answers
        del self.messages[count[0]:], self.limits[count[1]:]
        return [it for answer in answers for it in self.by_operator(function, answer, scope, state)]

    def end_split_float(self, scope, state, dotted, whole):
        taken = self.took(state, Token(frozenset(['FLOAT_NUMBER'])))
        taken = replace(taken, form=finish(taken.form, 'FIELD_EXPR'))
        return self.walk(dotted, scope, taken) + self.walk(whole, scope, taken)

    # -- tests

    def test(self, term, scope):
        """The test of a script, of the tokens that come next."""
        known = self.grammar.tests
        place = scope.module, id(term)
        if place not in known:
            known[place] = None if names_in(term) & set(scope.names) else self.new_test(term, scope)
        return self.new_test(term, scope) if known[place] is None else known[place]

    def new_test(self, term, scope):
        if term[0] == 'name' and isinstance(scope.names.get(term[1]), Thunk):
            thunk = scope.names[term[1]]
            return self.test(thunk.term, thunk.scope)
        return self.evaluator.value(term, scope)

    def decide(self, test, state):
        """Whether a test holds in a state; `None` if it may or may not."""
        if isinstance(test, bool):
            return test
        if test in state.tests or no(test) in state.tests:
            return test in state.tests
        surely, maybe = bounds(test, self.kinds)
        if not state.facts - surely:
            return True
        return None if state.facts & maybe else False

    def either(self, test, yes, otherwise, scope, state):
        """The exits of two scripts, by a test."""
        def walk(term):
            return lambda at: self.walk(term, scope, at)
        return self.branch(test, walk(yes), walk(otherwise), state)

    def branch(self, test, yes, otherwise, state):
        """The exits of both ways of a test."""
        holds = self.decide(test, state)
        if holds is not None:
            return yes(state) if holds else otherwise(state)
        surely, maybe = bounds(test, self.kinds)
        there = yes(replace(state, facts=state.facts & maybe, tests=(*state.tests, test)))
        elsewhere = otherwise(replace(state, facts=state.facts - surely, tests=(*state.tests, no(test))))
        self.limits.append(Limit(test, read_by(state, there), read_by(state, elsewhere), state.facts))
        return there + elsewhere

    # -- other rules

    def enter(self, definition, values, state):
        """The exits of a rule that has its own entry."""
        label, self.label = self.label or definition.name, None
        key = self.grammar.key_of(definition, values)
        self.grammar.called(key, values, state.facts)
        summary = self.grammar.summary(key, state.facts)
        rule = self.grammar.rule(key, definition, label, state.facts)
        self.note_given(definition, values, rule, state)
        exits = []
        for outcome in summary.present:
            exits.append(Exit(outcome, self.took(state, replace(rule, only=frozenset([outcome])), summary.width)))
        for outcome, facts in summary.absent.items():
            part = (replace(rule, only=frozenset([outcome])),) if rule.may_lack else ()
            tests = (*state.tests, Not(There(rule.plain()))) if outcome == NOTHING else state.tests
            exits.append(Exit(outcome, State((*state.form, *part), state.facts & facts, tests, state.fault)))
        known = {it.outcome for it in exits}
        fault = replace(self.took(state, rule), fault=True)
        return exits + [Exit(it, fault) for it in summary.fault if it not in known]

    def note_given(self, definition, values, rule, state):
        """Notes what another rule is given, and a message among it."""
        is_free = all(isinstance(it, Not) for it in state.tests) and len(state.facts) > len(self.kinds.tokens) // 2
        self.calls.append(Call(rule.plain(), tuple(values), state.form, is_free))
        for value, kind in zip(values, definition.parameters):
            if kind == 'List ℕ':
                self.messages.append(Message(value, 'report', state.form, state.tests, state.fault, by=rule))

    # -- loops

    def end_loop(self, scope, state, turn, first, second):
        flags = (self.evaluator.value(first, scope), self.evaluator.value(second, scope))
        return Loop(self, turn, scope, state).exits(flags)


def names_in(term):
    """The names that a term has, and those that begin a name of several parts."""
    if not isinstance(term, tuple):
        return set()
    if term[:1] == ('name',):
        return {term[1], term[1].partition('.')[0]}
    return set().union(*map(names_in, term))
