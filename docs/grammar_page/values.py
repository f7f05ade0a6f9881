"""Evaluates the terms of scripts that are no scripts: kinds, truth values, outcomes, tests and messages."""
import functools
import re
from dataclasses import dataclass, replace

from grammar_page.tests import At, Operator, ReadsAs, Said, both, either, no

KIND = re.compile(r'[A-Z][A-Z0-9]*(_[A-Z0-9]+)*')


class Undecided(Exception):
    """A value that a script needs is not known: what is asked, and the answers that it may have."""

    def __init__(self, question, answers):
        super().__init__(question)
        self.question, self.answers = question, answers


@dataclass(frozen=True)
class Outcome:
    """What a rule returns."""
    name: str
    flags: tuple = ()


NOTHING, SOMETHING, BLOCK = Outcome('nothing'), Outcome('something'), Outcome('block')
UNKNOWN = Outcome('unknown')
CONSTANTS = {'true': True, 'false': False, 'nothing': NOTHING, 'something': SOMETHING, 'block': BLOCK, '[]': ()}


@dataclass(frozen=True)
class Case:
    """A case of an enumeration."""
    name: str


@dataclass(frozen=True)
class Fields:
    """A record."""
    fields: tuple

    def get(self, name):
        return dict(self.fields)[name]


@dataclass(frozen=True)
class Given:
    """A number, a message or a test that the caller passes."""
    name: str


@dataclass(frozen=True)
class KindOf:
    """One of these kinds; `power` where its power is meant, `asked` where a script may ask which one, and the name
    that it has where the caller gives it."""
    kinds: frozenset
    power: bool = False
    asked: bool = False
    name: str = ''


@dataclass(frozen=True)
class TokenAt:
    """The kind of the token at a place, or the keyword that it may be read as, or its edition."""
    place: int
    what: str


@dataclass(frozen=True)
class Choice:
    """A value that a test decides."""
    test: object
    yes: object
    no: object


class Function:
    """A function with its first arguments: a definition, or a term with what its names mean."""

    def __init__(self, definition=None, arguments=(), term=None, scope=None):
        self.definition, self.arguments, self.term, self.scope = definition, arguments, term, scope

    def name(self):
        if self.definition:
            return self.definition.name
        return '' if self.term[0] != 'lambda' else 'λ'


class Scope:
    """What the names of a term mean: those that are bound here, and those of its module."""

    def __init__(self, module, names=None):
        self.module, self.names = module, names or {}

    def bind(self, names):
        return Scope(self.module, {**self.names, **names})


class Evaluator:
    """Evaluates terms over a library of modules."""

    def __init__(self, library, kinds):
        self.library, self.kinds = library, kinds
        self.sets = {}

    # -- terms

    def value(self, term, scope):
        shape = term[0]
        if shape == 'name':
            return self.name(term[1], scope)
        if shape == 'call':
            return self.call(term, scope)
        if shape == 'op':
            return self.operation(term[1], term[2], term[3], scope)
        if shape == 'if':
            test = self.value(term[1], scope)
            return self.choose(test, lambda: self.value(term[2], scope), lambda: self.value(term[3], scope))
        if shape == 'lambda':
            return Function(term=term, scope=scope)
        if shape == 'record':
            return Fields(tuple((name, self.value(it, scope)) for name, it in term[1]))
        if shape == 'tuple':
            return tuple(self.value(it, scope) for it in term[1])
        return term[1]

    def name(self, name, scope):
        if name in scope.names:
            return scope.names[name]
        record, _, field = name.partition('.')
        if field and isinstance(scope.names.get(record), Fields):
            return scope.names[record].get(field)
        if name in CONSTANTS:
            return CONSTANTS[name]
        if KIND.fullmatch(name):
            return name
        definition = self.library.find(scope.module, name)
        if definition is None:
            return Case(field) if field else Function(definition=None, term=('name', name), scope=scope)
        return Function(definition) if definition.parameters else self.apply(definition, ())

    def operation(self, operator, left, right, scope):
        left = self.value(left, scope)
        if operator == '&&':
            return both(left, self.value(right, scope)) if left is not False else False
        if operator == '||':
            return either(left, self.value(right, scope)) if left is not True else True
        right = self.value(right, scope)
        if operator == '==':
            return self.equal(left, right)
        if operator == '∷':
            return (left, *right)
        if operator == '+' and isinstance(left, int):
            return left + right
        return Given('a number')

    def choose(self, test, yes, not_so):
        """One of two values, by a test."""
        if isinstance(test, bool):
            return yes() if test else not_so()
        yes, not_so = yes(), not_so()
        if all(isinstance(it, bool) or it.__class__.__module__ == At.__module__ for it in (yes, not_so)):
            return either(both(test, yes), both(no(test), not_so))
        return Choice(test, yes, not_so)

    def equal(self, left, right):
        if isinstance(left, TokenAt):
            kinds = frozenset([right])
            return ReadsAs(left.place, right) if left.what == 'reading' else At(left.place, kinds)
        if isinstance(left, KindOf):
            same = {it for it in left.kinds if (self.kinds.powers.get(it, 0) if left.power else it) == right}
            if not same or same == left.kinds:
                return bool(same)
            if left.asked:
                raise Undecided('operator', [frozenset(same), left.kinds - same])
            return Said(f'`{left.name}` is `{right}`', f'`{left.name}` is not `{right}`')
        return left == right

    # -- calls

    def call(self, term, scope):
        head, arguments = term[1], term[2]
        is_own = head[0] == 'name' and head[1] not in scope.names
        native = getattr(self, f'native_{head[1]}', None) if is_own else None
        if native:
            return native(*(self.value(it, scope) for it in arguments))
        function = self.value(head, scope)
        return self.give(function, [self.value(it, scope) for it in arguments])

    def give(self, function, arguments):
        """The value of a function for arguments."""
        if isinstance(function, Given):
            return Said(f'the caller\'s `{function.name}` holds', f'the caller\'s `{function.name}` does not hold')
        if function.definition:
            arguments = [*function.arguments, *arguments]
            if len(arguments) < len(function.definition.parameters):
                return Function(function.definition, arguments)
            return self.apply(function.definition, arguments)
        if function.term[0] == 'lambda':
            names = dict(zip(function.term[1], arguments))
            return self.value(function.term[2], function.scope.bind(names))
        native = getattr(self, f'native_{function.term[1]}', None)
        if native is None:
            raise ValueError(f'{function.scope.module}: no meaning of {function.term}')
        return native(*function.arguments, *arguments)

    def apply(self, definition, arguments):
        """The value of a definition for all its arguments."""
        for at, argument in enumerate(arguments):
            if isinstance(argument, Choice):
                ways = [[*arguments[:at], it, *arguments[at + 1:]] for it in (argument.yes, argument.no)]
                yes, not_so = (functools.partial(self.apply, definition, it) for it in ways)
                return self.choose(argument.test, yes, not_so)
        kind = next((it for it in arguments if isinstance(it, TokenAt)), None)
        if kind and definition.result == 'Bool':
            return self.named(definition, arguments, kind)
        body, scope = self.clause(definition, arguments)
        return self.value(body, scope)

    def clause(self, definition, arguments):
        """The body of the clause that fits, and what its names mean."""
        for patterns, body in self.library.clauses_of(definition):
            names = {}
            if all(self.fits(pattern, it, names, definition.module) for pattern, it in zip(patterns, arguments)):
                return body, Scope(definition.module, names)
        raise ValueError(f'{definition.module}.{definition.name}: no clause for {arguments}')

    def fits(self, pattern, value, names, module):
        """Whether a value fits a pattern; its names are bound."""
        if pattern[0] == 'call':
            constructor = pattern[1][1]
            self.known(value)
            return value.name == constructor and all(
                self.fits(it, flag, names, module) for it, flag in zip(pattern[2], value.flags))
        name = pattern[1]
        if name in CONSTANTS or '.' in name:
            self.known(value)
            return value == self.name(name, Scope(module))
        names[name] = value
        return True

    def known(self, value):
        if value == UNKNOWN:
            raise Undecided('outcome', None)
        if not isinstance(value, (bool, Outcome, Case, tuple)):
            raise Undecided('value', value)

    def named(self, definition, arguments, kind):
        """A test of one token's kind, as a set of kinds with the definition's name."""
        key = (definition.module, definition.name, *(it for it in arguments if it is not kind))
        if key not in self.sets:
            body, scope = self.clause(definition, arguments)
            test = self.value(body, scope)
            self.sets[key] = frozenset(it for it in self.kinds.tokens if self.holds(test, it))
        return At(kind.place, self.sets[key])

    def named_sets(self):
        """The sets of kinds that have a name: each definition that tests one token's kind alone."""
        sets = {'is_any_identifier': self.kinds.identifiers()}
        for module in self.library.modules.values():
            for definition in module.definitions.values():
                if definition.parameters == ('ℕ',) and definition.result == 'Bool':
                    sets[definition.name] = self.apply(definition, [TokenAt(0, 'kind')]).kinds
        return sets

    def holds(self, test, kind):
        """Whether a test of one token's kind holds for a kind."""
        shape = test.__class__.__name__
        if isinstance(test, bool):
            return test
        if shape == 'Not':
            return not self.holds(test.test, kind)
        if shape in ('And', 'Or'):
            parts = (self.holds(test.left, kind), self.holds(test.right, kind))
            return all(parts) if shape == 'And' else any(parts)
        return kind in test.kinds

    # -- what other crates and the words of scripts define

    def native_again(self, first, second):
        return Outcome('again', (first, second))

    def native_not(self, test):
        return no(test)

    def native_codes(self, text):
        return text

    def native_expected(self, kind):
        return f'expected {kind}'

    def native_kind_so(self, place, function):
        return self.give(function, [TokenAt(place, 'kind')])

    def native_word_so(self, place, function):
        return self.give(function, [TokenAt(place, 'reading')])

    def native_edition_so(self, place, function):
        return self.give(function, [TokenAt(place, 'edition')])

    def native_comes(self, place, kind):
        if isinstance(kind, Given):
            return Said(f'the caller\'s `{kind.name}` comes next', f'the caller\'s `{kind.name}` does not come next')
        return Operator(place, kind) if kind in self.kinds.parts else At(place, frozenset([kind]))

    def native_operator_so(self, function):
        return self.give(function, [KindOf(frozenset(self.kinds.powers) | {'EOF'})])

    def native_negated(self, test):
        return no(test)

    def native_also(self, left, right):
        return both(left, right)

    def native_or_else(self, left, right):
        return either(left, right)

    def native_told(self, value):
        return value

    def native_reads_as(self, kind):
        return ReadsAs(0, kind)

    def native_at_least_2018(self, edition):
        return Said('the edition is 2018 or later', 'the edition is 2015')

    def native_one_of(self, kinds, kind=None):
        if kind is None:
            return Function(arguments=[kinds], term=('name', 'one_of'))
        return At(kind.place, frozenset(kinds)) if isinstance(kind, TokenAt) else kind in kinds

    def native_is_any_identifier(self, kind):
        return At(kind.place, self.kinds.identifiers())

    def native_power(self, kind):
        return replace(kind, power=True) if isinstance(kind, KindOf) else self.kinds.powers.get(kind, 0)

    def native_nat_lt(self, left, right):
        power = 'the power of the operator is'
        return Said(f'{power} below `{right.name}`', f'{power} `{right.name}` or more')
