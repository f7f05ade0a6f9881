"""The values of terms of antt that are data: what the table of the core grammar computes to.

A value is a number, a truth value, a tuple (a list or a pair), a dictionary (a record), a function, or a constructor
with its arguments (`Made`). Kinds are numbers."""
import glob
from dataclasses import dataclass

from grammar_page import antt

# Constructors that patterns name without arguments, beside those with a capital letter.
CONSTRUCTORS = {'nil', 'sure', 'never', 'unclear', 'nothing', 'something', 'block'}


@dataclass(frozen=True)
class Made:
    """A constructor with its arguments."""
    name: str
    arguments: tuple = ()


@dataclass(frozen=True, eq=False)
class Closure:
    """A function that waits for arguments: a definition, or a lambda with what its names mean. Two are the same where
    these are."""
    definition: object
    term: object
    scope: object
    arguments: tuple = ()

    def parts(self):
        home = (self.definition.module, self.definition.name) if self.definition else ''
        module, names = self.scope or ('', {})
        return home, self.term, module, tuple(sorted(names.items(), key=lambda it: it[0])), self.arguments

    def __eq__(self, other):
        return isinstance(other, Closure) and self.parts() == other.parts()

    def __hash__(self):
        return hash(self.parts())


class Modules(antt.Library):
    """The modules of some folders. Of two with one name that of the earlier folder counts."""

    def __init__(self, folders):
        self.modules, self.bodies, self.renamed = {}, {}, {}
        for folder in folders:
            for path in sorted(glob.glob(f'{folder}/*.antt')):
                if not path.endswith('/Lib.antt'):
                    module = antt.read_module(path)
                    self.modules.setdefault(module.name, module)
        for module in self.modules.values():
            for name, source in list(module.imports.items()):
                old, _, new = name.partition(' as ')
                if new:
                    module.imports[new] = source
                    self.renamed[module.name, new] = old

    def find(self, module, name):
        old = self.renamed.get((module, name))
        return self.find_in(self.modules[module].imports[name], old) if old else super().find(module, name)


class Evaluator:
    """Evaluates terms over modules."""

    def __init__(self, library):
        self.library, self.constants = library, {}

    def of(self, module, name):
        """The value of a definition."""
        return self.name(name, module, {})

    def value(self, term, module, names):
        shape = term[0]
        if shape == 'name':
            return self.name(term[1], module, names)
        if shape == 'call':
            return self.give(self.value(term[1], module, names), [self.value(it, module, names) for it in term[2]])
        if shape == 'op':
            return self.operation(*term[1:], module, names)
        if shape == 'if':
            return self.value(term[2] if self.value(term[1], module, names) else term[3], module, names)
        if shape == 'lambda':
            return Closure(None, term, (module, names))
        if shape == 'record':
            return {name: self.value(it, module, names) for name, it in term[1]}
        if shape == 'tuple':
            return tuple(self.value(it, module, names) for it in term[1])
        return term[1]

    def name(self, name, module, names):
        head, _, field = name.partition('.')
        if name in names:
            return names[name]
        if field and head in names:
            return names[head][int(field) if field.isdigit() else field]
        if name in NATIVE:
            return NATIVE[name](self)
        definition = self.library.find(module, name)
        if definition is None or not definition.clauses:
            return Made(name.split('.')[-1])
        if self.arity(definition):
            return Closure(definition, None, None)
        key = (definition.module, definition.name)
        if key not in self.constants:
            [(_, body)] = self.library.clauses_of(definition)
            self.constants[key] = self.value(body, definition.module, {})
        return self.constants[key]

    def arity(self, definition):
        """How many patterns its clauses have."""
        return len(self.library.clauses_of(definition)[0][0])

    def operation(self, operator, left, right, module, names):
        left = self.value(left, module, names)
        if operator in ('&&', '||'):
            return self.value(right, module, names) if left == (operator == '&&') else left
        right = self.value(right, module, names)
        if operator == '⊳':
            return lambda rest: self.give(left, [self.give(right, [rest])])
        return {'==': lambda: left == right, '∷': lambda: (left, *right), '++': lambda: (*left, *right),
                '+': lambda: left + right, '-': lambda: max(left - right, 0), '*': lambda: left * right}[operator]()

    def give(self, function, arguments):
        """The value of a function for arguments."""
        if not arguments:
            return function
        if isinstance(function, Made):
            return Made(function.name, (*function.arguments, *arguments))
        if not isinstance(function, Closure):
            return self.give(function(arguments[0]), arguments[1:])
        arguments = [*function.arguments, *arguments]
        wanted = self.arity(function.definition) if function.definition else len(function.term[1])
        if len(arguments) < wanted:
            return Closure(function.definition, function.term, function.scope, tuple(arguments))
        if function.definition:
            result = self.apply(function.definition, arguments[:wanted])
        else:
            module, names = function.scope
            result = self.value(function.term[2], module, {**names, **dict(zip(function.term[1], arguments))})
        return self.give(result, arguments[wanted:])

    def apply(self, definition, arguments):
        """The value of a definition for all its arguments."""
        for patterns, body in self.library.clauses_of(definition):
            names = {}
            if all(self.fits(*pair, names, definition.module) for pair in zip(patterns, arguments)):
                return self.value(body, definition.module, names)
        raise ValueError(f'{definition.module}.{definition.name}: no clause for {arguments}')

    def fits(self, pattern, value, names, module):
        """Whether a value fits a pattern; its names are bound."""
        if pattern[0] == 'op':
            return bool(value) and self.fits(pattern[2], value[0], names, module) and \
                self.fits(pattern[3], value[1:], names, module)
        if pattern[0] == 'number':
            return value == pattern[1]
        if pattern[0] == 'call' and pattern[1][1] == 'suc':
            return value > 0 and self.fits(pattern[2][0], value - 1, names, module)
        if pattern[0] == 'call':
            return value.name == pattern[1][1].split('.')[-1] and \
                all(self.fits(*pair, names, module) for pair in zip(pattern[2], value.arguments))
        name = pattern[1]
        if name in NATIVE:
            return value == NATIVE[name](self)
        if '.' in name or name in CONSTRUCTORS or name[:1].isupper():
            return value == Made(name.split('.')[-1])
        names[name] = value
        return True


# What the standard library defines.
NATIVE = {
    'true': lambda _: True,
    'false': lambda _: False,
    '[]': lambda _: (),
    'zero': lambda _: 0,
    'suc': lambda _: lambda value: value + 1,
    'not': lambda _: lambda value: not value,
    'nat_lt': lambda _: lambda left: lambda right: left < right,
    'nat_le': lambda _: lambda left: lambda right: left <= right,
    'map': lambda it: lambda function: lambda items: tuple(it.give(function, [item]) for item in items),
    'list_any': lambda it: lambda function: lambda items: any(it.give(function, [item]) for item in items),
}
