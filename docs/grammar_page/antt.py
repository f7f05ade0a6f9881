"""Reads the definitions of a folder of antt modules.

A term is a tuple whose first part says what it is:
    ('name', 'x')   ('number', 3)   ('text', 'expected a name')
    ('call', head, (term, ..))   ('op', '▸', left, right)   ('lambda', ('v', ..), body)
    ('if', condition, then, else)   ('tuple', (term, ..))   ('record', ((field, term), ..))"""
import glob
import os
import re
from dataclasses import dataclass, field

TOKEN = re.compile(r'\s+|--[^\n]*|"(?:\\.|[^"\\])*"|[()\[\]{},;]|[^\s()\[\]{},;"λ]+|λ')
# Each operator with how tightly it binds. All go to the right but those of shapes.
POWERS = {'▸': 1, '||': 2, '&&': 3, 'has': 3, '==': 4, '⊳': 4, 'or': 4, '⋅': 5, '∷': 5, '++': 5, '+': 6, '-': 6, '*': 7}
LEFT = ('or', '⋅')
DEFINITION = re.compile(r'^(?:(?:unfoldable|abbrev|pub) )+([^\s:(]+) : (.*)$')
IMPORT = re.compile(r'^(?:(?:unfoldable|pub) )*use Rattle\.([\w.]+?)(?:\.\{([^}]*)\}| as (\w+))$')


@dataclass
class Definition:
    """A definition: its module, its name, the types of its parameters, its result, and its clauses: patterns and a
    body each, which is read when it is asked for."""
    module: str
    name: str
    parameters: tuple
    result: str
    comment: str
    clauses: list = field(default_factory=list)

    def is_script(self):
        return self.result.startswith('Script ')


@dataclass
class Module:
    """A module: the first lines of its file, its definitions, and where the names come from that it imports."""
    name: str
    comment: str
    definitions: dict
    imports: dict
    aliases: dict


def tokens_of(text):
    """The tokens of a text, without blanks and comments."""
    found = [it for it in TOKEN.findall(text) if it.strip() and not it.startswith('--')]
    if sum(map(len, TOKEN.findall(text))) != len(text):
        raise ValueError(f'no token: {text[:60]}')
    return found


class Reader:
    """Reads terms from a list of tokens."""

    def __init__(self, text):
        self.tokens = tokens_of(text)
        self.place = 0

    def peek(self):
        return self.tokens[self.place] if self.place < len(self.tokens) else None

    def take(self, wanted=None):
        token = self.peek()
        if token is None or wanted not in (None, token):
            raise ValueError(f'expected {wanted}, found {token} in {" ".join(self.tokens)[:200]}')
        self.place += 1
        return token

    def term(self, least=0):
        """A term whose operators bind at least so tightly."""
        if self.peek() == 'λ':
            return self.function()
        if self.peek() == 'if':
            return self.condition()
        left = self.call()
        while POWERS.get(self.peek(), -1) >= least:
            operator = self.take()
            left = ('op', operator, left, self.term(POWERS[operator] + (operator in LEFT)))
        return left

    def function(self):
        self.take('λ')
        names = []
        while True:
            name = self.take()
            names.append(name.removesuffix('.'))
            if name.endswith('.'):
                return ('lambda', tuple(it for it in names if it), self.term())

    def condition(self):
        self.take('if')
        parts = [self.term()]
        for word in ('then', 'else'):
            self.take(word)
            parts.append(self.term())
        return ('if', *parts)

    def call(self):
        head, arguments = self.atom(), []
        while self.peek() not in (None, ')', ']', '}', ',', ';', 'then', 'else', '=') and self.peek() not in POWERS:
            arguments.append(self.atom())
        return ('call', head, tuple(arguments)) if arguments else head

    def atom(self):
        token = self.take()
        if token == '(':
            parts = [self.term()]
            while self.peek() == ',':
                self.take()
                if self.peek() != ')':
                    parts.append(self.term())
            self.take(')')
            return parts[0] if len(parts) == 1 else ('tuple', tuple(parts))
        if token == '[':
            self.take(']')
            return ('name', '[]')
        if token == 'record':
            return self.fields()
        if token.startswith('"'):
            return ('text', re.sub(r'\\(.)', lambda it: {'n': '\n'}.get(it[1], it[1]), token[1:-1]))
        return ('number', int(token)) if token.isdigit() else ('name', token)

    def fields(self):
        self.take('{')
        fields = []
        while self.peek() != '}':
            name = self.take()
            self.take('=')
            fields.append((name, self.term()))
            if self.peek() == ';':
                self.take()
        self.take('}')
        return ('record', tuple(fields))


def split_type(text):
    """The types of a definition's parameters, and its result."""
    parts, depth, start = [], 0, 0
    text = re.sub(r'\{[^}]*\} → ', '', text)
    for place, letter in enumerate(text):
        depth += (letter == '(') - (letter == ')')
        if letter == '→' and depth == 0:
            parts.append(text[start:place].strip())
            start = place + 1
    return tuple(parts), text[start:].strip()


def read_clause(lines):
    """The patterns and the body of a clause."""
    left, right = '\n'.join(lines).split('=', 1)
    reader = Reader(left)
    reader.take()
    patterns = []
    while reader.peek() is not None:
        patterns.append(reader.atom())
    return tuple(patterns), right


def read_module(path):
    """The module of a file."""
    with open(path, encoding='utf-8') as file:
        lines = file.read().split('\n')
    name = os.path.splitext(os.path.basename(path))[0]
    head = [it for it in lines if it.strip()]
    head = head[:next(at for at, it in enumerate(head) if not it.startswith('--'))]
    module = Module(name, '\n'.join(it.removeprefix('-- ') for it in head), {}, {}, {})
    comment, current = [], None
    for at, line in enumerate(lines):
        definition, imported = DEFINITION.match(line), IMPORT.match(line)
        if line.startswith('--'):
            comment.append(line.removeprefix('-- '))
            continue
        if imported:
            add_import(module, *imported.groups())
        elif definition:
            current = Definition(name, definition[1], *split_type(definition[2]), ' '.join(comment))
            module.definitions[current.name] = current
        elif current and re.match(rf'{re.escape(current.name)}(\s|$)', line):
            rest = lines[at + 1:]
            end = next((it for it, text in enumerate(rest) if not text.startswith(' ')), len(rest))
            current.clauses.append([line, *rest[:end]])
        comment = []
    return module


def add_import(module, path, names, alias):
    source = path.split('.')[-1]
    if alias:
        module.aliases[alias] = source
    for name in (names or '').split(','):
        module.imports[name.strip()] = source


class Library:
    """The modules of a folder."""

    def __init__(self, folder):
        modules = [read_module(it) for it in sorted(glob.glob(f'{folder}/*.antt')) if not it.endswith('/Lib.antt')]
        self.modules = {it.name: it for it in modules}
        self.bodies = {}

    def find(self, module, name):
        """The definition that a name means in a module; `None` if it comes from elsewhere."""
        alias, _, rest = name.partition('.')
        home = self.modules[module]
        if rest and alias in home.aliases:
            return self.find_in(home.aliases[alias], rest)
        if name in home.definitions:
            return home.definitions[name]
        return self.find_in(home.imports.get(name), name)

    def find_in(self, module, name):
        return self.find(module, name) if module in self.modules else None

    def clauses_of(self, definition):
        """The clauses of a definition, each its patterns and its body."""
        key = (definition.module, definition.name)
        if key not in self.bodies:
            read = [read_clause(it) for it in definition.clauses]
            self.bodies[key] = [(patterns, Reader(body).term()) for patterns, body in read]
        return self.bodies[key]

    def texts(self):
        """The texts in all definitions."""
        definitions = [it for module in self.modules.values() for it in module.definitions.values()]
        return {text for it in definitions for _, body in self.clauses_of(it) for text in texts_in(body)}

    def scripts(self):
        return [it for module in self.modules.values() for it in module.definitions.values() if it.is_script()]


def texts_in(term):
    """The texts in a term."""
    if not isinstance(term, tuple):
        return set()
    return {term[1]} if term[:1] == ('text',) else set().union(*map(texts_in, term))
