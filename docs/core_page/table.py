"""The table of the core grammar: its categories with their rows, each a tuple of pieces. A category is its number among
all.

    ('token', kinds, words)   ('word', kind)   ('operator', kind)   ('category', number)
    ('node', kind, row)   ('choice', row, row)   ('repeat', turn, last)   ('unless', test)
    ('around', row, number, turns): nodes around the last one of a row, each by a turn (numbers, row, kind, next)"""
import itertools
import re

from core_page.values import Evaluator, Made, Modules

CRATES = ('rap_grammar_table', 'rap_grammar_scripts', 'rap_events', 'rap_base')


def constructors(path):
    """The data types of a module, each with its constructors and the types of what these are given."""
    found = {}
    with open(path, encoding='utf-8') as file:
        for line in file:
            if head := re.match(r'pub data (\w+) :', line):
                found[head[1]] = kinds = {}
            elif it := re.match(r'  (\w+) : (.*)', line):
                kinds[it[1]] = it[2].split(' → ')[:-1]
    return found


def values_of(kind, types):
    """All values of a data type, in the order of its constructors."""
    if kind == 'Bool':
        return [False, True]
    return [Made(name, given) for name, wanted in types[kind].items()
            for given in itertools.product(*(values_of(it, types) for it in wanted))]


def shown(value, is_inside=False):
    """A category as a term."""
    if isinstance(value, bool):
        return str(value).lower()
    text = ' '.join([value.name, *(shown(it, True) for it in value.arguments)])
    return f'({text})' if value.arguments else text


def nested(items):
    """Items as a row, up to a node's end or their own; and what follows that end."""
    found = []
    while items.name not in ('nil', 'close'):
        name, given = items.name, items.arguments
        if name == 'begin':
            inner, (kind, items) = nested(given[0])
            found.append(('node', kind, inner))
            continue
        if name == 'piece':
            found.append(piece(given[0]))
        elif name in ('choice', 'repeat'):
            found.append((name, row(given[0]), row(given[1])))
        elif name == 'group':
            found += row(given[0])
        elif name == 'folds':
            found.append(around(found.pop(), given[0], tuple(turns(given[1]))))
        else:
            assert name == 'unless'
            found.append(('unless', given[0]))
        items = given[-1]
    return tuple(found), items.arguments


def row(items):
    """Items that end no node."""
    found, rest = nested(items)
    assert rest == ()
    return found


def piece(it):
    """A piece."""
    return ({'tok': 'token', 'comp': 'operator', 'cat': 'category'}.get(it.name, it.name), *it.arguments)


def turns(items):
    """The turns that put nodes around one."""
    while items.name == 'way':
        numbers, turn, then, rest = items.arguments
        found, (kind, end) = nested(turn)
        assert end.name == 'nil'
        yield numbers, found, kind, then
        items = rest


def around(last, number, found):
    """What is put around the last piece, or around that of either way."""
    if last[0] == 'choice':
        ways = ((*it[:-1], around(it[-1], number, found)) for it in last[1:])
        return ('choice', *ways)
    return ('around', (last,), number, found)


class Table:
    """The table over the crates of a repository."""

    def __init__(self, top):
        self.evaluator = Evaluator(Modules([f'{top}/crates/{it}/specs' for it in CRATES]))
        types = constructors(f'{top}/crates/rap_grammar_table/specs/Category.antt')
        self.categories = values_of('Category', types)
        self.numbers = {it: at for at, it in enumerate(self.categories)}
        grammar = self.evaluator.of('Rows', 'grammar')
        self.lists = [self.evaluator.give(grammar, [it]) for it in self.categories]
        self.rows = [[self.read(it) for it in found] for found in self.lists]
        self.names = {at: (it.name, it.arguments) for at, it in enumerate(self.categories)}
        self.parts = dict(self.named_parts())

    def row(self, module, name):
        """A row that is defined outside of the table."""
        return self.read(self.evaluator.of(module, name))

    def read(self, items):
        """A row, with its categories by their numbers."""
        return self.numbered(row(items))

    def numbered(self, it):
        """A part of a row, with its categories by their numbers."""
        if not isinstance(it, tuple):
            return it
        if it[:1] == ('category',):
            return 'category', self.numbers[it[1]]
        return tuple(self.numbered(part) for part in it)

    def named_parts(self):
        """The rows of the parts that have a name of their own, which several rows share. Of two with one name each has
        its module's before it."""
        found = [it for module in self.evaluator.library.modules.values() for it in module.definitions.values()
                 if it.result == 'Part' and not it.parameters]
        names = [it.name for it in found]
        for it in found:
            items = self.evaluator.give(self.evaluator.of(it.module, it.name), [Made('nil')])
            if items.name not in ('way', 'folds'):
                home = '' if names.count(it.name) == 1 else it.module.removesuffix('Rows').lower() + '_'
                yield self.read(items), home + it.name
