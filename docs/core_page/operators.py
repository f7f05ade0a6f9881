"""The turns that put nodes around one, by the names of the definitions that make them: those of operators are written
once for all levels.

A definition of turns is given truth values, levels, lists of levels and categories. `each NAME` stands for its turns of
every level of a list."""
import itertools

from core_page.table import Made, turns

MODULES = ('Operators', 'ExprRows')

# What a number of a turn, and the numbers for which one is there, are called.
NUMBERS = ('fresh', 'behind_cast', 'closing', 'behind', 'behind_cast_in')
SETS = ('all_from', 'up_from')


class Operators:
    """The definitions of turns, each with its turns for all that it may be given."""

    def __init__(self, table):
        self.table = table
        self.levels = self.value('levels')
        self.suffixes = [self.levels[at:] for at in range(len(self.levels))]
        values = {'Bool': (False, True), 'Level': self.levels, 'List Level': self.suffixes,
                  'Category': table.categories}
        self.members, self.calls = {}, {}
        for module in MODULES:
            for it in table.evaluator.library.modules[module].definitions.values():
                if it.result == 'Part' and all(kind in values for kind in it.parameters):
                    self.add(it.name, module, [values[kind] for kind in it.parameters])
        for name, members in list(self.members.items()):
            if any(set(given).intersection(self.levels) for given in members):
                self.members[f'each {name}'] = {
                    (*given[:-1], levels): found for given in members for levels in self.suffixes
                    if (found := sum((members.get((*given[:-1], it), ()) for it in levels), ()))}
        for name, members in self.members.items():
            for given, found in members.items():
                self.calls.setdefault(found, []).append((name, given))
        self.closing = {it for it in self.members if it in table.evaluator.library.modules['Operators'].definitions}
        self.longest = max(map(len, self.calls))
        self.numbers = {number: call for name in NUMBERS for call, number in self.of_levels(name)}
        self.sets = {numbers: call for name in SETS for call, numbers in self.of_levels(name)}
        self.rows = {table.read(self.give(found, [Made('nil')])): call for call, found in self.of_levels('operator')}

    def value(self, name, module='Operators'):
        return self.table.evaluator.of(module, name)

    def give(self, function, arguments):
        return self.table.evaluator.give(function, arguments)

    def of_levels(self, name):
        """The values of a definition, of each level where it is given one."""
        value = self.value(name)
        if isinstance(value, (int, tuple)):
            return [((name, ()), value)]
        return [((name, (level,)), self.give(value, [level])) for level in self.levels]

    def add(self, name, module, values):
        """The turns of a definition, if it is one of turns, without those where there are none."""
        found = {}
        for given in itertools.product(*values):
            items = self.give(self.value(name, module), [*given, Made('nil')])
            if items.name == 'way':
                found[given] = self.table.numbered(tuple(turns(items)))
        if found:
            self.members[name] = found

    def split(self, found, own=(None, ())):
        """Turns as calls of definitions, the longest first, and single turns that no definition has. The definition
        whose own turns they are is no call of itself; of several that make the same that counts which is given the
        same."""
        parts, at = [], 0
        while at < len(found):
            ends = range(min(len(found), at + self.longest), at, -1)
            calls = ((end, self.best(found[at:end], own)) for end in ends)
            end, call = next(((end, call) for end, call in calls if call), (at + 1, None))
            parts.append(call or found[at])
            at = end
        return parts

    def best(self, found, own):
        """The call that makes turns."""
        calls = [it for it in self.calls.get(found, ()) if it != own and it[0] != f'each {own[0]}']
        near = {*own[1], *(self.suffixes[self.levels.index(it) + 1] for it in own[1] if it in self.levels[:-1])}
        return max(calls, key=lambda it: len(near.intersection(it[1])), default=None)

    def is_made(self, found, parts, own, given):
        """Whether turns are those of parts, where each is given now what stands in the place of its own."""
        now = dict(zip(own, given))
        made = ()
        for it in parts:
            if isinstance(it[0], str):
                made += self.members[it[0]].get(tuple(now.get(value, value) for value in it[1]), ())
            else:
                made += (it,)
        return made == found
