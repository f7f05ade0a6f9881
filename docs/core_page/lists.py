"""Lists of rows that stand in several categories, each row of them alone or in the same place of a longer one."""
from core_page.table import Made
from core_page.text import outer

LEAST = 3


class Lists:
    """The lists of rows: those of the categories, by their numbers, and those that have a definition of their own."""

    def __init__(self, table):
        self.table, self.used = table, []
        self.named = {}
        for module in table.evaluator.library.modules.values():
            for it in module.definitions.values():
                if it.result == 'List Part' and not it.parameters:
                    rows = [table.read(table.evaluator.give(part, [Made('nil')]))
                            for part in table.evaluator.of(it.module, it.name)]
                    if len(rows) >= LEAST:
                        self.named[it.name] = rows
        wholes = [rows for rows in table.rows if len(rows) >= LEAST]
        self.named = {name: rows for name, rows in self.named.items() if rows not in wholes}

    def known(self, key, rows):
        """The lists that may stand in these rows, which have this number or name."""
        for number, found in enumerate(self.table.rows):
            is_first = isinstance(key, str) or number < key
            if LEAST <= len(found) <= len(rows) and number != key and (len(found) < len(rows) or is_first):
                yield number, found
        yield from ((name, found) for name, found in self.named.items() if name != key and len(found) <= len(rows))

    def at(self, rows, at, known):
        """The longest list whose rows stand there, as one row and how many rows that is."""
        for key, found in sorted(known, key=lambda it: -len(it[1])):
            if at + len(found) <= len(rows):
                for place in places(rows[at], found[0]):
                    if all(put(place, it) == row for it, row in zip(found, rows[at:])):
                        return key, put(place, (('rows', key),)), len(found)
        return None

    def written(self, writer, key, rows):
        """Rows, each with its node; those of another list by its name."""
        at, known = 0, list(self.known(key, rows))
        while at < len(rows):
            found = self.at(rows, at, known)
            if found and isinstance(found[0], str) and found[0] not in self.used:
                self.used.append(found[0])
            yield outer(writer, found[1] if found else rows[at])
            at += found[2] if found else 1

    def rules(self, writer):
        """The lists with a name of their own that are used, each with its rows."""
        for name in self.used:
            yield name, list(self.written(writer, name, self.named[name]))


def places(row, part):
    """Where a part stands in a row: nodes around it, from the outer one on, with what follows the part in each, and
    what follows it itself."""
    if row[:len(part)] == part:
        yield (), row[len(part):]
    if row and row[0][0] == 'node':
        for nodes, rest in places(row[0][2], part):
            yield ((row[0][1], row[1:]), *nodes), rest


def put(place, part):
    """A part where another one stood in a row."""
    nodes, rest = place
    row = (*part, *rest)
    for kind, behind in reversed(nodes):
        row = (('node', kind, row), *behind)
    return row
