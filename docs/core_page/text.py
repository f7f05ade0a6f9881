"""The rows of the table of the core grammar as text."""
# Tokens that have no text of their own.
CLASSES = {'IDENT': 'IDENTIFIER', 'LIFETIME_IDENT': 'LIFETIME', 'INT_NUMBER': 'INTEGER', 'FLOAT_NUMBER': 'FLOAT',
           'OUTER_DOC_COMMENT': 'OUTER_DOC', 'INNER_DOC_COMMENT': 'INNER_DOC', 'EOF': 'the end'}


class Kinds:
    """The kinds, as crates/rap_base/kinds.txt lists them."""

    def __init__(self, top):
        self.names, self.texts, self.tokens, self.words = {}, {}, [], []
        with open(f'{top}/crates/rap_base/kinds.txt', encoding='utf-8') as lines:
            rows = [line.split() for line in lines if line[:1].isdigit()]
        for number, name, group, *text in rows:
            kind = int(number)
            self.names[kind] = name
            if group != 'node':
                self.tokens.append(kind)
                self.texts[kind] = f'`{text[0]}`' if text and group != 'token' else CLASSES.get(name, name)
            if group == 'contextual':
                self.words.append(kind)

    def one_of(self, kinds):
        """Tokens of these kinds."""
        missing = [it for it in self.tokens if it not in kinds and it > 0]
        if len(kinds) > 12 and len(missing) < len(kinds):
            return 'any token' + (f' but {self.listed(missing)}' if missing else '')
        found = [self.texts[it] for it in dict.fromkeys(kinds)]
        return found[0] if len(found) == 1 else f'({" | ".join(found)})'

    def listed(self, kinds):
        return ' '.join(self.texts[it] for it in kinds)


# What stands for the sign `!` until it is known whether what has it is written for both, with the sign and without.
FLAG = '\0'


class Writer:
    """Writes rows. What has a value of its own is written for all values at once, and these by a letter."""

    def __init__(self, table, kinds, operators):
        self.table, self.kinds, self.operators = table, kinds, operators
        self.calls, self.used, self.own = set(), set(), (None, ())

    def name(self, number):
        """A category's name, with its level, and with the sign where no record literal may stand in it."""
        return 'C' if self.table.categories[number] in self.own[1] else self.call(*self.table.names[number])

    def call(self, name, given):
        """A name with what it is given."""
        found = ', '.join(self.given(it) for it in given if not isinstance(it, bool))
        return name + (FLAG if True in given else '') + (f'({found})' if found else '')

    def given(self, it):
        """A level, a list of levels, or a category."""
        levels = self.operators.levels
        own = [value for value in self.own[1] if not isinstance(value, bool)]
        if it in own:
            return 'L' if it in levels else 'all L' if isinstance(it, tuple) else 'C'
        if not isinstance(it, tuple):
            return self.call(it.name, it.arguments)
        if it == levels:
            return 'every level'
        if levels[levels.index(it[0]) - 1] in own:
            return 'tighter than L'
        return f'{it[0].name} and tighter'

    def row(self, row, is_own=False):
        """A row, in which a part with a name stands by it; not the row itself, where it is the part's own."""
        found, at = [], 0
        while at < len(row):
            call = self.operators.rows.get(row[at:at + 1]) or self.operators.rows.get(row[at:at + 2])
            if call and call[1][0] in self.own[1]:
                found.append(self.call(*call))
                at += 1 if row[at:at + 1] in self.operators.rows else 2
                continue
            ends = [end for end in range(len(row), at, -1)
                    if row[at:end] in self.table.parts and not (is_own and row[at:end] == row)]
            if ends:
                self.used.add(row[at:ends[0]])
                found.append(self.table.parts[row[at:ends[0]]])
            else:
                found.append(self.piece(row[at]))
            at = ends[0] if ends else at + 1
        return ' '.join(it for it in found if it)

    def piece(self, it):
        return getattr(self, f'write_{it[0]}')(*it[1:])

    def write_token(self, kinds, words):
        left_out = []
        if words.name == 'Some':
            left_out = [it for it in self.kinds.words if it not in words.arguments[0]]
        # An identifier that is read as `dyn` is none in any row.
        left_out = [it for it in left_out if self.kinds.names[it] != 'DYN_KW']
        return self.kinds.one_of(kinds) + (f' but {self.kinds.listed(left_out)}' if left_out else '')

    def write_word(self, kind):
        return self.kinds.texts[kind]

    def write_operator(self, kind):
        return self.kinds.texts[kind]

    def write_category(self, number):
        return self.name(number)

    def write_rows(self, key):
        """Any row of a list."""
        return f'rows({key if isinstance(key, str) else self.name(key)})'

    def write_node(self, kind, row):
        return f'{self.kinds.names[kind]}[{self.row(row)}]'

    def write_choice(self, first, second):
        if not second:
            return f'{self.alone(first)}?'
        if not first:
            return f'{self.alone(second)}?'
        ways = [self.row(it) for it in (*self.ways(first), *self.ways(second))]
        return f'({" | ".join(ways)})'

    def ways(self, row):
        """The ways of a row that is a choice, or the row alone."""
        if len(row) == 1 and row[0][0] == 'choice' and row[0][1] and row[0][2] and row not in self.table.parts:
            return [*self.ways(row[0][1]), *self.ways(row[0][2])]
        return [row]

    def alone(self, row):
        """A row before a sign."""
        text = self.row(row)
        is_short = len(row) == 1 and (row[0][0] in ('category', 'node') or ' ' not in text or row[0][0] == 'choice')
        is_one = is_short and not (row[0][0] == 'choice' and text[0] != '(') or row in self.table.parts
        return text if is_one else f'({text})'

    def write_repeat(self, turn, last):
        text = f'{self.alone(turn)}*'
        return f'{text} {self.row(last)}' if last else text

    def write_around(self, row, number, turns):
        last = self.row(row)
        if len(turns) <= 1 and not self.operators.best(turns, self.own):
            found = ''.join(f' {{{self.row(turn)} {self.kinds.names[kind]}}}*' for _, turn, kind, _ in turns)
            return last + found
        return f'{last} {{{" ".join(self.turns(turns))} from {self.number(number)}}}*'

    def turns(self, turns):
        """Turns by the definitions that make them."""
        for name, given in self.operators.split(turns, self.own):
            self.calls.add(name.removeprefix('each '))
            yield self.call(name, given)

    def turn(self, numbers, turn, kind, then):
        """A turn, and its node."""
        return f'{self.numbers(numbers)}: {self.row(turn)}, then {self.number(then)}', self.kinds.names[kind]

    def number(self, it):
        """A number of a turn, by its name in the table if it is one of an operator's."""
        call = self.operators.numbers.get(it)
        return self.call(*call) if call and (it > 1 or self.own[0] in self.operators.closing) else str(it)

    def numbers(self, found):
        """The numbers for which a turn is there."""
        call = self.operators.sets.get(tuple(found))
        return self.call(*call) if call else ', '.join(self.number(it) for it in found)

    def write_unless(self, test):
        return f'[not {self.test(test)}]'

    def test(self, it):
        """A test of the tokens that come next."""
        given = it.arguments
        if it.name == 'kind_so':
            kinds = [kind for kind in self.kinds.tokens if self.table.evaluator.give(given[1], [kind])]
            return self.place(given[0]) + self.kinds.one_of(kinds)
        if it.name == 'word_so':
            words = [kind for kind in self.kinds.words if self.table.evaluator.give(given[1], [kind])]
            return self.place(given[0]) + self.kinds.one_of(words)
        if it.name in ('comes', 'borne'):
            return self.place(given[0]) + self.kinds.texts[given[1]]
        if it.name == 'negated':
            return f'no {self.test(given[0])}'
        if it.name == 'told':
            return 'so' if given[0] else 'never'
        if given[0].name == 'told' and given[0].arguments[0] == (it.name == 'also'):
            return self.test(given[1])
        word = {'also': ' and ', 'or_else': ' or '}[it.name]
        return f'({self.test(given[0])}{word}{self.test(given[1])})'

    @staticmethod
    def place(number):
        return '' if number == 0 else f'{"second third fourth".split()[number - 1]} '


def outer(writer, row, is_own=False):
    """A row without its node, and the node's name."""
    if len(row) == 1 and row[0][0] == 'node' and (is_own or row not in writer.table.parts):
        return writer.row(row[0][2]), writer.kinds.names[row[0][1]]
    return writer.row(row, is_own), ''
