"""Says in words which tests hold, and what is reported where."""
from grammar_page.ebnf import without_nodes
from grammar_page.entries import shown, ungiven
from grammar_page.forms import TURN, Either, Listed, Mark, Node, Rule, Token, unstarted
from grammar_page.tests import And, At, Last, Not, Operator, Or, ReadsAs, Said, There
from grammar_page.values import NOTHING, Given

MOST_LISTED = 6
BRACES = frozenset(['L_CURLY', 'R_CURLY'])


def listing(items, last='or'):
    """Some words with commas between them."""
    items = list(dict.fromkeys(items))
    return items[0] if len(items) == 1 else f'{", ".join(items[:-1])} {last} {items[-1]}'


class Words:
    """Says things in words; `write` writes forms, `sets` has the sets of kinds that have a name."""

    def __init__(self, kinds, sets):
        self.kinds, self.named = kinds, sets
        self.used = set()
        self.write = None

    # -- sets of kinds

    def items(self, kinds):
        """The words for a set of kinds: names of sets that are in it, and the kinds that are left."""
        if len(kinds) <= MOST_LISTED:
            return [self.kinds.text(it) for it in self.kinds.sorted(kinds)]
        same = min((name for name, known in self.named.items() if known == kinds), default=None)
        if same:
            self.used.add(same)
            return [f'[{same}]']
        if len(kinds) > len(self.kinds.tokens) // 2 + 1:
            return [f'any token but {listing(self.items(self.kinds.tokens - kinds), "and")}']
        left, found = kinds, []
        by_size = sorted(self.named.items(), key=lambda it: (-len(it[1]), it[0]))
        for name, known in by_size:
            if len(known) > 3 and known <= kinds and len(known & left) > 3:
                found.append(f'[{name}]')
                self.used.add(name)
                left -= known
        return found + [self.kinds.text(it) for it in self.kinds.sorted(left)]

    def of(self, kinds):
        return listing(self.items(kinds))

    # -- tests

    def clauses(self, test):
        """A test as alternatives of what must hold together: pairs of a test and whether it holds."""
        if isinstance(test, And):
            return [(*a, *b) for a in self.clauses(test.left) for b in self.clauses(test.right)]
        if isinstance(test, Or):
            return self.clauses(test.left) + self.clauses(test.right)
        if isinstance(test, Not):
            return [((test.test, False),)]
        return [((test, True),)]

    def clause(self, clause):
        """What must hold together, in the order of the tokens."""
        tokens = [it for it in clause if isinstance(it[0], (At, Operator, ReadsAs))]
        texts, after = [], 0
        for place in sorted({it.place for it, _ in tokens}):
            if place > after:
                texts.append('any token')
            text, after = self.token([it for it in tokens if it[0].place == place], place)
            texts.append(text)
        said = [self.said(it, holds) for it, holds in clause if (it, holds) not in tokens]
        if texts[:1] == ['any token']:
            texts = [', then '.join(texts[1:]) + ' comes after the next token']
        elif texts:
            texts = [', then '.join(texts) + ' comes next']
        return ', and '.join([*texts, *(it for it in said if not it.startswith('but'))]) \
            + ''.join(f', {it}' for it in said if it.startswith('but'))

    def token(self, tests, place):
        """What the token at a place is or is not, and the place after it."""
        here, after = None, place + 1
        for test, holds in tests:
            kinds = test.kinds if isinstance(test, At) else frozenset([test.kind])
            if holds and not (here and here != test and 'IDENT' in kinds):
                here = kinds if here is None or isinstance(test, ReadsAs) else here & kinds
                after = place + (len(self.kinds.parts[test.kind]) if isinstance(test, Operator) else 1)
        absent = [it.kinds if isinstance(it, At) else frozenset([it.kind]) for it, holds in tests if not holds]
        others = frozenset().union(*absent)
        if here is None:
            return self.none_of(others), after
        here -= others
        others = {it for it in others if it in self.kinds.parts and self.kinds.parts[it][0] in here}
        begins = f' that does not begin {self.of(frozenset(others))}' if others else ''
        return self.one_of(here) + begins, after

    def one_of(self, kinds):
        """A token of one of these kinds."""
        items = self.items(kinds)
        return f'a token of {items[0]}' if len(items) == 1 and items[0][0] == '[' else listing(items)

    def none_of(self, kinds):
        """A token of none of these kinds."""
        items = self.items(kinds)
        return f'no {self.one_of(kinds).removeprefix("a ")}' if len(items) == 1 else f'none of {listing(items)}'

    def said(self, test, holds):
        """What is no test of a token, in words."""
        if isinstance(test, Said):
            return test.text if holds else test.opposite
        if isinstance(test, Last):
            return f'the last token is {"" if holds else "not "}{self.kinds.text(test.kind)}'
        if isinstance(test, There):
            return f'{self.write.rule(shown((test.rule,))[0])} is {"" if holds else "not "}there'
        return f'but not if {self.test(test)}'

    def test(self, test):
        """A test in words."""
        clauses = self.joined(self.clauses(test))
        return '; or '.join(dict.fromkeys(self.clause(it) for it in clauses))

    def joined(self, clauses):
        """Clauses about the next token alone, as one."""
        alone = [it for it in clauses if self.is_alone(it)]
        if len(alone) < 2:
            return clauses
        others = [it for it in clauses if it not in alone]
        return [((At(0, self.kinds_of(alone)), True),), *others]

    def is_alone(self, clause):
        """Whether a clause is about the next token alone, and says what it is."""
        (test, holds), *others = clause
        return not others and holds and isinstance(test, (At, Operator, ReadsAs)) and test.place == 0

    def is_next_token(self, test):
        """Whether a test is about the next token alone, and says what it is."""
        return all(map(self.is_alone, self.clauses(test)))

    def kinds_of(self, clauses):
        tests = [it for (it, _), in clauses]
        return frozenset().union(*(it.kinds if isinstance(it, At) else frozenset([it.kind]) for it in tests))

    def condition(self, tests):
        """The condition that these tests hold: what comes next, or what does not."""
        said = [it for it in tests if isinstance(it.test if isinstance(it, Not) else it, (Last, Said))]
        there = [it for it in tests if not isinstance(it, Not) and it not in said]
        absent = [it.test for it in tests if isinstance(it, Not) and it not in said]
        texts = [self.test(it) for it in said]
        if there:
            texts.insert(0, self.present(there[-1], absent))
        elif absent:
            texts.insert(0, self.missing(absent))
        return f'if {" and ".join(texts)}' if texts else ''

    def present(self, test, absent):
        """What comes next, of which some may be known not to."""
        kinds = self.kinds_of([it for other in absent for it in self.clauses(other) if self.is_alone(it)])
        clauses = [it for it in self.clauses(test) if not self.is_covered(it, kinds)]
        return '; or '.join(dict.fromkeys(self.clause(it) for it in self.joined(clauses or self.clauses(test))))

    def missing(self, tests):
        """What does not come next."""
        rules = [self.write.rule(shown((it.rule,))[0]) for it in tests if isinstance(it, There)]
        clauses = [it for test in tests if not isinstance(test, There) for it in self.clauses(test)]
        alone = [it for it in clauses if self.is_alone(it)]
        kinds = self.kinds_of(alone)
        others = [it for it in clauses if it not in alone and not self.is_covered(it, kinds)]
        items = rules + (self.items(kinds) if kinds else [])
        if others or len(items) > MOST_LISTED + 4:
            return 'none of the above comes next'
        if len(items) == 1:
            return f'no {"token of " if items[0][0] == "[" and not rules else ""}{items[0]} comes next'
        if len(items) == 2:
            return f'neither {listing(items, "nor")} comes next'
        return f'none of {listing(items, "and")} comes next'

    def is_covered(self, clause, kinds):
        """Whether a clause requires a next token of one of these kinds."""
        return any(holds and isinstance(it, At) and it.place == 0 and it.kinds <= kinds for it, holds in clause)

    # -- places

    def place(self, message):
        """After what a message is reported, or instead of what."""
        before = unstarted(message.before)
        if message.late and before and isinstance(before[-1], Rule):
            missing = f'if {self.write.form(ungiven(shown(before[-1:])))} is missing'
            place = self.after(before[:-1])
            return f'{place}, {missing}' if place else missing
        if before[-1:] == (TURN,) and message.element:
            return f'instead of {self.write.form(shown(message.element))}'
        if before[-1:] != (TURN,):
            return self.after(before)
        return ('in the list ' if message.in_list else '') + self.after(unstarted(before[:-1]))

    def after(self, form):
        tail = self.tail(form)
        return f'after {tail}' if tail else ''

    def tail(self, form):
        """The last parts of a form, back to one that must be there and is no single token."""
        parts = []
        for part in reversed(self.flat(form)):
            parts.insert(0, part)
            if isinstance(part, (Rule, Either, Listed)) or len(parts) == 3 - isinstance(part, Token):
                break
        texts = [self.write.written((it,)) for it in parts]
        return ' '.join(it if len(it) <= 60 else '…' for it in texts)

    def flat(self, form):
        """The parts of a form from the turn of the newest loop on, those in nodes too."""
        if TURN in form:
            form = form[len(form) - form[::-1].index(TURN):]
        return without_nodes(ungiven(shown(form)), self.kinds)

    # -- messages

    def message(self, message):
        """What a message is reported for, where, and what is done then."""
        if message.how == 'missing':
            kind = message.text.removeprefix('expected ')
            return f'{self.quoted(message.text)} for a missing {self.kinds.text(kind)}'
        text = ' '.join(it for it in (self.quoted(message.text), self.place(message)) if it)
        condition = self.condition(message.tests)
        then = self.then(message)
        return text + (f', {condition}' if condition else '') + (f'; {then}' if then else '')

    def quoted(self, text):
        if isinstance(text, Given):
            return 'the caller\'s message'
        return '“' + text.replace('\n', '\\n') + '”'

    def then(self, message):
        """What is done after a message."""
        then = []
        if message.by:
            then.append(f'{self.write.rule(shown((message.by,))[0])} parses what comes next')
        elif message.how in ('skip', 'recover'):
            then.append('the next token goes into an `ERROR` node' + self.unless(message))
        elif message.closed == 'ERROR' or Mark('finish', 'ERROR') in message.after:
            then.append(self.wrapped(message.after))
        elif message.before and isinstance(message.before[-1], Node) and message.before[-1].kind == 'ERROR':
            then.append('what was parsed so far is an `ERROR` node')
        elif len(message.after) == 1 and isinstance(message.after[0], Token):
            then.append(f'a {self.write.written(message.after)} is consumed')
        if message.goes_on is not None:
            follows = self.test(message.goes_on).replace(' comes next', ' comes after it')
            then.append(f'the list continues only if {follows}')
        if message.outcome == NOTHING and message.how != 'recover':
            then.append('the rule fails')
        return ', and '.join(then)

    def unless(self, message):
        if message.how == 'skip':
            return ''
        if isinstance(message.keeps, Given):
            return ', unless it is `{`, `}` or in the recovery set that the caller passes'
        kinds = message.keeps.kinds if isinstance(message.keeps, At) else frozenset()
        return f', unless it is {self.of(kinds | BRACES)}'

    def wrapped(self, after):
        read = [it for it in after if not isinstance(it, Mark)]
        if not read:
            return 'what was parsed so far becomes an `ERROR` node'
        return f'{self.write.form(shown(tuple(read)))} goes into an `ERROR` node'
