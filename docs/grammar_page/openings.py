"""With which tokens forms begin, and whether that says already what a test asks for."""
from grammar_page.forms import Either, Many, Mark, Maybe, Node, Rule, Token
from grammar_page.tests import And, At, Not, Operator, Or, ReadsAs, reach

MOST_OPENINGS = 3000


class Openings:
    """With which tokens forms begin."""

    def __init__(self, grammar, entries):
        self.kinds, self.weak, self.entries = grammar.kinds, grammar.kinds.weak, entries
        self.known = {}

    def says(self, test, form):
        """Whether what a form begins with says that a test holds."""
        openings = self.of(form, reach(test, self.kinds))
        return openings is not None and bool(openings) and all(self.holds(test, it) is True for it in openings)

    def firsts(self, form):
        """The kinds of the first tokens of a form."""
        openings = self.of(form, 1)
        return None if openings is None else frozenset(self.kind(it) for it in openings if it)

    def kind(self, opening):
        """The kind of the first of some tokens, as the lexer returns it."""
        return 'IDENT' if opening[0] in self.weak else opening[0]

    def of(self, form, count):
        """The first tokens of a form, as far as it goes; `None` if there are too many ways."""
        found = {()}
        for part in form:
            grown = set()
            for opening in found:
                more = {()} if len(opening) >= count else self.of_part(part, count - len(opening))
                if more is None:
                    return None
                grown |= {(*opening, *it)[:count] for it in more}
            found = grown
            if len(found) > MOST_OPENINGS:
                return None
            if all(len(it) >= count for it in found):
                break
        return found

    def of_part(self, part, count):
        if isinstance(part, Token):
            return {tuple(self.kinds.parts.get(it, (it,)))[:count] for it in part.kinds}
        if isinstance(part, Mark):
            return {()}
        if isinstance(part, Rule):
            ways = self.of_rule(part, count)
            return ways if ways is None or not part.first else {it for it in ways if it and self.kind(it) in part.first}
        if isinstance(part, Either):
            ways = [self.of(it, count) for it in part.forms]
            return None if None in ways else set().union(*ways)
        inner = self.of(part.form, count)
        if inner is None or isinstance(part, Node):
            return inner
        if isinstance(part, Maybe) or isinstance(part, Many) and not part.least:
            return inner | {()}
        return inner

    def of_rule(self, rule, count):
        """The first tokens of a rule; none while it is being looked at. Only a loop may read nothing."""
        place = rule.module, rule.name, rule.given, count
        if place not in self.known:
            self.known[place] = None
            instances = self.entries[place[:2]].group_of(rule.given)
            ways = [self.of(it, count) for instance in instances for it in instance.options]
            self.known[place] = None if None in ways else set().union(*ways) - (set() if rule.may_lack else {()})
        return self.known[place]

    def holds(self, test, opening):
        """Whether a test holds of the first tokens; `None` if they do not say."""
        if isinstance(test, Not):
            inner = self.holds(test.test, opening)
            return None if inner is None else not inner
        if isinstance(test, (And, Or)):
            ways = {self.holds(test.left, opening), self.holds(test.right, opening)}
            decides = isinstance(test, Or)
            return decides if decides in ways else None if None in ways else not decides
        if not isinstance(test, (At, Operator, ReadsAs)) or test.place >= len(opening):
            return None
        token = opening[test.place]
        if isinstance(test, ReadsAs):
            return token == test.kind or (None if token == 'IDENT' else False)
        if isinstance(test, At):
            return token in test.kinds or token in self.weak and 'IDENT' in test.kinds
        parts = tuple(self.kinds.parts[test.kind])
        there = opening[test.place:test.place + len(parts)]
        return there == parts if len(there) == len(parts) or there != parts[:len(there)] else None
