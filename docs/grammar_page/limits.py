"""Says under which conditions forms are read: what the tests of a script require that a form does not say."""
from grammar_page.entries import shown, ungiven
from grammar_page.forms import Either, Listed, Many, Maybe, Node, Rule
from grammar_page.tests import And, At, Not, Operator, Or, ReadsAs, Said, bounds, is_of_next_kind
from grammar_page.words import listing

FEW_KINDS = 2


def conjuncts(test):
    """The tests that all must hold for a test to hold."""
    return conjuncts(test.left) + conjuncts(test.right) if isinstance(test, And) else [test]


def asks_for_next(test):
    """Whether a test looks at the next token."""
    if isinstance(test, Not):
        return asks_for_next(test.test)
    if isinstance(test, (And, Or)):
        return asks_for_next(test.left) or asks_for_next(test.right)
    return isinstance(test, (At, Operator, ReadsAs)) and test.place == 0


class Limits:
    """Says it, in the words of `words`. `firsts` has the kinds with which each rule may begin, and `given` the rules
    that are given kinds of tokens."""

    def __init__(self, words, write, openings, firsts, given):
        self.words, self.write, self.openings, self.firsts, self.given = words, write, openings, firsts, given

    def of(self, walker):
        """What the tests of a rule require, a text for each test."""
        found = {}
        for limit in walker.limits:
            how, tests, form = self.asked(limit)
            if tests:
                found.setdefault((how, tests), []).append(form)
        return [self.text(how, tests, forms) for (how, tests), forms in found.items()]

    def asked(self, limit):
        """What a test requires: a form is read `only` if tests hold, `not` if one does, or the test `counts` later."""
        if limit.form is None or self.is_given(limit):
            return '', (), ()
        if not limit.form:
            return 'not', (limit.test,) if isinstance(limit.test, Said) else (), limit.otherwise
        if limit.form == limit.otherwise:
            is_noted = not is_of_next_kind(limit.test, self.words.kinds)
            return 'counts', (limit.test,) if is_noted else (), limit.form
        if self.openings.says(limit.test, limit.form):
            return '', (), ()
        left_out = self.left_out(limit)
        if is_of_next_kind(limit.test, self.words.kinds) or left_out is not None:
            return 'not', left_out or (), limit.form
        return 'only', (limit.test,), limit.form

    def is_given(self, limit):
        """Whether a test finds the token that another rule is given."""
        rule = limit.form[0] if limit.form and isinstance(limit.form[0], Rule) else None
        is_known = rule and (rule.module, rule.name, rule.given) in self.given
        return bool(is_known) and self.words.is_next_token(limit.test)

    def left_out(self, limit):
        """When a form is not read, if a test does no more than exclude some of its first tokens."""
        tests = []
        for test in conjuncts(limit.test):
            if is_of_next_kind(test, self.words.kinds):
                kinds = self.beginnings_left_out(test, limit)
                tests += [At(0, kinds)] if kinds else []
            elif isinstance(test, Not) and asks_for_next(test.test):
                tests.append(test.test)
            else:
                return None
        return tuple(tests)

    def beginnings_left_out(self, test, limit):
        """The kinds that a test excludes from the start of a form and with which no other form begins, if few."""
        firsts, others = self.openings.firsts(limit.form), self.openings.firsts(limit.otherwise or ())
        if firsts is None or others is None:
            return frozenset()
        kinds = (firsts & limit.facts) - bounds(test, self.words.kinds)[0] - others
        return kinds if len(kinds) <= FEW_KINDS else frozenset()

    # -- words

    def text(self, how, tests, forms):
        heads = list(dict.fromkeys(head for form in forms for head in self.heads(form)))
        where = '; or '.join(map(self.words.test, tests))
        if how == 'counts':
            return f'before {listing(heads)} the rule tests whether {where}'
        if how == 'only' and len(heads) == 1:
            where = '; or '.join(self.after_head(it, heads[0]) for it in where.split('; or '))
        verb = f'{"is" if len(heads) == 1 else "are"} {"parsed only" if how == "only" else "not parsed"}'
        return f'{listing(heads, "and")} {verb} if {where}'

    def after_head(self, text, head):
        """A test of the next tokens as one of those after the first."""
        start = f'{head}, then '
        return text.removeprefix(start).replace(' comes next', ' follows') if text.startswith(start) else text

    def heads(self, form):
        """What a form begins with."""
        form = ungiven(shown(form, self.narrow(form)))
        first = form[0] if form else None
        if isinstance(first, Node):
            return self.heads(first.form + form[1:])
        if isinstance(first, Either):
            return [head for it in first.forms for head in self.heads(it)]
        if isinstance(first, (Maybe, Many)):
            return [*self.heads(first.form), *(self.heads(form[1:]) if len(form) > 1 else [])]
        if isinstance(first, Listed):
            return self.heads(first.form)
        return [self.write.form(form[:1])] if form else []

    def narrow(self, form):
        """The rule that a form begins with, if it may begin with other tokens elsewhere."""
        rule = form[0] if form and isinstance(form[0], Rule) else None
        is_narrow = rule and rule.first and rule.first != self.firsts[rule.module, rule.name]
        return frozenset([rule.name] if is_narrow else [])
