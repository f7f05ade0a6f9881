"""Writes forms as rules in the notation of the Rust Reference, in Markdown."""
from grammar_page.forms import Either, Listed, Many, Mark, Maybe, Node, Rule, Token
from grammar_page.shorten import alternatives, optional, sequence

MOST_TOKENS = 10


def without_nodes(form, kinds):
    """A form without its nodes, for what is read alone; each of its tokens is of one kind, or of many."""
    return sequence(it for part in form for it in without_nodes_part(part, kinds))


def without_nodes_part(part, kinds):
    if isinstance(part, Mark):
        return ()
    if isinstance(part, Node):
        return without_nodes(part.form, kinds)
    if isinstance(part, Either):
        return alternatives([without_nodes(it, kinds) for it in part.forms])
    if isinstance(part, Maybe):
        return optional([without_nodes(part.form, kinds)])
    if isinstance(part, Many):
        return (Many(without_nodes(part.form, kinds), part.least),)
    if isinstance(part, Listed):
        return (Listed(without_nodes(part.form, kinds), part.separator, part.is_open),)
    if isinstance(part, Token) and 1 < len(part.kinds) <= MOST_TOKENS:
        return alternatives([(Token(frozenset([it])),) for it in kinds.sorted(part.kinds)])
    return (part,)


class Writer:
    """Writes forms. `link` gives the link to a rule, `sets` the words for a set of kinds, and `about` those for what
    a rule is given and returns."""

    def __init__(self, kinds, link, sets, about):
        self.kinds, self.link, self.sets, self.about = kinds, link, sets, about

    def form(self, form):
        """A form on one line."""
        return self.written(without_nodes(form, self.kinds))

    def written(self, form):
        """A form that has no nodes."""
        return ' '.join(self.part(it) for it in form)

    def group(self, form):
        """A form as one thing, in parentheses where it has several."""
        is_one = len(form) == 1 and isinstance(form[0], (Token, Rule, Either))
        return self.part(form[0]) if is_one else f'( {self.written(form)} )'

    def part(self, part):
        if isinstance(part, Token):
            return self.token(part.kinds)
        if isinstance(part, Rule):
            return self.rule(part)
        if isinstance(part, Either):
            return f'( {" | ".join(map(self.written, part.forms))} )'
        if isinstance(part, Maybe):
            return f'{self.group(part.form)}?'
        if isinstance(part, Many):
            return f'{self.group(part.form)}{"+" if part.least else "*"}'
        element, separator = self.written(part.form), self.written(part.separator)
        return f'{element} ( {separator} {element} )*' + (f' {separator}?' if part.is_open else '')

    def token(self, kinds):
        if len(kinds) == 1:
            return self.kinds.text(next(iter(kinds)))
        return self.sets(kinds)

    def rule(self, rule):
        words = self.about(rule)
        if rule.first:
            words.append(f'at {" or ".join(map(self.kinds.text, self.kinds.sorted(rule.first)))}')
        return self.link(rule) + (f' _({", ".join(words)})_' if words else '')
