"""The entries of the page: each rule with the forms of its instances, and what is said of them."""
from dataclasses import dataclass, field, replace

from grammar_page.forms import Either, Listed, Many, Mark, Maybe, Node, Rule, inside, is_absent
from grammar_page.shorten import alternatives, flat, optional, sequence
from grammar_page.states import without_end
from grammar_page.values import BLOCK, SOMETHING


@dataclass
class Instance:
    """A rule with certain arguments: what it reads, or what it takes where it only reports; the same without what
    other rules are given; what was noted; and the forms of each outcome."""
    key: tuple
    options: list
    bare: list
    is_right: bool
    walker: object
    outcomes: dict


@dataclass
class Entry:
    """A rule of the page: its instances, those together that read the same; and under which names an instance is
    called."""
    module: str
    name: str
    groups: list = field(default_factory=list)
    labels: dict = field(default_factory=dict)

    def instances(self):
        return [it for group in self.groups for it in group]

    def group_of(self, given):
        """The instances that read what one does with these arguments; all where they do not say which."""
        return next((it for it in self.groups if any(one.key[2] == given for one in it)), self.instances())

    def with_outcome(self, outcome):
        """The forms of the rule where it ends with an outcome."""
        return list(dict.fromkeys(form for it in self.instances() for form in it.outcomes.get(outcome, [])))


def entries_of(grammar):
    """The entries of all rules that are called, by module and name."""
    entries = {}
    for key in sorted(grammar.facts, key=grammar.order_of):
        instance = instance_of(grammar, key)
        entry = entries.setdefault(key[:2], Entry(*key[:2]))
        same = next((it for it in entry.groups if it[0].bare == instance.bare), None)
        if same:
            same.append(instance)
        else:
            entry.groups.append([instance])
    for key, label in grammar.labels.items():
        entries[key[:2]].labels.setdefault(key, []).extend(label)
    return entries


def instance_of(grammar, key):
    walker, exits = grammar.run(key, grammar.facts[key], True)
    right = [it for it in without_end(exits) if not is_absent(it.state.form)]
    forms = [it.state.form for it in right or exits]
    outcomes = {}
    for it in grammar.run(key, grammar.facts[key], False)[1]:
        if not it.state.fault and not is_absent(it.state.form):
            outcomes.setdefault(it.outcome, []).append(it.state.form)
    options = shown_options(forms)
    return Instance(key, options, flat(alternatives(map(bare, options))), bool(right), walker, outcomes)


def ungiven(form):
    """A form without what its rules are given."""
    return changed(form, lambda it: replace(it, given=()))


def bare(form):
    """A form with each rule under its own name, and without what it is given."""
    return changed(form, lambda it: replace(it, label=it.name, given=()))


def changed(form, change):
    """A form with each rule changed."""
    return sequence(it for part in form for it in changed_part(part, change))


def changed_part(part, change):
    if isinstance(part, Rule):
        return (change(part),)
    if isinstance(part, Either):
        return alternatives([changed(it, change) for it in part.forms])
    if isinstance(part, Maybe):
        return optional([changed(part.form, change)])
    return (replace(part, form=changed(part.form, change)),) if inside(part) else (part,)


# -- forms as they are shown

def shown_options(forms):
    """The alternatives of a rule, as they are shown."""
    kept = told_apart(forms)
    return flat(alternatives([shown(it, kept) for it in forms]))


def told_apart(options):
    """The rules with which several of these options begin, on different first tokens."""
    firsts = {}
    for option in options:
        if option and isinstance(option[0], Rule):
            firsts.setdefault(option[0].name, set()).add(option[0].first)
    return {name for name, it in firsts.items() if len(it) > 1}


def shown(form, kept=frozenset()):
    """A form without what only the way through the scripts needs."""
    parts = []
    for at, part in enumerate(form):
        parts += shown_part(part, kept if at == 0 else frozenset())
    return sequence(parts)


def shown_part(part, kept):
    if isinstance(part, Mark):
        return (part,) if part.word == 'finish' else ()
    if isinstance(part, Rule):
        every = frozenset([SOMETHING, BLOCK]) if {SOMETHING, BLOCK} <= part.every else frozenset()
        first = part.first if part.name in kept else frozenset()
        only = part.only & every
        outcomes = (only, every) if only and only != every else (frozenset(), frozenset())
        return (Rule(part.module, part.name, part.label, part.may_lack, *outcomes, first, part.given),)
    if isinstance(part, Either):
        apart = told_apart(part.forms)
        return alternatives([shown(it, apart) for it in part.forms])
    if isinstance(part, Maybe):
        return optional([shown(part.form, kept)])
    if isinstance(part, (Node, Many, Listed)):
        return (replace(part, form=shown(part.form, kept if isinstance(part, Node) else frozenset())),)
    return (part,)
