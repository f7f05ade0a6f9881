"""What a rule reads, as a form: a sequence (a tuple) of parts."""
from dataclasses import dataclass, replace


@dataclass(frozen=True)
class Token:
    """A token of one of these kinds."""
    kinds: frozenset


@dataclass(frozen=True)
class Rule:
    """Another rule: its module and name, how the script calls it, and whether it may read nothing; with which outcomes
    it ends here, and with which it may end; where it begins with one of few kinds of tokens, with which of them here;
    and what it is given."""
    module: str
    name: str
    label: str
    may_lack: bool = False
    only: frozenset = frozenset()
    every: frozenset = frozenset()
    first: frozenset = frozenset()
    given: tuple = ()

    def plain(self):
        return replace(self, only=self.every, first=frozenset())

    def name_alone(self):
        """The same rule, without what is different from call to call."""
        return Rule(self.module, self.name, self.label, self.may_lack)

    def or_as(self, other):
        """The rule with the outcomes of both, and without what they are given differently."""
        only, every = self.only | other.only, self.every | other.every
        outcomes = (only, every) if only != every and self.only and other.only else (frozenset(), frozenset())
        given = self.given if self.given == other.given else ()
        return Rule(self.module, self.name, self.label, self.may_lack, *outcomes, self.first | other.first, given)


@dataclass(frozen=True)
class Mark:
    """A call of a marker whose node is not all in this form: `start`, `precede`, `finish`; `turn` begins a loop's
    turn."""
    word: str
    kind: str = ''


@dataclass(frozen=True)
class Node:
    """A node over a form; if `around` holds, it also contains what was read before."""
    kind: str
    form: tuple
    around: bool = False


@dataclass(frozen=True)
class Either:
    """One of these forms."""
    forms: tuple


@dataclass(frozen=True)
class Maybe:
    """A form or nothing."""
    form: tuple


@dataclass(frozen=True)
class Many:
    """A form, at least so many times."""
    form: tuple
    least: int = 0


@dataclass(frozen=True)
class Listed:
    """Elements with a separator between them, and maybe after the last one."""
    form: tuple
    separator: tuple
    is_open: bool


TURN = Mark('turn')


def may_be_empty(form):
    """Whether a form may read nothing."""
    for part in form:
        if isinstance(part, (Token, Listed)) or isinstance(part, Many) and part.least:
            return False
        if isinstance(part, Rule) and not part.may_lack:
            return False
        if isinstance(part, Node) and not may_be_empty(part.form):
            return False
        if isinstance(part, Either) and not any(map(may_be_empty, part.forms)):
            return False
    return True


def is_absent(form):
    """Whether a form has nothing in it, and makes nothing."""
    return all(isinstance(it, Mark) and it.word in ('turn', 'start') for it in form)


def form_width(form, kinds):
    """How many tokens a form reads, where that is the same on all ways and can be seen; otherwise `None`."""
    width = 0
    for part in form:
        if isinstance(part, Token):
            widths = {len(kinds.parts.get(it, ' ')) for it in part.kinds}
            width = width + widths.pop() if len(widths) == 1 else None
        elif isinstance(part, Node):
            inner = form_width(part.form, kinds)
            width = None if inner is None else width + inner
        elif not isinstance(part, Mark):
            width = None
        if width is None:
            return None
    return width


# -- markers

def finish(form, kind):
    """Finishes the newest node that was started in this form, or one that its caller started."""
    for at in reversed(range(len(form))):
        if form[at] == TURN:
            break
        if form[at] in (Mark('start'), Mark('precede')):
            return (*form[:at], Node(kind, form[at + 1:], form[at].word == 'precede'))
    return (*form, Mark('finish', kind))


def abandon(form):
    """Takes back the newest start."""
    for at in reversed(range(len(form))):
        if form[at] == TURN:
            break
        if form[at] in (Mark('start'), Mark('precede')):
            return form[:at] + form[at + 1:]
    return (*form, Mark('abandon'))


def since_start(form):
    """The parts after the newest start, and those before it."""
    for at in reversed(range(len(form))):
        if form[at] == TURN:
            break
        if form[at] == Mark('start'):
            return form[:at], form[at + 1:]
    return None, form


def unmarked(form):
    """A form without the markers that are open in it."""
    return tuple(it for it in form if not isinstance(it, Mark) or it.word == 'finish')


def unstarted(form):
    """A form without the markers at its end."""
    while form and form[-1] in (Mark('start'), Mark('precede')):
        form = form[:-1]
    return form


# -- parts of forms

def inside(part):
    """The forms that a part has in it."""
    if isinstance(part, Either):
        return part.forms
    return (part.form,) if isinstance(part, (Node, Maybe, Many, Listed)) else ()


def options_of(form):
    """The alternatives that a form consists of."""
    return list(form[0].forms) if len(form) == 1 and isinstance(form[0], Either) else [form]


def first_part(form):
    """The first part of a form, or of the node that it begins with."""
    return first_part(form[0].form) if isinstance(form[0], Node) and form[0].form else form[0]


def shared_head(forms):
    """How many parts all of these forms begin with."""
    count = 0
    while all(len(it) > count and it[count] == forms[0][count] for it in forms):
        count += 1
    return count


def added(before, after):
    """What a longer form has after a form that it begins with, and the kind of the node that contains that form."""
    head = shared_head([before, after])
    rest = before[head:]
    if head < len(after) and isinstance(after[head], Node):
        inner = after[head].form
        if inner[:len(rest)] == rest:
            return (*inner[len(rest):], *after[head + 1:]), after[head].kind
        if inner and isinstance(inner[0], Node):
            further, kind = added(rest, inner)
            if further != inner:
                return (*further, *after[head + 1:]), kind
    return after[head:], ''
