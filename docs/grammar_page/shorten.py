"""Builds forms, and keeps them short: common beginnings and ends are written once, and a list is written as one. What a
form reads is not changed by it."""
from dataclasses import replace

from grammar_page.forms import (
    Either, Listed, Many, Maybe, Node, Rule, Token, is_absent, may_be_empty, options_of, shared_head)


def sequence(parts):
    """A form of these parts in their order."""
    form = ()
    for part in parts:
        form = join(form, part)
    return form


def join(form, part):
    """A form with one more part."""
    if not form:
        return (part,)
    last = form[-1]
    if isinstance(last, Many) and isinstance(part, Maybe):
        return (*form[:-1], *join_optional(last, part))
    if isinstance(last, Many) and not last.least and is_separated(last) and last.form[:-1] == (part,):
        return (*form[:-1], Listed((part,), last.form[-1:], False))
    if isinstance(last, Listed) and not last.is_open and part == Maybe(last.separator):
        return (*form[:-1], replace(last, is_open=True))
    if isinstance(part, Maybe):
        listed = list_behind_one(part)
        if listed and form[-len(listed.form):] == listed.form:
            return (*form[:-len(listed.form)], listed)
    if isinstance(part, Many) and not part.least:
        if form[-len(part.form):] == part.form:
            return (*form[:-len(part.form)], Many(part.form, 1))
        if len(part.form) == 2 and (last,) == part.form[1:] and isinstance(part.form[0], Token):
            return (*form[:-1], Listed((last,), part.form[:1], False))
    return (*form, part)


def list_behind_one(maybe):
    """The list that an element makes with what may follow it: a separator and more of the list."""
    rest = maybe.form[-1]
    if isinstance(rest, Listed) and not rest.is_open and maybe.form[:-1] == rest.separator:
        return rest
    if isinstance(rest, Maybe) and isinstance(rest.form[0], Listed):
        listed = rest.form[0]
        return listed if listed.is_open and rest.form == (listed,) and maybe.form[:-1] == listed.separator else None
    return None


def is_separated(many):
    """Whether each of the repeated forms is an element and a separator."""
    return len(many.form) > 1 and isinstance(many.form[-1], Token)


def join_optional(many, maybe):
    """Repeated elements, and one of them or another thing at the end."""
    options = options_of(maybe.form)
    left = [it for it in options if it != many.form and it not in options_of(many.form)]
    if len(left) < len(options):
        return (many, Maybe(alternatives(left))) if left else (many,)
    element, separator = many.form[:-1], many.form[-1:]
    if is_separated(many) and not many.least and maybe.form in (element, (*element, Maybe(separator))):
        return (Maybe((Listed(element, separator, True),)),)
    first, rest = many.form[:1], many.form[1:]
    if not many.least and maybe.form == (*first, Maybe((Listed(rest, first, True),))):
        return (many, Maybe(first))
    return (many, maybe)


def repeated(form):
    """A form any number of times."""
    if not form or is_absent(form):
        return ()
    if len(form) == 1 and isinstance(form[0], (Maybe, Many)):
        return (Many(form[0].form),)
    return (Many(form),)


def optional(forms):
    """One of these forms, or nothing."""
    if not forms:
        return ()
    form = factored(forms)
    if len(form) == 1 and (isinstance(form[0], Maybe) or isinstance(form[0], Many) and not form[0].least):
        return form
    if len(form) == 1 and isinstance(form[0], Many):
        return (Many(form[0].form),)
    return (Maybe(form),)


def alternatives(forms):
    """One of these forms, as a form."""
    options = list(dict.fromkeys(option for form in forms for option in flat(form)))
    options = uncovered(merge_alike(with_lists(options)))
    if () in options:
        return optional([it for it in options if it])
    return factored(options)


def flat(form):
    """The alternatives that a form has."""
    if len(form) == 1 and isinstance(form[0], Either):
        return [it for option in form[0].forms for it in flat(option)]
    if len(form) == 1 and isinstance(form[0], Maybe):
        return [*flat(form[0].form), ()]
    return [form]


def uncovered(options):
    """Options without those that are one of the ways of another one whose rest may be missing."""
    def covers(longer, option):
        first, *rest = longer or [None]
        ways = first.forms if isinstance(first, Either) else options_of(first.form) if isinstance(first, Many) else ()
        return option in ways and may_be_empty(rest)
    return [it for it in options if not any(covers(other, it) for other in options if other != it)]


def with_lists(options):
    """Options without those that a list among them covers: repeated elements, each with the separator after it."""
    for option in options:
        many = option[0] if option else None
        if not isinstance(many, Many):
            continue
        others = [it for it in options if it != option]
        if len(option) == 1 and not many.least and any(it[:1] == (Many(many.form, 1),) for it in others):
            return with_lists([*others, (Many(many.form, 1),), ()])
        if not is_separated(many):
            continue
        element, separator = many.form[:-1], many.form[-1:]
        lists = [(Listed(element, separator, is_open),) for is_open in (True, False)]
        if len(option) == 1 and any(it in others for it in lists):
            others = [it for it in others if it not in lists]
            return with_lists([*others, lists[0], *([] if many.least else [()])])
        if option == (Many(many.form, 1), Maybe(element)) and element in others:
            return with_lists([lists[0] if it == option else it for it in options if it != element])
    return with_separator_first(options)


def with_separator_first(options):
    """Options without an element alone where another one has several, with a separator before the first or not."""
    for option in options:
        many = option[-1] if len(option) == 2 else None
        if isinstance(many, Many) and many.least and option[0] == Maybe(many.form[1:]) and many.form[1:] in options:
            separator, element = many.form[:1], many.form[1:]
            listed = (Maybe(separator), Listed(element, separator, False))
            return [listed if it == option else it for it in options if it != element]
    return options


def merge_alike(options):
    """Options that differ only in a rule's outcomes or in a node's form become one."""
    merged = []
    for option in options:
        for at, other in enumerate(merged):
            joined = alike(other, option)
            if joined is not None:
                merged[at] = joined
                break
        else:
            merged.append(option)
    return merged if len(merged) == len(options) else merge_alike(merged)


def alike(left, right):
    """Two forms as one, where they differ in one part that can be both; otherwise `None`."""
    if len(left) != len(right):
        return None
    places = [at for at, (a, b) in enumerate(zip(left, right)) if a != b]
    if len(places) != 1:
        return None
    at, = places
    a, b = left[at], right[at]
    part = None
    if isinstance(a, Rule) and isinstance(b, Rule) and a.name_alone() == b.name_alone():
        part = a.or_as(b)
    elif isinstance(a, Node) and isinstance(b, Node) and (a.kind, a.around) == (b.kind, b.around):
        part = Node(a.kind, alternatives([a.form, b.form]), a.around)
    return None if part is None else (*left[:at], part, *left[at + 1:])


def factored(options):
    """Options without the beginning and the end that all share, and grouped where some begin alike."""
    if len(options) == 1:
        return options[0]
    head = shared_head(options)
    tail = shared_head([tuple(reversed(it[head:])) for it in options])
    if head or tail:
        inner = alternatives([it[head:len(it) - tail] for it in options])
        first, last = options[0][:head], options[0][len(options[0]) - tail:]
        return sequence((*first, *inner, *last))
    for shorten in (group, with_openings):
        shorter = shorten(options)
        if len(shorter) < len(options):
            return alternatives(shorter)
    return (Either(tuple(options)),)


def group(options):
    """Options that begin alike are put together, at the place of the first of them."""
    groups = {}
    for option in options:
        groups.setdefault(option[0], []).append(option)
    return [factored(it) if len(it) > 1 else it[0] for it in groups.values()]


def with_openings(options):
    """Options of which one is another after an opening part: that part may be missing."""
    for option in options:
        rest = flat(option[1:]) if len(option) > 1 else []
        if rest and all(it in options for it in rest):
            longer = sequence((*optional([option[:1]]), *option[1:]))
            return with_openings([longer if it == option else it for it in options if it not in rest])
    return options
