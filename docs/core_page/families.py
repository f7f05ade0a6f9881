"""What is written once for many: the rows of a name that is given truth values, levels, lists of levels or
categories."""
from core_page.text import FLAG


def with_sign(rows, sign):
    return [(text.replace(FLAG, sign), node) for text, node in rows]


def heads(name, members, is_same=lambda first, other: False):
    """The heads that stand for all members of a name, each with its rows. `members` says of what is given what a
    member's rows are, with letters or without them. Members are one where their rows are the same, or where `is_same`
    says so of two of them."""
    found = []
    for sign, given, rows in by_sign(members):
        group = next((it for it in found if it[0] == sign and (it[2] == rows or is_same(it[1][0], given))), None)
        if group:
            group[1].append(given)
        else:
            found.append((sign, [given], rows))
    for sign, group, rows in found:
        if len(group) == 1:
            rows = with_sign(members[group[0]](False), '!?' if sign == '!?' else '!')
        yield (name, sign, group), rows


def by_sign(members):
    """Members, of which two are one that differ in the sign alone that no record literal may stand in one."""
    done = set()
    for given, member in members.items():
        rest = tuple(it for it in given if not isinstance(it, bool))
        if rest in done:
            continue
        rows, other = member(True), tuple(not it if isinstance(it, bool) else it for it in given)
        if other != given and with_sign(members[other](True), '') == with_sign(rows, ''):
            done.add(rest)
            yield '!?', other if True in other else given, with_sign(members[other](True), '!?')
        else:
            yield '!' if True in given else '', given, with_sign(rows, '!')
