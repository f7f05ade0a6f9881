"""The rows of the core grammar as a search goes along them: sites, and which kinds of nodes and tokens may come there.

A site is a place of a row with the places that stand behind the ways in which it is. So the end of a way is no site,
and each site tells what comes up to the end of the row. The first sites are the places themselves. What may come is
told by the kind of the first element, a node or a leaf of a tree; where a list of elements ends that is the number past
all kinds.

What is written of this is not believed: `crates/rap_grammar_rows/rows` writes it for the search alone."""
from support.kinds import read_kinds

# The forms of parts, by their numbers in the columns.
NIL, BEGIN, CLOSE, TOKEN, WORD, OPERATOR, CATEGORY, CHOICE, REPEAT, GROUP, FOLDS, WAY, UNLESS = range(13)

# The forms of sites, by their numbers.
FORMS = ('end', 'start', 'start around', 'inside', 'close', 'close around', 'token', 'word', 'operator', 'category',
         'choice', 'repeat', 'group', 'folds', 'turn', 'guard')

# The forms of sites that are those of parts.
SAME = {NIL: 'end', CLOSE: 'close', TOKEN: 'token', WORD: 'word', OPERATOR: 'operator', CATEGORY: 'category',
        REPEAT: 'repeat', GROUP: 'group', FOLDS: 'folds', WAY: 'turn', UNLESS: 'guard', BEGIN: 'start'}

# How many kinds a word of a set of kinds has bits for.
BITS = 32


class Sites:
    """The sites of rows that are columns of numbers. Sets of kinds are numbers with a bit for each kind."""

    def __init__(self, columns, categories, members):
        self.forms, self.firsts, self.seconds, self.nexts = columns
        self.categories = categories
        self.members = [self.bits(it) for it in members]
        self.at_end = len(read_kinds())
        self.words = self.at_end // BITS + 1
        self.any = (1 << self.words * BITS) - 1
        self.empty = self.any + 1
        self.numbers, self.sites, self.sets = {}, [], {}
        for place in range(len(self.forms)):
            self.number((place, ()))
        self.reached = self.reach()
        self.is_reached = set(self.reached)
        self.inner = {it: len(self.sites) + at for at, it in enumerate(self.around())}
        self.kinds = self.first_kinds()

    @staticmethod
    def bits(kinds):
        """The set of some kinds."""
        return sum(1 << it for it in set(kinds))

    def behind(self, place, further):
        """The place so many parts further."""
        return place + 1 + further

    def next(self, place):
        """The place behind a part."""
        return self.behind(place, self.nexts[place])

    def first(self, place):
        """The place that the first number of a part names."""
        return self.behind(place, self.firsts[place])

    def second(self, place):
        """The place that the second number of a part names."""
        return self.behind(place, self.seconds[place])

    def number(self, site):
        """The number of a site."""
        place, ways = site
        while self.forms[place] == NIL and ways:
            place, *ways = ways
        site = place, tuple(ways)
        if site not in self.numbers:
            self.numbers[site] = len(self.sites)
            self.sites.append(site)
        return self.numbers[site]

    def ways(self, number):
        """The sites of the two ways of a choice."""
        place, ways = self.sites[number]
        ways = (self.next(place), *ways)
        return self.number((self.first(place), ways)), self.number((self.second(place), ways))

    def then(self, number):
        """The site behind one that is no choice."""
        place, ways = self.sites[number]
        return self.number((self.next(place), ways))

    def following(self, number):
        """The sites that a walk, or another one that it begins, comes to from one."""
        place = self.sites[number][0]
        form = self.forms[place]
        if form == NIL:
            return []
        if form == CHOICE:
            return list(self.ways(number))
        others = [self.first(place)] if form in (REPEAT, GROUP, FOLDS, WAY) else []
        return [self.then(number), *others, *([self.second(place)] if form == REPEAT else [])]

    def reach(self):
        """The sites that are reached from the row of a file and the rows of categories."""
        found = set()
        left = [0, *(it for rows in self.categories for it in rows)]
        while left:
            number = left.pop()
            if number not in found:
                found.add(number)
                left += self.following(number)
        return sorted(found)

    def node_end(self, place):
        """Where the node ends that is open from a place on: its kind, and the place behind it."""
        depth = 0
        while self.forms[place] != CLOSE or depth:
            depth += (self.forms[place] == BEGIN) - (self.forms[place] == CLOSE)
            place = self.next(place)
        return self.firsts[place], self.next(place)

    def turns(self, place):
        """The places of turns from one on."""
        while self.forms[place] == WAY:
            yield place
            place = self.next(place)

    def turned(self, turns):
        """The kinds of the nodes that turns put around one."""
        return self.bits(self.node_end(self.first(it))[0] for it in self.turns(turns))

    def folded(self, number):
        """The kinds of the nodes that may stand around what begins at a site; none where no turns come behind it."""
        place, ways = self.sites[number]
        if self.forms[place] not in (BEGIN, CATEGORY):
            return 0
        behind = self.next(place) if self.forms[place] == CATEGORY else self.node_end(self.next(place))[1]
        return self.folding(self.number((behind, ways)))

    def folding(self, number):
        """The kinds of the nodes that turns at a site put around the one before; none where there are no turns."""
        place = self.sites[number][0]
        return self.turned(self.first(place)) if self.forms[place] == FOLDS else 0

    def around(self):
        """The sites at which a walk goes down to what nodes stand around."""
        return [it for it in self.reached if self.folded(it)]

    def first_kinds(self):
        """The kinds that may come at each site, with the bit `empty` where the row may end there."""
        kinds = [0] * len(self.sites)
        rows = [0] * len(self.categories)
        before = None
        while before != kinds:
            before = kinds[:]
            for number in reversed(self.reached):
                kinds[number] = self.coming(number, kinds, rows)
            rows = [union(kinds[place] for place in it) for it in self.categories]
        return kinds

    def coming(self, number, kinds, rows):
        """The kinds that may come at a site, by those at others and of the categories so far."""
        place = self.sites[number][0]
        form, first = self.forms[place], self.firsts[place]
        if form == NIL:
            return self.empty
        if form == CHOICE:
            return union(kinds[it] for it in self.ways(number))
        if form == CLOSE:
            return 1 << self.at_end
        if form == TOKEN:
            return self.members[first]
        if form in (WORD, OPERATOR):
            return 1 << first
        if form == BEGIN:
            return 1 << self.node_end(self.next(place))[0] | self.folded(number)
        then = kinds[self.then(number)]
        if form == CATEGORY:
            return self.passed(rows[first], then) | self.folded(number)
        if form == GROUP:
            return self.passed(kinds[self.first(place)], then)
        if form == REPEAT:
            return kinds[self.first(place)] & ~self.empty | self.passed(kinds[self.second(place)], then)
        return then

    def passed(self, found, then):
        """The kinds that may come at what may be empty, before a site."""
        return found & ~self.empty | then if found & self.empty else found

    def allowed(self, kinds):
        """The number of the set of the kinds with which a walk may go on: all, where the row may end."""
        return self.sets.setdefault(self.any if kinds & self.empty else kinds, len(self.sets))

    def fields(self, number):
        """The numbers of a site: its form, two that belong to it, the site behind it, and two sets of kinds."""
        place = self.sites[number][0]
        form, first, second = self.forms[place], self.firsts[place], self.seconds[place]
        if form == NIL or number not in self.is_reached:
            return FORMS.index('end'), 0, 0, 0, 0, 0
        if form == CHOICE:
            ways = self.ways(number)
            return FORMS.index('choice'), *ways, 0, *(self.allowed(self.kinds[it]) for it in ways)
        kinds, others, then = 0, 0, self.then(number)
        name = SAME[form]
        if form == BEGIN:
            first = self.node_end(self.next(place))[0]
            name = 'start around' if number in self.inner else name
        elif form == CLOSE and self.folding(then):
            name = 'close around'
        elif form == TOKEN:
            kinds = self.allowed(self.members[first])
        elif form in (REPEAT, GROUP, FOLDS):
            first = self.first(place)
            second = self.second(place) if form == REPEAT else second
            kinds = self.allowed(self.kinds[first]) if form != FOLDS else 0
            others = self.allowed(self.kinds[second]) if form == REPEAT else 0
        elif form == WAY:
            first, second = second, self.first(place)
            kinds, others = self.allowed(1 << self.node_end(second)[0]), self.allowed(self.kinds[second])
        return FORMS.index(name), first, second, then, kinds, others

    def all_fields(self):
        """The numbers of all sites. What nodes may stand around comes last, behind what goes down to it."""
        found = [self.fields(it) for it in range(len(self.sites))]
        found += [found[it] for it in self.inner]
        for site, inner in self.inner.items():
            found[site] = FORMS.index('inside'), 0, 0, inner, self.allowed(self.folded(site)), 0
        return found

    def candidates(self):
        """For each category the kinds with which a row may begin, each with those rows by number and place."""
        for rows in self.categories:
            fits = {kind: tuple((at, it) for at, it in enumerate(rows) if self.kinds[it] & (1 << kind | self.empty))
                    for kind in range(self.at_end + 1)}
            yield {kind: it for kind, it in fits.items() if it}

    def roots(self, category):
        """The kinds of the nodes that a category is by what stands in its own rows, and not by another one alone: those
        that a row begins, and those that turns put around another node."""
        begun, turned = 0, 0
        left = list(self.categories[category])
        while left:
            place = left.pop()
            form = self.forms[place]
            if form == BEGIN:
                kind, place = self.node_end(self.next(place))
                begun |= 1 << kind
            elif form in (CHOICE, REPEAT, GROUP, UNLESS, CATEGORY, FOLDS):
                left += [self.next(place), *([self.first(place)] if form in (CHOICE, REPEAT, GROUP) else []),
                         *([self.second(place)] if form in (CHOICE, REPEAT) else [])]
            if self.forms[place] == FOLDS:
                turned |= self.turned(self.first(place))
        return begun, turned


def union(sets):
    """All that is in one of some sets."""
    found = 0
    for it in sets:
        found |= it
    return found


def packed(tables):
    """Tables with few keys in one list, each from a place of its own on: these places; and at each place of the list
    that is taken the number of the table and one, with the value. A value stands its key behind its table's place."""
    starts, taken = [0] * len(tables), {}
    for at, table in sorted(enumerate(tables), key=lambda it: -len(it[1])):
        while any(starts[at] + key in taken for key in table):
            starts[at] += 1
        taken.update((starts[at] + key, (at + 1, value)) for key, value in table.items())
    return starts, [taken.get(at, (0, 0)) for at in range(max(taken) + 1)]
