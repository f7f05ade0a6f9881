"""Goes along the turns of a loop."""
from dataclasses import replace

from grammar_page.forms import TURN, Rule, Token, first_part, unstarted
from grammar_page.kinds import CLOSING
from grammar_page.shorten import alternatives, repeated, sequence
from grammar_page.states import Exit, State, without_end


class Loop:
    """A loop. A place in it is its two flags with the kinds that the next token may have."""

    def __init__(self, walker, turn, scope, state):
        self.walker, self.turn, self.scope, self.state = walker, turn, scope, state
        self.edges, self.leaves, self.faults, self.wrong = {}, {}, [], []

    def exits(self, flags):
        """The exits of the loop from these flags on."""
        start, count = (*flags, self.state.facts), len(self.walker.messages)
        self.explore([start], self.state.fault)
        self.explore(self.wrong, True)
        self.name_elements(self.walker.messages[count:])
        exits = []
        for (outcome, facts), form in self.forms(start).items():
            whole = sequence((*self.state.form, *form))
            exits.append(Exit(outcome, State(whole, facts, (), self.state.fault)))
        exits = without_end(exits) or exits
        known = {it.outcome for it in exits}
        faults = [it for it in self.faults if it.outcome not in known]
        return exits + [Exit(it.outcome, replace(it.state, form=self.state.form)) for it in faults]

    # -- turns

    def explore(self, places, fault):
        """Goes through all places that are reached from these; `fault` says that something was reported before."""
        places = list(places)
        while places:
            place = places.pop()
            if place not in self.edges:
                self.edges[place], self.leaves[place] = {}, {}
                for way in self.turn_exits(place, fault):
                    self.add(place, way, places, fault)

    def turn_exits(self, place, fault):
        """The exits of a turn."""
        first, second, facts = place
        head, given = (self.turn[1], self.turn[2]) if self.turn[0] == 'call' else (self.turn, ())
        term = ('call', head, (*given, ('name', 'first flag'), ('name', 'second flag')))
        scope = self.scope.bind({'first flag': first, 'second flag': second})
        return self.walker.within(self.walker.walk, term, scope, State((*self.state.form, TURN), facts, (), fault))

    def add(self, place, way, places, fault):
        """Adds a way out of a turn: to another turn, or out of the loop."""
        form = way.state.form[len(self.state.form) + 1:]
        is_wrong = way.state.fault and not self.state.fault
        if way.outcome.name == 'again':
            target = (*way.outcome.flags, way.state.facts)
            if not is_wrong:
                self.edges[place].setdefault(target, []).append(form)
            (self.wrong if is_wrong and not fault else places).append(target)
        elif is_wrong:
            self.faults.append(way)
        else:
            self.leaves[place].setdefault((way.outcome, way.state.facts), []).append(form)

    # -- messages

    def name_elements(self, messages):
        """Adds to messages at the start of a turn what is there in a turn without errors."""
        turns, ends = self.firsts(self.edges), self.firsts(self.leaves)
        closing = {Token(frozenset([it])) for it in CLOSING.values()}
        is_list = len(turns) == 1 and ends <= turns | closing
        for message in messages:
            if unstarted(message.before)[-1:] == (TURN,) and message.element is None:
                message.element = tuple(turns) if is_list else ()
                message.in_list = len(turns) > 1

    def firsts(self, ways):
        """What turns, or what leads out of them, begin with."""
        forms = [form for way in ways.values() for forms in way.values() for form in forms if form]
        return {it.name_alone() if isinstance(it, Rule) else it for it in map(first_part, forms)}

    # -- forms

    def forms(self, start):
        """What is read from the first turn up to each way out of the loop."""
        edges, leaves = joined(self.edges), joined(self.leaves)
        for gone in [it for it in edges if it != start]:
            leave_out(gone, edges, leaves)
        turns = repeated(edges[start].get(start, ()))
        return {end: sequence((*turns, *form)) for end, form in leaves[start].items()}


def joined(table):
    """A table of ways with one form from a place to another."""
    return {place: {it: alternatives(forms) for it, forms in ways.items()} for place, ways in table.items()}


def leave_out(gone, edges, leaves):
    """Leads all ways past a place: through it they are longer."""
    turns = repeated(edges[gone].pop(gone, ()))
    for place in edges:
        way = edges[place].pop(gone, None)
        if way is None:
            continue
        for table in (edges, leaves):
            for end, form in table[gone].items():
                longer = sequence((*way, *turns, *form))
                known = table[place].get(end)
                table[place][end] = longer if known is None else alternatives([known, longer])
    edges[gone], leaves[gone] = {}, {}
