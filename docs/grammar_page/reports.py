"""What is said below a rule: its nodes, what it reports, what it gives to others, and what its form cannot say."""
from dataclasses import replace

from grammar_page.entries import shown, ungiven
from grammar_page.forms import Mark, Node, inside, is_absent, may_be_empty
from grammar_page.tests import At, Not
from grammar_page.values import Function
from grammar_page.words import listing

# Of a node that begins before the part that is read.
AROUND = 'also containing the node before it'


class Reports:
    """Says things of the entries, in the words of `words`."""

    def __init__(self, entries, words, write, limits):
        self.entries, self.words, self.write, self.limits = entries, words, write, limits

    def notes_below(self, instances):
        """The lines below a rule's form: a word, and each text with the instances that it is true of."""
        for word, texts_of in (('Reports', self.messages), ('Reports', self.through), ('Recovery', self.recovery),
                               ('Note', self.notes)):
            texts = {}
            for it in instances:
                for text in texts_of(it.walker):
                    texts.setdefault(text, []).append(it)
            yield word, texts

    # -- nodes

    def nodes(self, options):
        """The nodes that a rule makes: those over all that it reads, and those in them."""
        whole = list(dict.fromkeys(it for it in map(self.whole, options) if it))
        inner, around = {}, []
        for kind, how, span in (it for option in options for it in self.inner(option, True)):
            if how == AROUND:
                around.append(f'`{kind}`')
            else:
                inner.setdefault((kind, how), []).append(span)
        texts = [self.covering(kind, how, [it for it in dict.fromkeys(spans) if it])
                 for (kind, how), spans in inner.items()]
        if around:
            texts.append(f'{listing(around, "and")}, ' + ('each ' if len(set(around)) > 1 else '') + AROUND)
        inside = [('inside it ' if whole else '') + listing(texts, 'and')] if texts else []
        return '; '.join([*([listing(whole)] if whole else []), *inside])

    def covering(self, kind, how, spans):
        return f'`{kind}` {how} {listing(spans)}' if 0 < len(spans) < 3 else f'`{kind}`'

    def whole(self, option):
        """The node over an option."""
        around = [it.kind for it in option if isinstance(it, Node) and it.around and not it.form]
        if around:
            return f'`{around[-1]}`'
        if option and isinstance(option[0], Node):
            return f'`{option[0].kind}`' + (', ' + AROUND if option[0].around else '')
        if option and isinstance(option[-1], Mark):
            return f'`{option[-1].kind}`, started by the caller'
        return ''

    def inner(self, form, is_outer=False):
        """The nodes inside of a form: the kind of each, how it lies over a part, and the part."""
        found = []
        outer = next((it for it in reversed(form) if isinstance(it, Node) and it.around and not it.form), None)
        outer = outer or form[0] if is_outer and form else None
        for at, part in enumerate(form):
            if isinstance(part, Node) and part is not outer:
                span = self.span(part.form) if part.form else ''
                found.append((part.kind, AROUND if part.around else 'over', span))
            elif isinstance(part, Mark) and not (is_outer and at == len(form) - 1):
                found.append((part.kind, '(started by the caller) up to', self.span(form[:at]) if at else ''))
            found += [it for form_in in inside(part) for it in self.inner(form_in)]
        return found

    def span(self, form):
        """A form, or its beginning and its end."""
        text = self.write.form(form)
        if len(text) <= 50:
            return text
        first, last = self.write.form(form[:1]), self.write.form(form[-1:])
        return f'{first} … {last}' if len(first + last) <= 50 and first != last else 'that'

    # -- messages

    def messages(self, walker):
        """What is reported by one instance of a rule, a text for each message."""
        found = [it for it in walker.messages if not self.is_repeated(it, walker.messages)]
        missing = list(dict.fromkeys(self.words.message(it) for it in found if it.how == 'missing'))
        others = self.paired([it for it in found if it.how != 'missing'])
        return ([', '.join(missing)] if missing else []) + self.grouped(others)

    def through(self, walker):
        """What other rules report where they find nothing of their own, a text for all of them."""
        found = {}
        for call in walker.calls:
            texts = self.first_messages(call.rule, 4) if call.is_free else []
            if texts:
                found.setdefault(self.name(call.rule), []).extend(texts)
        texts = [f'{listing(texts, "and")} through {rule}' for rule, texts in found.items()]
        return [', '.join(texts)] if texts else []

    def first_messages(self, rule, depth):
        """What a rule reports where it finds nothing of its own: itself, or through the rule that it begins with."""
        walkers = [it.walker for it in self.entries[rule.module, rule.name].group_of(rule.given)]
        own = [it for walker in walkers for it in walker.messages if self.is_first(it)]
        own = [it for it in own if all(isinstance(test, Not) for test in it.tests)] or own
        if own or not depth:
            return list(dict.fromkeys(self.words.quoted(it.text) for it in own))
        calls = [it.rule for walker in walkers for it in walker.calls if it.is_free and may_be_empty(it.before)]
        return list(dict.fromkeys(text for it in calls for text in self.first_messages(it, depth - 1)))

    def is_first(self, message):
        """Whether a message may be the first thing that its rule does."""
        return not message.late and not message.by and message.how != 'missing' and may_be_empty(message.before)

    def is_repeated(self, message, messages):
        """Whether a message comes after another one, and is reported without that one too."""
        return message.late and any(it.text == message.text and not it.late for it in messages)

    def paired(self, messages):
        """Messages of which two are one: reported before some tokens, and otherwise with the next one in an `ERROR`."""
        left = []
        for message in messages:
            other = next((it for it in left if self.is_pair(it, message) or self.is_pair(message, it)), None)
            if other is None:
                left.append(message)
                continue
            report, skip = (other, message) if other.how == 'report' else (message, other)
            tests = skip.tests[:-1]
            left[left.index(other)] = replace(skip, how='recover', tests=tests, keeps=report.tests[-1])
        return left

    def is_pair(self, report, skip):
        is_same = (report.how, skip.how, report.text, report.before) == ('report', 'skip', skip.text, skip.before)
        return is_same and not report.by and bool(skip.tests) and skip.tests[-1] == Not(report.tests[-1]) \
            if is_same and report.tests else False

    def grouped(self, messages):
        """A text for each message: those that differ only in their place or in what comes next are one."""
        groups = {}
        for it in messages:
            groups.setdefault((self.words.quoted(it.text), self.words.then(it)), []).append(it)
        texts = []
        for (text, then), group in groups.items():
            places = {}
            for it in group:
                places.setdefault(self.words.place(it), []).append(self.words.condition(it.tests))
            where = {}
            for place, conditions in places.items():
                conditions = self.shortest(list(dict.fromkeys(conditions)))
                if len(conditions) > 2:
                    conditions = ['if none of the expected tokens comes next']
                condition = ' or '.join(conditions)
                where.setdefault(condition, []).append(place)
            spots = [self.spot(them, condition) for condition, them in where.items()]
            texts.append(text + ' ' * bool(spots[0]) + '; or '.join(spots) + (f'; {then}' if then else ''))
        return texts

    def shortest(self, conditions):
        """The shortest of conditions that all say what does not come next."""
        absent = [it for it in conditions if it.startswith(('if no', 'if neither'))]
        return [min(absent, key=len), *(it for it in conditions if it not in absent)] if absent else conditions

    def spot(self, places, condition):
        place = listing([it for it in places if it] or [''])
        return f'{place}, {condition}' if place and condition else place or condition

    # -- notes

    def notes(self, walker):
        """What the form of a rule cannot say."""
        return [*self.limits.of(walker), *self.powers(walker), *self.loose(walker)]

    def recovery(self, walker):
        """Which tokens other rules do not skip."""
        texts = []
        for call in walker.calls:
            for value in call.given:
                test = walker.kept(value) if isinstance(value, Function) else None
                if isinstance(test, At):
                    texts.append(f'{self.name(call.rule)} does not skip {self.words.one_of(test.kinds)}')
        return list(dict.fromkeys(texts))

    def powers(self, walker):
        """The least power of the operators that other rules may have."""
        found = [(it.rule, value) for it in walker.calls for value in it.given if isinstance(value, int)]
        return list(dict.fromkeys(
            f'{self.name(rule)} only with operators of power {power} or more'
            for rule, power in found if not isinstance(power, bool) and power > 1))

    def name(self, rule):
        return self.write.form(ungiven(shown((rule,))))

    def loose(self, walker):
        """What is left without a node and without a message."""
        forms = dict.fromkeys(self.write.form(shown(it)) for it in walker.loose if not is_absent(it))
        return [f'{it} alone gets no node, and nothing is reported' for it in forms]
