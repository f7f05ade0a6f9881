"""The page: a section for each family of rules, and below each rule what is said of it."""
import itertools
import re
import textwrap
from dataclasses import replace

from grammar_page.ebnf import Writer, without_nodes
from grammar_page.entries import entries_of, shown, ungiven
from grammar_page.forms import Either, Mark, Node, Rule, inside, options_of
from grammar_page.limits import Limits
from grammar_page.openings import Openings
from grammar_page.railroad import Diagrams
from grammar_page.reports import Reports
from grammar_page.shorten import alternatives, flat, sequence
from grammar_page.values import BLOCK, Case, Fields, Given
from grammar_page.words import Words, listing

WIDTH = 118
PICTURE = '(picture)'
HEAD = '''# The grammar

<!-- Written by docs/grammar from the scripts in crates/rap_grammar_scripts/specs; do not edit. -->

Each rule of the parser as a rule of a grammar, with the node that it makes and with each message that it reports. The
page is computed from the scripts of the rules (`crates/rap_grammar_scripts/specs`), and each rule of the program is
proved to follow its script, so the page says what the program does. Rules have the names that rust-analyzer gives
them; if the Rust Reference has a name for a rule, that name is given too.

## How to read a rule

The notation is that of the Reference:

| here | means |
|---|---|
| `fn`, `{` | this token; a word like `union` is an identifier that is read as a keyword there |
| IDENT | a token of this kind, as the lexer returns it |
| [type_] | another rule, by the name that the caller uses |
| [type_] _(y)_ | the rule with the argument or the result y; a parameter's name means that it is true |
| `x`? | it may be missing |
| `x`\\*, `x`+ | any number of them; at least one |
| `x` \\| `y` | one of them: the first that fits what comes next |
| … | the node before it, which becomes a part of this rule's node (as by `precede` in rust-analyzer) |
| ⇒ `NODE` | the node of this alternative |

A rule is written as it parses a text without errors. The lines below the rule say what it reports for other texts:
the message in quotes, the part of the rule *after* which it is reported or *instead of* which, the condition on the
next tokens (*if*), and what is done then. After a message for a missing token the rule continues as if the token had
been there; after a token that goes into an `ERROR` node, the rule continues with the next one. A message that is
reported *through* another rule is reported by that rule, if nothing of it comes next; its conditions are listed there.
A rule that *fails* returns `None` or `false` in the Rust crate. KIND in a message is the name of the next token's
kind.

- **Node**: the node that the rule makes. If the caller started it, that node also contains what the caller parsed
  first, such as attributes and the visibility.
- **Reports**: a message, its place, its condition, and what is done then. Without such a line the rule itself reports
  nothing.
- **Recovery**: tokens that are not skipped if a part is missing.
- **Note**: what the form does not say: conditions on more tokens than the next one, or arguments of another rule.
'''
OPERATORS = '''## Operators

### operator

The binary operators, the tightest first. The right operand of an operator contains only operators whose power is at
least that in the last column.
'''
UNREPORTED = '''## Messages that are never reported

The scripts have these messages too, but no call of their rules can reach them.
'''
SETS = '''## Sets of tokens

The sets of tokens, with their names in the scripts. A token of several characters is in a set through its first one:
`:` may be that of `::`, and `.` that of `..`.
'''


def escaped(line):
    """A line with the stars of repeated parts as stars: those that follow a part, outside of code."""
    pieces = re.split(r'(`[^`]*`)', line)
    pieces[::2] = [re.sub(r'(?<![*\s])\*(?=[ )?,;\\]|$)', r'\\*', it) for it in pieces[::2]]
    return ''.join(pieces)


def anchors(lines):
    """The anchor of each heading of a rule or a set: of headings that are the same, all but the first are numbered."""
    places, counts = {}, {}
    for line in lines:
        if line.startswith('## ') or line.startswith('### '):
            title = line.lstrip('# ')
            name = re.sub(r'[^\w -]', '', title.lower()).replace(' ', '-')
            counts[name] = counts.get(name, -1) + 1
            if line.startswith('### '):
                places[title] = name + (f'-{counts[name]}' if counts[name] else '')
    return places


class Page:
    """The page of a grammar."""

    def __init__(self, grammar, modules, names):
        self.grammar, self.modules, self.names = grammar, modules, names
        self.entries = entries_of(grammar)
        operators = frozenset(it for it, power in grammar.kinds.powers.items() if power != 2 and it != 'AS_KW')
        self.words = Words(grammar.kinds, {**grammar.evaluator.named_sets(), 'operator': operators})
        self.write = Writer(grammar.kinds, self.link, self.words.of, self.about)
        self.words.write = self.write
        given = {key for key, _ in grammar.kinds_given}
        limits = Limits(self.words, self.write, Openings(grammar, self.entries), grammar.firsts, given)
        self.reports = Reports(self.entries, self.words, self.write, limits)
        self.order = self.ordered()
        self.links = {}

    # -- links

    def title(self, entry):
        """The heading of an entry: its name, with its module where two rules have that name."""
        same = [it for it in self.order if it.name == entry.name]
        return entry.name if same[0] is entry else f'{entry.name} ({entry.module})'

    def link(self, rule):
        entry = self.entries[rule.module, rule.name]
        title, label = self.title(entry), rule.label
        aliases = entry.labels.get((rule.module, rule.name, rule.given), [])
        if label == rule.name and aliases and not any(isinstance(it, Given) for it in rule.given):
            label = aliases[0]
        if title != rule.name and label == rule.name:
            self.links[title] = title
            return f'[{label}][{title}]'
        self.links[label] = title
        return f'[{label}]'

    def about(self, rule):
        """The arguments of a call if they change what it reads, and its result if that decides how to continue."""
        entry = self.entries[rule.module, rule.name]
        words = []
        aliases = entry.labels.get((rule.module, rule.name, rule.given), [])
        if rule.given and rule.label == rule.name and len(entry.groups) > 1 and not aliases:
            words.append(self.given(entry, entry.group_of(rule.given)))
        if rule.only != rule.every:
            words.append(self.outcome(rule))
        return words

    def outcome(self, rule):
        """The outcome with which a rule ends, in words."""
        forms = self.entries[rule.module, rule.name].with_outcome(next(iter(rule.only)))
        texts = [self.write.form(shown(it)) for it in forms]
        if texts and all(re.fullmatch(r'`[^` ]+`', it) for it in texts):
            return listing(texts)
        return 'block-like' if BLOCK in rule.only else 'not block-like'

    # -- the order

    def ordered(self):
        """All entries in the order of the page: by families, in each first the rules that are named, then the others
        from the last script of a module to its first."""
        order = [it for it in self.grammar.library.modules if it not in self.modules]
        found = []
        for module in [*self.modules, *order]:
            listed = [name for it, name in self.names if it == module]
            names = [*listed, *reversed(self.grammar.library.modules[module].definitions)]
            found += [self.entries[module, it] for it in dict.fromkeys(names) if (module, it) in self.entries]
        return found

    # -- entries

    def entry(self, entry):
        lines = [f'### {self.title(entry)}', '']
        names = [it for it in self.names.get((entry.module, entry.name), []) if it[0].isupper()]
        said = [f'In the Reference: {listing([f"*{it}*" for it in names], "and")}.'] if names else []
        said += self.other_names(entry)
        if said:
            lines += [*self.paragraph(' '.join(said)), '']
        if PICTURE in self.names.get((entry.module, entry.name), []):
            lines += [f'![{entry.name} as a diagram](railroad/{entry.name}.svg)', '']
        for group in entry.groups:
            lines += [*self.rule(entry, group), '']
        below = self.lines(entry)
        return lines + below + [''] * bool(below)

    def other_names(self, entry):
        """The other names of a rule, unless they are given before its forms."""
        if len(entry.groups) > 1:
            return []
        found = [(label, self.given(entry, [it])) for it in entry.instances() for label in entry.labels.get(it.key, [])]
        texts = [f'`{label}`' + (f' ({given})' if given else '') for label, given in found]
        return [f'Also called {listing(texts, "and")}.'] if texts else []

    def rule(self, entry, group):
        """A rule with what it reads."""
        options = self.common(group)
        if not group[0].is_right:
            options = [it for it in options if it]
        label = self.label(entry, group)
        start = f'**{entry.name}**{f" ({label})" if label else ""} →'
        shown_nodes = len({self.reports.whole(it) for it in options}) > 1
        if not shown_nodes and not any(map(self.is_around, options)):
            options = self.joined(options)
        texts = [self.option(it, shown_nodes) for it in options]
        line = ' '.join([start, ' | '.join(texts)])
        if len(line) <= WIDTH and not shown_nodes:
            return self.quoted([line])
        if len(texts) == 1:
            return self.quoted([f'{start}\\', f'&emsp; {texts[0]}'])
        lines = [f'&emsp; {"| " if at else "&ensp;"}{it}' for at, it in enumerate(texts)]
        return self.quoted([f'{start}\\', *(f'{it}\\' for it in lines[:-1]), lines[-1]])

    def common(self, group):
        """What all instances of a group read: the same form, or the form without the arguments in which they differ."""
        for change in (lambda form: form, ungiven):
            forms = [alternatives([change(it) for it in instance.options]) for instance in group]
            if all(it == forms[0] for it in forms):
                return flat(forms[0])
        return group[0].bare

    def joined(self, options):
        form = alternatives([without_nodes(it, self.grammar.kinds) for it in options])
        return options_of(form)

    def option(self, option, with_node):
        text = self.write.form(option)
        node = self.reports.whole(option).split(',')[0] if with_node else ''
        return ('… ' if self.is_around(option) else '') + text + (f' ⇒ {node}' if node else '')

    def is_around(self, option):
        """Whether an option's node begins with the node before it."""
        return isinstance(option[0], Node) and option[0].around and bool(option[0].form)

    def quoted(self, lines):
        wrapped = []
        for line in map(escaped, lines):
            wrapped += textwrap.wrap(line, WIDTH - 2, break_long_words=False, break_on_hyphens=False)
        return [f'> {it}' for it in wrapped]

    def label(self, entry, group):
        """Which of the calls of a rule this is: by its name there, or by its arguments."""
        return self.called(entry, group) if len(entry.groups) > 1 else ''

    def called(self, entry, instances):
        labels = [entry.labels.get(it.key, []) for it in instances]
        if all(labels):
            return ', '.join(f'`{it}`' for them in labels for it in them)
        return self.given(entry, instances)

    def given(self, entry, instances):
        """The arguments of some calls of a rule that distinguish them from the other calls."""
        names = self.grammar.parameters(self.grammar.library.modules[entry.module].definitions[entry.name])
        others = [self.values(names, it.key[2]) for group in entry.groups for it in group if it not in instances]
        mine = [self.values(names, it.key[2]) for it in instances]
        same = [name for name in mine[0] if len({it[name] for it in mine}) == 1]
        same.sort(key=lambda name: mine[0][name] is False)
        for count in range(1, len(same) + 1):
            for chosen in itertools.combinations(same, count):
                if not any(all(it[name] == mine[0][name] for name in chosen) for it in others):
                    return ', '.join(self.value(name, mine[0][name]) for name in chosen)
        return ' or '.join(self.given(entry, [it]) for it in instances) if len(instances) > 1 else ''

    def value(self, name, value):
        return f'`{name}`' if value is True else f'not `{name}`' if value is False else f'`{value}`'

    def values(self, names, arguments):
        row = {}
        for name, value in zip(names, arguments):
            if isinstance(value, Fields):
                row.update(value.fields)
            elif not isinstance(value, Given):
                row[name] = value.name if isinstance(value, Case) else value
        return row

    # -- lines below a rule

    def lines(self, entry):
        instances = entry.instances()
        options = list(dict.fromkeys(it for group in entry.groups for it in group[0].options))
        nodes = self.reports.nodes(options)
        lines = [f'- **Node** {nodes}'] if nodes else []
        if not instances[0].is_right:
            lines.append('- **Called** only after a message')
        for word, texts in self.reports.notes_below(instances):
            for text, those in texts.items():
                label = self.called(entry, those) if len(those) < len(instances) else ''
                lines.append(f'- **{word}** {text}' + (f' ({label})' if label else ''))
        return [part for it in lines for part in self.bullet(it)]

    def bullet(self, line):
        return textwrap.wrap(
            escaped(line), WIDTH, subsequent_indent='  ', break_long_words=False, break_on_hyphens=False)

    # -- the page

    def text(self):
        lines = [HEAD]
        module = None
        for entry in self.order:
            if entry.module != module:
                module = entry.module
                lines += self.section(module)
            lines += self.entry(entry)
        lines += [*self.operators(), *self.sets(), *self.index(), *self.unreported()]
        places = anchors('\n'.join(lines).split('\n'))
        lines += [f'[{label}]: #{places[title]}' for label, title in sorted(self.links.items())]
        return '\n'.join(lines) + '\n'

    def section(self, module):
        first, *rest = self.grammar.library.modules[module].comment.split('\n')
        where = [it for it in rest if it.startswith('In the Rust crate:')]
        return [f'## {first.rstrip(".")}', '', *([*where, ''] if where else [])]

    def operators(self):
        """The operators with their powers."""
        kinds, evaluator = self.grammar.kinds, self.grammar.evaluator
        right_of = self.grammar.library.find_in('Operators', 'right_of')
        rows = {}
        for kind, power in kinds.powers.items():
            rows.setdefault(power, []).append(kind)
        lines = [OPERATORS, '| power | operators | least power on the right |', '|---|---|---|']
        for power, operators in sorted(rows.items(), reverse=True):
            texts = ' '.join(kinds.text(it).replace('|', '\\|') for it in kinds.sorted(operators))
            right = {evaluator.apply(right_of, [it]) for it in operators if it in self.words.named['operator']}
            lines.append(f'| {power} | {texts} | {right.pop() if right else self.right_of(operators[0])} |')
        self.links['operator'] = 'operator'
        return [*lines, '']

    def right_of(self, kind):
        module, name = ('Operators', 'cast_expr') if kind == 'AS_KW' else ('Ranges', 'range_expr')
        return self.write.form((Rule(module, name, name),))

    def sets(self):
        lines = [SETS]
        for name in sorted(self.words.used - {'operator'}):
            self.links[name] = name
            text = ' '.join(self.grammar.kinds.text(it) for it in self.grammar.kinds.sorted(self.words.named[name]))
            lines += [f'### {name}', '', *self.paragraph(text), '']
        return lines

    def paragraph(self, text):
        return textwrap.wrap(text, WIDTH, break_long_words=False, break_on_hyphens=False)

    def index(self):
        """The nodes, each with the rules that make it."""
        made = {}
        for entry in self.order:
            for kind in kinds_in([it for group in entry.groups for it in group[0].options]):
                made.setdefault(kind, []).append(self.write.rule(Rule(entry.module, entry.name, entry.name)))
        missing = self.finished() - set(made)
        if missing:
            raise ValueError(f'no rule of the page makes {", ".join(sorted(missing))}')
        lines = [f'- `{kind}`: {", ".join(dict.fromkeys(made[kind]))}' for kind in sorted(made)]
        bullets = [part for it in lines for part in self.bullet(it)]
        return ['## Nodes', '', 'Each node, with the rules that make it.', '', *bullets, '']

    def unreported(self):
        """The messages of the scripts that no rule reports, since no call reaches them."""
        walkers = [it.walker for entry in self.order for it in entry.instances()]
        reported = tuple({it.text for walker in walkers for it in walker.messages if isinstance(it.text, str)})
        lost = [it for it in self.grammar.library.texts() if not any(text.startswith(it) for text in reported)]
        lines = [f'- {self.words.quoted(it)}' for it in sorted(lost)]
        return [UNREPORTED, *lines, ''] if lines else []

    def finished(self):
        """The kinds of nodes that the scripts name."""
        modules = self.grammar.library.modules.values()
        return {name for module in modules for name, source in module.imports.items() if source == 'NodeKind'}

    # -- pictures

    def pictures(self):
        """The pictures, by the names of their files."""
        diagrams = Diagrams(self.grammar.kinds, self.about)
        drawn = {}
        for (module, name), words in self.names.items():
            if PICTURE in words:
                rules = {it[1:] for it in words if it.startswith('+')}
                form = self.opened(self.bare_form(self.entries[module, name].groups[0]), rules)
                drawn[f'{name}.svg'] = diagrams.picture(form, name)
        return drawn

    def bare_form(self, group):
        """What a group of instances reads, without its nodes."""
        return without_nodes(alternatives(self.common(group)), self.grammar.kinds)

    def opened(self, form, rules):
        """A form in which some rules are replaced by what they read."""
        def part_of(part):
            if isinstance(part, Rule) and part.name in rules:
                group = self.entries[part.module, part.name].group_of(part.given)
                return self.opened(self.bare_form(group), rules - {part.name})
            if isinstance(part, Either):
                return alternatives([self.opened(it, rules) for it in part.forms])
            return (replace(part, form=self.opened(part.form, rules)),) if inside(part) else (part,)
        return sequence(it for part in form for it in part_of(part))


def kinds_in(forms):
    """The kinds of the nodes in forms."""
    found = []
    for part in (it for form in forms for it in form):
        found += [part.kind] if isinstance(part, (Node, Mark)) and part.kind else []
        found += kinds_in(inside(part))
    return found
