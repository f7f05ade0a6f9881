"""What the crate rap_fields has of each field: its number and its name, and the rule by which its children are found,
for the program and for contracts."""
import re
import textwrap
from typing import Iterable, Iterator, NamedTuple, Optional

from views.fields import Field, Node, Views, shapes
from views.law import WHICH, WIDTH, Writer, filled

PLACES = {'': 'Anywhere', 'before': 'Before', 'only_before': 'OnlyBefore', 'after': 'After', 'past': 'Past'}
TEN = 10
STATIC = "&'static "
ROW = f'{STATIC}[(u16, {STATIC}[Step])]'
# A row as contracts see it.
SEEN = '(λ row. (row.0, map {B = Look} look_of row.1.now))'


class Look(NamedTuple):
    """A look at the children of a node: for the first of some kinds, the last or all, at a place that is told by what
    the look before has found."""
    place: str
    which: str
    kinds: frozenset[int]


def looks(node: Node, field: Field) -> list[Look]:
    """The rule of a field: looks one after another. The last finds what the field has."""
    [place, mark] = field.places[0] if field.places else ('', '')
    return [*(looks(node, node.field(mark)) if mark else []), Look(PLACES[place], WHICH[field.how], field.kinds)]


def names(views: Views) -> list[str]:
    """The names of all fields, by their numbers. 0 is the number of none."""
    return ['', *sorted({it.name for node in views.nodes for it in node.fields})]


def lined(words: Iterable[str], indent: str = '    ') -> list[str]:
    """Words in lines. A space inside a word is a NUL."""
    lines = textwrap.wrap(' '.join(words), WIDTH, initial_indent=indent, subsequent_indent=indent,
                          break_long_words=False, break_on_hyphens=False)
    return [it.replace('\0', ' ') for it in lines]


def constants(views: Views, _said: dict[str, str]) -> list[str]:
    """field/constants.rt."""
    numbered = list(enumerate(names(views)))[1:]
    rows = [f'    pub const {name.upper()}: Field = Field {{ number: {number} }};' for number, name in numbered]
    return ['//! The constants of all fields.', 'use super::Field;', '', 'impl Field {', '\n\n'.join(rows), '}']


def name_table(views: Views, _said: dict[str, str]) -> list[str]:
    """field/names.rt."""
    rows = [f'{it.upper()}\0"{it}"' for it in names(views)[1:]]
    return ['//! The names of all fields, each with the number of its constant.', 'use super::Field;', '',
            '/// The constants that are so called, each as its name and its number, behind what stands for no field.',
            'macro_rules! numbered {',
            '    ($($constant:ident $name:literal)*) => { [("", 0), $(($name, Field::$constant.number)),*] };', '}', '',
            '/// The name and the number of the constant of each field, and at 0 of none.',
            f'pub static NUMBERED: [(&str, u16); {len(rows) + 1}] = numbered![', *lined(rows), '];']


def numbers(views: Views, _said: dict[str, str]) -> list[str]:
    """FieldNames.antt."""
    rows = [(name, at) for at, name in enumerate(names(views)) if at]
    words = [*(f'(codes\0"{it}",\0{it.upper() or 0})\0∷' for it in names(views)), '[]']
    return ['-- The numbers of all fields, and their names in the order of the numbers.',
            'use Rattle.std.specs.Prelude.{ℕ, List, [], ◌∷◌, codes, map}',
            *(line for name, at in rows for line in ('', f'abbrev pub {name.upper()} : ℕ', f'{name.upper()} = {at}')),
            '', '-- no field has the number 0', 'abbrev pub numbered : List (List ℕ × ℕ)', filled('numbered =', words),
            '', 'abbrev pub names : List (List ℕ)', 'names = map (λ row. row.0) numbered']


class Rules:
    """The rules of all kinds, for the program and for contracts."""

    def __init__(self, views: Views) -> None:
        self.views, self.writer = views, Writer(views)
        self.names = names(views)
        self.nodes = {it.kind: it for it in views.nodes if it.fields}
        self.named = {name: kinds for kinds, name in shapes().kind_sets().items()}
        self.numbers = {name: number for number, name in views.names.items()}

    def tens(self) -> list[int]:
        """The tens of kinds of which one has fields. A ten is stated and proved at once: what that takes grows with
        the square of its rows."""
        return sorted({kind // TEN for kind in self.nodes})

    def of_ten(self, ten: int) -> list[Optional[Node]]:
        """The kinds of a ten."""
        return [self.nodes.get(kind) for kind in range(TEN * ten, TEN * ten + TEN)]

    def given(self, kinds: frozenset[int]) -> str:
        """Kinds for the program: the name of a list, or their numbers in the order in which contracts have them."""
        words = self.writer.listed(kinds)
        if words in self.named:
            return words
        *single, end = words.strip('()').split('\0∷\0')
        return ' '.join(map(str, [*(self.numbers[it] for it in single), *self.named.get(end, ())]))

    def row(self, node: Node, field: Field) -> str:
        """The rule of a field for the program."""
        its = [f'{it.place} {it.which} ({self.given(it.kinds)})' for it in looks(node, field)]
        return f'({self.names.index(field.name)} {" ".join(its)})'.replace(' ', '\0')

    def rows(self, ten: int) -> Iterator[str]:
        """The rules of the kinds of a ten for the program."""
        for node in self.of_ten(ten):
            if node is None:
                yield '    []'
            else:
                words = [self.row(node, it) for it in node.fields]
                words[0] = f'[{words[0]}'
                words[-1] += ']'
                yield from [f'    // {node.name}', *lined(words)]

    def table(self, ten: int) -> list[str]:
        """The rules of the kinds of a ten for the program, as a function that gives them."""
        form = f"[{ROW}; {TEN}]"
        return ['', f'/// The rules of the kinds from {TEN * ten} on.',
                f'#[tactic(auto, unfolding(crate::specs::Rules::rules_{ten}))]',
                f"fn rules_{ten}() -> &'static {form}",
                '    ensures { map {B = List Row}',
                f'        (λ rows. map {{B = Row}} {SEEN} rows.now) result.now',
                f'        ≡ rules_{ten} }}', '{', f'    &RULES_{ten}', '}', '',
                f'static RULES_{ten}: {form.replace(STATIC, "&")} = rules![', *self.rows(ten), '];']

    def rule(self, node: Node, field: Field) -> str:
        """The rule of a field for contracts."""
        its = [(it, self.writer.listed(it.kinds)) for it in looks(node, field)]
        several = ' ∷ '.join([*(f'look {it.place} {it.which} {kinds}' for it, kinds in its), '[]'])
        one = f'{its[0][0].which.lower()}_of {its[0][1]}'
        return f'(field.{field.name.upper()}, {one if len(its) == 1 else several})'.replace(' ', '\0')


def program(views: Views, _said: dict[str, str]) -> list[str]:
    """rules.rt."""
    rules = Rules(views)
    tens = rules.tens()
    tables = [line for ten in tens for line in rules.table(ten)]
    used = [(name, kinds) for name, kinds in rules.named.items() if any(f'({name})' in it for it in tables)]
    return [
        '//! The rules of all fields.',
        'ghost use Rattle.std.specs.Prelude.{◌≡◌, List, ℕ, map};',
        'ghost use Rattle.rap_fields.specs.Rule.{Look, Row, look_of};',
        f'ghost use Rattle.rap_fields.specs.Rules.{{rows_of, {", ".join(f"rules_{it}" for it in tens)}}};', '',
        'use crate::rule::{Place, Step, Which};', 'use rap_base::syntax_kind::SyntaxKind;', '',
        '/// Kinds by the name of their list, or by their numbers.', 'macro_rules! kinds {',
        *(line for name, kinds in used for line in (f'    ({name}) => {{', *lined(words_of(kinds), ' ' * 8), '    };')),
        '    ($($kind:literal)*) => {', '        &[$($kind),*]', '    };', '}', '',
        '/// For each kind in turn its fields by their numbers, each with the steps of its rule.',
        'macro_rules! rules {',
        '    ($([$(($field:literal $($place:ident $which:ident ($($kinds:tt)*))+))*])*) => {',
        '        [$(&[$(',
        '            ($field, &[$(Step { place: Place::$place, which: Which::$which, kinds: kinds!($($kinds)*) }),+])',
        '        ),*]),*]', '    };', '}', '',
        '/// The fields of a kind by their numbers, each with the steps of its rule.',
        f'pub(crate) fn rows_of(kind: SyntaxKind) -> {ROW}',
        f'    ensures {{ map {{B = Row}} {SEEN} result.now ≡ rows_of kind }}', '{',
        '    let number = u16::from(kind);', f'    let one = usize::from(number % {TEN});',
        f'    match number / {TEN} {{',
        *(f'        {ten} => rules_{ten}()[one],' for ten in tens), '        _ => &[],', '    }', '}', *tables]


def words_of(kinds: Iterable[int]) -> list[str]:
    """A list of numbers."""
    words = ', '.join(map(str, kinds))
    return f'&[{words}]'.split(' ')


def rules_lines(views: Views, _said: dict[str, str]) -> list[str]:
    """Rules.antt."""
    rules = Rules(views)
    tens = rules.tens()
    lines = []
    for node in rules.nodes.values():
        own = f'{node.name.lower()}_rules'
        rows = [f'{rules.rule(node, it)}\0∷' for it in node.fields]
        lines += ['', f'abbrev pub {own} : List Row', filled(f'{own} =', [*rows, '[]'])]
    for ten in tens:
        words = [f'{node.name.lower()}_rules\0∷' if node else '[]\0∷' for node in rules.of_ten(ten)]
        lines += ['', f'-- of the kinds from {TEN * ten} on', f'unfoldable pub rules_{ten} : List (List Row)',
                  filled(f'rules_{ten} =', [*words, '[]'])]
    words = [f'rules_{ten}\0∷' if ten in tens else '[]\0∷' for ten in range(len(views.names) // TEN)]
    lines += ['', '-- of all kinds, by tens', 'abbrev pub rules : List (List (List Row))',
              filled('rules =', [*words, '[]']), '', '-- of a kind', 'abbrev pub rows_of : ℕ → List Row',
              f'rows_of kind = get_or (get_or rules (kind / {TEN}) []) (kind % {TEN}) []']
    text = '\n'.join(lines)

    def used(names: Iterable[str]) -> str:
        return ', '.join(it for it in names if re.search(rf'\b{it}\b', text))

    head = rules.writer.head('The rules of the fields of each kind.', [], text)
    head[1] = head[1].replace('◌∷◌}', '◌∷◌, ◌/◌, ◌%◌, get_or}')
    declared = 'Rattle.rap_fields.specs.declared.rule'
    return [*head, 'use Rattle.rap_fields.specs.FieldNames as field',
            f'use Rattle.rap_fields.specs.Rule.{{{used(("Row", "look", "first_of", "last_of", "all_of"))}}}',
            f'use {declared}.Place.TheVariants.{{{used(PLACES.values())}}}',
            f'use {declared}.Which.TheVariants.{{{used(WHICH.values())}}}', *lines]
