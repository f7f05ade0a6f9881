"""bindings/tree/src/ast/generated.rs: the sets, the traits and the kinds of nodes with their fields; and the list of
all fields for the tests of the package."""
import textwrap
from typing import Iterator

from views.description import camel_case
from views.fields import Field, Node, Views

WIDTH = 116

HEAD = ['//! The sets, the traits and the kinds of nodes with their fields.',
        'use super::support::{self, has, node, set, view};', 'use super::{AstChildren, AstNode};',
        'use crate::{Node, SyntaxKind, Token};', '']

# How a field is counted in the words of the macros.
COUNTS = {'any number': 'any', 'one': 'one', 'at most one': 'maybe'}


def wrapped(words: list[str]) -> list[str]:
    """Words in lines; a space inside a word that fits a line is a NUL."""
    kept = ' '.join(it.replace(' ', '\0') if len(it) < WIDTH - 4 else it for it in words)
    lines = textwrap.wrap(kept, WIDTH, initial_indent='    ', subsequent_indent='    ', break_long_words=False,
                          break_on_hyphens=False)
    return [line.replace('\0', ' ') for line in lines]


class Writer:
    """Writes the file. A field of a trait has its rule in the trait, if that is the rule of most kinds."""

    def __init__(self, views: Views, said: dict[str, str]) -> None:
        self.views, self.said = views, said
        self.plain = {name: self.plain_field(name) for name in {it for its in views.said.traits.values() for it in its}}

    def plain_field(self, name: str) -> Field:
        """The field of a name that has no places."""
        return next(it for node in self.views.nodes for it in node.fields if it.name == name and not it.places
                    and it.how != 'last')

    def lines(self) -> list[str]:
        return [*HEAD, *self.sets(), *self.traits(), *(line for it in self.views.nodes for line in self.node(it)),
                *self.plain_impls()][:-1]

    def sets(self) -> Iterator[str]:
        for name, members in self.views.said.members.items():
            yield f'set! {{ {name}:'
            yield from wrapped([f'{it.variant}({camel_case(it.what)})' for it in members])
            yield '}'
            yield ''

    def plain_impls(self) -> Iterator[str]:
        """The nodes that have a trait by its own rules, and the sets of such nodes."""
        for trait, fields in self.views.said.traits.items():
            plain = [it for it in self.views.nodes if trait in it.traits
                     and not any(self.is_exception(it, field) for field in fields)]
            kinds = {it.kind for it in plain}
            sets = [name for name, it in self.views.said.sets.items() if it <= kinds]
            yield from (f'has! {{ {trait}:', *wrapped(sets + [it.camel for it in plain]), '}', '')

    def is_exception(self, node: Node, name: str) -> bool:
        return self.rule(node.field(name)) != self.rule(self.plain[name])

    def traits(self) -> Iterator[str]:
        for name, fields in self.views.said.traits.items():
            yield f'/// A node that has {" and ".join(f"`{it}`" for it in fields)}.'
            yield f"pub trait {name}<'t>: AstNode<'t> {{"
            for at, it in enumerate(fields):
                yield from [''] * (at > 0)
                yield from self.method(self.plain[it])
            yield from ('}', '')

    def method(self, field: Field) -> list[str]:
        """A function of a trait."""
        if field.is_token:
            return [f'    /// Its token `{self.kinds(field)}`, if it has one.', '    #[inline]',
                    f"    fn {field.name}(self) -> Option<Token<'t>> {{",
                    f'        support::token(self.syntax(), |kind| kind == SyntaxKind::{self.kinds(field)})', '    }']
        view = camel_case(field.what)
        text, result, body = (
            (f'Its [`{view}`]s, from left to right.', f"AstChildren<'t, {view}<'t>>", 'support::all(self.syntax())')
            if field.is_list else
            (f'Its [`{view}`], if it has one.', f"Option<{view}<'t>>", 'support::all(self.syntax()).next()'))
        return [f'    /// {text}', '    #[inline]', f'    fn {field.name}(self) -> {result} {{', f'        {body}',
                '    }']

    def kinds(self, field: Field) -> str:
        return ' '.join(self.views.kind_names(field.kinds))

    def rule(self, field: Field) -> str:
        """How a field is found, in the words of the macros."""
        places = ''.join(f', {word} {name}' for word, name in field.places)
        if field.is_token:
            return f'[{self.kinds(field)}]'
        return f'({camel_case(field.what)} {field.how}{places})'

    def node(self, node: Node) -> Iterator[str]:
        of_traits = {field for it in node.traits for field in self.views.said.traits[it]}
        yield f'node! {{ {node.camel} {node.name} "{self.said[node.name]}":'
        words = [f'{COUNTS[it.amount]} {it.name}{self.rule(it)}' for it in node.fields if it.name not in of_traits]
        yield from wrapped(words)
        yield '}'
        for trait in node.traits:
            others = [it for it in self.views.said.traits[trait] if self.is_exception(node, it)]
            if others:
                yield from ('', f"impl<'t> {trait}<'t> for {node.camel}<'t> {{")
                for it in others:
                    yield from self.exception(node.field(it))
                yield '}'
        yield ''

    def exception(self, field: Field) -> list[str]:
        """A function of a trait that a kind has by a rule of its own."""
        view, end = camel_case(field.what), {'first': '.next()', 'last': '.last()'}[field.how]
        for word, name in field.places:
            found = f'support::{word}(self.0, self.{name}()){end}'
            break
        else:
            found = f'support::all(self.0){end}'
        return ['    #[inline]', f"    fn {field.name}(self) -> Option<{view}<'t>> {{", f'        {found}', '    }']


def tested(views: Views, _: dict[str, str]) -> list[str]:
    """The lines of the list for the tests: of each kind its fields in their order, those of tokens in brackets."""
    found = ['// The fields of all kinds of nodes, in their order.', '', 'fields! {']
    for node in views.nodes:
        words = [f'{COUNTS[it.amount]} {f"[{it.name}]" if it.is_token else it.name}' for it in node.fields]
        found += [f'    {node.camel} {node.name}:', *(f'    {it}' for it in wrapped(words)), '    ;']
    return [*found, '}']


def lines(views: Views, said: dict[str, str]) -> list[str]:
    """The lines of the file; of each kind it is said what it is."""
    return Writer(views, said).lines()
