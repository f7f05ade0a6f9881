"""include/rap_fields.h: the fields of nodes for C, with the calls that find them."""
import textwrap
from typing import Iterable, Iterator

from views.fields import Field, Views

WIDTH, WORDS = 116, 11
HOW = {'first': 0, 'last': 1, 'all': 2}
PLACES = ('', 'before', 'only_before', 'after', 'past')

HEAD = '''
/* The fields of nodes, by rust-analyzer's names. A field is found in the list of elements that rap_nodes has filled, or
 * rap_prefix_nodes or rap_reparse_nodes: all calls here only read that list, and need no library.
 *
 *     uint32_t name = rap_child_by_field(e, node, RAP_FIELD_NAME);
 *     if (name != RAP_NO_PARENT) ...                                     e[name] is its name
 *     for (uint32_t i = rap_child_by_field(e, list, RAP_FIELD_PARAMS); i != RAP_NO_PARENT;
 *          i = rap_field_next(e, list, RAP_FIELD_PARAMS, i))
 *         ...                                                            e[i] is one of its parameters
 *
 * The list must be whole: it has room for all elements. Which fields a kind has, and which of them cannot be missing
 * in a node without a message or an ERROR right under it, is in docs/NODES.md, and in the rows below.
 */
#ifndef RAP_FIELDS_H
#define RAP_FIELDS_H

#include "rap.h"

#ifdef __cplusplus
extern "C" {
#endif

/* The fields. Their numbers are in the order of their names, and change where a field is added. */'''

ROW = '''/* A field of a kind.
 * `field`: its number. `set`: the kinds of what it has, a row of rap_field_sets.
 * `how`: RAP_FIELD_FIRST or RAP_FIELD_LAST of them, or RAP_FIELD_ALL.
 * `place`: where they stand: RAP_FIELD_ANYWHERE; before what another field has, or anywhere if that is not there
 *     (RAP_FIELD_BEFORE), or nowhere (RAP_FIELD_ONLY_BEFORE); behind it, or nowhere if it is not there
 *     (RAP_FIELD_AFTER), or anywhere (RAP_FIELD_PAST). `mark`: the number of that field, or 0.
 * `fewest`, `most`: how many a node without a message or an ERROR right under it has; 255 is any number.
 */
struct rap_field_row {
    uint16_t field;
    uint16_t set;
    uint16_t mark;
    uint8_t how;
    uint8_t place;
    uint8_t fewest;
    uint8_t most;
};

enum { RAP_FIELD_FIRST = 0, RAP_FIELD_LAST = 1, RAP_FIELD_ALL = 2 };

enum {
    RAP_FIELD_ANYWHERE = 0,
    RAP_FIELD_BEFORE = 1,
    RAP_FIELD_ONLY_BEFORE = 2,
    RAP_FIELD_AFTER = 3,
    RAP_FIELD_PAST = 4
};
'''

CALLS = '''
/* The name of a field, as "body"; "" of RAP_FIELD_NONE, and of a number that is none. */
static inline const char *rap_field_name(uint32_t field) {
    return field < sizeof rap_field_names / sizeof *rap_field_names ? rap_field_names[field] : "";
}

/* The number of a field by its name and the length of this; RAP_FIELD_NONE of what is no name. */
static inline uint32_t rap_field_of_name(const char *name, size_t length) {
    for (uint32_t field = 1; field < sizeof rap_field_names / sizeof *rap_field_names; field++) {
        const char *own = rap_field_names[field];
        size_t at = 0;
        while (at < length && own[at] && own[at] == name[at]) at++;
        if (at == length && !own[at]) return field;
    }
    return RAP_FIELD_NONE;
}

/* The rows of a kind, and how many there are. */
static inline const struct rap_field_row *rap_fields_of_kind(uint32_t kind, size_t *count) {
    *count = kind > RAP_LAST_KIND ? 0 : (size_t)(rap_field_starts[kind + 1] - rap_field_starts[kind]);
    return rap_field_rows + (*count ? rap_field_starts[kind] : 0);
}

/* Whether a kind is of what a row has. */
static inline int rap_field_has_kind(const struct rap_field_row *row, uint32_t kind) {
    return kind <= RAP_LAST_KIND && (rap_field_sets[row->set][kind / 32] >> kind % 32 & 1) != 0;
}

/* The row of a field of a kind, or NULL. */
static inline const struct rap_field_row *rap_field_row_of(uint32_t kind, uint32_t field) {
    size_t count;
    const struct rap_field_row *rows = rap_fields_of_kind(kind, &count);
    for (size_t i = 0; i < count; i++)
        if (rows[i].field == field) return &rows[i];
    return NULL;
}

static inline uint32_t rap_child_by_field(const struct rap_element *e, uint32_t node, uint32_t field);

/* The indices between which the children of a row are looked for. */
static inline void rap_field_range(const struct rap_element *e, uint32_t node, const struct rap_field_row *row,
                                   uint32_t *first, uint32_t *end) {
    *first = node + 1;
    *end = e[node].after;
    if (row->place == RAP_FIELD_ANYWHERE) return;
    uint32_t mark = rap_child_by_field(e, node, row->mark);
    int is_there = mark != RAP_NO_PARENT;
    if (row->place == RAP_FIELD_BEFORE && is_there) *end = mark;
    if (row->place == RAP_FIELD_ONLY_BEFORE) *end = is_there ? mark : *first;
    if (row->place == RAP_FIELD_AFTER) *first = is_there ? e[mark].after : *end;
    if (row->place == RAP_FIELD_PAST && is_there) *first = e[mark].after;
}

/* The first child of a node that a field has, or the only one; RAP_NO_PARENT where there is none. */
static inline uint32_t rap_child_by_field(const struct rap_element *e, uint32_t node, uint32_t field) {
    const struct rap_field_row *row = rap_field_row_of(e[node].kind, field);
    uint32_t found = RAP_NO_PARENT, first, end;
    if (!row) return found;
    rap_field_range(e, node, row, &first, &end);
    for (uint32_t child = first; child < end; child = e[child].after)
        if (rap_field_has_kind(row, e[child].kind)) {
            found = child;
            if (row->how != RAP_FIELD_LAST) break;
        }
    return found;
}

/* The next child that a field has behind one of its own; RAP_NO_PARENT behind the last, and of a field of one child. */
static inline uint32_t rap_field_next(const struct rap_element *e, uint32_t node, uint32_t field, uint32_t child) {
    const struct rap_field_row *row = rap_field_row_of(e[node].kind, field);
    uint32_t first, end;
    if (!row || row->how != RAP_FIELD_ALL) return RAP_NO_PARENT;
    rap_field_range(e, node, row, &first, &end);
    for (uint32_t next = e[child].after; next < end; next = e[next].after)
        if (rap_field_has_kind(row, e[next].kind)) return next;
    return RAP_NO_PARENT;
}

/* Whether a child of a node is what a row has. */
static inline int rap_field_has(const struct rap_element *e, uint32_t node, const struct rap_field_row *row,
                                uint32_t child) {
    uint32_t first, end;
    if (!rap_field_has_kind(row, e[child].kind)) return 0;
    if (row->how != RAP_FIELD_ALL) return rap_child_by_field(e, node, row->field) == child;
    rap_field_range(e, node, row, &first, &end);
    return first <= child && child < end;
}

/* The field that an element is of in the node around it, the first of them; RAP_FIELD_NONE where it is of none. */
static inline uint32_t rap_field_of(const struct rap_element *e, uint32_t child) {
    uint32_t node = e[child].parent;
    size_t count;
    if (node == RAP_NO_PARENT) return RAP_FIELD_NONE;
    const struct rap_field_row *rows = rap_fields_of_kind(e[node].kind, &count);
    for (size_t i = 0; i < count; i++)
        if (rap_field_has(e, node, &rows[i], child)) return rows[i].field;
    return RAP_FIELD_NONE;
}

#ifdef __cplusplus
}
#endif

#endif'''


def wrapped(words: Iterable[str]) -> list[str]:
    return textwrap.wrap(', '.join(words), WIDTH, initial_indent='    ', subsequent_indent='    ',
                         break_long_words=False, break_on_hyphens=False)


class Writer:
    """Writes the header."""

    def __init__(self, views: Views) -> None:
        self.views = views
        self.names = ['', *sorted({it.name for node in views.nodes for it in node.fields})]
        self.sets: list[frozenset[int]] = []

    def lines(self) -> Iterator[str]:
        yield from HEAD.split('\n')
        numbers = [f'    RAP_FIELD_{name.upper() or "NONE"} = {at}' for at, name in enumerate(self.names)]
        yield from ('enum rap_field {', *(f'{it},' for it in numbers[:-1]), numbers[-1], '};', '')
        yield from ('/* Their names, by their numbers. */', 'static const char *const rap_field_names[] = {',
                    *wrapped(f'"{it}"' for it in self.names), '};', '', *ROW.split('\n'))
        rows = list(self.rows())
        yield from ('/* The sets of kinds: the bit of a kind is `kind % 32` of the word `kind / 32`. */',
                    f'static const uint32_t rap_field_sets[][{WORDS}] = {{', *self.bits(), '};', '')
        yield from ('/* The rows of all kinds, in the order of their numbers. */',
                    'static const struct rap_field_row rap_field_rows[] = {', *rows, '};', '')
        yield from ('/* Where the rows of a kind begin, by its number. */',
                    f'static const uint16_t rap_field_starts[{len(self.views.names) + 1}] = {{',
                    *wrapped(map(str, self.starts())), '};', *CALLS.split('\n'))

    def rows(self) -> Iterator[str]:
        for node in self.views.nodes:
            yield f'    /* {node.name} */'
            for it in node.fields:
                yield f'    {{{", ".join(map(str, self.row(it)))}}}, /* {it.name} */'

    def row(self, field: Field) -> list[int]:
        if field.kinds not in self.sets:
            self.sets.append(field.kinds)
        [place, mark] = field.places[0] if field.places else ('', '')
        return [self.names.index(field.name), self.sets.index(field.kinds), self.names.index(mark), HOW[field.how],
                PLACES.index(place), field.fewest, 255 if field.most is None else field.most]

    def bits(self) -> Iterator[str]:
        for kinds in self.sets:
            words = [sum(1 << it % 32 for it in kinds if it // 32 == at) for at in range(WORDS)]
            yield '    {' + ', '.join(f'0x{it:x}' if it else '0' for it in words) + '},'

    def starts(self) -> list[int]:
        counts = {it.kind: len(it.fields) for it in self.views.nodes}
        found = [0]
        for kind in range(len(self.views.names)):
            found.append(found[-1] + counts.get(kind, 0))
        return found


def lines(views: Views, _: dict[str, str]) -> list[str]:
    """The lines of the file."""
    return list(Writer(views).lines())
