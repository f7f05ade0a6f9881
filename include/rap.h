/* The parser of Rust, called from C.
 *
 * Each call takes a text as bytes and two arrays of the caller: one for steps, and one for the bytes of messages. It
 * writes as many of them as fit, from the beginning of each array, writes nothing else, and returns the numbers of all
 * steps and of all bytes of messages. With a room of 0 it only counts. No token's text is copied: a step holds offsets
 * in the caller's text, in bytes.
 *
 *     struct rap_answer answer = rap_tree(text, length, 2024, RAP_SOURCE_FILE, steps, room, messages, message_room);
 *     if (answer.status == RAP_OK && answer.steps > room) ...       more room is needed, and the call is made again
 *
 * RAP_OK says that the text was parsed, and not that all steps are in the array: with a room for fewer steps the status
 * is RAP_OK too, the array has the first of them, and `steps` is the number of all. The same is true of the bytes of
 * messages. A call on the same text with more room returns the same numbers.
 *
 * For `n` records rap_parse, rap_parse_prefix and rap_parse_node have at most 256 * (n + 1) steps. For a text of `n`
 * bytes rap_tree has at most 267 * (n + 1) steps, the lexer's messages among them, rap_tree_words at most
 * 801 * (n + 1) words, and rap_nodes at most 266 * (n + 1) elements. Most need far fewer: a call with a room of 0
 * counts them. No such number is given for the bytes of messages.
 *
 * The tokens of a macro expander are in no text. They are parsed as records, by rap_parse, rap_parse_prefix and
 * rap_parse_node. For a text, rap_records, rap_parse and rap_weave, each called with the results of the one before it,
 * return together what rap_tree returns in one call, except the lexer's messages.
 *
 * A caller must meet these requirements:
 * - No pointer may be NULL, not even where its length is 0: any other address of the type is allowed then.
 * - An array that is written to must not overlap any other argument.
 * - The library gets memory by the kit's memory functions, which call malloc, realloc and free. librap.a and librap.so.0
 *   of a release have these functions inside. A program that is linked with librap_c.a, which `rt lib` builds in a clone
 *   of the repository, must be linked with them too: liblibc_c.a of the kit.
 * - The stack must be large enough: rap_stack, below, says how large. There is no limit of depth in the code.
 * - The processor must have the instructions of x86-64-v2, as those of SSE4.2. No call tests for them.
 * Calls may run on several threads at a time. Nothing is kept from one call to the next, and a call frees all memory
 * that it allocates before it returns.
 */
#ifndef RAP_H
#define RAP_H

#include <stddef.h>
#include <stdint.h>
#include "rap_kinds.h"

#ifdef __cplusplus
extern "C" {
#endif

/* The version of the interface that this header declares. The first number changes where a program must be changed, or
 * compiled again; the second where something is added; and the third where neither is so.
 */
#define RAP_VERSION_MAJOR 1
#define RAP_VERSION_MINOR 2
#define RAP_VERSION_PATCH 0
#define RAP_VERSION (1000000 * RAP_VERSION_MAJOR + 1000 * RAP_VERSION_MINOR + RAP_VERSION_PATCH)

/* The stack.
 *
 * A call that parses calls itself for each level of nesting in the text. A level takes at most 900 bytes of the stack
 * and has at least one token, so 1,024 bytes for each token, and 65,536 for what a call takes beside, suffice for every
 * text. Calls that parse are rap_tree, rap_tree_words, rap_nodes, rap_core, rap_prefix, rap_prefix_nodes, rap_reparse,
 * rap_reparse_nodes, rap_parse, rap_parse_prefix and rap_parse_node. The other calls take the same few kilobytes for
 * each text.
 *
 * rap_stack returns that number of bytes. `tokens`: the number of the tokens that are no trivia, or more: the length of
 * the text in bytes is never less. rap_records returns the number of a text. More than 8,388,607 are refused before
 * they are parsed, so that rap_stack(SIZE_MAX), 8.6 GB, suffices for each call.
 *
 * A thread with such a stack reserves addresses, and takes memory only for the pages that a call writes to:
 *
 *     pthread_attr_init(&attributes);
 *     pthread_attr_setstacksize(&attributes, rap_stack(text_length));      both return 0, or there is no such stack
 *     pthread_create(&thread, &attributes, parse, &job);
 *
 * examples/c/deep.c is a program that parses each text so. For the first thread of a program the number that
 * `ulimit -s` takes is in units of 1,024 bytes: one for each token, and 64.
 */
static inline size_t rap_stack(size_t tokens) {
    return ((tokens < 8388607 ? tokens : 8388607) + 64) * 1024;
}

/* The values of `what` in a step. */
enum rap_what {
    RAP_ENTER = 0,   /* a node begins */
    RAP_EXIT = 1,    /* the newest open node ends */
    RAP_TOKEN = 2,   /* a token: a leaf of the newest open node */
    RAP_MESSAGE = 3, /* a message */
    RAP_SPLIT = 4    /* only where places count tokens: a float that is split, as `0.1` of `x.0.1` */
};

/* A step. Places are byte offsets in the text. Under RAP_NO_TREE they are token numbers, from 0 on and without trivia;
 * so they are in every output of records.
 * `what`: one of enum rap_what.
 * `kind`: the number of the node's or the token's kind. 0 at RAP_EXIT and RAP_MESSAGE. At RAP_SPLIT 1 where the float
 *     ends in a dot, and then it ends one node, and else 0, and then it ends two.
 * `at`: the place of the step: where the node begins or ends, its trivia included.
 * `start`, `end`: the first place of a token, and the one after it. For a node's begin and end both are `at`. For
 *     RAP_MESSAGE they are offsets in the array of messages, and each message begins where the one before it ended.
 */
struct rap_step {
    uint32_t what;
    uint32_t kind;
    size_t at;
    size_t start;
    size_t end;
};

/* A token of a parser's input, which has no trivia.
 * `kind`: the number of its kind, which is a token's, from 1 to RAP_LAST_TOKEN.
 * `contextual_kind`: what an identifier may be read as instead, the number of a token's kind, as that of UNION_KW for
 *     `union`; RAP_IDENT, or RAP_EOF, for nothing else. RAP_EOF if `kind` is not RAP_IDENT.
 * `edition`: 2015, 2018, 2021 or 2024.
 * `joint`: 1 where the token touches the next one, and else 0. `>` `>` `=` are read as one `>>=` where the first two
 *     touch the next one. For a float it means that its text does not end in a dot.
 */
struct rap_record {
    uint32_t kind;
    uint32_t contextual_kind;
    uint32_t edition;
    uint32_t joint;
};

/* A part of a text.
 * `there`: 1 if the part is there, and otherwise 0.
 * `start`, `end`: its first byte, and the one after its last. Both are 0 if it is not there.
 */
struct rap_part {
    size_t there;
    size_t start;
    size_t end;
};

/* Statuses. Where more than one applies, a call returns the first of those that it lists. One exception: a call may run
 * out of memory before it finds another fault, and then returns RAP_NO_MEMORY in place of it. So may rap_prefix and
 * rap_prefix_nodes in place of RAP_TOO_MANY_TOKENS; rap_reparse and rap_reparse_nodes in place of RAP_NO_BRACE and
 * RAP_TOO_MANY_TOKENS; rap_parse and rap_parse_prefix in place of RAP_NO_RECORD and RAP_TOO_MANY_TOKENS; rap_parse_node
 * in place of these two and RAP_NO_BRACE; rap_weave in place of RAP_NO_STEPS; rap_script in place of RAP_NO_SCRIPT;
 * rap_string_value in place of RAP_NO_LITERAL; and rap_number_value in place of RAP_NO_NUMBER.
 * No other call returns it where another of these applies.
 * The text of a status is written by rap_status_text.
 */
enum rap_status {
    RAP_OK = 0,              /* the steps are those of one tree, or of a text's tokens */
    RAP_NO_TREE = 1,         /* the steps are those of an output that is no tree, or several */
    RAP_NO_EDITION = 2,      /* the number is no edition's year */
    RAP_NO_ENTRY = 3,        /* the number is no entry's */
    RAP_NOT_UTF8 = 4,        /* the bytes are no UTF-8 */
    RAP_TEXT_TOO_LONG = 5,   /* the text has more than 4,294,967,295 bytes */
    RAP_TOO_MANY_TOKENS = 6, /* there are more than 8,388,607 tokens that are no trivia */
    RAP_NO_MEMORY = 7,       /* out of memory */
    RAP_NO_NODE = 8,         /* such a node is not parsed again alone */
    RAP_NO_BRACE = 9,        /* the node must begin with a `{`, and the text or the records do not */
    RAP_NO_RECORD = 10,      /* one of the records is no token's */
    RAP_NO_STEPS = 11,       /* the steps that were given are not those of one tree over the text */
    RAP_NO_SCRIPT = 12,      /* the text is no script source */
    RAP_NO_LITERAL = 13,     /* the text is no literal of the kind, or the lexer reports something about it */
    RAP_NO_NUMBER = 14       /* the literal's digits are not all of its radix, or come to 2^128 or more */
};

/* The result of a call.
 * `status`: one of enum rap_status. From RAP_NO_EDITION on, but for RAP_NO_SCRIPT, nothing was written, and the other
 *     numbers are 0.
 * `steps`: the number of all steps, or of all records, words or parts; as many as fit are in the caller's array.
 * `message_bytes`: the number of all bytes of messages; as many as fit are in the caller's array. They are UTF-8 and
 *     have no 0 at the end.
 * `used`: the end, in bytes of the text, of the last token that was taken. For an input of records, the number of
 *     records that were taken.
 */
struct rap_answer {
    uint32_t status;
    size_t steps;
    size_t message_bytes;
    size_t used;
};

/* Top entries: what a whole text is parsed as. */
enum rap_entry {
    RAP_SOURCE_FILE = 0, /* a file */
    RAP_MACRO_STMTS = 1, /* the statements that a macro expands to */
    RAP_MACRO_ITEMS = 2, /* the items that a macro expands to */
    RAP_PATTERN = 3,     /* a pattern, with its alternatives */
    RAP_TYPE = 4,        /* a type */
    RAP_EXPR = 5,        /* an expression */
    RAP_META_ITEM = 6    /* the contents of an attribute's brackets */
};

/* Prefix entries: what a prefix of a text is parsed as. */
enum rap_prefix_entry {
    RAP_PREFIX_VIS = 0,      /* a visibility, if there is one */
    RAP_PREFIX_BLOCK = 1,    /* a block */
    RAP_PREFIX_STMT = 2,     /* a statement, without the semicolon after it */
    RAP_PREFIX_PAT = 3,      /* a pattern without alternatives */
    RAP_PREFIX_PAT_TOP = 4,  /* a pattern, with its alternatives */
    RAP_PREFIX_TYPE = 5,     /* a type */
    RAP_PREFIX_EXPR = 6,     /* an expression */
    RAP_PREFIX_PATH = 7,     /* a path, as in a type */
    RAP_PREFIX_ITEM = 8,     /* an item, or a macro call in its place */
    RAP_PREFIX_META_ITEM = 9 /* the contents of an attribute's brackets */
};

/* Kinds are numbered from 0 to RAP_LAST_KIND: enum rap_kind has a name for each, and rap_kind_name writes those names
 * without their RAP_KIND_. RAP_NO_KIND is no kind's number. */
enum { RAP_LAST_KIND = RAP_KIND_PATH_META, RAP_NO_KIND = RAP_LAST_KIND + 1 };

/* Some kinds: the end of an input, an identifier, and the last of the tokens. */
enum { RAP_EOF = RAP_KIND_EOF, RAP_IDENT = RAP_KIND_IDENT, RAP_LAST_TOKEN = RAP_KIND_SHEBANG };

/* The tree of any text: its steps from left to right, trivia included, so that the texts of the tokens joined are the
 * text. The lexer's messages, each at its token, follow the end of the last node.
 * `text`, `text_length`: the bytes. `edition`: 2015, 2018, 2021 or 2024. `entry`: one of enum rap_entry.
 * Status: RAP_OK, RAP_NO_EDITION, RAP_NO_ENTRY, RAP_NOT_UTF8, RAP_TEXT_TOO_LONG, RAP_TOO_MANY_TOKENS, RAP_NO_MEMORY;
 * the first of them that applies. `used` is the text's length.
 */
struct rap_answer rap_tree(const uint8_t *text, size_t text_length, uint32_t edition, uint32_t entry,
                           struct rap_step *steps, size_t step_room, uint8_t *messages, size_t message_room);

/* What a token's word holds in the place of its length where a second word has it. */
enum { RAP_LONG = 8191 };

/* The tree of a text in words of 32 bits, most of them a step each: the steps of rap_tree in an eighth of the memory.
 * `words`, `word_room`: the caller's array. As many words as fit are written, which may end in the middle of a step.
 * In the first word of a step bits 0 to 2 are one of enum rap_what; bits 16 to 31 are the number of its kind, for
 * RAP_ENTER and RAP_TOKEN; the others are 0, but for RAP_TOKEN bits 3 to 15 are the length of the token in bytes, or
 * RAP_LONG where that is RAP_LONG or more, and then the next word is the length. Two words follow that of RAP_MESSAGE:
 * the byte of the text at which the message is, and the number of its bytes in the array of messages; a message begins
 * there where the one before it ended. A token begins in the text where the one before it ended. There is no
 * RAP_SPLIT. After the end of the last node follow the lexer's messages, each at its token.
 * Status: as for rap_tree. `steps` is the number of words, and `used` the number of those before the lexer's messages.
 */
struct rap_answer rap_tree_words(const uint8_t *text, size_t text_length, uint32_t edition, uint32_t entry,
                                 uint32_t *words, size_t word_room, uint8_t *messages, size_t message_room);

/* The parent of the root, which has none. It is no element's index. */
#define RAP_NO_PARENT 4294967295u

/* An element of a tree in one list: a node or a leaf. They stand in preorder, the root first, each before all that is
 * in it. Elements are named by their indices in the list.
 * `kind`: the number of its kind. RAP_KIND_ERROR is a kind of nodes and of leaves.
 * `start`, `end`: its first byte in the text, and the one after its last, trivia included. A node without a leaf is
 *     empty, and both are the byte at which it stands. No leaf is empty.
 * `after`: the index past all that is in it. Of a leaf it is the next index.
 * `parent`: the index of the node that it is in, or RAP_NO_PARENT.
 * So e[i] is a leaf exactly if `e[i].after == i + 1 && e[i].start < e[i].end`.
 *
 * With `e` for the array, and `i` for an index in it:
 *
 *     struct rap_element *node = &e[i];
 *     for (uint32_t child = i + 1; child < node->after; child = e[child].after)
 *         ...                                                       the children of i, from the first to the last
 *     for (uint32_t inner = i + 1; inner < node->after; inner++)
 *         ...                                                       all that is in i, in preorder
 *     for (uint32_t up = node->parent; up != RAP_NO_PARENT; up = e[up].parent)
 *         ...                                                       the nodes around i, from the inside out
 *     if (node->parent != RAP_NO_PARENT && node->after < e[node->parent].after)
 *         ... e[node->after] ...                                    the next sibling of i
 *
 * All of that needs the whole list. Where the array has room for fewer elements, an element that has no place counts in
 * `after` all the same.
 */
struct rap_element {
    uint32_t kind;
    uint32_t start;
    uint32_t end;
    uint32_t after;
    uint32_t parent;
};

/* A message about a text.
 * `at`: the byte of the text at which it is.
 * `start`, `end`: the first byte of the leaf there, and the one after its last. At the end of the text both are `at`.
 * `text_start`, `text_end`: the range of its own bytes in the array of message bytes. They are UTF-8, and each message
 *     begins where the one before it ended.
 */
struct rap_message {
    size_t at;
    size_t start;
    size_t end;
    size_t text_start;
    size_t text_end;
};

/* The result of a call that returns a tree in one list.
 * `status`: one of enum rap_status. From RAP_NO_EDITION on nothing was written, and the other numbers are 0.
 * `elements`, `messages`, `message_bytes`: the numbers of all of them; as many as fit are in the caller's arrays.
 * `used`: the end, in bytes of the text, of the last token that was taken.
 */
struct rap_nodes_answer {
    uint32_t status;
    size_t elements;
    size_t messages;
    size_t message_bytes;
    size_t used;
};

/* The tree of any text in one list, trivia included, so that the texts of the leaves joined are the text; and all
 * messages, the parser's and the lexer's, in the order of the text. Of two messages at one byte a message of the parser
 * comes before one of the lexer, and else they are in the order of rap_tree.
 * `text`, `text_length`, `edition`, `entry`: as for rap_tree.
 * `elements`, `messages`, `message_bytes`: the caller's arrays, each with its room. As many of each as fit are written,
 * from the beginning of each array; but no element after the first 4,294,967,295, whose indices 32 bits cannot name.
 * Status: as for rap_tree. `used` is the text's length.
 * A text of `n` bytes has at most 266 * (n + 1) elements. Most have far fewer, about two for each five bytes.
 */
struct rap_nodes_answer rap_nodes(const uint8_t *text, size_t text_length, uint32_t edition, uint32_t entry,
                                  struct rap_element *elements, size_t element_room,
                                  struct rap_message *messages, size_t message_room,
                                  uint8_t *message_bytes, size_t byte_room);

/* A token or a node of a text.
 * `kind`: the number of its kind.
 * `is_token`: 1 for a token, and 0 for a node.
 * `start`, `end`: the byte at which its first token begins, and the one after its last token; of a node the tokens that
 *     are no trivia, and of a node without one the byte at which the next token begins, twice. A float behind a dot, as
 *     `0.1` of `x.0.1`, is one token.
 */
struct rap_place {
    uint32_t kind;
    uint32_t is_token;
    size_t start;
    size_t end;
};

/* Whether a text is in the core grammar.
 * `status`: one of enum rap_status. If it is not RAP_OK nothing was written, and the other numbers are 0.
 * `derived`: 1 if a derivation was found and the lexer has no message, and else 0.
 * `places`: the number of all places; as many as fit are in the caller's array. 0 if `derived` is 1.
 * `used`: the text's length.
 */
struct rap_core_answer {
    uint32_t status;
    uint32_t derived;
    size_t places;
    size_t used;
};

/* Whether a text is in the core grammar as a file: docs/CORE.md of the repository says which texts are.
 * If `derived` is 1, that grammar derives the text's tokens, rap_tree gives the tree of the derivation for
 * RAP_SOURCE_FILE, and neither the parser nor the lexer has a message. If it is 0, no derivation was found, or the
 * lexer has a message: the first is no proof that there is none.
 * `text`, `text_length`, `edition`: as for rap_tree. No other entry is asked for.
 * `places`, `place_room`: the caller's array and its length in places. As many places as fit are written, of what is
 * outside. First they are those of the tokens that the lexer has a message of, each once, in the order of the text.
 * Then, if no derivation was found, they are nodes of the tree, in the order of the text: those that the grammar does
 * not derive, though it has such nodes, and that have no such node in them; where there is none, the whole file.
 * Status: RAP_OK, RAP_NO_EDITION, RAP_NOT_UTF8, RAP_TEXT_TOO_LONG, RAP_TOO_MANY_TOKENS, RAP_NO_MEMORY; the first of
 * them that applies.
 */
struct rap_core_answer rap_core(const uint8_t *text, size_t text_length, uint32_t edition,
                                struct rap_place *places, size_t place_room);

/* The tokens of a text, trivia included: a RAP_TOKEN step for each, and after the last one the lexer's messages, each
 * at its token. Nothing is parsed.
 * Status: RAP_OK, RAP_NO_EDITION, RAP_NOT_UTF8, RAP_TEXT_TOO_LONG, RAP_NO_MEMORY; the first of them that applies.
 * `used` is the text's length.
 */
struct rap_answer rap_tokens(const uint8_t *text, size_t text_length, uint32_t edition,
                             struct rap_step *steps, size_t step_room, uint8_t *messages, size_t message_room);

/* Parses a prefix of a text, as a macro matches it. `entry`: one of enum rap_prefix_entry.
 * If the output is one tree, the status is RAP_OK, and the steps are those of the tree, with the trivia around its
 * tokens. Otherwise the status is RAP_NO_TREE, and places count the text's tokens that are no trivia: those of
 * rap_tokens, except WHITESPACE and COMMENT. The lexer's messages are not among the steps.
 * `used` is the end of the last token that was taken; the text after it is not parsed.
 * On a fault the status is RAP_NO_EDITION, RAP_NO_ENTRY, RAP_NOT_UTF8, RAP_TEXT_TOO_LONG, RAP_TOO_MANY_TOKENS or
 * RAP_NO_MEMORY; the first of them that applies.
 */
struct rap_answer rap_prefix(const uint8_t *text, size_t text_length, uint32_t edition, uint32_t entry,
                             struct rap_step *steps, size_t step_room, uint8_t *messages, size_t message_room);

/* A prefix of a text, parsed as by rap_prefix, in one list as by rap_nodes. If the output is one tree, the status is
 * RAP_OK, and the messages are the parser's. Otherwise it is RAP_NO_TREE, nothing is written, and the numbers of
 * elements, messages and bytes are 0: rap_prefix returns the steps of such an output. `used` and the other statuses are
 * those of rap_prefix.
 */
struct rap_nodes_answer rap_prefix_nodes(const uint8_t *text, size_t text_length, uint32_t edition, uint32_t entry,
                                         struct rap_element *elements, size_t element_room,
                                         struct rap_message *messages, size_t message_room,
                                         uint8_t *message_bytes, size_t byte_room);

/* A node in braces, parsed again from its own text after an edit inside its braces. `node`: the number of its kind.
 * `first_child`, `parent`: those of the first thing in it and of the node around it, or RAP_NO_KIND.
 * The result is as that of rap_prefix. The status is RAP_NO_NODE if such a node is not parsed again alone, and
 * RAP_NO_BRACE if it must begin with a `{` and the text does not; for a block, the missing brace is reported as a
 * message instead. On a fault the status is RAP_NO_EDITION, RAP_NO_NODE, RAP_NOT_UTF8, RAP_TEXT_TOO_LONG, RAP_NO_BRACE,
 * RAP_TOO_MANY_TOKENS or RAP_NO_MEMORY; the first of them that applies.
 *
 * The new node may replace the old one, with no other change of the tree, if all of this holds:
 * 1. The status is not RAP_NO_NODE, and the old node's first token was `{`.
 * 2. The new text's first byte is `{`, `used` is its length and the last byte is `}`, and the last steps are the
 *    RAP_TOKEN of that R_CURLY and one RAP_EXIT, of a BLOCK_EXPR two.
 * 3. The old node ended with its own `}` too: its last steps were such ones.
 * 4. Past a shebang and blank lines the whole text does not begin with `---`, or the old tree has a FRONTMATTER token.
 * 5. No message `unknown literal prefix` is about one of the first five tokens of rap_tokens of the old text of the
 *    node or of its new one, nor about one of the five after the node.
 * The third spares only a stale `expected R_CURLY`, and the fifth only the words of that message. This is measured, not
 * proved: over five million random edits of right and wrong texts, parsed by a build of the Rust crate, the trees, the
 * messages and their places were those of the whole new text wherever all five held. Smallest texts of which one does
 * not hold, and the trees differ, of the third and the fifth the messages:
 * 1. `{e unsafe{}`, `unsafe` goes: a record expression.
 * 2. `{{}}`, `#` comes into the inner braces: what is expected after it takes the `}`. `use{}`, `..` comes into the
 *    braces.
 * 3. `fn f(){`, `}` comes at the end.
 * 4. `---{{}`, a line `---` comes into the inner braces: a frontmatter.
 * 5. `a!{}T'`, `"(//"` comes into the braces.
 * That the braces are balanced, a `{` first and a `}` last, is not enough: of one in forty such edits the trees differ.
 */
struct rap_answer rap_reparse(const uint8_t *text, size_t text_length, uint32_t edition, uint32_t node,
                              uint32_t first_child, uint32_t parent,
                              struct rap_step *steps, size_t step_room, uint8_t *messages, size_t message_room);

/* A node in braces, parsed again as by rap_reparse, in one list as by rap_prefix_nodes. `used` and the statuses are
 * those of rap_reparse. Of its five conditions the second then says that the last element is the leaf of that R_CURLY.
 */
struct rap_nodes_answer rap_reparse_nodes(const uint8_t *text, size_t text_length, uint32_t edition, uint32_t node,
                                          uint32_t first_child, uint32_t parent,
                                          struct rap_element *elements, size_t element_room,
                                          struct rap_message *messages, size_t message_room,
                                          uint8_t *message_bytes, size_t byte_room);

/* The parser's input of a text: a record for each token that is no trivia, in order.
 * `records`, `record_room`: the caller's array and its length in records. As many records as fit are written.
 * Status: RAP_OK, RAP_NO_EDITION, RAP_NOT_UTF8, RAP_TEXT_TOO_LONG, RAP_NO_MEMORY; the first of them that applies.
 * `steps` is the number of records, `message_bytes` is 0, and `used` is the text's length.
 */
struct rap_answer rap_records(const uint8_t *text, size_t text_length, uint32_t edition,
                              struct rap_record *records, size_t record_room);

/* Parses the records as a whole. `records`, `record_count`: the tokens, in order. `entry`: one of enum rap_entry.
 * The steps are those of the output, one tree over all records, in which places count records, from 0 on, and with no
 * trivia. So the status is never RAP_NO_TREE. A leaf has the records from `start` to `end`: two or three of them make
 * one operator. A RAP_SPLIT has one record. A message is before the record at its place.
 * Status: RAP_OK, RAP_NO_ENTRY, RAP_NO_RECORD, RAP_TOO_MANY_TOKENS, RAP_NO_MEMORY; the first of them that applies.
 * `used` is the number of records.
 */
struct rap_answer rap_parse(const struct rap_record *records, size_t record_count, uint32_t entry,
                            struct rap_step *steps, size_t step_room, uint8_t *messages, size_t message_room);

/* Parses a prefix of the records. `entry`: one of enum rap_prefix_entry.
 * The steps are as those of rap_parse. The status is RAP_OK if they are those of one tree, and RAP_NO_TREE otherwise.
 * `used` is the number of records that were taken; those after them are left. On a fault the status is RAP_NO_ENTRY,
 * RAP_NO_RECORD, RAP_TOO_MANY_TOKENS or RAP_NO_MEMORY; the first of them that applies.
 */
struct rap_answer rap_parse_prefix(const struct rap_record *records, size_t record_count, uint32_t entry,
                                   struct rap_step *steps, size_t step_room, uint8_t *messages, size_t message_room);

/* Parses a node in braces again from its own records. `node`, `first_child`, `parent`: as at rap_reparse.
 * The answer is as that of rap_parse_prefix; but the statuses are, after RAP_OK and RAP_NO_TREE, RAP_NO_NODE,
 * RAP_NO_RECORD, RAP_NO_BRACE, RAP_TOO_MANY_TOKENS and RAP_NO_MEMORY; the first of them that applies. Without records
 * the call tests whether such a node is parsed again alone: exactly if the status is not RAP_NO_NODE.
 */
struct rap_answer rap_parse_node(const struct rap_record *records, size_t record_count, uint32_t node,
                                 uint32_t first_child, uint32_t parent,
                                 struct rap_step *steps, size_t step_room, uint8_t *messages, size_t message_room);

/* Puts the trivia of a text back into a tree over its tokens, which a parse of its records returned.
 * `text`, `text_length`, `edition`: as at rap_records. `tree`, `tree_steps`: all steps of the tree. `tree_messages`,
 * `tree_message_bytes`: all bytes of its messages.
 * The steps are those of the tree with the trivia around its tokens, as rap_tree returns them, without the lexer's
 * messages.
 * Of the given steps these are read: `what`; `kind` at RAP_ENTER, RAP_TOKEN and RAP_SPLIT; `end` minus `start` at
 * RAP_TOKEN, the number of tokens; and `start` and `end` at RAP_MESSAGE. They must be those of one tree, with nothing
 * beside it, whose leaves match the first tokens of the text that are no trivia, one after another: each token under
 * its own kind, an identifier as its contextual kind, a keyword as an identifier, or the two or three of an operator; a
 * RAP_SPLIT at a float, last in as many FIELD_EXPR nodes as it ends: in one where the float ends in a dot, and else in
 * one that is itself last in another. Where the float ends in a dot, that FIELD_EXPR stands in another node, which then
 * has the dot as a leaf after it. Where it does not, the outer of the two may be the root. Messages must be UTF-8.
 * Status: RAP_OK, RAP_NO_EDITION, RAP_NOT_UTF8, RAP_TEXT_TOO_LONG, RAP_NO_STEPS, RAP_NO_MEMORY; the first of them that
 * applies.
 * `used` is the end of the last token of the tree. Trivia after it are in the tree. The last step's `at` is the length
 * of the text exactly if the tree has all tokens of the text.
 */
struct rap_answer rap_weave(const uint8_t *text, size_t text_length, uint32_t edition,
                            const struct rap_step *tree, size_t tree_steps,
                            const uint8_t *tree_messages, size_t tree_message_bytes,
                            struct rap_step *steps, size_t step_room, uint8_t *messages, size_t message_room);

/* Divides a text into what may stand before the code of a file, and the code: a shebang, which is a line, and a
 * frontmatter between two lines of dashes.
 * `parts`, `part_room`: the caller's array. As many parts as fit are written.
 * With RAP_OK there are six parts: the shebang with its line feed, the dashes that open the frontmatter, the text after
 * them on their line without the spaces and tabs around it, the lines between the dashes, the dashes that close it, and
 * the rest of the text, which is always there. There is no message.
 * With RAP_NO_SCRIPT the text is refused: the first part is the range that the message is about, and the others, all of
 * them there, are to be shown with it, in order.
 * Else the status is RAP_NOT_UTF8, or RAP_NO_MEMORY, which only a text that is refused can have. `steps` is the number
 * of parts, and `used` the text's length.
 */
struct rap_answer rap_script(const uint8_t *text, size_t text_length,
                             struct rap_part *parts, size_t part_room, uint8_t *messages, size_t message_room);

/* The end of a text's shebang, with its line feed: the text begins with `#!`, and what follows does not, after white
 * space, begin with `[`. `used` is the number of its bytes, or 0 where there is none.
 * Status: RAP_OK or RAP_NOT_UTF8. `steps` and `message_bytes` are 0.
 */
struct rap_answer rap_shebang(const uint8_t *text, size_t text_length);

/* The end of the longest run of Rust's white space that begins a text and ends with a line feed. `used` is the number
 * of its bytes, or 0 where there is none. The rest of the result is as for rap_shebang.
 */
struct rap_answer rap_blank_lines(const uint8_t *text, size_t text_length);

/* What a string stands for.
 * `status`: RAP_OK; RAP_NOT_UTF8; RAP_NO_LITERAL; or RAP_NO_MEMORY.
 * `bytes`: how many bytes it stands for; 0 if the status is not RAP_OK.
 */
struct rap_string {
    uint32_t status;
    size_t bytes;
};

/* The bytes that a string stands for, as `"a\n"` or `r#"a"#`.
 * `text`, `text_length`: the token, with its prefix, its quotes and hashes, and its suffix, as the edition 2024 has it:
 * in 2015 and 2018 the text `c"a"` is two tokens.
 * `kind`: RAP_KIND_STRING, whose bytes are UTF-8; RAP_KIND_BYTE_STRING; or RAP_KIND_C_STRING, whose bytes have no 0 at
 * the end. Of any other kind the status is RAP_NO_LITERAL.
 * `value`, `value_room`: the caller's array. As many bytes as fit are written, and none if the status is not RAP_OK. No
 * string stands for more bytes than its text has.
 * A carriage return stands for itself. The rules are those of
 * https://doc.rust-lang.org/reference/tokens.html#character-and-string-literals
 */
struct rap_string rap_string_value(const uint8_t *text, size_t text_length, uint32_t kind,
                                   uint8_t *value, size_t value_room);

/* What another literal stands for.
 * `status`: RAP_OK; RAP_NOT_UTF8; RAP_NO_LITERAL; RAP_NO_NUMBER; or RAP_NO_MEMORY. If it is neither RAP_OK nor, of an
 * integer, RAP_NO_NUMBER, the other numbers are 0.
 * `radix`: of an integer 2, 8, 10 or 16; of a float 10; else 0.
 * `low`, `high`: an integer is `high` times 2^64, and `low`; both are 0 if the status is RAP_NO_NUMBER. Of a character
 * `low` is its number in Unicode, and of a byte the byte.
 * `real`: a float, rounded once; else 0.
 * `suffix`: the byte of the text at which the suffix begins; the text's length, if there is none.
 */
struct rap_number {
    uint32_t status;
    uint32_t radix;
    uint64_t low;
    uint64_t high;
    double real;
    size_t suffix;
};

/* The value of an integer, a float, a character or a byte, as `0xff_u8`, `1.5e3`, `'a'` or `b'\n'`.
 * `text`, `text_length`: the token, with its prefix, its quotes and its suffix.
 * `kind`: RAP_KIND_INT_NUMBER, RAP_KIND_FLOAT_NUMBER, RAP_KIND_CHAR or RAP_KIND_BYTE. Of any other kind the status is
 * RAP_NO_LITERAL.
 * The suffix may be any identifier: `1f32` is an integer with the suffix `f32`.
 */
struct rap_number rap_number_value(const uint8_t *text, size_t text_length, uint32_t kind);

/* Writes the name of a kind, in ASCII and with no 0 at the end, as many bytes as fit, and returns the length of the
 * name in bytes: 0 if the number is no kind's. No name has more than 32 bytes.
 */
size_t rap_kind_name(uint32_t kind, uint8_t *name, size_t name_room);

/* The number of the kind with this name, which has no 0 at its end; RAP_NO_KIND where no kind has it. */
uint32_t rap_kind_of_name(const uint8_t *name, size_t name_length);

/* Writes the text of a status, in ASCII and with no 0 at the end, as many bytes as fit, and returns the length of the
 * text in bytes: 0 if the number is no status. No text has more than 36 bytes.
 */
size_t rap_status_text(uint32_t status, uint8_t *text, size_t text_room);

/* The version of the interface that the library has, as a number like RAP_VERSION. A program that was compiled with
 * this header may run with a library of the same first number and of no lower second one.
 */
uint32_t rap_version(void);

#ifdef __cplusplus
}
#endif

#endif
