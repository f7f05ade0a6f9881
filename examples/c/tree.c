/* tree EDITION ENTRY FILE prints the tree of a file and then its messages, as the program `rast` does. */
#include <stdio.h>
#include <stdlib.h>
#include <string.h>
#include "rap.h"

static const char *const ENTRIES[] = {"SourceFile", "MacroStmts", "MacroItems", "Pattern", "Type", "Expr", "MetaItem"};

static int fail(const char *why) {
    fprintf(stderr, "tree: %s\n", why);
    return 2;
}

/* Prints a text in quotes; a quote, a backslash and a control character are written after a backslash. */
static void print_quoted(const uint8_t *text, size_t length) {
    putchar('"');
    for (size_t i = 0; i < length; i++) {
        const char *plain = "\"\\\n\r\t", *letters = "\"\\nrt";
        const char *place = text[i] ? strchr(plain, text[i]) : NULL;
        if (place) printf("\\%c", letters[place - plain]);
        else if (text[i] == 0) printf("\\0");
        else if (text[i] < 0x20 || text[i] == 0x7f) printf("\\u{%x}", text[i]);
        else putchar(text[i]);
    }
    putchar('"');
}

/* Prints a line for each node and each token, two spaces further in for each open node. */
static void print_tree(const uint8_t *text, const struct rap_step *steps, size_t count) {
    int depth = 0;
    for (size_t i = 0; i < count; i++) {
        uint8_t name[32];
        int length = (int)rap_kind_name(steps[i].kind, name, sizeof name);
        if (steps[i].what == RAP_ENTER) printf("%*s%.*s\n", 2 * depth++, "", length, name);
        else if (steps[i].what == RAP_EXIT) depth--;
        else if (steps[i].what == RAP_TOKEN) {
            printf("%*s%.*s ", 2 * depth, "", length, name);
            print_quoted(text + steps[i].start, steps[i].end - steps[i].start);
            putchar('\n');
        }
    }
}

/* Prints a line for each message, and answers whether there is one. */
static int print_messages(const struct rap_step *steps, size_t count, const uint8_t *messages) {
    int some = 0;
    for (size_t i = 0; i < count; i++)
        if (steps[i].what == RAP_MESSAGE) {
            printf("error %zu: %.*s\n", steps[i].at, (int)(steps[i].end - steps[i].start), messages + steps[i].start);
            some = 1;
        }
    return some;
}

int main(int count, char **words) {
    uint32_t entry = 0;
    while (count == 4 && entry <= RAP_META_ITEM && strcmp(words[2], ENTRIES[entry])) entry++;
    if (count != 4 || entry > RAP_META_ITEM) return fail("usage: tree EDITION ENTRY FILE");
    FILE *file = fopen(words[3], "rb");
    if (!file || fseek(file, 0, SEEK_END)) return fail("cannot read the file");
    size_t length = (size_t)ftell(file);
    uint8_t *text = malloc(length + 1);
    rewind(file);
    if (!text || fread(text, 1, length, file) != length) return fail("cannot read the file");
    struct rap_step none;
    struct rap_answer answer = rap_tree(text, length, (uint32_t)atoi(words[1]), entry, &none, 0, text + length, 0);
    struct rap_step *steps = malloc((answer.steps + 1) * sizeof *steps);
    uint8_t *messages = malloc(answer.message_bytes + 1);
    if (!steps || !messages) return fail("no memory");
    answer = rap_tree(text, length, (uint32_t)atoi(words[1]), entry, steps, answer.steps, messages, answer.message_bytes);
    if (answer.status != RAP_OK) return fail(answer.status == RAP_NOT_UTF8 ? "the file is no text" : "the text was not parsed");
    print_tree(text, steps, answer.steps);
    int some = print_messages(steps, answer.steps, messages);
    free(messages);
    free(steps);
    free(text);
    return some | fclose(file);
}
