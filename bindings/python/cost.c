/* cost ROUNDS FILE.. parses each file so many times by rap_nodes, and prints for each the least processor time of a
 * call in nanoseconds. The arrays have the room that the package for Python gives, and are made anew for each call. */
#include <stdint.h>
#include <stdio.h>
#include <stdlib.h>
#include <time.h>
#include "rap.h"

static double now(void) {
    struct timespec time;
    clock_gettime(CLOCK_THREAD_CPUTIME_ID, &time);
    return (double)time.tv_sec * 1e9 + (double)time.tv_nsec;
}

/* The time of one call, or a negative number on a fault. */
static double call(const uint8_t *text, size_t length) {
    size_t elements = length + 256, messages = length / 16 + 64, bytes = length + 4096;
    double before = now();
    struct rap_element *tree = malloc(elements * sizeof *tree);
    struct rap_message *reports = malloc(messages * sizeof *reports);
    uint8_t *texts = malloc(bytes);
    if (!tree || !reports || !texts) return -1;
    struct rap_nodes_answer answer = rap_nodes(text, length, 2024, RAP_SOURCE_FILE, tree, elements, reports, messages,
                                               texts, bytes);
    free(texts);
    free(reports);
    free(tree);
    return answer.status == RAP_OK ? now() - before : -1;
}

int main(int count, char **words) {
    for (int i = 2; i < count; i++) {
        FILE *file = fopen(words[i], "rb");
        if (!file || fseek(file, 0, SEEK_END)) return 2;
        long length = ftell(file);
        uint8_t *text = length < 0 ? NULL : malloc((size_t)length + 1);
        rewind(file);
        if (!text || fread(text, 1, (size_t)length, file) != (size_t)length || fclose(file)) return 2;
        double least = 1e18;
        for (int round = atoi(words[1]); round > 0; round--) {
            double time = call(text, (size_t)length);
            if (time < 0) return 2;
            if (time < least) least = time;
        }
        printf("%.0f\n", least);
        free(text);
    }
    return 0;
}
