/* Splits a file into lines and words, each kept as where it stands and its length: the yardstick of the parser. */
#include <stdio.h>
#include <stdlib.h>
#include <time.h>

struct part { const char *at; size_t length; };

static char text[1 << 23];
static struct part line_parts[1 << 22], word_parts[1 << 22];

int main(int argc, char **argv) {
    FILE *file = argc > 1 ? fopen(argv[1], "rb") : NULL;
    if (!file) return 1;
    size_t size = fread(text, 1, sizeof text, file), lines = 0, words = 0;
    struct timespec from, to;
    clock_gettime(CLOCK_MONOTONIC, &from);
    size_t line_from = 0, word_from = 0;
    for (size_t i = 0; i <= size; i++) {
        char c = i < size ? text[i] : '\n';
        if (c == ' ' || c == '\t' || c == '\n' || c == ',' || c == ':') {
            if (i > word_from) word_parts[words++] = (struct part){text + word_from, i - word_from};
            word_from = i + 1;
        }
        if (c == '\n') {
            line_parts[lines++] = (struct part){text + line_from, i - line_from};
            line_from = i + 1;
        }
    }
    clock_gettime(CLOCK_MONOTONIC, &to);
    double seconds = (to.tv_sec - from.tv_sec) + (to.tv_nsec - from.tv_nsec) / 1e9;
    printf("%zu %zu %.6f\n", lines, words, seconds);
    return 0;
}
