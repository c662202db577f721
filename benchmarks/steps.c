/* Runs the words that `./ruu words FILE` writes, up to a number of steps, and prints how many went on and the seconds that they took:
   by ruu_step, one a call, or by ruu_run, all in one. */
#include <stdio.h>
#include <stdlib.h>
#include <string.h>
#include <time.h>
#include "ruu.h"

static uint32_t text[RUU_MOST_WORDS], registers[34], pc = RUU_TEXT;
static uint8_t memory[RUU_MOST_BYTES];

int main(int argc, char **argv) {
    uint64_t most = argc > 2 ? strtoull(argv[2], NULL, 10) : 1000000, steps = 0;
    size_t words = 0, bytes = 0;
    unsigned address, word;
    while (scanf("%x %x", &address, &word) == 2) {
        if (address >= RUU_TEXT) {
            text[words++] = word;
        } else {
            for (int k = 0; k < 4; k++) memory[bytes++] = (uint8_t)(word >> 8 * k);
        }
    }
    clock_t began = clock();
    if (argc > 1 && strcmp(argv[1], "run") == 0) {
        steps = most;
        ruu_run(text, words, memory, bytes, registers, &pc, &steps);
    } else {
        while (steps < most && ruu_step(text, words, memory, bytes, registers, &pc) == RUU_WENT) steps++;
    }
    printf("%llu steps %.6f\n", (unsigned long long)steps, (double)(clock() - began) / CLOCKS_PER_SEC);
    return 0;
}
