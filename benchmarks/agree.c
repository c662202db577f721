/* Runs random words in random states by the library and by step.c, which is compiled with `ruu_step` and `ruu_run` named `plain_step`
   and `plain_run`: one step of each, and then a run. Prints the first case in which they differ. */
#include <stdio.h>
#include <stdlib.h>
#include <string.h>
#include "ruu.h"

enum { WORDS = 64, BYTES = 512 };

int32_t plain_step(const uint32_t *RUU_RESTRICT text, size_t words, uint8_t *RUU_RESTRICT memory, size_t bytes,
                   uint32_t *RUU_RESTRICT registers, uint32_t *RUU_RESTRICT pc);
int32_t plain_run(const uint32_t *RUU_RESTRICT text, size_t words, uint8_t *RUU_RESTRICT memory, size_t bytes,
                  uint32_t *RUU_RESTRICT registers, uint32_t *RUU_RESTRICT pc, uint64_t *RUU_RESTRICT steps);

struct state {
    uint32_t registers[34], pc;
    uint8_t memory[BYTES];
    uint64_t steps;
    int32_t answer;
};

static uint64_t seed = 88172645463325252u;

static uint32_t below(uint32_t limit) {
    seed ^= seed << 13;
    seed ^= seed >> 7;
    seed ^= seed << 17;
    return (uint32_t)(seed >> 32) % limit;
}

static uint32_t any_number(void) {
    static const uint32_t edges[] = {0, 1, 2, 31, 0x7fffffff, 0x80000000, 0x80000001, 0xffffffff};
    switch (below(4)) {
    case 0: return edges[below(8)];
    case 1: return RUU_TEXT + 4 * below(WORDS);
    case 2: return below(BYTES + 8);
    default: return below(0xffffffff);
    }
}

/* A field of 5 bits, which is 0 in a quarter of the words. */
static uint32_t field(void) { return below(4) == 0 ? 0 : below(32); }

static uint32_t any_word(void) {
    uint32_t rs = field(), rt = below(3) == 0 ? below(2) : field();
    switch (below(8)) {
    case 0: return below(0xffffffff);
    case 1: case 2: return rs << 21 | rt << 16 | (below(2) != 0 ? field() << 6 : 0) | below(64);
    case 3: case 4: return rs << 21 | rt << 16 | field() << 11 | (below(2) != 0 ? field() << 6 : 0) | below(64);
    case 5: return (2 + below(2)) << 26 | (RUU_TEXT / 4 + below(WORDS));
    case 6: return below(64) << 26 | rs << 21 | rt << 16 | (below(2 * WORDS) - WORDS) % 0x10000;
    default: return below(64) << 26 | rs << 21 | rt << 16 | below(0x10000);
    }
}

static int is_same(const struct state *ours, const struct state *theirs) {
    return ours->answer == theirs->answer && ours->steps == theirs->steps && ours->pc == theirs->pc &&
           memcmp(ours->registers, theirs->registers, sizeof ours->registers) == 0 &&
           memcmp(ours->memory, theirs->memory, sizeof ours->memory) == 0;
}

int main(int argc, char **argv) {
    unsigned long cases = argc > 1 ? strtoul(argv[1], NULL, 10) : 100000, went = 0, ran = 0;
    for (unsigned long k = 0; k < cases; k++) {
        uint32_t text[WORDS];
        struct state ours, theirs;
        size_t words = WORDS, bytes = BYTES;
        for (int n = 0; n < WORDS; n++) text[n] = any_word();
        for (int n = 1; n < 34; n++) ours.registers[n] = any_number();
        for (int n = 0; n < BYTES; n++) ours.memory[n] = (uint8_t)below(256);
        ours.registers[0] = 0;
        ours.pc = below(16) != 0 ? RUU_TEXT + 4 * below(WORDS) : any_number();
        ours.steps = below(100);
        if (below(64) == 0) words = below(2 * RUU_MOST_WORDS), ours.pc = RUU_TEXT + 1;
        if (below(64) == 0) bytes = below(BYTES);
        theirs = ours;
        ours.answer = ruu_step(text, words, ours.memory, bytes, ours.registers, &ours.pc);
        theirs.answer = plain_step(text, words, theirs.memory, bytes, theirs.registers, &theirs.pc);
        went += ours.answer == RUU_WENT;
        if (is_same(&ours, &theirs)) {
            ours.answer = ruu_run(text, words, ours.memory, bytes, ours.registers, &ours.pc, &ours.steps);
            theirs.answer = plain_run(text, words, theirs.memory, bytes, theirs.registers, &theirs.pc, &theirs.steps);
            ran += ours.answer < 0 ? 0 : ours.steps;
        }
        if (!is_same(&ours, &theirs)) {
            printf("case %lu differs: answers %d and %d, pc 0x%08x and 0x%08x\n", k, ours.answer, theirs.answer, ours.pc, theirs.pc);
            return 1;
        }
    }
    printf("%lu steps and runs agree: %lu of the steps went on, %lu more in the runs\n", cases, went, ran);
    return 0;
}
