/* Runs a simulator beside the library, instruction by instruction, and stops at the first difference: lockstep FILE.elf.
 * The simulator knows what examples/c/primes.c needs, and has a mistake that was planted: `sltiu` compares with a sign. */
#include "ruu.h"
#include <inttypes.h>
#include <stdio.h>
#include <string.h>

enum { START = 0x00400000, MOST_WORDS = 16384, BYTES = 65536, SIMULATOR_STOPS = 1 };

struct machine {
    uint32_t registers[34], pc;
    uint8_t memory[BYTES];
};

static uint32_t text[MOST_WORDS];
static size_t words;
static struct machine simulator, reference;

static uint32_t number_at(const uint8_t *bytes, int width)
{
    uint32_t number = 0;
    for (int k = width; k-- > 0;)
        number = number << 8 | bytes[k];
    return number;
}

static int load(const char *name)
{
    static uint8_t file[1 << 20];
    FILE *it = fopen(name, "rb");
    size_t length = it ? fread(file, 1, sizeof file, it) : 0;
    if (it)
        fclose(it);
    if (length < 52 || memcmp(file, "\177ELF\1\1", 6) != 0)
        return 0;
    uint32_t at = number_at(file + 28, 4);
    for (uint32_t k = number_at(file + 44, 2); k-- > 0; at += 32) {
        if (at + 32 > length || number_at(file + at, 4) != 1)
            continue;
        uint32_t offset = number_at(file + at + 4, 4), address = number_at(file + at + 8, 4), size = number_at(file + at + 16, 4);
        if (offset > length || size > length - offset)
            return 0;
        if (address == START && size <= sizeof text)
            for (words = 0; words < size / 4; words++)
                text[words] = number_at(file + offset + 4 * words, 4);
        else if (address <= BYTES && size <= BYTES - address)
            memcpy(reference.memory + address, file + offset, size);
    }
    reference.pc = START;
    return words > 0;
}

static void set(uint32_t r, uint32_t value)
{
    if (r != 0)
        simulator.registers[r] = value;
}

/* Runs one instruction, and answers as ruu_step does, but for every stop with one number. */
static int32_t step(void)
{
    uint32_t place = (simulator.pc - START) / 4;
    if (simulator.pc % 4 != 0 || place >= words)
        return SIMULATOR_STOPS;
    uint32_t word = text[place], rs = word >> 21 & 31, rt = word >> 16 & 31, rd = word >> 11 & 31;
    uint32_t a = simulator.registers[rs], b = simulator.registers[rt], next = simulator.pc + 4;
    uint32_t near = (uint32_t)(int32_t)(int16_t)(word & 0xffff), address = a + near;
    switch (word >> 26) {
    case 0:
        switch (word & 63) {
        case 0: set(rd, b << (word >> 6 & 31)); break;
        case 8: next = a; break;
        case 33: set(rd, a + b); break;
        case 35: set(rd, a - b); break;
        case 37: set(rd, a | b); break;
        default: return SIMULATOR_STOPS;
        }
        break;
    case 3: set(31, next); next = (next & 0xf0000000) | (word & 0x3ffffff) << 2; break;
    case 4: next = a == b ? next + 4 * near : next; break;
    case 5: next = a != b ? next + 4 * near : next; break;
    case 9: set(rt, address); break;
    case 11: set(rt, (int32_t)a < (int32_t)(near | 0x80000000)); break; /* the mistake */
    case 15: set(rt, word << 16); break;
    case 35: set(rt, number_at(simulator.memory + address % BYTES, 4)); break;
    case 36: set(rt, simulator.memory[address % BYTES]); break;
    case 40: simulator.memory[address % BYTES] = (uint8_t)b; break;
    case 43:
        for (int k = 0; k < 4; k++)
            simulator.memory[(address + k) % BYTES] = (uint8_t)(b >> 8 * k);
        break;
    default: return SIMULATOR_STOPS;
    }
    simulator.pc = next;
    return 0;
}

int main(int count, char **arguments)
{
    if (count != 2 || !load(arguments[1])) {
        fprintf(stderr, "lockstep: no executable\n");
        return 2;
    }
    simulator = reference;
    for (unsigned long steps = 0;; steps++) {
        uint32_t pc = reference.pc;
        int32_t theirs = ruu_step(text, words, reference.memory, BYTES, reference.registers, &reference.pc), ours = step();
        if ((ours != 0) != (theirs != 0)) {
            printf("instruction %lu at 0x%08" PRIx32 ": only one stops\n", steps, pc);
            return 1;
        }
        for (int r = 0; r < 34; r++)
            if (simulator.registers[r] != reference.registers[r]) {
                printf("instruction %lu at 0x%08" PRIx32 ": register %d is 0x%08" PRIx32 ", and has to be 0x%08" PRIx32 "\n", steps, pc, r,
                       simulator.registers[r], reference.registers[r]);
                return 1;
            }
        if (simulator.pc != reference.pc || memcmp(simulator.memory, reference.memory, BYTES) != 0) {
            printf("instruction %lu at 0x%08" PRIx32 ": the pc or the memory differs\n", steps, pc);
            return 1;
        }
        if (theirs != 0) {
            printf("no difference in %lu instructions, up to the stop %" PRId32 "\n", steps, theirs);
            return 0;
        }
    }
}
