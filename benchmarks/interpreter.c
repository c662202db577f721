/* A plain interpreter of a listing, decoded beforehand: the yardstick of the in-order machine. */
#include <stdint.h>
#include <stdio.h>
#include <string.h>
#include <time.h>

enum op {
    ADDU, SUBU, ADD, SUB, AND, OR, XOR, NOR, SLT, SLTU, SLL, SRL, SRA, SLLV, SRLV, SRAV, NOP,
    ADDIU, ADDI, SLTI, SLTIU, ANDI, ORI, XORI, LUI, MULT, MULTU, DIV, DIVU, MFLO, MFHI, MTLO, MTHI,
    LB, LBU, LH, LHU, LW, SB, SH, SW, BEQ, BNE, BLEZ, BGTZ, BLTZ, BGEZ, J, JAL, JR, JALR, BREAK
};
struct instr { uint8_t op, d, s, t; uint32_t n; };
#include "program.h"

static uint8_t memory[MEMORY + 4] = DATA;

static int outside(uint32_t at, uint32_t width) { return at % width != 0 || (uint64_t)at + width > MEMORY; }

static int run(uint32_t r[32], uint64_t limit, uint64_t *count) {
    uint32_t pc = 0x400000, lo = 0, hi = 0;
    for (; *count < limit; ++*count) {
        uint32_t index = (pc - 0x400000) / 4;
        if (pc % 4 != 0 || index >= sizeof code / sizeof *code) return 4;
        const struct instr i = code[index];
        uint32_t a = r[i.s], b = r[i.t], at = a + i.n, v = 0;
        pc += 4;
        switch (i.op) {
        case ADDU: v = a + b; break;
        case SUBU: v = a - b; break;
        case ADD: if (__builtin_sadd_overflow((int32_t)a, (int32_t)b, (int32_t *)&v)) return 1; break;
        case SUB: if (__builtin_ssub_overflow((int32_t)a, (int32_t)b, (int32_t *)&v)) return 1; break;
        case ADDI: if (__builtin_sadd_overflow((int32_t)a, (int32_t)i.n, (int32_t *)&v)) return 1; break;
        case AND: v = a & b; break;
        case OR: v = a | b; break;
        case XOR: v = a ^ b; break;
        case NOR: v = ~(a | b); break;
        case SLT: v = (int32_t)a < (int32_t)b; break;
        case SLTU: v = a < b; break;
        case SLL: v = b << i.n; break;
        case SRL: v = b >> i.n; break;
        case SRA: v = (uint32_t)((int32_t)b >> i.n); break;
        case SLLV: v = b << (a & 31); break;
        case SRLV: v = b >> (a & 31); break;
        case SRAV: v = (uint32_t)((int32_t)b >> (a & 31)); break;
        case NOP: continue;
        case ADDIU: v = at; break;
        case SLTI: v = (int32_t)a < (int32_t)i.n; break;
        case SLTIU: v = a < i.n; break;
        case ANDI: v = a & i.n; break;
        case ORI: v = a | i.n; break;
        case XORI: v = a ^ i.n; break;
        case LUI: v = i.n << 16; break;
        case MULT: { int64_t p = (int64_t)(int32_t)a * (int32_t)b; lo = (uint32_t)p; hi = (uint32_t)((uint64_t)p >> 32); continue; }
        case MULTU: { uint64_t p = (uint64_t)a * b; lo = (uint32_t)p; hi = (uint32_t)(p >> 32); continue; }
        case DIV: {
            int64_t x = (int32_t)a, y = (int32_t)b;
            lo = b == 0 ? 0 : (uint32_t)(x / y);
            hi = b == 0 ? a : (uint32_t)(x % y);
            continue;
        }
        case DIVU: lo = b == 0 ? 0 : a / b; hi = b == 0 ? a : a % b; continue;
        case MFLO: v = lo; break;
        case MFHI: v = hi; break;
        case MTLO: lo = a; continue;
        case MTHI: hi = a; continue;
        case LB: if (outside(at, 1)) return 3; v = (int8_t)memory[at]; break;
        case LBU: if (outside(at, 1)) return 3; v = memory[at]; break;
        case LH: { int16_t h; if (outside(at, 2)) return 3; memcpy(&h, memory + at, 2); v = h; break; }
        case LHU: { uint16_t h; if (outside(at, 2)) return 3; memcpy(&h, memory + at, 2); v = h; break; }
        case LW: if (outside(at, 4)) return 3; memcpy(&v, memory + at, 4); break;
        case SB: if (outside(at, 1)) return 3; memory[at] = b; continue;
        case SH: if (outside(at, 2)) return 3; memcpy(memory + at, &b, 2); continue;
        case SW: if (outside(at, 4)) return 3; memcpy(memory + at, &b, 4); continue;
        case BEQ: if (a == b) pc = i.n; continue;
        case BNE: if (a != b) pc = i.n; continue;
        case BLEZ: if ((int32_t)a <= 0) pc = i.n; continue;
        case BGTZ: if ((int32_t)a > 0) pc = i.n; continue;
        case BLTZ: if ((int32_t)a < 0) pc = i.n; continue;
        case BGEZ: if ((int32_t)a >= 0) pc = i.n; continue;
        case J: pc = i.n; continue;
        case JAL: v = pc; pc = i.n; break;
        case JR: pc = a; continue;
        case JALR: v = pc; pc = a; break;
        case BREAK: return 0;
        }
        if (i.d != 0) r[i.d] = v;
    }
    return 5;
}

static double seconds(clockid_t clock) {
    struct timespec now;
    clock_gettime(clock, &now);
    return now.tv_sec + now.tv_nsec / 1e9;
}

/* Prints how it ended, the count of instructions, and the seconds that passed and those of the processor. */
int main(void) {
    uint32_t r[32] = {0};
    uint64_t count = 0;
    double from = seconds(CLOCK_MONOTONIC), used = seconds(CLOCK_PROCESS_CPUTIME_ID);
    int code = run(r, 4294967295u, &count);
    used = seconds(CLOCK_PROCESS_CPUTIME_ID) - used;
    printf("%d %llu %.6f %.6f\n", code, (unsigned long long)count, seconds(CLOCK_MONOTONIC) - from, used);
    return 0;
}
