/* `ruu_step` and `ruu_run` in plain C, as a simulator's author writes them: the yardstick of the library for C. Each call checks the
   sizes, the pc and the word, and decodes the word by a switch. */
#include <string.h>
#include "ruu.h"

#if defined(__GNUC__)
#define INLINE static __inline__ __attribute__((always_inline))
#else
#define INLINE static
#endif

INLINE int are_allowed(size_t words, size_t bytes) {
    return words <= RUU_MOST_WORDS && bytes <= RUU_MOST_BYTES && bytes % 4 == 0;
}

INLINE int32_t fault(uint32_t at, uint32_t width, size_t bytes) {
    return at % width != 0 ? RUU_UNALIGNED : (uint64_t)at + width > bytes ? RUU_RANGE : RUU_WENT;
}

/* The fields of a word, and the registers that it names. */
#define RS (word >> 21 & 31)
#define RT (word >> 16 & 31)
#define RD (word >> 11 & 31)
#define SHIFT (word >> 6 & 31)
#define HALF (word & 0xffff)
#define NUMBER ((uint32_t)(int16_t)HALF)
#define A r[RS]
#define B r[RT]
#define UNUSED(bits) if ((bits) != 0) return RUU_NO_OPERATION
#define ADDRESS(width) at = A + NUMBER; if ((answer = fault(at, width, bytes)) != RUU_WENT) return answer

INLINE int32_t one(const uint32_t *RUU_RESTRICT text, size_t words, uint8_t *RUU_RESTRICT memory, size_t bytes,
                   uint32_t *RUU_RESTRICT r, uint32_t *RUU_RESTRICT pc) {
    uint32_t here = *pc, next = here + 4, index = (here - RUU_TEXT) / 4, word, at, to, v;
    int32_t answer;
    if (here % 4 != 0 || index >= words) return RUU_BADPC;
    word = text[index];
    switch (word >> 26) {
    case 0:
        to = RD;
        switch (word & 63) {
        case 0: UNUSED(RS); v = B << SHIFT; break;
        case 2: UNUSED(RS); v = B >> SHIFT; break;
        case 3: UNUSED(RS); v = (uint32_t)((int32_t)B >> SHIFT); break;
        case 4: UNUSED(SHIFT); v = B << (A & 31); break;
        case 6: UNUSED(SHIFT); v = B >> (A & 31); break;
        case 7: UNUSED(SHIFT); v = (uint32_t)((int32_t)B >> (A & 31)); break;
        case 8: UNUSED(word >> 6 & 0x7fff); *pc = A; return RUU_WENT;
        case 9: UNUSED(word & 0x1f07c0); v = next; next = A; break;
        case 13: UNUSED(word >> 6 & 0xfffff); return RUU_BREAK;
        case 16: UNUSED(word & 0x3ff07c0); v = r[RUU_HI]; break;
        case 17: UNUSED(word >> 6 & 0x7fff); v = A; to = RUU_HI; break;
        case 18: UNUSED(word & 0x3ff07c0); v = r[RUU_LO]; break;
        case 19: UNUSED(word >> 6 & 0x7fff); v = A; to = RUU_LO; break;
        case 24: {
            int64_t product = (int64_t)(int32_t)A * (int32_t)B;
            UNUSED(word >> 6 & 0x3ff);
            r[RUU_HI] = (uint32_t)((uint64_t)product >> 32);
            v = (uint32_t)product;
            to = RUU_LO;
            break;
        }
        case 25: {
            uint64_t product = (uint64_t)A * B;
            UNUSED(word >> 6 & 0x3ff);
            r[RUU_HI] = (uint32_t)(product >> 32);
            v = (uint32_t)product;
            to = RUU_LO;
            break;
        }
        case 26: {
            int64_t x = (int32_t)A, y = (int32_t)B;
            UNUSED(word >> 6 & 0x3ff);
            r[RUU_HI] = (uint32_t)(y == 0 ? x : x % y);
            v = (uint32_t)(y == 0 ? 0 : x / y);
            to = RUU_LO;
            break;
        }
        case 27: {
            uint32_t x = A, y = B;
            UNUSED(word >> 6 & 0x3ff);
            r[RUU_HI] = y == 0 ? x : x % y;
            v = y == 0 ? 0 : x / y;
            to = RUU_LO;
            break;
        }
        case 32: UNUSED(SHIFT); if (__builtin_sadd_overflow((int32_t)A, (int32_t)B, (int32_t *)&v)) return RUU_OVERFLOW; break;
        case 33: UNUSED(SHIFT); v = A + B; break;
        case 34: UNUSED(SHIFT); if (__builtin_ssub_overflow((int32_t)A, (int32_t)B, (int32_t *)&v)) return RUU_OVERFLOW; break;
        case 35: UNUSED(SHIFT); v = A - B; break;
        case 36: UNUSED(SHIFT); v = A & B; break;
        case 37: UNUSED(SHIFT); v = A | B; break;
        case 38: UNUSED(SHIFT); v = A ^ B; break;
        case 39: UNUSED(SHIFT); v = ~(A | B); break;
        case 42: UNUSED(SHIFT); v = (int32_t)A < (int32_t)B; break;
        case 43: UNUSED(SHIFT); v = A < B; break;
        default: return RUU_NO_OPERATION;
        }
        break;
    case 1:
        UNUSED(RT & 30);
        *pc = ((int32_t)A < 0) == (RT == 0) ? next + 4 * NUMBER : next;
        return RUU_WENT;
    case 2: *pc = (next & 0xf0000000) + 4 * (word & 0x3ffffff); return RUU_WENT;
    case 3: v = next; to = 31; next = (next & 0xf0000000) + 4 * (word & 0x3ffffff); break;
    case 4: *pc = A == B ? next + 4 * NUMBER : next; return RUU_WENT;
    case 5: *pc = A != B ? next + 4 * NUMBER : next; return RUU_WENT;
    case 6: UNUSED(RT); *pc = (int32_t)A <= 0 ? next + 4 * NUMBER : next; return RUU_WENT;
    case 7: UNUSED(RT); *pc = (int32_t)A > 0 ? next + 4 * NUMBER : next; return RUU_WENT;
    case 8: to = RT; if (__builtin_sadd_overflow((int32_t)A, (int32_t)NUMBER, (int32_t *)&v)) return RUU_OVERFLOW; break;
    case 9: to = RT; v = A + NUMBER; break;
    case 10: to = RT; v = (int32_t)A < (int32_t)NUMBER; break;
    case 11: to = RT; v = A < NUMBER; break;
    case 12: to = RT; v = A & HALF; break;
    case 13: to = RT; v = A | HALF; break;
    case 14: to = RT; v = A ^ HALF; break;
    case 15: UNUSED(RS); to = RT; v = HALF << 16; break;
    case 32: ADDRESS(1); to = RT; v = (uint32_t)(int8_t)memory[at]; break;
    case 36: ADDRESS(1); to = RT; v = memory[at]; break;
    case 33: {
        int16_t loaded;
        ADDRESS(2);
        memcpy(&loaded, memory + at, 2);
        to = RT;
        v = (uint32_t)loaded;
        break;
    }
    case 37: {
        uint16_t loaded;
        ADDRESS(2);
        memcpy(&loaded, memory + at, 2);
        to = RT;
        v = loaded;
        break;
    }
    case 35: ADDRESS(4); memcpy(&v, memory + at, 4); to = RT; break;
    case 40: ADDRESS(1); memory[at] = (uint8_t)B; *pc = next; return RUU_WENT;
    case 41: ADDRESS(2); memcpy(memory + at, &B, 2); *pc = next; return RUU_WENT;
    case 43: ADDRESS(4); memcpy(memory + at, &B, 4); *pc = next; return RUU_WENT;
    default: return RUU_NO_OPERATION;
    }
    if (to != 0) r[to] = v;
    *pc = next;
    return RUU_WENT;
}

int32_t ruu_step(const uint32_t *RUU_RESTRICT text, size_t words, uint8_t *RUU_RESTRICT memory, size_t bytes,
                 uint32_t *RUU_RESTRICT registers, uint32_t *RUU_RESTRICT pc) {
    return are_allowed(words, bytes) ? one(text, words, memory, bytes, registers, pc) : RUU_SIZES;
}

int32_t ruu_run(const uint32_t *RUU_RESTRICT text, size_t words, uint8_t *RUU_RESTRICT memory, size_t bytes,
                uint32_t *RUU_RESTRICT registers, uint32_t *RUU_RESTRICT pc, uint64_t *RUU_RESTRICT steps) {
    uint64_t most = *steps, done = 0;
    int32_t answer = are_allowed(words, bytes) ? RUU_WENT : RUU_SIZES;
    while (answer == RUU_WENT && done < most) {
        answer = one(text, words, memory, bytes, registers, pc);
        done += answer == RUU_WENT;
    }
    *steps = done;
    return answer;
}
