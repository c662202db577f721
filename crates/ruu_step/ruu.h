/* The in-order machine of ./ruu, one instruction a call, or many: link libruu_step.a, or load libruu_step.so. And its judge of
 * out-of-order machines, one event a call: link libruu_judge.a, or load libruu_judge.so.
 * docs/REFERENCE.md tells how they are built and what is promised of them. */
#ifndef RUU_STEP_H
#define RUU_STEP_H
#define RUU_VERSION "1.0.0"
#include <stddef.h>
#include <stdint.h>
#if defined(__GNUC__)
#define RUU_RESTRICT __restrict__
#define RUU_INLINE __inline__
#elif defined(__STDC_VERSION__) && __STDC_VERSION__ >= 199901L
#define RUU_RESTRICT restrict
#define RUU_INLINE inline
#else
#define RUU_RESTRICT
#define RUU_INLINE
#endif
#ifdef __cplusplus
extern "C" {
#endif

/* The answers. After each but RUU_WENT all is as it was before the instruction. */
enum {
    RUU_WENT = 0,          /* it went on */
    RUU_BREAK = 1,         /* it stops, for one of five reasons */
    RUU_OVERFLOW = 2,
    RUU_UNALIGNED = 3,
    RUU_RANGE = 4,
    RUU_BADPC = 5,
    RUU_NO_OPERATION = -1, /* the word at the pc encodes no operation */
    RUU_SIZES = -2         /* sizes that no program has */
};

enum {
    RUU_LO = 32,           /* LO and HI among the registers */
    RUU_HI = 33,
    RUU_TEXT = 0x00400000, /* the address of the first word, and the pc at the start */
    RUU_MOST_WORDS = 16384,
    RUU_MOST_BYTES = 65536 /* and a multiple of 4 */
};

/* What an instruction has changed. All is 0 after each answer but RUU_WENT. */
struct ruu_change {
    uint32_t registers;    /* how many registers were written: 0, 1 or 2; one of register 0 counts for none */
    uint32_t first;        /* the first of them, and what it holds since */
    uint32_t first_value;
    uint32_t second;       /* the second: RUU_HI after RUU_LO by a multiplication or division, and else none */
    uint32_t second_value;
    uint32_t width;        /* how many bytes were loaded or stored: 1, 2 or 4; 0 by other instructions */
    uint32_t address;      /* the address of the first of them */
    uint32_t is_store;     /* 1 where they were stored */
    uint32_t stored;       /* what was stored, as a little endian number */
};

/* Runs the instruction at *pc. `text` has `words` machine words, the first of them at RUU_TEXT; `memory` has `bytes` bytes,
 * from address 0 on; `registers` has 34 values. Nothing is done in a delay slot.
 *
 * It allocates nothing and keeps nothing between calls: many threads may call it with areas of their own. No proof sees a
 * caller in C: no pointer may be null, each area is aligned as its type wants and as long as it is said to be, no two of
 * them overlap, and registers[0] is 0. */
int32_t ruu_step(const uint32_t *RUU_RESTRICT text, size_t words, uint8_t *RUU_RESTRICT memory, size_t bytes,
                 uint32_t *RUU_RESTRICT registers, uint32_t *RUU_RESTRICT pc);

/* Does what ruu_step does, and tells what was changed. */
int32_t ruu_step_told(const uint32_t *RUU_RESTRICT text, size_t words, uint8_t *RUU_RESTRICT memory, size_t bytes,
                      uint32_t *RUU_RESTRICT registers, uint32_t *RUU_RESTRICT pc,
                      struct ruu_change *RUU_RESTRICT change);

/* Does what ruu_step does, *steps times at most, up to the first answer but RUU_WENT. *steps becomes how many went on. */
int32_t ruu_run(const uint32_t *RUU_RESTRICT text, size_t words, uint8_t *RUU_RESTRICT memory, size_t bytes,
                uint32_t *RUU_RESTRICT registers, uint32_t *RUU_RESTRICT pc, uint64_t *RUU_RESTRICT steps);

/* The name of an answer: the word of the report where it is a stop. */
static RUU_INLINE const char *ruu_stop_name(int32_t answer)
{
    switch (answer) {
    case RUU_WENT: return "went";
    case RUU_BREAK: return "break";
    case RUU_OVERFLOW: return "overflow";
    case RUU_UNALIGNED: return "unaligned";
    case RUU_RANGE: return "range";
    case RUU_BADPC: return "badpc";
    case RUU_NO_OPERATION: return "no operation";
    case RUU_SIZES: return "sizes";
    default: return "no answer";
    }
}

/* A judge of what another out-of-order machine does: it is told the lines of a log, as `./ruu judge` reads them, each as soon
 * as it happens, and says of each event whether it is legal. `struct ruu_judge judge = RUU_NO_JUDGE;` is a place for one. */
struct ruu_judge {
    void *held;            /* the library's own; null where there is no judge */
};
#define RUU_NO_JUDGE {0}
#define RUU_NO_BOUND ((size_t)-1)

/* The answers of a judge: 0 to 5 are the exit statuses of `./ruu judge`. */
enum {
    RUU_JUDGE_LEGAL = 0,       /* the event is legal, or the line has none; of other calls: it is done */
    RUU_JUDGE_REFUSED = 1,     /* the event is refused, and the judge has ended */
    RUU_JUDGE_LISTING = 2,     /* the listing has a fault */
    RUU_JUDGE_USED_WRONG = 3,  /* there is no judge, or is one already; no stations; flags that are none */
    RUU_JUDGE_UNREAD = 4,      /* the line is not read; the judge goes on as if it had no event */
    RUU_JUDGE_NO_MEMORY = 5,
    RUU_JUDGE_ENDED = 6        /* it has ended before, by a refused event or for want of memory */
};

/* What a judge allows beside the steps of the unit, and what the word `issue` means in a log; 0 is none of them. */
enum {
    RUU_JUDGE_GUESSES = 1,          /* --guess: a load may take a value ahead of older stores */
    RUU_JUDGE_FLUSHES = 2,          /* --flush: the youngest may be squashed without a misprediction */
    RUU_JUDGE_ISSUE_DISPATCHES = 4, /* --issue dispatch */
    RUU_JUDGE_ISSUE_EXECUTES = 8    /* --issue execute */
};

/* Makes a judge of the unit of a listing of `bytes` bytes (docs/LISTING.md), with that many stations, and at most `queue` loads
 * and stores in flight; RUU_NO_BOUND is no bound. RUU_JUDGE_LEGAL: *judge has it, and has to be freed. RUU_JUDGE_LISTING: the
 * first fault is in line *line, counted from 1, or the listing is too long and *line is 0. After each answer but
 * RUU_JUDGE_LEGAL, *judge is as it was. The listing is copied: it may go once the call is over.
 *
 * These four calls allocate with malloc, which may be the caller's own. No proof sees a caller in C: no pointer may be null,
 * each area is as long as it is said to be, and no two of them overlap. *judge is RUU_NO_JUDGE, or as the last call left it,
 * and is neither copied and used twice nor called after the copy was freed. A judge may be used by one call at a time; many
 * threads may have judges of their own. None of them may be called from a signal handler. */
int32_t ruu_judge_new(const uint8_t *RUU_RESTRICT listing, size_t bytes, size_t stations, size_t queue, uint32_t flags,
                      uint64_t *RUU_RESTRICT line, struct ruu_judge *RUU_RESTRICT judge);

/* Tells a judge the next line of the log, `bytes` bytes, with a line feed at its end or without. A let at which a predictor is
 * asked (a branch, jr or jalr) says what it predicted, as in "let 0x00400004 -> 0x00400008"; one that does not is taken to be
 * predicted at pc + 4. */
int32_t ruu_judge_event(struct ruu_judge *RUU_RESTRICT judge, const uint8_t *RUU_RESTRICT text, size_t bytes);

/* Writes the text of the verdict, as `./ruu judge` prints it for a log of the lines told up to now, into `text`, as much of it
 * as fits into `size` bytes, with no zero at its end. *length is how long it is: call again with more room where that is more
 * than `size`. RUU_JUDGE_NO_MEMORY: *length is 0; the judge is as it was, and may be asked again. */
int32_t ruu_judge_reason(struct ruu_judge *RUU_RESTRICT judge, uint8_t *RUU_RESTRICT text, size_t size,
                         size_t *RUU_RESTRICT length);

/* Frees all that a judge holds. *judge is RUU_NO_JUDGE afterwards; where it was before, nothing is done. */
void ruu_judge_free(struct ruu_judge *judge);

#ifdef __cplusplus
}
#endif
#endif
