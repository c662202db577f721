/* The unit that threads share, without a proof: the same table of words, the same steps in the same order, each
   sequentially consistent, the same turns of each thread, hints, totals and snapshots, in plain C11.

       twin LISTING.numbers UNITS LIMIT [RING [QUEUE]]     (the numbers: decode.py)

   Runs the listing on so many unit threads, beside one that dispatches, one that commits and one that takes snapshots, with
   the predictor bimod; compares the end with an interpreter of one instruction after the other; and prints the
   microseconds of the run, the instructions, and the totals. The queue of hints has its stamps apart from its values, as
   the kit's has. What the design itself costs: with -DTOGETHER each stamp stands beside its value, with -DNO_HINTS units look
   at the next station in ring order alone, and with -DPADDED each station's word has a cache line of its own. */
#define _GNU_SOURCE
#include <linux/futex.h>
#include <pthread.h>
#include <sched.h>
#include <stdatomic.h>
#include <stdbool.h>
#include <stdint.h>
#include <stdio.h>
#include <stdlib.h>
#include <string.h>
#include <sys/syscall.h>
#include <time.h>
#include <unistd.h>

#define WORDS \
    X(addu) X(subu) X(add) X(sub) X(and) X(or) X(xor) X(nor) X(slt) X(sltu) X(sllv) X(srlv) X(srav) X(sll) X(srl) X(sra) \
    X(addiu) X(addi) X(slti) X(sltiu) X(andi) X(ori) X(xori) X(lui) X(lb) X(lbu) X(lh) X(lhu) X(lw) X(sb) X(sh) X(sw) \
    X(beq) X(bne) X(blez) X(bgtz) X(bltz) X(bgez) X(j) X(jal) X(jr) X(jalr) X(break) X(nop) \
    X(mult) X(multu) X(div) X(divu) X(mflo) X(mfhi) X(mtlo) X(mthi)
#define X(name) OP_##name,
enum op { WORDS OPS };
#undef X
#define X(name) #name,
static const char *const words[] = { WORDS };
#undef X

enum { REGISTERS = 34, LO = 32, HI = 33, MOST_RING = 32, MOST_UNITS = 64, START = 0x400000, LAST_TAG = 0xfffffff };
enum stop { BREAK, OVERFLOW, UNALIGNED, OUT_OF_RANGE, BAD_PC, LIMIT };
enum state { FREE, OPEN, BUSY, ADDR, DONE, MISS, STOP };
enum { WAIT = 1, VAL = 2 };
enum part { WHOLE, HIGH };
enum kind { COMPUTES, LOADS, STORES, BRANCHES };

struct instr { uint8_t op, d, s, t; uint32_t n; };
struct outcome { enum { VALUE, NEXT, ADDRESS, STOPS } is; uint32_t value; };

static struct instr *code;
static uint32_t length, size;
static uint8_t *start;

static bool is_load(int op) { return OP_lb <= op && op <= OP_lw; }
static bool is_store(int op) { return OP_sb <= op && op <= OP_sw; }
static bool is_access(int op) { return OP_lb <= op && op <= OP_sw; }
static bool is_branch(int op) { return OP_beq <= op && op <= OP_jalr; }
static bool is_link(int op) { return op == OP_jal || op == OP_jalr; }
static bool is_pair(int op) { return OP_mult <= op && op <= OP_divu; }
static bool is_guessed(int op) { return (OP_beq <= op && op <= OP_bgez) || op == OP_jr || op == OP_jalr; }
static uint32_t width(int op) { return op == OP_lw || op == OP_sw ? 4 : op == OP_lh || op == OP_lhu || op == OP_sh ? 2 : 1; }

static const struct instr *fetch(uint32_t pc) {
    uint32_t at = pc - START;
    return at % 4 == 0 && at / 4 < length ? &code[at / 4] : NULL;
}

static uint32_t extended(int op, uint32_t raw) {
    return op == OP_lb ? (uint32_t)(int8_t)raw : op == OP_lh ? (uint32_t)(int16_t)raw : raw;
}

static uint32_t half_of_pair(int op, bool high, uint32_t a, uint32_t b) {
    int64_t product = (int64_t)(int32_t)a * (int32_t)b;
    uint64_t whole = op == OP_mult ? (uint64_t)product : (uint64_t)a * b;
    if (op == OP_mult || op == OP_multu) return (uint32_t)(high ? whole >> 32 : whole);
    if (b == 0) return high ? a : 0;
    if (op == OP_divu) return high ? a % b : a / b;
    int64_t x = (int32_t)a, y = (int32_t)b;
    return (uint32_t)(high ? x % y : x / y);
}

static struct outcome value(uint32_t v) { return (struct outcome){ VALUE, v }; }
static struct outcome next(uint32_t pc) { return (struct outcome){ NEXT, pc }; }
static struct outcome stops(enum stop code) { return (struct outcome){ STOPS, code }; }
static struct outcome fits(int64_t sum) { return sum == (int32_t)sum ? value((uint32_t)sum) : stops(OVERFLOW); }

static struct outcome outcome_of(const struct instr *i, bool high, uint32_t pc, uint32_t a, uint32_t b) {
    int64_t x = (int32_t)a, y = (int32_t)b, m = (int32_t)i->n;
    uint32_t on = pc + 4, at = a + i->n;
    switch (i->op) {
    case OP_addu: return value(a + b);
    case OP_subu: return value(a - b);
    case OP_add: return fits(x + y);
    case OP_sub: return fits(x - y);
    case OP_and: return value(a & b);
    case OP_or: return value(a | b);
    case OP_xor: return value(a ^ b);
    case OP_nor: return value(~(a | b));
    case OP_slt: return value(x < y);
    case OP_sltu: return value(a < b);
    case OP_sllv: return value(a << (b & 31));
    case OP_srlv: return value(a >> (b & 31));
    case OP_srav: return value((uint32_t)((int32_t)a >> (b & 31)));
    case OP_sll: return value(a << i->n);
    case OP_srl: return value(a >> i->n);
    case OP_sra: return value((uint32_t)((int32_t)a >> i->n));
    case OP_addiu: return value(at);
    case OP_addi: return fits(x + m);
    case OP_slti: return value(x < m);
    case OP_sltiu: return value(a < i->n);
    case OP_andi: return value(a & i->n);
    case OP_ori: return value(a | i->n);
    case OP_xori: return value(a ^ i->n);
    case OP_lui: return value(i->n << 16);
    case OP_beq: return next(a == b ? i->n : on);
    case OP_bne: return next(a != b ? i->n : on);
    case OP_blez: return next(x <= 0 ? i->n : on);
    case OP_bgtz: return next(x > 0 ? i->n : on);
    case OP_bltz: return next(x < 0 ? i->n : on);
    case OP_bgez: return next(x >= 0 ? i->n : on);
    case OP_j: case OP_jal: return next(i->n);
    case OP_jr: case OP_jalr: return next(a);
    case OP_break: return stops(BREAK);
    case OP_nop: return value(0);
    case OP_mult: case OP_multu: case OP_div: case OP_divu: return value(half_of_pair(i->op, high, a, b));
    case OP_mflo: case OP_mfhi: case OP_mtlo: case OP_mthi: return value(a);
    default:
        if (at % width(i->op) != 0) return stops(UNALIGNED);
        if ((uint64_t)at + width(i->op) > size) return stops(OUT_OF_RANGE);
        return (struct outcome){ ADDRESS, at };
    }
}

/* The committed state, of the interpreter and of the commit side. */
struct committed { uint32_t r[REGISTERS], pc; uint64_t n; uint8_t *memory; };

static void begin(struct committed *c) {
    memset(c, 0, sizeof *c);
    c->pc = START;
    c->memory = malloc(size + 4);
    memcpy(c->memory, start, size);
}

static uint32_t number_at(const struct committed *c, uint32_t at, uint32_t bytes) {
    uint32_t v = 0;
    memcpy(&v, c->memory + at, bytes);
    return v;
}

static void advance(struct committed *c, uint32_t d, uint32_t v, uint32_t pc) {
    if (d != 0) c->r[d] = v;
    c->pc = pc;
    c->n++;
}

static enum stop interpret(struct committed *c, uint64_t limit) {
    while (c->n < limit) {
        const struct instr *i = fetch(c->pc);
        if (!i) return BAD_PC;
        uint32_t a = c->r[i->s], b = c->r[i->t], on = c->pc + 4;
        struct outcome o = outcome_of(i, false, c->pc, a, b);
        if (o.is == STOPS) return o.value;
        if (o.is == NEXT) advance(c, i->d, on, o.value);
        else if (is_load(i->op)) advance(c, i->d, extended(i->op, number_at(c, o.value, width(i->op))), on);
        else if (is_store(i->op)) memcpy(c->memory + o.value, &b, width(i->op)), advance(c, 0, 0, on);
        else if (is_pair(i->op)) c->r[HI] = half_of_pair(i->op, true, a, b), advance(c, LO, o.value, on);
        else advance(c, i->d, o.value, on);
    }
    return LIMIT;
}

/* The table of words: stations, infos, operands, links. */
static uint32_t ring, queue;
static _Atomic uint64_t *table;

#ifdef PADDED
enum { APART = 16 };
#else
enum { APART = 1 };
#endif

static _Atomic uint64_t *station_at(uint32_t s) { return table + APART * s; }
static _Atomic uint64_t *info_at(uint32_t s) { return table + APART * ring + s; }
static _Atomic uint64_t *operand_at(uint32_t s, uint32_t k) { return table + (APART + 1) * ring + 2 * s + k; }
static _Atomic uint64_t *link_at(uint32_t p, uint32_t c, uint32_t k) { return table + (APART + 3) * ring + 2 * (p * ring + c) + k; }

static uint64_t word(uint32_t tag, uint32_t state, uint32_t v) { return (uint64_t)tag << 36 | (uint64_t)state << 32 | v; }
static uint32_t tag_in(uint64_t w) { return w >> 36; }
static uint32_t state_in(uint64_t w) { return w >> 32 & 15; }
static uint32_t value_in(uint64_t w) { return (uint32_t)w; }
static uint64_t link_word(uint32_t producer, uint32_t consumer) { return (uint64_t)producer << 36 | (uint64_t)consumer << 8; }
static uint32_t wrapped(uint32_t s) { return s < ring ? s : s - ring; }

/* One try; what was found. */
static uint64_t exchange(_Atomic uint64_t *at, uint64_t old, uint64_t new) {
    atomic_compare_exchange_strong(at, &old, new);
    return old;
}

/* The queue of hints: a bounded queue as that of crossbeam. */
#ifdef TOGETHER
struct slot { _Atomic uint64_t stamp; _Atomic uint32_t value; };
static _Atomic uint32_t *value_of(struct slot *slot) { return &slot->value; }
#else
struct slot { _Atomic uint64_t stamp; };
static _Alignas(64) _Atomic uint64_t values[2 * MOST_RING];
static _Atomic uint64_t *value_of(struct slot *slot);
#endif
static struct { _Alignas(128) _Atomic uint64_t head; _Alignas(128) _Atomic uint64_t tail; _Alignas(128) uint64_t capacity, lap; struct slot *slots; } hints;

#ifndef TOGETHER
static _Atomic uint64_t *value_of(struct slot *slot) { return &values[slot - hints.slots]; }
#endif

static void make_hints(void) {
    hints.capacity = 2 * ring;
    for (hints.lap = 1; hints.lap < hints.capacity + 1;) hints.lap *= 2;
    hints.slots = calloc(hints.capacity, sizeof *hints.slots);
    for (uint64_t i = 0; i < hints.capacity; i++) atomic_init(&hints.slots[i].stamp, i);
}

static uint64_t behind(uint64_t at) {
    uint64_t index = at & (hints.lap - 1);
    return index + 1 < hints.capacity ? at + 1 : (at & ~(hints.lap - 1)) + hints.lap;
}

static void push(uint32_t station) {
#ifndef NO_HINTS
    uint64_t tail = atomic_load(&hints.tail);
    for (;;) {
        struct slot *slot = &hints.slots[tail & (hints.lap - 1)];
        uint64_t stamp = atomic_load(&slot->stamp);
        if (stamp == tail) {
            if (atomic_compare_exchange_strong(&hints.tail, &tail, behind(tail))) {
                atomic_store_explicit(value_of(slot), station, memory_order_relaxed);
                atomic_store(&slot->stamp, tail + 1);
                return;
            }
        } else if (stamp + hints.lap == tail + 1) {
            if (atomic_load(&hints.head) + hints.lap == tail) return;
            tail = atomic_load(&hints.tail);
        } else {
            tail = atomic_load(&hints.tail);
        }
    }
#else
    (void)station;
#endif
}

#ifndef NO_HINTS
static bool try_pop(uint32_t *station, uint64_t *head) {
    struct slot *slot = &hints.slots[*head & (hints.lap - 1)];
    if (atomic_load(&slot->stamp) != *head + 1) return false;
    uint64_t old = *head;
    if (!atomic_compare_exchange_strong(&hints.head, &old, behind(*head))) return false;
    *station = atomic_load_explicit(value_of(slot), memory_order_relaxed);
    atomic_store(&slot->stamp, *head + hints.lap);
    return true;
}
#endif

static bool pop(uint32_t *station) {
#ifndef NO_HINTS
    uint64_t head = atomic_load(&hints.head);
    if (try_pop(station, &head)) return true;
    for (;;) {
        head = atomic_load(&hints.head);
        if (atomic_load(&hints.tail) == head) return false;
        if (try_pop(station, &head)) return true;
    }
#else
    (void)station;
    return false;
#endif
}

/* The totals, each on a line of the cache of its own. */
enum total { LETS, CLAIMS, FINISHES, STALE, LOADED, RETIRES, SQUASHES, MENDS, HINTS, TOTALS };
static struct { _Alignas(64) _Atomic uint64_t n; } totals[TOTALS];
struct gathered { uint64_t of[TOTALS]; uint32_t left; };

static void add(struct gathered *g) {
    static const enum total mine[] = { LETS, CLAIMS, FINISHES, STALE, SQUASHES, MENDS, HINTS };
    for (size_t i = 0; i < sizeof mine / sizeof *mine; i++) {
        atomic_fetch_add(&totals[mine[i]].n, g->of[mine[i]]);
        g->of[mine[i]] = 0;
    }
    g->left = 64;
}

static void count(struct gathered *g, enum total of, uint64_t k) {
    g->of[of] += k;
    if (g->left == 0) add(g); else g->left--;
}

/* What the threads share beside the table. */
static struct {
    _Atomic bool closed;
    _Atomic uint64_t news, called;
    uint64_t most;
    uint32_t units;
} shared;

static void wake(_Atomic uint64_t *at) { syscall(SYS_futex, at, FUTEX_WAKE_PRIVATE, INT32_MAX, NULL, NULL, 0); }
static void park(_Atomic uint64_t *at, uint64_t old) { syscall(SYS_futex, at, FUTEX_WAIT_PRIVATE, (uint32_t)old, NULL, NULL, 0); }
static bool is_closed(void) { return atomic_load_explicit(&shared.closed, memory_order_acquire); }

static void call(void) {
    atomic_fetch_add_explicit(&shared.called, 1, memory_order_release);
    wake(&shared.called);
}

static void tell(void) {
    atomic_fetch_add_explicit(&shared.news, 1, memory_order_release);
    wake(&shared.news);
}

struct rest { uint32_t after, left; };
static struct rest patience(uint32_t turns) { return (struct rest){ turns, turns }; }

static void rest(struct rest *r) {
    if (r->left == 0) {
        sched_yield();
        r->left = r->after;
    } else {
        r->left--;
    }
}

/* Snapshots: two copies, and what each reader is at. */
struct snap { uint64_t n; uint32_t pc, r[REGISTERS]; };
static struct { struct snap copies[2]; _Alignas(128) _Atomic int shown; _Alignas(128) _Atomic uint64_t epoch; uint64_t seen; } snaps;

static void show(const struct committed *c) {
    int shown = atomic_load(&snaps.shown);
    while (snaps.seen % 2 == 1 && atomic_load(&snaps.epoch) == snaps.seen) sched_yield();
    struct snap *to = &snaps.copies[!shown];
    to->n = c->n, to->pc = c->pc;
    memcpy(to->r, c->r, sizeof to->r);
    atomic_store(&snaps.shown, !shown);
    snaps.seen = atomic_load(&snaps.epoch);
}

static struct snap take(void) {
    atomic_fetch_add(&snaps.epoch, 1);
    struct snap found = snaps.copies[atomic_load(&snaps.shown)];
    atomic_fetch_add(&snaps.epoch, 1);
    return found;
}

static void *watch(void *none) {
    uint64_t last = 0;
    for (;;) {
        uint64_t news = atomic_load_explicit(&shared.news, memory_order_acquire);
        bool closed = is_closed();
        struct snap snap = take();
        if (snap.n < last) abort();
        last = snap.n;
        if (closed) return none;
        park(&shared.news, news);
    }
}

/* The front: records of the tenants whose stations were not let again, and the create vector. */
struct record { uint32_t station, tag, pc, next; uint8_t destination; bool links, first, access, guessed; };
struct maker { bool is; uint32_t station, tag; };
struct saved { uint32_t tag; uint8_t destination; bool has_made; uint32_t made; struct maker replaced; };

static struct front {
    struct record records[MOST_RING];
    uint32_t head, live;
    uint32_t base[REGISTERS], base_pc;
    struct maker entries[REGISTERS];
    struct saved latest[MOST_RING];
    uint8_t counters[2048];
} front;

static struct record *record(uint32_t at) { return &front.records[wrapped(front.head + at)]; }

static uint32_t guess(const struct instr *i, uint32_t pc) {
    if (i->op == OP_j || i->op == OP_jal) return i->n;
    if (OP_beq <= i->op && i->op <= OP_bgez) return front.counters[pc / 4 % 2048] >= 2 ? i->n : pc + 4;
    return pc + 4;
}

static void train(uint32_t pc, uint32_t to) {
    uint8_t *counter = &front.counters[pc / 4 % 2048];
    if (to == pc + 4) *counter -= *counter > 0; else *counter += *counter < 3;
}

static void release(uint32_t left) {
    if (front.live < ring) return;
    struct record *oldest = record(0);
    if (oldest->destination != 0) front.base[oldest->destination] = oldest->links ? oldest->pc + 4 : left;
    front.head = wrapped(front.head + 1);
    front.live--;
    if (oldest->guessed) train(oldest->pc, oldest->next);
}

struct supply { bool is_known; uint32_t value, station, tag; };

static struct supply supply(uint32_t own, uint32_t r) {
    struct supply known = { true, front.base[r], 0, 0 };
    if (r == 0 || !front.entries[r].is) return known;
    struct maker maker = front.entries[r];
    struct saved *saved = &front.latest[maker.station];
    if (saved->tag != maker.tag || maker.station == own) return known;
    if (saved->has_made) return (struct supply){ true, saved->made, 0, 0 };
    return (struct supply){ false, 0, maker.station, maker.tag };
}

static uint64_t operand_word(uint32_t tag, struct supply s) { return s.is_known ? word(tag, VAL, s.value) : word(tag, WAIT, 0); }

static void ask(uint32_t station, uint32_t tag, uint32_t k, struct supply from) {
    if (from.is_known) return;
    atomic_store(link_at(from.station, station, k), link_word(from.tag, tag));
    uint64_t found = atomic_load(station_at(from.station));
    if (state_in(found) != FREE && state_in(found) != DONE) return;
    exchange(operand_at(station, k), word(tag, WAIT, 0), word(tag, VAL, value_in(found)));
}

static uint32_t let_out(uint32_t station, uint32_t index, bool high, uint32_t predicted, struct supply first, struct supply second) {
    uint32_t tag = tag_in(atomic_load(station_at(station)));
    atomic_store(info_at(station), (uint64_t)(index | (uint32_t)high << 31) << 32 | predicted);
    atomic_store(operand_at(station, 0), operand_word(tag, first));
    atomic_store(operand_at(station, 1), operand_word(tag, second));
    atomic_store(station_at(station), word(tag, OPEN, 0));
    return tag;
}

static bool queue_is_full(const struct instr *i) {
    if (!is_access(i->op)) return false;
    uint32_t left = queue - 1;
    for (uint32_t at = front.live; at-- > 0;) {
        if (!record(at)->access) continue;
        if (left == 0) return state_in(atomic_load(station_at(record(at)->station))) != FREE;
        left--;
    }
    return false;
}

static void enter(const struct record *newest) {
    struct maker replaced = front.entries[newest->destination];
    front.records[wrapped(front.head + front.live++)] = *newest;
    front.latest[newest->station] = (struct saved){ newest->tag, newest->destination, newest->links, newest->pc + 4, replaced };
    if (newest->destination != 0) front.entries[newest->destination] = (struct maker){ true, newest->station, newest->tag };
}

static bool turn_of_front(struct gathered *g) {
    struct record *last = front.live ? record(front.live - 1) : NULL;
    uint32_t station = last ? wrapped(last->station + 1) : 0, pc = last ? last->next : front.base_pc;
    bool high = last && last->first;
    uint64_t ahead = atomic_load(station_at(station));
    if (state_in(ahead) != FREE) return false;
    const struct instr *i = fetch(pc);
    if (!i || queue_is_full(i) || tag_in(ahead) == LAST_TAG) return false;
    release(value_in(ahead));
    bool is_first = is_pair(i->op) && !high;
    uint32_t predicted = is_first ? pc : guess(i, pc);
    struct supply first = supply(station, i->s), second = supply(station, i->t);
    uint32_t tag = let_out(station, (pc - START) / 4, high, predicted, first, second);
    uint8_t destination = is_pair(i->op) ? (high ? HI : LO) : i->d;
    struct record newest = { station, tag, pc, predicted, destination, is_link(i->op), is_first, is_access(i->op), is_guessed(i->op) };
    enter(&newest);
    ask(station, tag, 0, first);
    ask(station, tag, 1, second);
    count(g, LETS, 1);
    push(station);
    return true;
}

static void squash(uint32_t to) {
    while (front.live > to) {
        uint32_t station = record(--front.live)->station;
        uint32_t tag = tag_in(atomic_load(station_at(station)));
        atomic_exchange(station_at(station), word(tag + 1, FREE, 0));
        struct saved *saved = &front.latest[station];
        if (saved->destination != 0) front.entries[saved->destination] = saved->replaced;
    }
}

static bool recover(struct gathered *g) {
    for (uint32_t at = 0; at < front.live; at++) {
        struct record *r = record(at);
        if (r->access || !(r->links || r->destination == 0)) continue;
        uint64_t seen = atomic_load(station_at(r->station));
        if (state_in(seen) != MISS) continue;
        uint32_t squashed = front.live - at - 1;
        squash(at + 1);
        uint64_t found = atomic_load(station_at(r->station));
        atomic_exchange(station_at(r->station), word(tag_in(found), DONE, value_in(found)));
        r->next = value_in(seen);
        count(g, SQUASHES, squashed);
        count(g, MENDS, 1);
        return true;
    }
    return false;
}

static void *dispatch(void *none) {
    struct gathered g = { .left = 64 };
    struct rest idle = patience(4);
    while (!is_closed()) {
        if (recover(&g) || turn_of_front(&g)) idle.left = idle.after; else rest(&idle);
    }
    add(&g);
    return none;
}

/* A value goes along the links of its station; a bit for each station that got it. */
static uint32_t walk(uint32_t station, uint32_t tag, uint32_t v) {
    uint32_t woken = 0;
    for (uint32_t to = 0; to < ring; to++)
        for (uint32_t k = 0; k < 2; k++) {
            uint64_t link = atomic_load(link_at(station, to, k));
            if (tag_in(link) != tag) continue;
            uint32_t consumer = link >> 8 & 0xfffffff;
            uint64_t old = word(consumer, WAIT, 0);
            if (exchange(operand_at(to, k), old, word(consumer, VAL, v)) == old) woken |= 1u << to;
        }
    atomic_load(station_at(station));
    return woken;
}

static void hint_each(uint32_t woken) {
    for (uint32_t s = 0; s < ring; s++)
        if (woken >> s & 1) push(s);
}

/* A unit. */
struct job { uint32_t station, tag, index, predicted, a, b; bool high; };

static bool source(uint32_t station, uint32_t tag, uint32_t k, uint32_t *v) {
    uint64_t found = atomic_load(operand_at(station, k));
    *v = value_in(found);
    return tag_in(found) == tag && state_in(found) == VAL;
}

static bool claim(uint32_t station, struct job *job) {
    uint64_t found = atomic_load(station_at(station));
    if (state_in(found) != OPEN) return false;
    uint32_t tag = tag_in(found);
    uint64_t info = atomic_load(info_at(station));
    if (atomic_load(station_at(station)) != word(tag, OPEN, 0)) return false;
    *job = (struct job){ .station = station, .tag = tag, .index = info >> 32 & 0x7fffffff, .predicted = (uint32_t)info, .high = info >> 63 };
    if (!source(station, tag, 0, &job->a)) return false;
    if (!is_store(code[job->index].op) && !source(station, tag, 1, &job->b)) return false;
    return exchange(station_at(station), word(tag, OPEN, 0), word(tag, BUSY, 0)) == word(tag, OPEN, 0);
}

static bool finish(const struct job *job, uint32_t *woken) {
    struct outcome o = outcome_of(&code[job->index], job->high, START + 4 * job->index, job->a, job->b);
    uint32_t state = o.is == VALUE ? DONE : o.is == ADDRESS ? ADDR : o.is == STOPS ? STOP : o.value == job->predicted ? DONE : MISS;
    uint64_t old = word(job->tag, BUSY, 0);
    *woken = 0;
    if (exchange(station_at(job->station), old, word(job->tag, state, o.value)) != old) return false;
    if (o.is == VALUE) *woken = walk(job->station, job->tag, o.value);
    return true;
}

static void found_work(struct gathered *g, uint32_t *row, bool hinted) {
    count(g, CLAIMS, 1);
    if (hinted) count(g, HINTS, 1);
    if (*row < 2 * ring) {
        ++*row;
    } else {
        *row = 0;
        if (atomic_load_explicit(&shared.called, memory_order_acquire) < shared.most) call();
    }
}

static void *work(void *number) {
    uint64_t unit = (uintptr_t)number, called;
    while ((called = atomic_load_explicit(&shared.called, memory_order_acquire)) < unit && !is_closed()) park(&shared.called, called);
    struct gathered g = { .left = 64 };
    struct rest idle = patience(ring / 2);
    uint32_t at = 0, row = 0;
    while (!is_closed()) {
        uint32_t station = at, woken;
        bool hinted = pop(&station);
        if (!hinted) at = wrapped(at + 1);
        struct job job;
        if (!claim(station, &job)) {
            if (!hinted) row = 0;
            rest(&idle);
            continue;
        }
        idle.left = idle.after;
        found_work(&g, &row, hinted);
        if (!finish(&job, &woken)) {
            count(&g, STALE, 1);
            continue;
        }
        count(&g, FINISHES, 1);
        hint_each(woken);
    }
    add(&g);
    return NULL;
}

/* The commit side. */
static struct { struct committed state; uint32_t head; bool waits; uint32_t low; } back;
enum committed_is { RETIRED, HALF, NOTHING, ENDED };

static enum committed_is commit(enum stop *code_of) {
    struct committed *c = &back.state;
    const struct instr *i = fetch(c->pc);
    if (!i) return *code_of = BAD_PC, ENDED;
    uint64_t found = atomic_load(station_at(back.head));
    uint32_t state = state_in(found), tag = tag_in(found), v = value_in(found), data = 0;
    if (state != ADDR && state != DONE && state != STOP) return NOTHING;
    bool high = atomic_load(info_at(back.head)) >> 63;
    if (state == ADDR) {
        if (!is_store(i->op)) return NOTHING;
        uint64_t operand = atomic_load(operand_at(back.head, 1));
        if (state_in(operand) != VAL) return NOTHING;
        data = value_in(operand);
    }
    atomic_exchange(station_at(back.head), word(tag + 1, FREE, state == ADDR ? 0 : v));
    back.head = wrapped(back.head + 1);
    if (state == STOP) return *code_of = v, ENDED;
    if (is_pair(i->op) && !high) return back.waits = true, back.low = v, HALF;
    if (back.waits) c->r[LO] = back.low, back.waits = false;
    if (state == ADDR) memcpy(c->memory + v, &data, width(i->op)), advance(c, 0, 0, c->pc + 4);
    else if (is_branch(i->op)) advance(c, i->d, c->pc + 4, v);
    else advance(c, is_pair(i->op) ? HI : i->d, v, c->pc + 4);
    return RETIRED;
}

/* The value of a load whose older stores are known. */
static bool answer(uint32_t at, const struct instr *i, uint32_t address, uint32_t *v) {
    uint64_t end = (uint64_t)address + width(i->op);
    uint32_t from = 0, base = 0, bytes = 0;
    bool is_found = false;
    for (uint32_t k = at; k-- > 0;) {
        uint32_t s = wrapped(back.head + k);
        uint32_t index = atomic_load(info_at(s)) >> 32 & 0x7fffffff;
        uint64_t seen = atomic_load(station_at(s));
        if (index >= length || !is_store(code[index].op)) continue;
        if (state_in(seen) != ADDR) return false;
        uint32_t w = width(code[index].op);
        if (is_found || value_in(seen) >= end || address >= (uint64_t)value_in(seen) + w) continue;
        is_found = true, from = s, base = value_in(seen), bytes = w;
    }
    if (!is_found) return *v = number_at(&back.state, address, width(i->op)), true;
    uint64_t data = atomic_load(operand_at(from, 1));
    if (state_in(data) != VAL || base > address || end > (uint64_t)base + bytes) return false;
    *v = value_in(data) >> 8 * (address - base) & (uint32_t)(0xffffffffu >> (32 - 8 * width(i->op)));
    return true;
}

static bool refresh(uint32_t *woken) {
    for (uint32_t at = 0; at < ring; at++) {
        uint32_t s = wrapped(back.head + at), v;
        uint64_t seen = atomic_load(station_at(s));
        if (state_in(seen) != ADDR) continue;
        uint32_t index = atomic_load(info_at(s)) >> 32 & 0x7fffffff;
        if (index >= length || !is_load(code[index].op) || (uint64_t)value_in(seen) + width(code[index].op) > size) continue;
        if (!answer(at, &code[index], value_in(seen), &v)) {
            atomic_load(station_at(s));
            continue;
        }
        v = extended(code[index].op, v);
        uint64_t old = word(tag_in(seen), ADDR, value_in(atomic_load(station_at(s))));
        if (exchange(station_at(s), old, word(tag_in(seen), DONE, v)) != old) continue;
        *woken = walk(s, tag_in(seen), v);
        return true;
    }
    return false;
}

static enum stop commit_all(uint64_t limit) {
    struct rest idle = patience(4);
    for (;;) {
        if (back.state.n >= limit) return LIMIT;
        enum stop code_of;
        enum committed_is is = commit(&code_of);
        if (is == ENDED) return code_of;
        bool worked = is != NOTHING;
        if (is == RETIRED) {
            atomic_fetch_add(&totals[RETIRES].n, 1);
            if (back.state.n % 64 == 0) {
                show(&back.state);
                for (int i = 0; i < TOTALS; i++) atomic_load(&totals[i].n);
                tell();
            }
        }
        uint32_t woken;
        if (refresh(&woken)) {
            atomic_fetch_add(&totals[LOADED].n, 1);
            hint_each(woken);
            worked = true;
        }
        if (worked) idle.left = idle.after; else rest(&idle);
    }
}

static void spawn(pthread_t *thread, void *(*of)(void *), uintptr_t number) {
    if (pthread_create(thread, NULL, of, (void *)number) != 0) exit(5);
}

static enum stop run(uint64_t limit) {
    pthread_t watcher, dispatcher, units[MOST_UNITS];
    begin(&back.state);
    front.base_pc = START;
    memset(front.counters, 1, sizeof front.counters);
    table = aligned_alloc(64, (8 * ((APART + 3) * ring + 2 * ring * ring) + 63) / 64 * 64);
    for (uint32_t i = 0; i < (APART + 3) * ring + 2 * ring * ring; i++) atomic_init(&table[i], 0);
    for (uint32_t s = 0; s < ring; s++) atomic_init(station_at(s), word(1, FREE, 0));
    make_hints();
    long processors = sysconf(_SC_NPROCESSORS_ONLN);
    shared.most = processors < 3 ? 1 : processors > 66 ? 64 : (uint64_t)processors - 2;
    atomic_store(&shared.called, 1);
    spawn(&watcher, watch, 0);
    spawn(&dispatcher, dispatch, 0);
    for (uint32_t unit = 0; unit < shared.units; unit++) spawn(&units[unit], work, unit + 1);
    enum stop code_of = commit_all(limit);
    show(&back.state);
    atomic_store_explicit(&shared.closed, true, memory_order_release);
    tell();
    call();
    pthread_join(dispatcher, NULL);
    for (uint32_t unit = 0; unit < shared.units; unit++) pthread_join(units[unit], NULL);
    pthread_join(watcher, NULL);
    return code_of;
}

static void read_numbers(const char *name) {
    FILE *file = fopen(name, "r");
    char word_of[16];
    if (!file || fscanf(file, "memory %u", &size) != 1) exit(5);
    start = calloc(size + 4, 1);
    code = malloc(16384 * sizeof *code);
    while (fscanf(file, "%15s", word_of) == 1) {
        unsigned d, s, t, n, op = 0;
        if (strcmp(word_of, "word") == 0) {
            if (fscanf(file, "%u %u", &d, &n) != 2) exit(2);
            memcpy(start + d, &n, 4);
            continue;
        }
        while (op < OPS && strcmp(words[op], word_of) != 0) op++;
        if (op == OPS || length == 16384 || fscanf(file, "%u %u %u %u", &d, &s, &t, &n) != 4) exit(2);
        code[length++] = (struct instr){ op, d, s, t, n };
    }
    fclose(file);
}

int main(int count_of, char **arguments) {
    if (count_of < 4) return 3;
    shared.units = atoi(arguments[2]);
    uint64_t limit = strtoull(arguments[3], NULL, 10);
    ring = count_of > 4 ? atoi(arguments[4]) : 16;
    queue = count_of > 5 ? atoi(arguments[5]) : 8;
    if (shared.units < 1 || shared.units > MOST_UNITS || ring < 2 || ring > MOST_RING) return 3;
    read_numbers(arguments[1]);
    struct timespec from, to;
    clock_gettime(CLOCK_MONOTONIC, &from);
    enum stop code_of = run(limit);
    clock_gettime(CLOCK_MONOTONIC, &to);
    struct committed wanted;
    begin(&wanted);
    enum stop wanted_code = interpret(&wanted, limit);
    if (code_of != wanted_code || back.state.n != wanted.n || back.state.pc != wanted.pc ||
        memcmp(back.state.r, wanted.r, sizeof wanted.r) != 0 || memcmp(back.state.memory, wanted.memory, size) != 0) {
        fprintf(stderr, "twin: another end: stop %d %d count %llu %llu\n", code_of, wanted_code, (unsigned long long)back.state.n, (unsigned long long)wanted.n);
        return 1;
    }
    printf("%.0f %llu", (to.tv_sec - from.tv_sec) * 1e6 + (to.tv_nsec - from.tv_nsec) / 1e3, (unsigned long long)back.state.n);
    for (int i = 0; i < TOTALS; i++) printf(" %llu", (unsigned long long)atomic_load(&totals[i].n));
    printf("\n");
    return 0;
}
