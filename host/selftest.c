/*
 * selftest.c - check the calls of libplungerowl.a against docs/FORMATS.md.
 *
 * Usage: selftest [--first] [TEST]
 *
 * A right check prints nothing, a wrong one prints a line; with --first the
 * first wrong one is the last. TEST is the one test to be run (test_TEST
 * below), else all are. The last line gives the counts. Exit status: 0 all
 * right, 1 something wrong, 2 out of memory or wrong usage.
 *
 * Beside the lent buffers stand copies of what should be in them. After every
 * call all bytes are compared with the copies: sizes, tails of longer buffers,
 * and guard bytes. All tests run three times: with guard bytes on both sides of
 * each buffer, record and piece, and with a page that must not even be read
 * right before and right behind them. So with the balances, which are numbers:
 * each call is made twice, with other numbers in them before. A join has ten
 * lent buffers, and the copies of the two benches do not change.
 */
#define _DEFAULT_SOURCE
#include <inttypes.h>
#include <stdarg.h>
#include <stdint.h>
#include <stdio.h>
#include <stdlib.h>
#include <string.h>
#include <sys/mman.h>
#include <unistd.h>

#include "guarded.h"
#include "plungerowl.h"

/* Short names for the desk. */
#define CLOSED_AT PLUNGEROWL_CLOSED_AT
#define STATES_AT PLUNGEROWL_STATES_AT
#define DEPTHS_AT PLUNGEROWL_DEPTHS_AT
#define MARKS_AT PLUNGEROWL_MARKS_AT
#define HELD_AT PLUNGEROWL_HELD_AT
#define ORIGINS_AT PLUNGEROWL_ORIGINS_AT
#define ACCEPTED_AT PLUNGEROWL_ACCEPTED_AT
#define DECLARED_AT PLUNGEROWL_DECLARED_AT
#define PROGRESS_AT PLUNGEROWL_PROGRESS_AT
#define KEPT_AT PLUNGEROWL_KEPT_AT
#define SINCE_AT PLUNGEROWL_SINCE_AT
#define CORES PLUNGEROWL_CORES
#define FRAMES PLUNGEROWL_FRAMES
#define DEPTH PLUNGEROWL_MAX_DEPTH
#define MOST_IN_PROGRESS PLUNGEROWL_MAX_IN_PROGRESS
#define MOST_KEPT PLUNGEROWL_MAX_KEPT
#define HISTORY_SIZE PLUNGEROWL_HISTORY_SIZE

/* For the slip: bytes of a dependency, and how many of them are compared. */
#define ENTRY PLUNGEROWL_ENTRY_SIZE
#define TRIPLE 3
#define TRIPLES_SIZE(n) (1 + TRIPLE * (size_t)(n))

/* And for the feed. */
#define ANSWER_AT PLUNGEROWL_FEED_ANSWER_AT
#define OPENED_AT PLUNGEROWL_FEED_OPENED_AT
#define COUNT_AT PLUNGEROWL_FEED_COUNT_AT
#define LOOSE_AT PLUNGEROWL_FEED_LOOSE_AT
#define NUMBER_AT PLUNGEROWL_FEED_NUMBER_AT
#define FEED_SIZE PLUNGEROWL_FEED_SIZE
#define MOST_LOOSE PLUNGEROWL_MOST_LOOSE
#define HEADER_SIZE PLUNGEROWL_HEADER_SIZE
#define LONG_HEADER_SIZE PLUNGEROWL_LONG_HEADER_SIZE
#define RECORD_SIZE PLUNGEROWL_RECORD_SIZE

/* And for the balance. */
#define CLASSES PLUNGEROWL_MAX_CLASSES
#define MOST_RECORDS PLUNGEROWL_MAX_PIECE_RECORDS
#define MOST_BYTES PLUNGEROWL_MAX_PIECE_SIZE

#define FILL 0x5A /* what is in the buffers before the first call */
#define GUARD_WORD UINT64_C(0x123456789ABCDEF0)
#define GUARD_COUNT 99
#define BIT(i) ((uint64_t)1 << (i))

enum { ACQUIRE = 0, RELEASE = 1, HARD_ON = 2, HARD_OFF = 3, SOFT_ON = 4,
       SOFT_OFF = 5, ENTER_SOFT = 6, EXIT_SOFT = 7, ENTER_HARD = 8,
       EXIT_HARD = 9, CROSS = 10, COMMIT = 11, UNCROSS = 12, KINDS_OF_RECORDS };
/* Modes; TRY + E and so on are those of a successful try. */
enum { E = 0, r = 1, R = 2, TRY = 3, MODES = 6 };

static unsigned long checks;
static unsigned long failures;
static int only_first;
static int open_met[256], step_met[256], ask_met[256];
static int start_met[256], feed_met[256], end_met[256];
static int balance_met[256], join_met[256];

static void check(int right, const char *format, ...)
{
    va_list values;

    checks++;
    if (right)
        return;
    failures++;
    printf("wrong: ");
    va_start(values, format);
    vprintf(format, values);
    va_end(values);
    printf("\n");
    if (only_first)
        exit(1);
}

/* ----------------------------------------------------------- the buffers */

static enum { GUARD_BOTH, FENCE_BEFORE, FENCE_BEHIND } sides;

struct buffers {
    unsigned k;
    uint64_t declared; /* with which they are opened */
    struct guarded desk, sheet, seen, history, slip;
    struct guarded want_desk, want_sheet, want_seen, want_history, want_slip;
};

static void need(int right)
{
    if (right)
        return;
    fprintf(stderr, "selftest: out of memory\n");
    exit(2);
}

/* The pages of a buffer with a guard, without the fence pages around them. */
static size_t fenced_size(size_t size)
{
    size_t page = (size_t)sysconf(_SC_PAGESIZE);

    return (size + GUARD_SIZE + page - 1) / page * page;
}

/* A buffer with a fence page right before or behind it, a guard opposite. */
static int fenced_make(struct guarded *g, size_t size)
{
    size_t page = (size_t)sysconf(_SC_PAGESIZE);
    size_t inner = fenced_size(size);
    uint8_t *pages = mmap(NULL, page + inner + page, PROT_NONE,
                          MAP_PRIVATE | MAP_ANONYMOUS, -1, 0);

    if (pages == MAP_FAILED
        || mprotect(pages + page, inner, PROT_READ | PROT_WRITE) != 0)
        return 0;
    g->size = size;
    g->before = sides == FENCE_BEFORE ? 0 : GUARD_SIZE;
    g->behind = sides == FENCE_BEHIND ? 0 : GUARD_SIZE;
    g->bytes = pages + page + (sides == FENCE_BEFORE ? 0 : inner - size);
    guarded_fill(g, FILL);
    return 1;
}

static void make_lent(struct guarded *g, size_t size)
{
    need(sides == GUARD_BOTH ? guarded_make(g, size, FILL)
                             : fenced_make(g, size));
}

static void free_lent(struct guarded *g)
{
    size_t page = (size_t)sysconf(_SC_PAGESIZE);
    size_t inner = fenced_size(g->size);
    uint8_t *first = sides == FENCE_BEFORE ? g->bytes
                                           : g->bytes + g->size - inner;

    if (sides == GUARD_BOTH)
        guarded_free(g);
    else
        munmap(first - page, page + inner + page);
}

/* Buffers of the given sizes, to be used with k classes. */
static void make_all(struct buffers *b, unsigned k, size_t desk, size_t sheet,
                     size_t seen, size_t history, size_t slip)
{
    b->k = k;
    b->declared = 0;
    make_lent(&b->desk, desk);
    make_lent(&b->sheet, sheet);
    make_lent(&b->seen, seen);
    make_lent(&b->history, history);
    make_lent(&b->slip, slip);
    need(guarded_make(&b->want_desk, desk, FILL)
         && guarded_make(&b->want_sheet, sheet, FILL)
         && guarded_make(&b->want_seen, seen, FILL)
         && guarded_make(&b->want_history, history, FILL)
         && guarded_make(&b->want_slip, slip, FILL));
}

static void make_sized(struct buffers *b, unsigned k, size_t desk, size_t sheet,
                       size_t seen, size_t slip)
{
    make_all(b, k, desk, sheet, seen, HISTORY_SIZE, slip);
}

/* Buffers for k classes, each longer than needed by the given tail. */
static void make_buffers(struct buffers *b, unsigned k, size_t tail)
{
    make_all(b, k, PLUNGEROWL_DESK_SIZE + tail,
             PLUNGEROWL_SHEET_SIZE(k) + tail, PLUNGEROWL_SEEN_SIZE(k) + tail,
             HISTORY_SIZE + tail, PLUNGEROWL_SLIP_SIZE(k) + tail);
}

static void free_buffers(struct buffers *b)
{
    free_lent(&b->desk);
    free_lent(&b->sheet);
    free_lent(&b->seen);
    free_lent(&b->history);
    free_lent(&b->slip);
    guarded_free(&b->want_desk);
    guarded_free(&b->want_sheet);
    guarded_free(&b->want_seen);
    guarded_free(&b->want_history);
    guarded_free(&b->want_slip);
}

/* The origin bit of a place: of all places in a row, eight to a byte, the first
 * in the lowest bit. */
static size_t origin_at(unsigned frame, unsigned place)
{
    return ORIGINS_AT + (DEPTH * frame + place) / 8;
}

static unsigned origin_bit(unsigned frame, unsigned place)
{
    return 1u << (DEPTH * frame + place) % 8;
}

static int origin_of(const uint8_t *desk, unsigned frame, unsigned place)
{
    return (desk[origin_at(frame, place)] & origin_bit(frame, place)) != 0;
}

static void set_origin(uint8_t *desk, unsigned frame, unsigned place, int tried)
{
    if (tried)
        desk[origin_at(frame, place)] |= (uint8_t)origin_bit(frame, place);
    else
        desk[origin_at(frame, place)] &= (uint8_t)~origin_bit(frame, place);
}

/* A number of four bytes, low byte first: the count on the desk, the number of
 * a pair of classes in the second sheet, and that of an entry in the slip. */
static uint32_t low_first(const uint8_t *at)
{
    return at[0] + 256 * (at[1] + 256 * (at[2] + (uint32_t)256 * at[3]));
}

static void set_low_first(uint8_t *at, uint32_t number)
{
    unsigned i;

    for (i = 0; i < PLUNGEROWL_NUMBER_SIZE; i++, number /= 256)
        at[i] = (uint8_t)(number % 256);
}

/* A word of eight bytes, low byte first: which classes are crosslocks, and
 * which of them are in progress. */
static uint64_t word_at(const uint8_t *at)
{
    return low_first(at) | (uint64_t)low_first(at + 4) << 32;
}

static void set_word(uint8_t *at, uint64_t word)
{
    set_low_first(at, (uint32_t)word);
    set_low_first(at + 4, (uint32_t)(word >> 32));
}

/* Where the number of a pair is. */
static size_t seen_at(unsigned k, unsigned from, unsigned to)
{
    return 4 * ((size_t)from * k + to);
}

/* Write one byte, one origin bit or one number in a buffer and in its copy. */
static void put_desk(struct buffers *b, size_t at, unsigned value)
{
    b->desk.bytes[at] = b->want_desk.bytes[at] = (uint8_t)value;
}

static void put_origin(struct buffers *b, unsigned frame, unsigned place,
                       int tried)
{
    set_origin(b->desk.bytes, frame, place, tried);
    set_origin(b->want_desk.bytes, frame, place, tried);
}

static void put_count(struct buffers *b, uint32_t count)
{
    set_low_first(b->desk.bytes + ACCEPTED_AT, count);
    set_low_first(b->want_desk.bytes + ACCEPTED_AT, count);
}

static void put_word(struct buffers *b, size_t at, uint64_t word)
{
    set_word(b->desk.bytes + at, word);
    set_word(b->want_desk.bytes + at, word);
}

/* How many entries are kept, or, at the place of a class, how many were. */
static void put_entries(struct buffers *b, size_t at, uint32_t entries)
{
    set_low_first(b->desk.bytes + at, entries);
    set_low_first(b->want_desk.bytes + at, entries);
}

static void put_entry(struct buffers *b, unsigned entry, unsigned place,
                      unsigned lock)
{
    uint8_t *at = b->history.bytes + 2 * entry;
    uint8_t *want = b->want_history.bytes + 2 * entry;

    at[0] = want[0] = (uint8_t)place;
    at[1] = want[1] = (uint8_t)lock;
}

static void put_seen(struct buffers *b, unsigned from, unsigned to,
                     uint32_t number)
{
    size_t at = seen_at(b->k, from, to);

    set_low_first(b->seen.bytes + at, number);
    set_low_first(b->want_seen.bytes + at, number);
}

/* The sheet byte alone. */
static void put_kinds(struct buffers *b, unsigned from, unsigned to,
                      unsigned value)
{
    size_t at = (size_t)from * b->k + to;

    b->sheet.bytes[at] = b->want_sheet.bytes[at] = (uint8_t)value;
}

/* The sheet byte, and the number that a fit pair needs with it: one of its own,
 * all of whose bytes count. The desk's count stays, and is mostly lower. */
static void put_sheet(struct buffers *b, unsigned from, unsigned to,
                      unsigned value)
{
    uint32_t number = value == 0 ? 0 : 1 + 0x00010203 * (64 * from + to);

    put_kinds(b, from, to, value);
    put_seen(b, from, to, number);
}

static void check_buffer(const struct guarded *is, const struct guarded *want,
                         const char *name, const char *what)
{
    size_t i = 0;

    if (memcmp(is->bytes, want->bytes, is->size) == 0)
        i = is->size;
    while (i < is->size && is->bytes[i] == want->bytes[i])
        i++;
    check(i == is->size, "%s: %s byte %lu", what, name, (unsigned long)i);
    check(guarded_intact(is), "%s: bytes around the %s", what, name);
}

static void check_buffers(const struct buffers *b, const char *what)
{
    check_buffer(&b->desk, &b->want_desk, "desk", what);
    check_buffer(&b->sheet, &b->want_sheet, "sheet", what);
    check_buffer(&b->seen, &b->want_seen, "second sheet", what);
    check_buffer(&b->history, &b->want_history, "history", what);
    check_buffer(&b->slip, &b->want_slip, "slip", what);
}

/* ------------------------------------- what an accepted record should do */

static const int next_state[9][8] = {
    { 0, 2, 0, 1, 4, -1, 6, -1 },
    { 1, 3, 0, 1, -1, -1, 7, -1 },
    { 0, 2, 2, 3, -1, -1, -1, -1 },
    { 1, 3, 2, 3, -1, -1, -1, -1 },
    { 4, 5, -1, -1, -1, 0, 8, -1 },
    { 4, 5, -1, -1, -1, -1, -1, -1 },
    { -1, -1, -1, -1, -1, -1, -1, 0 },
    { -1, -1, -1, -1, -1, -1, -1, 1 },
    { -1, -1, -1, -1, -1, -1, -1, 4 }
};

/* Frames that may have held locks: task in every state, soft in 4, 5, 8, hard
 * in 6 to 8. */
static const int frames_fit[3][9] = {
    { 1, 1, 1, 1, 1, 1, 1, 1, 1 },
    { 0, 0, 0, 0, 1, 1, 0, 0, 1 },
    { 0, 0, 0, 0, 0, 0, 1, 1, 1 }
};

static unsigned frame_of(unsigned core, unsigned state)
{
    return 3 * core + (state <= 3 ? 0 : state <= 5 ? 1 : 2);
}

static unsigned current_frame(const uint8_t *desk, unsigned core)
{
    return frame_of(core, desk[STATES_AT + core]);
}

static unsigned kind_of(unsigned held_mode, unsigned acquire_mode)
{
    if (held_mode == E)
        return acquire_mode == R ? PLUNGEROWL_ER : PLUNGEROWL_EN;
    return acquire_mode == R ? PLUNGEROWL_SR : PLUNGEROWL_SN;
}

/* A record more is accepted. */
static void want_count(struct buffers *b)
{
    uint8_t *count = b->want_desk.bytes + ACCEPTED_AT;

    set_low_first(count, low_first(count) + 1);
}

/* By the record that the count has got to. */
static void want_dependency(struct buffers *b, unsigned from, unsigned to,
                            unsigned kind)
{
    uint8_t *number = b->want_seen.bytes + seen_at(b->k, from, to);

    b->want_sheet.bytes[from * b->k + to] |= (uint8_t)kind;
    if (low_first(number) == 0)
        set_low_first(number, low_first(b->want_desk.bytes + ACCEPTED_AT));
}

/* An acquire is kept. */
static void want_kept(struct buffers *b, unsigned frame, unsigned class_,
                      unsigned mode)
{
    uint8_t *kept = b->want_desk.bytes + KEPT_AT;
    uint8_t *entry = b->want_history.bytes + 2 * (size_t)low_first(kept);

    entry[0] = (uint8_t)(1 + frame);
    entry[1] = (uint8_t)(class_ + 64 * mode);
    set_low_first(kept, low_first(kept) + 1);
}

static void want_acquire(struct buffers *b, unsigned frame, unsigned class_,
                         unsigned mode)
{
    uint8_t *depth = b->want_desk.bytes + DEPTHS_AT + frame;
    uint8_t *held = b->want_desk.bytes + HELD_AT + DEPTH * frame;
    unsigned i;

    for (i = 0; i < *depth && mode < TRY; i++)
        want_dependency(b, held[i] % 64, class_, kind_of(held[i] / 64, mode));
    held[*depth] = (uint8_t)(class_ + 64 * (mode % TRY));
    set_origin(b->want_desk.bytes, frame, *depth, mode >= TRY);
    *depth += 1;
    if (mode < TRY && word_at(b->want_desk.bytes + PROGRESS_AT) != 0)
        want_kept(b, frame, class_, mode);
}

/* The mode in which the lock at a place was acquired. */
static unsigned mode_at(const uint8_t *desk, unsigned frame, unsigned place)
{
    return desk[HELD_AT + DEPTH * frame + place] / 64u
           + (origin_of(desk, frame, place) ? TRY : 0);
}

/* That of the newest lock of a class in a frame, with which its release fits;
 * MODES if there is none. */
static unsigned newest_mode(const uint8_t *desk, unsigned frame,
                            unsigned class_)
{
    unsigned i = desk[DEPTHS_AT + frame];

    while (i-- > 0)
        if (desk[HELD_AT + DEPTH * frame + i] % 64 == class_)
            return mode_at(desk, frame, i);
    return MODES;
}

static void want_release(struct buffers *b, unsigned frame, unsigned class_,
                         unsigned mode)
{
    uint8_t *desk = b->want_desk.bytes;
    uint8_t *depth = desk + DEPTHS_AT + frame;
    uint8_t *held = desk + HELD_AT + DEPTH * frame;
    unsigned i = *depth - 1u, newest = newest_mode(desk, frame, class_);

    check(newest == mode, "a release of class %u in mode %u is expected, where "
          "%u is held", class_, mode, newest);
    if (newest == MODES)
        return;
    while (held[i] % 64 != class_)
        i--;
    for (; i + 1 < *depth; i++) {
        held[i] = held[i + 1];
        set_origin(desk, frame, i, origin_of(desk, frame, i + 1));
    }
    held[i] = 0;
    set_origin(desk, frame, i, 0);
    *depth -= 1;
}

static unsigned mark_of(unsigned state, unsigned mode, int tried)
{
    unsigned safe = tried ? 0 : mode == R ? 2 : 1;
    unsigned unsafe = mode == E ? 4 : 8;
    unsigned mark = 0;

    if (state >= 6)
        mark |= safe;
    if (state == 4 || state == 5)
        mark |= 16 * safe;
    if (state == 0 || state == 1 || state == 4)
        mark |= unsafe;
    if (state == 0)
        mark |= 16 * unsafe;
    return mark;
}

static void want_marks(struct buffers *b, unsigned core)
{
    uint8_t *desk = b->want_desk.bytes;
    unsigned frame = current_frame(desk, core);
    unsigned i;

    for (i = 0; i < desk[DEPTHS_AT + frame]; i++) {
        unsigned held = desk[HELD_AT + DEPTH * frame + i];

        desk[MARKS_AT + held % 64]
            |= (uint8_t)mark_of(desk[STATES_AT + core], held / 64,
                                origin_of(desk, frame, i));
    }
}

/* A crosslock is acquired: from every lock that the frame holds. */
static void want_cross(struct buffers *b, unsigned frame, unsigned class_)
{
    uint8_t *desk = b->want_desk.bytes;
    const uint8_t *held = desk + HELD_AT + DEPTH * frame;
    unsigned i;

    for (i = 0; i < desk[DEPTHS_AT + frame]; i++)
        want_dependency(b, held[i] % 64, class_, kind_of(held[i] / 64, E));
    set_word(desk + PROGRESS_AT, word_at(desk + PROGRESS_AT) | BIT(class_));
    memcpy(desk + SINCE_AT + 4 * class_, desk + KEPT_AT, 4);
}

static void want_commit(struct buffers *b, unsigned frame, unsigned class_)
{
    const uint8_t *desk = b->want_desk.bytes;
    uint32_t i, kept = low_first(desk + KEPT_AT);

    for (i = low_first(desk + SINCE_AT + 4 * class_); i < kept; i++) {
        const uint8_t *entry = b->want_history.bytes + 2 * (size_t)i;

        if (entry[0] == 1 + frame)
            want_dependency(b, class_, entry[1] % 64,
                            kind_of(E, entry[1] / 64));
    }
}

static void want_uncross(struct buffers *b, unsigned class_)
{
    uint8_t *desk = b->want_desk.bytes;
    uint64_t others = word_at(desk + PROGRESS_AT) & ~BIT(class_);

    set_word(desk + PROGRESS_AT, others);
    if (others == 0)
        set_low_first(desk + KEPT_AT, 0);
}

/* A handler ends, and what it acquired is struck out. */
static void want_struck_out(struct buffers *b, unsigned frame)
{
    uint32_t i, kept = low_first(b->want_desk.bytes + KEPT_AT);

    for (i = 0; i < kept; i++)
        if (b->want_history.bytes[2 * i] == 1 + frame)
            memset(b->want_history.bytes + 2 * i, 0, 2);
}

static void want_accepted(struct buffers *b, const uint8_t *record)
{
    uint8_t *state = b->want_desk.bytes + STATES_AT + record[2];
    unsigned frame = current_frame(b->want_desk.bytes, record[2]);

    want_count(b);
    switch (record[3]) {
    case ACQUIRE: want_acquire(b, frame, record[4], record[5]); break;
    case RELEASE: want_release(b, frame, record[4], record[5]); break;
    case CROSS: want_cross(b, frame, record[4]); break;
    case COMMIT: want_commit(b, frame, record[4]); break;
    case UNCROSS: want_uncross(b, record[4]); break;
    case EXIT_SOFT:
    case EXIT_HARD: want_struck_out(b, frame); /* fall through */
    default: *state = (uint8_t)next_state[*state][record[3] - 2]; break;
    }
    want_marks(b, record[2]);
}

/* ------------------------------------------------------- the least cycle */

/* The four kinds and the three sources, in the order of the slip's bytes. */
enum { KINDS = 4, SOURCES = 3 };

static int starts_s(unsigned kind)
{
    return kind == PLUNGEROWL_SR || kind == PLUNGEROWL_SN;
}

static int ends_r(unsigned kind)
{
    return kind == PLUNGEROWL_ER || kind == PLUNGEROWL_SR;
}

static int is_strong(unsigned kind, unsigned next)
{
    return !(ends_r(kind) && starts_s(next));
}

/* By the copies of desk and sheet. */
static unsigned classes_of(const struct buffers *b)
{
    return b->want_desk.bytes[0];
}

static int has_dependency(const struct buffers *b, unsigned from, unsigned to,
                          unsigned kind, unsigned source)
{
    const uint8_t *marks = b->want_desk.bytes + MARKS_AT;
    unsigned level = source == PLUNGEROWL_SOURCE_SOFT ? 16 : 1;
    unsigned unsafe = level * (starts_s(kind) ? 8 : 4);
    unsigned safe = level * (ends_r(kind) ? 2 : 1);

    if (source == PLUNGEROWL_SOURCE_HOLD)
        return (b->want_sheet.bytes[from * classes_of(b) + to] & kind) != 0;
    return (marks[from] & unsafe) != 0 && (marks[to] & safe) != 0;
}

/* A cycle is looked for as triples, a slip with no numbers in it: n, and then
 * class, kind, source for each dependency, which is all that is compared.
 *
 * They are tried in their order, first those with one dependency, then those
 * with two and so on; the first that is a cycle is the one. What cannot end in
 * time is not gone into: back[c][s][i][r] has the classes from which i
 * dependencies lead to class c. The cycle begins with S if s is 1, and what
 * comes before those i ends with R if r is 1. */
struct least {
    const struct buffers *b;
    uint64_t ends[64][KINDS]; /* of the dependencies from a class */
    uint64_t back[64][2][64][2];
    uint8_t triples[TRIPLES_SIZE(64)];
};

static void find_ends(struct least *l)
{
    unsigned from, to, kind, source, k = classes_of(l->b);

    memset(l->ends, 0, sizeof l->ends);
    for (from = 0; from < k; from++)
        for (to = 0; to < k; to++)
            for (kind = 0; kind < KINDS; kind++)
                for (source = 0; source < SOURCES; source++)
                    if (has_dependency(l->b, from, to, 1u << kind, source))
                        l->ends[from][kind] |= BIT(to);
}

static int leads_back(const struct least *l, unsigned class_, unsigned kind,
                      uint64_t back[2])
{
    return (l->ends[class_][kind] & back[ends_r(1u << kind)]) != 0;
}

/* The row for i dependencies, from that for one less. */
static void find_back(struct least *l, unsigned c, unsigned s, unsigned i)
{
    uint64_t (*back)[2] = l->back[c][s];
    unsigned class_, kind;

    back[i][0] = i == 0 ? BIT(c) : 0;
    back[i][1] = i == 0 && !s ? BIT(c) : 0;
    for (class_ = 0; i > 0 && class_ < classes_of(l->b); class_++) {
        for (kind = 0; kind < KINDS; kind++) {
            if (!leads_back(l, class_, kind, back[i - 1]))
                continue;
            back[i][0] |= BIT(class_);
            if (!starts_s(1u << kind))
                back[i][1] |= BIT(class_);
        }
    }
}

/* The triples from number i on, the first of them from the class; passed has
 * the classes before, and this one. */
static int finish_triples(struct least *l, unsigned i, unsigned class_,
                          uint64_t passed)
{
    const uint8_t *first = l->triples + 1;
    uint8_t *entry = l->triples + TRIPLES_SIZE(i);
    unsigned left = l->triples[0] - 1u - i, rank, to;

    entry[0] = (uint8_t)class_;
    for (rank = 0; rank < KINDS * SOURCES; rank++) {
        unsigned kind = 1u << rank / SOURCES, source = rank % SOURCES;
        uint64_t back;

        if (i > 0 && !is_strong(entry[-2], kind))
            continue;
        entry[1] = (uint8_t)kind;
        entry[2] = (uint8_t)source;
        back = l->back[first[0]][starts_s(first[1])][left][ends_r(kind)];
        for (to = first[0]; to < classes_of(l->b); to++) {
            if (!(back & BIT(to))
                || !has_dependency(l->b, class_, to, kind, source))
                continue;
            if (left == 0
                || (!(passed & BIT(to))
                    && finish_triples(l, i + 1, to, passed | BIT(to))))
                return 1;
        }
    }
    return 0;
}

/* The least cycle of what the copies of desk and sheet have, as triples; its
 * number of dependencies is 0 if there is none. */
static const uint8_t *least_cycle(const struct buffers *b)
{
    static struct least l;
    unsigned n, c;

    l.b = b;
    find_ends(&l);
    for (n = 1; n <= classes_of(b); n++) {
        for (c = 0; c < classes_of(b); c++) {
            find_back(&l, c, 0, n - 1);
            find_back(&l, c, 1, n - 1);
        }
        l.triples[0] = (uint8_t)n;
        for (c = 0; c < classes_of(b); c++)
            if (finish_triples(&l, 0, c, BIT(c)))
                return l.triples;
    }
    l.triples[0] = 0;
    return l.triples;
}

/* Write a cycle as a slip, with the numbers that the copy of the second sheet
 * has: none for a dependency by marks. */
static void write_slip(uint8_t *slip, const struct buffers *b,
                       const uint8_t *triples)
{
    unsigned n = triples[0], i;

    slip[0] = (uint8_t)n;
    for (i = 0; i < n; i++) {
        const uint8_t *from = triples + TRIPLES_SIZE(i);
        const uint8_t *to = triples + TRIPLES_SIZE((i + 1) % n);
        uint8_t *entry = slip + 1 + ENTRY * i;

        memcpy(entry, from, TRIPLE);
        set_low_first(entry + TRIPLE, from[2] != PLUNGEROWL_SOURCE_HOLD ? 0
                      : low_first(b->want_seen.bytes
                                  + seen_at(classes_of(b), from[0], to[0])));
    }
}

/* Put the least cycle into the slip's copy. */
static void want_cycle(struct buffers *b, const char *what)
{
    const uint8_t *triples = least_cycle(b);

    check(triples[0] > 0, "%s: a fault, but no cycle is drawn", what);
    if (triples[0] > 0)
        write_slip(b->want_slip.bytes, b, triples);
}

/* ------------------------------------------------------ calls with checks */

static void expect_open_all(struct buffers *b, uint64_t classes,
                            size_t desk_len, size_t sheet_len, size_t seen_len,
                            size_t history_len, unsigned answer,
                            const char *what)
{
    unsigned is;

    if (answer == 0) {
        memset(b->want_desk.bytes, 0, PLUNGEROWL_DESK_SIZE);
        b->want_desk.bytes[0] = (uint8_t)classes;
        set_word(b->want_desk.bytes + DECLARED_AT, b->declared);
        memset(b->want_sheet.bytes, 0, PLUNGEROWL_SHEET_SIZE(classes));
        memset(b->want_seen.bytes, 0, PLUNGEROWL_SEEN_SIZE(classes));
        memset(b->want_history.bytes, 0, HISTORY_SIZE);
    }
    is = plungerowl_open(classes, b->declared, b->desk.bytes, desk_len,
                         b->sheet.bytes, sheet_len, b->seen.bytes, seen_len,
                         b->history.bytes, history_len);
    open_met[is] = 1;
    check(is == answer, "%s: open answers %u, not %u", what, is, answer);
    check_buffers(b, what);
}

static void expect_open_lengths(struct buffers *b, uint64_t classes,
                                size_t desk_len, size_t sheet_len,
                                size_t seen_len, unsigned answer,
                                const char *what)
{
    expect_open_all(b, classes, desk_len, sheet_len, seen_len, b->history.size,
                    answer, what);
}

static void expect_open(struct buffers *b, uint64_t classes, unsigned answer,
                        const char *what)
{
    expect_open_lengths(b, classes, b->desk.size, b->sheet.size, b->seen.size,
                        answer, what);
}

static void open_buffers(struct buffers *b, unsigned k, size_t tail)
{
    make_buffers(b, k, tail);
    expect_open(b, k, 0, "opening");
}

#define LONGEST_RECORD 12
#define LONGEST_PIECE 70000

/* A record or a piece of the length, lent with the bytes in it. */
static const struct guarded *lent_bytes(const uint8_t *bytes, size_t length)
{
    static struct guarded rooms[FENCE_BEHIND + 1], lent;
    struct guarded *room = &rooms[sides];

    if (room->bytes != NULL && room->size < length) {
        free_lent(room);
        room->bytes = NULL;
    }
    if (room->bytes == NULL)
        make_lent(room, length > LONGEST_PIECE ? length : LONGEST_PIECE);
    lent = *room;
    lent.size = length;
    if (sides == FENCE_BEHIND)
        lent.bytes += room->size - length;
    guarded_fill(&lent, FILL);
    memcpy(lent.bytes, bytes, length);
    return &lent;
}

/* Step with the first bytes of each buffer, and a record of its own. */
static unsigned call_step(struct buffers *b, size_t desk_len, size_t sheet_len,
                          size_t seen_len, size_t history_len, size_t slip_len,
                          const uint8_t *record, size_t length,
                          const char *what)
{
    const struct guarded *lent = lent_bytes(record, length);
    unsigned is = plungerowl_step(b->desk.bytes, desk_len,
                                  b->sheet.bytes, sheet_len,
                                  b->seen.bytes, seen_len,
                                  b->history.bytes, history_len,
                                  b->slip.bytes, slip_len,
                                  lent->bytes, length);

    step_met[is] = 1;
    check(memcmp(lent->bytes, record, length) == 0, "%s: the record", what);
    check(guarded_intact(lent), "%s: bytes around the record", what);
    return is;
}

static void expect_bytes(struct buffers *b, const uint8_t *record,
                         size_t length, unsigned answer, const char *what)
{
    unsigned is;

    if (answer <= 1)
        want_accepted(b, record);
    if (answer == 1) {
        b->want_desk.bytes[CLOSED_AT] = 1;
        want_cycle(b, what);
    }
    is = call_step(b, b->desk.size, b->sheet.size, b->seen.size,
                   b->history.size, b->slip.size, record, length, what);
    check(is == answer, "%s: step answers %u, not %u", what, is, answer);
    check_buffers(b, what);
}

static void expect_step(struct buffers *b, unsigned core, unsigned kind,
                        unsigned class_, unsigned mode, unsigned answer,
                        const char *what)
{
    uint8_t record[PLUNGEROWL_RECORD_SIZE] = { 0x4C, 0x4B };

    record[2] = (uint8_t)core;
    record[3] = (uint8_t)kind;
    record[4] = (uint8_t)class_;
    record[5] = (uint8_t)mode;
    expect_bytes(b, record, sizeof record, answer, what);
}

static void expect_ask_lengths(struct buffers *b, size_t desk_len,
                               size_t sheet_len, size_t seen_len,
                               uint64_t class_, unsigned answer, uint64_t word,
                               uint32_t count, const char *what)
{
    /* Guards before and behind word and count. */
    uint64_t words[3] = { GUARD_WORD, GUARD_WORD, GUARD_WORD };
    uint32_t counts[3] = { GUARD_COUNT, GUARD_COUNT, GUARD_COUNT };
    unsigned is = plungerowl_ask(b->desk.bytes, desk_len,
                                 b->sheet.bytes, sheet_len,
                                 b->seen.bytes, seen_len,
                                 class_, &words[1], &counts[1]);

    ask_met[is] = 1;
    check(is == answer, "%s: ask answers %u, not %u", what, is, answer);
    check(words[1] == word, "%s: word %" PRIx64 ", not %" PRIx64, what,
          words[1], word);
    check(counts[1] == count, "%s: count %" PRIu32 ", not %" PRIu32, what,
          counts[1], count);
    check(words[0] == GUARD_WORD && words[2] == GUARD_WORD
          && counts[0] == GUARD_COUNT && counts[2] == GUARD_COUNT,
          "%s: bytes around word and count", what);
    check_buffers(b, what);
}

static void expect_reach(struct buffers *b, uint64_t class_, uint64_t word,
                         uint32_t count, const char *what)
{
    expect_ask_lengths(b, b->desk.size, b->sheet.size, b->seen.size, class_, 0,
                       word, count, what);
}

static void expect_no_reach(struct buffers *b, uint64_t class_, unsigned answer,
                            const char *what)
{
    expect_ask_lengths(b, b->desk.size, b->sheet.size, b->seen.size, class_,
                       answer, 0, 0, what);
}

/* ---------------------------------------------------------------- opening */

static void test_sizes(void)
{
    check(CLOSED_AT == 1 && STATES_AT == 2 && DEPTHS_AT == 10 && MARKS_AT == 34
          && HELD_AT == 98 && ORIGINS_AT == 1250 && ACCEPTED_AT == 1394
          && DECLARED_AT == 1398 && PROGRESS_AT == 1406 && KEPT_AT == 1414
          && SINCE_AT == 1418, "places on the desk");
    check(PLUNGEROWL_DESK_SIZE == 1674, "desk size");
    check(PLUNGEROWL_HISTORY_SIZE == 512, "history size");
    check(PLUNGEROWL_SHEET_SIZE(3 + 5) == 64, "sheet size");
    check(PLUNGEROWL_SEEN_SIZE(3 + 5) == 256, "size of the second sheet");
    check(PLUNGEROWL_SLIP_SIZE(3 + 5) == 57, "slip size");
    check(PLUNGEROWL_NUMBER_SIZE == 4 && PLUNGEROWL_ENTRY_SIZE == 7
          && PLUNGEROWL_WORD_SIZE == 8,
          "sizes of a number, of an entry and of a word");
    check(PLUNGEROWL_RECORD_SIZE == 6, "record size");
    check(ANSWER_AT == 0 && OPENED_AT == 1 && COUNT_AT == 2 && LOOSE_AT == 3
          && NUMBER_AT == 14 && FEED_SIZE == 22, "places in the feed");
    check(PLUNGEROWL_MOST_LOOSE == 11, "most loose bytes");
    check(PLUNGEROWL_MAX_PIECE_RECORDS == 10000
          && PLUNGEROWL_MAX_PIECE_SIZE == 60000, "the longest piece");
}

/* The names of plungerowl.h have the numbers of the format. */
static void test_numbers(void)
{
    static const unsigned answers[] = {
        PLUNGEROWL_OK, PLUNGEROWL_FAULT, PLUNGEROWL_BAD_OPENING,
        PLUNGEROWL_BAD_RECORD, PLUNGEROWL_BAD_CLASS, PLUNGEROWL_NOT_HELD,
        PLUNGEROWL_BAD_EVENT, PLUNGEROWL_STILL_HELD, PLUNGEROWL_FRAME_FULL,
        PLUNGEROWL_COUNT_FULL, PLUNGEROWL_CLOSED, PLUNGEROWL_UNFIT,
        PLUNGEROWL_OTHER_CLASSES, PLUNGEROWL_BENCH_CLOSED,
        PLUNGEROWL_BAD_PIECE, PLUNGEROWL_WRONG_SORT, PLUNGEROWL_IN_PROGRESS,
        PLUNGEROWL_NOT_IN_PROGRESS, PLUNGEROWL_LIST_FULL,
        PLUNGEROWL_HISTORY_FULL };
    static const unsigned kinds[] = {
        PLUNGEROWL_ACQUIRE, PLUNGEROWL_RELEASE, PLUNGEROWL_HARD_ON,
        PLUNGEROWL_HARD_OFF, PLUNGEROWL_SOFT_ON, PLUNGEROWL_SOFT_OFF,
        PLUNGEROWL_ENTER_SOFT, PLUNGEROWL_EXIT_SOFT, PLUNGEROWL_ENTER_HARD,
        PLUNGEROWL_EXIT_HARD, PLUNGEROWL_CROSS_ACQUIRE, PLUNGEROWL_COMMIT,
        PLUNGEROWL_CROSS_RELEASE };
    unsigned i;

    for (i = 0; i < sizeof answers / sizeof answers[0]; i++)
        check(answers[i] == i, "number of answer %u", i);
    for (i = 0; i < sizeof kinds / sizeof kinds[0]; i++)
        check(kinds[i] == i, "number of kind %u", i);
    check(PLUNGEROWL_EXCLUSIVE == 0 && PLUNGEROWL_NONRECURSIVE_READ == 1
          && PLUNGEROWL_RECURSIVE_READ == 2, "numbers of the modes");
    check(PLUNGEROWL_TRY_EXCLUSIVE == 3 && PLUNGEROWL_TRY_NONRECURSIVE_READ == 4
          && PLUNGEROWL_TRY_RECURSIVE_READ == 5, "numbers of the tries");
    check(PLUNGEROWL_ER == 1 && PLUNGEROWL_EN == 2 && PLUNGEROWL_SR == 4
          && PLUNGEROWL_SN == 8, "numbers of the dependency kinds");
    check(PLUNGEROWL_SOURCE_HOLD == 0 && PLUNGEROWL_SOURCE_HARD == 1
          && PLUNGEROWL_SOURCE_SOFT == 2, "numbers of the sources");
    check(PLUNGEROWL_MAX_CLASSES == 64 && PLUNGEROWL_CORES == 8
          && PLUNGEROWL_MAX_DEPTH == 48 && PLUNGEROWL_FRAMES == 24
          && PLUNGEROWL_PLACES == 1152 && PLUNGEROWL_HEADER_SIZE == 4
          && PLUNGEROWL_LONG_HEADER_SIZE == 12
          && PLUNGEROWL_MAX_IN_PROGRESS == 16 && PLUNGEROWL_MAX_KEPT == 256,
          "limits");
}

static void test_open_refused(void)
{
    static const uint64_t wrong[] = { 0, 65, 128, 255, 256, 257, 264,
                                      BIT(16) + 8, BIT(32), BIT(32) + 8,
                                      BIT(63) + 8, UINT64_MAX };
    const size_t desk_size = PLUNGEROWL_DESK_SIZE;
    struct buffers b;
    size_t i;

    make_buffers(&b, 8, 70000);
    for (i = 0; i < sizeof wrong / sizeof wrong[0]; i++)
        expect_open(&b, wrong[i], 2, "wrong K");
    expect_open_lengths(&b, 0, desk_size, 0, 0, 2, "K = 0, empty sheets");
    for (i = 1; i <= 64; i++)
        expect_open_lengths(&b, i, desk_size, i * i, 4 * i * i - 1, 2,
                            "a second sheet short by one");
    free_buffers(&b);

    make_buffers(&b, 8, 0);
    for (i = 0; i < desk_size; i++)
        expect_open_lengths(&b, 8, i, 64, 256, 2, "open, short desk");
    for (i = 0; i < 64; i++)
        expect_open_lengths(&b, 8, desk_size, i, 256, 2, "open, short sheet");
    for (i = 0; i < 256; i++)
        expect_open_lengths(&b, 8, desk_size, 64, i, 2,
                            "open, short second sheet");
    expect_open(&b, 9, 2, "sheets for fewer classes");
    expect_open(&b, 64, 2, "sheet of K bytes");
    free_buffers(&b);

    make_sized(&b, 9, desk_size, 81, 256, 0);
    expect_open(&b, 9, 2, "a second sheet for fewer classes");
    expect_open(&b, 8, 0, "sheets for more classes, and as many");
    free_buffers(&b);
}

static void test_open_accepted(void)
{
    static const size_t tails[] = { 0, 1, 100 };
    struct buffers b;
    unsigned k;
    size_t i;

    for (k = 1; k <= 64; k++) {
        for (i = 0; i < 3; i++) {
            open_buffers(&b, k, tails[i]);
            free_buffers(&b);
        }
    }
}

static void test_reopen(void)
{
    struct buffers b;

    open_buffers(&b, 8, 10);
    expect_step(&b, 0, ACQUIRE, 0, E, 0, "0E");
    expect_step(&b, 0, ACQUIRE, 1, TRY + E, 0, "0E, try 1E");
    expect_step(&b, 0, ACQUIRE, 0, E, 1, "0E, try 1E, 0E");
    expect_open(&b, 8, 0, "opening again");
    expect_step(&b, 0, ACQUIRE, 0, E, 0, "0E after opening again");
    free_buffers(&b);

    /* With fewer classes, what is past their sheets stays. */
    open_buffers(&b, 8, 0);
    expect_step(&b, 0, ACQUIRE, 7, E, 0, "7E");
    expect_step(&b, 0, ACQUIRE, 2, E, 0, "7E, 2E");
    expect_step(&b, 0, ACQUIRE, 0, E, 0, "7E, 2E, 0E");
    b.k = 3;
    expect_open(&b, 3, 0, "opening with fewer classes");
    check(b.sheet.bytes[7 * 8 + 2] == 2 && b.seen.bytes[4 * (7 * 8 + 2)] == 2,
          "opening with fewer classes: past their sheets");
    expect_step(&b, 0, ACQUIRE, 2, E, 0, "2E of fewer classes");
    free_buffers(&b);
}

/* ------------------------------------------------------- accepted records */

static void expect_p2(size_t tail)
{
    static const uint8_t cycle[] = { 2, 1, 2, 0, 2, 0, 0, 0, 2, 2, 0, 6, 0, 0,
                                     0, FILL, FILL, FILL, FILL, FILL, FILL,
                                     FILL };
    static const uint8_t sheet[] = { 0, 0, 0, 0, 0, 2, 0, 2, 0 };
    uint8_t seen[PLUNGEROWL_SEEN_SIZE(3)] = { 0 };
    uint8_t desk[PLUNGEROWL_DESK_SIZE] = { 3, 1 };
    struct buffers b;

    /* The example of docs/FORMATS.md, after its last record. */
    desk[13] = 2;
    desk[35] = desk[36] = 0x44;
    desk[242] = 2;
    desk[243] = 1;
    desk[1394] = 6;
    seen[20] = 2;
    seen[28] = 6;

    open_buffers(&b, 3, tail);
    expect_step(&b, 0, ACQUIRE, 1, E, 0, "P2 record 1");
    expect_step(&b, 0, ACQUIRE, 2, E, 0, "P2 record 2");
    expect_step(&b, 0, RELEASE, 2, E, 0, "P2 record 3");
    expect_step(&b, 0, RELEASE, 1, E, 0, "P2 record 4");
    expect_step(&b, 1, ACQUIRE, 2, E, 0, "P2 record 5");
    expect_reach(&b, 1, BIT(2), 1, "P2 before the fault, from 1");
    expect_reach(&b, 2, 0, 0, "P2 before the fault, from 2");
    expect_step(&b, 1, ACQUIRE, 1, E, 1, "P2 record 6");
    check(memcmp(b.desk.bytes, desk, sizeof desk) == 0, "P2: desk");
    check(memcmp(b.sheet.bytes, sheet, sizeof sheet) == 0, "P2: sheet");
    check(memcmp(b.seen.bytes, seen, sizeof seen) == 0, "P2: second sheet");
    check(memcmp(b.slip.bytes, cycle, sizeof cycle) == 0, "P2: slip");
    expect_reach(&b, 0, 0, 0, "P2 closed, from 0");
    expect_reach(&b, 1, BIT(1) | BIT(2), 2, "P2 closed, from 1");
    expect_reach(&b, 2, BIT(1) | BIT(2), 2, "P2 closed, from 2");
    expect_no_reach(&b, 3, 4, "P2 closed, from K");
    free_buffers(&b);
}

static void test_p2(void)
{
    expect_p2(0);
    expect_p2(50);
}

static void test_two_cycles(void)
{
    struct buffers b;

    open_buffers(&b, 8, 3);
    expect_step(&b, 0, ACQUIRE, 0, E, 0, "two cycles 1");
    expect_step(&b, 0, ACQUIRE, 1, E, 0, "two cycles 2");
    expect_step(&b, 0, ACQUIRE, 2, E, 0, "two cycles 3");
    expect_step(&b, 1, ACQUIRE, 2, E, 0, "two cycles 4");
    expect_step(&b, 1, ACQUIRE, 0, E, 1, "two cycles 5");
    free_buffers(&b);
}

/* A cycle through all 64 classes fills the slip. */
static void test_full_slip(void)
{
    struct buffers b;
    unsigned i;

    open_buffers(&b, 64, 0);
    for (i = 0; i < 63; i++) {
        expect_step(&b, 7, ACQUIRE, i, E, 0, "ring, first acquire");
        expect_step(&b, 7, ACQUIRE, i + 1, E, 0, "ring, second acquire");
        expect_step(&b, 7, RELEASE, i, E, 0, "ring, first release");
        expect_step(&b, 7, RELEASE, i + 1, E, 0, "ring, second release");
    }
    expect_reach(&b, 0, ~BIT(0), 63, "ring before the fault, from 0");
    expect_reach(&b, 62, BIT(63), 1, "ring before the fault, from 62");
    expect_step(&b, 7, ACQUIRE, 63, E, 0, "ring, last but one");
    expect_step(&b, 7, ACQUIRE, 0, E, 1, "ring, last");
    for (i = 0; i < 64; i++) {
        const uint8_t *entry = b.slip.bytes + 1 + ENTRY * i;

        check(entry[0] == i && entry[1] == 2 && entry[2] == 0,
              "ring: dependency %u", i);
        check(low_first(entry + 3) == 4 * i + 2, "ring: number %u", i);
    }
    expect_reach(&b, 31, UINT64_MAX, 64, "ring closed, from 31");
    expect_no_reach(&b, 64, 4, "ring closed, from 64");
    free_buffers(&b);
}

/* Releases in any order; the newest held lock of a class goes first. */
static void test_release_order(void)
{
    struct buffers b;

    open_buffers(&b, 8, 0);
    expect_step(&b, 3, ACQUIRE, 5, R, 0, "5R");
    expect_step(&b, 3, ACQUIRE, 6, r, 0, "6r");
    expect_step(&b, 3, ACQUIRE, 5, R, 0, "5R again");
    expect_step(&b, 3, ACQUIRE, 7, E, 0, "7E");
    expect_step(&b, 3, RELEASE, 5, R, 0, "release newest 5");
    expect_step(&b, 3, RELEASE, 6, r, 0, "release 6");
    expect_step(&b, 3, RELEASE, 5, R, 0, "release 5");
    expect_step(&b, 3, RELEASE, 5, R, 5, "release 5 once more");
    expect_step(&b, 3, RELEASE, 7, E, 0, "release 7");
    free_buffers(&b);
}

/* Held locks stay in their frames while handlers come and go. */
static void test_frames(void)
{
    struct buffers b;

    open_buffers(&b, 8, 0);
    expect_step(&b, 2, ACQUIRE, 0, r, 0, "task 0r");
    expect_step(&b, 2, ENTER_SOFT, 0, 0, 0, "enter soft");
    expect_step(&b, 2, RELEASE, 0, r, 5, "release 0 in soft");
    expect_step(&b, 2, ACQUIRE, 1, E, 0, "soft 1E");
    expect_step(&b, 2, ENTER_HARD, 0, 0, 0, "enter hard over soft");
    expect_step(&b, 2, RELEASE, 1, E, 5, "release 1 in hard");
    expect_step(&b, 2, ACQUIRE, 2, R, 0, "hard 2R");
    expect_step(&b, 2, EXIT_HARD, 0, 0, 7, "exit hard with 2R");
    expect_reach(&b, 0, BIT(1) | BIT(2), 2, "frames, from 0");
    expect_reach(&b, 1, BIT(2), 1, "frames, from 1");
    expect_step(&b, 2, RELEASE, 2, R, 0, "release 2");
    expect_step(&b, 2, EXIT_HARD, 0, 0, 0, "exit hard");
    expect_step(&b, 2, EXIT_SOFT, 0, 0, 7, "exit soft with 1E");
    expect_step(&b, 2, HARD_OFF, 0, 0, 0, "hard off in soft");
    expect_step(&b, 2, EXIT_SOFT, 0, 0, 6, "exit soft with hard off");
    expect_step(&b, 2, HARD_ON, 0, 0, 0, "hard on in soft");
    expect_step(&b, 2, RELEASE, 1, E, 0, "release 1");
    expect_step(&b, 2, EXIT_SOFT, 0, 0, 0, "exit soft");
    expect_step(&b, 2, RELEASE, 0, r, 0, "release 0");
    free_buffers(&b);
}

/* A held lock is marked in every later state of its core, not only at the
 * acquire. */
static void test_late_mark(void)
{
    struct buffers b;

    open_buffers(&b, 8, 0);
    expect_step(&b, 0, ENTER_HARD, 0, 0, 0, "late mark 1");
    expect_step(&b, 0, ACQUIRE, 4, E, 0, "late mark 2");
    expect_step(&b, 0, RELEASE, 4, E, 0, "late mark 3");
    expect_step(&b, 0, EXIT_HARD, 0, 0, 0, "late mark 4");
    expect_step(&b, 0, HARD_OFF, 0, 0, 0, "late mark 5");
    expect_step(&b, 0, ACQUIRE, 4, E, 0, "late mark 6");
    expect_step(&b, 0, HARD_ON, 0, 0, 1, "late mark 7");
    free_buffers(&b);
}

/* A fit desk that did not come from opening is validated as it stands. */
static void test_standing_cycle(void)
{
    struct buffers b;

    open_buffers(&b, 8, 0);
    put_sheet(&b, 3, 5, PLUNGEROWL_SN);
    put_sheet(&b, 5, 3, PLUNGEROWL_ER);
    put_sheet(&b, 5, 4, PLUNGEROWL_SN);
    put_sheet(&b, 4, 3, PLUNGEROWL_EN);
    expect_step(&b, 6, RELEASE, 0, E, 5, "standing cycle, refused");
    expect_step(&b, 6, HARD_ON, 0, 0, 1, "standing cycle, accepted");
    expect_step(&b, 6, HARD_ON, 0, 0, 10, "standing cycle, closed");
    free_buffers(&b);
}

/* ------------------------------------------------------- refused records */

/* Buffers with something in them: 1E held by core 0, sheet and marks not 0. */
static void open_used(struct buffers *b, size_t tail)
{
    open_buffers(b, 8, tail);
    expect_step(b, 0, ACQUIRE, 1, E, 0, "used, 1E");
    expect_step(b, 0, ACQUIRE, 2, R, 0, "used, 2R");
    expect_step(b, 0, RELEASE, 2, R, 0, "used, release 2");
}

static void test_refusal_3(void)
{
    uint8_t record[LONGEST_RECORD] = { 0x4C, 0x4B, 0, ACQUIRE, 3, E,
                                       0x4C, 0x4B };
    struct buffers b;
    unsigned i;

    open_used(&b, 5);
    for (i = 0; i <= sizeof record; i++)
        if (i != PLUNGEROWL_RECORD_SIZE)
            expect_bytes(&b, record, i, 3, "record of a wrong length");
    for (i = 0; i < 256; i++) {
        record[0] = (uint8_t)i;
        if (i != 0x4C)
            expect_bytes(&b, record, 6, 3, "wrong first byte");
    }
    record[0] = 0x4C;
    for (i = 0; i < 256; i++) {
        record[1] = (uint8_t)i;
        if (i != 0x4B)
            expect_bytes(&b, record, 6, 3, "wrong second byte");
    }
    for (i = 8; i < 256; i++)
        expect_step(&b, i, ACQUIRE, 3, E, 3, "core over 7");
    for (i = KINDS_OF_RECORDS; i < 256; i++)
        expect_step(&b, 0, i, 0, 0, 3, "kind over 12");
    for (i = MODES; i < 256; i++)
        expect_step(&b, 0, ACQUIRE, 3, i, 3, "mode over 5");
    for (i = MODES; i < 256; i++)
        expect_step(&b, 0, RELEASE, 1, i, 3, "release, mode over 5");
    for (i = HARD_ON; i <= EXIT_HARD; i++) {
        unsigned j;

        for (j = 1; j < 256; j++) {
            expect_step(&b, 0, i, j, 0, 3, "event with a class");
            expect_step(&b, 0, i, 0, j, 3, "event with a mode");
            expect_step(&b, 0, i, j, j, 3, "event with class and mode");
        }
    }
    free_buffers(&b);
}

static void test_refusal_4(void)
{
    struct buffers b;
    unsigned i;

    open_used(&b, 5);
    for (i = 8; i < 256; i++) {
        unsigned mode;

        for (mode = 0; mode < MODES; mode++) {
            expect_step(&b, 0, ACQUIRE, i, mode, 4, "acquire, class K or more");
            expect_step(&b, 0, RELEASE, i, mode, 4, "release, class K or more");
        }
    }
    free_buffers(&b);
}

static void test_refusal_5(void)
{
    struct buffers b;
    unsigned mode;

    open_used(&b, 5);
    for (mode = 0; mode < MODES; mode++) {
        expect_step(&b, 0, RELEASE, 0, mode, 5, "release, never held");
        expect_step(&b, 0, RELEASE, 2, mode, 5, "release, no longer held");
        expect_step(&b, 1, RELEASE, 1, mode, 5,
                    "release, held by another core");
        if (mode != E)
            expect_step(&b, 0, RELEASE, 1, mode, 5, "release, another mode");
    }
    expect_step(&b, 0, ENTER_HARD, 0, 0, 0, "enter hard");
    for (mode = 0; mode < MODES; mode++)
        expect_step(&b, 0, RELEASE, 1, mode, 5,
                    "release, held in another frame");
    free_buffers(&b);
}

/* Every state and event of the table. */
static void test_table(void)
{
    struct buffers b;
    unsigned core, state, event;

    open_buffers(&b, 8, 0);
    for (core = 0; core < 8; core++) {
        for (state = 0; state < 9; state++) {
            for (event = 0; event < 8; event++) {
                put_desk(&b, STATES_AT + core, state);
                expect_step(&b, core, event + 2, 0, 0,
                            next_state[state][event] < 0 ? 6 : 0, "table");
            }
        }
    }
    free_buffers(&b);
}

/* Put a held lock of the mode, class 1 to 3, into each frame that may have
 * one. */
static void put_held(struct buffers *b, unsigned core, unsigned state,
                      unsigned mode, int leaving)
{
    unsigned i;

    for (i = 0; i < 3; i++) {
        unsigned frame = 3 * core + i;
        int stands = frames_fit[i][state]
                     && !(leaving && frame == frame_of(core, state));

        put_desk(b, DEPTHS_AT + frame, stands);
        put_desk(b, HELD_AT + DEPTH * frame,
                 stands ? 1 + i + 64 * (mode % TRY) : 0);
        put_origin(b, frame, 0, stands && mode >= TRY);
        put_desk(b, MARKS_AT + 1 + i, 0);
    }
}

/* Every allowed event marks the held locks of the frame it leads to. */
static void test_table_marks(void)
{
    struct buffers b;
    unsigned mode, state, event;

    open_buffers(&b, 8, 0);
    for (mode = 0; mode < MODES; mode++) {
        for (state = 0; state < 9; state++) {
            for (event = 0; event < 8; event++) {
                if (next_state[state][event] < 0)
                    continue;
                put_desk(&b, STATES_AT + 4, state);
                put_held(&b, 4, state, mode, event == 5 || event == 7);
                expect_step(&b, 4, event + 2, 0, 0, 0, "table with held locks");
            }
        }
    }
    free_buffers(&b);
}

/* Acquires of every mode in every state, and the release after them; those that
 * do not fit mark nothing. */
static void test_acquire_marks(void)
{
    struct buffers b;
    unsigned mode, state, other;

    open_buffers(&b, 8, 0);
    for (mode = 0; mode < MODES; mode++) {
        for (state = 0; state < 9; state++) {
            put_desk(&b, STATES_AT + 5, state);
            put_desk(&b, MARKS_AT + 7, 0);
            expect_step(&b, 5, ACQUIRE, 7, mode, 0, "acquire in a state");
            put_desk(&b, MARKS_AT + 7, 0);
            for (other = 0; other < MODES; other++)
                if (other != mode)
                    expect_step(&b, 5, RELEASE, 7, other, 5,
                                "refused release in a state");
            expect_step(&b, 5, RELEASE, 7, mode, 0, "release in a state");
        }
    }
    free_buffers(&b);
}

/* Every pair of modes draws its own kind, and adds to what is there. */
static void test_kinds(void)
{
    struct buffers b;
    unsigned older, newer;

    open_buffers(&b, 8, 0);
    for (older = 0; older < MODES; older++) {
        for (newer = 0; newer < MODES; newer++) {
            unsigned middle = 3 + older % 3;

            expect_step(&b, 0, ACQUIRE, 2, older, 0, "older lock");
            expect_step(&b, 0, ACQUIRE, middle, newer, 0, "newer lock");
            expect_step(&b, 0, ACQUIRE, 6, newer, 0, "newest lock");
            expect_step(&b, 0, RELEASE, 2, older, 0, "release older");
            expect_step(&b, 0, RELEASE, middle, newer, 0, "release newer");
            expect_step(&b, 0, RELEASE, 6, newer, 0, "release newest");
        }
    }
    free_buffers(&b);
}

static void test_refusal_7(void)
{
    static const unsigned states[] = { 4, 6, 7, 8 };
    struct buffers b;
    unsigned i, mode;

    open_buffers(&b, 8, 0);
    for (i = 0; i < 4; i++) {
        for (mode = R; mode < MODES; mode++) {
            put_desk(&b, STATES_AT + 1, states[i]);
            put_desk(&b, MARKS_AT + 1, 0);
            expect_step(&b, 1, ACQUIRE, 1, mode, 0, "acquire in a handler");
            expect_step(&b, 1, i == 0 ? EXIT_SOFT : EXIT_HARD, 0, 0, 7,
                        "exit with a held lock");
            expect_step(&b, 1, RELEASE, 1, mode, 0, "release in a handler");
        }
    }
    free_buffers(&b);
}

static void test_refusal_8(void)
{
    static const unsigned states[] = { 0, 4, 8 };
    struct buffers b;
    unsigned i, j;

    open_buffers(&b, 8, 0);
    for (i = 0; i < 3; i++) {
        put_desk(&b, STATES_AT + 7, states[i]);
        for (j = 0; j < DEPTH; j++)
            expect_step(&b, 7, ACQUIRE, 0, R, 0, "fill the frame");
        for (j = 0; j < MODES; j++) {
            expect_step(&b, 7, ACQUIRE, 0, j, 8, "full frame");
            expect_step(&b, 7, ACQUIRE, 3, j, 8, "full frame, another class");
            expect_step(&b, 7, ACQUIRE, 8, j, 4, "full frame, class K");
        }
        expect_step(&b, 7, ACQUIRE, 3, MODES, 3, "full frame, mode 6");
    }
    expect_step(&b, 6, ACQUIRE, 0, R, 0, "another core's frame");
    expect_step(&b, 7, RELEASE, 0, r, 5, "another mode in a full frame");
    expect_step(&b, 7, RELEASE, 0, R, 0, "release in a full frame");
    expect_step(&b, 7, ACQUIRE, 0, R, 0, "fill the frame again");
    free_buffers(&b);
}

static void test_order(void)
{
    struct buffers b;

    open_buffers(&b, 8, 0);
    expect_step(&b, 0, ACQUIRE, 8, MODES, 3, "3 before 4");
    expect_step(&b, 0, RELEASE, 8, MODES, 3, "3 before 4, release");
    expect_step(&b, 0, RELEASE, 7, MODES, 3, "3 before 5");
    expect_step(&b, 0, RELEASE, 8, E, 4, "4 before 5");
    expect_step(&b, 0, RELEASE, 8, TRY + R, 4, "4 before 5, by a try");
    expect_step(&b, 0, HARD_ON, 0, R, 3, "an event with a mode");
    expect_step(&b, 0, EXIT_HARD, 1, 0, 3, "3 before 6");
    expect_step(&b, 0, ACQUIRE, 1, R, 0, "1R");
    expect_step(&b, 0, EXIT_HARD, 0, 0, 6, "6 before 7, exit hard");
    expect_step(&b, 0, EXIT_SOFT, 0, 0, 6, "6 before 7, exit soft");
    free_buffers(&b);
}

static void test_closed(void)
{
    static const uint8_t bytes[] = { 1, 2, 3 };
    struct buffers b;

    open_buffers(&b, 8, 7);
    expect_step(&b, 0, ACQUIRE, 0, R, 0, "P7 record 1");
    expect_step(&b, 0, ACQUIRE, 0, r, 1, "P7 record 2");
    expect_step(&b, 0, RELEASE, 0, r, 10, "closed, release");
    expect_step(&b, 0, RELEASE, 0, R, 10, "closed, 10 before another mode");
    expect_step(&b, 1, ACQUIRE, 1, E, 10, "closed, acquire");
    expect_step(&b, 1, ACQUIRE, 1, TRY + E, 10, "closed, try");
    expect_step(&b, 1, ACQUIRE, 8, E, 10, "closed, 10 before 4");
    expect_step(&b, 1, EXIT_HARD, 0, 0, 10, "closed, 10 before 6");
    expect_step(&b, 1, RELEASE, 1, E, 10, "closed, 10 before 5");
    expect_bytes(&b, bytes, sizeof bytes, 10, "closed, 10 before 3");
    expect_bytes(&b, bytes, 0, 10, "closed, empty record");
    expect_reach(&b, 0, BIT(0), 1, "closed, ask");
    expect_no_reach(&b, 8, 4, "closed, ask class K");
    put_desk(&b, STATES_AT, 9);
    expect_step(&b, 1, ACQUIRE, 1, E, 11, "closed, 11 before 10");
    expect_no_reach(&b, 0, 11, "closed and unfit, ask");
    free_buffers(&b);
}

/* A desk that is closed without a fault: 10 before 7 and 8. */
static void test_closed_by_hand(void)
{
    struct buffers b;
    unsigned i;

    open_buffers(&b, 8, 0);
    expect_step(&b, 3, ENTER_HARD, 0, 0, 0, "enter hard");
    for (i = 0; i < DEPTH; i++)
        expect_step(&b, 3, ACQUIRE, 0, R, 0, "fill the frame");
    put_desk(&b, CLOSED_AT, 1);
    expect_step(&b, 3, ACQUIRE, 0, R, 10, "closed, 10 before 8");
    expect_step(&b, 3, EXIT_HARD, 0, 0, 10, "closed, 10 before 7");
    expect_step(&b, 0, HARD_ON, 0, 0, 10, "closed by hand");
    expect_reach(&b, 0, BIT(0), 1, "closed by hand, ask");
    put_desk(&b, CLOSED_AT, 0);
    expect_step(&b, 3, ACQUIRE, 0, R, 8, "open again, 8");
    expect_step(&b, 3, EXIT_HARD, 0, 0, 7, "open again, 7");
    expect_step(&b, 0, HARD_ON, 0, 0, 0, "open again");
    free_buffers(&b);
}

/* ------------------------------------------------------- successful tries */

/* The desk bytes from a place on are the given ones. */
static void check_desk(const struct buffers *b, size_t at,
                       const uint8_t *bytes, size_t size, const char *what)
{
    size_t i;

    for (i = 0; i < size; i++)
        check(b->desk.bytes[at + i] == bytes[i], "%s: desk byte %lu is %02X",
              what, (unsigned long)(at + i), b->desk.bytes[at + i]);
}

static void check_byte(const struct buffers *b, size_t at, unsigned byte,
                       const char *what)
{
    uint8_t bytes[1];

    bytes[0] = (uint8_t)byte;
    check_desk(b, at, bytes, 1, what);
}

/* The example of tries in docs/FORMATS.md. */
static void test_try_example(void)
{
    static const uint8_t cycle[] = { 1, 2, 2, 2, 0, 0, 0, 0, FILL, FILL, FILL };
    static const uint8_t sheet[] = { 0, 0, 0, 1, 0, 0, 1, 0, 0 };
    uint8_t seen[PLUNGEROWL_SEEN_SIZE(3)] = { 0 };
    uint8_t desk[PLUNGEROWL_DESK_SIZE] = { 3, 0, 4 };
    struct buffers b;

    desk[10] = 2;
    desk[11] = 1;
    desk[34] = 0x88;
    desk[35] = 0x44;
    desk[36] = 0x4C;
    desk[98] = 0x02;
    desk[99] = 0x80;
    desk[146] = 0x42;
    desk[1250] = 0x01;
    desk[1256] = 0x01;
    desk[1394] = 6;
    seen[12] = seen[24] = 3;

    open_buffers(&b, 3, 0);
    expect_step(&b, 0, ACQUIRE, 1, E, 0, "try example, 1E");
    expect_step(&b, 0, ACQUIRE, 2, TRY + E, 0, "try example, try 2E");
    expect_step(&b, 0, ACQUIRE, 0, R, 0, "try example, 0R");
    expect_step(&b, 0, RELEASE, 1, E, 0, "try example, release 1");
    expect_step(&b, 0, ENTER_SOFT, 0, 0, 0, "try example, enter soft");
    expect_step(&b, 0, ACQUIRE, 2, TRY + r, 0, "try example, try 2r");
    check_desk(&b, 0, desk, sizeof desk, "try example");
    expect_step(&b, 0, RELEASE, 2, TRY + r, 0, "try example, release 2");
    expect_step(&b, 0, ACQUIRE, 2, E, 1, "try example, 2E");
    desk[1] = 1;
    desk[36] = 0x5C;
    desk[146] = 0x02;
    desk[1256] = 0;
    desk[1394] = 8;
    check_desk(&b, 0, desk, sizeof desk, "try example, fault");
    check(memcmp(b.sheet.bytes, sheet, sizeof sheet) == 0,
          "try example: sheet");
    check(memcmp(b.seen.bytes, seen, sizeof seen) == 0,
          "try example: second sheet");
    check(memcmp(b.slip.bytes, cycle, sizeof cycle) == 0, "try example: slip");
    free_buffers(&b);
}

/* The held byte of a try has the mode without the try. */
static void test_try_held_byte(void)
{
    struct buffers b;
    unsigned class_, mode;

    open_buffers(&b, 64, 0);
    for (class_ = 0; class_ < 64; class_++) {
        for (mode = TRY; mode < MODES; mode++) {
            expect_step(&b, 6, ACQUIRE, class_, mode, 0, "a try");
            check_byte(&b, HELD_AT + DEPTH * 18, class_ + 64 * (mode - TRY),
                       "a try");
            expect_step(&b, 6, RELEASE, class_, mode, 0, "release of a try");
        }
    }
    free_buffers(&b);
}

/* Patterns of origin bits for a frame. */
enum { NO_TRIES, ALL_TRIES, EVEN_TRIES, ODD_TRIES, THIRD_TRIES, ONE_TRY,
       PATTERNS = ONE_TRY + DEPTH };

static int is_try(unsigned pattern, unsigned place)
{
    switch (pattern) {
    case NO_TRIES: return 0;
    case ALL_TRIES: return 1;
    case EVEN_TRIES: return place % 2 == 0;
    case ODD_TRIES: return place % 2 == 1;
    case THIRD_TRIES: return place % 3 == 0;
    default: return place == pattern - ONE_TRY;
    }
}

/* Fill a frame to the depth with class i at place i. All are recursive reads,
 * whose dependencies close no path strongly. */
static void put_frame(struct buffers *b, unsigned frame, unsigned depth,
                      unsigned pattern)
{
    uint8_t held[DEPTH] = { 0 }, origins[DEPTH / 8] = { 0 };
    size_t held_at = HELD_AT + DEPTH * (size_t)frame;
    size_t origins_at = ORIGINS_AT + DEPTH / 8 * (size_t)frame;
    unsigned i;

    for (i = 0; i < depth; i++) {
        held[i] = (uint8_t)(i + 64 * R);
        if (is_try(pattern, i))
            origins[i / 8] |= (uint8_t)(1u << i % 8);
    }
    put_desk(b, DEPTHS_AT + frame, depth);
    memcpy(b->desk.bytes + held_at, held, sizeof held);
    memcpy(b->want_desk.bytes + held_at, held, sizeof held);
    memcpy(b->desk.bytes + origins_at, origins, sizeof origins);
    memcpy(b->want_desk.bytes + origins_at, origins, sizeof origins);
}

/* The frame is its core's current one and has the depth and the pattern; every
 * other that may have held locks is full of tries. No class has a mark. */
static void put_full(struct buffers *b, unsigned frame, unsigned depth,
                     unsigned pattern)
{
    static const unsigned states[3] = { 0, 4, 8 };
    unsigned i;

    for (i = 0; i < CORES; i++)
        put_desk(b, STATES_AT + i, i == frame / 3 ? states[frame % 3] : 8);
    for (i = 0; i < FRAMES; i++)
        put_frame(b, i, frames_fit[i % 3][b->desk.bytes[STATES_AT + i / 3]]
                        ? DEPTH : 0, ALL_TRIES);
    put_frame(b, frame, depth, pattern);
    for (i = 0; i < 64; i++)
        put_desk(b, MARKS_AT + i, 0);
}

/* At every place of every frame an acquire sets its own origin bit and no
 * other; each lock held is marked by its own bit. */
static void test_origin_acquires(void)
{
    struct buffers b;
    unsigned frame, place, pattern;

    open_buffers(&b, 49, 0);
    for (frame = 0; frame < FRAMES; frame++) {
        for (place = 0; place < DEPTH; place++) {
            for (pattern = 0; pattern < ONE_TRY; pattern++) {
                put_full(&b, frame, place, pattern);
                expect_step(&b, frame / 3, ACQUIRE, 48, TRY + R, 0,
                            "a try over others");
                put_full(&b, frame, place, pattern);
                expect_step(&b, frame / 3, ACQUIRE, 48, R, 0,
                            "an acquire over others");
            }
        }
    }
    free_buffers(&b);
}

/* Whether a release at the place is tried with the pattern: a single try is put
 * near the place, at the ends and at an edge of bytes; everywhere in the first
 * frame and the last one only, to save time. */
static int is_released_with(unsigned frame, unsigned place, unsigned pattern)
{
    unsigned one = pattern - ONE_TRY;

    return pattern < ONE_TRY || frame == 0 || frame == FRAMES - 1
           || one + 1 == place || one == place || one == place + 1
           || one == 0 || one == DEPTH - 1 || one == 32
           || (one % 8 == 0 && one == place + 8);
}

/* At every place of every frame a release moves down the origin bits above it,
 * of its own frame only. */
static void test_origin_releases(void)
{
    struct buffers b;
    unsigned frame, place, pattern, mode;

    open_buffers(&b, 48, 0);
    for (frame = 0; frame < FRAMES; frame++) {
        for (place = 0; place < DEPTH; place++) {
            for (pattern = 0; pattern < PATTERNS; pattern++) {
                if (!is_released_with(frame, place, pattern))
                    continue;
                mode = is_try(pattern, place) ? TRY + R : R;
                put_full(&b, frame, DEPTH, pattern);
                expect_step(&b, frame / 3, RELEASE, place, mode, 0,
                            "release in a full frame");
                if (pattern >= ONE_TRY && pattern - ONE_TRY > place)
                    continue;
                put_full(&b, frame, place + 1, pattern);
                expect_step(&b, frame / 3, RELEASE, place, mode, 0,
                            "release of the newest");
            }
        }
    }
    free_buffers(&b);
}

/* A state in which the frame may have held locks. */
static unsigned state_for(unsigned frame)
{
    static const unsigned states[] = { 0, 4, 6 };

    return states[frame % 3];
}

/* By hand: the six bytes of a frame, each frame's for itself. Its places 0, 7,
 * 8, 31, 32 and 47 are tried, and no other. The bytes of all other frames are
 * 0, and so are the held bytes of all other places. */
static void test_origin_bytes(void)
{
    static const uint8_t due[6] = { 0x81, 0x01, 0, 0x80, 0x01, 0x80 };
    struct buffers b;
    unsigned frame, i;

    for (frame = 0; frame < 24; frame++) {
        open_buffers(&b, 64, 0);
        put_desk(&b, 2 + frame / 3, state_for(frame));
        for (i = 0; i < 48; i++) {
            int tried = i == 0 || i == 7 || i == 8 || i == 31 || i == 32
                        || i == 47;

            expect_step(&b, frame / 3, ACQUIRE, i + 1, tried ? TRY + R : R, 0,
                        "six bytes, acquire");
            check_byte(&b, 98 + 48 * frame + i, i + 1 + 128, "six bytes, held");
            check_byte(&b, 10 + frame, i + 1, "six bytes, depth");
        }
        for (i = 0; i < 1152; i++)
            check((b.desk.bytes[98 + i] != 0) == (i / 48 == frame),
                  "six bytes: held byte %u with frame %u", i, frame);
        for (i = 0; i < 144; i++)
            check_byte(&b, 1250 + i, i / 6 == frame ? due[i % 6] : 0,
                       "six bytes, of all frames");
        expect_step(&b, frame / 3, RELEASE, 2, R, 0, "six bytes, release");
        for (i = 0; i < 144; i++) {
            static const uint8_t moved[6] = { 0xC1, 0, 0, 0xC0, 0, 0x40 };

            check_byte(&b, 1250 + i, i / 6 == frame ? moved[i % 6] : 0,
                       "six bytes, moved");
        }
        free_buffers(&b);
    }
}

/* Release the lock at a place of a core's current frame. No other lock of its
 * class is newer. */
static void release_at(struct buffers *b, unsigned core, unsigned place,
                       const char *what)
{
    unsigned frame = current_frame(b->desk.bytes, core);

    expect_step(b, core, RELEASE,
                b->desk.bytes[98 + 48 * frame + place] % 64,
                mode_at(b->desk.bytes, frame, place), 0, what);
}

static void release_all(struct buffers *b, unsigned core, const char *what)
{
    unsigned frame = current_frame(b->desk.bytes, core);

    while (b->desk.bytes[10 + frame] > 0)
        release_at(b, core, b->desk.bytes[10 + frame] - 1u, what);
}

/* By hand: bit 7 of byte 1255 is place 47 of core 0's task, bit 0 of byte 1256
 * is place 0 of its soft handler, and so on to its hard handler and to core 1.
 * All three frames are full; what moves in one leaves the others. */
static void test_origin_edges(void)
{
    /* Task, soft and hard handler of core 0, and task of core 1. */
    static const uint8_t rows[][24] = {
        { 0x81, 0x01, 0x10, 0x80, 0x81, 0x81, 0x03, 0x03, 0, 0, 0, 0x40,
          0x01, 0, 0, 0, 0, 0x80, 0x01 },
        { 0x81, 0x01, 0x10, 0x80, 0x81, 0x81, 0x03, 0x03, 0, 0, 0, 0x40,
          0, 0, 0, 0, 0, 0x40, 0x01 }, /* hard, place 0 */
        { 0x81, 0x01, 0x10, 0x80, 0x81, 0x81, 0x03, 0x03, 0, 0, 0, 0x40,
          0, 0, 0, 0, 0, 0, 0x01 }, /* hard, place 46 */
        { 0x81, 0x01, 0x10, 0x80, 0x81, 0x81, 0x03, 0x01, 0, 0, 0, 0x20,
          0, 0, 0, 0, 0, 0, 0x01 }, /* soft, place 8 */
        { 0x81, 0x01, 0x10, 0x80, 0x81, 0x81, 0x83, 0, 0, 0, 0, 0x10,
          0, 0, 0, 0, 0, 0, 0x01 }, /* soft, place 7 */
        { 0x81, 0x01, 0x10, 0x80, 0x81, 0x81, 0x41, 0, 0, 0, 0, 0x08,
          0, 0, 0, 0, 0, 0, 0x01 }, /* soft, place 0 */
        { 0xC0, 0, 0x08, 0xC0, 0xC0, 0x40, 0, 0, 0, 0, 0, 0,
          0, 0, 0, 0, 0, 0, 0x01 }, /* task, place 0 */
        { 0xC0, 0, 0x08, 0x40, 0x60, 0x20, 0, 0, 0, 0, 0, 0,
          0, 0, 0, 0, 0, 0, 0x01 }, /* task, place 31 */
        { 0xC0, 0, 0x08, 0x40, 0x30, 0x10, 0, 0, 0, 0, 0, 0,
          0, 0, 0, 0, 0, 0, 0x01 }, /* task, place 32 */
        { 0xC0, 0, 0x08, 0x40, 0x30, 0x08, 0, 0, 0, 0, 0, 0,
          0, 0, 0, 0, 0, 0, 0x01 }, /* task, place 39 */
        { 0xC0, 0, 0x08, 0x40, 0x30, 0x04, 0, 0, 0, 0, 0, 0,
          0, 0, 0, 0, 0, 0, 0x01 }, /* task, place 40 */
        { 0xC0, 0, 0x04, 0x20, 0x18, 0x02, 0, 0, 0, 0, 0, 0,
          0, 0, 0, 0, 0, 0, 0x01 }  /* task, place 8 */
    };
    static const uint8_t in_task[] = { 0, 31, 32, 39, 40, 8 };
    struct buffers b;
    unsigned i;

    open_buffers(&b, 64, 0);
    expect_step(&b, 1, ACQUIRE, 5, TRY + R, 0, "edges, core 1");
    for (i = 0; i < 48; i++)
        expect_step(&b, 0, ACQUIRE, i, i % 32 == 0 || i % 32 == 7
                    || i % 32 == 8 || i == 20 || i == 31 || i == 47
                    ? TRY + R : R, 0, "edges, task");
    expect_step(&b, 0, ENTER_SOFT, 0, 0, 0, "edges, enter soft");
    for (i = 0; i < 48; i++)
        expect_step(&b, 0, ACQUIRE, 16 + i, i < 2 || i == 8 || i == 9
                    || i == 46 ? TRY + R : R, 0, "edges, soft");
    expect_step(&b, 0, ENTER_HARD, 0, 0, 0, "edges, enter hard");
    for (i = 0; i < 48; i++)
        expect_step(&b, 0, ACQUIRE, 63 - i, i == 0 || i == 47 ? TRY + R : R,
                    0, "edges, hard");
    check_desk(&b, 1250, rows[0], 24, "edges, all acquired");
    release_at(&b, 0, 0, "edges, hard, release at place 0");
    check_desk(&b, 1250, rows[1], 24, "edges, hard, place 0");
    release_at(&b, 0, 46, "edges, hard, release at place 46");
    check_desk(&b, 1250, rows[2], 24, "edges, hard, place 46");
    release_all(&b, 0, "edges, hard, the others");
    expect_step(&b, 0, EXIT_HARD, 0, 0, 0, "edges, exit hard");
    check_desk(&b, 1250, rows[2], 24, "edges, hard left");
    release_at(&b, 0, 8, "edges, soft, release at place 8");
    check_desk(&b, 1250, rows[3], 24, "edges, soft, place 8");
    release_at(&b, 0, 7, "edges, soft, release at place 7");
    check_desk(&b, 1250, rows[4], 24, "edges, soft, place 7");
    release_at(&b, 0, 0, "edges, soft, release at place 0");
    check_desk(&b, 1250, rows[5], 24, "edges, soft, place 0");
    release_all(&b, 0, "edges, soft, the others");
    expect_step(&b, 0, EXIT_SOFT, 0, 0, 0, "edges, exit soft");
    for (i = 0; i < sizeof in_task; i++) {
        release_at(&b, 0, in_task[i], "edges, task, release");
        check_desk(&b, 1250, rows[6 + i], 24, "edges, task");
    }
    release_all(&b, 0, "edges, task, the others");
    for (i = 0; i < 144; i++)
        check_byte(&b, 1250 + i, i == 18, "edges, all released");
    free_buffers(&b);
}

/* By hand: a full frame with a pattern of tries over its six bytes; the release
 * at place 0 moves them all by one. */
static void test_origin_moves(void)
{
    static const uint8_t before[6] = { 0xB3, 0x5D, 0xE4, 0x96, 0x2B, 0x99 };
    static const uint8_t after[6] = { 0xD9, 0x2E, 0x72, 0xCB, 0x95, 0x4C };
    /* Their last byte without place 46, and without place 47. */
    static const uint8_t without[2] = { 0x59, 0x19 };
    struct buffers b;
    unsigned frame, i;

    open_buffers(&b, 64, 0);
    for (frame = 0; frame < 24; frame++) {
        size_t at = 1250 + 6 * (size_t)frame;

        put_full(&b, frame, 48, NO_TRIES);
        for (i = 0; i < 6; i++)
            put_desk(&b, at + i, before[i]);
        expect_step(&b, frame / 3, RELEASE, 0, TRY + R, 0, "moves, place 0");
        check_desk(&b, at, after, 6, "moves, place 0");
        for (i = 0; i < 2; i++) {
            put_full(&b, frame, 48, NO_TRIES);
            for (at = 0; at < 6; at++)
                put_desk(&b, 1250 + 6 * (size_t)frame + at, before[at]);
            expect_step(&b, frame / 3, RELEASE, 46 + i, i == 0 ? R : TRY + R,
                        0, "moves, the last places");
            at = 1250 + 6 * (size_t)frame;
            check_desk(&b, at, before, 5, "moves, the last places");
            check_byte(&b, at + 5, without[i], "moves, the last places");
        }
    }
    free_buffers(&b);
}

/* By hand: the last bit of the desk is place 47 of core 7's hard handler. */
static void test_origin_last(void)
{
    struct buffers b;
    unsigned i;

    open_buffers(&b, 64, 0);
    expect_step(&b, 7, ENTER_HARD, 0, 0, 0, "last bit, enter hard");
    for (i = 0; i < DEPTH; i++)
        expect_step(&b, 7, ACQUIRE, i, i == 47 ? TRY + R : R, 0,
                    "last bit, a try at place 47");
    check_byte(&b, 1393, 0x80, "last bit");
    expect_step(&b, 7, RELEASE, 3, R, 0, "last bit, release below");
    check_byte(&b, 1393, 0x40, "last bit, moved");
    expect_step(&b, 7, RELEASE, 47, TRY + R, 0, "last bit, release of the try");
    check_byte(&b, 1393, 0, "last bit, gone");
    free_buffers(&b);
}

/* No dependency goes to a try; those from it are those of its mode. */
static void test_try_dependencies(void)
{
    static const unsigned kinds[3][3] = { { 2, 2, 1 }, { 8, 8, 4 },
                                          { 8, 8, 4 } };
    struct buffers b;
    unsigned older, newer;

    for (older = 0; older < MODES; older++) {
        for (newer = 0; newer < MODES; newer++) {
            unsigned kind = newer < TRY ? kinds[older % TRY][newer] : 0;

            open_buffers(&b, 8, 0);
            expect_step(&b, 0, ACQUIRE, 2, older, 0, "held lock");
            expect_step(&b, 0, ACQUIRE, 3, newer, 0, "another class over it");
            check(b.sheet.bytes[8 * 2 + 3] == kind,
                  "modes %u, %u: dependency %u", older, newer,
                  b.sheet.bytes[8 * 2 + 3]);
            expect_step(&b, 1, ACQUIRE, 2, older, 0, "held lock of core 1");
            expect_step(&b, 1, ACQUIRE, 2, newer,
                        kind != 0 && kind != PLUNGEROWL_SR,
                        "the same class over it");
            check(b.sheet.bytes[8 * 2 + 2] == kind,
                  "modes %u, %u: dependency %u on itself", older, newer,
                  b.sheet.bytes[8 * 2 + 2]);
            free_buffers(&b);
        }
    }
}

/* Two cores acquire two classes crosswise: a fault where neither of the inner
 * acquires is a try, whatever the outer ones are. */
static void test_try_crosswise(void)
{
    struct buffers b;
    unsigned tries;

    for (tries = 0; tries < 16; tries++) {
        unsigned mode[4], i;

        for (i = 0; i < 4; i++)
            mode[i] = tries >> i & 1 ? TRY + E : E;
        open_buffers(&b, 8, 0);
        expect_step(&b, 0, ACQUIRE, 1, mode[0], 0, "crosswise, core 0, outer");
        expect_step(&b, 0, ACQUIRE, 2, mode[1], 0, "crosswise, core 0, inner");
        expect_step(&b, 1, ACQUIRE, 2, mode[2], 0, "crosswise, core 1, outer");
        expect_step(&b, 1, ACQUIRE, 1, mode[3], mode[1] == E && mode[3] == E,
                    "crosswise, core 1, inner");
        free_buffers(&b);
    }
}

/* The marks of a try by state and mode: unsafe ones only. */
static const unsigned try_marks[9][3] = {
    { 68, 136, 136 }, { 4, 8, 8 }, { 0, 0, 0 }, { 0, 0, 0 }, { 4, 8, 8 },
    { 0, 0, 0 }, { 0, 0, 0 }, { 0, 0, 0 }, { 0, 0, 0 }
};

/* A try is marked so by the record that acquires it, and by each later one. */
static void test_try_marks(void)
{
    struct buffers b;
    unsigned mode, state, event;

    open_buffers(&b, 8, 0);
    for (mode = 0; mode < 3; mode++) {
        for (state = 0; state < 9; state++) {
            unsigned mark = try_marks[state][mode];

            put_desk(&b, STATES_AT + 5, state);
            put_desk(&b, MARKS_AT + 6, 0);
            put_desk(&b, MARKS_AT + 7, 0);
            expect_step(&b, 5, ACQUIRE, 7, TRY + mode, 0, "a try");
            check_byte(&b, MARKS_AT + 7, mark, "marks of a try");
            put_desk(&b, MARKS_AT + 7, 0);
            expect_step(&b, 5, ACQUIRE, 6, R, 0, "an acquire after a try");
            check_byte(&b, MARKS_AT + 7, mark, "marks of a try, then acquire");
            put_desk(&b, MARKS_AT + 7, 0);
            expect_step(&b, 5, RELEASE, 6, R, 0, "a release after a try");
            check_byte(&b, MARKS_AT + 7, mark, "marks of a try, then release");
            put_desk(&b, MARKS_AT + 6, 0);
            for (event = 0; event < 8; event++) {
                unsigned next = (unsigned)next_state[state][event];

                if (next_state[state][event] < 0 || event == 5 || event == 7)
                    continue;
                put_desk(&b, MARKS_AT + 7, 0);
                expect_step(&b, 5, event + 2, 0, 0, 0, "an event after a try");
                check_byte(&b, MARKS_AT + 7,
                           frame_of(5, next) == frame_of(5, state)
                           ? try_marks[next][mode] : 0,
                           "marks of a try, then an event");
                put_desk(&b, STATES_AT + 5, state);
            }
            expect_step(&b, 5, RELEASE, 7, TRY + mode, 0, "release of a try");
        }
    }
    free_buffers(&b);
}

/* A class that handlers only tried stays free for tasks. */
static void test_try_in_handlers(void)
{
    struct buffers b;

    open_buffers(&b, 8, 0);
    expect_step(&b, 0, ENTER_SOFT, 0, 0, 0, "handlers, enter soft");
    expect_step(&b, 0, ACQUIRE, 1, TRY + E, 0, "handlers, soft, try 1E");
    expect_step(&b, 0, ENTER_HARD, 0, 0, 0, "handlers, enter hard");
    expect_step(&b, 0, ACQUIRE, 2, TRY + r, 0, "handlers, hard, try 2r");
    expect_step(&b, 0, ACQUIRE, 3, E, 0, "handlers, hard, 3E");
    expect_step(&b, 0, RELEASE, 3, E, 0, "handlers, hard, release 3");
    check_byte(&b, MARKS_AT + 1, 4, "tried in the soft handler");
    check_byte(&b, MARKS_AT + 2, 0, "tried in the hard handler");
    check_byte(&b, MARKS_AT + 3, 1, "acquired in the hard handler");
    expect_step(&b, 0, RELEASE, 2, TRY + r, 0, "handlers, hard, release 2");
    expect_step(&b, 0, EXIT_HARD, 0, 0, 0, "handlers, exit hard");
    expect_step(&b, 0, RELEASE, 1, TRY + E, 0, "handlers, soft, release 1");
    expect_step(&b, 0, EXIT_SOFT, 0, 0, 0, "handlers, exit soft");
    expect_step(&b, 1, ACQUIRE, 1, E, 0, "handlers, task, 1E");
    expect_step(&b, 1, ACQUIRE, 2, E, 0, "handlers, task, 2E");
    expect_step(&b, 2, ACQUIRE, 3, E, 1, "handlers, task, 3E");
    free_buffers(&b);
}

/* A try that is held over a hard on becomes hard-unsafe. */
static void test_try_over_hard_on(void)
{
    struct buffers b;

    open_buffers(&b, 8, 0);
    expect_step(&b, 0, SOFT_OFF, 0, 0, 0, "hard on, soft off");
    expect_step(&b, 0, HARD_OFF, 0, 0, 0, "hard on, hard off");
    expect_step(&b, 0, ACQUIRE, 4, TRY + E, 0, "hard on, try 4E");
    check_byte(&b, MARKS_AT + 4, 0, "a try with all off");
    expect_step(&b, 1, ENTER_HARD, 0, 0, 0, "hard on, core 1 enters hard");
    expect_step(&b, 1, ACQUIRE, 4, R, 0, "hard on, core 1, 4R");
    check_byte(&b, MARKS_AT + 4, 2, "hard-safe by another core");
    expect_step(&b, 0, HARD_ON, 0, 0, 1, "hard on over a try");
    check_byte(&b, MARKS_AT + 4, 2 + 4, "a try held over a hard on");
    free_buffers(&b);
}

/* Marks are by class and the origin by held lock: of two locks of a class the
 * one that is no try makes it safe. */
static void test_try_same_class(void)
{
    static const unsigned first[] = { TRY + R, R };
    struct buffers b;
    unsigned i;

    for (i = 0; i < 2; i++) {
        unsigned second = first[1 - i];

        open_buffers(&b, 8, 0);
        expect_step(&b, 2, ENTER_HARD, 0, 0, 0, "same class, enter hard");
        expect_step(&b, 2, ACQUIRE, 1, first[i], 0, "same class, first");
        check_byte(&b, MARKS_AT + 1, i == 0 ? 0 : 2, "same class, the first");
        put_desk(&b, MARKS_AT + 1, 0);
        expect_step(&b, 2, ACQUIRE, 1, second, 0, "same class, second");
        check_byte(&b, MARKS_AT + 1, 2, "same class, one is no try");
        put_desk(&b, MARKS_AT + 1, 0);
        expect_step(&b, 2, ACQUIRE, 5, TRY + R, 0, "same class, another");
        check_byte(&b, MARKS_AT + 1, 2, "same class, after another");
        check_byte(&b, MARKS_AT + 5, 0, "same class, the other");
        put_desk(&b, MARKS_AT + 1, 0);
        expect_step(&b, 2, RELEASE, 1, second, 0, "same class, release");
        check_byte(&b, MARKS_AT + 1, i == 0 ? 0 : 2, "same class, one is left");
        free_buffers(&b);
    }
}

/* A lock of the class in another frame, or of another core, makes it safe there
 * and not here. */
static void test_try_other_frame(void)
{
    struct buffers b;

    open_buffers(&b, 8, 0);
    expect_step(&b, 2, HARD_OFF, 0, 0, 0, "other frame, hard off");
    expect_step(&b, 2, ACQUIRE, 1, R, 0, "other frame, task, 1R");
    put_desk(&b, STATES_AT + 2, 6);
    put_desk(&b, STATES_AT + 3, 6);
    expect_step(&b, 3, ACQUIRE, 1, R, 0, "other frame, core 3, 1R");
    put_desk(&b, MARKS_AT + 1, 0);
    expect_step(&b, 2, ACQUIRE, 1, TRY + R, 0, "other frame, hard, try 1R");
    check_byte(&b, MARKS_AT + 1, 0, "other frame");
    free_buffers(&b);
}

/* A release takes the newest lock of the class and has its mode; then the older
 * one is the newest. */
static void test_try_release(void)
{
    /* modes of the older and of the newer lock of class 1 */
    static const unsigned pairs[][2] = {
        { E, TRY + E }, { E, TRY + r }, { R, TRY + E }, { r, TRY + R },
        { TRY + R, R }, { TRY + r, R }, { TRY + E, TRY + R },
        { TRY + R, TRY + E }, { R, TRY + R } };
    struct buffers b;
    size_t i;
    unsigned mode;

    for (i = 0; i < sizeof pairs / sizeof pairs[0]; i++) {
        unsigned older = pairs[i][0], newer = pairs[i][1];

        open_buffers(&b, 8, 0);
        expect_step(&b, 0, ACQUIRE, 1, older, 0, "release, older");
        expect_step(&b, 0, ACQUIRE, 1, newer, 0, "release, newer");
        check_byte(&b, HELD_AT + 1, 1 + 64 * (newer % TRY), "release, newer");
        for (mode = 0; mode < 8; mode++)
            if (mode != newer)
                expect_step(&b, 0, RELEASE, 1, mode, mode < MODES ? 5 : 3,
                            "release in another mode");
        expect_step(&b, 0, RELEASE, 1, newer, 0, "release of the newer");
        check_byte(&b, HELD_AT, 1 + 64 * (older % TRY), "release, older left");
        check_byte(&b, HELD_AT + 1, 0, "release, newer gone");
        check_byte(&b, ORIGINS_AT, older >= TRY, "release, origin bits");
        for (mode = 0; mode < MODES; mode++)
            if (mode != older)
                expect_step(&b, 0, RELEASE, 1, mode, 5,
                            "release, not the older");
        expect_step(&b, 0, RELEASE, 1, older, 0, "release of the older");
        check_byte(&b, ORIGINS_AT, 0, "release, no origin bits");
        expect_step(&b, 0, RELEASE, 1, older, 5, "release of none");
        free_buffers(&b);
    }
}

/* A frame full of tries is full, and every try was counted. */
static void test_try_full(void)
{
    struct buffers b;
    unsigned i;

    open_buffers(&b, 8, 0);
    for (i = 0; i < DEPTH; i++)
        expect_step(&b, 4, ACQUIRE, i % 8, TRY + i % 3, 0, "fill by tries");
    check_byte(&b, DEPTHS_AT + 12, DEPTH, "full of tries");
    for (i = 0; i < MODES; i++) {
        expect_step(&b, 4, ACQUIRE, 1, i, 8, "full of tries");
        expect_step(&b, 4, ACQUIRE, 8, i, 4, "full of tries, class K");
    }
    expect_step(&b, 4, ACQUIRE, 1, MODES, 3, "full of tries, mode 6");
    expect_step(&b, 4, ACQUIRE, 8, MODES, 3, "full of tries, both");
    for (i = 0; i < DEPTH; i++) { /* of each class the newest first */
        unsigned newest = DEPTH - 8 - i / 8 * 8 + i % 8;

        expect_step(&b, 4, RELEASE, i % 8, TRY + newest % 3, 0,
                    "release all tries");
    }
    expect_step(&b, 4, RELEASE, 0, TRY, 5, "all tries released");
    free_buffers(&b);
}

/* ------------------------------------------------------ which releases fit */

/* Every mode is refused with 5 but the one that fits; MODES: every mode. */
static void expect_misfits(struct buffers *b, unsigned core, unsigned class_,
                           unsigned fits, const char *what)
{
    unsigned mode;

    for (mode = 0; mode < MODES; mode++)
        if (mode != fits)
            expect_step(b, core, RELEASE, class_, mode, 5, what);
}

/* Put a lock of the class and the mode at a place. */
static void put_lock(struct buffers *b, unsigned frame, unsigned place,
                     unsigned class_, unsigned mode)
{
    put_desk(b, 98 + 48 * frame + place, class_ + 64 * (mode % TRY));
    put_origin(b, frame, place, mode >= TRY);
}

/* Frames of a task, a soft and a hard handler, of different cores, and a state
 * for each in which nothing becomes unsafe. */
static const uint8_t some_frames[] = { 0, 13, 23 };
static const uint8_t some_states[] = { 3, 5, 8 };

/* The table of docs/FORMATS.md. */
static void test_release_table(void)
{
    static const struct {
        uint8_t locks, held[2][2]; /* class and mode, the oldest first */
        uint8_t class_, mode, answer;
    } rows[] = {
        { 1, { { 1, R } }, 1, R, 0 },
        { 1, { { 1, R } }, 1, E, 5 },
        { 1, { { 1, R } }, 1, r, 5 },
        { 1, { { 1, R } }, 1, TRY + R, 5 },
        { 1, { { 1, TRY + R } }, 1, R, 5 },
        { 1, { { 1, TRY + R } }, 1, TRY + R, 0 },
        { 2, { { 1, E }, { 1, TRY + R } }, 1, E, 5 },
        { 2, { { 1, E }, { 1, TRY + R } }, 1, TRY + R, 0 },
        { 2, { { 1, E }, { 2, R } }, 1, E, 0 },
        { 2, { { 1, E }, { 2, R } }, 1, R, 5 },
        { 0, { { 0, 0 } }, 1, E, 5 }
    };
    struct buffers b;
    size_t i;
    unsigned j;

    for (i = 0; i < sizeof rows / sizeof rows[0]; i++) {
        open_buffers(&b, 8, 1);
        for (j = 0; j < rows[i].locks; j++)
            expect_step(&b, 2, ACQUIRE, rows[i].held[j][0], rows[i].held[j][1],
                        0, "which releases fit, an acquire");
        expect_step(&b, 2, RELEASE, rows[i].class_, rows[i].mode,
                    rows[i].answer, "which releases fit");
        check_byte(&b, 10 + 6, rows[i].locks - (rows[i].answer == 0),
                   "which releases fit, what is left");
        if (i == 7)
            expect_step(&b, 2, RELEASE, 1, E, 0, "and then the older");
        free_buffers(&b);
    }

    /* Three of a class: the newest alone, whatever the others are. */
    open_buffers(&b, 8, 0);
    expect_step(&b, 2, ACQUIRE, 1, R, 0, "three of a class, 1R");
    expect_step(&b, 2, ACQUIRE, 1, R, 0, "three of a class, 1R again");
    expect_step(&b, 2, ACQUIRE, 1, TRY + R, 0, "three of a class, try 1R");
    expect_misfits(&b, 2, 1, TRY + R, "three of a class, other modes");
    expect_step(&b, 2, RELEASE, 1, TRY + R, 0, "three of a class, the newest");
    expect_misfits(&b, 2, 1, R, "two of a class, other modes");
    expect_step(&b, 2, RELEASE, 1, R, 0, "two of a class, the newer");
    expect_step(&b, 2, RELEASE, 1, R, 0, "the last of a class");
    expect_misfits(&b, 2, 1, MODES, "none of a class");
    free_buffers(&b);
}

/* Acquired in every mode and released in every mode: the same two fit. So with
 * one class, and with the last of 64. */
static void test_release_modes(void)
{
    struct buffers b;
    unsigned i, mode, k;

    open_buffers(&b, 8, 0);
    for (i = 0; i < 3; i++) {
        unsigned frame = some_frames[i], core = frame / 3;

        put_desk(&b, STATES_AT + core, some_states[i]);
        for (mode = 0; mode < MODES; mode++) {
            expect_misfits(&b, core, 2, MODES, "released, not held yet");
            expect_step(&b, core, ACQUIRE, 2, mode, 0, "to be released");
            check_byte(&b, 98 + 48 * frame, 2 + 64 * (mode % 3), "held byte");
            check_byte(&b, 1250 + 6 * frame, mode >= 3, "origin bit");
            expect_misfits(&b, core, 2, mode, "released in another mode");
            expect_step(&b, core, RELEASE, 2, mode, 0, "released in its mode");
            check_byte(&b, 10 + frame, 0, "released, depth");
            check_byte(&b, 98 + 48 * frame, 0, "released, held byte");
            check_byte(&b, 1250 + 6 * frame, 0, "released, origin bit");
        }
        expect_misfits(&b, core, 2, MODES, "released, no longer held");
    }
    free_buffers(&b);

    for (k = 1; k <= 64; k += 63) {
        open_buffers(&b, k, 0);
        for (mode = 0; mode < MODES; mode++) {
            expect_step(&b, 6, ACQUIRE, k - 1, mode, 0, "the last class");
            expect_misfits(&b, 6, k - 1, mode, "the last class, other modes");
            expect_step(&b, 6, RELEASE, k - 1, mode, 0, "the last class back");
        }
        free_buffers(&b);
    }
}

/* Two locks of a class in every two modes, on a desk that is put so. The newer
 * alone is compared, also where the older would fit; it goes with its origin
 * bit, and the older stays with its own. */
static void test_release_pairs(void)
{
    struct buffers b;
    unsigned i, older, newer;

    open_buffers(&b, 8, 0);
    for (i = 0; i < 3; i++) {
        unsigned frame = some_frames[i], core = frame / 3;

        put_desk(&b, STATES_AT + core, some_states[i]);
        for (older = 0; older < MODES; older++) {
            for (newer = 0; newer < MODES; newer++) {
                put_desk(&b, 10 + frame, 2);
                put_lock(&b, frame, 0, 1, older);
                put_lock(&b, frame, 1, 1, newer);
                expect_misfits(&b, core, 1, newer, "a pair, not the newer");
                check_byte(&b, 10 + frame, 2, "a pair, both are left");
                expect_step(&b, core, RELEASE, 1, newer, 0,
                            "a pair, the newer");
                check_byte(&b, 10 + frame, 1, "a pair, one is left");
                check_byte(&b, 98 + 48 * frame, 1 + 64 * (older % 3),
                           "a pair, the older is left");
                check_byte(&b, 99 + 48 * frame, 0, "a pair, the newer is gone");
                check_byte(&b, 1250 + 6 * frame, older >= 3,
                           "a pair, the origin bit that is left");
                expect_misfits(&b, core, 1, older, "a pair, not the older");
                expect_step(&b, core, RELEASE, 1, older, 0,
                            "a pair, the older");
                check_byte(&b, 98 + 48 * frame, 0, "a pair, both are gone");
                check_byte(&b, 1250 + 6 * frame, 0, "a pair, no origin bits");
            }
        }
    }
    free_buffers(&b);
}

/* A newer lock of another class, in every two modes: it does not matter, and
 * moves down with its origin bit. */
static void test_release_classes(void)
{
    static const struct {
        uint8_t k, class_, other;
    } rows[] = { { 8, 1, 2 }, { 64, 0, 63 }, { 64, 63, 0 }, { 34, 1, 33 } };
    struct buffers b;
    unsigned i, mode, above;

    for (i = 0; i < sizeof rows / sizeof rows[0]; i++) {
        unsigned class_ = rows[i].class_, other = rows[i].other;

        open_buffers(&b, rows[i].k, 0);
        put_desk(&b, STATES_AT + 1, 3);
        for (mode = 0; mode < MODES; mode++) {
            for (above = 0; above < MODES; above++) {
                if (rows[i].k > 8 && (mode + above) % 3 != 0)
                    continue;
                expect_step(&b, 1, ACQUIRE, class_, mode, 0, "below another");
                expect_step(&b, 1, ACQUIRE, other, above, 0, "the other");
                expect_misfits(&b, 1, class_, mode, "below, another mode");
                expect_step(&b, 1, RELEASE, class_, mode, 0, "below, its mode");
                check_byte(&b, 10 + 3, 1, "the other is left");
                check_byte(&b, 98 + 144, other + 64 * (above % 3),
                           "the other moves down");
                check_byte(&b, 1250 + 18, above >= 3,
                           "the other's origin bit moves down");
                expect_misfits(&b, 1, class_, MODES, "below, no longer held");
                expect_misfits(&b, 1, other, above, "the other, another mode");
                expect_step(&b, 1, RELEASE, other, above, 0, "the other goes");
            }
        }
        free_buffers(&b);
    }
}

/* Locks of one class in the task, the soft and the hard handler of core 3 and
 * in the task of core 4: a release finds that of its own frame alone. */
static void test_release_frames(void)
{
    static const uint8_t rows[][4] = {
        { E, TRY + E, r, R }, { r, R, TRY + r, E }, { TRY + R, E, R, TRY + E },
        { TRY + E, TRY + r, TRY + R, r }, { R, R, TRY + R, TRY + R } };
    struct buffers b;
    unsigned i, level;

    for (i = 0; i < sizeof rows / sizeof rows[0]; i++) {
        open_buffers(&b, 8, 0);
        for (level = 0; level < 4; level++) {
            put_desk(&b, 10 + 9 + level, 1);
            put_lock(&b, 9 + level, 0, 6, rows[i][level]);
        }
        put_desk(&b, STATES_AT + 4, 3);
        for (level = 3; level-- > 0;) {
            put_desk(&b, STATES_AT + 3, some_states[level]);
            expect_misfits(&b, 3, 6, rows[i][level], "in another frame");
            expect_step(&b, 3, RELEASE, 6, rows[i][level], 0, "in its frame");
            check_byte(&b, 10 + 9 + level, 0, "in its frame");
            expect_misfits(&b, 3, 6, MODES, "in other frames only");
        }
        expect_misfits(&b, 4, 6, rows[i][3], "core 4, another mode");
        expect_misfits(&b, 5, 6, MODES, "core 5, none");
        expect_step(&b, 4, RELEASE, 6, rows[i][3], 0, "core 4, its mode");
        expect_misfits(&b, 4, 6, MODES, "core 4, none any more");
        free_buffers(&b);
    }
}

/* The modes of a full frame: of each class modulo 8 all six. */
static unsigned mixed_mode(unsigned place)
{
    return (5 * place + place / 8) % 6;
}

/* A frame of so many locks of mixed modes, without the one at a place. */
static void check_mixed(const struct buffers *b, unsigned frame, unsigned depth,
                        unsigned classes, unsigned without, const char *what)
{
    uint8_t held[48] = { 0 }, origins[6] = { 0 };
    unsigned i, at = 0;

    for (i = 0; i < depth; i++) {
        if (i == without)
            continue;
        held[at] = (uint8_t)(i % classes + 64 * (mixed_mode(i) % 3));
        if (mixed_mode(i) >= 3)
            origins[at / 8] |= (uint8_t)(1u << at % 8);
        at++;
    }
    check_byte(b, 10 + frame, at, what);
    check_desk(b, 98 + 48 * frame, held, sizeof held, what);
    check_desk(b, 1250 + 6 * frame, origins, sizeof origins, what);
}

static void put_mixed(struct buffers *b, unsigned frame, unsigned classes)
{
    unsigned i;

    put_desk(b, 10 + frame, 48);
    for (i = 0; i < 48; i++)
        put_lock(b, frame, i, i % classes, mixed_mode(i));
}

/* 48 locks of mixed modes, six of each class: from the top each is released in
 * its own mode and in no other. */
static void test_release_from_top(void)
{
    struct buffers b;
    unsigned i, place;

    for (i = 0; i < 3; i++) {
        unsigned frame = some_frames[i], core = frame / 3;

        open_buffers(&b, 8, 0);
        put_desk(&b, STATES_AT + core, some_states[i]);
        put_mixed(&b, frame, 8);
        for (place = 48; place-- > 0;) {
            expect_misfits(&b, core, place % 8, mixed_mode(place),
                           "from the top, another mode");
            expect_step(&b, core, RELEASE, place % 8, mixed_mode(place), 0,
                        "from the top");
            check_mixed(&b, frame, place, 8, place, "from the top");
        }
        expect_misfits(&b, core, 0, MODES, "from the top, none is left");
        free_buffers(&b);
    }
}

/* 48 locks of mixed modes and of as many classes, each released from the full
 * frame. */
static void test_release_places(void)
{
    struct buffers b;
    unsigned i, place;

    for (i = 0; i < 3; i++) {
        unsigned frame = some_frames[i], core = frame / 3;

        open_buffers(&b, 48, 0);
        put_desk(&b, STATES_AT + core, some_states[i]);
        for (place = 0; place < 48; place++) {
            put_mixed(&b, frame, 48);
            expect_misfits(&b, core, place, mixed_mode(place),
                           "at a place, another mode");
            expect_step(&b, core, RELEASE, place, mixed_mode(place), 0,
                        "at a place");
            check_mixed(&b, frame, 48, 48, place, "at a place");
        }
        free_buffers(&b);
    }

    /* Acquired so from opening on, and released in another order. */
    open_buffers(&b, 64, 0);
    for (place = 0; place < 48; place++)
        expect_step(&b, 5, ACQUIRE, place, mixed_mode(place), 0, "48 of all");
    check_mixed(&b, 15, 48, 48, 48, "48 of all");
    for (place = 0; place < 48; place++) {
        unsigned class_ = place * 11 % 48;

        expect_misfits(&b, 5, class_, mixed_mode(class_), "48 of all, others");
        expect_step(&b, 5, RELEASE, class_, mixed_mode(class_), 0,
                    "48 of all, back");
    }
    check_byte(&b, 10 + 15, 0, "48 of all, all back");
    free_buffers(&b);
}

/* Every mode from 0 to 255 of a release: 3 from 6 on, whatever the class is; 4
 * for class K or more; 9 only where the release fits. A closed desk and an
 * unfit one are before all. Class 1 is held in the mode. */
static void expect_every_mode(unsigned held, unsigned k)
{
    struct buffers b;
    unsigned mode, i;

    open_buffers(&b, k, 3);
    put_desk(&b, 10 + 21, 1);
    put_lock(&b, 21, 0, 1, held);
    for (i = 0; i < 4; i++) { /* open, full count, closed, unfit */
        if (i == 1)
            put_count(&b, UINT32_MAX);
        if (i == 2)
            put_desk(&b, CLOSED_AT, 1);
        if (i == 3)
            put_desk(&b, STATES_AT, 9);
        for (mode = 0; mode < 256; mode++) {
            unsigned before = i == 2 ? 10 : i == 3 ? 11 : mode >= MODES ? 3 : 0;

            if (i > 0 && mode > 8 && mode % 64 > 2 && mode != 255)
                continue; /* to save time */
            if (i > 0 || mode != held)
                expect_step(&b, 7, RELEASE, 1, mode, before ? before
                            : mode == held ? 9 : 5, "every mode, held");
            expect_step(&b, 7, RELEASE, 0, mode, before ? before : 5,
                        "every mode, none held");
            expect_step(&b, 7, RELEASE, k, mode, before ? before : 4,
                        "every mode, class K");
            expect_step(&b, 7, RELEASE, 65 + 64 * (mode % 3), mode,
                        before ? before : 4, "every mode, a class of 64 more");
        }
    }
    put_desk(&b, STATES_AT, 0);
    put_desk(&b, CLOSED_AT, 0);
    put_count(&b, 0);
    expect_step(&b, 7, RELEASE, 1, held, 0, "every mode, the one that fits");
    free_buffers(&b);
}

static void test_release_every_mode(void)
{
    expect_every_mode(E, 8);
    expect_every_mode(TRY + R, 8);
    expect_every_mode(r, 2);
}

/* Where a closed strong path stands already, a release that does not fit is
 * refused all the same, and writes no slip; the one that fits is the fault. */
static void test_release_fault(void)
{
    struct buffers b;
    unsigned mode;

    open_buffers(&b, 8, 0);
    put_sheet(&b, 3, 5, PLUNGEROWL_SN);
    put_sheet(&b, 5, 3, PLUNGEROWL_EN);
    put_desk(&b, 10 + 18, 2);
    put_lock(&b, 18, 0, 2, R);
    put_lock(&b, 18, 1, 2, TRY + E);
    expect_misfits(&b, 6, 2, TRY + E, "a fault stands, another mode");
    expect_misfits(&b, 6, 3, MODES, "a fault stands, none held");
    expect_step(&b, 6, RELEASE, 2, TRY + E, 1, "a fault stands, it fits");
    for (mode = 0; mode <= MODES; mode++) {
        expect_step(&b, 6, RELEASE, 2, mode, 10, "closed, any release");
        expect_step(&b, 6, RELEASE, 8, mode, 10, "closed, of class K");
    }
    free_buffers(&b);
}

/* ---------------------------------------------------------- unfit buffers */

/* Step and ask refuse the buffers as they stand. */
static void expect_unfit(struct buffers *b, const char *what)
{
    expect_step(b, 0, HARD_ON, 0, 0, 11, what);
    expect_step(b, 255, 255, 255, 255, 11, what);
    expect_no_reach(b, 0, 11, what);
    expect_no_reach(b, UINT64_MAX, 11, what);
}

/* Set one desk byte, expect a refusal, set it back. */
static void expect_unfit_with(struct buffers *b, size_t at, unsigned value,
                              const char *what)
{
    unsigned before = b->desk.bytes[at];

    put_desk(b, at, value);
    expect_unfit(b, what);
    put_desk(b, at, before);
}

static void expect_step_lengths(struct buffers *b, size_t desk_len,
                                size_t sheet_len, size_t seen_len,
                                size_t slip_len, unsigned answer,
                                const char *what)
{
    static const uint8_t record[] = { 0x4C, 0x4B, 0, HARD_ON, 0, 0 };
    unsigned is = call_step(b, desk_len, sheet_len, seen_len, b->history.size,
                            slip_len, record, sizeof record, what);

    if (answer == 0)
        want_count(b);
    check(is == answer, "%s: step answers %u, not %u", what, is, answer);
    check_buffers(b, what);
}

static void test_unfit_lengths(void)
{
    const size_t desk = PLUNGEROWL_DESK_SIZE;
    struct buffers b;
    size_t i;

    open_buffers(&b, 8, 0);
    expect_step_lengths(&b, desk, 64, 256, 57, 0, "exact lengths");
    expect_ask_lengths(&b, desk, 64, 256, 0, 0, 0, 0, "ask, exact lengths");
    for (i = 0; i < desk; i++) {
        expect_step_lengths(&b, i, 64, 256, 57, 11, "short desk");
        expect_ask_lengths(&b, i, 64, 256, 0, 11, 0, 0, "ask, short desk");
    }
    for (i = 0; i < 64; i++) {
        expect_step_lengths(&b, desk, i, 256, 57, 11, "short sheet");
        expect_ask_lengths(&b, desk, i, 256, 0, 11, 0, 0, "ask, short sheet");
    }
    for (i = 0; i < 256; i++) {
        expect_step_lengths(&b, desk, 64, i, 57, 11, "short second sheet");
        expect_ask_lengths(&b, desk, 64, i, 0, 11, 0, 0,
                           "ask, short second sheet");
    }
    for (i = 0; i < 57; i++)
        expect_step_lengths(&b, desk, 64, 256, i, 11, "short slip");
    expect_ask_lengths(&b, desk, 63, 256, 8, 11, 0, 0, "ask, 11 before 4");
    expect_ask_lengths(&b, desk, 64, 255, 8, 11, 0, 0, "ask, 11 before 4");
    put_desk(&b, 0, 9);
    expect_step_lengths(&b, desk, 64, 256, 57, 11, "sheet for fewer classes");
    expect_ask_lengths(&b, desk, 64, 256, 0, 11, 0, 0, "ask, fewer classes");
    put_desk(&b, 0, 8);
    put_desk(&b, CLOSED_AT, 1);
    expect_step_lengths(&b, desk, 64, 256, 56, 11, "short slip, 11 before 10");
    expect_step_lengths(&b, desk, 64, 255, 57, 11,
                        "short second sheet, 11 before 10");
    expect_step_lengths(&b, desk, 64, 256, 57, 10, "exact lengths, closed");
    free_buffers(&b);
}

/* The calls on buffers that end, or begin, where a fence may stand. */
static void expect_short(size_t desk, size_t sheet, size_t seen, size_t slip,
                         const char *what)
{
    int asked = desk < PLUNGEROWL_DESK_SIZE || sheet < 64 || seen < 256;
    struct buffers b;

    make_sized(&b, 8, desk, sheet, seen, slip);
    if (asked)
        expect_open(&b, 8, 2, what);
    memset(b.desk.bytes, 0, desk);
    memset(b.want_desk.bytes, 0, desk);
    memset(b.sheet.bytes, 0, sheet);
    memset(b.want_sheet.bytes, 0, sheet);
    memset(b.seen.bytes, 0, seen);
    memset(b.want_seen.bytes, 0, seen);
    if (desk > 0)
        put_desk(&b, 0, 8);
    expect_step(&b, 0, HARD_ON, 0, 0, 11, what);
    if (asked)
        expect_no_reach(&b, 0, 11, what);
    free_buffers(&b);
}

static void test_short_buffers(void)
{
    const size_t desk = PLUNGEROWL_DESK_SIZE;
    size_t i;

    for (i = 0; i < desk; i += i < 100 ? 1 : 53)
        expect_short(i, 64, 256, 57, "a desk that is short");
    expect_short(ORIGINS_AT - 1, 64, 256, 57, "a desk without its last place");
    expect_short(ORIGINS_AT, 64, 256, 57, "a desk without origin bits");
    expect_short(ACCEPTED_AT, 64, 256, 57, "a desk without its count");
    expect_short(desk - 1, 64, 256, 57, "a desk that is short by one");
    for (i = 0; i < 64; i++)
        expect_short(desk, i, 256, 57, "a sheet that is short");
    for (i = 0; i < 256; i += i < 60 || i > 240 ? 1 : 7)
        expect_short(desk, 64, i, 57, "a second sheet that is short");
    for (i = 0; i < 57; i++)
        expect_short(desk, 64, 256, i, "a slip that is short");
    expect_short(0, 0, 0, 0, "no buffers");
}

/* A slip as it was before its entries had numbers, or short by one: 11 for
 * every record. The question needs none. */
static void test_old_slip(void)
{
    const size_t desk = PLUNGEROWL_DESK_SIZE;
    struct buffers b;
    unsigned k, i;

    for (k = 1; k <= 64; k++) {
        for (i = 0; i < 2; i++) {
            make_sized(&b, k, desk, PLUNGEROWL_SHEET_SIZE(k),
                       PLUNGEROWL_SEEN_SIZE(k), i == 0 ? 1 + 3 * k : 7 * k);
            expect_open(&b, k, 0, "an old slip, opening");
            expect_step(&b, 0, HARD_ON, 0, 0, 11, "an old slip, hard on");
            expect_step(&b, 0, ACQUIRE, k - 1, E, 11, "an old slip, acquire");
            expect_step(&b, 9, ACQUIRE, k, E, 11, "an old slip, 11 before 3");
            expect_no_reach(&b, k - 1, 0, "an old slip, ask");
            free_buffers(&b);
        }
    }
}

static void test_unfit_heads(void)
{
    struct buffers b;
    unsigned value, core;

    open_buffers(&b, 8, 70000);
    expect_unfit_with(&b, 0, 0, "K = 0");
    for (value = 65; value < 256; value++)
        expect_unfit_with(&b, 0, value, "K over 64");
    for (value = 2; value < 256; value++)
        expect_unfit_with(&b, CLOSED_AT, value, "byte 1 over 1");
    for (core = 0; core < 8; core++)
        for (value = 9; value < 256; value++)
            expect_unfit_with(&b, STATES_AT + core, value, "state over 8");
    free_buffers(&b);
}

/* The values of a held byte at each place; at some every value is tried. */
static int is_tried_value(unsigned frame, unsigned place, unsigned value)
{
    return (frame + place) % 16 == 0 || place == 0 || place == 20
           || place == DEPTH - 1 || value % 64 == 0 || value % 64 == 7
           || value % 64 == 8 || value % 64 == 63;
}

/* The byte of a standing held lock, acquired by a try or not. */
static void expect_held_byte(struct buffers *b, unsigned frame, unsigned place)
{
    size_t at = HELD_AT + DEPTH * (size_t)frame + place;
    unsigned value;

    for (value = 0; value < 2 * 256; value++) {
        if (!is_tried_value(frame, place, value))
            continue;
        put_origin(b, frame, place, value / 256);
        if (value % 64 >= 8)
            expect_unfit_with(b, at, value % 256,
                              "held lock of class K or more");
        else if (value % 256 / 64 == 3)
            expect_unfit_with(b, at, value % 256, "held lock of mode 3");
        else {
            put_desk(b, at, value % 256);
            expect_no_reach(b, 0, 0, "a fit held lock");
        }
    }
    put_origin(b, frame, place, 0);
    put_desk(b, at, 0);
}

/* A depth of 48 is fit, and a higher one is not. */
static void test_unfit_held(void)
{
    struct buffers b;
    unsigned frame, depth, i;

    open_buffers(&b, 8, 0);
    for (frame = 0; frame < FRAMES; frame++) {
        size_t held = HELD_AT + DEPTH * (size_t)frame;

        put_desk(&b, STATES_AT + frame / 3, state_for(frame));
        for (depth = 49; depth < 256; depth++)
            expect_unfit_with(&b, DEPTHS_AT + frame, depth, "depth over 48");
        for (depth = 0; depth <= 48; depth++) {
            put_desk(&b, DEPTHS_AT + frame, depth);
            expect_no_reach(&b, 0, 0, "a fit depth");
            for (i = depth; i < DEPTH; i++)
                if (frame % 11 == 1 || i == depth || i % 19 == 9
                    || i == DEPTH - 1)
                    expect_unfit_with(&b, held + i, 1 + 5 * i, "unused byte");
        }
        for (i = 0; i < DEPTH; i++)
            expect_held_byte(&b, frame, i);
        put_desk(&b, DEPTHS_AT + frame, 0);
        put_desk(&b, STATES_AT + frame / 3, 0);
    }
    free_buffers(&b);
}

/* Depths for each frame: the ends, and both sides of byte and word edges and of
 * what was the limit before. Some frames have all. */
static int is_tried_depth(unsigned frame, unsigned depth)
{
    return frame % 11 == 1 || depth % 8 <= 1 || depth % 8 == 7 || depth == 20
           || depth == 21;
}

/* An origin bit is 0 from the depth of its frame on, and free below. */
static void test_unfit_origins(void)
{
    struct buffers b;
    unsigned frame, depth, i;

    open_buffers(&b, 8, 0);
    for (frame = 0; frame < FRAMES; frame++) {
        put_desk(&b, STATES_AT + frame / 3, state_for(frame));
        for (depth = 0; depth <= DEPTH; depth++) {
            if (!is_tried_depth(frame, depth))
                continue;
            put_desk(&b, DEPTHS_AT + frame, depth);
            for (i = 0; i < DEPTH; i++) {
                put_origin(&b, frame, i, 1);
                if (i < depth)
                    expect_no_reach(&b, 0, 0, "origin bit of a held lock");
                else
                    expect_unfit(&b, "origin bit without a held lock");
                put_origin(&b, frame, i, 0);
            }
            for (i = 0; i < depth; i++)
                put_origin(&b, frame, i, 1);
            expect_no_reach(&b, 0, 0, "origin bits of all held locks");
            expect_step(&b, frame / 3, HARD_ON, 0, 0,
                        frame % 3 == 2 ? 6 : 0, "all held by tries");
            if (depth < DEPTH) {
                put_origin(&b, frame, depth, 1);
                expect_unfit(&b, "an origin bit too many");
            }
            for (i = 0; i < DEPTH; i++)
                put_origin(&b, frame, i, 0);
        }
        put_desk(&b, DEPTHS_AT + frame, 0);
        put_desk(&b, STATES_AT + frame / 3, 0);
    }
    free_buffers(&b);
}

static void test_unfit_frames(void)
{
    struct buffers b;
    unsigned frame, state;

    open_buffers(&b, 8, 0);
    for (frame = 0; frame < FRAMES; frame++) {
        put_desk(&b, DEPTHS_AT + frame, 1);
        for (state = 0; state < 9; state++) {
            put_desk(&b, STATES_AT + frame / 3, state);
            if (frames_fit[frame % 3][state])
                expect_no_reach(&b, 0, 0, "held locks in a state of theirs");
            else
                expect_unfit(&b, "held locks outside their states");
        }
        put_desk(&b, DEPTHS_AT + frame, 0);
        put_desk(&b, STATES_AT + frame / 3, 0);
    }
    free_buffers(&b);
}

static int mark_fits(unsigned mark)
{
    return (!(mark & 64) || (mark & 4)) && (!(mark & 128) || (mark & 8));
}

/* Is there an interrupt dependency from a class with this mark to itself? */
static int mark_joins_itself(unsigned mark)
{
    return ((mark & 3) && (mark & 12)) || ((mark & 48) && (mark & 192));
}

static void test_unfit_marks(void)
{
    struct buffers b;
    unsigned class_, mark;

    open_buffers(&b, 8, 0);
    for (class_ = 8; class_ < 64; class_++)
        for (mark = 1; mark < 256; mark++)
            expect_unfit_with(&b, MARKS_AT + class_, mark, "mark over K");
    for (class_ = 0; class_ < 8; class_++) {
        for (mark = 0; mark < 256; mark++) {
            put_desk(&b, MARKS_AT + class_, mark);
            if (!mark_fits(mark))
                expect_unfit(&b, "soft-unsafe without hard-unsafe");
            else if (mark_joins_itself(mark))
                expect_reach(&b, class_, BIT(class_), 1, "reaches itself");
            else
                expect_no_reach(&b, class_, 0, "reaches nothing");
        }
        put_desk(&b, MARKS_AT + class_, 0);
    }
    free_buffers(&b);
}

/* The most crosslocks in progress, and the most entries, with the highest
 * bytes. */
static void put_fullest_history(struct buffers *b)
{
    unsigned i;

    put_word(b, PROGRESS_AT, ~(UINT64_MAX >> MOST_IN_PROGRESS));
    put_entries(b, KEPT_AT, MOST_KEPT);
    for (i = 0; i < MOST_KEPT; i++)
        put_entry(b, i, FRAMES, 63 + 64 * R);
}

/* A desk and a sheet as full as they can be. */
static void test_fullest(void)
{
    struct buffers b;
    unsigned i, j;

    open_buffers(&b, 64, 0);
    for (i = 0; i < 8; i++)
        put_desk(&b, STATES_AT + i, 8);
    for (i = 0; i < FRAMES; i++)
        put_desk(&b, DEPTHS_AT + i, DEPTH);
    for (i = 0; i < 64; i++)
        put_desk(&b, MARKS_AT + i, 255);
    for (i = 0; i < PLUNGEROWL_PLACES; i++)
        put_desk(&b, HELD_AT + i, 63 + 64 * R);
    for (i = ORIGINS_AT; i < PLUNGEROWL_DESK_SIZE; i++)
        put_desk(&b, i, 255);
    put_fullest_history(&b);
    for (i = 0; i < 64; i++) {
        for (j = 0; j < 64; j++) {
            put_kinds(&b, i, j, 15);
            put_seen(&b, i, j, i == j ? 1 : UINT32_MAX - (i < j));
        }
    }
    expect_reach(&b, 63, UINT64_MAX, 64, "fullest, ask");
    expect_no_reach(&b, 64, 4, "fullest, ask class K");
    expect_step(&b, 7, ACQUIRE, 0, E, 15, "fullest, acquire of a crosslock");
    expect_step(&b, 7, RELEASE, 63, TRY + R, 15, "fullest, release of one");
    expect_step(&b, 7, CROSS, 48, 0, 16, "fullest, a crosslock in progress");
    expect_step(&b, 7, COMMIT, 47, 0, 17, "fullest, one that is not");
    expect_step(&b, 7, CROSS, 47, 0, 18, "fullest, one crosslock more");
    expect_step(&b, 7, COMMIT, 48, 0, 9, "fullest, commit");
    put_word(&b, DECLARED_AT, UINT64_MAX - BIT(0) - BIT(62) - BIT(63));
    put_word(&b, PROGRESS_AT, BIT(61));
    expect_step(&b, 7, ACQUIRE, 0, E, 8, "fullest, acquire");
    expect_step(&b, 7, EXIT_HARD, 0, 0, 7, "fullest, exit hard");
    expect_step(&b, 7, EXIT_SOFT, 0, 0, 6, "fullest, exit soft");
    expect_step(&b, 7, RELEASE, 62, TRY + R, 5, "fullest, release of 62");
    expect_step(&b, 7, RELEASE, 63, R, 5, "fullest, release of 63R");
    expect_step(&b, 7, RELEASE, 63, TRY + R, 9, "fullest, release of 63");
    put_count(&b, UINT32_MAX - 1);
    expect_step(&b, 7, RELEASE, 63, E, 5, "fullest but one, release of 63E");
    expect_step(&b, 7, RELEASE, 63, TRY + R, 1,
                "fullest but one, release of 63");
    expect_step(&b, 7, RELEASE, 63, TRY + R, 10, "fullest, closed");
    free_buffers(&b);
}

static void test_unfit_sheet(void)
{
    struct buffers b;
    unsigned from, to, value;

    open_buffers(&b, 8, 2);
    for (from = 0; from < 8; from++) {
        for (to = 0; to < 8; to++) {
            for (value = 16; value < 256; value++) {
                put_sheet(&b, from, to, value);
                expect_unfit(&b, "sheet byte over 15");
            }
            put_sheet(&b, from, to, 15);
            expect_reach(&b, from, BIT(to), 1, "sheet byte 15 is fit");
            put_sheet(&b, from, to, 0);
        }
    }
    free_buffers(&b);
}

/* ----------------------------------------------------------------- asking */

static void test_ask_refused(void)
{
    static const uint64_t wrong[] = { 8, 9, 63, 64, 255, 256, 257, 264,
                                      BIT(16), BIT(32), BIT(32) + 1, BIT(63),
                                      UINT64_MAX };
    struct buffers b;
    size_t i;

    open_used(&b, 9);
    expect_reach(&b, 1, BIT(2), 1, "ask, open desk");
    for (i = 0; i < sizeof wrong / sizeof wrong[0]; i++)
        expect_no_reach(&b, wrong[i], 4, "ask, class K or more");
    free_buffers(&b);
}

/* A class reached by R and by N is passed on from the N arrival. */
static void test_ask_arrivals(void)
{
    struct buffers b;

    open_buffers(&b, 8, 0);
    put_sheet(&b, 0, 1, PLUNGEROWL_ER);
    put_sheet(&b, 1, 3, PLUNGEROWL_SN);
    expect_reach(&b, 0, BIT(1), 1, "R before S is not strong");
    expect_reach(&b, 1, BIT(3), 1, "S may begin a path");
    put_sheet(&b, 0, 2, PLUNGEROWL_EN);
    put_sheet(&b, 2, 1, PLUNGEROWL_EN);
    expect_reach(&b, 0, BIT(1) | BIT(2) | BIT(3), 3, "second arrival by N");
    put_sheet(&b, 1, 4, PLUNGEROWL_ER);
    put_sheet(&b, 4, 5, PLUNGEROWL_SR);
    expect_reach(&b, 2, BIT(1) | BIT(3) | BIT(4), 3, "stop after R");
    free_buffers(&b);
}

/* 0 ER 1 EN 0 SN 2: class 0 must be passed twice. */
static void test_ask_back(void)
{
    struct buffers b;

    open_buffers(&b, 8, 0);
    put_sheet(&b, 3, 0, PLUNGEROWL_ER);
    put_sheet(&b, 0, 2, PLUNGEROWL_SN);
    expect_reach(&b, 3, BIT(0), 1, "before the way back");
    put_sheet(&b, 0, 1, PLUNGEROWL_ER);
    put_sheet(&b, 1, 0, PLUNGEROWL_EN);
    expect_reach(&b, 3, BIT(0) | BIT(1) | BIT(2), 3, "a class passed twice");
    free_buffers(&b);
}

/* Interrupt dependencies join marks of one level only. */
static void test_ask_marks(void)
{
    struct buffers b;

    open_buffers(&b, 64, 0);
    put_desk(&b, MARKS_AT + 0, 64 + 4);
    put_desk(&b, MARKS_AT + 62, 1);
    put_desk(&b, MARKS_AT + 63, 32);
    expect_reach(&b, 0, BIT(62) | BIT(63), 2, "hard and soft dependencies");
    put_desk(&b, MARKS_AT + 0, 4);
    expect_reach(&b, 0, BIT(62), 1, "hard dependency only");
    put_sheet(&b, 63, 1, PLUNGEROWL_SN);
    put_sheet(&b, 62, 1, PLUNGEROWL_SN);
    put_desk(&b, MARKS_AT + 62, 0);
    put_desk(&b, MARKS_AT + 0, 128 + 8);
    expect_reach(&b, 0, BIT(63), 1, "soft SR, then S");
    put_desk(&b, MARKS_AT + 62, 16);
    expect_reach(&b, 0, BIT(1) | BIT(62) | BIT(63), 3, "soft SN, then S");
    free_buffers(&b);
}

/* --------------------------------------------------------------- the feed */

/* A feed, the buffers that go with it, and what should be in it. The lengths
 * are those handed over. */
struct feeding {
    struct buffers b;
    struct guarded feed, want_feed;
    size_t feed_len, desk_len, sheet_len, seen_len, history_len, slip_len;
};

/* What a call said. */
struct said {
    unsigned answer;
    uint64_t number;
};

static uint64_t number_in(const uint8_t *feed)
{
    uint64_t number = 0;
    unsigned i;

    for (i = 8; i-- > 0;)
        number = 256 * number + feed[NUMBER_AT + i];
    return number;
}

static void put_number_in(uint8_t *feed, uint64_t number)
{
    unsigned i;

    for (i = 0; i < 8; i++, number /= 256)
        feed[NUMBER_AT + i] = (uint8_t)(number % 256);
}

/* Write into the feed and into its copy. */
static void put_feed(struct feeding *f, size_t at, unsigned value)
{
    f->feed.bytes[at] = f->want_feed.bytes[at] = (uint8_t)value;
}

static void put_number(struct feeding *f, uint64_t number)
{
    put_number_in(f->feed.bytes, number);
    put_number_in(f->want_feed.bytes, number);
}

static void put_whole_feed(struct feeding *f, unsigned answer, unsigned opened,
                           unsigned count, uint64_t number)
{
    unsigned i;

    put_feed(f, ANSWER_AT, answer);
    put_feed(f, OPENED_AT, opened);
    put_feed(f, COUNT_AT, count);
    for (i = 0; i < MOST_LOOSE; i++)
        put_feed(f, LOOSE_AT + i, 0);
    put_number(f, number);
}

/* The size of the header or record to which the loose bytes belong: by the
 * third of them, of a header. */
static unsigned unit_size(unsigned opened, const uint8_t *loose, unsigned count)
{
    return opened ? RECORD_SIZE
           : count > 2 && loose[2] == 2 ? LONG_HEADER_SIZE : HEADER_SIZE;
}

/* The fit test of docs/FORMATS.md. */
static int feed_fits(const uint8_t *feed, size_t length)
{
    static const char stands[2][21] = { "x-x-----------------",
                                        "xx-xxxxxxxxx---xxxxx" };
    unsigned i;

    if (length < FEED_SIZE || feed[OPENED_AT] > 1
        || feed[COUNT_AT] >= unit_size(feed[OPENED_AT], feed + LOOSE_AT,
                                       feed[COUNT_AT]))
        return 0;
    for (i = 0; i < MOST_LOOSE; i++)
        if (i >= feed[COUNT_AT] && feed[LOOSE_AT + i] != 0)
            return 0;
    if (feed[ANSWER_AT] > 19
        || stands[feed[OPENED_AT]][feed[ANSWER_AT]] != 'x')
        return 0;
    if (feed[ANSWER_AT] != 0 && feed[COUNT_AT] != 0)
        return 0;
    if (feed[OPENED_AT] == 0)
        return number_in(feed) == 0;
    return feed[ANSWER_AT] == 0 || number_in(feed) != 0;
}

/* The header or a record gets its answer: by open and step, on the copies. */
static void want_unit(struct feeding *f, const uint8_t *unit, size_t size)
{
    uint8_t *feed = f->want_feed.bytes;
    struct buffers *b = &f->b;
    uint64_t number = number_in(feed);
    int good = unit[0] == 0x4C && unit[1] == 0x48
               && (unit[2] == 1 || unit[2] == 2);

    if (feed[OPENED_AT]) {
        feed[ANSWER_AT] = plungerowl_step(b->want_desk.bytes, f->desk_len,
                                          b->want_sheet.bytes, f->sheet_len,
                                          b->want_seen.bytes, f->seen_len,
                                          b->want_history.bytes, f->history_len,
                                          b->want_slip.bytes, f->slip_len,
                                          unit, size);
        put_number_in(feed, number + (number != UINT64_MAX));
        if (feed[ANSWER_AT] == 1)
            want_cycle(b, "fed");
    } else {
        feed[ANSWER_AT] = plungerowl_open(good ? unit[3] : 0,
                                          size == LONG_HEADER_SIZE
                                          ? word_at(unit + HEADER_SIZE) : 0,
                                          b->want_desk.bytes, f->desk_len,
                                          b->want_sheet.bytes, f->sheet_len,
                                          b->want_seen.bytes, f->seen_len,
                                          b->want_history.bytes,
                                          f->history_len);
        feed[OPENED_AT] = feed[ANSWER_AT] == 0;
    }
    memset(feed + COUNT_AT, 0, 1 + MOST_LOOSE);
}

/* A byte more of the log. */
static void want_byte(struct feeding *f, uint8_t byte)
{
    uint8_t *feed = f->want_feed.bytes;
    unsigned count = feed[COUNT_AT];
    uint8_t unit[LONG_HEADER_SIZE];

    if (feed[ANSWER_AT] != 0)
        return;
    memcpy(unit, feed + LOOSE_AT, count);
    unit[count] = byte;
    if (count + 1 == unit_size(feed[OPENED_AT], unit, count + 1)) {
        want_unit(f, unit, count + 1);
    } else {
        feed[LOOSE_AT + count] = byte;
        feed[COUNT_AT]++;
    }
}

static void want_end(struct feeding *f)
{
    uint8_t *feed = f->want_feed.bytes;
    uint8_t loose[MOST_LOOSE];

    memcpy(loose, feed + LOOSE_AT, MOST_LOOSE);
    if (feed[ANSWER_AT] != 0 || (feed[OPENED_AT] && feed[COUNT_AT] == 0))
        return;
    if (feed[OPENED_AT]) {
        want_unit(f, loose, feed[COUNT_AT]);
    } else {
        memset(feed + COUNT_AT, 0, 1 + MOST_LOOSE);
        feed[ANSWER_AT] = 2;
    }
}

static unsigned call_feed(struct feeding *f, const uint8_t *piece,
                          size_t length, uint64_t *record, const char *what)
{
    const struct guarded *lent = lent_bytes(piece, length);
    unsigned is = plungerowl_feed(f->feed.bytes, f->feed_len,
                                  f->b.desk.bytes, f->desk_len,
                                  f->b.sheet.bytes, f->sheet_len,
                                  f->b.seen.bytes, f->seen_len,
                                  f->b.history.bytes, f->history_len,
                                  f->b.slip.bytes, f->slip_len,
                                  lent->bytes, length, record);

    feed_met[is] = 1;
    check(memcmp(lent->bytes, piece, length) == 0, "%s: the piece", what);
    check(guarded_intact(lent), "%s: bytes around the piece", what);
    return is;
}

static unsigned call_end(struct feeding *f, uint64_t *record)
{
    unsigned is = plungerowl_feed_end(f->feed.bytes, f->feed_len,
                                      f->b.desk.bytes, f->desk_len,
                                      f->b.sheet.bytes, f->sheet_len,
                                      f->b.seen.bytes, f->seen_len,
                                      f->b.history.bytes, f->history_len,
                                      f->b.slip.bytes, f->slip_len, record);

    end_met[is] = 1;
    return is;
}

/* Feed a piece, or end for NULL; all is as it should be by open and step. */
static struct said feed_or_end(struct feeding *f, const uint8_t *piece,
                               size_t length, const char *what)
{
    uint64_t records[3] = { GUARD_WORD, GUARD_WORD, GUARD_WORD };
    struct said due = { PLUNGEROWL_UNFIT, 0 }, is;
    size_t i;

    if (feed_fits(f->want_feed.bytes, f->feed_len)) {
        if (piece == NULL)
            want_end(f);
        for (i = 0; i < length; i++)
            want_byte(f, piece[i]);
        due.answer = f->want_feed.bytes[ANSWER_AT];
        due.number = number_in(f->want_feed.bytes);
    }
    is.answer = piece == NULL ? call_end(f, &records[1])
                              : call_feed(f, piece, length, &records[1], what);
    is.number = records[1];
    check(is.answer == due.answer, "%s: %s answers %u, not %u", what,
          piece == NULL ? "end" : "feed", is.answer, due.answer);
    check(is.number == due.number, "%s: record %" PRIu64 ", not %" PRIu64, what,
          is.number, due.number);
    check(records[0] == GUARD_WORD && records[2] == GUARD_WORD,
          "%s: bytes around the record number", what);
    check_buffer(&f->feed, &f->want_feed, "feed", what);
    check_buffers(&f->b, what);
    return is;
}

/* What a call said is what is given. */
static void expect_said(struct said is, unsigned answer, uint64_t number,
                        const char *what)
{
    check(is.answer == answer && is.number == number,
          "%s: %u at record %" PRIu64 ", not %u at %" PRIu64, what, is.answer,
          is.number, answer, number);
}

static void expect_feed(struct feeding *f, const uint8_t *piece, size_t length,
                        unsigned answer, uint64_t number, const char *what)
{
    expect_said(feed_or_end(f, piece, length, what), answer, number, what);
}

static void expect_end(struct feeding *f, unsigned answer, uint64_t number,
                       const char *what)
{
    expect_said(feed_or_end(f, NULL, 0, what), answer, number, what);
}

static void expect_start(struct feeding *f, unsigned answer, const char *what)
{
    unsigned is = plungerowl_feed_start(f->feed.bytes, f->feed_len);

    start_met[is] = 1;
    if (answer == 0)
        memset(f->want_feed.bytes, 0, FEED_SIZE);
    check(is == answer, "%s: start answers %u, not %u", what, is, answer);
    check_buffer(&f->feed, &f->want_feed, "feed", what);
}

/* All bytes as they were made, and a fresh feed. */
static void start_again(struct feeding *f)
{
    struct guarded *all[] = { &f->feed, &f->b.desk, &f->b.sheet, &f->b.seen,
                              &f->b.history, &f->b.slip, &f->want_feed,
                              &f->b.want_desk, &f->b.want_sheet,
                              &f->b.want_seen, &f->b.want_history,
                              &f->b.want_slip };
    size_t i;

    for (i = 0; i < sizeof all / sizeof all[0]; i++)
        guarded_fill(all[i], FILL);
    expect_start(f, f->feed_len < FEED_SIZE ? 2 : 0, "start");
}

/* A fresh feed and buffers of the given sizes, for logs of k classes. */
static void start_all(struct feeding *f, unsigned k, size_t feed_size,
                      size_t desk, size_t sheet, size_t seen, size_t history,
                      size_t slip)
{
    make_all(&f->b, k, desk, sheet, seen, history, slip);
    make_lent(&f->feed, feed_size);
    need(guarded_make(&f->want_feed, feed_size, FILL));
    f->feed_len = feed_size;
    f->desk_len = desk;
    f->sheet_len = sheet;
    f->seen_len = seen;
    f->history_len = f->b.history.size;
    f->slip_len = slip;
    start_again(f);
}

static void start_sized(struct feeding *f, unsigned k, size_t feed_size,
                        size_t desk, size_t sheet, size_t seen, size_t slip)
{
    start_all(f, k, feed_size, desk, sheet, seen, HISTORY_SIZE, slip);
}

static void start_feed(struct feeding *f, unsigned k, size_t tail)
{
    start_all(f, k, FEED_SIZE + tail, PLUNGEROWL_DESK_SIZE + tail,
              PLUNGEROWL_SHEET_SIZE(k) + tail, PLUNGEROWL_SEEN_SIZE(k) + tail,
              HISTORY_SIZE + tail, PLUNGEROWL_SLIP_SIZE(k) + tail);
}

static void free_feed(struct feeding *f)
{
    free_buffers(&f->b);
    free_lent(&f->feed);
    guarded_free(&f->want_feed);
}

/* The feed's own bytes are the given ones. */
static void check_feed(const struct feeding *f, const uint8_t *bytes,
                       const char *what)
{
    size_t i;

    for (i = 0; i < FEED_SIZE; i++)
        check(f->feed.bytes[i] == bytes[i], "%s: feed byte %lu is %02X", what,
              (unsigned long)i, f->feed.bytes[i]);
}

/* ------------------------------------------------------------------- logs */

struct log {
    size_t size;
    uint8_t bytes[LONGEST_PIECE];
};

static void log_byte(struct log *log, unsigned byte)
{
    need(log->size < sizeof log->bytes);
    log->bytes[log->size++] = (uint8_t)byte;
}

static void log_header(struct log *log, unsigned k)
{
    log->size = 0;
    log_byte(log, 0x4C);
    log_byte(log, 0x48);
    log_byte(log, 1);
    log_byte(log, k);
}

static void log_record(struct log *log, unsigned core, unsigned kind,
                       unsigned class_, unsigned mode)
{
    log_byte(log, 0x4C);
    log_byte(log, 0x4B);
    log_byte(log, core);
    log_byte(log, kind);
    log_byte(log, class_);
    log_byte(log, mode);
}

/* Loose bytes, which no log has as they stand. */
static void log_loose(struct log *log, unsigned count)
{
    unsigned i;

    for (i = 0; i < count; i++)
        log_byte(log, 0xF1 + i);
}

static uint64_t seed;

static unsigned below(unsigned n)
{
    seed ^= seed << 13;
    seed ^= seed >> 7;
    seed ^= seed << 17;
    return (unsigned)(seed >> 33) % n;
}

/* Some clean records of a core. Classes are acquired in rising order, the
 * highest in handlers only. */
static void log_clean(struct log *log, unsigned core)
{
    unsigned low = below(3), high = 3 + below(4);
    unsigned mode = below(MODES), other = below(MODES), tried = TRY + below(3);

    switch (below(4)) {
    case 0:
        log_record(log, core, ACQUIRE, low, mode);
        log_record(log, core, ACQUIRE, high, other);
        log_record(log, core, RELEASE, low, mode);
        log_record(log, core, RELEASE, high, other);
        break;
    case 1:
        log_record(log, core, ENTER_HARD, 0, 0);
        log_record(log, core, ACQUIRE, 7, mode);
        log_record(log, core, RELEASE, 7, mode);
        log_record(log, core, EXIT_HARD, 0, 0);
        break;
    case 2:
        log_record(log, core, ACQUIRE, high, mode);
        log_record(log, core, ACQUIRE, low, tried);
        log_record(log, core, RELEASE, high, mode);
        log_record(log, core, RELEASE, low, tried);
        break;
    default:
        log_record(log, core, SOFT_OFF, 0, 0);
        log_record(log, core, HARD_OFF, 0, 0);
        log_record(log, core, HARD_ON, 0, 0);
        log_record(log, core, SOFT_ON, 0, 0);
        break;
    }
}

/* Endings of a log; behind all but the last two stands more. */
enum { END_FAULT, END_3, END_4, END_5, END_6, END_7, END_8, END_LOOSE,
       END_CLEAN, ENDINGS };

static void log_ending(struct log *log, unsigned ending)
{
    unsigned i;

    switch (ending) {
    case END_FAULT:
        log_record(log, 1, ACQUIRE, 1, E);
        log_record(log, 1, ACQUIRE, 2, E);
        log_record(log, 2, ACQUIRE, 2, E);
        log_record(log, 2, ACQUIRE, 1, E);
        break;
    case END_3: log_record(log, 0, HARD_ON, 1, 0); break;
    case END_4: log_record(log, 0, ACQUIRE, 8, E); break;
    case END_5: /* the read that may wait, where the try is held */
        log_record(log, 0, ACQUIRE, 6, TRY + R);
        log_record(log, 0, RELEASE, 6, R);
        break;
    case END_6: log_record(log, 0, EXIT_SOFT, 0, 0); break;
    case END_7:
        log_record(log, 3, ENTER_SOFT, 0, 0);
        log_record(log, 3, ACQUIRE, 6, TRY + R);
        log_record(log, 3, EXIT_SOFT, 0, 0);
        break;
    case END_8:
        for (i = 0; i <= DEPTH; i++)
            log_record(log, 4, ACQUIRE, 6, R);
        break;
    case END_LOOSE: log_loose(log, 1 + below(5)); return;
    default: return;
    }
    log_record(log, 0, ACQUIRE, 0, E);
    log_loose(log, below(8));
}

/* A log of about so many records; what it ends with. */
static unsigned make_log(struct log *log, unsigned records, unsigned ending)
{
    static const unsigned answers[ENDINGS] = { 1, 3, 4, 5, 6, 7, 8, 3, 0 };

    log_header(log, 8);
    while (log->size < 6 * (size_t)records)
        log_clean(log, below(CORES));
    log_ending(log, ending);
    return answers[ending];
}

/* P2 with three classes, and its end. */
static void make_p2(struct log *log)
{
    log_header(log, 3);
    log_record(log, 0, ACQUIRE, 1, E);
    log_record(log, 0, ACQUIRE, 2, E);
    log_record(log, 0, RELEASE, 2, E);
    log_record(log, 0, RELEASE, 1, E);
    log_record(log, 1, ACQUIRE, 2, E);
    log_record(log, 1, ACQUIRE, 1, E);
}

/* --------------------------------------------------------- starting a feed */

static void test_feed_start(void)
{
    static const size_t tails[] = { 0, 1, 2, 100 };
    struct feeding f;
    size_t i;

    for (i = 0; i < FEED_SIZE; i++) {
        start_sized(&f, 1, i, 0, 0, 0, 0);
        free_feed(&f);
    }
    for (i = 0; i < sizeof tails / sizeof tails[0]; i++) {
        start_sized(&f, 1, FEED_SIZE + tails[i], 0, 0, 0, 0);
        guarded_fill(&f.feed, 0xFF);
        guarded_fill(&f.want_feed, 0xFF);
        expect_start(&f, 0, "start over other bytes");
        free_feed(&f);
    }
    start_feed(&f, 1, 0);
    for (f.feed_len = 0; f.feed_len < FEED_SIZE; f.feed_len++) {
        guarded_fill(&f.feed, FILL);
        guarded_fill(&f.want_feed, FILL);
        expect_start(&f, 2, "start, short feed");
    }
    free_feed(&f);
}

/* A feed that has stopped is started again for the next log. */
static void test_feed_again(void)
{
    static struct log log;
    struct feeding f;

    make_p2(&log);
    start_feed(&f, 8, 3);
    expect_feed(&f, log.bytes, log.size, 1, 6, "first log");
    expect_start(&f, 0, "start again");
    expect_end(&f, 2, 0, "end of no log");
    expect_start(&f, 0, "start again");
    expect_feed(&f, log.bytes, 10, 0, 1, "second log");
    expect_start(&f, 0, "start again");
    log_header(&log, 8);
    log_record(&log, 7, ACQUIRE, 7, E);
    expect_feed(&f, log.bytes, log.size, 0, 1, "third log");
    expect_end(&f, 0, 1, "its end");
    free_feed(&f);
}

/* --------------------------------------------------------- header, records */

/* The example of docs/FORMATS.md. */
static void test_feed_example(void)
{
    static const struct {
        size_t size;
        unsigned answer, number;
        uint8_t feed[FEED_SIZE];
    } rows[] = {
        { 3, 0, 0, { 0, 0, 3, 0x4C, 0x48, 1 } },
        { 0, 0, 0, { 0, 0, 3, 0x4C, 0x48, 1 } },
        { 6, 0, 0, { 0, 1, 5, 0x4C, 0x4B, 0, 0, 1 } },
        { 3, 0, 1, { 0, 1, 2, 0x4C, 0x4B, [14] = 1 } },
        { 28, 1, 6, { 1, 1, [14] = 6 } },
        { 2, 1, 6, { 1, 1, [14] = 6 } }
    };
    static struct log log;
    struct feeding f;
    size_t i, at = 0;

    make_p2(&log);
    log_byte(&log, 0x4C);
    log_byte(&log, 0x4B);
    start_feed(&f, 3, 0);
    for (i = 0; i < sizeof rows / sizeof rows[0]; i++) {
        expect_feed(&f, log.bytes + at, rows[i].size, rows[i].answer,
                    rows[i].number, "feed example");
        check_feed(&f, rows[i].feed, "feed example");
        at += rows[i].size;
    }
    expect_end(&f, 1, 6, "feed example, end");
    check(at == log.size, "feed example: its size");
    free_feed(&f);
}

/* Every value of each byte of the header; the fourth byte brings the answer,
 * also with a wrong first one. */
static void test_feed_header(void)
{
    static struct log log;
    struct feeding f;
    unsigned place, value, i;

    start_feed(&f, 64, 0);
    for (place = 0; place < 4; place++) {
        for (value = 0; value < 256; value++) {
            unsigned good;

            log_header(&log, 64);
            log_record(&log, 0, ACQUIRE, 0, E);
            good = place == 3 ? value >= 1 && value <= 64
                              : value == log.bytes[place];
            if (place == 2 && value == 2)
                continue; /* a long one: below */
            log.bytes[place] = (uint8_t)value;
            start_again(&f);
            for (i = 0; i < 3; i++)
                expect_feed(&f, log.bytes + i, 1, 0, 0, "header, byte by byte");
            expect_feed(&f, log.bytes + 3, 1, good ? 0 : 2, 0, "header");
            expect_feed(&f, log.bytes + 4, 6, good ? 0 : 2, good,
                        "a record behind the header");
            start_again(&f);
            expect_feed(&f, log.bytes, log.size, good ? 0 : 2, good,
                        "header and record");
            expect_end(&f, good ? 0 : 2, good, "header and record, end");
        }
    }
    free_feed(&f);
}

/* Every value of each byte of a record; the sixth byte brings the answer. */
static void test_feed_record(void)
{
    static struct log log;
    struct feeding f;
    unsigned place, value, i;

    start_feed(&f, 8, 0);
    for (place = 0; place < 6; place++) {
        for (value = 0; value < 256; value++) {
            struct said whole, cut;

            log_header(&log, 8);
            log_record(&log, 2, ACQUIRE, 1, E);
            log_record(&log, 2, RELEASE, 1, E);
            log.bytes[4 + 6 + place] = (uint8_t)value;
            start_again(&f);
            whole = feed_or_end(&f, log.bytes, log.size, "two records");
            start_again(&f);
            expect_feed(&f, log.bytes, 10, 0, 1, "one record");
            for (i = 0; i < 5; i++)
                expect_feed(&f, log.bytes + 10 + i, 1, 0, 1,
                            "record, byte by byte");
            cut = feed_or_end(&f, log.bytes + 15, 1, "record");
            check(cut.number == 2, "record: number");
            expect_said(cut, whole.answer, whole.number, "record, cut");
            if (place < 2 && value != log.bytes[4 + place])
                expect_said(cut, 3, 2, "record, wrong signature");
            if (place == 5)
                expect_said(cut, value == E ? 0 : value < MODES ? 5 : 3, 2,
                            "record, the mode of a release");
        }
    }
    free_feed(&f);
}

/* ------------------------------------------------------------------- cuts */

/* The log in pieces: cut behind byte i where bit i of the mask is 1. */
static void feed_cut(struct feeding *f, const struct log *log, uint64_t mask,
                     unsigned answer, uint64_t number, const char *what)
{
    struct said last = { 0, 0 };
    size_t from = 0, to;

    start_again(f);
    for (to = 1; to <= log->size; to++) {
        if (to < log->size && !(mask >> (to - 1) & 1))
            continue;
        last = feed_or_end(f, log->bytes + from, to - from, what);
        from = to;
    }
    if (last.answer != 0)
        expect_said(last, answer, number, what);
    expect_end(f, answer, number, what);
}

static void feed_all_cuts(struct feeding *f, const struct log *log,
                          unsigned answer, uint64_t number, const char *what)
{
    uint64_t mask;

    for (mask = 0; mask < BIT(log->size - 1); mask++)
        feed_cut(f, log, mask, answer, number, what);
}

/* The two longest only with guards on both sides, to save time: 32768 cuts. */
static void test_feed_cuts(void)
{
    static struct log log;
    struct feeding f;

    start_feed(&f, 2, 0);
    log_header(&log, 2);
    log_record(&log, 0, ACQUIRE, 1, E);
    feed_all_cuts(&f, &log, 0, 1, "cuts, one record");
    log_record(&log, 0, RELEASE, 1, E);
    if (sides == GUARD_BOTH)
        feed_all_cuts(&f, &log, 0, 2, "cuts, two records");

    log_header(&log, 2);
    log_record(&log, 0, ACQUIRE, 0, R);
    log_record(&log, 0, ACQUIRE, 0, r);
    if (sides == GUARD_BOTH)
        feed_all_cuts(&f, &log, 1, 2, "cuts, a fault");

    log_header(&log, 2);
    log_record(&log, 0, RELEASE, 1, TRY + R);
    log_loose(&log, 4);
    feed_all_cuts(&f, &log, 5, 1, "cuts, a refusal and more");

    log_header(&log, 2);
    log_loose(&log, 5);
    feed_all_cuts(&f, &log, 3, 1, "cuts, loose bytes");

    log_header(&log, 65);
    log_record(&log, 0, ACQUIRE, 1, E);
    feed_all_cuts(&f, &log, 2, 0, "cuts, a wrong header and more");

    log.size = 3;
    feed_all_cuts(&f, &log, 2, 0, "cuts, a short header");
    free_feed(&f);
}

/* Empty pieces and end calls wherever they may stand: in front of every byte
 * empty pieces, between records end calls too. */
static void test_feed_between(void)
{
    static struct log log;
    struct feeding f;
    size_t i;

    make_p2(&log);
    log_loose(&log, 3);
    start_feed(&f, 3, 0);
    for (i = 0; i < log.size; i++) {
        unsigned answer = i >= 40;
        uint64_t number = i < 10 ? 0 : i < 40 ? (i - 4) / 6 : 6;
        unsigned j;

        for (j = 0; j < 2; j++)
            expect_feed(&f, log.bytes, 0, answer, number, "an empty piece");
        for (j = 0; j < 2; j++)
            if (i >= 4 && (i % 6 == 4 || i > 40))
                expect_end(&f, answer, number, "end between records");
        feed_or_end(&f, log.bytes + i, 1, "a byte");
    }
    expect_end(&f, 1, 6, "end behind a fault");
    free_feed(&f);
}

/* Long logs of all endings with random cuts, against open and step. */
static void test_feed_long(void)
{
    static const struct {
        unsigned most, records; /* bytes of a piece, and less; of a log */
    } cuts[] = { { 2, 200 }, { 3, 300 }, { 8, 1000 }, { 14, 2000 },
                 { 100, 6000 }, { 5000, 6000 }, { 40000, 6000 } };
    static struct log log;
    struct feeding f;
    unsigned ending, i;

    seed = 20261115;
    start_feed(&f, 8, 0);
    for (ending = 0; ending < ENDINGS; ending++) {
        for (i = 0; i < sizeof cuts / sizeof cuts[0]; i++) {
            unsigned answer = make_log(&log, cuts[i].records, ending);
            struct said last = { 0, 0 };
            size_t at = 0;

            start_again(&f);
            while (at < log.size) {
                size_t size = below(cuts[i].most);

                if (size > log.size - at)
                    size = log.size - at;
                last = feed_or_end(&f, log.bytes + at, size, "a long log");
                at += size;
            }
            check(last.answer == (ending == END_LOOSE ? 0 : answer),
                  "a long log: ending %u", ending);
            last = feed_or_end(&f, NULL, 0, "a long log, end");
            check(last.answer == answer && last.number >= cuts[i].records,
                  "a long log, end: ending %u", ending);
        }
    }
    free_feed(&f);
}

/* More bytes in a piece, and more records, than 16 bits count. */
static void test_feed_many(void)
{
    enum { PAIRS = 5800, PIECES = 6 };
    static struct log log;
    struct feeding f;
    unsigned i;

    start_feed(&f, 1, 0);
    log_header(&log, 1);
    expect_feed(&f, log.bytes, log.size, 0, 0, "many records, header");
    log.size = 0;
    for (i = 0; i < PAIRS; i++) {
        log_record(&log, 0, ACQUIRE, 0, E);
        log_record(&log, 0, RELEASE, 0, E);
    }
    for (i = 1; i <= PIECES; i++)
        expect_feed(&f, log.bytes, log.size, 0, 2 * PAIRS * (uint64_t)i,
                    "many records");
    expect_end(&f, 0, 69600, "many records, end");
    check(log.size > UINT16_MAX, "many records: a short piece");
    free_feed(&f);
}

/* Two feeds in turn, on buffers of their own. */
static void test_feed_two(void)
{
    static struct log logs[2];
    struct feeding f[2];
    size_t at[2] = { 0, 0 };
    unsigned i;

    seed = 7;
    make_log(&logs[0], 300, END_FAULT);
    make_log(&logs[1], 300, END_CLEAN);
    for (i = 0; i < 2; i++)
        start_feed(&f[i], 8, i);
    while (at[0] < logs[0].size || at[1] < logs[1].size) {
        unsigned one = below(2);
        size_t size = below(10);

        if (size > logs[one].size - at[one])
            size = logs[one].size - at[one];
        feed_or_end(&f[one], logs[one].bytes + at[one], size, "two feeds");
        at[one] += size;
        check_buffers(&f[1 - one].b, "two feeds, the other");
        check_buffer(&f[1 - one].feed, &f[1 - one].want_feed, "feed",
                     "two feeds, the other");
    }
    for (i = 0; i < 2; i++) {
        struct said last = feed_or_end(&f[i], NULL, 0, "two feeds, end");

        check(last.answer == 1 - i, "two feeds: answer %u", last.answer);
        free_feed(&f[i]);
    }
}

/* ------------------------------------------------------ behind an answer */

/* A feed that has stopped repeats its answer and changes nothing, whatever
 * comes and whatever is lent. */
static void expect_stopped(struct feeding *f, unsigned answer, uint64_t number,
                           const char *what)
{
    static struct log log;
    struct feeding other = *f;
    unsigned i;

    log_header(&log, 2);
    log_record(&log, 0, ACQUIRE, 1, E);
    for (i = 0; i < 2; i++) {
        expect_feed(f, log.bytes, 0, answer, number, what);
        expect_feed(f, log.bytes, 1, answer, number, what);
        expect_feed(f, log.bytes + 4, 6, answer, number, what);
        expect_feed(f, log.bytes, log.size, answer, number, what);
        expect_end(f, answer, number, what);
    }
    other.desk_len = other.sheet_len = other.seen_len = 0;
    other.history_len = other.slip_len = 0;
    expect_feed(&other, log.bytes, log.size, answer, number, what);
    expect_end(&other, answer, number, what);
}

/* Every answer but 0 stops a feed; what follows in the same piece is not looked
 * at. */
static void test_feed_stop(void)
{
    static struct log log;
    struct feeding f;
    unsigned ending;
    size_t size;

    seed = 99;
    start_feed(&f, 8, 0);
    for (ending = 0; ending < END_LOOSE; ending++) {
        unsigned answer = make_log(&log, 12, ending);
        struct said whole;

        start_again(&f);
        whole = feed_or_end(&f, log.bytes, log.size, "stop, whole log");
        check(whole.answer == answer && whole.number > 0,
              "stop, ending %u: %u", ending, whole.answer);
        check(4 + 6 * whole.number < log.size, "stop: nothing follows");
        expect_stopped(&f, answer, whole.number, "stop, whole log");
        /* The same where the piece ends with the record, or a little later. */
        for (size = 4 + 6 * (size_t)whole.number; size < log.size; size++) {
            start_again(&f);
            expect_feed(&f, log.bytes, size, answer, whole.number, "stop");
            expect_feed(&f, log.bytes + size, log.size - size, answer,
                        whole.number, "stop, the rest");
        }
    }
    start_again(&f);
    log_header(&log, 0);
    log_record(&log, 0, ACQUIRE, 0, E);
    expect_feed(&f, log.bytes, log.size, 2, 0, "stop, header");
    log_header(&log, 8);
    expect_feed(&f, log.bytes, log.size, 2, 0, "stop, a good header later");
    expect_stopped(&f, 2, 0, "stop, header");
    free_feed(&f);
}

/* ---------------------------------------------------------------- the end */

/* The end of the log behind each of its bytes; where it is 0 the log goes
 * on. */
static void test_feed_end(void)
{
    static struct log log;
    struct feeding f;
    size_t at;

    make_p2(&log);
    start_feed(&f, 3, 0);
    for (at = 0; at <= log.size; at++) {
        uint64_t records = at < 4 ? 0 : (at - 4) / 6;
        unsigned loose = at < 4 || at % 6 != 4;
        unsigned answer = at < 4 ? 2 : loose ? 3 : at == log.size;

        start_again(&f);
        feed_or_end(&f, log.bytes, at, "a part of the log");
        expect_end(&f, answer, records + (answer == 3), "end");
        expect_end(&f, answer, records + (answer == 3), "end again");
        if (answer == 0)
            expect_feed(&f, log.bytes + at, log.size - at, 1, 6, "going on");
        else
            expect_stopped(&f, answer, records + (answer == 3), "end stays");
    }
    free_feed(&f);
}

/* Loose bytes of any value are a short record. */
static void test_feed_end_loose(void)
{
    static struct log log;
    struct feeding f;
    unsigned count, value, i;

    start_feed(&f, 8, 0);
    for (count = 1; count <= 5; count++) {
        for (value = 0; value < 256; value++) {
            log_header(&log, 8);
            log_record(&log, 5, ACQUIRE, 1, E);
            for (i = 0; i < count; i++)
                log_byte(&log, value + 51 * i);
            start_again(&f);
            expect_feed(&f, log.bytes, log.size, 0, 1, "loose bytes");
            check(f.feed.bytes[COUNT_AT] == count, "loose bytes: their count");
            check(memcmp(f.feed.bytes + LOOSE_AT, log.bytes + 10, count) == 0,
                  "loose bytes: their places");
            expect_end(&f, 3, 2, "loose bytes, end");
        }
    }
    free_feed(&f);
}

/* 11 and 10 at the end, before 3: by a slip that is too short, or by somebody
 * who wrote the buffers. */
static void test_feed_end_order(void)
{
    static struct log log;
    struct feeding f;
    unsigned loose;

    log_header(&log, 8);
    log_loose(&log, 5);
    for (loose = 0; loose <= 5; loose++) {
        start_sized(&f, 8, FEED_SIZE, PLUNGEROWL_DESK_SIZE, 64, 256, 56);
        expect_feed(&f, log.bytes, 4 + loose, 0, 0, "short slip, no record");
        expect_end(&f, loose == 0 ? 0 : 11, loose > 0, "short slip, end");
        if (loose > 0)
            expect_stopped(&f, 11, 1, "short slip, end");
        free_feed(&f);

        start_feed(&f, 8, 0);
        expect_feed(&f, log.bytes, 4 + loose, 0, 0, "another writer");
        put_desk(&f.b, CLOSED_AT, 1);
        expect_end(&f, loose == 0 ? 0 : 10, loose > 0, "closed, end");
        if (loose > 0)
            expect_stopped(&f, 10, 1, "closed, end");
        start_again(&f);
        expect_feed(&f, log.bytes, 4 + loose, 0, 0, "another writer");
        put_desk(&f.b, CLOSED_AT, 1);
        put_desk(&f.b, STATES_AT, 9);
        expect_end(&f, loose == 0 ? 0 : 11, loose > 0, "unfit and closed, end");
        start_again(&f);
        expect_feed(&f, log.bytes, 4 + loose, 0, 0, "another writer");
        f.sheet_len = 63;
        expect_end(&f, loose == 0 ? 0 : 11, loose > 0, "short sheet, end");
        f.sheet_len = 64;
        start_again(&f);
        expect_feed(&f, log.bytes, 4 + loose, 0, 0, "another writer");
        f.seen_len = 255;
        expect_end(&f, loose == 0 ? 0 : 11, loose > 0,
                   "short second sheet, end");
        f.seen_len = 256;
        start_again(&f);
        expect_feed(&f, log.bytes, 4 + loose, 0, 0, "another writer");
        put_seen(&f.b, 7, 7, 1);
        expect_end(&f, loose == 0 ? 0 : 11, loose > 0, "a number, end");
        start_again(&f);
        expect_feed(&f, log.bytes, 4 + loose, 0, 0, "another writer");
        put_count(&f.b, UINT32_MAX);
        expect_end(&f, loose == 0 ? 0 : 3, loose > 0, "full count, end");
        start_again(&f);
        expect_feed(&f, log.bytes, 4 + loose, 0, 0, "another writer");
        f.desk_len = ACCEPTED_AT;
        expect_end(&f, loose == 0 ? 0 : 11, loose > 0, "short desk, end");
        free_feed(&f);
    }
}

/* The end call does not look at desk, sheets and slip without loose bytes, nor
 * an empty piece, nor one that completes nothing. */
static void test_feed_not_looked_at(void)
{
    static struct log log;
    struct feeding f;

    make_p2(&log);
    start_all(&f, 3, FEED_SIZE, 0, 0, 0, 0, 0);
    expect_feed(&f, log.bytes, 3, 0, 0, "no buffers, part of a header");
    expect_end(&f, 2, 0, "no buffers, end");
    free_feed(&f);

    start_feed(&f, 3, 0);
    expect_feed(&f, log.bytes, 10, 0, 1, "a record");
    f.desk_len = f.sheet_len = f.seen_len = f.history_len = f.slip_len = 0;
    expect_feed(&f, log.bytes, 0, 0, 1, "no buffers, empty piece");
    expect_end(&f, 0, 1, "no buffers, end");
    expect_feed(&f, log.bytes + 10, 5, 0, 1, "no buffers, part of a record");
    f.desk_len = f.b.desk.size;
    f.sheet_len = f.b.sheet.size;
    f.seen_len = f.b.seen.size;
    f.history_len = f.b.history.size;
    f.slip_len = f.b.slip.size;
    expect_feed(&f, log.bytes + 15, 1, 0, 2, "its last byte");
    free_feed(&f);
}

/* ---------------------------------------------------------- unfit and short */

/* 11 at record 0 for a piece, an empty one and the end. */
static void expect_unfit_feed(struct feeding *f, const char *what)
{
    static const uint8_t record[] = { 0x4C, 0x4B, 0, HARD_ON, 0, 0 };

    check(!feed_fits(f->want_feed.bytes, f->feed_len), "%s: fit", what);
    expect_feed(f, record, sizeof record, 11, 0, what);
    expect_feed(f, record, 0, 11, 0, what);
    expect_end(f, 11, 0, what);
}

/* Set one byte of the feed, expect a refusal, set it back. */
static void expect_unfit_feed_with(struct feeding *f, size_t at, unsigned value,
                                   const char *what)
{
    unsigned before = f->feed.bytes[at];

    put_feed(f, at, value);
    expect_unfit_feed(f, what);
    put_feed(f, at, before);
}

/* A feed of each length below the size, fit but for that. */
static void test_feed_short(void)
{
    struct feeding f;
    size_t i;

    for (i = 0; i < FEED_SIZE; i++) {
        start_sized(&f, 8, i, PLUNGEROWL_DESK_SIZE, 64, 256, 57);
        memset(f.feed.bytes, 0, i);
        memset(f.want_feed.bytes, 0, i);
        expect_unfit_feed(&f, "short feed");
        free_feed(&f);
    }
    start_feed(&f, 8, 0);
    for (f.feed_len = 0; f.feed_len < FEED_SIZE; f.feed_len++)
        expect_unfit_feed(&f, "short feed by length");
    expect_end(&f, 2, 0, "the whole feed");
    free_feed(&f);
}

/* Each clause, by feeds that are fit but for it. */
static void test_feed_unfit(void)
{
    static struct log log;
    struct feeding f;
    unsigned i, j, value;

    log_header(&log, 8);
    log_loose(&log, 5);
    start_feed(&f, 8, 5);
    for (value = 2; value < 256; value++)
        expect_unfit_feed_with(&f, OPENED_AT, value, "opened over 1");
    for (value = 4; value < 256; value++)
        expect_unfit_feed_with(&f, COUNT_AT, value, "a header's count over 3");
    for (i = 0; i <= 3; i++) {
        put_whole_feed(&f, 0, 0, i, 0);
        for (j = i; j < MOST_LOOSE; j++)
            for (value = 1; value < 256; value++)
                expect_unfit_feed_with(&f, LOOSE_AT + j, value,
                                       "an unused place, header");
    }
    put_whole_feed(&f, 0, 0, 0, 0);
    for (i = 0; i < 8; i++)
        for (value = 1; value < 256; value++)
            expect_unfit_feed_with(&f, NUMBER_AT + i, value,
                                   "a number before opening");
    for (value = 1; value < 256; value++)
        if (value != 2)
            expect_unfit_feed_with(&f, ANSWER_AT, value,
                                   "an answer before opening");
    put_whole_feed(&f, 2, 0, 0, 0);
    for (i = 0; i < 8; i++)
        expect_unfit_feed_with(&f, NUMBER_AT + i, 1, "2 with a number");
    for (i = 1; i <= 3; i++)
        expect_unfit_feed_with(&f, COUNT_AT, i, "2 with loose bytes");
    expect_unfit_feed_with(&f, OPENED_AT, 1, "2 and opened");
    expect_stopped(&f, 2, 0, "2 by hand");

    start_again(&f);
    feed_or_end(&f, log.bytes, 4, "header");
    for (value = 6; value < 256; value++)
        expect_unfit_feed_with(&f, COUNT_AT, value, "a record's count over 5");
    for (i = 0; i <= 5; i++) {
        put_whole_feed(&f, 0, 1, i, 1);
        for (j = i; j < MOST_LOOSE; j++)
            for (value = 1; value < 256; value++)
                expect_unfit_feed_with(&f, LOOSE_AT + j, value,
                                       "an unused place, record");
    }
    for (value = 1; value < 256; value++) {
        int stands = value == 1 || (value >= 3 && value <= 11)
                     || (value >= 15 && value <= 19);

        put_whole_feed(&f, value, 1, 0, 0);
        expect_unfit_feed(&f, "an answer at record 0");
        for (i = 0; i < 8; i++) {
            put_whole_feed(&f, value, 1, 0, BIT(8 * i));
            if (stands)
                expect_stopped(&f, value, BIT(8 * i), "an answer by hand");
            else
                expect_unfit_feed(&f, "no answer of a record");
        }
        for (i = 1; i <= 5; i++) {
            put_whole_feed(&f, value, 1, i, 1);
            expect_unfit_feed(&f, "an answer with loose bytes");
        }
    }
    free_feed(&f);
}

/* Bytes 0, 1 and 2 together, with numbers: fit or not, as the page says. */
static void test_feed_fit(void)
{
    static const uint64_t numbers[] = { 0, 1, BIT(63) };
    static const uint8_t piece[] = { 0x4C };
    struct feeding f;
    unsigned opened, answer, count, i;

    start_feed(&f, 8, 0);
    expect_open(&f.b, 8, 0, "opening");
    for (opened = 0; opened < 4; opened++) {
        for (answer = 0; answer < 256; answer++) {
            for (count = 0; count < 13; count++) {
                for (i = 0; i < 3; i++) {
                    put_whole_feed(&f, answer, opened, count, numbers[i]);
                    feed_or_end(&f, piece, answer % 2, "bytes 0 to 2");
                    put_whole_feed(&f, answer, opened, count, numbers[i]);
                    feed_or_end(&f, NULL, 0, "bytes 0 to 2, end");
                }
            }
        }
    }
    free_feed(&f);
}

/* A fit feed that did not come from start goes on as it stands. */
static void test_feed_by_hand(void)
{
    static const uint8_t rest[] = { E, 0x4C, 0x4B, 0, RELEASE, 1, E };
    static const uint8_t loose[] = { 0x4C, 0x4B, 0, ACQUIRE, 1 };
    static const uint8_t header[] = { 0x4C, 0x48, 1, 8 };
    struct feeding f;
    unsigned i;

    start_feed(&f, 8, 0);
    expect_open(&f.b, 8, 0, "opening");
    put_whole_feed(&f, 0, 1, 5, 41);
    for (i = 0; i < 5; i++)
        put_feed(&f, LOOSE_AT + i, loose[i]);
    expect_feed(&f, rest, 0, 0, 41, "by hand, empty piece");
    expect_feed(&f, rest, 1, 0, 42, "by hand");
    expect_feed(&f, rest + 1, 6, 0, 43, "by hand, next record");
    put_whole_feed(&f, 0, 0, 3, 0);
    for (i = 0; i < 3; i++)
        put_feed(&f, LOOSE_AT + i, header[i]);
    expect_feed(&f, header + 3, 1, 0, 0, "by hand, header");
    free_feed(&f);
}

/* The number carries from byte to byte, and stays at 2 to the 64, less 1. */
static void test_feed_number(void)
{
    static struct log log;
    struct feeding f;
    unsigned i, j;

    log.size = 0;
    log_record(&log, 0, ACQUIRE, 1, E);
    log_record(&log, 0, RELEASE, 1, E);
    log_record(&log, 0, RELEASE, 1, E);
    log_loose(&log, 1);
    start_feed(&f, 8, 0);
    expect_open(&f.b, 8, 0, "opening");
    for (i = 0; i <= 64; i++) {
        for (j = 1; j <= 4; j++) {
            /* i is 64: 2 to the 64, less j */
            uint64_t number = (i < 64 ? BIT(i) : 0) - j;
            uint64_t one = number == UINT64_MAX ? number : number + 1;
            uint64_t two = one == UINT64_MAX ? one : one + 1;
            uint64_t three = two == UINT64_MAX ? two : two + 1;

            if (i < 64 && BIT(i) < j)
                continue;
            put_whole_feed(&f, 0, 1, 0, number);
            expect_end(&f, 0, number, "number, end");
            expect_feed(&f, log.bytes, 0, 0, number, "number, empty piece");
            expect_feed(&f, log.bytes, 6, 0, one, "number, a record");
            expect_feed(&f, log.bytes + 6, 6, 0, two, "number, another");
            expect_feed(&f, log.bytes + 12, 7, 5, three, "number, refused");
            expect_stopped(&f, 5, three, "number, refused");
            put_whole_feed(&f, 0, 1, 0, number);
            expect_feed(&f, log.bytes, 19, 5, three, "number, all three");
            put_whole_feed(&f, 0, 1, 0, number);
            expect_feed(&f, log.bytes + 18, 1, 0, number, "number, loose");
            expect_end(&f, 3, one, "number, loose, end");
        }
    }
    free_feed(&f);
}

/* Desk, sheets and slip of each length. */
static void test_feed_lengths(void)
{
    const size_t desk = PLUNGEROWL_DESK_SIZE;
    static struct log log;
    struct feeding f;
    size_t i;

    log_header(&log, 8);
    log_record(&log, 0, ACQUIRE, 1, E);
    log_record(&log, 0, ACQUIRE, 1, E);
    start_feed(&f, 8, 0);
    for (i = 0; i <= desk; i++) {
        start_again(&f);
        f.desk_len = i;
        expect_feed(&f, log.bytes, 3, 0, 0, "short desk, before the header");
        expect_feed(&f, log.bytes + 3, 13, i < desk ? 2 : 1, i < desk ? 0 : 2,
                    "short desk");
    }
    for (i = 0; i <= 64; i++) {
        start_again(&f);
        f.sheet_len = i;
        expect_feed(&f, log.bytes, 3, 0, 0, "short sheet, before the header");
        expect_feed(&f, log.bytes + 3, 13, i < 64 ? 2 : 1, i < 64 ? 0 : 2,
                    "short sheet");
        expect_end(&f, i < 64 ? 2 : 1, i < 64 ? 0 : 2, "short sheet, end");
    }
    for (i = 0; i <= 256; i++) {
        start_again(&f);
        f.seen_len = i;
        expect_feed(&f, log.bytes, 3, 0, 0,
                    "short second sheet, before the header");
        expect_feed(&f, log.bytes + 3, 13, i < 256 ? 2 : 1, i < 256 ? 0 : 2,
                    "short second sheet");
        expect_end(&f, i < 256 ? 2 : 1, i < 256 ? 0 : 2,
                   "short second sheet, end");
    }
    for (i = 0; i <= 57; i++) {
        start_again(&f);
        f.slip_len = i;
        expect_feed(&f, log.bytes, 9, 0, 0, "short slip, before a record");
        expect_feed(&f, log.bytes + 9, 7, i < 57 ? 11 : 1, i < 57 ? 1 : 2,
                    "short slip");
    }
    free_feed(&f);
    for (i = 0; i < 64; i += 7) {
        start_sized(&f, 8, FEED_SIZE, desk, i, 256, 57);
        expect_feed(&f, log.bytes, log.size, 2, 0, "a sheet that is short");
        free_feed(&f);
        start_sized(&f, 8, FEED_SIZE, desk, 64, 255 - i, 57);
        expect_feed(&f, log.bytes, log.size, 2, 0,
                    "a second sheet that is short");
        free_feed(&f);
        start_sized(&f, 8, FEED_SIZE, desk - 1 - i, 64, 256, 57);
        expect_feed(&f, log.bytes, log.size, 2, 0, "a desk that is short");
        free_feed(&f);
        start_sized(&f, 8, FEED_SIZE, desk, 64, 256, i % 57);
        expect_feed(&f, log.bytes, log.size, 11, 1, "a slip that is short");
        free_feed(&f);
    }
}

/* Every K, in buffers of its size, longer ones and the longest. */
static void test_feed_classes(void)
{
    static struct log log;
    struct feeding f;
    unsigned k, i;

    for (k = 1; k <= 64; k++) {
        for (i = 0; i < 3; i++) {
            start_feed(&f, i == 2 ? 64 : k, 9 * (i == 1));
            log_header(&log, k);
            log_record(&log, 7, ACQUIRE, k - 1, E);
            log_record(&log, 7, ACQUIRE, k - 1, E);
            expect_feed(&f, log.bytes, 10, 0, 1, "every K");
            expect_feed(&f, log.bytes + 10, 6, 1, 2, "every K, a fault");
            start_again(&f);
            log.size = 4;
            log_record(&log, 7, ACQUIRE, k, E);
            expect_feed(&f, log.bytes, log.size, 4, 1, "every K, class K");
            free_feed(&f);
        }
    }
}

/* Somebody else writes the desk: the next record has the answer of a step. */
static void test_feed_other_writer(void)
{
    static struct log log;
    struct feeding f;

    make_p2(&log);
    start_feed(&f, 3, 0);
    expect_feed(&f, log.bytes, 12, 0, 1, "before another writer");
    put_desk(&f.b, CLOSED_AT, 1);
    expect_feed(&f, log.bytes + 12, 3, 0, 1, "closed, loose bytes");
    expect_feed(&f, log.bytes + 15, 1, 10, 2, "closed, a record");
    put_desk(&f.b, CLOSED_AT, 0);
    expect_stopped(&f, 10, 2, "no longer closed");
    start_again(&f);
    expect_feed(&f, log.bytes, 12, 0, 1, "before another writer");
    put_desk(&f.b, STATES_AT + 7, 9);
    expect_feed(&f, log.bytes + 12, 3, 0, 1, "unfit, loose bytes");
    expect_feed(&f, log.bytes + 15, 20, 11, 2, "unfit, a record");
    put_desk(&f.b, STATES_AT + 7, 0);
    expect_stopped(&f, 11, 2, "no longer unfit");
    free_feed(&f);
}

/* Logs in which releases fit or do not, in one piece, cut once at every byte,
 * and at all of them: the mode comes with the last byte of the record. Behind
 * an answer but 0 stands more. */
static void test_feed_releases(void)
{
    static const struct {
        uint8_t answer, number, records;
        uint8_t record[5][3]; /* kind, class, mode */
    } rows[] = {
        { 0, 2, 2, { { ACQUIRE, 1, TRY + R }, { RELEASE, 1, TRY + R } } },
        { 5, 2, 2, { { ACQUIRE, 1, TRY + R }, { RELEASE, 1, R } } },
        { 5, 2, 2, { { ACQUIRE, 1, R }, { RELEASE, 1, E } } },
        { 5, 3, 3, { { ACQUIRE, 1, E }, { ACQUIRE, 1, TRY + R },
                     { RELEASE, 1, E } } },
        { 0, 4, 4, { { ACQUIRE, 1, E }, { ACQUIRE, 1, TRY + R },
                     { RELEASE, 1, TRY + R }, { RELEASE, 1, E } } },
        { 0, 4, 4, { { ACQUIRE, 1, r }, { ACQUIRE, 2, TRY + E },
                     { RELEASE, 1, r }, { RELEASE, 2, TRY + E } } },
        { 5, 3, 3, { { ACQUIRE, 1, E }, { ENTER_HARD, 0, 0 },
                     { RELEASE, 1, E } } },
        { 5, 4, 4, { { ACQUIRE, 1, TRY + r }, { ENTER_HARD, 0, 0 },
                     { ACQUIRE, 1, TRY + E }, { RELEASE, 1, TRY + r } } },
        { 3, 2, 2, { { ACQUIRE, 1, E }, { RELEASE, 1, MODES } } },
        { 3, 2, 2, { { HARD_ON, 0, 0 }, { HARD_ON, 0, TRY + R } } },
        { 4, 1, 1, { { RELEASE, 8, TRY + R } } },
        { 3, 1, 1, { { RELEASE, 8, MODES } } }
    };
    static struct log log;
    struct feeding f;
    size_t i, j;

    start_feed(&f, 8, 0);
    for (i = 0; i < sizeof rows / sizeof rows[0]; i++) {
        unsigned answer = rows[i].answer, number = rows[i].number;

        log_header(&log, 8);
        for (j = 0; j < rows[i].records; j++)
            log_record(&log, 6, rows[i].record[j][0], rows[i].record[j][1],
                       rows[i].record[j][2]);
        if (answer != 0) {
            log_record(&log, 6, ACQUIRE, 0, E);
            log_loose(&log, 3);
        }
        feed_cut(&f, &log, 0, answer, number, "releases in one piece");
        feed_cut(&f, &log, UINT64_MAX, answer, number, "releases by bytes");
        for (j = 0; j + 1 < log.size; j++)
            feed_cut(&f, &log, BIT(j), answer, number,
                     "releases in two pieces");
    }
    free_feed(&f);
}

/* --------------------------------------------------------- the cycle shown */

/* A graph with few classes: the sheet bytes up to one of 0, the marks, and the
 * triples of the slip that is due. In a log all dependencies that go to class
 * `into` are drawn last, by one acquire. */
enum { FEW = 8, NO_LOG = 255 };

struct drawn {
    uint8_t from, to, kinds;
};

struct shown {
    const char *what;
    uint8_t into;
    struct drawn drawn[10];
    uint8_t marks[FEW];
    uint8_t slip[TRIPLES_SIZE(4)];
};

static const struct shown shown[] = {
    /* Next class after kind, and after source. */
    { "0 ER 2 before 0 EN 1", 0,
      { { 0, 1, 2 }, { 1, 0, 2 }, { 0, 2, 1 }, { 2, 0, 2 } }, { 0 },
      { 2, 0, 1, 0, 2, 2, 0 } },
    { "1 EN 3 before 1 SN 2, behind a class", 0,
      { { 0, 1, 2 }, { 1, 2, 8 }, { 1, 3, 2 }, { 2, 0, 2 }, { 3, 0, 2 } },
      { 0 }, { 3, 0, 2, 0, 1, 2, 0, 3, 2, 0 } },
    { "0 EN 2 hold before 0 EN 1 hard", 0,
      { { 0, 2, 2 }, { 1, 0, 2 }, { 2, 0, 2 } }, { 4, 1 },
      { 2, 0, 2, 0, 2, 2, 0 } },
    { "0 EN 2 hard before 0 EN 1 soft", 0,
      { { 1, 0, 2 }, { 2, 0, 2 } }, { 68, 16, 1 },
      { 2, 0, 2, 1, 2, 2, 0 } },
    { "1 ER 3 hold before 1 ER 2 soft, behind a class", 0,
      { { 0, 1, 2 }, { 1, 3, 1 }, { 2, 0, 2 }, { 3, 0, 2 } }, { 0, 68, 32 },
      { 3, 0, 2, 0, 1, 1, 0, 3, 2, 0 } },
    { "the same kind and source: 0 EN 1 before 0 EN 2", 0,
      { { 0, 1, 2 }, { 1, 0, 8 }, { 0, 2, 2 }, { 2, 0, 2 } }, { 0 },
      { 2, 0, 2, 0, 1, 8, 0 } },
    /* Kind before source. */
    { "0 ER 1 hard before 0 EN 1 hold", 0,
      { { 0, 1, 2 }, { 1, 0, 2 } }, { 4, 2 }, { 2, 0, 1, 1, 1, 2, 0 } },
    { "0 ER 1 soft before 0 EN 1 hold", 0,
      { { 0, 1, 2 }, { 1, 0, 2 } }, { 68, 32 }, { 2, 0, 1, 2, 1, 2, 0 } },
    { "0 EN 0 soft before 0 SN 0 hold", NO_LOG,
      { { 0, 0, 8 } }, { 68 + 16 }, { 1, 0, 2, 2 } },
    /* A joint bars the least kind, or the least class. */
    { "0 EN 1, since 0 ER 1 SN is weak", 0,
      { { 0, 1, 3 }, { 1, 0, 8 } }, { 0 }, { 2, 0, 2, 0, 1, 8, 0 } },
    { "0 ER 2, since 0 ER 1 SN is weak", 0,
      { { 0, 1, 1 }, { 0, 2, 1 }, { 1, 0, 8 }, { 2, 0, 2 } }, { 0 },
      { 2, 0, 1, 0, 2, 2, 0 } },
    { "1 EN 2, since 1 ER 2 SN is weak", 0,
      { { 0, 1, 1 }, { 1, 2, 15 }, { 2, 0, 8 } }, { 0 },
      { 3, 0, 1, 0, 1, 2, 0, 2, 8, 0 } },
    { "1 EN 2 soft, since 1 ER 2 SN is weak", 0,
      { { 0, 1, 1 }, { 1, 2, 1 }, { 2, 0, 8 } }, { 0, 68, 16 },
      { 3, 0, 1, 0, 1, 2, 2, 2, 8, 0 } },
    { "1 EN 0, since 1 ER 0 SN closes weakly", 0,
      { { 0, 1, 8 }, { 1, 0, 1 }, { 1, 0, 2 } }, { 0 },
      { 2, 0, 8, 0, 1, 2, 0 } },
    { "1 EN 0, since 1 ER 0 SR closes weakly", 0,
      { { 0, 1, 4 }, { 1, 0, 1 }, { 1, 0, 2 } }, { 0 },
      { 2, 0, 4, 0, 1, 2, 0 } },
    { "0 EN 1, and 1 SR 0 closes with it", 0,
      { { 0, 1, 10 }, { 1, 0, 4 } }, { 0 }, { 2, 0, 2, 0, 1, 4, 0 } },
    { "2 EN 0 from a higher class, since 1 ER 0 SN closes weakly", 0,
      { { 0, 1, 8 }, { 0, 2, 8 }, { 1, 0, 1 }, { 2, 0, 2 } }, { 0 },
      { 2, 0, 8, 0, 2, 2, 0 } },
    { "0 SN 0, since 0 SR 0 closes weakly", 0,
      { { 0, 0, 4 }, { 0, 0, 8 } }, { 0 }, { 1, 0, 8, 0 } },
    { "0 SR 0 closes weakly, and 1 is on the way", 0,
      { { 0, 0, 4 }, { 0, 1, 8 }, { 1, 0, 8 } }, { 0 },
      { 2, 0, 8, 0, 1, 8, 0 } },
    { "0 SN 2, since behind 0 ER 1 the way is longer", 0,
      { { 0, 1, 1 }, { 1, 3, 2 }, { 3, 0, 2 }, { 0, 2, 8 }, { 2, 0, 2 } },
      { 0 }, { 2, 0, 8, 0, 2, 2, 0 } },
    /* Fewest dependencies, then the lowest class. */
    { "3, 4 before 0, 2, 3", 3,
      { { 0, 2, 1 }, { 2, 3, 2 }, { 3, 0, 1 }, { 3, 4, 8 }, { 4, 3, 8 } },
      { 0 }, { 2, 3, 8, 0, 4, 8, 0 } },
    { "7 before 0, 7", 7,
      { { 0, 7, 2 }, { 7, 0, 1 }, { 7, 7, 8 } }, { 0 }, { 1, 7, 8, 0 } },
    { "0, 5 before 1, 5", 5,
      { { 5, 0, 8 }, { 5, 1, 1 }, { 0, 5, 8 }, { 1, 5, 2 } }, { 0 },
      { 2, 0, 8, 0, 5, 8, 0 } },
    { "1 SN 1 before 2 ER 2", NO_LOG,
      { { 1, 1, 8 }, { 2, 2, 1 } }, { 0 }, { 1, 1, 8, 0 } },
    { "2 SN 3 before 4 ER 5", NO_LOG,
      { { 2, 3, 8 }, { 3, 2, 8 }, { 4, 5, 1 }, { 5, 4, 1 } }, { 0 },
      { 2, 2, 8, 0, 3, 8, 0 } },
    { "drawn from 2 on, shown from 0 on", 0,
      { { 2, 1, 2 }, { 1, 3, 2 }, { 0, 2, 2 }, { 3, 0, 2 } }, { 0 },
      { 4, 0, 2, 0, 2, 2, 0, 1, 2, 0, 3, 2, 0 } },
    { "the shortest way through 0 passes 1 twice", 1,
      { { 0, 1, 1 }, { 1, 2, 2 }, { 1, 0, 8 }, { 2, 1, 2 } }, { 0 },
      { 2, 1, 2, 0, 2, 2, 0 } },
    { "the shortest way through 0 is closed weakly", NO_LOG,
      { { 0, 1, 8 }, { 1, 0, 1 }, { 1, 2, 8 }, { 2, 3, 8 }, { 3, 1, 8 } },
      { 0 }, { 3, 1, 8, 0, 2, 8, 0, 3, 8, 0 } },
    /* Behind a class that is met first by another. */
    { "0 ER 2 EN 3, where 3 is met from 1 too", 0,
      { { 0, 1, 2 }, { 0, 2, 1 }, { 1, 3, 1 }, { 2, 3, 2 }, { 3, 0, 2 } },
      { 0 }, { 3, 0, 1, 0, 2, 2, 0, 3, 2, 0 } },
    { "0 EN 1 SN 3, where 2 ER 3 is lower", 0,
      { { 0, 1, 2 }, { 0, 2, 8 }, { 1, 3, 8 }, { 2, 3, 1 }, { 3, 0, 2 } },
      { 0 }, { 3, 0, 2, 0, 1, 8, 0, 3, 2, 0 } },
    { "1 by R and by N: only by N it goes on", 0,
      { { 0, 1, 3 }, { 1, 2, 4 }, { 2, 0, 2 } }, { 0 },
      { 3, 0, 2, 0, 1, 4, 0, 2, 2, 0 } },
    /* Interrupt dependencies. */
    { "0 EN 0 hard before 0 EN 2 hard", NO_LOG, { { 2, 0, 2 } },
      { 68 + 1, 0, 17 }, { 1, 0, 2, 1 } },
    { "2 EN 2 hard before 2 EN 2 soft", NO_LOG, { { 0, 0, 0 } },
      { 0, 0, 68 + 17 }, { 1, 2, 2, 1 } },
    { "2 SN 3 soft, 3 EN 2", 2, { { 3, 2, 2 } }, { 0, 0, 136, 16 },
      { 2, 2, 8, 2, 3, 2, 0 } },
    { "2 SR 2 hard closes weakly, and 3 is on the way", 2,
      { { 2, 3, 8 }, { 3, 2, 2 } }, { 0, 0, 8 + 2 },
      { 2, 2, 8, 0, 3, 2, 0 } },
    { "3 SN 3 soft before 0, 1", NO_LOG,
      { { 0, 1, 1 }, { 1, 0, 1 } }, { 0, 0, 0, 136 + 16 }, { 1, 3, 8, 2 } },
    { "3 EN 3 hard before 0 ER 4 hard", NO_LOG,
      { { 4, 0, 2 } }, { 4, 0, 0, 4 + 1, 2 }, { 1, 3, 2, 1 } },
    { "1 SN 1 hold before 2 ER 2 hard", NO_LOG,
      { { 1, 1, 8 } }, { 0, 0, 4 + 2 }, { 1, 1, 8, 0 } },
    { "1 SN 1 soft before 2 ER 2 hold", NO_LOG,
      { { 2, 2, 1 } }, { 0, 136 + 16 }, { 1, 1, 8, 2 } }
};

#define SHOWN (sizeof shown / sizeof shown[0])

/* The graph on an open desk. */
static void put_shown(struct buffers *b, const struct shown *s)
{
    const struct drawn *d;
    unsigned i;

    for (d = s->drawn; d->kinds != 0; d++)
        put_sheet(b, d->from, d->to,
                  b->sheet.bytes[d->from * b->k + d->to] | d->kinds);
    for (i = 0; i < FEW; i++)
        put_desk(b, MARKS_AT + i, s->marks[i]);
}

/* The slip has these triples with their numbers, and FILL behind them. */
static void check_slip(const struct buffers *b, const uint8_t *triples,
                       const char *what)
{
    size_t size = PLUNGEROWL_SLIP_SIZE(triples[0]), i;
    uint8_t slip[PLUNGEROWL_SLIP_SIZE(64)];

    write_slip(slip, b, triples);
    for (i = 0; i < b->slip.size; i++)
        check(b->slip.bytes[i] == (i < size ? slip[i] : FILL),
              "%s: slip byte %lu is %u", what, (unsigned long)i,
              b->slip.bytes[i]);
}

/* By step, and by the last byte of a record that is fed. */
static void test_shown_by_hand(void)
{
    static const uint8_t record[] = { 0x4C, 0x4B, 2, SOFT_ON, 0, 0 };
    struct buffers b;
    struct feeding f;
    size_t i;

    for (i = 0; i < SHOWN; i++) {
        open_buffers(&b, FEW, 2);
        put_shown(&b, &shown[i]);
        expect_step(&b, 0, HARD_ON, 0, 0, 1, shown[i].what);
        check_slip(&b, shown[i].slip, shown[i].what);
        free_buffers(&b);

        start_feed(&f, FEW, 0);
        expect_open(&f.b, FEW, 0, shown[i].what);
        put_shown(&f.b, &shown[i]);
        put_whole_feed(&f, 0, 1, 0, 41);
        expect_feed(&f, record, 5, 0, 41, shown[i].what);
        expect_feed(&f, record + 5, 1, 1, 42, shown[i].what);
        check_slip(&f.b, shown[i].slip, shown[i].what);
        free_feed(&f);
    }
}

/* Every set of kinds there and every set back: the least pair that is strong. */
static void test_shown_kinds(void)
{
    struct buffers b;
    unsigned there, back;

    for (there = 1; there < 16; there++) {
        for (back = 1; back < 16; back++) {
            uint8_t slip[] = { 2, 3, 0, 0, 6, 0, 0 };
            unsigned pair;

            for (pair = 0; pair < 16 && slip[2] == 0; pair++) {
                unsigned first = 1u << pair / 4, second = 1u << pair % 4;

                if (there & first && back & second && is_strong(first, second)
                    && is_strong(second, first)) {
                    slip[2] = (uint8_t)first;
                    slip[5] = (uint8_t)second;
                }
            }
            open_buffers(&b, FEW, 0);
            put_sheet(&b, 3, 6, there);
            put_sheet(&b, 6, 3, back);
            expect_step(&b, 0, HARD_ON, 0, 0, slip[2] != 0, "kinds");
            if (slip[2] != 0)
                check_slip(&b, slip, "kinds");
            free_buffers(&b);
        }
    }
}

/* One pair, every kind, every set of sources: the lowest source; and behind a
 * lower kind of the highest source a higher kind of all. */
static void test_shown_sources(void)
{
    /* of ER, EN, SR, SN at the hard level */
    static const unsigned unsafe[] = { 4, 4, 8, 8 }, safe[] = { 2, 1, 2, 1 };
    struct buffers b;
    unsigned kind, sources;

    for (kind = 0; kind < KINDS; kind++) {
        for (sources = 1; sources < 8; sources++) {
            uint8_t slip[] = { 2, 1, 0, 0, 5, PLUNGEROWL_EN, 0 };
            unsigned levels = (sources & 2 ? 1 : 0) + (sources & 4 ? 16 : 0);

            slip[2] = (uint8_t)(1u << kind);
            slip[3] = sources & 1 ? 0 : sources & 2 ? 1 : 2;
            open_buffers(&b, FEW, 0);
            if (sources & 1)
                put_sheet(&b, 1, 5, 1u << kind);
            put_sheet(&b, 1, 5, b.sheet.bytes[FEW + 5] | (14u << kind & 15u));
            put_sheet(&b, 5, 1, PLUNGEROWL_EN);
            put_desk(&b, MARKS_AT + 1, levels == 0 ? 0 : 17 * unsafe[kind]);
            put_desk(&b, MARKS_AT + 5, levels * safe[kind]);
            expect_step(&b, 0, HARD_ON, 0, 0, 1, "sources");
            check_slip(&b, slip, "sources");
            free_buffers(&b);
        }
    }
}

/* One cycle through all 64 classes, not in their order, of the kinds given. */
static void expect_ring(unsigned kinds, unsigned last, unsigned kind,
                        unsigned last_kind)
{
    uint8_t slip[TRIPLES_SIZE(64)] = { 64 };
    struct buffers b;
    unsigned i;

    open_buffers(&b, 64, 0);
    for (i = 0; i < 64; i++) {
        put_sheet(&b, 37 * i % 64, 37 * (i + 1) % 64, i < 63 ? kinds : last);
        slip[1 + TRIPLE * i] = (uint8_t)(37 * i % 64);
        slip[2 + TRIPLE * i] = (uint8_t)(i < 63 ? kind : last_kind);
    }
    expect_step(&b, 0, HARD_ON, 0, 0, last_kind != 0, "ring of 64");
    if (last_kind != 0)
        check_slip(&b, slip, "ring of 64");
    free_buffers(&b);
}

/* Most only with guards on both sides, to save time; so below. */
static void test_shown_ring(void)
{
    expect_ring(15, 15, 1, 1);
    if (sides != GUARD_BOTH)
        return;
    expect_ring(1, 1, 1, 1);
    expect_ring(2, 2, 2, 2);
    expect_ring(4, 4, 4, 0);
    expect_ring(8, 8, 8, 8);
    expect_ring(12, 12, 8, 8);
    expect_ring(10, 4, 2, 4);
    expect_ring(8, 15, 8, 2);
    expect_ring(8, 5, 8, 0);
}

/* A ring of 32 layers of two classes, all of a layer to all of the next: 2 to
 * the 32 choices of the classes alone. */
static void put_ties(struct buffers *b, unsigned kinds)
{
    unsigned i, to;

    for (i = 0; i < 64; i++)
        for (to = 0; to < 2; to++)
            put_sheet(b, i, (i / 2 * 2 + 2 + to) % 64, kinds);
}

/* The even classes in order with the kind, but for those that are given as
 * place, class and kind. */
static void expect_ties(struct buffers *b, unsigned kind,
                        const uint8_t others[][3], unsigned count,
                        const char *what)
{
    uint8_t slip[TRIPLES_SIZE(64)] = { 32 };
    unsigned i;

    for (i = 0; i < 32; i++) {
        slip[1 + TRIPLE * i] = (uint8_t)(2 * i);
        slip[2 + TRIPLE * i] = (uint8_t)kind;
    }
    for (i = 0; i < count; i++) {
        slip[1 + TRIPLE * others[i][0]] = others[i][1];
        slip[2 + TRIPLE * others[i][0]] = others[i][2];
    }
    expect_step(b, 0, HARD_ON, 0, 0, 1, what);
    check_slip(b, slip, what);
    free_buffers(b);
}

static void test_shown_ties(void)
{
    static const uint8_t by_63[][3] = { { 31, 63, 2 } };
    static const uint8_t by_sn[][3] = { { 30, 60, 2 }, { 31, 62, 8 } };
    static const uint8_t from_1[][3] = { { 0, 1, 1 } };
    static const uint8_t by_17[][3] = { { 7, 14, 1 }, { 8, 17, 2 } };
    struct buffers b;
    unsigned i;

    for (i = sides == GUARD_BOTH ? 1 : 15; i < 16; i++) {
        open_buffers(&b, 64, 0);
        put_ties(&b, i);
        if (i == PLUNGEROWL_SR) {
            expect_step(&b, 0, HARD_ON, 0, 0, 0, "ties, all SR");
            free_buffers(&b);
        } else {
            expect_ties(&b, i & 1 ? 1 : i & 2 ? 2 : 8, NULL, 0, "ties");
        }
    }

    /* Behind 60 ER only 63 goes on: 62 begins with S. */
    open_buffers(&b, 64, 0);
    put_ties(&b, 15);
    for (i = 0; i < 2; i++) {
        put_sheet(&b, 62, i, PLUNGEROWL_SN);
        put_sheet(&b, 63, i, PLUNGEROWL_EN);
    }
    expect_ties(&b, 1, by_63, 1, "ties, by 63");

    /* And if 63 does too, 62 is arrived at by N. */
    open_buffers(&b, 64, 0);
    put_ties(&b, 15);
    for (i = 0; i < 2; i++) {
        put_sheet(&b, 62, i, PLUNGEROWL_SN);
        put_sheet(&b, 63, i, PLUNGEROWL_SN);
    }
    expect_ties(&b, 1, by_sn, 2, "ties, by SN");

    /* Class 0 is left by S and arrived at by R, so no cycle has it. */
    open_buffers(&b, 64, 0);
    put_ties(&b, 15);
    for (i = 0; i < 2; i++) {
        put_sheet(&b, 0, 2 + i, PLUNGEROWL_SR | PLUNGEROWL_SN);
        put_sheet(&b, 62 + i, 0, PLUNGEROWL_ER | PLUNGEROWL_SR);
    }
    expect_ties(&b, 1, from_1, 1, "ties, from 1");

    /* In the middle 14 ER 17, where 14 EN 16 is the lower class. */
    open_buffers(&b, 64, 0);
    put_ties(&b, 15);
    put_sheet(&b, 14, 16, PLUNGEROWL_EN);
    put_sheet(&b, 17, 18, PLUNGEROWL_EN);
    put_sheet(&b, 17, 19, PLUNGEROWL_SR);
    expect_ties(&b, 1, by_17, 2, "ties, by 17");
}

/* The cycle does not depend on the record that is accepted: not on its core,
 * nor on its class, nor on what it draws beside the cycle. */
static void test_shown_by_any_record(void)
{
    static const struct {
        uint8_t core, kind, class_, mode;
    } records[] = {
        { 0, HARD_ON, 0, 0 }, { 7, SOFT_OFF, 0, 0 }, { 3, ACQUIRE, 7, E },
        { 3, ACQUIRE, 0, R }, { 3, ACQUIRE, 1, E }, { 3, ACQUIRE, 2, R },
        { 4, ACQUIRE, 3, TRY + E }, { 5, RELEASE, 6, E }, { 5, ACQUIRE, 7, E },
        { 5, ENTER_HARD, 0, 0 }
    };
    struct buffers b;
    size_t i, j;
    unsigned core;

    for (i = 0; i < SHOWN; i++) {
        for (j = 0; j < sizeof records / sizeof records[0]; j++) {
            open_buffers(&b, FEW, 0);
            put_shown(&b, &shown[i]);
            for (core = 3; core < 6; core++) /* no marks in state 3 */
                put_desk(&b, STATES_AT + core, core == 5
                         && records[j].kind == ENTER_HARD ? 0 : 3);
            put_desk(&b, DEPTHS_AT + 15, 1);
            put_desk(&b, HELD_AT + DEPTH * 15, 6);
            expect_step(&b, records[j].core, records[j].kind,
                        records[j].class_, records[j].mode, 1, shown[i].what);
            check_slip(&b, shown[i].slip, shown[i].what);
            free_buffers(&b);
        }
    }

    /* Two cycles of two; the record draws the last dependency of one. */
    for (i = 0; i < 2; i++) {
        static const uint8_t slips[][7] = { { 2, 1, 8, 0, 2, 8, 0 },
                                            { 2, 3, 2, 0, 4, 2, 0 } };

        open_buffers(&b, FEW, 0);
        put_desk(&b, STATES_AT + 6, 3);
        if (i == 0) {
            put_sheet(&b, 1, 2, PLUNGEROWL_SN);
            put_sheet(&b, 2, 1, PLUNGEROWL_SN);
        } else {
            put_sheet(&b, 5, 6, PLUNGEROWL_ER);
            put_sheet(&b, 6, 5, PLUNGEROWL_ER);
        }
        put_sheet(&b, 4, 3, PLUNGEROWL_EN);
        put_desk(&b, DEPTHS_AT + 18, 1);
        put_desk(&b, HELD_AT + DEPTH * 18, 3);
        expect_step(&b, 6, ACQUIRE, 4, E, 1, "another cycle stands");
        check_slip(&b, slips[i], "another cycle stands");
        free_buffers(&b);
    }
}

/* Records that set the marks on a class, by core 1, which was in state 0. */
static void log_marks(struct log *log, unsigned class_, unsigned marks)
{
    /* Each bit: the mode, and the events before and after. */
    static const uint8_t ways[8][5] = {
        { E, ENTER_HARD, 0, 0, EXIT_HARD }, { R, ENTER_HARD, 0, 0, EXIT_HARD },
        { E, SOFT_OFF, 0, 0, SOFT_ON }, { r, SOFT_OFF, 0, 0, SOFT_ON },
        { E, ENTER_SOFT, HARD_OFF, HARD_ON, EXIT_SOFT },
        { R, ENTER_SOFT, HARD_OFF, HARD_ON, EXIT_SOFT },
        { E, 0, 0, 0, 0 }, { r, 0, 0, 0, 0 }
    };
    unsigned i, j;

    for (i = 0; i < 8; i++) {
        if (!(marks >> i & 1))
            continue;
        for (j = 1; j < 5; j++) {
            if (j == 3) {
                log_record(log, 1, ACQUIRE, class_, ways[i][0]);
                log_record(log, 1, RELEASE, class_, ways[i][0]);
            }
            if (ways[i][j] != 0)
                log_record(log, 1, ways[i][j], 0, 0);
        }
    }
}

/* The modes that make a dependency of the kind. */
static unsigned held_mode(unsigned kind)
{
    return starts_s(kind) ? r : E;
}

static unsigned acquired_mode(unsigned kind)
{
    return ends_r(kind) ? R : E;
}

/* A log that draws the graph: marks, then dependencies one by one, then those
 * into one class. Core 0 is in state 3, where nothing is marked, and what it
 * holds at last it got by tries. */
static void log_shown(struct log *log, const struct shown *s)
{
    const struct drawn *d;
    unsigned i, kind, mode = E;

    log_header(log, FEW);
    for (i = 0; i < FEW; i++)
        log_marks(log, i, s->marks[i]);
    log_record(log, 0, HARD_OFF, 0, 0);
    log_record(log, 0, SOFT_OFF, 0, 0);
    for (d = s->drawn; d->kinds != 0; d++) {
        for (kind = 1; kind < 16; kind *= 2) {
            if (!(d->kinds & kind) || (d->to == s->into && !ends_r(kind)))
                continue;
            log_record(log, 0, ACQUIRE, d->from, held_mode(kind));
            log_record(log, 0, ACQUIRE, d->to, acquired_mode(kind));
            log_record(log, 0, RELEASE, d->to, acquired_mode(kind));
            log_record(log, 0, RELEASE, d->from, held_mode(kind));
        }
    }
    for (d = s->drawn; d->kinds != 0; d++)
        for (kind = 1; kind < 16; kind *= 2)
            if (d->kinds & kind && d->to == s->into && !ends_r(kind))
                log_record(log, 0, ACQUIRE, d->from, TRY + held_mode(kind));
    log_record(log, 0, ACQUIRE, s->into, mode);
}

/* The same graphs from opening, record by record and in pieces: the last record
 * is the fault. */
static void test_shown_in_logs(void)
{
    static const size_t sizes[] = { 1, 7, LONGEST_PIECE };
    static struct log log;
    struct buffers b;
    struct feeding f;
    size_t i, j, at;
    unsigned logs = 0;

    for (i = 0; i < SHOWN; i++) {
        const struct shown *s = &shown[i];
        uint64_t records;

        if (s->into == NO_LOG || ends_r(s->slip[TRIPLE * s->slip[0] - 1]))
            continue;
        logs++;
        log_shown(&log, s);
        records = (log.size - HEADER_SIZE) / RECORD_SIZE;
        open_buffers(&b, FEW, 0);
        for (at = HEADER_SIZE; at < log.size; at += RECORD_SIZE)
            expect_bytes(&b, log.bytes + at, RECORD_SIZE,
                         at + RECORD_SIZE == log.size, s->what);
        check_slip(&b, s->slip, s->what);
        free_buffers(&b);
        for (j = 0; j < sizeof sizes / sizeof sizes[0]; j++) {
            start_feed(&f, FEW, 0);
            for (at = 0; at < log.size; at += sizes[j])
                feed_or_end(&f, log.bytes + at, log.size - at < sizes[j]
                            ? log.size - at : sizes[j], s->what);
            expect_end(&f, 1, records, s->what);
            check_slip(&f.b, s->slip, s->what);
            free_feed(&f);
        }
    }
    check(logs > 20, "only %u graphs in logs", logs);
}

/* All that could be a cycle of some number of dependencies, its first class the
 * lowest: the least of those that are one. Both as triples. */
struct all_tried {
    const struct buffers *b;
    uint8_t slip[TRIPLES_SIZE(64)];
    uint8_t least[TRIPLES_SIZE(64)]; /* with 0 for none */
};

static int is_cycle(const struct all_tried *a)
{
    unsigned i, j, n = a->slip[0];

    for (i = 0; i < n; i++) {
        const uint8_t *entry = a->slip + TRIPLES_SIZE(i);
        const uint8_t *next = a->slip + TRIPLES_SIZE((i + 1) % n);

        if (!has_dependency(a->b, entry[0], next[0], entry[1], entry[2])
            || !is_strong(entry[1], next[1]))
            return 0;
        if (i > 0 && entry[0] < a->slip[1])
            return 0;
        for (j = 0; j < i; j++)
            if (a->slip[TRIPLES_SIZE(j)] == entry[0])
                return 0;
    }
    return 1;
}

static void try_all(struct all_tried *a, unsigned i)
{
    uint8_t *entry = a->slip + TRIPLES_SIZE(i);
    unsigned class_, rank;

    if (i == a->slip[0]) {
        if (is_cycle(a) && (a->least[0] == 0
                            || memcmp(a->slip, a->least, TRIPLES_SIZE(i)) < 0))
            memcpy(a->least, a->slip, TRIPLES_SIZE(i));
        return;
    }
    for (class_ = 0; class_ < classes_of(a->b); class_++) {
        entry[0] = (uint8_t)class_;
        for (rank = 0; rank < KINDS * SOURCES; rank++) {
            entry[1] = (uint8_t)(1u << rank / SOURCES);
            entry[2] = (uint8_t)(rank % SOURCES);
            /* Nothing but that the one before leads here, to save time. */
            if (i == 0 || has_dependency(a->b, entry[-3], class_, entry[-2],
                                         entry[-1]))
                try_all(a, i + 1);
        }
    }
}

/* Random marks that are fit, on a random class. */
static void put_random_marks(struct buffers *b)
{
    unsigned class_ = below(b->k), marks = below(256);

    marks &= below(256);
    while (!mark_fits(marks))
        marks = below(256);
    put_desk(b, MARKS_AT + class_, marks);
}

/* A random count, and random numbers for the pairs with kinds, of as many bits
 * but below it or above. */
static void put_random_numbers(struct buffers *b)
{
    unsigned most = below(2) == 0 ? 9 : 0x7FFFFFFF, from, to;

    put_count(b, below(most));
    for (from = 0; from < b->k; from++)
        for (to = 0; to < b->k; to++)
            put_seen(b, from, to, b->sheet.bytes[from * b->k + to] == 0 ? 0
                                  : 1 + below(most));
}

/* Small random graphs, against a search that tries all: the library, and the
 * copies' least cycle that the other tests use. */
static void test_shown_all_tried(void)
{
    static struct all_tried a;
    struct buffers b;
    unsigned i, from, to, found[5] = { 0 };

    seed = 20261116 + sides;
    for (i = 0; i < 700; i++) {
        unsigned k = 1 + below(4), density = 1 + below(3);
        int ring = below(4) == 0;

        open_buffers(&b, k, 0);
        for (from = 0; from < k; from++)
            for (to = 0; to < k; to++)
                if (from == to ? below(6) == 0
                    : ring ? to == (from + 1) % k : below(density + 1) == 0)
                    put_sheet(&b, from, to, from != to ? below(16)
                                                       : PLUNGEROWL_SR);
        for (from = 0; from < k && below(2) == 0; from++)
            put_random_marks(&b);
        put_random_numbers(&b);
        a.b = &b;
        memset(a.least, 0, sizeof a.least);
        for (a.slip[0] = 1; a.slip[0] <= k && a.least[0] == 0; a.slip[0]++)
            try_all(&a, 0);
        found[a.least[0]]++;
        check(memcmp(least_cycle(&b), a.least, a.least[0] == 0
                     ? 1 : TRIPLES_SIZE(a.least[0])) == 0,
              "all tried: least_cycle, graph %u", i);
        expect_step(&b, i % CORES, HARD_ON, 0, 0, a.least[0] != 0,
                    "all tried");
        if (a.least[0] != 0)
            check_slip(&b, a.least, "all tried");
        free_buffers(&b);
    }
    for (i = 0; i < 5; i++)
        check(found[i] > 5, "all tried: only %u cycles of %u", found[i], i);
}

/* Rings of layers, the classes in any order: many cycles of one length. */
static void test_shown_layers(void)
{
    struct buffers b;
    unsigned i, j, longest = 0;

    seed = 20261117 + sides;
    for (i = 0; i < 500; i++) {
        unsigned k = 2 + below(i % 25 == 0 ? 63 : 11), width = 1 + below(3);
        unsigned layers = (k + width - 1) / width, at[64];

        open_buffers(&b, k, 0);
        for (j = 0; j < k; j++) {
            unsigned other = below(j + 1);

            at[j] = at[other];
            at[other] = j;
        }
        for (j = 0; j < k; j++) {
            unsigned layer = (j / width + 1) % layers, to;

            for (to = layer * width; to < k && to < (layer + 1) * width; to++)
                put_sheet(&b, at[j], at[to], 1 + below(15));
        }
        for (j = below(4); j > 0; j--)
            put_random_marks(&b);
        put_random_numbers(&b);
        expect_step(&b, i % CORES, HARD_ON, 0, 0, least_cycle(&b)[0] != 0,
                    "layers");
        if (b.slip.bytes[0] != FILL && b.slip.bytes[0] > longest)
            longest = b.slip.bytes[0];
        free_buffers(&b);
    }
    check(longest > 12, "layers: the longest cycle has %u", longest);
}

/* Random records from opening, up to the fault. */
static void test_shown_random_logs(void)
{
    struct buffers b;
    unsigned i, faults = 0;

    seed = 20261118 + sides;
    for (i = 0; i < 300; i++) {
        unsigned k = 2 + below(5), records = 0;

        open_buffers(&b, k, 0);
        while (b.desk.bytes[CLOSED_AT] == 0 && records++ < 60) {
            unsigned core = below(3), class_ = below(k);
            unsigned frame = current_frame(b.desk.bytes, core);
            unsigned depth = b.desk.bytes[DEPTHS_AT + frame];
            unsigned state = b.desk.bytes[STATES_AT + core];
            unsigned kind = below(3) == 0 ? 2 + below(8) : ACQUIRE;
            unsigned mode = kind == ACQUIRE ? below(MODES) : 0;
            struct buffers after = b;
            uint8_t record[RECORD_SIZE] = { 0x4C, 0x4B };
            uint8_t desk[PLUNGEROWL_DESK_SIZE], sheet[64], seen[4 * 64];

            if (kind != ACQUIRE && (next_state[state][kind - 2] < 0
                                    || depth > 0))
                continue;
            if (kind == ACQUIRE && depth > 2) {
                kind = RELEASE;
                class_ = b.desk.bytes[HELD_AT + DEPTH * frame] % 64;
                mode = newest_mode(b.desk.bytes, frame, class_);
            }
            record[2] = (uint8_t)core;
            record[3] = (uint8_t)kind;
            record[4] = (uint8_t)(kind <= RELEASE ? class_ : 0);
            record[5] = (uint8_t)mode;
            /* The answer that is due, on other copies. */
            memcpy(desk, b.want_desk.bytes, sizeof desk);
            memcpy(sheet, b.want_sheet.bytes, k * k);
            memcpy(seen, b.want_seen.bytes, 4 * k * k);
            after.want_desk.bytes = desk;
            after.want_sheet.bytes = sheet;
            after.want_seen.bytes = seen;
            want_accepted(&after, record);
            expect_bytes(&b, record, RECORD_SIZE, least_cycle(&after)[0] != 0,
                         "random log");
        }
        faults += b.desk.bytes[CLOSED_AT];
        free_buffers(&b);
    }
    check(faults > 150, "random logs: only %u faults", faults);
}

/* ------------------------------------------------- one class by its marks */

/* Whether the usage marks of one class are a cycle of one dependency: at one
 * level unsafe E with either safe letter, or unsafe S with safe N. S with safe
 * R alone is weak where it closes. */
static int is_clash(unsigned mark)
{
    unsigned level;

    for (level = 1; level <= 16; level *= 16) {
        int safe_n = (mark & 1 * level) != 0, safe_r = (mark & 2 * level) != 0;
        int unsafe_e = (mark & 4 * level) != 0;
        int unsafe_s = (mark & 8 * level) != 0;

        if ((unsafe_e && (safe_n || safe_r)) || (unsafe_s && safe_n))
            return 1;
    }
    return 0;
}

/* The triples that are due if no other class has a cycle of one dependency.
 * kinds: the class's sheet byte for itself. */
static void one_class_slip(uint8_t slip[4], unsigned class_, unsigned kinds,
                           unsigned mark)
{
    /* ER, EN and SN: the byte, and its two marks at the hard level. */
    static const unsigned strong[3][2] = { { 1, 4 + 2 }, { 2, 4 + 1 },
                                           { 8, 8 + 1 } };
    unsigned i, source;

    memset(slip, 0, 4);
    for (i = 0; i < 3; i++) {
        for (source = 0; source < SOURCES; source++) {
            unsigned both = strong[i][1] * (source == 2 ? 16 : 1);

            if (source == 0 ? !(kinds & strong[i][0]) : (mark & both) != both)
                continue;
            slip[0] = 1;
            slip[1] = (uint8_t)class_;
            slip[2] = (uint8_t)strong[i][0];
            slip[3] = (uint8_t)source;
            return;
        }
    }
}

/* A record that marks and draws nothing: a fault with the slip, or nothing, or
 * 11. The desk is open again after it, and the slip filled. */
static void expect_one_slip(struct buffers *b, int fits, const uint8_t slip[4],
                            const char *what)
{
    static const uint8_t record[] = { 0x4C, 0x4B, 2, HARD_ON, 0, 0 };
    unsigned due = !fits ? 11 : slip[0], is;

    if (due <= 1)
        want_count(b);
    if (due == 1) {
        b->want_desk.bytes[CLOSED_AT] = 1;
        write_slip(b->want_slip.bytes, b, slip);
    }
    is = call_step(b, b->desk.size, b->sheet.size, b->seen.size,
                   b->history.size, b->slip.size, record, sizeof record, what);
    check(is == due, "%s: step answers %u, not %u", what, is, due);
    check_buffers(b, what);
    put_desk(b, CLOSED_AT, 0);
    memset(b->slip.bytes, FILL, 1 + ENTRY);
    memset(b->want_slip.bytes, FILL, 1 + ENTRY);
}

/* Every mark byte on the lowest and on the highest class. */
static void test_clashes(void)
{
    static const unsigned sizes[] = { 1, 2, 8, 64 };
    unsigned mark, i, j, yes = 0, fit = 0, fit_yes = 0;
    struct buffers b;
    uint8_t slip[4];

    for (mark = 0; mark < 256; mark++) {
        yes += (unsigned)is_clash(mark);
        fit += (unsigned)mark_fits(mark);
        fit_yes += (unsigned)(is_clash(mark) && mark_fits(mark));
    }
    check(yes == 192 && fit == 144 && fit_yes == 103,
          "of the mark bytes %u clash, %u are fit, %u both", yes, fit, fit_yes);
    for (i = 0; i < sizeof sizes / sizeof sizes[0]; i++) {
        open_buffers(&b, sizes[i], 2);
        for (j = 0; j < 2; j++) {
            unsigned class_ = j * (sizes[i] - 1);

            for (mark = 0; mark < 256; mark++) {
                one_class_slip(slip, class_, 0, mark);
                check(slip[0] == is_clash(mark), "the rule of mark %u", mark);
                put_desk(&b, MARKS_AT + class_, mark);
                expect_one_slip(&b, mark_fits(mark), slip, "marks");
            }
            put_desk(&b, MARKS_AT + class_, 0);
        }
        free_buffers(&b);
    }
}

/* Every fit mark byte with every sheet byte of the class for itself. */
static void test_clashes_and_locks(void)
{
    unsigned class_, kinds, mark;
    struct buffers b;
    uint8_t slip[4];

    open_buffers(&b, 2, 0);
    for (class_ = 0; class_ < 2; class_++) {
        for (kinds = 0; kinds < 16; kinds++) {
            put_sheet(&b, class_, class_, kinds);
            for (mark = 0; mark < 256; mark++) {
                if (!mark_fits(mark))
                    continue;
                put_desk(&b, MARKS_AT + class_, mark);
                one_class_slip(slip, class_, kinds, mark);
                expect_one_slip(&b, 1, slip, "marks and lock dependencies");
            }
        }
        put_sheet(&b, class_, class_, 0);
        put_desk(&b, MARKS_AT + class_, 0);
    }
    free_buffers(&b);
}

/* Every two fit mark bytes on two classes: the lower that clashes is shown.
 * Where neither does, they are no cycle together either. */
static void test_clashes_of_two(void)
{
    unsigned low, high, neither = 0;
    struct buffers b;
    uint8_t slip[4];

    open_buffers(&b, 2, 0);
    for (low = 0; low < 256; low++) {
        for (high = 0; high < 256; high++) {
            if (!mark_fits(low) || !mark_fits(high))
                continue;
            put_desk(&b, MARKS_AT, low);
            put_desk(&b, MARKS_AT + 1, high);
            one_class_slip(slip, 0, 0, low);
            if (slip[0] == 0)
                one_class_slip(slip, 1, 0, high);
            if (slip[0] == 0) {
                neither++;
                check(least_cycle(&b)[0] == 0, "marks %u and %u", low, high);
            }
            expect_one_slip(&b, 1, slip, "marks of two classes");
        }
    }
    check(neither == 41 * 41, "%u of two marks do not clash", neither);
    free_buffers(&b);
}

/* --------------------------------------------------- the accepted records */

/* A number of four bytes as it should stand, the low byte first. */
static void check_number(const uint8_t *at, uint32_t number, const char *what)
{
    unsigned i;

    for (i = 0; i < 4; i++)
        check(at[i] == (number >> 8 * i & 255), "%s: byte %u of %" PRIu32
              " is %02X", what, i, number, at[i]);
}

static void check_count(const struct buffers *b, uint32_t count,
                        const char *what)
{
    check_number(b->desk.bytes + 1394, count, what);
}

static void check_seen(const struct buffers *b, unsigned from, unsigned to,
                       uint32_t number, const char *what)
{
    check_number(b->seen.bytes + 4 * (from * b->k + to), number, what);
}

/* The slip has these bytes, numbers and all, and FILL behind them. */
static void check_whole_slip(const struct buffers *b, const uint8_t *slip,
                             const char *what)
{
    size_t size = 1 + 7 * (size_t)slip[0], i;

    for (i = 0; i < b->slip.size; i++)
        check(b->slip.bytes[i] == (i < size ? slip[i] : FILL),
              "%s: slip byte %lu is %u", what, (unsigned long)i,
              b->slip.bytes[i]);
}

/* Each accepted record counts one, whatever it is, draws or not; a refused one
 * counts nothing. */
static void test_count(void)
{
    static const struct {
        uint8_t core, kind, class_, mode, answer, count;
    } rows[] = {
        { 0, HARD_ON, 0, 0, 0, 1 },
        { 0, ACQUIRE, 1, E, 0, 2 },
        { 0, ACQUIRE, 2, E, 0, 3 },
        { 0, ACQUIRE, 2, MODES, 3, 3 },
        { 0, ACQUIRE, 8, E, 4, 3 },
        { 0, RELEASE, 3, E, 5, 3 },
        { 0, RELEASE, 2, TRY + E, 5, 3 },
        { 0, EXIT_SOFT, 0, 0, 6, 3 },
        { 0, RELEASE, 2, E, 0, 4 },
        { 0, ACQUIRE, 2, E, 0, 5 }, /* draws what is drawn */
        { 0, ACQUIRE, 1, TRY + E, 0, 6 },
        { 0, RELEASE, 1, TRY + E, 0, 7 },
        { 7, SOFT_ON, 0, 0, 0, 8 },
        { 7, SOFT_OFF, 0, 0, 0, 9 },
        { 7, HARD_OFF, 0, 0, 0, 10 },
        { 7, HARD_ON, 0, 0, 0, 11 },
        { 7, ENTER_HARD, 0, 0, 0, 12 },
        { 7, EXIT_HARD, 0, 0, 0, 13 },
        { 7, SOFT_ON, 0, 0, 0, 14 },
        { 7, ENTER_SOFT, 0, 0, 0, 15 },
        { 7, ACQUIRE, 7, R, 0, 16 },
        { 7, EXIT_SOFT, 0, 0, 7, 16 },
        { 7, RELEASE, 7, R, 0, 17 },
        { 7, EXIT_SOFT, 0, 0, 0, 18 },
        { 1, ACQUIRE, 2, E, 0, 19 },
        { 1, ACQUIRE, 1, E, 1, 20 }, /* a fault is accepted */
        { 1, HARD_ON, 0, 0, 10, 20 }
    };
    struct buffers b;
    size_t i;

    open_buffers(&b, 8, 3);
    check_count(&b, 0, "count, opened");
    for (i = 0; i < sizeof rows / sizeof rows[0]; i++) {
        expect_step(&b, rows[i].core, rows[i].kind, rows[i].class_,
                    rows[i].mode, rows[i].answer, "count");
        check_count(&b, rows[i].count, "count");
    }
    put_desk(&b, STATES_AT, 9);
    expect_step(&b, 1, HARD_ON, 0, 0, 11, "count, unfit");
    check_count(&b, 20, "count, unfit");
    free_buffers(&b);

    open_buffers(&b, 8, 0);
    for (i = 1; i <= DEPTH + 3; i++) {
        expect_step(&b, 0, ACQUIRE, 0, R, i <= DEPTH ? 0 : 8, "count, full");
        check_count(&b, i <= DEPTH ? (uint32_t)i : DEPTH, "count, full");
    }
    free_buffers(&b);
}

/* Counts on both sides of each carry, and the highest to which one more may
 * come. */
static const uint32_t counts[] = {
    0, 1, 2, 127, 128, 254, 255, 256, 257, 511, 512, 32767, 32768, 65534, 65535,
    65536, 65537, 0xFFFFFE, 0xFFFFFF, 0x1000000, 0x1000001, 0x1FFFFFF,
    0x7FFFFFFE, 0x7FFFFFFF, 0x80000000, 0x80000001, 0xFEFFFFFF, 0xFFFEFFFF,
    0xFFFFFEFF, 0xFFFFFFFD, 0xFFFFFFFE
};

#define COUNTS (sizeof counts / sizeof counts[0])

/* One more at each of these, on a desk that did not come from opening: on the
 * desk, for a pair that is drawn, and in the slip. */
static void test_count_carries(void)
{
    uint8_t slip[] = { 1, 2, 2, 0, 0, 0, 0, 0 };
    struct buffers b;
    size_t i;

    for (i = 0; i < COUNTS; i++) {
        open_buffers(&b, 3, 1);
        put_count(&b, counts[i]);
        expect_step(&b, 0, HARD_ON, 0, 0, 0, "one more, a hard on");
        check_count(&b, counts[i] + 1, "one more, a hard on");

        put_count(&b, counts[i] - (counts[i] > 0));
        expect_step(&b, 0, ACQUIRE, 1, E, 0, "one more, an acquire");
        put_count(&b, counts[i]);
        expect_step(&b, 0, ACQUIRE, 2, E, 0, "one more, a dependency");
        check_count(&b, counts[i] + 1, "one more, a dependency");
        check_seen(&b, 1, 2, counts[i] + 1, "the number of a dependency");

        put_sheet(&b, 1, 2, 0);
        put_count(&b, counts[i]);
        expect_step(&b, 0, RELEASE, 1, E, 0, "one more, a release");
        check_count(&b, counts[i] + 1, "one more, a release");
        put_count(&b, counts[i]);
        expect_step(&b, 0, ACQUIRE, 2, E, 1, "one more, a fault");
        check_count(&b, counts[i] + 1, "one more, a fault");
        check_seen(&b, 2, 2, counts[i] + 1, "the number of the fault");
        set_low_first(slip + 4, counts[i] + 1);
        check_whole_slip(&b, slip, "the number of the fault in the slip");
        free_buffers(&b);
    }
}

/* At the highest count every record that would else be accepted gets 9, and
 * nothing is changed: in each state the events that are allowed, acquires of
 * all modes over a held lock, and its release. One below, one more is
 * accepted. */
static void test_count_full(void)
{
    struct buffers b;
    unsigned state, event, mode;

    open_buffers(&b, 8, 2);
    for (state = 0; state < 9; state++) {
        unsigned frame = frame_of(4, state);

        put_desk(&b, STATES_AT + 4, state);
        put_count(&b, UINT32_MAX);
        for (event = 0; event < 8; event++)
            expect_step(&b, 4, event + 2, 0, 0,
                        next_state[state][event] < 0 ? 6 : 9,
                        "full count, an event");
        for (mode = 0; mode < MODES; mode++)
            expect_step(&b, 4, ACQUIRE, 3, mode, 9, "full count, an acquire");
        put_desk(&b, DEPTHS_AT + frame, 1);
        put_desk(&b, HELD_AT + DEPTH * frame, 3 + 64 * R);
        for (mode = 0; mode < MODES; mode++) {
            expect_step(&b, 4, ACQUIRE, 5, mode, 9, "full count, a dependency");
            expect_step(&b, 4, ACQUIRE, 3, mode, 9, "full count, its class");
        }
        for (mode = 0; mode < MODES; mode++)
            expect_step(&b, 4, RELEASE, 3, mode, mode == R ? 9 : 5,
                        "full count, a release");
        expect_no_reach(&b, 3, 0, "full count, ask");

        put_count(&b, UINT32_MAX - 1);
        expect_step(&b, 4, RELEASE, 3, R, 0, "the last to be counted");
        check_count(&b, UINT32_MAX, "the last to be counted");
        expect_step(&b, 5, HARD_ON, 0, 0, 9, "and no more");
        expect_step(&b, 4, ACQUIRE, 3, R, 9, "and no more");
        check_count(&b, UINT32_MAX, "and no more");
        put_desk(&b, STATES_AT + 4, 0);
        put_desk(&b, MARKS_AT + 3, 0);
    }
    free_buffers(&b);
}

/* 9 for a fault too: one that the record would draw, one that stands, and one
 * by marks. The desk stays open, and with a lower count the fault comes. */
static void test_count_full_fault(void)
{
    struct buffers b;

    open_buffers(&b, 8, 0);
    expect_step(&b, 0, ACQUIRE, 1, E, 0, "full count, 1E");
    put_count(&b, UINT32_MAX);
    expect_step(&b, 0, ACQUIRE, 1, E, 9, "full count, a fault to be drawn");
    put_count(&b, 41);
    expect_step(&b, 0, ACQUIRE, 1, E, 1, "a fault drawn");
    check_seen(&b, 1, 1, 42, "a fault drawn");
    put_desk(&b, CLOSED_AT, 0);
    put_count(&b, UINT32_MAX);
    expect_step(&b, 3, HARD_ON, 0, 0, 9, "full count, a fault that stands");
    expect_reach(&b, 1, BIT(1), 1, "full count, ask");
    put_count(&b, UINT32_MAX - 1);
    expect_step(&b, 3, HARD_ON, 0, 0, 1, "the last to be counted, a fault");
    check_count(&b, UINT32_MAX, "the last to be counted, a fault");
    expect_step(&b, 3, HARD_ON, 0, 0, 10, "full count, closed");
    free_buffers(&b);

    open_buffers(&b, 8, 0);
    put_desk(&b, MARKS_AT + 6, 5);
    put_count(&b, UINT32_MAX);
    expect_step(&b, 2, SOFT_OFF, 0, 0, 9, "full count, a fault by marks");
    put_count(&b, 0);
    expect_step(&b, 2, SOFT_OFF, 0, 0, 1, "a fault by marks");
    free_buffers(&b);
}

/* Every other refusal is before 9. */
static void test_count_order(void)
{
    static const uint8_t good[LONGEST_RECORD] = { 0x4C, 0x4B, 0, HARD_ON };
    struct buffers b;
    unsigned i;

    open_buffers(&b, 8, 0);
    for (i = 0; i < DEPTH; i++)
        expect_step(&b, 3, ACQUIRE, 0, R, 0, "fill the frame");
    expect_step(&b, 4, ENTER_HARD, 0, 0, 0, "enter hard");
    expect_step(&b, 4, ACQUIRE, 1, TRY + E, 0, "a try in the handler");
    put_count(&b, UINT32_MAX);

    for (i = 0; i <= sizeof good; i++)
        expect_bytes(&b, good, i, i == RECORD_SIZE ? 9 : 3, "3 before 9");
    expect_step(&b, 8, HARD_ON, 0, 0, 3, "3 before 9, core 8");
    expect_step(&b, 0, 13, 0, 0, 3, "3 before 9, kind 13");
    expect_step(&b, 0, CROSS, 0, 0, 15, "15 before 9");
    expect_step(&b, 0, ACQUIRE, 1, MODES, 3, "3 before 9, mode 6");
    expect_step(&b, 0, HARD_ON, 1, 0, 3, "3 before 9, class of an event");
    expect_step(&b, 0, ACQUIRE, 8, E, 4, "4 before 9");
    expect_step(&b, 0, ACQUIRE, 255, TRY + E, 4, "4 before 9, a try");
    expect_step(&b, 0, RELEASE, 8, E, 4, "4 before 9, a release");
    expect_step(&b, 0, RELEASE, 8, TRY + R, 4, "4 before 9, a try's release");
    expect_step(&b, 3, RELEASE, 0, MODES, 3, "3 before 9, a release");
    expect_step(&b, 0, EXIT_HARD, 0, 0, 6, "6 before 9");
    expect_step(&b, 4, ENTER_SOFT, 0, 0, 6, "6 before 9, in a handler");
    expect_step(&b, 4, EXIT_HARD, 0, 0, 7, "7 before 9");
    expect_step(&b, 0, RELEASE, 0, E, 5, "5 before 9");
    expect_step(&b, 3, RELEASE, 0, E, 5, "5 before 9, another mode");
    expect_step(&b, 3, RELEASE, 0, TRY + R, 5, "5 before 9, no try");
    expect_step(&b, 4, RELEASE, 1, E, 5, "5 before 9, a try");
    for (i = 0; i < MODES; i++)
        expect_step(&b, 3, ACQUIRE, 2, i, 8, "8 before 9");
    expect_step(&b, 3, RELEASE, 0, R, 9, "9");
    expect_step(&b, 4, RELEASE, 1, TRY + E, 9, "9, a try's release");

    put_desk(&b, CLOSED_AT, 1);
    expect_step(&b, 0, HARD_ON, 0, 0, 10, "10 before 9");
    expect_step(&b, 3, ACQUIRE, 2, E, 10, "10 before 8 and 9");
    put_desk(&b, STATES_AT + 7, 9);
    expect_step(&b, 0, HARD_ON, 0, 0, 11, "11 before 10 and 9");
    put_desk(&b, CLOSED_AT, 0);
    expect_step(&b, 0, HARD_ON, 0, 0, 11, "11 before 9");
    put_desk(&b, STATES_AT + 7, 0);
    put_seen(&b, 7, 7, 1);
    expect_step(&b, 0, HARD_ON, 0, 0, 11, "11 before 9, by a number");
    put_seen(&b, 7, 7, 0);
    expect_step(&b, 0, HARD_ON, 0, 0, 9, "9 again");
    free_buffers(&b);
}

/* ------------------------------------------------------- the second sheet */

/* Every pair has its own four bytes; of 63 and 64 classes the corners only. */
static void test_seen_places(void)
{
    static const unsigned sizes[] = { 1, 2, 3, 8, 63, 64 };
    static const uint8_t number[] = { 2, 2, 3, 4 };
    struct buffers b;
    unsigned i, from, to;
    size_t at;

    for (i = 0; i < sizeof sizes / sizeof sizes[0]; i++) {
        unsigned k = sizes[i], by = k > 8 ? k - 1 : 1;

        for (from = 0; from < k; from += by) {
            for (to = 0; to < k; to += by) {
                open_buffers(&b, k, 5);
                put_count(&b, 0x04030200);
                expect_step(&b, 6, ACQUIRE, from, R, 0, "a pair, the first");
                expect_step(&b, 6, ACQUIRE, to, R, 0, "a pair, the second");
                for (at = 0; at < 4 * k * k; at++)
                    check(b.seen.bytes[at]
                          == (at / 4 == from * k + to ? number[at % 4] : 0),
                          "pair %u, %u of %u: byte %lu is %u", from, to, k,
                          (unsigned long)at, b.seen.bytes[at]);
                free_buffers(&b);
            }
        }
    }
}

/* One acquire draws from every lock of its frame: all these pairs get its
 * number, also that of the class with itself; pairs of other frames none. */
static void test_seen_by_one(void)
{
    struct buffers b;

    open_buffers(&b, 8, 0);
    expect_step(&b, 0, ACQUIRE, 6, E, 0, "by one, task, 6E");
    expect_step(&b, 0, ENTER_SOFT, 0, 0, 0, "by one, enter soft");
    expect_step(&b, 0, ACQUIRE, 1, TRY + E, 0, "by one, try 1E");
    expect_step(&b, 0, ACQUIRE, 2, TRY + r, 0, "by one, try 2r");
    expect_step(&b, 0, ACQUIRE, 2, TRY + R, 0, "by one, try 2R");
    expect_step(&b, 0, ACQUIRE, 4, TRY + R, 0, "by one, try 4R");
    expect_step(&b, 0, ACQUIRE, 4, R, 0, "by one, 4R");
    check_seen(&b, 1, 4, 7, "from the oldest");
    check_seen(&b, 2, 4, 7, "from a class held twice");
    check_seen(&b, 4, 4, 7, "from its own class");
    check_seen(&b, 6, 4, 0, "from another frame");
    check_seen(&b, 4, 1, 0, "back");
    expect_step(&b, 0, ACQUIRE, 5, R, 0, "by one, 5R");
    check_seen(&b, 1, 5, 8, "the next, from the oldest");
    check_seen(&b, 4, 5, 8, "the next, from the newest");
    check_seen(&b, 1, 4, 7, "the first is as it was");
    free_buffers(&b);
}

/* The number is the pair's: a dependency drawn again keeps it, and a second
 * kind keeps it too. The slip has it for the kind that came later. */
static void test_seen_later_kind(void)
{
    static const uint8_t slip[] = { 2, 1, 1, 0, 2, 0, 0, 0,
                                    2, 2, 0, 14, 0, 0, 0 };
    struct buffers b;

    open_buffers(&b, 8, 1);
    expect_step(&b, 0, ACQUIRE, 1, R, 0, "later kind, 1R");
    expect_step(&b, 0, ACQUIRE, 2, E, 0, "later kind, 2E: 1 SN 2");
    check_seen(&b, 1, 2, 2, "the first kind");
    expect_step(&b, 0, RELEASE, 2, E, 0, "later kind, release 2");
    expect_step(&b, 0, ACQUIRE, 2, E, 0, "later kind, 2E again");
    check_seen(&b, 1, 2, 2, "the same kind again");
    expect_step(&b, 0, RELEASE, 2, E, 0, "later kind, release 2 again");
    expect_step(&b, 0, RELEASE, 1, R, 0, "later kind, release 1");
    expect_step(&b, 5, ACQUIRE, 1, E, 0, "later kind, core 5, 1E");
    expect_step(&b, 5, ACQUIRE, 2, R, 0, "later kind, core 5, 2R: 1 ER 2");
    check_seen(&b, 1, 2, 2, "a second kind");
    check(b.sheet.bytes[8 + 2] == 9, "later kind: both kinds");
    expect_step(&b, 5, ACQUIRE, 3, E, 0, "later kind, core 5, 3E");
    check_seen(&b, 1, 3, 9, "another pair");
    expect_step(&b, 5, RELEASE, 2, R, 0, "later kind, core 5, release 2");
    expect_step(&b, 5, ACQUIRE, 2, TRY + E, 0, "later kind, core 5, try 2E");
    check_seen(&b, 1, 2, 2, "after a try");
    expect_step(&b, 6, HARD_ON, 0, 0, 0, "later kind, a hard on");
    expect_step(&b, 6, ACQUIRE, 2, E, 0, "later kind, core 6, 2E");
    expect_step(&b, 6, ACQUIRE, 1, E, 1, "later kind, core 6, 1E: 2 EN 1");
    check_whole_slip(&b, slip, "later kind");
    check_seen(&b, 1, 2, 2, "after the fault");
    free_buffers(&b);
}

/* A try draws nothing, so its pair has no number until an acquire draws one. */
static void test_seen_try(void)
{
    struct buffers b;

    open_buffers(&b, 8, 0);
    expect_step(&b, 0, ACQUIRE, 1, E, 0, "numbers and tries, 1E");
    expect_step(&b, 0, ACQUIRE, 2, TRY + E, 0, "numbers and tries, try 2E");
    check_seen(&b, 1, 2, 0, "a try");
    expect_step(&b, 0, ACQUIRE, 1, TRY + R, 0, "numbers and tries, try 1R");
    check_seen(&b, 1, 1, 0, "a try of its class");
    check_seen(&b, 2, 1, 0, "a try over a try");
    expect_step(&b, 0, RELEASE, 2, TRY + E, 0, "numbers and tries, release 2");
    expect_step(&b, 0, ACQUIRE, 2, E, 0, "numbers and tries, 2E");
    check_seen(&b, 1, 2, 5, "an acquire after a try");
    free_buffers(&b);
}

/* Refused records are not counted: numbers are those of accepted records. */
static void test_seen_refused(void)
{
    static const uint8_t slip[] = { 2, 1, 2, 0, 2, 0, 0, 0,
                                    2, 2, 0, 4, 0, 0, 0 };
    struct buffers b;
    unsigned i;

    open_buffers(&b, 8, 0);
    expect_step(&b, 0, ACQUIRE, 1, E, 0, "between refusals, 1E");
    for (i = 0; i < 300; i++) {
        expect_step(&b, 0, RELEASE, 2, E, 5, "a refused release");
        expect_step(&b, 0, RELEASE, 1, R, 5, "a release in another mode");
        expect_step(&b, 9, RELEASE, 2, E, 3, "a malformed record");
        expect_step(&b, 0, ACQUIRE, 9, E, 4, "a refused acquire");
        expect_step(&b, 0, EXIT_HARD, 0, 0, 6, "a refused event");
    }
    expect_step(&b, 0, ACQUIRE, 2, E, 0, "between refusals, 2E");
    check_seen(&b, 1, 2, 2, "between refusals");
    expect_step(&b, 1, ACQUIRE, 2, E, 0, "between refusals, core 1, 2E");
    expect_step(&b, 1, RELEASE, 7, E, 5, "between refusals, one more");
    expect_step(&b, 1, ACQUIRE, 1, E, 1, "between refusals, core 1, 1E");
    check_whole_slip(&b, slip, "between refusals");
    free_buffers(&b);
}

/* A dependency by marks has number 0 in the slip, also where a lock dependency
 * of its pair has one: at both levels, and of a class with itself. */
static void test_seen_by_marks(void)
{
    static const uint8_t hard[] = { 2, 0, 1, 1, 0, 0, 0, 0,
                                    1, 2, 0, 12, 0, 0, 0 };
    static const uint8_t soft[] = { 2, 0, 1, 2, 0, 0, 0, 0,
                                    1, 2, 0, 12, 0, 0, 0 };
    static const uint8_t own[] = { 1, 3, 1, 1, 0, 0, 0, 0 };
    struct buffers b;
    unsigned level;

    for (level = 0; level < 2; level++) {
        unsigned off = level == 0 ? HARD_OFF : SOFT_OFF;
        unsigned enter = level == 0 ? ENTER_HARD : ENTER_SOFT;

        open_buffers(&b, 8, 0);
        expect_step(&b, 0, enter, 0, 0, 0, "by marks, enter");
        expect_step(&b, 0, ACQUIRE, 1, R, 0, "by marks, 1R in the handler");
        expect_step(&b, 0, RELEASE, 1, R, 0, "by marks, release 1");
        expect_step(&b, 0, enter + 1, 0, 0, 0, "by marks, exit");
        expect_step(&b, 0, ACQUIRE, 0, E, 0, "by marks, 0E");
        expect_step(&b, 0, off, 0, 0, 0, "by marks, off");
        expect_step(&b, 0, ACQUIRE, 1, E, 0, "by marks, 1E: 0 EN 1");
        expect_step(&b, 0, RELEASE, 1, E, 0, "by marks, release 1 again");
        expect_step(&b, 0, RELEASE, 0, E, 0, "by marks, release 0");
        expect_step(&b, 1, off, 0, 0, 0, "by marks, core 1, off");
        expect_step(&b, 1, ACQUIRE, 1, E, 0, "by marks, core 1, 1E");
        expect_step(&b, 1, ACQUIRE, 0, E, 1, "by marks, core 1, 0E: 1 EN 0");
        check_seen(&b, 0, 1, 7, "by marks");
        check_whole_slip(&b, level == 0 ? hard : soft, "by marks");
        free_buffers(&b);
    }

    open_buffers(&b, 8, 0);
    expect_step(&b, 0, ENTER_HARD, 0, 0, 0, "by its marks, enter hard");
    expect_step(&b, 0, ACQUIRE, 3, R, 0, "by its marks, 3R");
    expect_step(&b, 0, RELEASE, 3, R, 0, "by its marks, release 3");
    expect_step(&b, 0, EXIT_HARD, 0, 0, 0, "by its marks, exit hard");
    expect_step(&b, 0, ACQUIRE, 3, R, 0, "by its marks, task, 3R");
    expect_step(&b, 0, ACQUIRE, 3, E, 1, "by its marks, 3E: 3 SN 3");
    check_seen(&b, 3, 3, 6, "by its marks");
    check_whole_slip(&b, own, "by its marks");
    free_buffers(&b);
}

/* The record of the fault has its number in the slip; with one class, over
 * several held locks, and where only some of its dependencies are new. */
static void test_seen_of_the_fault(void)
{
    static const uint8_t one[] = { 1, 0, 2, 0, 2, 0, 0, 0 };
    static const uint8_t two[] = { 2, 0, 2, 0, 2, 0, 0, 0,
                                   1, 2, 0, 7, 0, 0, 0 };
    static const uint8_t old[] = { 2, 0, 2, 0, 7, 0, 0, 0,
                                   1, 4, 0, 2, 0, 0, 0 };
    struct buffers b;

    open_buffers(&b, 1, 0);
    expect_step(&b, 0, ACQUIRE, 0, E, 0, "the fault, K = 1, 0E");
    expect_step(&b, 0, ACQUIRE, 0, E, 1, "the fault, K = 1, 0E again");
    check_whole_slip(&b, one, "the fault, K = 1");
    free_buffers(&b);

    open_buffers(&b, 3, 0);
    expect_step(&b, 0, ACQUIRE, 0, E, 0, "the fault, 0E");
    expect_step(&b, 0, ACQUIRE, 1, E, 0, "the fault, 1E: 0 EN 1");
    expect_step(&b, 0, RELEASE, 1, E, 0, "the fault, release 1");
    expect_step(&b, 0, RELEASE, 0, E, 0, "the fault, release 0");
    expect_step(&b, 1, ACQUIRE, 1, E, 0, "the fault, core 1, 1E");
    expect_step(&b, 1, ACQUIRE, 2, E, 0, "the fault, core 1, 2E");
    expect_step(&b, 1, ACQUIRE, 0, E, 1, "the fault, core 1, 0E");
    check_seen(&b, 2, 0, 7, "the fault, beside the cycle");
    check_whole_slip(&b, two, "the fault");
    free_buffers(&b);

    /* 1 SR 0 closes the cycle only with 0 EN 1, which is drawn last. */
    open_buffers(&b, 3, 0);
    expect_step(&b, 0, ACQUIRE, 1, R, 0, "an old one, 1R");
    expect_step(&b, 0, ACQUIRE, 0, R, 0, "an old one, 0R: 1 SR 0");
    expect_step(&b, 0, RELEASE, 0, R, 0, "an old one, release 0");
    expect_step(&b, 0, RELEASE, 1, R, 0, "an old one, release 1");
    expect_step(&b, 7, SOFT_OFF, 0, 0, 0, "an old one, soft off");
    expect_step(&b, 1, ACQUIRE, 0, E, 0, "an old one, core 1, 0E");
    expect_step(&b, 1, ACQUIRE, 1, E, 1, "an old one, core 1, 1E: 0 EN 1");
    check_whole_slip(&b, old, "an old one");
    free_buffers(&b);
}

/* Numbers of two and of three bytes, by as many records. */
static void test_seen_long(void)
{
    static const uint8_t slip[] = { 2, 0, 2, 0, 0x2E, 0x01, 0, 0,
                                    1, 2, 0, 0x74, 0x11, 0x01, 0 };
    struct buffers b;
    unsigned i;

    open_buffers(&b, 2, 0);
    for (i = 0; i < 300; i += 2) {
        expect_step(&b, 0, ACQUIRE, 1, E, 0, "a long log, 1E");
        expect_step(&b, 0, RELEASE, 1, E, 0, "a long log, release 1");
    }
    expect_step(&b, 0, ACQUIRE, 0, E, 0, "a long log, 0E");
    expect_step(&b, 0, ACQUIRE, 1, E, 0, "a long log, 1E: 0 EN 1");
    check_seen(&b, 0, 1, 302, "a long log");
    for (i = 0; i < 69700; i += 2) {
        expect_step(&b, 0, RELEASE, 1, E, 0, "a long log, release 1 again");
        expect_step(&b, 0, ACQUIRE, 1, E, 0, "a long log, 1E again");
    }
    check_count(&b, 70002, "a long log");
    expect_step(&b, 1, ACQUIRE, 1, E, 0, "a long log, core 1, 1E");
    expect_step(&b, 1, ACQUIRE, 0, E, 1, "a long log, core 1, 0E: 1 EN 0");
    check_seen(&b, 0, 1, 302, "a long log, the fault");
    check_seen(&b, 1, 0, 70004, "a long log, the fault");
    check_whole_slip(&b, slip, "a long log");
    free_buffers(&b);
}

/* On a desk from elsewhere: numbers that stand stay, and new ones go on from
 * the count. */
static void test_seen_from_elsewhere(void)
{
    struct buffers b;
    size_t i;

    for (i = 3; i < COUNTS; i++) {
        open_buffers(&b, 8, 0);
        put_kinds(&b, 1, 2, PLUNGEROWL_EN);
        put_seen(&b, 1, 2, counts[i]);
        put_kinds(&b, 1, 3, PLUNGEROWL_SR);
        put_seen(&b, 1, 3, 1);
        put_count(&b, counts[i]);
        put_desk(&b, DEPTHS_AT, 1);
        put_desk(&b, HELD_AT, 1);
        expect_step(&b, 0, ACQUIRE, 2, R, 0, "from elsewhere, 2R");
        check_seen(&b, 1, 2, counts[i], "from elsewhere, as the count");
        put_count(&b, counts[i]);
        expect_step(&b, 0, ACQUIRE, 3, E, 0, "from elsewhere, 3E");
        check_seen(&b, 1, 3, 1, "from elsewhere, as the first");
        check_seen(&b, 2, 3, counts[i] + 1, "from elsewhere, a new one");
        free_buffers(&b);
    }
}

/* Two cycles 0, 1 and 0, 2 of the same kinds and sources: the first is shown,
 * whatever the numbers are. Compared byte by byte, or as numbers, they would
 * say the other. */
static void test_seen_not_compared(void)
{
    static const uint32_t numbers[][2] = { /* of 0 EN 1 and of 0 EN 2 */
        { 2, 1 }, { 1, 2 }, { 256, 255 }, { 255, 256 }, { 257, 1 }, { 1, 257 },
        { 65536, 2 }, { 2, 65536 }, { 65537, 65536 }, { 1 << 24, 65535 },
        { 255, 1 << 24 }, { UINT32_MAX - 1, 1 }, { 7, 7 } };
    static const uint8_t lowest[] = { 2, 0, 2, 0, 1, 2, 0 };
    static const uint8_t least_kind[] = { 2, 0, 1, 0, 2, 2, 0 };
    static const uint8_t least_source[] = { 2, 0, 2, 0, 2, 2, 0 };
    static const uint8_t later[] = { 3, 0, 2, 0, 1, 2, 0, 2, 2, 0 };
    struct buffers b;
    size_t i;
    unsigned shape;

    for (i = 0; i < sizeof numbers / sizeof numbers[0]; i++) {
        for (shape = 0; shape < 5; shape++) {
            unsigned from = shape == 4 ? 1 : 0, low = from + 1;
            uint32_t number = numbers[i][0], other = numbers[i][1];

            open_buffers(&b, FEW, 0);
            put_sheet(&b, from, low, shape == 3 ? 0 : PLUNGEROWL_EN);
            put_sheet(&b, from, low + 1, shape == 2 ? PLUNGEROWL_ER
                                                    : PLUNGEROWL_EN);
            put_sheet(&b, low, 0, PLUNGEROWL_EN);
            put_sheet(&b, low + 1, 0, PLUNGEROWL_EN);
            if (shape == 4)
                put_sheet(&b, 0, 1, PLUNGEROWL_EN);
            put_count(&b, UINT32_MAX - 1);
            if (shape == 1) { /* those of the way back */
                put_seen(&b, 1, 0, number);
                put_seen(&b, 2, 0, other);
            } else if (shape == 3) { /* 0 EN 1 by marks, and so 0 */
                put_desk(&b, MARKS_AT, 4);
                put_desk(&b, MARKS_AT + 1, 1);
                put_seen(&b, 0, 2, number);
            } else if (shape == 2) { /* ER is drawn last */
                put_seen(&b, 0, 1, other);
                put_seen(&b, 0, 2, number);
            } else {
                put_seen(&b, from, low, number);
                put_seen(&b, from, low + 1, other);
            }
            expect_step(&b, 7, HARD_ON, 0, 0, 1, "not compared");
            check_slip(&b, shape == 2 ? least_kind : shape == 3 ? least_source
                       : shape == 4 ? later : lowest, "not compared");
            free_buffers(&b);
        }
    }
}

/* The same by a log: 0 EN 2 is older than 0 EN 1. */
static void test_seen_older_not_shown(void)
{
    static const uint8_t slip[] = { 2, 0, 2, 0, 4, 0, 0, 0,
                                    1, 2, 0, 9, 0, 0, 0 };
    static struct log log;
    struct buffers b;
    struct feeding f;
    size_t at;

    log_header(&log, 8);
    log_record(&log, 0, ACQUIRE, 0, E);
    log_record(&log, 0, ACQUIRE, 2, E);
    log_record(&log, 0, RELEASE, 2, E);
    log_record(&log, 0, ACQUIRE, 1, E);
    log_record(&log, 0, RELEASE, 1, E);
    log_record(&log, 0, RELEASE, 0, E);
    log_record(&log, 1, ACQUIRE, 2, E);
    log_record(&log, 1, ACQUIRE, 1, E);
    log_record(&log, 1, ACQUIRE, 0, E);
    open_buffers(&b, 8, 0);
    for (at = HEADER_SIZE; at < log.size; at += RECORD_SIZE)
        expect_bytes(&b, log.bytes + at, RECORD_SIZE,
                     at + RECORD_SIZE == log.size, "the older");
    check_seen(&b, 0, 2, 2, "the older");
    check_seen(&b, 0, 1, 4, "the younger");
    check_whole_slip(&b, slip, "the older");
    free_buffers(&b);
    start_feed(&f, 8, 0);
    expect_feed(&f, log.bytes, log.size, 1, 9, "the older, fed");
    check_whole_slip(&f.b, slip, "the older, fed");
    free_feed(&f);
}

/* With buffers for more classes: bytes past those of K are not looked at and
 * not changed, whatever they are. */
static void test_seen_past(void)
{
    static const uint8_t past[] = { 0, 1, 15, 16, 90, 255 };
    struct buffers b;
    size_t i, j;

    for (i = 0; i < sizeof past; i++) {
        for (j = 0; j < sizeof past; j++) {
            make_buffers(&b, 64, 0);
            b.k = 3;
            memset(b.sheet.bytes, past[i], b.sheet.size);
            memset(b.want_sheet.bytes, past[i], b.sheet.size);
            memset(b.seen.bytes, past[j], b.seen.size);
            memset(b.want_seen.bytes, past[j], b.seen.size);
            expect_open(&b, 3, 0, "past K x K, opening");
            expect_step(&b, 0, ACQUIRE, 1, E, 0, "past K x K, 1E");
            expect_step(&b, 0, ACQUIRE, 2, E, 0, "past K x K, 2E");
            expect_reach(&b, 1, BIT(2), 1, "past K x K, ask");
            expect_step(&b, 1, ACQUIRE, 2, E, 0, "past K x K, core 1, 2E");
            expect_step(&b, 1, ACQUIRE, 1, E, 1, "past K x K, core 1, 1E");
            check_seen(&b, 1, 2, 2, "past K x K");
            check_seen(&b, 2, 1, 4, "past K x K");
            free_buffers(&b);
        }
    }
}

/* --------------------------------------------------- fit and unfit numbers */

/* The buffers are fit: a question is answered, and a step refuses a malformed
 * record for what it is. */
static void expect_fit(struct buffers *b, const char *what)
{
    uint64_t word = 0;
    uint32_t count = 0;
    unsigned is = plungerowl_ask(b->desk.bytes, b->desk.size,
                                 b->sheet.bytes, b->sheet.size,
                                 b->seen.bytes, b->seen.size, 0, &word, &count);

    check(is == 0, "%s: ask answers %u, not 0", what, is);
    expect_step(b, 255, 255, 255, 255, 3, what);
}

static void expect_number(struct buffers *b, unsigned from, unsigned to,
                          uint32_t number, int fits, const char *what)
{
    put_seen(b, from, to, number);
    if (fits)
        expect_fit(b, what);
    else
        expect_unfit(b, what);
}

/* In every pair: kinds without a number, and a number without kinds. With kinds
 * every number but 0 is fit: below the count, as high, and above it. */
static void test_unfit_numbers(void)
{
    const uint32_t count = 0x04030201;
    struct buffers b;
    unsigned from, to, i, kinds;

    open_buffers(&b, 8, 9);
    put_count(&b, count);
    expect_fit(&b, "no numbers");
    for (from = 0; from < 8; from++) {
        for (to = 0; to < 8; to++) {
            expect_number(&b, from, to, 1, 0, "a number without kinds");
            expect_number(&b, from, to, count, 0, "the count without kinds");
            for (i = 0; i < 32; i++)
                expect_number(&b, from, to, (uint32_t)1 << i, 0,
                              "one bit without kinds");
            for (kinds = 1; kinds < 16; kinds++) {
                put_kinds(&b, from, to, kinds);
                expect_number(&b, from, to, 0, 0, "kinds without a number");
                expect_number(&b, from, to, 1, 1, "the first number");
                expect_number(&b, from, to, count, 1, "as the count");
                expect_number(&b, from, to, count + 1, 1, "above the count");
            }
            for (i = 0; i < 32; i++) {
                uint32_t bit = (uint32_t)1 << i;

                expect_number(&b, from, to, bit, 1, "one bit");
                expect_number(&b, from, to, count | bit, 1,
                              "a bit above the count");
                expect_number(&b, from, to, count & ~bit, 1,
                              "a bit less than the count");
            }
            expect_number(&b, from, to, UINT32_MAX, 1, "the highest number");
            put_kinds(&b, from, to, 0);
            put_seen(&b, from, to, 0);
        }
    }
    expect_fit(&b, "no numbers again");
    free_buffers(&b);
}

/* By every count: one less, as many, one more, and every other count's. No
 * number but 0 is tied to the count. */
static void test_any_count(void)
{
    struct buffers b;
    size_t i, j;

    open_buffers(&b, 2, 0);
    for (i = 0; i < COUNTS; i++) {
        uint32_t count = counts[i];

        put_count(&b, count);
        put_kinds(&b, 1, 0, 0);
        expect_number(&b, 1, 0, 0, 1, "no dependency");
        expect_number(&b, 1, 0, count + 1, 0, "above the count, no kinds");
        put_kinds(&b, 1, 0, PLUNGEROWL_SR);
        expect_number(&b, 1, 0, count + 1, 1, "above the count");
        expect_number(&b, 1, 0, count, count > 0, "as the count");
        expect_number(&b, 1, 0, count - 1, count != 1, "below the count");
        expect_number(&b, 1, 0, UINT32_MAX, 1, "the highest number");
        for (j = 1; j < COUNTS; j++)
            expect_number(&b, 1, 0, counts[j], 1, "another count's number");
    }
    put_count(&b, UINT32_MAX);
    expect_number(&b, 1, 0, UINT32_MAX, 1, "all as high as can be");
    expect_number(&b, 1, 0, 0, 0, "the highest count, no number");
    free_buffers(&b);
}

/* Numbers above the count: steps go on from the count as it is, old numbers
 * stay and are in the slip, new ones are lower. By steps and in a feed. */
static void test_above_count(void)
{
    static const uint8_t slip[] = { 2, 1, 2, 0, 0x01, 0x02, 0x03, 0xF4,
                                    2, 2, 0, 4, 0, 0, 0 };
    static struct log log;
    struct buffers b;
    struct feeding f;

    log_header(&log, 3);
    log_record(&log, 0, ACQUIRE, 1, E);
    log_record(&log, 0, ACQUIRE, 2, E);
    log_record(&log, 1, ACQUIRE, 2, E);
    log_record(&log, 1, ACQUIRE, 1, E);

    open_buffers(&b, 3, 0);
    put_kinds(&b, 1, 2, PLUNGEROWL_SR);
    put_seen(&b, 1, 2, 0xF4030201);
    expect_reach(&b, 1, BIT(2), 1, "above the count, ask");
    expect_bytes(&b, log.bytes + 4, 6, 0, "above the count, 1E");
    expect_bytes(&b, log.bytes + 10, 6, 0, "above the count, 2E");
    check_seen(&b, 1, 2, 0xF4030201, "above the count");
    expect_bytes(&b, log.bytes + 16, 6, 0, "above the count, core 1, 2E");
    expect_bytes(&b, log.bytes + 22, 6, 1, "above the count, core 1, 1E");
    check_count(&b, 4, "above the count");
    check_whole_slip(&b, slip, "above the count");
    free_buffers(&b);

    start_feed(&f, 3, 1);
    expect_feed(&f, log.bytes, 4, 0, 0, "above the count, fed a header");
    put_kinds(&f.b, 1, 2, PLUNGEROWL_SR);
    put_seen(&f.b, 1, 2, 0xF4030201);
    expect_feed(&f, log.bytes + 4, 15, 0, 2, "above the count, fed");
    expect_feed(&f, log.bytes + 19, 9, 1, 4, "above the count, fed a fault");
    check_whole_slip(&f.b, slip, "above the count, fed");
    free_feed(&f);

    /* And at the end, with loose bytes. */
    start_feed(&f, 3, 0);
    expect_feed(&f, log.bytes, 8, 0, 0, "above the count, loose bytes");
    put_kinds(&f.b, 2, 2, PLUNGEROWL_SR);
    put_seen(&f.b, 2, 2, 1);
    expect_end(&f, 3, 1, "above the count, the end");
    free_feed(&f);
}

/* The pairs of K classes and no others, for every K: the last pair is looked
 * at, and what would be the next is not. */
static void test_unfit_last_pair(void)
{
    struct buffers b;
    unsigned k, i;

    for (k = 1; k <= 64; k++) {
        size_t last = (size_t)k * k - 1;

        open_buffers(&b, k, 8);
        put_count(&b, 5);
        for (i = 0; i < 2; i++) { /* in the last pair, behind it */
            size_t pair = last + i;
            uint8_t *kinds[] = { b.sheet.bytes + pair,
                                 b.want_sheet.bytes + pair };
            uint8_t *seen[] = { b.seen.bytes + 4 * pair,
                                b.want_seen.bytes + 4 * pair };
            static const struct {
                uint8_t kinds;
                uint32_t number;
            } cases[] = { { 1, 0 }, { 0, 1 }, { 15, 0 }, { 0, UINT32_MAX },
                          { 8, 6 }, { 15, UINT32_MAX } };
            size_t c, side;

            for (c = 0; c < sizeof cases / sizeof cases[0]; c++) {
                for (side = 0; side < 2; side++) {
                    *kinds[side] = cases[c].kinds;
                    set_low_first(seen[side], cases[c].number);
                }
                if (i == 0 && (cases[c].kinds == 0 || cases[c].number == 0))
                    expect_unfit(&b, "the last pair");
                else
                    expect_fit(&b, i == 0 ? "the last pair, any number"
                                          : "behind the last pair");
            }
            for (side = 0; side < 2; side++) {
                *kinds[side] = PLUNGEROWL_SR;
                set_low_first(seen[side], 5);
            }
            expect_fit(&b, "a fit pair");
        }
        free_buffers(&b);
    }
}

/* ------------------------------------------------------ numbers in a feed */

/* P2 in pieces of each size, in longer buffers: count, numbers and slip. */
static void test_feed_seen(void)
{
    static const uint8_t slip[] = { 2, 1, 2, 0, 2, 0, 0, 0,
                                    2, 2, 0, 6, 0, 0, 0 };
    static struct log log;
    struct feeding f;
    size_t size, at;

    make_p2(&log);
    for (size = 1; size <= log.size; size++) {
        start_feed(&f, 3, size % 3);
        for (at = 0; at < log.size; at += size)
            feed_or_end(&f, log.bytes + at, log.size - at < size
                        ? log.size - at : size, "numbers in pieces");
        expect_end(&f, 1, 6, "numbers in pieces, end");
        check_count(&f.b, 6, "numbers in pieces");
        check_seen(&f.b, 1, 2, 2, "numbers in pieces");
        check_seen(&f.b, 2, 1, 6, "numbers in pieces");
        check_whole_slip(&f.b, slip, "numbers in pieces");
        free_feed(&f);
    }

    /* The feed's number is another than the desk's. */
    start_feed(&f, 3, 0);
    expect_open(&f.b, 3, 0, "another number, opening");
    put_whole_feed(&f, 0, 1, 0, 1000);
    expect_feed(&f, log.bytes + 4, log.size - 4, 1, 1006, "another number");
    check_count(&f.b, 6, "another number");
    check_whole_slip(&f.b, slip, "another number");
    free_feed(&f);
}

/* 9 in a feed: the record is named, the answer stands and is repeated, also
 * when somebody lowers the count. */
static void test_feed_count_full(void)
{
    static const uint8_t stopped[FEED_SIZE] = { 9, 1, [14] = 3 };
    static struct log log;
    struct feeding f;

    log_header(&log, 8);
    log_record(&log, 0, ACQUIRE, 1, E);
    log_record(&log, 0, ACQUIRE, 2, E);
    log_record(&log, 0, RELEASE, 2, E);
    log_record(&log, 0, RELEASE, 1, E);
    log_loose(&log, 2);
    start_feed(&f, 8, 4);
    expect_feed(&f, log.bytes, 10, 0, 1, "full count, the first record");
    put_count(&f.b, UINT32_MAX - 1);
    expect_feed(&f, log.bytes + 10, log.size - 10, 9, 3, "full count, fed");
    check_count(&f.b, UINT32_MAX, "full count, fed");
    check_seen(&f.b, 1, 2, UINT32_MAX, "full count, fed");
    check_feed(&f, stopped, "full count, fed");
    expect_stopped(&f, 9, 3, "full count, fed");
    put_count(&f.b, UINT32_MAX - 9);
    put_seen(&f.b, 1, 2, 1);
    expect_stopped(&f, 9, 3, "no longer full");
    check_feed(&f, stopped, "no longer full");

    /* Cut within the record; a malformed one is refused for that. */
    start_again(&f);
    expect_feed(&f, log.bytes, 12, 0, 1, "full count, part of a record");
    put_count(&f.b, UINT32_MAX);
    expect_feed(&f, log.bytes + 12, 3, 0, 1, "full count, more of it");
    expect_feed(&f, log.bytes + 15, 1, 9, 2, "full count, its last byte");
    expect_end(&f, 9, 2, "full count, end");
    start_again(&f);
    expect_feed(&f, log.bytes, 10, 0, 1, "full count, one record");
    put_count(&f.b, UINT32_MAX);
    expect_end(&f, 0, 1, "full count, end between records");
    log_header(&log, 8);
    log_record(&log, 9, ACQUIRE, 1, E);
    expect_feed(&f, log.bytes + 4, 6, 3, 2, "full count, malformed");
    free_feed(&f);
}

/* ------------------------------------------------------- frames of 48 locks */

/* In every frame, by each mode: the 48th lock is accepted and the 49th is not,
 * whatever its mode. 4 is before 8 and 8 before 9; after a release there is
 * room again, for one. Every other frame that may have locks is full. */
static void test_depth_limit(void)
{
    struct buffers b;
    unsigned frame, mode, i;

    open_buffers(&b, 64, 0);
    for (frame = 0; frame < 24; frame++) {
        for (mode = 0; mode < MODES; mode++) {
            unsigned core = frame / 3, count = 100 * (MODES * frame + mode);
            unsigned of_5 = is_try(mode, 5) ? TRY + R : R;

            put_full(&b, frame, 47, mode); /* a pattern of its own */
            put_count(&b, count);
            expect_step(&b, core, ACQUIRE, 63, mode, 0, "the 48th");
            check_byte(&b, 10 + frame, 48, "the 48th");
            check_byte(&b, 98 + 48 * frame + 47, 63 + 64 * (mode % TRY),
                       "the 48th");
            for (i = 0; i < MODES; i++) {
                expect_step(&b, core, ACQUIRE, 62, i, 8, "the 49th");
                expect_step(&b, core, ACQUIRE, 63, i, 8, "the 49th, its class");
                expect_step(&b, core, ACQUIRE, 64, i, 4, "4 before 8");
            }
            expect_step(&b, core, ACQUIRE, 62, MODES, 3, "3 before 8");
            put_count(&b, UINT32_MAX);
            for (i = 0; i < MODES; i++)
                expect_step(&b, core, ACQUIRE, 62, i, 8, "8 before 9");
            expect_step(&b, core, ACQUIRE, 255, mode, 4, "4 before 8 and 9");
            expect_step(&b, core, RELEASE, 5, of_5, 9, "9 for a release");
            put_count(&b, count + 50);
            put_desk(&b, CLOSED_AT, 1);
            expect_step(&b, core, ACQUIRE, 62, mode, 10, "10 before 8");
            put_desk(&b, CLOSED_AT, 0);
            expect_no_reach(&b, 62, 0, "asked with full frames");
            expect_step(&b, core, RELEASE, 5, of_5, 0, "room again");
            expect_step(&b, core, ACQUIRE, 62, mode, 0, "the 48th again");
            expect_step(&b, core, ACQUIRE, 5, mode, 8, "the 49th again");
            expect_step(&b, core, RELEASE, 62, (mode + 1) % MODES, 5,
                        "no room by another mode");
            expect_step(&b, core, RELEASE, 62, mode, 0, "room at the end");
            expect_step(&b, core, ACQUIRE, 62, TRY + mode % TRY, 0,
                        "the 48th by a try");
            expect_step(&b, core, ACQUIRE, 5, R, 8, "full once more");
        }
    }
    free_buffers(&b);
}

/* From opening on, in every frame: nothing is special about any lock up to the
 * 48th. Each is acquired exclusively, every third by a try, over all before. */
static void test_depth_steps(void)
{
    struct buffers b;
    unsigned frame, i;

    for (frame = 0; frame < 24; frame++) {
        unsigned core = frame / 3, start = frame % 3 != 0;

        open_buffers(&b, 64, 0);
        if (start)
            expect_step(&b, core, frame % 3 == 1 ? ENTER_SOFT : ENTER_HARD,
                        0, 0, 0, "48 steps, enter");
        for (i = 0; i < 48; i++) {
            expect_step(&b, core, ACQUIRE, i, i % 3 == 2 ? TRY + E : E, 0,
                        "48 steps");
            check_byte(&b, 10 + frame, i + 1, "48 steps, depth");
            check_byte(&b, 98 + 48 * frame + i, i, "48 steps, held");
            check_byte(&b, 1394, i + 1 + start, "48 steps, count");
            check(i % 3 == 2 || i == 0 || b.sheet.bytes[64 * (i - 1) + i] == 2,
                  "48 steps: dependency from place %u", i - 1);
        }
        expect_step(&b, core, ACQUIRE, 48, E, 8, "48 steps, one more");
        expect_step(&b, core, ACQUIRE, 48, TRY + R, 8, "48 steps, a try more");
        check_byte(&b, 10 + frame, 48, "48 steps, no more");
        for (i = 48; i-- > 0;) {
            unsigned class_ = (i * 7 + 3) % 48;

            expect_step(&b, core, RELEASE, class_, class_ % 3 == 2 ? TRY + E
                        : E, 0, "48 steps, back");
        }
        expect_step(&b, core, RELEASE, 3, E, 5, "48 steps, all released");
        free_buffers(&b);
    }
}

/* Task, soft and hard handler of a core, all full; each is released in turn. */
static void test_depth_three(void)
{
    static const unsigned enter[] = { HARD_ON, ENTER_SOFT, ENTER_HARD };
    static const unsigned leave[] = { HARD_ON, EXIT_SOFT, EXIT_HARD };
    struct buffers b;
    unsigned core, level, i;

    for (core = 0; core < 8; core += 7) {
        open_buffers(&b, 64, 0);
        for (level = 0; level < 3; level++) {
            expect_step(&b, core, enter[level], 0, 0, 0, "three, enter");
            for (i = 0; i < 48; i++)
                expect_step(&b, core, ACQUIRE, i + 8 * level,
                            i % 2 == 0 ? R : TRY + R, 0, "three, fill");
            for (i = 0; i < MODES; i++)
                expect_step(&b, core, ACQUIRE, 1, i, 8, "three, full");
        }
        for (level = 0; level < 3; level++)
            check_byte(&b, 10 + 3 * core + level, 48, "three, depths");
        for (i = 0; i < 144; i++) {
            check_byte(&b, 98 + 144 * core + i, 128 + i % 48 + 8 * (i / 48),
                       "three, held");
            check_byte(&b, 1250 + i, i / 18 == core ? 0xAA : 0,
                       "three, origin bits");
        }
        expect_no_reach(&b, 63, 0, "three, ask");
        for (level = 3; level-- > 0;) {
            expect_step(&b, core, ACQUIRE, 1, TRY + E, 8, "three, full again");
            for (i = 0; i < 47; i++)
                release_at(&b, core, i % 2 == 0 ? 0 : 47 - i,
                           "three, release");
            if (level > 0)
                expect_step(&b, core, leave[level], 0, 0, 7, "three, one left");
            release_at(&b, core, 0, "three, the last");
            expect_step(&b, core, leave[level], 0, 0, 0, "three, leave");
        }
        free_buffers(&b);
    }
}

/* A full frame of locks of class 0 shared by recursive reads, but for one of
 * class 1 at the place. */
static void put_one(struct buffers *b, unsigned frame, unsigned depth,
                    unsigned place, unsigned mode)
{
    unsigned i;

    put_frame(b, frame, depth, NO_TRIES);
    for (i = 0; i < depth; i++)
        put_desk(b, 98 + 48 * frame + i, i == place ? 1 + 64 * (mode % TRY)
                                                    : 64 * R);
    put_origin(b, frame, place, mode >= TRY);
}

/* A fault that needs the dependency from one place: from each up to 46, drawn
 * by the lock that comes next and by the 48th. None is drawn from place 47, for
 * the 49th lock is refused. */
static void test_depth_faults(void)
{
    static const uint8_t slip[] = { 2, 1, 2, 0, 0, 0, 0, 0, 2, 2, 0 };
    static const uint8_t frames[] = { 0, 13, 23 };
    static const uint8_t states[] = { 3, 5, 8 };
    struct buffers b;
    unsigned i, place, last, tried;

    for (i = 0; i < 3 * 47 * 2; i++) {
        unsigned frame = frames[i % 3], core = frame / 3;

        place = i / 3 % 47;
        last = i / 3 / 47;
        for (tried = 0; tried < 2; tried++) {
            uint8_t due[sizeof slip];

            open_buffers(&b, 8, 0);
            put_desk(&b, STATES_AT + core, states[i % 3]);
            put_sheet(&b, 2, 1, PLUNGEROWL_EN);
            put_one(&b, frame, last ? 47 : place + 1, place,
                    tried ? TRY + E : E);
            put_count(&b, 0x40000000);
            expect_step(&b, core, ACQUIRE, 2, TRY + E, 0, "a try draws none");
            expect_step(&b, core, RELEASE, 2, TRY + E, 0, "a try released");
            expect_step(&b, core, ACQUIRE, 2, E, 1, "from one place");
            memcpy(due, slip, sizeof due);
            set_low_first(due + 4, 0x40000003);
            check(memcmp(b.slip.bytes, due, sizeof due) == 0,
                  "from place %u: slip", place);
            free_buffers(&b);
        }
    }
    /* And from none: the frame is full. */
    open_buffers(&b, 8, 0);
    put_desk(&b, STATES_AT, 3);
    put_sheet(&b, 2, 1, PLUNGEROWL_EN);
    put_one(&b, 0, 48, 47, E);
    expect_step(&b, 0, ACQUIRE, 2, E, 8, "from place 47");
    free_buffers(&b);
}

/* The lock at each place of a full frame is marked when hard and soft
 * interrupts come on, and is a fault where its class is safe. */
static void test_depth_marks(void)
{
    struct buffers b;
    unsigned frame, place, mode;

    open_buffers(&b, 8, 0);
    for (frame = 0; frame < 24; frame++) {
        unsigned core = frame / 3, soft = frame % 3 == 1;

        if (frame % 3 == 2)
            continue; /* no event comes in a hard handler */
        for (place = 0; place < 48; place++) {
            for (mode = 0; mode < MODES; mode++) {
                unsigned unsafe = mode % TRY == E ? 4 : 8;
                unsigned safe = soft && mode < TRY ? mode == R ? 32 : 16 : 0;

                if (frame > 1 && (frame + place) % MODES != mode)
                    continue;
                put_desk(&b, STATES_AT + core, soft ? 5 : 3);
                put_desk(&b, MARKS_AT, 0);
                put_desk(&b, MARKS_AT + 1, 0);
                put_one(&b, frame, 48, place, mode);
                expect_step(&b, core, HARD_ON, 0, 0, 0, "hard on, 48 locks");
                check_byte(&b, MARKS_AT + 1, unsafe + safe, "hard on, place");
                if (soft)
                    continue;
                expect_step(&b, core, SOFT_ON, 0, 0, 0, "soft on, 48 locks");
                check_byte(&b, MARKS_AT + 1, 17 * unsafe, "soft on, place");
            }
        }
        put_frame(&b, frame, 0, NO_TRIES);
        put_desk(&b, STATES_AT + core, 0);
    }
    free_buffers(&b);

    for (place = 0; place < 48; place++) {
        for (mode = 0; mode < 2; mode++) { /* at hard, at soft */
            open_buffers(&b, 8, 0);
            put_desk(&b, STATES_AT + 2, 3 - mode * 2);
            put_desk(&b, MARKS_AT + 1, 1 + 15 * mode);
            put_one(&b, 6, 48, place, place % 2 == 0 ? E : TRY + E);
            expect_step(&b, 2, SOFT_OFF, 0, 0, 0, "still off, 48 locks");
            expect_step(&b, 2, mode == 0 ? HARD_ON : SOFT_ON, 0, 0, 1,
                        "on, and a fault by one of 48");
            free_buffers(&b);
        }
    }

    /* And in a hard handler, by the next acquire, or by a release. */
    open_buffers(&b, 8, 0);
    for (place = 0; place < 47; place++) {
        for (mode = 0; mode < MODES; mode++) {
            unsigned safe = mode >= TRY ? 0 : mode == R ? 2 : 1;

            put_desk(&b, STATES_AT + 7, 8);
            put_desk(&b, MARKS_AT + 1, 0);
            put_one(&b, 23, 47, place, mode);
            expect_step(&b, 7, ACQUIRE, 2, R, 0, "the 48th in a handler");
            check_byte(&b, MARKS_AT + 1, safe, "the 48th in a handler");
            put_desk(&b, MARKS_AT + 1, 0);
            expect_step(&b, 7, RELEASE, 2, R, 0, "47 in a handler");
            check_byte(&b, MARKS_AT + 1, safe, "47 in a handler");
        }
    }
    free_buffers(&b);
}

/* Of two locks of a class, at any two places, the newer is compared and
 * released; one alone is found at every place, and none is found where there is
 * none. */
static void test_depth_newest(void)
{
    static const unsigned frames[] = { 0, 22 };
    struct buffers b;
    unsigned i, older, newer;

    open_buffers(&b, 8, 0);
    put_desk(&b, STATES_AT + 7, 5);
    for (i = 0; i < 2; i++) {
        for (newer = 0; newer < 48; newer++) {
            for (older = 0; older <= newer; older++) {
                size_t at = 98 + 48 * (size_t)frames[i];

                if (older != newer && older + 1 != newer && older % 5 != 0)
                    continue;
                put_one(&b, frames[i], 48, newer, TRY + r);
                put_desk(&b, at + older, 1 + 64 * (older == newer ? r : R));
                expect_step(&b, frames[i] / 3, RELEASE, 1, R, 5, "the older");
                expect_step(&b, frames[i] / 3, RELEASE, 1, TRY + r, 0,
                            "the newer");
                check_byte(&b, at + older, older != newer ? 1 + 64 * R
                           : older < 47 ? 64 * R : 0, "the older stays");
                check_byte(&b, at + newer, newer < 47 ? 64 * R : 0,
                           "the newer goes");
                expect_step(&b, frames[i] / 3, RELEASE, 2, R, 5, "no lock");
                if (older == newer)
                    expect_step(&b, frames[i] / 3, RELEASE, 1, TRY + r, 5,
                                "no lock any more");
            }
        }
        put_frame(&b, frames[i], 0, NO_TRIES);
    }
    free_buffers(&b);
}

/* The answer to a record that is not malformed, by the copies: no fault. */
static unsigned deep_answer(const struct buffers *b, unsigned core,
                            unsigned kind, unsigned class_, unsigned mode)
{
    const uint8_t *desk = b->want_desk.bytes;
    unsigned frame = current_frame(desk, core);
    unsigned depth = desk[10 + frame];

    if (kind >= HARD_ON)
        return next_state[desk[STATES_AT + core]][kind - HARD_ON] < 0 ? 6
               : depth > 0 && (kind == EXIT_SOFT || kind == EXIT_HARD) ? 7 : 0;
    if (kind == ACQUIRE)
        return depth < 48 ? 0 : 8;
    return newest_mode(desk, frame, class_) == mode ? 0 : 5;
}

/* Random records over deep frames, read locks and tries only: none is a fault.
 * There are times of many acquires and times of many releases; a release has
 * the mode of any lock of the frame, or of the newest of its class. */
static void test_depth_random(void)
{
    static const unsigned modes[] = { R, R, TRY + r, TRY + R };
    struct buffers b;
    unsigned met[9] = { 0 }, i;

    seed = 20261117 + sides;
    open_buffers(&b, 40, 0);
    for (i = 0; i < 6000; i++) {
        unsigned core = below(3) == 0 ? 7 : 4 * below(2);
        unsigned class_ = below(40), mode = modes[below(4)], kind, answer;
        unsigned frame = current_frame(b.desk.bytes, core);
        unsigned depth = b.desk.bytes[10 + frame];

        kind = (below(6) == 0) == (i / 700 % 2 == 0) ? RELEASE : ACQUIRE;
        if (below(25) == 0 || (depth == 0 && below(4) == 0))
            kind = HARD_ON + below(8);
        if (kind == RELEASE && depth > 0 && below(20) != 0) {
            unsigned place = below(depth);

            class_ = b.desk.bytes[98 + 48 * frame + place] % 64;
            mode = below(3) == 0 ? mode_at(b.desk.bytes, frame, place)
                   : newest_mode(b.desk.bytes, frame, class_);
        }
        answer = deep_answer(&b, core, kind, class_, mode);
        met[answer]++;
        expect_step(&b, core, kind, kind >= HARD_ON ? 0 : class_,
                    kind >= HARD_ON ? 0 : mode, answer, "deep and random");
    }
    for (i = 0; i < 9; i++)
        check(met[i] > 5 || (i >= 1 && i <= 4),
              "deep and random: %u times %u", met[i], i);
    free_buffers(&b);
}

/* A log with 48 locks in a frame, and one more; in one piece and cut anywhere.
 * Tries, and a soft handler that is full over a full task. */
static void test_depth_fed(void)
{
    static struct log log;
    struct feeding f;
    unsigned i, size;

    log_header(&log, 8);
    for (i = 0; i < 48; i++)
        log_record(&log, 5, ACQUIRE, i % 8, i % 3 == 1 ? TRY + R : R);
    log_record(&log, 5, ENTER_SOFT, 0, 0);
    for (i = 0; i < 48; i++)
        log_record(&log, 5, ACQUIRE, i % 8, i % 5 == 1 ? TRY + R : R);
    start_feed(&f, 8, 0);
    expect_feed(&f, log.bytes, log.size, 0, 97, "fed, 48 and 48");
    check_byte(&f.b, 10 + 15, 48, "fed, 48 in the task");
    check_byte(&f.b, 10 + 16, 48, "fed, 48 in the handler");
    expect_end(&f, 0, 97, "fed, 48 and 48, end");
    log_record(&log, 5, ACQUIRE, 1, TRY + R);
    log_record(&log, 5, RELEASE, 1, R);
    expect_feed(&f, log.bytes + log.size - 12, 12, 8, 98, "fed, the 49th");
    expect_end(&f, 8, 98, "fed, the 49th, end");
    for (size = 1; size < 300; size += 37) {
        size_t at = 0;

        start_again(&f);
        for (; at + size < log.size - 12; at += size)
            feed_or_end(&f, log.bytes + at, size, "fed in pieces");
        expect_feed(&f, log.bytes + at, log.size - at, 8, 98,
                    "fed in pieces, the 49th");
    }
    free_feed(&f);
}

/* --------------------------------------------- desks as they were before */

/* Lengths of desks: those of before, and on both sides of what is now. */
static const size_t old_lengths[] = { 577, 578, 579, 637, 638, 639, 641, 642,
                                      643, 1249, 1250, 1393, 1394, 1397, 1398,
                                      1399, 1406, 1414, 1418, 1672, 1673 };

#define OLD_LENGTHS (sizeof old_lengths / sizeof old_lengths[0])

/* A desk of the length, with K = 8 and nothing else in it, and sheets of
 * zeros. */
static void put_old_desk(struct buffers *b, size_t length)
{
    memset(b->desk.bytes, 0, length);
    memset(b->want_desk.bytes, 0, length);
    memset(b->sheet.bytes, 0, 64);
    memset(b->want_sheet.bytes, 0, 64);
    memset(b->seen.bytes, 0, 256);
    memset(b->want_seen.bytes, 0, 256);
    put_desk(b, 0, 8);
}

/* In buffers of its own length a desk of before is unfit, and cannot be opened:
 * in a buffer that ends there, and in a longer one of which so much is lent. */
static void test_old_lengths(void)
{
    struct buffers b;
    size_t i;

    open_buffers(&b, 8, 0);
    for (i = 0; i < OLD_LENGTHS; i++) {
        size_t length = old_lengths[i];

        expect_open_lengths(&b, 8, length, 64, 256, 2, "an old length");
        expect_step_lengths(&b, length, 64, 256, 57, 11, "an old length");
        expect_ask_lengths(&b, length, 64, 256, 0, 11, 0, 0, "an old length");
        expect_ask_lengths(&b, length, 64, 256, 8, 11, 0, 0, "an old length");
    }
    expect_step_lengths(&b, 1674, 64, 256, 57, 0, "the length that is due");
    expect_ask_lengths(&b, 1674, 64, 256, 0, 0, 0, 0, "the length that is due");
    free_buffers(&b);

    for (i = 0; i < OLD_LENGTHS; i++) {
        make_sized(&b, 8, old_lengths[i], 64, 256, 57);
        expect_open(&b, 8, 2, "an old desk, opening");
        expect_open(&b, 1, 2, "an old desk, opening with 1");
        put_old_desk(&b, old_lengths[i]);
        expect_step(&b, 0, HARD_ON, 0, 0, 11, "an old desk, hard on");
        expect_step(&b, 0, ACQUIRE, 1, E, 11, "an old desk, acquire");
        expect_step(&b, 9, ACQUIRE, 9, E, 11, "an old desk, 11 before 3");
        expect_no_reach(&b, 0, 11, "an old desk, ask");
        put_desk(&b, 1, 1);
        expect_step(&b, 0, HARD_ON, 0, 0, 11, "an old desk, 11 before 10");
        put_desk(&b, 1, 0);
        put_desk(&b, 10, 1);
        put_desk(&b, 98, 3);
        expect_step(&b, 0, RELEASE, 3, E, 11, "an old desk, release");
        expect_no_reach(&b, 3, 11, "an old desk, a held lock, ask");
        free_buffers(&b);
    }
    for (i = 0; i < 4; i++) {
        static const size_t tails[] = { 0, 1, 602, 5000 };

        make_sized(&b, 8, 1674 + tails[i], 64, 256, 57);
        expect_open(&b, 8, 0, "1674 bytes or more");
        expect_step(&b, 7, ENTER_HARD, 0, 0, 0, "1674 bytes or more");
        expect_step(&b, 7, ACQUIRE, 1, TRY + R, 0, "1674 bytes or more");
        expect_reach(&b, 1, 0, 0, "1674 bytes or more");
        free_buffers(&b);
    }
}

/* The same through a feed: 2 with the header, 11 with a record. */
static void test_old_lengths_fed(void)
{
    static struct log log;
    struct feeding f;
    size_t i;

    log_header(&log, 8);
    log_record(&log, 0, ACQUIRE, 1, E);
    log_record(&log, 0, RELEASE, 1, E);
    for (i = 0; i < OLD_LENGTHS; i++) {
        start_sized(&f, 8, FEED_SIZE, old_lengths[i], 64, 256, 57);
        expect_feed(&f, log.bytes, 3, 0, 0, "an old desk, a feed");
        expect_feed(&f, log.bytes + 3, 7, 2, 0, "an old desk, its header");
        expect_end(&f, 2, 0, "an old desk, the end");
        start_again(&f);
        put_whole_feed(&f, 0, 1, 0, 0);
        put_old_desk(&f.b, old_lengths[i]);
        expect_feed(&f, log.bytes + 4, 5, 0, 0, "an old desk, loose bytes");
        expect_feed(&f, log.bytes + 9, 7, 11, 1, "an old desk, a record");
        start_again(&f);
        put_whole_feed(&f, 0, 1, 0, 5);
        put_old_desk(&f.b, old_lengths[i]);
        expect_feed(&f, log.bytes + 4, 5, 0, 5, "an old desk, loose bytes");
        expect_end(&f, 11, 6, "an old desk, the end in a record");
        free_feed(&f);
    }
    start_sized(&f, 8, FEED_SIZE, 1674, 64, 256, 57);
    expect_feed(&f, log.bytes, log.size, 0, 2, "1674 bytes, a feed");
    expect_end(&f, 0, 2, "1674 bytes, the end");
    free_feed(&f);
}

/* A held lock as a desk of 642 bytes had it, in a longer buffer: at 98 + 20 f +
 * p, with its origin bit from 578 on, 20 to a frame; and the state that it
 * needs. The count was at 638. */
static void put_old_held(struct buffers *b, unsigned frame, unsigned place,
                         unsigned held, int tried)
{
    unsigned index = 20 * frame + place;

    put_desk(b, 2 + frame / 3, state_for(frame));
    put_desk(b, 10 + frame, place + 1);
    put_desk(b, 98 + index, held);
    if (tried)
        put_desk(b, 578 + index / 8,
                 b->desk.bytes[578 + index / 8] | 1u << index % 8);
}

static void expect_old_unfit(struct buffers *b, unsigned core, const char *what)
{
    expect_unfit(b, what);
    expect_step(b, core, ACQUIRE, 1, R, 11, what);
    expect_step(b, core, RELEASE, 1, R, 11, what);
}

/* A desk of before in a longer buffer is read by the places of now. */
static void test_old_desks(void)
{
    static struct log log;
    static const size_t tails[] = { 0, 1, 700 };
    struct buffers b;
    struct feeding f;
    unsigned frame, place, i;

    for (i = 0; i < 4 * 255; i += i < 40 ? 1 : 17) { /* a count */
        open_buffers(&b, 8, tails[i % 3]);
        put_desk(&b, 638 + i % 4, 1 + i / 4);
        expect_old_unfit(&b, i % 8, "an old count");
        free_buffers(&b);
    }
    for (frame = 1; frame < 24; frame++) { /* beyond core 0's task */
        for (place = 0; place < 20; place++) {
            open_buffers(&b, 8, tails[place % 3]);
            for (i = 0; i <= place; i++)
                put_old_held(&b, frame, i, 1 + 64 * (i % 3), i % 4 == 3);
            expect_old_unfit(&b, frame / 3, "old held locks");
            put_desk(&b, 638, place + 1);
            expect_old_unfit(&b, frame / 3, "old held locks and a count");
            free_buffers(&b);
        }
    }
    for (frame = 0; frame < 24; frame++) { /* a try */
        open_buffers(&b, 8, 0);
        put_old_held(&b, frame, 0, 0, 1);
        expect_old_unfit(&b, frame / 3, "an old origin bit");
        free_buffers(&b);
    }
    open_buffers(&b, 8, 0); /* all frames, as full as they were */
    for (i = 0; i < 480; i++)
        put_old_held(&b, i / 20, i % 20, 2 + 64 * R, 1);
    for (i = 0; i < 8; i++)
        put_desk(&b, 2 + i, 8);
    expect_old_unfit(&b, 7, "an old desk, full");
    put_desk(&b, 638, 255);
    expect_old_unfit(&b, 7, "an old desk, full, and a count");
    free_buffers(&b);

    /* The count is 0, and core 0's task alone has locks, none by a try: the
     * same bytes as now, and read so. What was the 21st lock is accepted. */
    for (place = 0; place < 20; place++) {
        open_buffers(&b, 8, tails[place % 3]);
        for (i = 0; i <= place; i++)
            put_old_held(&b, 0, i, 1 + i % 7 + 64 * R, 0);
        expect_no_reach(&b, 1, 0, "core 0's task alone, ask");
        expect_step(&b, 0, RELEASE, 0, R, 5, "core 0's task alone, none held");
        expect_step(&b, 0, ACQUIRE, 0, R, 0, "core 0's task alone, acquire");
        check_byte(&b, 98 + place + 1, 64 * R, "core 0's task alone");
        check_byte(&b, 638, 0, "core 0's task alone, where a count was");
        check_byte(&b, 1394, 1, "core 0's task alone, the count");
        expect_step(&b, 0, RELEASE, 1, R, 0, "core 0's task alone, release");
        free_buffers(&b);
    }
    /* A lock of class 0, exclusive, is the byte 0. */
    open_buffers(&b, 8, 0);
    put_old_held(&b, 3, 0, 0, 0);
    expect_step(&b, 1, RELEASE, 0, E, 0, "class 0 is read the same");
    free_buffers(&b);

    /* Behind the old desk whatever is there. */
    make_sized(&b, 8, 1674, 64, 256, 57);
    put_old_desk(&b, 642);
    expect_old_unfit(&b, 0, "an old desk, and other bytes behind it");
    free_buffers(&b);

    /* A feed goes on with it as a step would. */
    log_header(&log, 8);
    log_record(&log, 0, ACQUIRE, 1, E);
    start_feed(&f, 8, 0);
    for (i = 0; i < 2; i++) {
        start_again(&f);
        expect_feed(&f, log.bytes, log.size, 0, 1, "an old desk to be fed");
        put_count(&f.b, 0);
        put_desk(&f.b, 638, 1 - i);
        expect_feed(&f, log.bytes + 4, 5, 0, 1, "an old desk, loose bytes");
        if (i == 0)
            expect_end(&f, 11, 2, "an old desk, the end");
        else
            expect_end(&f, 3, 2, "the same without an old count");
    }
    free_feed(&f);
}

/* ----------------------------------------------------- joining two benches */

/* The buffers of a join in the order of its arguments: two benches, and what
 * is written. */
enum { DESK_1, SHEET_1, SEEN_1, DESK_2, SHEET_2, SEEN_2, DESK_3, SHEET_3,
       SEEN_3, SLIP_3, LENT };

static const struct guarded *lent_to_join(const struct buffers *one,
                                          const struct buffers *two,
                                          const struct buffers *b, unsigned i)
{
    const struct guarded *all[LENT];

    all[DESK_1] = &one->desk;
    all[SHEET_1] = &one->sheet;
    all[SEEN_1] = &one->seen;
    all[DESK_2] = &two->desk;
    all[SHEET_2] = &two->sheet;
    all[SEEN_2] = &two->seen;
    all[DESK_3] = &b->desk;
    all[SHEET_3] = &b->sheet;
    all[SEEN_3] = &b->seen;
    all[SLIP_3] = &b->slip;
    return all[i];
}

/* What a join should leave, but for a fault: by the copies of the benches. */
static void want_joined(struct buffers *b, const struct buffers *one,
                        const struct buffers *two)
{
    const uint8_t *desk1 = one->want_desk.bytes, *desk2 = two->want_desk.bytes;
    uint8_t *desk = b->want_desk.bytes;
    size_t i;

    b->k = desk1[0];
    memset(desk, 0, PLUNGEROWL_DESK_SIZE);
    desk[0] = desk1[0];
    memcpy(desk + DECLARED_AT, desk1 + DECLARED_AT, 8);
    for (i = MARKS_AT; i < MARKS_AT + 64; i++)
        desk[i] = desk1[i] | desk2[i];
    for (i = 0; i < PLUNGEROWL_SHEET_SIZE(b->k); i++) {
        const uint8_t *number = one->want_seen.bytes + 4 * i;

        if (low_first(number) == 0)
            number = two->want_seen.bytes + 4 * i;
        memcpy(b->want_seen.bytes + 4 * i, number, 4);
        b->want_sheet.bytes[i] = one->want_sheet.bytes[i]
                                 | two->want_sheet.bytes[i];
    }
}

/* Join with the first bytes of each buffer. */
static void expect_join_lengths(const struct buffers *one,
                                const struct buffers *two, struct buffers *b,
                                const size_t lengths[LENT], unsigned answer,
                                const char *what)
{
    unsigned is;

    if (answer <= 1)
        want_joined(b, one, two);
    if (answer == 1) {
        b->want_desk.bytes[CLOSED_AT] = 1;
        want_cycle(b, what);
    }
    is = plungerowl_join(one->desk.bytes, lengths[DESK_1],
                         one->sheet.bytes, lengths[SHEET_1],
                         one->seen.bytes, lengths[SEEN_1],
                         two->desk.bytes, lengths[DESK_2],
                         two->sheet.bytes, lengths[SHEET_2],
                         two->seen.bytes, lengths[SEEN_2],
                         b->desk.bytes, lengths[DESK_3],
                         b->sheet.bytes, lengths[SHEET_3],
                         b->seen.bytes, lengths[SEEN_3],
                         b->slip.bytes, lengths[SLIP_3]);
    join_met[is] = 1;
    check(is == answer, "%s: join answers %u, not %u", what, is, answer);
    check_buffers(one, what);
    if (two != one)
        check_buffers(two, what);
    check_buffers(b, what);
}

/* The lengths that the buffers have, but for one that is shorter by less. */
static void expect_join_less(const struct buffers *one,
                             const struct buffers *two, struct buffers *b,
                             unsigned which, size_t less, unsigned answer,
                             const char *what)
{
    size_t lengths[LENT];
    unsigned i;

    for (i = 0; i < LENT; i++)
        lengths[i] = lent_to_join(one, two, b, i)->size;
    lengths[which] -= less;
    expect_join_lengths(one, two, b, lengths, answer, what);
}

static void expect_join(const struct buffers *one, const struct buffers *two,
                        struct buffers *b, unsigned answer, const char *what)
{
    expect_join_less(one, two, b, DESK_1, 0, answer, what);
}

/* In both orders, into buffers that are filled again before each: the second
 * leaves what the first does, but for the numbers. */
static void fill_again(struct buffers *b)
{
    struct guarded *all[] = { &b->desk, &b->sheet, &b->seen, &b->history,
                              &b->slip, &b->want_desk, &b->want_sheet,
                              &b->want_seen, &b->want_history, &b->want_slip };
    size_t i;

    for (i = 0; i < sizeof all / sizeof all[0]; i++)
        guarded_fill(all[i], FILL);
}

static void expect_both_orders(const struct buffers *one,
                               const struct buffers *two, struct buffers *b,
                               unsigned answer, const char *what)
{
    uint8_t desk[PLUNGEROWL_DESK_SIZE], slip[PLUNGEROWL_SLIP_SIZE(64)];
    uint8_t sheet[PLUNGEROWL_SHEET_SIZE(64)];
    size_t i;

    fill_again(b);
    expect_join(one, two, b, answer, what);
    memcpy(desk, b->desk.bytes, sizeof desk);
    memcpy(sheet, b->sheet.bytes, PLUNGEROWL_SHEET_SIZE(desk[0]));
    memcpy(slip, b->slip.bytes, PLUNGEROWL_SLIP_SIZE(desk[0]));
    fill_again(b);
    expect_join(two, one, b, answer, what);
    check(memcmp(b->desk.bytes, desk, sizeof desk) == 0
          && memcmp(b->sheet.bytes, sheet, PLUNGEROWL_SHEET_SIZE(desk[0])) == 0,
          "%s: another desk or sheet in the other order", what);
    for (i = 0; i < PLUNGEROWL_SLIP_SIZE(desk[0]); i++)
        check(b->slip.bytes[i] == slip[i] || (i - 1) % ENTRY >= TRIPLE,
              "%s: slip byte %lu in the other order", what, (unsigned long)i);
}

/* Three benches, the third to be written. */
struct benches {
    struct buffers one, two, b;
};

static void open_benches(struct benches *n, unsigned k, size_t tail)
{
    open_buffers(&n->one, k, tail);
    open_buffers(&n->two, k, tail);
    make_buffers(&n->b, k, tail);
}

static void free_benches(struct benches *n)
{
    free_buffers(&n->one);
    free_buffers(&n->two);
    free_buffers(&n->b);
}

/* Some bytes of the kind that a run leaves, and that a join does not take over:
 * states, held locks, origin bits, a count. */
static void put_busy(struct buffers *b, uint32_t count)
{
    unsigned core, place;

    for (core = 0; core < CORES; core++)
        put_desk(b, STATES_AT + core, 8 - core);
    put_desk(b, DEPTHS_AT, DEPTH);
    put_desk(b, DEPTHS_AT + 1, 9);
    put_desk(b, DEPTHS_AT + 2, 1);
    put_desk(b, DEPTHS_AT + FRAMES - 3, 48);
    for (place = 0; place < DEPTH; place++) {
        put_desk(b, HELD_AT + place, place % b->k + 64 * (place % 3));
        put_desk(b, HELD_AT + DEPTH * (FRAMES - 3) + place,
                 128 + place * 5 % b->k);
        put_origin(b, 0, place, place % 2);
        put_origin(b, FRAMES - 3, place, 1);
    }
    put_origin(b, 1, 8, 1);
    put_origin(b, 2, 0, 1);
    put_count(b, count);
}

/* The example of docs/FORMATS.md. */
static void test_join_example(void)
{
    static const uint8_t sheet[] = { 0, 0, 0, 0, 0, 2, 0, 2, 0 };
    static const uint8_t slip[] = { 2, 1, 2, 0, 2, 0, 0, 0,
                                    2, 2, 0, 3, 0, 0, 0 };
    uint8_t seen[PLUNGEROWL_SEEN_SIZE(3)] = { 0 };
    uint8_t desk[PLUNGEROWL_DESK_SIZE] = { 3, 1 };
    struct benches n;

    desk[35] = desk[36] = 0x44;
    seen[20] = 2;
    seen[28] = 3;
    open_benches(&n, 3, 0);
    expect_step(&n.one, 0, ACQUIRE, 1, E, 0, "bench 1, 1E");
    expect_step(&n.one, 0, ACQUIRE, 2, E, 0, "bench 1, 2E");
    expect_step(&n.two, 5, HARD_ON, 0, 0, 0, "bench 2, hard on");
    expect_step(&n.two, 0, ACQUIRE, 2, E, 0, "bench 2, 2E");
    expect_step(&n.two, 0, ACQUIRE, 1, E, 0, "bench 2, 1E");
    expect_join(&n.one, &n.two, &n.b, 1, "the example");
    check(memcmp(n.b.desk.bytes, desk, sizeof desk) == 0, "example: desk");
    check(memcmp(n.b.sheet.bytes, sheet, sizeof sheet) == 0, "example: sheet");
    check(memcmp(n.b.seen.bytes, seen, sizeof seen) == 0,
          "example: second sheet");
    check_whole_slip(&n.b, slip, "example");
    expect_reach(&n.b, 0, 0, 0, "example, from 0");
    expect_reach(&n.b, 1, BIT(1) | BIT(2), 2, "example, from 1");
    expect_step(&n.b, 0, HARD_ON, 0, 0, 10, "example, closed");
    expect_step(&n.one, 0, RELEASE, 2, E, 0, "bench 1 goes on");
    expect_step(&n.two, 0, RELEASE, 1, E, 0, "bench 2 goes on");
    free_benches(&n);
}

/* Of two fresh benches, for every K, in buffers as long as they have to be: a
 * fresh one. Each buffer short by one is refused. */
static void test_join_every_k(void)
{
    struct benches n;
    unsigned k, i;

    for (k = 1; k <= 64; k++) {
        uint8_t desk[PLUNGEROWL_DESK_SIZE] = { 0 };
        size_t tail = k % 3 == 2 ? 9 : 0;

        open_benches(&n, k, 0);
        for (i = 0; i < LENT; i++)
            expect_join_less(&n.one, &n.two, &n.b, i, 1, 11, "short by one");
        expect_join(&n.one, &n.two, &n.b, 0, "fresh benches");
        desk[0] = (uint8_t)k;
        check(memcmp(n.b.desk.bytes, desk, sizeof desk) == 0,
              "fresh benches: desk");
        free_benches(&n);

        open_benches(&n, k, tail);
        put_sheet(&n.one, 0, k - 1, PLUNGEROWL_SR);
        put_sheet(&n.two, k - 1, k - 1, PLUNGEROWL_SR);
        put_desk(&n.two, MARKS_AT + k - 1, 1);
        expect_join(&n.one, &n.two, &n.b, 0, "both ends of the sheets");
        put_desk(&n.one, MARKS_AT + k - 1, 4);
        expect_join(&n.one, &n.two, &n.b, 1, "the last class");
        free_benches(&n);
    }
}

/* Every shorter length of each buffer, and none: 11, and no byte is changed.
 * The slip must be long enough, fault or not. */
static void test_join_lengths(void)
{
    struct benches n;
    unsigned i, fault;

    for (fault = 0; fault < 2; fault++) {
        open_benches(&n, 8, 0);
        put_sheet(&n.one, 3, 4, PLUNGEROWL_EN);
        put_sheet(&n.two, 4, 3, fault ? PLUNGEROWL_EN : 0);
        for (i = 0; i < LENT; i++) {
            size_t size = lent_to_join(&n.one, &n.two, &n.b, i)->size, less;

            for (less = 1; less <= size;
                 less += less < 9 || size - less < 9 ? 1 : size < 300 ? 5 : 47)
                expect_join_less(&n.one, &n.two, &n.b, i, less, 11,
                                 "a short buffer");
        }
        expect_join(&n.one, &n.two, &n.b, fault, "long enough");
        free_benches(&n);
    }
}

/* A bench, or what is written, with one buffer of another size; the bench as
 * opening leaves it, as far as it goes. */
static void make_short(struct buffers *b, unsigned k, unsigned which,
                       size_t size, int opened)
{
    size_t sizes[4];

    sizes[0] = PLUNGEROWL_DESK_SIZE;
    sizes[1] = PLUNGEROWL_SHEET_SIZE(k);
    sizes[2] = PLUNGEROWL_SEEN_SIZE(k);
    sizes[3] = PLUNGEROWL_SLIP_SIZE(k);
    if (which < 4)
        sizes[which] = size;
    make_sized(b, k, sizes[0], sizes[1], sizes[2], sizes[3]);
    if (!opened)
        return;
    memset(b->desk.bytes, 0, sizes[0]);
    memset(b->want_desk.bytes, 0, sizes[0]);
    memset(b->sheet.bytes, 0, sizes[1]);
    memset(b->want_sheet.bytes, 0, sizes[1]);
    memset(b->seen.bytes, 0, sizes[2]);
    memset(b->want_seen.bytes, 0, sizes[2]);
    if (sizes[0] > 0)
        put_desk(b, 0, k);
}

/* Buffers that end, or begin, where a fence may stand. */
static void test_join_short(void)
{
    static const size_t parts[] = { 0, 1, 2, 33, 98, 577, 578, 638, 642, 1250,
                                    1394, 1398, 1406, 1673, 62, 63, 64, 65,
                                    254, 255, 25, 55, 56 };
    static const size_t needed[] = { PLUNGEROWL_DESK_SIZE, 64, 256, 57 };
    struct benches n;
    unsigned i, which;
    size_t j;

    for (i = 0; i < 3; i++) {
        for (which = 0; which < 4; which++) {
            for (j = 0; j < sizeof parts / sizeof parts[0]; j++) {
                if (parts[j] >= needed[which] || (i < 2 && which == 3))
                    continue;
                make_short(&n.one, 8, i == 0 ? which : 4, parts[j], 1);
                make_short(&n.two, 8, i == 1 ? which : 4, parts[j], 1);
                make_short(&n.b, 8, i == 2 ? which : 4, parts[j], 0);
                expect_join(&n.one, &n.two, &n.b, 11, "a buffer that is short");
                free_benches(&n);
            }
        }
    }
    make_all(&n.one, 8, 0, 0, 0, 0, 0);
    make_all(&n.two, 8, 0, 0, 0, 0, 0);
    make_all(&n.b, 8, 0, 0, 0, 0, 0);
    expect_join(&n.one, &n.two, &n.b, 11, "no buffers");
    free_benches(&n);

    /* The benches have no slip, or any. */
    for (j = 0; j < 3; j++) {
        make_short(&n.one, 8, 3, j, 1);
        make_short(&n.two, 8, 3, 2 - j, 1);
        make_buffers(&n.b, 8, 0);
        put_desk(&n.one, MARKS_AT + 7, 4);
        put_desk(&n.two, MARKS_AT + 7, 2);
        expect_join(&n.one, &n.two, &n.b, 1, "no slips of the benches");
        free_benches(&n);
    }
}

/* Different K: 12 where all that is written has room for the larger, and 11
 * where a buffer has not, be it long enough for the smaller. */
static void test_join_classes(void)
{
    static const unsigned others[] = { 1, 8, 33, 64 };
    struct benches n;
    unsigned k, i, turned;

    for (k = 1; k <= 64; k++) {
        unsigned other = k < 64 && k % 4 != 0 ? k + 1 : others[k / 4 % 4];
        unsigned large = k > other ? k : other, small = k + other - large;

        if (k == other)
            continue;
        for (turned = 0; turned < 2; turned++) {
            open_buffers(&n.one, turned ? other : k, 0);
            open_buffers(&n.two, turned ? k : other, 0);
            make_buffers(&n.b, large, 0);
            expect_join(&n.one, &n.two, &n.b, 12, "different K");
            for (i = 0; i < LENT; i++)
                expect_join_less(&n.one, &n.two, &n.b, i, 1, 11,
                                 "different K, short by one");
            expect_join_less(&n.one, &n.two, &n.b, SHEET_3,
                             large * large - small * small, 11,
                             "a sheet for the smaller K");
            expect_join_less(&n.one, &n.two, &n.b, SEEN_3,
                             4 * (large * large - small * small), 11,
                             "a second sheet for the smaller K");
            expect_join_less(&n.one, &n.two, &n.b, SLIP_3, 7 * (large - small),
                             11, "a slip for the smaller K");
            free_benches(&n);
        }
    }
}

/* 12 for each other K, with benches that are not fresh and would be a fault. */
static void test_join_other_classes(void)
{
    struct benches n;
    unsigned k;

    open_buffers(&n.one, 8, 5000);
    open_buffers(&n.two, 64, 0);
    make_buffers(&n.b, 64, 3);
    put_sheet(&n.one, 1, 0, PLUNGEROWL_EN);
    put_desk(&n.one, MARKS_AT, 5);
    put_busy(&n.one, 77);
    for (k = 1; k <= 64; k++) {
        n.two.k = k;
        expect_open(&n.two, k, 0, "other K, opening");
        put_sheet(&n.two, 0, k - 1, PLUNGEROWL_EN);
        put_desk(&n.two, MARKS_AT, 10);
        expect_join(&n.one, &n.two, &n.b, k == 8 ? 1 : 12, "other K");
        expect_join(&n.two, &n.one, &n.b, k == 8 ? 1 : 12, "other K, turned");
    }
    free_benches(&n);
}

/* A closed desk, the first, the second or both, whatever its graph is. */
static void test_join_closed(void)
{
    struct benches n;
    unsigned closed, cycle;

    open_benches(&n, 8, 6);
    put_busy(&n.one, 5);
    for (cycle = 0; cycle < 3; cycle++) {
        put_sheet(&n.one, 2, 2, cycle == 1 ? PLUNGEROWL_EN : 0);
        put_desk(&n.two, MARKS_AT + 6, cycle == 2 ? 5 : 0);
        for (closed = 1; closed < 4; closed++) {
            put_desk(&n.one, CLOSED_AT, closed & 1);
            put_desk(&n.two, CLOSED_AT, closed / 2);
            expect_join(&n.one, &n.two, &n.b, 13, "a closed desk");
        }
        put_desk(&n.one, CLOSED_AT, 0);
        put_desk(&n.two, CLOSED_AT, 0);
        expect_join(&n.one, &n.two, &n.b, cycle > 0, "open desks");
        put_desk(&n.two, CLOSED_AT, 1);
        expect_join(&n.two, &n.two, &n.b, 13, "a closed desk with itself");
    }
    free_benches(&n);

    /* Closed by a fault of its own, and by a join. */
    open_benches(&n, 8, 0);
    expect_step(&n.one, 0, ACQUIRE, 1, E, 0, "a bench of its own, 1E");
    expect_step(&n.one, 0, ACQUIRE, 1, E, 1, "a bench of its own, 1E again");
    expect_join(&n.one, &n.two, &n.b, 13, "closed by a step");
    expect_join(&n.two, &n.one, &n.b, 13, "closed by a step, turned");
    put_desk(&n.one, CLOSED_AT, 0);
    expect_join(&n.one, &n.two, &n.b, 1, "opened by hand");
    put_sheet(&n.one, 1, 1, 0);
    expect_open(&n.one, 8, 0, "a bench to be written");
    expect_join(&n.b, &n.two, &n.one, 13, "closed by a join");
    expect_join(&n.two, &n.b, &n.one, 13, "closed by a join, turned");
    free_benches(&n);
}

/* Of 11, 12 and 13 the first that applies, for each bench and buffer. */
static void test_join_order(void)
{
    struct benches n;
    unsigned i, closed, side;

    for (side = 0; side < 2; side++) {
        /* Different K; the buffers are for the larger. */
        open_buffers(&n.one, side ? 9 : 8, 0);
        open_buffers(&n.two, side ? 8 : 9, 0);
        make_buffers(&n.b, 9, 0);
        for (closed = 0; closed < 4; closed++) {
            put_desk(&n.one, CLOSED_AT, closed & 1);
            put_desk(&n.two, CLOSED_AT, closed / 2);
            expect_join(&n.one, &n.two, &n.b, 12, "12 before 13");
            for (i = 0; i < LENT; i++)
                expect_join_less(&n.one, &n.two, &n.b, i, 1, 11,
                                 "a length, 11 before 12");
            put_desk(&n.one, STATES_AT + 3, 9);
            expect_join(&n.one, &n.two, &n.b, 11, "bench 1, 11 before 12");
            put_desk(&n.one, STATES_AT + 3, 0);
            put_seen(&n.two, 7, 7, 1);
            expect_join(&n.one, &n.two, &n.b, 11, "bench 2, 11 before 12");
            put_seen(&n.two, 7, 7, 0);
        }
        free_benches(&n);

        open_benches(&n, 8, 0);
        put_desk(side ? &n.one : &n.two, CLOSED_AT, 1);
        expect_join(&n.one, &n.two, &n.b, 13, "13 alone");
        for (i = 0; i < LENT; i++)
            expect_join_less(&n.one, &n.two, &n.b, i, 1, 11,
                             "a length, 11 before 13");
        put_desk(&n.one, ORIGINS_AT, 1);
        expect_join(&n.one, &n.two, &n.b, 11, "bench 1, 11 before 13");
        put_desk(&n.one, ORIGINS_AT, 0);
        put_kinds(&n.two, 0, 0, 1);
        expect_join(&n.one, &n.two, &n.b, 11, "bench 2, 11 before 13");
        put_kinds(&n.two, 0, 0, 0);
        put_desk(&n.one, CLOSED_AT, 2);
        expect_join(&n.one, &n.two, &n.b, 11, "closed by 2");
        free_benches(&n);
    }
}

/* Each clause of the fit test, in either bench. */
static void test_join_unfit(void)
{
    static const struct {
        uint16_t at;
        uint8_t value, depth, state; /* the last two of frame 0 and core 0 */
    } rows[] = {
        { 0, 0, 0, 0 }, { 0, 65, 0, 0 }, { 0, 128, 0, 0 }, { 0, 255, 0, 0 },
        { 1, 2, 0, 0 }, { 1, 3, 0, 0 }, { 1, 255, 0, 0 }, { 2, 9, 0, 0 },
        { 9, 9, 0, 0 }, { 5, 255, 0, 0 }, { 10, 49, 0, 0 }, { 31, 255, 0, 0 },
        { 98, 1, 0, 0 }, { 145, 1, 47, 0 }, { 1249, 1, 0, 0 }, { 98, 8, 1, 0 },
        { 98, 192, 1, 0 }, { 145, 63, 48, 0 }, { 145, 255, 48, 0 },
        { 1250, 1, 0, 0 }, { 1250, 2, 1, 0 }, { 1255, 128, 47, 0 },
        { 1393, 128, 0, 0 }, { 11, 1, 0, 0 }, { 11, 1, 0, 7 }, { 12, 1, 0, 0 },
        { 12, 1, 0, 5 }, { 32, 1, 0, 0 }, { 33, 1, 0, 0 }, { 34, 64, 0, 0 },
        { 34, 128, 0, 0 }, { 41, 64 + 8, 0, 0 }, { 41, 128 + 4, 0, 0 },
        { 42, 1, 0, 0 }, { 42, 68, 0, 0 }, { 97, 255, 0, 0 }
    };
    static const unsigned over[] = { 16, 17, 31, 32, 64, 128, 255 };
    struct benches n;
    size_t i;
    unsigned side, from, to, kinds, pair;

    for (side = 0; side < 2; side++) {
        struct buffers *unfit = side ? &n.two : &n.one;

        open_benches(&n, 8, 20000);
        for (i = 0; i < sizeof rows / sizeof rows[0]; i++) {
            unsigned old = unfit->desk.bytes[rows[i].at];

            put_desk(unfit, DEPTHS_AT, rows[i].depth);
            put_desk(unfit, STATES_AT, rows[i].state);
            put_desk(unfit, rows[i].at, rows[i].value);
            expect_join(&n.one, &n.two, &n.b, 11, "an unfit bench");
            put_desk(unfit, rows[i].at, old);
            put_desk(unfit, DEPTHS_AT, 0);
            put_desk(unfit, STATES_AT, 0);
        }
        for (pair = 0; pair < 64; pair++) {
            from = pair / 8, to = pair % 8;
            for (i = 0; i < sizeof over / sizeof over[0]; i++) {
                put_sheet(unfit, from, to, over[i]);
                expect_join(&n.one, &n.two, &n.b, 11, "a sheet byte over 15");
            }
            put_sheet(unfit, from, to, 0);
            for (kinds = 1; kinds < 16; kinds += 2 + pair % 2) {
                put_kinds(unfit, from, to, kinds);
                expect_join(&n.one, &n.two, &n.b, 11, "kinds without a number");
            }
            put_kinds(unfit, from, to, 0);
            for (i = pair % 3; i < 32; i += 3) {
                put_seen(unfit, from, to, (uint32_t)1 << i);
                expect_join(&n.one, &n.two, &n.b, 11, "a number without kinds");
            }
            put_seen(unfit, from, to, 0);
        }
        expect_join(&n.one, &n.two, &n.b, 0, "fit again");
        free_benches(&n);
    }
}

/* A pair that is unfit in one bench stays so, though the other has what it
 * lacks; one that is fit in each is fit. */
static void test_join_unfit_halves(void)
{
    struct benches n;
    unsigned side;

    open_benches(&n, 8, 0);
    for (side = 0; side < 2; side++) {
        struct buffers *one = side ? &n.two : &n.one;
        struct buffers *two = side ? &n.one : &n.two;

        put_kinds(one, 5, 6, PLUNGEROWL_EN);
        put_seen(two, 5, 6, 9);
        expect_join(&n.one, &n.two, &n.b, 11, "kinds here, a number there");
        put_seen(one, 5, 6, 8);
        expect_join(&n.one, &n.two, &n.b, 11, "and a number here");
        put_kinds(two, 5, 6, PLUNGEROWL_ER);
        put_kinds(one, 5, 6, 0);
        expect_join(&n.one, &n.two, &n.b, 11, "no kinds here any more");
        put_seen(one, 5, 6, 0);
        expect_join(&n.one, &n.two, &n.b, 0, "nor a number");
        check_seen(&n.b, 5, 6, 9, "nor a number");
        put_sheet(two, 5, 6, 0);

        put_desk(one, MARKS_AT + 2, 64);
        put_desk(two, MARKS_AT + 2, 4);
        expect_join(&n.one, &n.two, &n.b, 11, "soft-unsafe here, hard there");
        put_desk(one, MARKS_AT + 2, 68);
        expect_join(&n.one, &n.two, &n.b, 0, "both here");
        put_desk(one, MARKS_AT + 2, 0);
        put_desk(two, MARKS_AT + 2, 0);
    }
    free_benches(&n);
}

/* Numbers and counts are not tied, in either bench. */
static void test_join_untied(void)
{
    static const uint32_t numbers[] = { 1, 2, 255, 256, 65536, 0x01000000,
                                        0x80000000, UINT32_MAX };
    struct benches n;
    size_t i, j;

    open_benches(&n, 8, 0);
    put_kinds(&n.one, 7, 7, PLUNGEROWL_SR);
    put_kinds(&n.two, 0, 0, PLUNGEROWL_SR);
    for (i = 0; i < sizeof numbers / sizeof numbers[0]; i++) {
        put_seen(&n.one, 7, 7, numbers[i]);
        for (j = 0; j < sizeof numbers / sizeof numbers[0]; j++) {
            put_seen(&n.two, 0, 0, numbers[j]);
            put_count(&n.one, numbers[j] - 1);
            put_count(&n.two, numbers[i] - 1);
            expect_join(&n.one, &n.two, &n.b, 0, "numbers above the counts");
            check_count(&n.b, 0, "numbers above the counts");
            check_seen(&n.b, 7, 7, numbers[i], "numbers above the counts");
            check_seen(&n.b, 0, 0, numbers[j], "numbers above the counts");
            expect_fit(&n.b, "numbers above the joined count");
        }
    }
    free_benches(&n);
}

/* What the joined desk has of the cores, the locks and the counts: nothing,
 * with a fault too. */
static void test_join_fresh(void)
{
    struct benches n;
    unsigned i, fault, busy;

    for (busy = 1; busy < 4; busy++) {
        for (fault = 0; fault < 2; fault++) {
            open_benches(&n, 13, 4);
            if (busy & 1)
                put_busy(&n.one, busy == 3 ? UINT32_MAX : 0x04030201);
            if (busy & 2)
                put_busy(&n.two, busy == 3 ? 1 : UINT32_MAX);
            put_desk(&n.one, MARKS_AT + 12, 0xCC);
            put_desk(&n.two, MARKS_AT + 11, 2);
            put_sheet(&n.two, 11, 12, fault ? PLUNGEROWL_EN : PLUNGEROWL_SN);
            put_desk(&n.one, MARKS_AT + 12, fault ? 0xCC : 0x88);
            expect_join(&n.one, &n.two, &n.b, fault, "busy benches");
            check_byte(&n.b, 0, 13, "busy benches: K");
            check_byte(&n.b, 1, fault, "busy benches: closed");
            for (i = 2; i < 1674; i++)
                if (i < 34 + 11 || i > 34 + 12)
                    check_byte(&n.b, i, 0, "busy benches: the rest");
            check_byte(&n.b, 34 + 11, 2, "busy benches: marks of 11");
            check_byte(&n.b, 34 + 12, fault ? 0xCC : 0x88,
                       "busy benches: marks of 12");
            free_benches(&n);
        }
    }
}

/* Each part of the desk by itself, each byte of it that may be other than 0 on
 * a fit desk: only the marks come through. */
static void test_join_parts(void)
{
    struct benches n;
    unsigned i, side, state;

    open_benches(&n, 64, 0);
    for (side = 0; side < 2; side++) {
        struct buffers *busy = side ? &n.two : &n.one;

        for (i = 0; i < CORES; i++) {
            for (state = 1; state <= 8; state++) {
                put_desk(busy, STATES_AT + i, state);
                expect_join(&n.one, &n.two, &n.b, 0, "a state");
            }
            put_desk(busy, STATES_AT + i, 0);
        }
        for (i = 0; i < FRAMES; i++) {
            put_desk(busy, STATES_AT + i / 3, state_for(i));
            put_desk(busy, DEPTHS_AT + i, DEPTH);
            put_desk(busy, HELD_AT + DEPTH * i, 63);
            put_desk(busy, HELD_AT + DEPTH * i + DEPTH - 1, 128 + 1);
            put_origin(busy, i, 0, 1);
            put_origin(busy, i, DEPTH - 1, 1);
            expect_join(&n.one, &n.two, &n.b, 0, "a frame");
            put_desk(busy, HELD_AT + DEPTH * i, 0);
            put_desk(busy, HELD_AT + DEPTH * i + DEPTH - 1, 0);
            put_origin(busy, i, 0, 0);
            put_origin(busy, i, DEPTH - 1, 0);
            put_desk(busy, DEPTHS_AT + i, 0);
            put_desk(busy, STATES_AT + i / 3, 0);
        }
        for (i = 0; i < 32; i++) {
            put_count(busy, (uint32_t)1 << i);
            expect_join(&n.one, &n.two, &n.b, 0, "a count");
        }
        put_count(busy, 0);
        for (i = 0; i < 64; i++) {
            put_desk(busy, MARKS_AT + i, 12);
            expect_join(&n.one, &n.two, &n.b, 0, "a mark");
            check_byte(&n.b, 34 + i, 12, "a mark");
            put_desk(busy, MARKS_AT + i, 0);
        }
    }
    free_benches(&n);
}

/* Every mark byte with some others: the marks of either. At a single class that
 * is a fault where they clash. */
static void test_join_marks(void)
{
    struct benches n;
    unsigned mark, other, faults = 0;

    open_benches(&n, 1, 0);
    for (mark = 0; mark < 256; mark++) {
        for (other = mark % 3; other < 256; other += 3) {
            unsigned both = mark | other;

            if (!mark_fits(mark) || !mark_fits(other))
                continue;
            put_desk(&n.one, MARKS_AT, mark);
            put_desk(&n.two, MARKS_AT, other);
            faults += !is_clash(mark) && !is_clash(other) && is_clash(both);
            expect_join(&n.one, &n.two, &n.b, is_clash(both), "two marks");
            check_byte(&n.b, 34, both, "two marks");
        }
    }
    check(faults > 250, "two marks: only %u faults by both", faults);
    free_benches(&n);
}

/* Every set of kinds with every other, of two classes and of one. */
static void test_join_kinds(void)
{
    struct benches n;
    unsigned first, second;

    open_benches(&n, 8, 1);
    for (first = 0; first < 16; first++) {
        for (second = 0; second < 16; second++) {
            unsigned both = first | second;

            put_sheet(&n.one, 6, 3, first);
            put_sheet(&n.two, 6, 3, second);
            expect_join(&n.one, &n.two, &n.b, 0, "two sets of kinds");
            check(n.b.sheet.bytes[6 * 8 + 3] == both, "two sets of kinds: %u",
                  n.b.sheet.bytes[6 * 8 + 3]);
            put_sheet(&n.one, 6, 3, 0);
            put_sheet(&n.two, 6, 3, 0);
            put_sheet(&n.one, 7, 7, first);
            put_sheet(&n.two, 7, 7, second);
            expect_join(&n.one, &n.two, &n.b, (both & ~4u) != 0,
                        "two sets of one class");
            put_sheet(&n.one, 7, 7, 0);
            put_sheet(&n.two, 7, 7, 0);
        }
    }
    free_benches(&n);
}

/* In every pair: a dependency of the first, of the second, of both. */
static void test_join_pairs(void)
{
    struct benches n;
    unsigned k, pair, who;

    for (k = 3; k <= 11; k += 4) {
        open_benches(&n, k, 2);
        for (pair = 0; pair < k * k; pair++) {
            unsigned from = pair / k, to = pair % k;

            for (who = 1; who < 4; who++) {
                put_kinds(&n.one, from, to, who & 1 ? PLUNGEROWL_SR : 0);
                put_seen(&n.one, from, to, who & 1 ? 0x04000201 : 0);
                put_kinds(&n.two, from, to, who & 2 ? PLUNGEROWL_SR : 0);
                put_seen(&n.two, from, to, who & 2 ? 0x00050003 : 0);
                expect_join(&n.one, &n.two, &n.b, 0, "one pair");
                check(n.b.sheet.bytes[pair] == 4, "one pair: kinds");
                check_seen(&n.b, from, to, who & 1 ? 0x04000201 : 0x00050003,
                           "one pair");
            }
            put_sheet(&n.one, from, to, 0);
            put_sheet(&n.two, from, to, 0);
        }
        free_benches(&n);
    }
}

/* All pairs of 64 classes at once, each with a number of its own: a third are
 * the first's, a third the second's, a third of both. */
static void test_join_all_pairs(void)
{
    struct benches n;
    unsigned from, to;

    open_benches(&n, 64, 0);
    for (from = 0; from < 64; from++) {
        for (to = 0; to < 64; to++) {
            unsigned who = (from + to) % 3;

            put_sheet(&n.one, from, to, who == 1 ? 0 : PLUNGEROWL_SR);
            put_sheet(&n.two, from, to, who == 0 ? 0 : PLUNGEROWL_SR);
            if (who == 2)
                put_seen(&n.two, from, to, 1 + 64 * from + to);
        }
    }
    expect_both_orders(&n.one, &n.two, &n.b, 0, "all pairs");
    free_benches(&n);
}

/* Numbers of all sizes: the first bench's, whichever is lower, whatever bytes
 * of it are 0; the second's where that has none. */
static void test_join_numbers(void)
{
    static const uint32_t numbers[] = { 0, 1, 2, 255, 256, 257, 65535, 65536,
                                        0x00FF0000, 0x01000000, 0x01020304,
                                        0x80000000, 0xFF000000, UINT32_MAX };
    const size_t some = sizeof numbers / sizeof numbers[0];
    uint8_t slip[] = { 1, 2, 2, 0, 0, 0, 0, 0 };
    struct benches n;
    size_t i, j;

    open_benches(&n, 3, 0);
    for (i = 0; i < some; i++) {
        for (j = 0; j < some; j++) {
            uint32_t due = numbers[i] != 0 ? numbers[i] : numbers[j];

            put_kinds(&n.one, 2, 2, numbers[i] != 0 ? PLUNGEROWL_SR : 0);
            put_seen(&n.one, 2, 2, numbers[i]);
            put_kinds(&n.two, 2, 2, numbers[j] != 0 ? PLUNGEROWL_EN : 0);
            put_seen(&n.two, 2, 2, numbers[j]);
            fill_again(&n.b);
            expect_join(&n.one, &n.two, &n.b, numbers[j] != 0, "two numbers");
            check_seen(&n.b, 2, 2, due, "two numbers");
            set_low_first(slip + 4, due);
            if (numbers[j] != 0)
                check_whole_slip(&n.b, slip, "two numbers in the slip");
        }
    }
    free_benches(&n);
}

/* The number of a pair is the first bench's, though the kind that is shown is
 * the second's; and the count of neither plays a part. */
static void test_join_number_of_other_kind(void)
{
    static const uint8_t first[] = { 2, 0, 2, 0, 7, 0, 0, 0,
                                     1, 2, 0, 9, 0, 0, 0 };
    static const uint8_t turned[] = { 2, 0, 2, 0, 5, 0, 0, 0,
                                      1, 2, 0, 9, 0, 0, 0 };
    struct benches n;

    open_benches(&n, 4, 0);
    put_kinds(&n.one, 0, 1, PLUNGEROWL_SR); /* not in the cycle */
    put_seen(&n.one, 0, 1, 7);
    put_count(&n.one, 100);
    put_kinds(&n.two, 0, 1, PLUNGEROWL_EN); /* in it */
    put_seen(&n.two, 0, 1, 5);
    put_kinds(&n.two, 1, 0, PLUNGEROWL_EN);
    put_seen(&n.two, 1, 0, 9);
    put_count(&n.two, 200);
    put_sheet(&n.two, 1, 0, 0);
    put_kinds(&n.one, 1, 0, PLUNGEROWL_EN);
    put_seen(&n.one, 1, 0, 9);
    expect_join(&n.one, &n.two, &n.b, 1, "the first's number");
    check_whole_slip(&n.b, first, "the first's number");
    fill_again(&n.b);
    expect_join(&n.two, &n.one, &n.b, 1, "the first's number, turned");
    check_whole_slip(&n.b, turned, "the first's number, turned");
    free_benches(&n);
}

/* Every graph of the cycles above, divided between two benches in every way, or
 * whole in both: the slip that a step shows. Marks are divided bit by bit. */
static void test_join_shown(void)
{
    struct benches n;
    size_t i;
    unsigned mask, j;

    for (i = 0; i < SHOWN; i++) {
        const struct shown *s = &shown[i];
        unsigned ways = 1;
        const struct drawn *d;

        for (d = s->drawn; d->kinds != 0; d++)
            ways *= 2;
        for (mask = 0; mask < ways; mask += ways > 64 ? 5 : 1) {
            open_benches(&n, FEW, 1);
            for (d = s->drawn, j = 0; d->kinds != 0; d++, j++) {
                struct buffers *b = mask >> j & 1 ? &n.one : &n.two;

                put_sheet(b, d->from, d->to,
                          b->sheet.bytes[d->from * FEW + d->to] | d->kinds);
            }
            for (j = 0; j < FEW; j++) {
                unsigned safe = s->marks[j] & 51, unsafe = s->marks[j] & 204;

                put_desk(&n.one, MARKS_AT + j, mask & 1 ? safe : unsafe);
                put_desk(&n.two, MARKS_AT + j, mask & 1 ? unsafe : safe);
            }
            expect_join(&n.one, &n.two, &n.b, 1, s->what);
            check_slip(&n.b, s->slip, s->what);
            free_benches(&n);
        }
        open_benches(&n, FEW, 0);
        put_shown(&n.one, s);
        put_shown(&n.two, s);
        expect_join(&n.one, &n.two, &n.b, 1, s->what);
        check_slip(&n.b, s->slip, s->what);
        free_benches(&n);
    }
}

/* Cycles that neither bench has: there and back, of all kinds; weak joints stay
 * weak. */
static void test_join_there_and_back(void)
{
    struct benches n;
    unsigned there, back;

    open_benches(&n, 8, 0);
    for (there = 1; there < 16; there++) {
        for (back = 1; back < 16; back++) {
            int strong = 0;
            unsigned i, j;

            for (i = 1; i < 16; i *= 2)
                for (j = 1; j < 16; j *= 2)
                    if (there & i && back & j && is_strong(i, j)
                        && is_strong(j, i))
                        strong = 1;
            put_sheet(&n.one, 2, 5, there);
            put_sheet(&n.two, 5, 2, back);
            expect_both_orders(&n.one, &n.two, &n.b, (unsigned)strong,
                               "there and back");
        }
    }
    free_benches(&n);
}

/* By marks: unsafe in one bench, safe in the other, of one class or of two with
 * a dependency back, at each level and of each letter; levels do not meet. */
static void test_join_by_marks(void)
{
    static const struct {
        uint8_t unsafe, safe, kind, source;
    } rows[] = {
        { 4, 1, 2, 1 }, { 4, 2, 1, 1 }, { 8, 1, 8, 1 }, { 8, 2, 4, 1 },
        { 68, 16, 2, 2 }, { 68, 32, 1, 2 }, { 136, 16, 8, 2 },
        { 136, 32, 4, 2 }, { 4, 16, 0, 0 }, { 8, 48, 0, 0 }, { 12, 48, 0, 0 }
    };
    struct benches n;
    size_t i;
    unsigned back;

    for (i = 0; i < sizeof rows / sizeof rows[0]; i++) {
        for (back = 0; back < 3; back++) {
            unsigned to = back == 0 ? 3 : 1;
            int drawn = rows[i].kind != 0;
            int fault = drawn && rows[i].kind != (back == 1 ? 0 : 4);
            uint8_t slip[1 + 2 * ENTRY] = { 0 };

            open_benches(&n, 8, 0);
            put_desk(&n.one, MARKS_AT + 3, rows[i].unsafe);
            put_desk(&n.two, MARKS_AT + to, rows[i].safe);
            if (back != 0) { /* EN or SN back, in either bench */
                put_kinds(i % 2 ? &n.one : &n.two, 1, 3,
                          back == 1 ? PLUNGEROWL_EN : PLUNGEROWL_SN);
                put_seen(i % 2 ? &n.one : &n.two, 1, 3, 300);
            }
            if (back == 2 && rows[i].kind == 1)
                fault = 0; /* ER, then S */
            expect_both_orders(&n.one, &n.two, &n.b, (unsigned)fault,
                               "marks of two benches");
            if (back == 0) {
                slip[0] = 1;
                slip[1] = 3;
                slip[2] = rows[i].kind;
                slip[3] = rows[i].source;
            } else {
                slip[0] = 2;
                slip[1] = 1;
                slip[2] = back == 1 ? 2 : 8;
                set_low_first(slip + 4, 300);
                slip[8] = 3;
                slip[9] = rows[i].kind;
                slip[10] = rows[i].source;
            }
            if (fault)
                check_whole_slip(&n.b, slip, "marks of two benches");
            free_benches(&n);
        }
    }
}

/* The same by logs: a handler's lock in one, a task's in the other. */
static void test_join_by_marks_of_logs(void)
{
    struct benches n;
    unsigned mode, level;

    for (level = 0; level < 2; level++) {
        for (mode = 0; mode < MODES; mode++) {
            open_benches(&n, 8, 0);
            expect_step(&n.one, 1, level ? ENTER_SOFT : ENTER_HARD, 0, 0, 0,
                        "bench 1, a handler");
            expect_step(&n.one, 1, ACQUIRE, 3, mode, 0, "bench 1, a lock");
            expect_step(&n.two, 1, ACQUIRE, 3, TRY + E, 0, "bench 2, try 3E");
            expect_both_orders(&n.one, &n.two, &n.b, mode < TRY,
                               "a lock of a handler and of a task");
            free_benches(&n);

            open_benches(&n, 8, 0);
            expect_step(&n.one, 1, level ? ENTER_SOFT : ENTER_HARD, 0, 0, 0,
                        "bench 1, a handler");
            expect_step(&n.one, 1, ACQUIRE, 3, R, 0, "bench 1, 3R");
            expect_step(&n.two, 1, ACQUIRE, 3, mode, 0, "bench 2, a lock");
            expect_both_orders(&n.one, &n.two, &n.b, mode % TRY == E,
                               "a read of a handler, a lock of a task");
            free_benches(&n);
        }
    }
}

/* A path that each bench has half of, a class reached by R in one and by N in
 * the other, and one that is passed twice. */
static void test_join_paths(void)
{
    struct benches n;

    open_benches(&n, 8, 0);
    put_sheet(&n.one, 0, 1, PLUNGEROWL_ER);
    put_sheet(&n.one, 1, 2, PLUNGEROWL_SN);
    put_sheet(&n.one, 2, 0, PLUNGEROWL_EN);
    expect_both_orders(&n.one, &n.two, &n.b, 0, "R, then S");
    expect_reach(&n.b, 0, BIT(1), 1, "R, then S");
    put_sheet(&n.two, 0, 3, PLUNGEROWL_EN);
    expect_both_orders(&n.one, &n.two, &n.b, 0, "another way, half of it");
    put_sheet(&n.two, 3, 1, PLUNGEROWL_EN);
    expect_both_orders(&n.one, &n.two, &n.b, 1, "another way, by N");
    put_sheet(&n.two, 3, 1, 0);
    put_sheet(&n.two, 0, 1, PLUNGEROWL_SN);
    expect_both_orders(&n.one, &n.two, &n.b, 1, "another kind, by N");
    free_benches(&n);

    open_benches(&n, 8, 0);
    put_sheet(&n.one, 3, 0, PLUNGEROWL_ER);
    put_sheet(&n.one, 0, 2, PLUNGEROWL_SN);
    put_sheet(&n.one, 2, 3, PLUNGEROWL_ER);
    put_sheet(&n.two, 0, 1, PLUNGEROWL_ER);
    expect_both_orders(&n.one, &n.two, &n.b, 0, "no way back yet");
    expect_reach(&n.b, 3, BIT(0) | BIT(1), 2, "no way back yet");
    put_sheet(&n.two, 1, 4, PLUNGEROWL_EN);
    put_sheet(&n.one, 4, 0, PLUNGEROWL_EN);
    expect_both_orders(&n.one, &n.two, &n.b, 1, "a class passed twice");
    free_benches(&n);
}

/* A cycle through all 64 classes, each bench with every other dependency. */
static void test_join_full_slip(void)
{
    struct benches n;
    unsigned i;

    open_benches(&n, 64, 0);
    for (i = 0; i < 64; i++)
        put_sheet(i % 2 ? &n.one : &n.two, i, (i + 1) % 64, PLUNGEROWL_EN);
    expect_join(&n.one, &n.two, &n.b, 1, "a ring");
    check(n.b.slip.bytes[0] == 64, "a ring of %u", n.b.slip.bytes[0]);
    for (i = 0; i < 64; i++)
        check_number(n.b.slip.bytes + 1 + ENTRY * i + TRIPLE,
                     1 + 0x00010203 * (64 * i + (i + 1) % 64), "a ring");
    put_sheet(&n.one, 63, 0, 0);
    put_sheet(&n.one, 63, 1, PLUNGEROWL_EN);
    expect_join(&n.one, &n.two, &n.b, 1, "a ring of 63 over a longer one");
    put_sheet(&n.one, 63, 1, 0);
    expect_join(&n.one, &n.two, &n.b, 0, "no ring");
    expect_reach(&n.b, 0, ~BIT(0), 63, "no ring, from 0");
    free_benches(&n);
}

/* An open bench that has a cycle of its own, a desk from elsewhere: the joined
 * one is a fault. */
static void test_join_own_cycle(void)
{
    struct benches n;
    unsigned who, how;

    for (who = 1; who < 4; who++) {
        for (how = 0; how < 4; how++) {
            open_benches(&n, 8, 0);
            if (how == 0) {
                put_sheet(&n.one, 1, 6, who & 1 ? PLUNGEROWL_EN : 0);
                put_sheet(&n.one, 6, 1, who & 1 ? PLUNGEROWL_SN : 0);
                put_sheet(&n.two, 0, 7, who & 2 ? PLUNGEROWL_EN : 0);
                put_sheet(&n.two, 7, 0, who & 2 ? PLUNGEROWL_EN : 0);
            } else if (how == 1) {
                put_sheet(&n.one, 7, 7, who & 1 ? PLUNGEROWL_ER : 0);
                put_sheet(&n.two, 7, 7, who & 2 ? PLUNGEROWL_SN : 0);
            } else {
                unsigned marks = how == 2 ? 5 : 0xA8 + 0x10;

                put_desk(&n.one, MARKS_AT + 7, who & 1 ? marks : 0);
                put_desk(&n.two, MARKS_AT + 4, who & 2 ? marks : 0);
            }
            expect_both_orders(&n.one, &n.two, &n.b, 1, "a cycle of its own");
            put_desk(&n.b, CLOSED_AT, 0);
            expect_step(&n.b, 0, HARD_ON, 0, 0, 1, "a step there");
            free_benches(&n);
        }
    }
}

/* A bench with itself: its sheet, its numbers, its marks. Clean if it is. */
static void test_join_itself(void)
{
    struct benches n;
    unsigned fault;

    for (fault = 0; fault < 2; fault++) {
        open_benches(&n, 8, 7);
        put_busy(&n.one, 12);
        put_sheet(&n.one, 0, 7, 15);
        put_sheet(&n.one, 7, 7, PLUNGEROWL_SR);
        put_sheet(&n.one, 7, 0, fault ? PLUNGEROWL_SN : 0);
        put_desk(&n.one, MARKS_AT + 5, 0x8A);
        expect_join(&n.one, &n.one, &n.b, fault, "itself with itself");
        check(memcmp(n.b.sheet.bytes, n.one.sheet.bytes, 64) == 0
              && memcmp(n.b.seen.bytes, n.one.seen.bytes, 256) == 0,
              "itself with itself: sheets");
        free_benches(&n);
    }
}

/* Buffers that are read may be the same for both benches, or lie within each
 * other: the sheets of these within their desks, where those have 0. */
static void test_join_overlap(void)
{
    struct benches n;
    unsigned i;

    for (i = 0; i < 8; i++) {
        struct buffers one, two;

        open_benches(&n, 4, 0);
        put_sheet(&n.one, 0, 1, PLUNGEROWL_EN);
        put_sheet(&n.two, 0, 1, PLUNGEROWL_SR);
        put_seen(&n.two, 0, 1, 33);
        put_desk(&n.one, MARKS_AT + 2, 4);
        put_desk(&n.two, MARKS_AT + 2, 16);
        one = n.one;
        two = n.two;
        if (i & 1) { /* one desk */
            two.desk = one.desk;
            two.want_desk = one.want_desk;
        }
        if (i & 2) { /* one sheet */
            two.sheet = one.sheet;
            two.want_sheet = one.want_sheet;
        }
        if (i & 4) { /* one second sheet */
            two.seen = one.seen;
            two.want_seen = one.want_seen;
        }
        expect_both_orders(&one, &two, &n.b, 0, "shared buffers");
        free_benches(&n);
    }
    for (i = 0; i < 4; i++) {
        struct buffers one, two;

        open_benches(&n, 4, 0);
        one = n.one;
        two = n.two;
        one.sheet.bytes = one.desk.bytes + HELD_AT + 7 * i;
        one.want_sheet.bytes = one.want_desk.bytes + HELD_AT + 7 * i;
        two.seen.bytes = (i % 2 ? one : two).desk.bytes + ORIGINS_AT + i;
        two.want_seen.bytes = two.want_desk.bytes + ORIGINS_AT + i;
        one.sheet.before = one.sheet.behind = 0;
        two.seen.before = two.seen.behind = 0;
        put_desk(&two, MARKS_AT + 1, 68);
        put_desk(&one, MARKS_AT + 1, i / 2 * 32);
        expect_both_orders(&one, &two, &n.b, i / 2, "buffers in a desk");
        free_benches(&n);
    }
}

/* The benches are not written, not even for a while. */
static void test_join_read_only(void)
{
    static uint8_t desk[PLUNGEROWL_DESK_SIZE], sheet[64], seen[256];
    static uint8_t slip[PLUNGEROWL_SLIP_SIZE(8)];
    const size_t page = (size_t)sysconf(_SC_PAGESIZE);
    unsigned i;
    uint8_t *pages = mmap(NULL, 2 * page, PROT_READ | PROT_WRITE,
                          MAP_PRIVATE | MAP_ANONYMOUS, -1, 0);

    need(pages != MAP_FAILED && page >= PLUNGEROWL_DESK_SIZE + 64 + 256);
    for (i = 0; i < 6; i++) {
        uint8_t *one = pages, *two = pages + page;
        unsigned due = i == 0 ? 0 : i == 1 ? 1 : 9 + i, is;

        need(mprotect(pages, 2 * page, PROT_READ | PROT_WRITE) == 0);
        memset(pages, 0, 2 * page);
        one[0] = two[0] = 8;
        one[MARKS_AT] = 4;
        two[MARKS_AT] = i == 1 ? 1 : 0;
        two[STATES_AT] = i == 2 ? 9 : 0;
        two[0] -= i == 3;
        two[CLOSED_AT] = i == 4;
        if (i == 5) { /* 11 once more, by the first */
            one[PLUNGEROWL_DESK_SIZE + 63] = 1;
            due = 11;
        }
        need(mprotect(pages, 2 * page, PROT_READ) == 0);
        is = plungerowl_join(one, sizeof desk, one + sizeof desk, 64,
                             one + sizeof desk + 64, 256,
                             two, sizeof desk, two + sizeof desk, 64,
                             two + sizeof desk + 64, 256,
                             desk, sizeof desk, sheet, 64, seen, 256,
                             slip, sizeof slip);
        join_met[is] = 1;
        check(is == due, "benches to be read: join answers %u, not %u", is,
              due);
    }
    munmap(pages, 2 * page);
}

/* With buffers for more classes: bytes past those of K are not looked at and
 * not changed, whatever they are. */
static void test_join_past(void)
{
    static const uint8_t past[] = { 0, 1, 15, 16, 90, 255 };
    struct benches n;
    size_t i, j;
    unsigned fault;

    for (i = 0; i < sizeof past; i++) {
        for (j = 0; j < sizeof past; j++) {
            struct buffers *all[] = { &n.one, &n.two, &n.b };
            size_t k;

            make_buffers(&n.one, 16, 3);
            make_buffers(&n.two, 16, 0);
            make_buffers(&n.b, 16, 1);
            for (k = 0; k < 3; k++) {
                struct buffers *b = all[k];

                memset(b->sheet.bytes, past[i], b->sheet.size);
                memset(b->want_sheet.bytes, past[i], b->sheet.size);
                memset(b->seen.bytes, past[j], b->seen.size);
                memset(b->want_seen.bytes, past[j], b->seen.size);
                b->k = 3;
                if (k < 2)
                    expect_open(b, 3, 0, "past K x K, opening");
            }
            put_sheet(&n.one, 2, 2, PLUNGEROWL_SR);
            put_sheet(&n.two, 1, 2, PLUNGEROWL_EN);
            for (fault = 0; fault < 2; fault++) {
                put_sheet(&n.one, 2, 1, fault ? PLUNGEROWL_EN : 0);
                expect_join(&n.one, &n.two, &n.b, fault, "past K x K");
                check(n.b.sheet.bytes[9] == past[i]
                      && n.b.seen.bytes[36] == past[j], "past K x K: kept");
            }
            free_benches(&n);
        }
    }
}

/* What is written may have anything in it before: a closed desk, an unfit one,
 * one of another K, another fault's slip. */
static void test_join_over(void)
{
    static const uint8_t fills[] = { 0, 1, 64, 127, 255 };
    struct benches n;
    size_t i;
    unsigned fault;

    open_benches(&n, 8, 2);
    for (fault = 0; fault < 2; fault++) {
        put_sheet(&n.one, 1, 2, PLUNGEROWL_EN);
        put_sheet(&n.two, 2, 1, fault ? PLUNGEROWL_EN : PLUNGEROWL_ER);
        put_sheet(&n.one, 1, 2, fault ? PLUNGEROWL_EN : PLUNGEROWL_SR);
        for (i = 0; i < sizeof fills; i++) {
            struct guarded *all[] = { &n.b.desk, &n.b.sheet, &n.b.seen,
                                      &n.b.history, &n.b.slip, &n.b.want_desk,
                                      &n.b.want_sheet, &n.b.want_seen,
                                      &n.b.want_history, &n.b.want_slip };
            size_t j;

            for (j = 0; j < sizeof all / sizeof all[0]; j++)
                guarded_fill(all[j], fills[i]);
            expect_join(&n.one, &n.two, &n.b, fault, "over any bytes");
            expect_join(&n.one, &n.two, &n.b, fault, "over its own");
            expect_join(&n.two, &n.one, &n.b, fault, "over its own, turned");
        }
    }
    free_benches(&n);
}

/* A refused join leaves what the last one left. */
static void test_join_refused(void)
{
    struct benches n;
    unsigned i;

    open_benches(&n, 8, 0);
    put_desk(&n.one, MARKS_AT + 1, 4);
    put_desk(&n.two, MARKS_AT + 1, 2);
    put_sheet(&n.two, 3, 4, 15);
    expect_join(&n.one, &n.two, &n.b, 1, "before the refusals");
    for (i = 0; i < LENT; i++)
        expect_join_less(&n.one, &n.two, &n.b, i, 1, 11, "refused, 11");
    put_desk(&n.one, 0, 7);
    expect_join(&n.one, &n.two, &n.b, 12, "refused, 12");
    put_desk(&n.one, 0, 8);
    put_desk(&n.one, CLOSED_AT, 1);
    expect_join(&n.one, &n.two, &n.b, 13, "refused, 13");
    put_desk(&n.one, CLOSED_AT, 0);
    put_sheet(&n.two, 3, 4, 0);
    put_desk(&n.two, MARKS_AT + 1, 0);
    expect_join(&n.one, &n.two, &n.b, 0, "after the refusals");
    free_benches(&n);
}

/* Benches as full as they can be. */
static void test_join_fullest(void)
{
    struct benches n;
    struct buffers *bench[2];
    unsigned side, i, j;

    open_benches(&n, 64, 0);
    bench[0] = &n.one;
    bench[1] = &n.two;
    for (side = 0; side < 2; side++) {
        for (i = 0; i < 8; i++)
            put_desk(bench[side], STATES_AT + i, 8);
        for (i = 0; i < FRAMES; i++)
            put_desk(bench[side], DEPTHS_AT + i, DEPTH);
        for (i = 0; i < 64; i++)
            put_desk(bench[side], MARKS_AT + i, 255);
        for (i = 0; i < PLUNGEROWL_PLACES; i++)
            put_desk(bench[side], HELD_AT + i, 63 + 64 * R);
        for (i = ORIGINS_AT; i < PLUNGEROWL_DESK_SIZE; i++)
            put_desk(bench[side], i, 255);
        put_fullest_history(bench[side]);
        for (i = 0; i < 64; i++) {
            for (j = 0; j < 64; j++) {
                put_kinds(bench[side], i, j, 15);
                put_seen(bench[side], i, j, UINT32_MAX - side);
            }
        }
    }
    expect_both_orders(&n.one, &n.two, &n.b, 1, "the fullest");
    check_seen(&n.b, 63, 63, UINT32_MAX - 1, "the fullest");
    expect_reach(&n.b, 0, UINT64_MAX, 64, "the fullest, ask");
    free_benches(&n);
}

/* A joined desk is stepped on as any other: the first record is not refused,
 * new pairs get numbers from its own count, old ones stay. */
static void test_join_step_on(void)
{
    static const uint8_t slip[] = { 3, 1, 2, 0, 200, 1, 0, 0,
                                    2, 2, 0, 0x01, 0, 0, 0xFF,
                                    3, 2, 0, 6, 0, 0, 0 };
    struct benches n;
    unsigned i;

    open_benches(&n, 5, 3);
    put_kinds(&n.one, 1, 2, PLUNGEROWL_EN);
    put_seen(&n.one, 1, 2, 456);
    put_kinds(&n.two, 2, 3, PLUNGEROWL_EN);
    put_seen(&n.two, 2, 3, 0xFF000001);
    put_busy(&n.one, 3);
    put_busy(&n.two, UINT32_MAX);
    expect_join(&n.one, &n.two, &n.b, 0, "to be stepped on");
    for (i = 0; i < CORES; i++) /* of fresh cores */
        expect_step(&n.b, i, RELEASE, 1, E, 5, "stepped on, a release");
    expect_reach(&n.b, 1, BIT(2) | BIT(3), 2, "stepped on, ask");
    expect_step(&n.b, 7, ACQUIRE, 0, E, 0, "stepped on, 0E");
    check_count(&n.b, 1, "stepped on");
    expect_step(&n.b, 7, ACQUIRE, 1, E, 0, "stepped on, 1E: 0 EN 1");
    check_seen(&n.b, 0, 1, 2, "stepped on, a new pair");
    expect_step(&n.b, 7, ACQUIRE, 2, R, 0, "stepped on, 2R: 0 ER 2, 1 ER 2");
    check_seen(&n.b, 0, 2, 3, "stepped on, another");
    check_seen(&n.b, 1, 2, 456, "stepped on, an old pair");
    expect_step(&n.b, 7, ACQUIRE, 4, TRY + E, 0, "stepped on, try 4E");
    expect_step(&n.b, 2, ACQUIRE, 3, E, 0, "stepped on, core 2, 3E");
    expect_step(&n.b, 2, ACQUIRE, 1, E, 1, "stepped on, core 2, 1E: 3 EN 1");
    check_count(&n.b, 6, "stepped on, the fault");
    check_seen(&n.b, 3, 1, 6, "stepped on, the fault");
    check_seen(&n.b, 2, 3, 0xFF000001, "stepped on, the fault");
    /* 1 ER 2 is lower than 1 EN 2, and has the same number. */
    check(n.b.slip.bytes[2] == PLUNGEROWL_ER, "stepped on: the kind shown");
    n.b.slip.bytes[2] = PLUNGEROWL_EN;
    check_whole_slip(&n.b, slip, "stepped on");
    free_benches(&n);
}

/* A closed joined desk answers 10, an open one each refusal of a step. */
static void test_join_step_refused(void)
{
    struct benches n;
    unsigned kind;

    open_benches(&n, 8, 0);
    put_sheet(&n.one, 0, 1, PLUNGEROWL_EN);
    expect_join(&n.one, &n.two, &n.b, 0, "an open one");
    expect_step(&n.b, 8, HARD_ON, 0, 0, 3, "an open one, 3");
    expect_step(&n.b, 0, ACQUIRE, 8, E, 4, "an open one, 4");
    expect_step(&n.b, 0, RELEASE, 0, E, 5, "an open one, 5");
    expect_step(&n.b, 0, EXIT_HARD, 0, 0, 6, "an open one, 6");
    put_count(&n.b, UINT32_MAX);
    expect_step(&n.b, 0, HARD_ON, 0, 0, 9, "an open one, 9");

    put_sheet(&n.two, 1, 0, PLUNGEROWL_EN);
    expect_join(&n.one, &n.two, &n.b, 1, "a closed one");
    for (kind = 0; kind < 11; kind++)
        expect_step(&n.b, 0, kind, 0, 0, 10, "a closed one, 10");
    expect_reach(&n.b, 0, BIT(0) | BIT(1), 2, "a closed one, ask");
    expect_no_reach(&n.b, 8, 4, "a closed one, ask class K");
    expect_open(&n.b, 8, 0, "opened again");
    expect_step(&n.b, 0, ACQUIRE, 0, E, 0, "opened again, 0E");
    free_benches(&n);
}

/* A feed goes on with a joined desk. */
static void test_join_feed_on(void)
{
    static const uint8_t slip[] = { 2, 1, 2, 0, 77, 0, 0, 0,
                                    2, 2, 0, 2, 0, 0, 0 };
    static struct log log;
    struct benches n;
    struct feeding f;
    size_t size, at;

    log_header(&log, 3);
    log_record(&log, 6, ACQUIRE, 2, E);
    log_record(&log, 6, ACQUIRE, 1, E);
    log_record(&log, 6, RELEASE, 1, E);
    for (size = 1; size < 19; size++) {
        open_benches(&n, 3, 0);
        put_kinds(&n.two, 1, 2, PLUNGEROWL_EN);
        put_seen(&n.two, 1, 2, 77);
        put_busy(&n.one, 1000);
        start_feed(&f, 3, 0);
        expect_join(&n.one, &n.two, &f.b, 0, "to be fed");
        put_whole_feed(&f, 0, 1, 0, 40);
        for (at = 4; at < log.size; at += size)
            feed_or_end(&f, log.bytes + at, log.size - at < size
                        ? log.size - at : size, "a joined desk is fed");
        expect_end(&f, 1, 42, "a joined desk is fed");
        check_count(&f.b, 2, "a joined desk is fed");
        check_whole_slip(&f.b, slip, "a joined desk is fed");
        free_benches(&n);
        free_feed(&f);
    }
    /* Loose bytes at the end, on an open desk and on a closed one. */
    for (size = 0; size < 2; size++) {
        open_benches(&n, 3, 0);
        start_feed(&f, 3, 0);
        put_sheet(&n.one, 2, 2, size == 0 ? PLUNGEROWL_SR : PLUNGEROWL_EN);
        expect_join(&n.one, &n.two, &f.b, (unsigned)size, "to be fed");
        put_whole_feed(&f, 0, 1, 0, 40);
        expect_feed(&f, log.bytes + 4, 3, 0, 40, "loose bytes");
        expect_end(&f, size == 0 ? 3 : 10, 41, "loose bytes, the end");
        free_benches(&n);
        free_feed(&f);
    }
}

/* More benches, one after the other: a ring of which each has a dependency. The
 * joined one is the first of the next join, or the second; the numbers are
 * those of the benches. */
static void test_join_on(void)
{
    struct buffers bench, joined[2];
    unsigned i, j, turned;

    for (turned = 0; turned < 2; turned++) {
        open_buffers(&joined[0], 6, 0);
        open_buffers(&joined[1], 6, 0);
        for (i = 0; i < 6; i++) {
            struct buffers *old = &joined[i % 2], *now = &joined[1 - i % 2];

            open_buffers(&bench, 6, 0);
            put_busy(&bench, 50 + i);
            put_kinds(&bench, i, (i + 1) % 6, PLUNGEROWL_EN);
            put_seen(&bench, i, (i + 1) % 6, 10 + i);
            put_kinds(&bench, 0, 5, PLUNGEROWL_ER); /* in every bench */
            put_seen(&bench, 0, 5, 100 + i);
            put_kinds(&bench, 5, 0, 0);
            put_seen(&bench, 5, 0, 0);
            put_desk(&bench, MARKS_AT + i, 0x10 << i % 2);
            if (i == 5) {
                put_kinds(&bench, 5, 0, PLUNGEROWL_SN);
                put_seen(&bench, 5, 0, 15);
            }
            if (turned)
                expect_join(&bench, old, now, i == 5, "one bench more, first");
            else
                expect_join(old, &bench, now, i == 5, "one bench more");
            for (j = 0; j <= i; j++)
                check_byte(now, 34 + j, 0x10 << j % 2, "one bench more: marks");
            check_seen(now, 0, 5, turned ? 100 + i : 100, "in every bench");
            check_seen(now, i, (i + 1) % 6, 10 + i, "its own");
            check_count(now, 0, "one bench more");
            free_buffers(&bench);
        }
        free_buffers(&joined[0]);
        free_buffers(&joined[1]);
    }
}

/* Random benches: each bench of any fit bytes. */
static void put_any_bench(struct buffers *b, unsigned density)
{
    unsigned from, to;

    for (from = 0; from < b->k; from++)
        for (to = 0; to < b->k; to++)
            if (below(density) == 0)
                put_sheet(b, from, to, from == to ? PLUNGEROWL_SR : below(16));
    for (from = below(4); from > 1; from--)
        put_random_marks(b);
    put_random_numbers(b);
    if (below(2) == 0)
        put_busy(b, below(1000));
}

/* Whether a join of these would be a fault. */
static unsigned fault_of(const struct buffers *one, const struct buffers *two,
                         struct buffers *b)
{
    want_joined(b, one, two);
    return least_cycle(b)[0] != 0;
}

/* Each in both orders, and with a third behind: however they are put together,
 * the joined graph is the same. */
static void test_join_random(void)
{
    unsigned i, faults = 0, own = 0;

    seed = 20261119 + sides;
    for (i = 0; i < 400; i++) {
        unsigned k = i % 40 == 0 ? 20 + below(45) : 1 + below(7);
        unsigned density = 2 + below(k > 10 ? 60 : 6), fault;
        struct benches n;
        struct buffers third, left, right;

        open_benches(&n, k, i % 3);
        put_any_bench(&n.one, density);
        put_any_bench(&n.two, density);
        fault = fault_of(&n.one, &n.two, &n.b);
        faults += fault;
        own += fault && least_cycle(&n.one)[0] == 0
               && least_cycle(&n.two)[0] == 0;
        expect_both_orders(&n.one, &n.two, &n.b, fault, "random benches");
        if (!fault) {
            unsigned first, second, all;

            open_buffers(&third, k, 0);
            make_buffers(&left, k, 0);
            make_buffers(&right, k, 0);
            put_any_bench(&third, density);
            expect_join(&n.one, &n.two, &n.b, 0, "one and two");
            all = fault_of(&n.b, &third, &left);
            expect_join(&n.b, &third, &left, all, "one and two, then three");
            first = fault_of(&n.two, &third, &right);
            expect_join(&n.two, &third, &right, first, "two and three");
            if (!first) {
                fill_again(&n.b);
                second = fault_of(&n.one, &right, &n.b);
                expect_join(&n.one, &right, &n.b, second,
                            "one, then two and three");
                check(second == all
                      && memcmp(n.b.desk.bytes, left.desk.bytes,
                                PLUNGEROWL_DESK_SIZE) == 0
                      && memcmp(n.b.sheet.bytes, left.sheet.bytes, k * k) == 0
                      && memcmp(n.b.seen.bytes, left.seen.bytes,
                                4 * k * k) == 0,
                      "three benches, joined in two ways");
            }
            free_buffers(&third);
            free_buffers(&left);
            free_buffers(&right);
        }
        free_benches(&n);
    }
    check(faults > 60 && faults < 340 && own > 20,
          "random benches: %u faults, %u by both", faults, own);
}

/* Two logs by steps: one acquires upwards, the other downwards, in any modes.
 * Each is clean; joined they are what a single log would draw. */
static void test_join_logs(void)
{
    unsigned i, faults = 0;

    seed = 20261120 + sides;
    for (i = 0; i < 150; i++) {
        struct benches n;
        unsigned k = 2 + below(3), log, j, fault;

        open_benches(&n, k, 0);
        for (log = 0; log < 2; log++) {
            struct buffers *b = log ? &n.two : &n.one;

            for (j = 0; j < 12; j++) {
                unsigned low = below(k - 1);
                unsigned high = low + 1 + below(k - low - 1);
                unsigned core = below(CORES), first = below(MODES);
                unsigned second = below(MODES);
                unsigned from = log ? high : low, to = log ? low : high;

                expect_step(b, core, HARD_OFF, 0, 0, 0, "a log, hard off");
                expect_step(b, core, ACQUIRE, from, first, 0, "a log, a lock");
                expect_step(b, core, ACQUIRE, to, second, 0, "a log, another");
                expect_step(b, core, RELEASE, from, first, 0, "a log, release");
                if (below(6) > 0)
                    expect_step(b, core, RELEASE, to, second, 0,
                                "a log, the other's release");
                else
                    j = 12; /* and the last lock stays held */
            }
        }
        fault = fault_of(&n.one, &n.two, &n.b);
        faults += fault;
        expect_both_orders(&n.one, &n.two, &n.b, fault, "two logs");
        free_benches(&n);
    }
    check(faults > 30 && faults < 120, "two logs: %u faults", faults);
}

/* ------------------------------------------------------------ the balance */

/* Room for the balances, with the byte in it before a call. */
static struct guarded *lent_balances(uint8_t fill)
{
    static struct guarded rooms[FENCE_BEHIND + 1];
    struct guarded *room = &rooms[sides];
    const size_t size = CLASSES * sizeof(int32_t);

    if (room->bytes == NULL)
        need(sides == GUARD_BOTH ? guarded_make_numbers(room, size, fill)
                                 : fenced_make(room, size));
    guarded_fill(room, fill);
    return room;
}

static int32_t balance_in(const struct guarded *balances, unsigned class_)
{
    int32_t balance;

    memcpy(&balance, balances->bytes + class_ * sizeof balance, sizeof balance);
    return balance;
}

/* Balance over a lent piece with these bytes in it (NULL: it cannot be
 * written), once over each of two fills of a row; at most one is 0. */
static void expect_lent_balance(const struct guarded *piece,
                                const uint8_t *bytes, unsigned answer,
                                const int32_t due[CLASSES], const char *what)
{
    static const uint8_t fills[] = { 0xFF, 0x00, 0x5A, 0x80, 0x01 };
    static unsigned calls;
    unsigned i, c;

    for (i = 0; i < 2; i++) {
        struct guarded *balances
            = lent_balances(fills[calls++ % sizeof fills]);
        unsigned is = plungerowl_balance(piece->bytes, piece->size,
                                         (int32_t *)balances->bytes);

        balance_met[is] = 1;
        check(is == answer, "%s, %lu bytes: balance answers %u, not %u", what,
              (unsigned long)piece->size, is, answer);
        for (c = 0; c < CLASSES && balance_in(balances, c) == due[c]; c++)
            ;
        check(c == CLASSES, "%s, %lu bytes: class %u has %" PRId32
              ", not %" PRId32, what, (unsigned long)piece->size, c,
              c < CLASSES ? balance_in(balances, c) : 0,
              c < CLASSES ? due[c] : 0);
        check(guarded_intact(balances), "%s: bytes around the balances", what);
        check(bytes == NULL || memcmp(piece->bytes, bytes, piece->size) == 0,
              "%s: the piece", what);
        check(guarded_intact(piece), "%s: bytes around the piece", what);
    }
}

static void expect_balances(const uint8_t *bytes, size_t length,
                            unsigned answer, const int32_t due[CLASSES],
                            const char *what)
{
    expect_lent_balance(lent_bytes(bytes, length), bytes, answer, due, what);
}

/* One class has a balance, and no other. */
static void expect_one_balance(const struct log *piece, unsigned class_,
                               int32_t balance, const char *what)
{
    int32_t due[CLASSES] = { 0 };

    due[class_] = balance;
    expect_balances(piece->bytes, piece->size, 0, due, what);
}

static void expect_no_balance(const uint8_t *bytes, size_t length,
                              unsigned answer, const char *what)
{
    static const int32_t zeros[CLASSES];

    expect_balances(bytes, length, answer, zeros, what);
}

/* The selftest's own rule: of each class the acquires and the releases, of the
 * records that are not malformed. */
static unsigned balances_due(const uint8_t *piece, size_t length,
                             int32_t due[CLASSES])
{
    int acquires[256] = { 0 }, releases[256] = { 0 };
    size_t i;

    memset(due, 0, CLASSES * sizeof due[0]);
    if (length / 6 > 10000 || length % 6 != 0)
        return 14;
    for (i = 0; i < length / 6; i++) {
        const uint8_t *at = piece + 6 * i;

        if (at[0] != 0x4C || at[1] != 0x4B || at[2] >= CORES)
            continue;
        if (at[3] == ACQUIRE && at[5] < MODES)
            acquires[at[4]]++;
        if (at[3] == RELEASE && at[5] < MODES)
            releases[at[4]]++;
    }
    for (i = 0; i < CLASSES; i++)
        due[i] = acquires[i] - releases[i];
    return 0;
}

static void expect_by_rule(const uint8_t *bytes, size_t length,
                           const char *what)
{
    int32_t due[CLASSES];
    unsigned answer = balances_due(bytes, length, due);

    expect_balances(bytes, length, answer, due, what);
}

/* A piece is a log without a header. */
static void no_records(struct log *piece)
{
    piece->size = 0;
}

/* Acquires and releases in all modes in turn. */
static void add_records(struct log *piece, unsigned count, unsigned kind,
                        unsigned class_)
{
    unsigned i;

    for (i = 0; i < count; i++)
        log_record(piece, i % CORES, kind, class_, kind <= RELEASE ? i % MODES
                                                                   : 0);
}

/* Records that are malformed, each for another reason; all of them but those
 * of other kinds would count at class 5. */
static const uint8_t malformed[][RECORD_SIZE] = {
    { 0x4D, 0x4B, 0, ACQUIRE, 5, 0 }, { 0x00, 0x4B, 0, ACQUIRE, 5, 0 },
    { 0xCC, 0x4B, 0, RELEASE, 5, 0 }, { 0x4C, 0x4C, 0, ACQUIRE, 5, 0 },
    { 0x4C, 0x48, 0, ACQUIRE, 5, 0 }, { 0x4C, 0xCB, 0, RELEASE, 5, 0 },
    { 0x4B, 0x4C, 0, ACQUIRE, 5, 0 }, { 0x6C, 0x6B, 0, ACQUIRE, 5, 0 },
    { 0x4C, 0x4B, 8, ACQUIRE, 5, 0 }, { 0x4C, 0x4B, 8, RELEASE, 5, 0 },
    { 0x4C, 0x4B, 255, ACQUIRE, 5, 0 }, { 0x4C, 0x4B, 0, 13, 5, 0 },
    { 0x4C, 0x4B, 0, 16, 5, 0 }, { 0x4C, 0x4B, 0, 17, 5, 0 },
    { 0x4C, 0x4B, 0, 128, 5, 0 }, { 0x4C, 0x4B, 0, 255, 5, 0 },
    { 0x4C, 0x4B, 0, ACQUIRE, 5, 6 }, { 0x4C, 0x4B, 0, ACQUIRE, 5, 7 },
    { 0x4C, 0x4B, 0, ACQUIRE, 5, 8 }, { 0x4C, 0x4B, 0, ACQUIRE, 5, 255 },
    { 0x4C, 0x4B, 0, RELEASE, 5, 6 }, { 0x4C, 0x4B, 0, RELEASE, 5, 7 },
    { 0x4C, 0x4B, 0, RELEASE, 5, 8 }, { 0x4C, 0x4B, 0, RELEASE, 5, 255 },
    { 0x4C, 0x4B, 0, HARD_ON, 5, 0 }, { 0x4C, 0x4B, 0, EXIT_HARD, 5, 0 },
    { 0x4C, 0x4B, 0, HARD_OFF, 0, 1 }, { 0x4C, 0x4B, 0, ENTER_HARD, 5, 3 },
    { 0x4C, 0x4B, 0, CROSS, 5, 1 }, { 0x4C, 0x4B, 0, UNCROSS, 5, 5 },
    { 0, 0, 0, 0, 0, 0 }, { 255, 255, 255, 255, 255, 255 },
    { 0x4C, 0x48, 0x01, 0x40, 0x4C, 0x4B }, { 0, 0, 0, 0, 0x4C, 0x4B }
};
enum { SORTS = sizeof malformed / sizeof malformed[0] };

static void add_malformed(struct log *piece, unsigned sort)
{
    unsigned i;

    for (i = 0; i < RECORD_SIZE; i++)
        log_byte(piece, malformed[sort][i]);
}

/* A short one, by hand: class 2 is taken twice and given back once, 9 is given
 * back only, 10 comes out even, 63 is taken by a try. */
static void test_balance_example(void)
{
    static struct log piece;
    int32_t due[CLASSES] = { 0 };

    no_records(&piece);
    expect_no_balance(piece.bytes, 0, 0, "no records");
    log_record(&piece, 0, RELEASE, 9, r);
    expect_one_balance(&piece, 9, -1, "a release alone");
    log_record(&piece, 1, ACQUIRE, 2, R);
    log_record(&piece, 2, ACQUIRE, 10, E);
    log_record(&piece, 0, HARD_OFF, 0, 0);
    log_record(&piece, 7, ACQUIRE, 63, TRY + E);
    log_record(&piece, 0, ACQUIRE, 64, E);
    log_record(&piece, 0, HARD_ON, 0, 0);
    log_record(&piece, 1, ACQUIRE, 2, R);
    log_record(&piece, 2, RELEASE, 10, E);
    log_record(&piece, 1, RELEASE, 2, R);
    due[2] = 1;
    due[9] = -1;
    due[63] = 1;
    expect_balances(piece.bytes, piece.size, 0, due, "a short piece");
    no_records(&piece);
    log_record(&piece, 0, ACQUIRE, 0, E);
    expect_one_balance(&piece, 0, 1, "an acquire alone");
    log_record(&piece, 0, RELEASE, 0, E);
    expect_no_balance(piece.bytes, piece.size, 0, "an even piece");
}

/* All 64 numbers are written, whatever was in them, with each answer: over
 * every fill byte. */
static void test_balance_written(void)
{
    static struct log piece;
    struct guarded *balances;
    unsigned fill, i, c;

    no_records(&piece);
    add_records(&piece, 3, ACQUIRE, 7);
    log_record(&piece, 0, ACQUIRE, 8, E); /* comes out even */
    log_record(&piece, 0, RELEASE, 8, E);
    add_records(&piece, MOST_RECORDS, HARD_ON, 0);
    for (fill = 0; fill < 256; fill++) {
        static const struct {
            size_t length;
            unsigned answer;
            int32_t of_7;
        } cases[] = { { 0, 0, 0 }, { 30, 0, 3 }, { 18, 0, 3 }, { 31, 14, 0 },
                      { 29, 14, 0 }, { MOST_BYTES + 6, 14, 0 },
                      { MOST_BYTES + 7, 14, 0 } };

        for (i = 0; i < sizeof cases / sizeof cases[0]; i++) {
            unsigned is;

            balances = lent_balances((uint8_t)fill);
            is = plungerowl_balance(piece.bytes, cases[i].length,
                                    (int32_t *)balances->bytes);
            check(is == cases[i].answer, "written over %02X: answer %u", fill,
                  is);
            for (c = 0; c < CLASSES; c++)
                check(balance_in(balances, c) == (c == 7 ? cases[i].of_7 : 0),
                      "written over %02X, %lu bytes: class %u has %" PRId32,
                      fill, (unsigned long)cases[i].length, c,
                      balance_in(balances, c));
            check(guarded_intact(balances), "written over %02X: around", fill);
        }
    }
}

/* The records of a piece are acquires of the classes in turn. */
static void add_turns(struct log *piece, unsigned count)
{
    unsigned i;

    for (i = 0; i < count; i++)
        log_record(piece, i % CORES, ACQUIRE, i % CLASSES, i % MODES);
}

/* So each class has one for each whole round, and the first ones one more. */
static void expect_turns(const uint8_t *bytes, size_t length, const char *what)
{
    int32_t due[CLASSES] = { 0 };
    int right = length % 6 == 0 && length <= 60000;
    unsigned c;

    for (c = 0; c < CLASSES && right; c++)
        due[c] = (int32_t)(length / 6 / CLASSES + (c < length / 6 % CLASSES));
    expect_balances(bytes, length, right ? 0 : 14, due, what);
}

/* The length alone decides between 0 and 14. */
static void test_balance_lengths(void)
{
    static struct log piece;
    size_t length;

    no_records(&piece);
    add_turns(&piece, 11600);
    for (length = 0; length <= 1300; length++)
        expect_turns(piece.bytes, length, "a short length");
    for (length = 59940; length <= 60060; length++)
        expect_turns(piece.bytes, length, "about the limit");
    for (length = 4090; length < 59900; length += 1999)
        expect_turns(piece.bytes, length, "below the limit");
    for (length = 12288; length < 59900; length += 8190)
        expect_turns(piece.bytes, length, "whole, below the limit");
    for (length = 60066; length <= 69500; length += 101)
        expect_turns(piece.bytes, length, "over the limit");
    for (length = 65520; length <= 65610; length++)
        expect_turns(piece.bytes, length, "about 65536");
}

/* Far longer: 14, whatever the low bits of the length say. Both are tried of
 * each: a length that is whole, and one whose low bits are. */
static void test_balance_longer(void)
{
    static const size_t more[] = { 0, 2, 4, 6, 60, 6000, 59998, 60000 };
    const size_t most = BIT(20) + 60000;
    uint8_t *bytes = malloc(most);
    unsigned i, bit;
    size_t at;

    need(bytes != NULL);
    for (at = 0; at < most; at++)
        bytes[at] = (uint8_t)(at % 6 == 0 ? 0x4C : at % 6 == 1 ? 0x4B
                              : at % 6 == 4 ? 3 : 0);
    for (bit = 16; bit <= 20; bit++)
        for (i = 0; i < sizeof more / sizeof more[0]; i++)
            expect_no_balance(bytes, BIT(bit) + more[i], 14, "far longer");
    free(bytes);
}

/* So with lengths that need 32 bits and more: pages that nobody has written
 * are zeros and take no memory. */
static void test_balance_huge(void)
{
    static const uint64_t sizes[] = {
        BIT(31) - 2, BIT(31), BIT(31) + 4, BIT(31) + 6, BIT(32) - 4, BIT(32),
        BIT(32) + 2, BIT(32) + 6, BIT(32) + 60000 };
    static const int32_t zeros[CLASSES];
    const size_t most = BIT(32) + BIT(16);
    struct guarded piece = { NULL, 0, 0, 0 };
    size_t i;

    piece.bytes = mmap(NULL, most, PROT_READ,
                       MAP_PRIVATE | MAP_ANONYMOUS | MAP_NORESERVE, -1, 0);
    need(piece.bytes != MAP_FAILED);
    for (i = 0; i < sizeof sizes / sizeof sizes[0]; i++) {
        piece.size = sizes[i];
        expect_lent_balance(&piece, NULL, 14, zeros, "huge");
    }
    piece.size = 60000;
    expect_lent_balance(&piece, NULL, 0, zeros, "zeros");
    munmap(piece.bytes, most);
}

/* A header is no record: the piece is cut every six bytes from its start. */
static void test_balance_header(void)
{
    static struct log log;
    unsigned k, n, i;

    for (k = 0; k < 256; k++) {
        log_header(&log, k);
        expect_no_balance(log.bytes, log.size, 14, "a header alone");
    }
    for (n = 0; n <= 50; n++) {
        log_header(&log, 64);
        add_records(&log, n, ACQUIRE, 5);
        expect_no_balance(log.bytes, log.size, 14, "a header and records");
        log_loose(&log, 2);
        expect_no_balance(log.bytes, log.size, 0, "a header, cut every six");
    }
    log_header(&log, 64);
    add_records(&log, 9999, RELEASE, 5);
    expect_no_balance(log.bytes, log.size, 14, "a header, a long log");
    log_loose(&log, 2);
    expect_no_balance(log.bytes, log.size, 0, "a long log, cut every six");
    expect_no_balance(log.bytes, log.size + 6, 14, "more than the limit");

    /* A header with two bytes more is a malformed record, and what is behind
     * it counts; K is not asked, here 1. */
    log_header(&log, 1);
    log_loose(&log, 2);
    add_records(&log, 4, ACQUIRE, 63);
    expect_one_balance(&log, 63, 4, "behind a header of six bytes");

    /* Records that begin elsewhere are not looked for. */
    for (i = 1; i < 6; i++) {
        no_records(&log);
        log_loose(&log, i);
        add_records(&log, 9, ACQUIRE, 5);
        log_loose(&log, 6 - i);
        expect_no_balance(log.bytes, log.size, 0, "records elsewhere");
        add_records(&log, 2, RELEASE, 6);
        expect_one_balance(&log, 6, -2, "behind records elsewhere");
    }
}

/* Every value of each of the six bytes, in records of each kind and mode. */
static void test_balance_bytes(void)
{
    static const uint8_t classes[] = { 0, 9, 63 };
    unsigned kind, mode, at, value;
    size_t i;

    for (i = 0; i < sizeof classes; i++) {
        for (kind = ACQUIRE; kind <= EXIT_HARD; kind++) {
            for (mode = 0; mode < (kind <= RELEASE ? 6 : 1); mode++) {
                const uint8_t base[RECORD_SIZE] = {
                    0x4C, 0x4B, (uint8_t)(kind % CORES), (uint8_t)kind,
                    kind <= RELEASE ? classes[i] : 0, (uint8_t)mode };

                for (at = 0; at < RECORD_SIZE; at++) {
                    for (value = 0; value < 256; value++) {
                        uint8_t record[RECORD_SIZE];

                        memcpy(record, base, sizeof record);
                        record[at] = (uint8_t)value;
                        expect_by_rule(record, sizeof record, "one byte");
                    }
                }
            }
        }
    }
}

/* All values of every two of the bytes behind the signature, once. */
static void test_balance_pairs(void)
{
    static const uint8_t bases[][RECORD_SIZE] = {
        { 0x4C, 0x4B, 2, ACQUIRE, 9, 1 }, { 0x4C, 0x4B, 2, RELEASE, 9, 0 } };
    int32_t due[CLASSES], balances[CLASSES];
    unsigned i, first, second, values;

    for (i = 0; i < 2 && sides == GUARD_BOTH; i++) {
        for (first = 2; first < RECORD_SIZE; first++) {
            for (second = first + 1; second < RECORD_SIZE; second++) {
                for (values = 0; values < 65536; values++) {
                    uint8_t record[RECORD_SIZE];

                    memcpy(record, bases[i], sizeof record);
                    record[first] = (uint8_t)(values / 256);
                    record[second] = (uint8_t)(values % 256);
                    memset(balances, FILL, sizeof balances);
                    check(plungerowl_balance(record, sizeof record, balances)
                          == balances_due(record, sizeof record, due)
                          && memcmp(balances, due, sizeof due) == 0,
                          "record %02X %02X %02X %02X", record[2], record[3],
                          record[4], record[5]);
                }
            }
        }
    }
}

/* What counts is what the step does not refuse with 3, whatever else it says of
 * it: one byte of a record, and two. */
static void test_balance_as_step(void)
{
    static const uint8_t bases[][RECORD_SIZE] = {
        { 0x4C, 0x4B, 0, ACQUIRE, 0, 0 }, { 0x4C, 0x4B, 7, ACQUIRE, 40, 4 },
        { 0x4C, 0x4B, 5, RELEASE, 20, 0 }, { 0x4C, 0x4B, 1, EXIT_SOFT, 0, 0 } };
    static const uint8_t values[] = { 0, 1, 5, 8, 0x4C };
    struct buffers b;
    unsigned base, at, value, other;

    make_buffers(&b, 1, 0);
    for (base = 0; base < sizeof bases / sizeof bases[0]; base++) {
        for (at = 0; at < RECORD_SIZE; at++) {
            for (value = 0; value < 256; value++) {
                for (other = 0; other < sizeof values; other++) {
                    uint8_t record[RECORD_SIZE];
                    int32_t due[CLASSES] = { 0 };
                    unsigned is;

                    memcpy(record, bases[base], sizeof record);
                    record[(at + 3) % RECORD_SIZE] = values[other];
                    record[at] = (uint8_t)value;
                    plungerowl_open(1, 0, b.desk.bytes, b.desk.size,
                                    b.sheet.bytes, b.sheet.size,
                                    b.seen.bytes, b.seen.size,
                                    b.history.bytes, b.history.size);
                    is = plungerowl_step(b.desk.bytes, b.desk.size,
                                         b.sheet.bytes, b.sheet.size,
                                         b.seen.bytes, b.seen.size,
                                         b.history.bytes, b.history.size,
                                         b.slip.bytes, b.slip.size,
                                         record, sizeof record);
                    if (is != 3 && record[3] <= RELEASE && record[4] < CLASSES)
                        due[record[4]] = record[3] == ACQUIRE ? 1 : -1;
                    expect_balances(record, sizeof record, 0, due,
                                    "a record that the step gets");
                }
            }
        }
    }
    free_buffers(&b);
}

static void test_balance_cores(void)
{
    static struct log piece;
    unsigned core;

    for (core = 0; core < 256; core++) {
        no_records(&piece);
        log_record(&piece, core, ACQUIRE, 11, TRY + r);
        expect_one_balance(&piece, 11, core < 8 ? 1 : 0, "a core acquires");
        no_records(&piece);
        log_record(&piece, core, RELEASE, 11, TRY + R);
        expect_one_balance(&piece, 11, core < 8 ? -1 : 0, "a core releases");
    }
}

/* Kinds 2 to 12 count for nothing, at class 0 least of all; higher ones are
 * malformed. With every class and mode. */
static void test_balance_kinds(void)
{
    static struct log piece;
    unsigned kind, value, i;

    for (kind = HARD_ON; kind < 256; kind++) {
        no_records(&piece);
        log_record(&piece, 0, kind, 0, 0);
        expect_no_balance(piece.bytes, piece.size, 0, "another kind");
        add_records(&piece, 20, kind, 0);
        add_records(&piece, 3, ACQUIRE, 0);
        expect_one_balance(&piece, 0, 3, "behind other kinds");
        if (kind > 20 && kind % 16 > 1 && kind != 254)
            continue;
        for (value = 0; value < 256; value++) {
            no_records(&piece);
            log_record(&piece, 0, kind, value, 0);
            expect_no_balance(piece.bytes, 6, 0, "another kind, a class");
            no_records(&piece);
            log_record(&piece, 0, kind, value % CLASSES, value);
            expect_no_balance(piece.bytes, 6, 0, "another kind, a mode");
        }
    }
    for (i = 0; i < CLASSES; i++) {
        no_records(&piece);
        add_records(&piece, 5, ACQUIRE, i);
        add_records(&piece, 7, RELEASE, i);
        expect_one_balance(&piece, i, -2, "acquires and releases");
    }
}

/* An acquire has any of six modes, and so has a release. */
static void test_balance_modes(void)
{
    static struct log piece;
    unsigned mode, other, class_;

    for (mode = 0; mode < 256; mode++) {
        for (class_ = 0; class_ < CLASSES; class_ += 21) {
            no_records(&piece);
            log_record(&piece, 3, ACQUIRE, class_, mode);
            expect_one_balance(&piece, class_, mode <= 5 ? 1 : 0,
                               "an acquire with a mode");
            no_records(&piece);
            log_record(&piece, 3, RELEASE, class_, mode);
            expect_one_balance(&piece, class_, mode <= 5 ? -1 : 0,
                               "a release with a mode");
        }
    }

    /* Acquired and released comes out even, whether or not the modes are the
     * same. */
    for (mode = 0; mode < MODES; mode++) {
        for (other = 0; other < MODES; other++) {
            no_records(&piece);
            log_record(&piece, 3, ACQUIRE, 8, mode);
            log_record(&piece, 3, RELEASE, 8, other);
            expect_no_balance(piece.bytes, piece.size, 0,
                              "acquired and released");
        }
    }
}

/* Releases that fit and others count alike: of the newest lock of the class, of
 * an older one, of one of another core, and of none. */
static void test_balance_releases(void)
{
    static struct log piece;
    int32_t due[CLASSES] = { 0 };
    unsigned mode, i;

    for (mode = 0; mode < MODES; mode++) {
        no_records(&piece);
        log_record(&piece, 1, ACQUIRE, 7, E);
        log_record(&piece, 1, ACQUIRE, 7, TRY + R);
        log_record(&piece, 2, ACQUIRE, 7, r);
        log_record(&piece, 1, RELEASE, 7, mode);
        expect_one_balance(&piece, 7, 2, "a release of three");
        log_record(&piece, 1, RELEASE, 7, mode);
        log_record(&piece, 2, RELEASE, 7, mode);
        log_record(&piece, 1, RELEASE, 7, mode);
        expect_one_balance(&piece, 7, -1, "one release too many");
        log_record(&piece, 1, RELEASE, 7, MODES);
        log_record(&piece, 1, HARD_ON, 0, mode);
        log_record(&piece, 1, RELEASE, 64, mode);
        expect_one_balance(&piece, 7, -1, "and what does not count");
    }

    /* Each mode on a class of its own, up to the most records. */
    no_records(&piece);
    for (i = 0; i < MOST_RECORDS; i++) {
        mode = i % MODES;
        log_record(&piece, i % CORES, i < 6000 ? RELEASE : ACQUIRE, 10 + mode,
                   i < 6000 ? mode : TRY - mode % TRY);
        due[10 + mode] += i < 6000 ? -1 : 1;
    }
    expect_balances(piece.bytes, piece.size, 0, due, "each mode, the most");
}

/* 64 classes, each for itself; from 64 on they count for nothing. */
static void test_balance_classes(void)
{
    static struct log piece;
    int32_t due[CLASSES];
    unsigned class_, i;

    for (class_ = 0; class_ < 256; class_++) {
        unsigned at = class_ < CLASSES ? class_ : 0;

        no_records(&piece);
        log_record(&piece, 1, ACQUIRE, class_, r);
        expect_one_balance(&piece, at, class_ < CLASSES ? 1 : 0,
                           "a class acquired");
        no_records(&piece);
        log_record(&piece, 1, RELEASE, class_, TRY + r);
        expect_one_balance(&piece, at, class_ < CLASSES ? -1 : 0,
                           "a class released");
    }

    /* All in one piece, each with a balance of its own. */
    no_records(&piece);
    for (class_ = 0; class_ < 256; class_++) {
        add_records(&piece, class_ % 23 + 1, ACQUIRE, class_);
        add_records(&piece, class_ % 17, RELEASE, class_);
    }
    for (i = 0; i < CLASSES; i++)
        due[i] = (int32_t)(i % 23 + 1) - (int32_t)(i % 17);
    expect_balances(piece.bytes, piece.size, 0, due, "every class");
    no_records(&piece);
    for (class_ = CLASSES; class_ < 256; class_++)
        add_records(&piece, 50, class_ % 2 == 0 ? ACQUIRE : RELEASE, class_);
    expect_no_balance(piece.bytes, piece.size, 0, "classes from 64 on");
    for (class_ = CLASSES; class_ < 256; class_++) {
        no_records(&piece);
        log_record(&piece, 1, ACQUIRE, class_, E);
        log_record(&piece, 1, RELEASE, 3, E);
        log_record(&piece, 1, RELEASE, class_, R);
        log_record(&piece, 1, RELEASE, 3, TRY + E);
        expect_one_balance(&piece, 3, -2, "behind classes from 64 on");
    }
}

/* A malformed record at each place among others, and two of them: it is passed
 * over, and what is before and behind it counts. */
static void test_balance_malformed(void)
{
    static struct log piece;
    unsigned sort, place, second, i;

    for (sort = 0; sort < SORTS; sort++) {
        no_records(&piece);
        add_malformed(&piece, sort);
        expect_no_balance(piece.bytes, piece.size, 0, "malformed alone");
        add_malformed(&piece, (sort + 1) % SORTS);
        expect_no_balance(piece.bytes, piece.size, 0, "two malformed alone");
        for (place = 0; place < 7; place++) {
            for (second = place; second < 7; second++) {
                int32_t due[CLASSES] = { 0 };

                no_records(&piece);
                for (i = 0; i < 7; i++) {
                    if (i == place || i == second) {
                        add_malformed(&piece, (sort + i - place) % SORTS);
                        continue;
                    }
                    log_record(&piece, i, i % 3 == 2 ? RELEASE : ACQUIRE,
                               2 + i, (sort + i) % MODES);
                    due[2 + i] = i % 3 == 2 ? -1 : 1;
                }
                expect_balances(piece.bytes, piece.size, 0, due,
                                "malformed among others");
            }
        }
    }
}

/* So in the longest piece: one malformed record, or one that is not. */
static void test_balance_malformed_long(void)
{
    static const unsigned places[] = { 0, 1, 255, 256, 682, 683, 4095, 4096,
                                       8191, 8192, 9998, 9999 };
    static struct log piece;
    unsigned i;

    for (i = 0; i < sizeof places / sizeof places[0]; i++) {
        const unsigned before = places[i], behind = 9999 - before;
        unsigned j;

        no_records(&piece);
        add_records(&piece, before, ACQUIRE, 5);
        add_malformed(&piece, i % SORTS);
        add_records(&piece, behind, ACQUIRE, 5);
        expect_one_balance(&piece, 5, 9999, "one malformed of many");
        no_records(&piece);
        for (j = 0; j < before; j++)
            add_malformed(&piece, j % SORTS);
        log_record(&piece, 7, RELEASE, 62, R);
        for (j = 0; j < behind; j++)
            add_malformed(&piece, j % SORTS);
        expect_one_balance(&piece, 62, -1, "many malformed");
    }
}

/* Balances of each size, up and down, at the first class, the last, others. */
static void test_balance_numbers(void)
{
    static const unsigned numbers[] = {
        1, 2, 3, 19, 20, 21, 47, 48, 49, 63, 64, 65, 126, 127, 128, 129, 254,
        255, 256, 257, 511, 512, 1023, 1024, 2047, 2048, 2049, 4094, 4095, 4096,
        4097, 8190, 8191, 8192, 8193, 9998, 9999, 10000 };
    static const unsigned classes[] = { 0, 17, 63 };
    static struct log piece;
    unsigned i, c;

    for (i = 0; i < sizeof numbers / sizeof numbers[0]; i++) {
        const int32_t n = (int32_t)numbers[i];

        for (c = 0; c < sizeof classes / sizeof classes[0]; c++) {
            no_records(&piece);
            add_records(&piece, numbers[i], ACQUIRE, classes[c]);
            expect_one_balance(&piece, classes[c], n, "many acquires");
            no_records(&piece);
            add_records(&piece, numbers[i], RELEASE, classes[c]);
            expect_one_balance(&piece, classes[c], -n, "many releases");
        }
    }
}

/* 10,000 of every class, up and down; 9,999 and one back; half and half. */
static void test_balance_most(void)
{
    static struct log piece;
    unsigned c;

    for (c = 0; c < CLASSES; c++) {
        no_records(&piece);
        add_records(&piece, MOST_RECORDS, c % 2, c);
        expect_one_balance(&piece, c, c % 2 == ACQUIRE ? 10000 : -10000,
                           "the most");
    }
    no_records(&piece);
    add_records(&piece, 9999, ACQUIRE, 63);
    add_records(&piece, 1, RELEASE, 63);
    expect_one_balance(&piece, 63, 9998, "one back");
    no_records(&piece);
    add_records(&piece, 1, ACQUIRE, 0);
    add_records(&piece, 9999, RELEASE, 0);
    expect_one_balance(&piece, 0, -9998, "one before");
    no_records(&piece);
    add_records(&piece, 5000, ACQUIRE, 31);
    add_records(&piece, 5000, RELEASE, 31);
    expect_no_balance(piece.bytes, piece.size, 0, "half and half");
    no_records(&piece);
    add_records(&piece, 5000, ACQUIRE, 0);
    add_records(&piece, 5000, RELEASE, 63);
    expect_by_rule(piece.bytes, piece.size, "half up and half down");
    log_record(&piece, 0, ACQUIRE, 0, 0);
    expect_no_balance(piece.bytes, piece.size, 14, "one too many");
}

/* The order of the records is nothing to the sums. */
static void test_balance_order(void)
{
    static const struct {
        unsigned first, acquires, then;
    } cases[] = { { 1, 1, 0 }, { 0, 1, 1 }, { 1, 2, 0 }, { 2, 1, 0 },
                  { 1, 1, 1 }, { 100, 30, 0 }, { 30, 100, 0 }, { 30, 0, 100 },
                  { 5000, 5000, 0 }, { 2500, 5000, 2500 }, { 200, 300, 200 },
                  { 6000, 4000, 0 }, { 4000, 6000, 0 }, { 0, 4000, 6000 } };
    static struct log piece;
    unsigned i, j;

    for (i = 0; i < sizeof cases / sizeof cases[0]; i++) {
        no_records(&piece);
        add_records(&piece, cases[i].first, RELEASE, 12);
        add_records(&piece, cases[i].acquires, ACQUIRE, 12);
        add_records(&piece, cases[i].then, RELEASE, 12);
        expect_one_balance(&piece, 12, (int32_t)cases[i].acquires
                           - (int32_t)(cases[i].first + cases[i].then),
                           "releases first");
    }

    /* Two classes against each other, one record in turn. */
    no_records(&piece);
    for (j = 0; j < 5000; j++) {
        log_record(&piece, 0, RELEASE, 12, j % MODES);
        log_record(&piece, 1, ACQUIRE, 13, E);
    }
    expect_by_rule(piece.bytes, piece.size, "two classes in turn");
    no_records(&piece);
    for (j = 0; j < 3000; j++) {
        log_record(&piece, 0, RELEASE, 12, E);
        log_record(&piece, 1, ACQUIRE, 12, E);
        log_record(&piece, 2, RELEASE, 12, r);
    }
    expect_one_balance(&piece, 12, -3000, "back and forth");
}

/* Whether a desk would accept a record is not asked. */
static void test_balance_not_accepted(void)
{
    static struct log piece;
    unsigned i;

    for (i = 19; i <= 51; i++) { /* 8 from the 49th on */
        no_records(&piece);
        while (piece.size < 6 * i)
            log_record(&piece, 0, ACQUIRE, 4, R);
        expect_one_balance(&piece, 4, (int32_t)i, "a frame that is full");
    }
    while (piece.size < 6 * 300)
        log_record(&piece, 0, ACQUIRE, 4, TRY + E);
    expect_one_balance(&piece, 4, 300, "a frame that is long full");

    no_records(&piece); /* 5: not held, by nobody, elsewhere, in a handler */
    log_record(&piece, 0, RELEASE, 3, E);
    log_record(&piece, 0, ACQUIRE, 3, E);
    log_record(&piece, 1, RELEASE, 3, E);
    log_record(&piece, 0, ENTER_HARD, 0, 0);
    log_record(&piece, 0, RELEASE, 3, E);
    expect_one_balance(&piece, 3, -2, "releases of what is not held");

    no_records(&piece); /* 5: the newest is held in another mode */
    log_record(&piece, 0, ACQUIRE, 3, E);
    log_record(&piece, 0, ACQUIRE, 3, TRY + R);
    log_record(&piece, 0, RELEASE, 3, E);
    log_record(&piece, 0, RELEASE, 3, R);
    log_record(&piece, 0, RELEASE, 3, TRY + E);
    expect_one_balance(&piece, 3, -1, "releases in another mode");

    no_records(&piece); /* 6 */
    log_record(&piece, 0, EXIT_HARD, 0, 0);
    log_record(&piece, 0, ACQUIRE, 3, E);
    log_record(&piece, 0, EXIT_SOFT, 0, 0);
    log_record(&piece, 0, ACQUIRE, 3, E);
    expect_one_balance(&piece, 3, 2, "events that are not allowed");

    no_records(&piece); /* 7 */
    log_record(&piece, 0, ENTER_SOFT, 0, 0);
    log_record(&piece, 0, ACQUIRE, 3, E);
    log_record(&piece, 0, EXIT_SOFT, 0, 0);
    log_record(&piece, 0, ACQUIRE, 3, R);
    expect_one_balance(&piece, 3, 2, "an exit with a held lock");

    no_records(&piece); /* 1, and 10 behind it */
    log_record(&piece, 0, ACQUIRE, 60, E);
    log_record(&piece, 0, ACQUIRE, 61, E);
    log_record(&piece, 1, ACQUIRE, 61, E);
    log_record(&piece, 1, ACQUIRE, 60, E);
    log_record(&piece, 1, RELEASE, 61, E);
    log_record(&piece, 0, RELEASE, 61, E);
    log_record(&piece, 0, ACQUIRE, 60, E);
    expect_one_balance(&piece, 60, 3, "behind a fault");

    no_records(&piece); /* 1 by one class, at once */
    add_records(&piece, 16, ACQUIRE, 63);
    expect_one_balance(&piece, 63, 16, "one class over itself");
}

static void add_random_record(struct log *piece, unsigned classes)
{
    unsigned kind = below(2), class_ = below(classes);

    switch (below(8)) {
    case 0: add_malformed(piece, below(SORTS)); break;
    case 1: log_record(piece, below(9), below(14), below(2), below(2)); break;
    case 2: log_record(piece, below(CORES), kind, class_, below(8)); break;
    case 3: log_record(piece, below(CORES), kind, below(256), 0); break;
    default:
        log_record(piece, below(CORES), kind, class_, below(MODES));
        break;
    }
}

/* Pieces of any length up to the most, with few classes or with all. */
static void test_balance_random(void)
{
    static struct log piece;
    unsigned i;

    seed = 20261116;
    for (i = 0; i < 400; i++) {
        size_t records = i % 20 == 0 ? MOST_RECORDS
                         : i % 20 == 1 ? below(MOST_RECORDS + 1) : below(200);
        unsigned classes = i % 3 == 0 ? 2 : CLASSES;

        no_records(&piece);
        while (piece.size < 6 * records)
            add_random_record(&piece, classes);
        expect_by_rule(piece.bytes, piece.size, "a random piece");
    }
    for (i = 0; i < 400; i++) { /* any bytes, any length */
        size_t length = below(i % 40 == 0 ? 65000 : 300);

        no_records(&piece);
        while (piece.size < length)
            log_byte(&piece, below(4) == 0 ? below(256)
                     : piece.size % 6 == 0 ? 0x4C
                     : piece.size % 6 == 1 ? 0x4B : below(3));
        expect_by_rule(piece.bytes, piece.size, "random bytes");
    }
}

/* The balances of the two parts of a piece add up to its own. */
static void expect_joined(const struct log *piece, size_t first,
                          const char *what)
{
    int32_t parts[3][CLASSES];
    const size_t from[] = { 0, 0, 6 * first };
    const size_t to[] = { piece->size, 6 * first, piece->size };
    unsigned i, c;

    for (i = 0; i < 3; i++) {
        const struct guarded *lent = lent_bytes(piece->bytes + from[i],
                                                to[i] - from[i]);

        memset(parts[i], FILL, sizeof parts[i]);
        check(plungerowl_balance(lent->bytes, lent->size, parts[i]) == 0,
              "%s: part %u", what, i);
    }
    for (c = 0; c < CLASSES; c++)
        check(parts[0][c] == parts[1][c] + parts[2][c],
              "%s, cut at %lu: class %u has %" PRId32 ", not %" PRId32 " + %"
              PRId32, what, (unsigned long)first, c, parts[0][c], parts[1][c],
              parts[2][c]);
}

static void test_balance_joined(void)
{
    static const unsigned cuts[] = { 0, 1, 255, 4095, 5000, 8192, 9999, 10000 };
    static struct log piece;
    unsigned i, n;

    seed = 99;
    for (n = 0; n <= 40; n++) {
        no_records(&piece);
        while (piece.size < 6 * n)
            add_random_record(&piece, 5);
        for (i = 0; i <= n; i++)
            expect_joined(&piece, i, "a short piece");
    }
    for (n = 0; n < 2; n++) { /* the second has class 2 down and up */
        no_records(&piece);
        while (n == 0 && piece.size < MOST_BYTES)
            add_random_record(&piece, CLASSES);
        add_records(&piece, 5000 * n, RELEASE, 2);
        add_records(&piece, 5000 * n, ACQUIRE, 2);
        for (i = 0; i < sizeof cuts / sizeof cuts[0]; i++)
            expect_joined(&piece, cuts[i], "the longest piece");
    }

    /* Each of the two within the limit, and both together over it. */
    log_record(&piece, 0, ACQUIRE, 2, E);
    expect_by_rule(piece.bytes, MOST_BYTES, "all but the last");
    expect_by_rule(piece.bytes + 6, MOST_BYTES, "all but the first");
    expect_no_balance(piece.bytes, piece.size, 14, "both together");
}

/* The calls know nothing of each other, nor of those on a desk. */
static void test_balance_again(void)
{
    static struct log one, other, refused;
    struct buffers b;
    unsigned i;

    no_records(&one);
    no_records(&other);
    no_records(&refused);
    add_records(&one, 300, ACQUIRE, 6);
    add_records(&other, 7, RELEASE, 40);
    log_loose(&refused, 5);
    open_buffers(&b, 8, 0);
    for (i = 0; i < 3; i++) {
        expect_one_balance(&one, 6, 300, "again");
        expect_no_balance(refused.bytes, refused.size, 14, "refused again");
        expect_one_balance(&other, 40, -7, "another, behind a refused one");
        expect_step(&b, 0, ACQUIRE, 1 + i, E, 0, "a step between");
        expect_no_balance(one.bytes, 0, 0, "nothing, behind others");
        expect_one_balance(&one, 6, 300, "again, behind a step");
        check_buffers(&b, "behind a balance");
        expect_reach(&b, 7, 0, 0, "asked behind a balance");
    }
    free_buffers(&b);
}

/* The piece may begin anywhere, the balances at every fourth byte. */
static void test_balance_places(void)
{
    static union {
        uint8_t bytes[MOST_BYTES + 64];
        uint64_t aligned;
    } room;
    static union {
        int32_t numbers[CLASSES + 8];
        uint64_t aligned;
    } balances;
    static struct log piece;
    const size_t lengths[] = { 6, 12, 600, MOST_BYTES };
    unsigned at, i, place, c;

    seed = 7;
    no_records(&piece);
    while (piece.size < MOST_BYTES)
        add_random_record(&piece, CLASSES);
    for (at = 0; at < 32; at++) {
        for (i = 0; i < 4; i++) {
            int32_t due[CLASSES];

            balances_due(piece.bytes, lengths[i], due);
            memcpy(room.bytes + at, piece.bytes, lengths[i]);
            place = at % 8;
            memset(balances.numbers, FILL, sizeof balances.numbers);
            check(plungerowl_balance(room.bytes + at, lengths[i],
                                     balances.numbers + place) == 0,
                  "a piece at %u, balances at %u", at, place);
            for (c = 0; c < CLASSES; c++)
                check(balances.numbers[place + c] == due[c],
                      "a piece at %u, balances at %u: class %u", at, place, c);
        }
    }
}

/* The piece is not written, not even for a while. */
static void test_balance_read_only(void)
{
    static struct log log;
    static const size_t lengths[] = { 0, 6, 7, 600, MOST_BYTES,
                                      MOST_BYTES + 1, MOST_BYTES + 6 };
    const size_t most = 16 * 4096;
    struct guarded piece = { NULL, 0, 0, 0 };
    unsigned i;

    no_records(&log);
    add_turns(&log, MOST_RECORDS + 1);
    piece.bytes = mmap(NULL, most, PROT_READ | PROT_WRITE,
                       MAP_PRIVATE | MAP_ANONYMOUS, -1, 0);
    need(piece.bytes != MAP_FAILED);
    memcpy(piece.bytes, log.bytes, log.size);
    need(mprotect(piece.bytes, most, PROT_READ) == 0);
    for (i = 0; i < sizeof lengths / sizeof lengths[0]; i++) {
        int32_t due[CLASSES];
        unsigned answer;

        piece.size = lengths[i];
        answer = balances_due(log.bytes, piece.size, due);
        expect_lent_balance(&piece, NULL, answer, due, "a piece to be read");
    }
    munmap(piece.bytes, most);
}

/* ------------------------------------------------------------- crosslocks */

static void open_cross(struct buffers *b, unsigned k, uint64_t declared,
                       size_t tail)
{
    make_buffers(b, k, tail);
    b->declared = declared;
    expect_open(b, k, 0, "opening with crosslocks");
}

/* What is read off the lent bytes, by the numbers of the format. */
static void check_progress(const struct buffers *b, uint64_t progress,
                           uint32_t kept, const char *what)
{
    uint64_t is = word_at(b->desk.bytes + 1406);

    check(is == progress, "%s: in progress are %" PRIx64 ", not %" PRIx64,
          what, is, progress);
    check_number(b->desk.bytes + 1414, kept, what);
}

static void check_entry(const struct buffers *b, unsigned entry, unsigned place,
                        unsigned lock, const char *what)
{
    const uint8_t *at = b->history.bytes + 2 * entry;

    check(at[0] == place && at[1] == lock,
          "%s: entry %u is %02X %02X, not %02X %02X", what, entry, at[0], at[1],
          place, lock);
}

static void check_kinds(const struct buffers *b, unsigned from, unsigned to,
                        unsigned kinds, const char *what)
{
    unsigned is = b->sheet.bytes[from * b->k + to];

    check(is == kinds, "%s: kinds %u from %u to %u, not %u", what, is, from, to,
          kinds);
}

/* Nothing is drawn from a class. */
static void check_none_from(const struct buffers *b, unsigned from,
                            const char *what)
{
    unsigned to;

    for (to = 0; to < b->k; to++)
        check_kinds(b, from, to, 0, what);
}

/* The first example of docs/FORMATS.md with a crosslock: a completion for which
 * core 0 waits with lock 1 held, and which core 1 signals after it took 1. */
static void expect_completion(size_t tail)
{
    static const uint8_t slip[] = { 2, 1, 2, 0, 2, 0, 0, 0,
                                    3, 2, 0, 4, 0, 0, 0 };
    uint8_t desk[1674] = { 4, 1 }, sheet[16] = { 0 }, seen[64] = { 0 };
    uint8_t history[512] = { 4, 1 };
    struct buffers b;

    desk[10] = desk[13] = 1;
    desk[35] = 0x44;
    desk[98] = desk[242] = 1;
    desk[1394] = 4;
    desk[1398] = desk[1406] = 8;
    desk[1414] = 1;
    sheet[7] = sheet[13] = 2;
    seen[28] = 2;
    seen[52] = 4;
    open_cross(&b, 4, BIT(3), tail);
    expect_step(&b, 0, ACQUIRE, 1, E, 0, "completion, 1E");
    check_progress(&b, 0, 0, "completion, 1E");
    expect_step(&b, 0, CROSS, 3, 0, 0, "completion, crosslock 3");
    check_kinds(&b, 1, 3, PLUNGEROWL_EN, "completion, crosslock 3");
    expect_step(&b, 1, ACQUIRE, 1, E, 0, "completion, core 1, 1E");
    expect_reach(&b, 1, BIT(3), 1, "completion, from 1");
    expect_reach(&b, 3, 0, 0, "completion, from 3");
    expect_step(&b, 1, COMMIT, 3, 0, 1, "completion, commit");
    check(memcmp(b.desk.bytes, desk, sizeof desk) == 0, "completion: desk");
    check(memcmp(b.sheet.bytes, sheet, sizeof sheet) == 0, "completion: sheet");
    check(memcmp(b.seen.bytes, seen, sizeof seen) == 0,
          "completion: second sheet");
    check(memcmp(b.history.bytes, history, sizeof history) == 0,
          "completion: history");
    check_whole_slip(&b, slip, "completion");
    expect_reach(&b, 3, BIT(1) | BIT(3), 2, "completion closed, from 3");
    expect_step(&b, 0, UNCROSS, 3, 0, 10, "completion closed");
    free_buffers(&b);
}

static void test_cross_example(void)
{
    expect_completion(0);
    expect_completion(50);
}

/* The second: a handler visit that ended, a try, and a clean commit. */
static void test_cross_visit_example(void)
{
    struct buffers b;

    open_cross(&b, 4, BIT(3), 0);
    expect_step(&b, 0, CROSS, 3, 0, 0, "visit, crosslock 3");
    check_progress(&b, 8, 0, "visit, crosslock 3");
    expect_step(&b, 1, ENTER_HARD, 0, 0, 0, "visit, enter hard");
    expect_step(&b, 1, ACQUIRE, 2, R, 0, "visit, 2R");
    check_entry(&b, 0, 6, 0x82, "visit, 2R");
    expect_step(&b, 1, RELEASE, 2, R, 0, "visit, release 2R");
    check_entry(&b, 0, 6, 0x82, "visit, release 2R");
    expect_step(&b, 1, EXIT_HARD, 0, 0, 0, "visit, exit hard");
    check_entry(&b, 0, 0, 0, "visit, exit hard");
    check_progress(&b, 8, 1, "visit, exit hard");
    expect_step(&b, 1, ACQUIRE, 1, TRY + E, 0, "visit, try 1E");
    check_progress(&b, 8, 1, "visit, try 1E");
    expect_step(&b, 1, ACQUIRE, 2, R, 0, "visit, 2R in the task");
    check_entry(&b, 1, 4, 0x82, "visit, 2R in the task");
    expect_step(&b, 1, COMMIT, 3, 0, 0, "visit, commit");
    check_kinds(&b, 3, 2, PLUNGEROWL_ER, "visit, commit");
    check_kinds(&b, 3, 1, 0, "visit, commit");
    check_seen(&b, 3, 2, 8, "visit, commit");
    check_progress(&b, 8, 2, "visit, commit");
    expect_step(&b, 0, UNCROSS, 3, 0, 0, "visit, release of the crosslock");
    check_progress(&b, 0, 0, "visit, release of the crosslock");
    check_entry(&b, 1, 4, 0x82, "visit, release of the crosslock");
    expect_step(&b, 0, UNCROSS, 3, 0, 17, "visit, once more");
    expect_step(&b, 0, COMMIT, 3, 0, 17, "visit, a commit behind it");
    free_buffers(&b);
}

/* A word declares classes below K only, whatever else is right; 0 is a word as
 * any other. */
static void test_cross_open(void)
{
    static const uint64_t words[] = { 1, 2, 0x80, 0x0102030405060708, BIT(31),
                                      BIT(32), BIT(62), BIT(63), UINT64_MAX };
    struct buffers b;
    unsigned k, i;

    for (k = 1; k <= 64; k++) {
        make_buffers(&b, k, k % 3);
        for (i = 0; i < 64; i++) {
            b.declared = BIT(i);
            expect_open(&b, k, i < k ? 0 : 2, "one crosslock");
            b.declared = BIT(i) | 1;
            expect_open(&b, k, i < k ? 0 : 2, "one crosslock and class 0");
        }
        for (i = 0; i < sizeof words / sizeof words[0]; i++) {
            b.declared = words[i];
            expect_open(&b, k, k == 64 || words[i] >> k == 0 ? 0 : 2, "a word");
        }
        b.declared = UINT64_MAX >> (64 - k);
        expect_open(&b, k, 0, "all classes are crosslocks");
        check(word_at(b.desk.bytes + 1398) == UINT64_MAX >> (64 - k),
              "all classes are crosslocks: the word");
        b.declared = 0;
        expect_open(&b, k, 0, "no crosslocks");
        free_buffers(&b);
    }
    make_buffers(&b, 64, 0);
    for (i = 0; i < 512; i++) {
        b.declared = BIT(i % 64);
        expect_open_all(&b, 64, b.desk.size, b.sheet.size, b.seen.size, i, 2,
                        "open, short history");
    }
    b.declared = BIT(8);
    expect_open(&b, 8, 2, "open, a crosslock of class K");
    expect_open(&b, 65, 2, "open, K and crosslocks");
    expect_open(&b, 0, 2, "open, no K");
    b.declared = BIT(63);
    expect_open(&b, UINT64_C(0x100000040), 2, "open, K of more bits");
    free_buffers(&b);
    for (i = 0; i < 512; i += i < 20 || i > 490 ? 1 : 31) {
        make_all(&b, 8, 1674, 64, 256, i, 57);
        expect_open(&b, 8, 2, "open, a history that is short");
        free_buffers(&b);
    }
    make_all(&b, 8, 1674, 64, 256, 70000, 57);
    b.declared = 255;
    expect_open(&b, 8, 0, "open, a long history");
    free_buffers(&b);
}

/* A step needs 512 bytes, and no more are looked at; a question needs none. */
static void test_cross_lengths(void)
{
    static const uint8_t records[][6] = {
        { 0x4C, 0x4B, 0, HARD_ON, 0, 0 }, { 0x4C, 0x4B, 0, CROSS, 7, 0 },
        { 0x4C, 0x4B, 9, 99, 99, 99 } };
    struct buffers b;
    unsigned i, j, is;

    open_cross(&b, 8, BIT(7), 0);
    for (i = 0; i < 512; i++) {
        for (j = 0; j < 3; j++) {
            is = call_step(&b, 1674, 64, 256, i, 57, records[j], 6,
                           "short history");
            check(is == 11, "short history: step answers %u", is);
            check_buffers(&b, "short history");
        }
    }
    put_desk(&b, CLOSED_AT, 1);
    is = call_step(&b, 1674, 64, 256, 511, 57, records[0], 6, "short history");
    check(is == 11, "short history, 11 before 10: step answers %u", is);
    free_buffers(&b);
    for (i = 0; i < 512; i += i < 9 || i > 500 ? 1 : 37) {
        make_all(&b, 8, 1674, 64, 256, i, 57);
        memset(b.desk.bytes, 0, 1674);
        memset(b.want_desk.bytes, 0, 1674);
        put_desk(&b, 0, 8);
        memset(b.sheet.bytes, 0, 64);
        memset(b.want_sheet.bytes, 0, 64);
        memset(b.seen.bytes, 0, 256);
        memset(b.want_seen.bytes, 0, 256);
        expect_step(&b, 0, HARD_ON, 0, 0, 11, "a history that is short");
        expect_step(&b, 0, CROSS, 0, 0, 11, "a history that is short");
        expect_no_reach(&b, 0, 0, "a history that is short, ask");
        put_entries(&b, KEPT_AT, 256);
        expect_no_reach(&b, 0, 0, "256 of a short history, ask");
        free_buffers(&b);
    }
    /* Longer, with anything behind it and behind what is kept. */
    make_all(&b, 8, 1674, 64, 256, 512 + 333, 57);
    b.declared = BIT(7);
    expect_open(&b, 8, 0, "a longer history");
    for (i = 0; i < 512; i++)
        b.history.bytes[i] = b.want_history.bytes[i] = 255;
    expect_step(&b, 0, CROSS, 7, 0, 0, "any bytes that are not kept");
    for (i = 0; i < 256; i++) {
        expect_step(&b, i % 8, ACQUIRE, i % 7, R, 0, "each is written once");
        expect_step(&b, i % 8, RELEASE, i % 7, R, 0, "and stays");
    }
    expect_step(&b, 0, ACQUIRE, 1, R, 19, "a longer history keeps no more");
    expect_step(&b, 5, COMMIT, 7, 0, 0, "a longer history, commit");
    free_buffers(&b);
}

/* Kinds 10 to 12 have mode 0; 3 begins at kind 13, and 4 covers them. */
static void test_cross_refusal_3(void)
{
    uint8_t record[LONGEST_RECORD] = { 0x4C, 0x4B, 0, CROSS, 3, 0, 0x4C, 0x4B };
    struct buffers b;
    unsigned kind, i;

    open_cross(&b, 8, BIT(3) | BIT(4), 5);
    expect_step(&b, 0, ACQUIRE, 1, E, 0, "1E");
    expect_step(&b, 0, CROSS, 4, 0, 0, "crosslock 4");
    for (kind = CROSS; kind <= UNCROSS; kind++) {
        for (i = 1; i < 256; i++) {
            expect_step(&b, 0, kind, 3, i, 3, "a mode");
            expect_step(&b, 0, kind, 4, i, 3, "a mode, in progress");
        }
        for (i = 8; i < 256; i++) {
            expect_step(&b, 0, kind, i, 0, 4, "class K or more");
            expect_step(&b, 0, kind, i, 1, 3, "3 before 4");
            expect_step(&b, i, kind, 4, 0, 3, "core over 7");
        }
        record[3] = (uint8_t)kind;
        for (i = 0; i <= sizeof record; i++)
            if (i != 6)
                expect_bytes(&b, record, i, 3, "a wrong length");
    }
    for (kind = 13; kind < 256; kind++) {
        expect_step(&b, 0, kind, 3, 0, 3, "kind over 12");
        expect_step(&b, 0, kind, 0, 0, 3, "kind over 12, class 0");
    }
    for (kind = HARD_ON; kind <= EXIT_HARD; kind++)
        expect_step(&b, 0, kind, 4, 0, 3, "an event with a crosslock");
    free_buffers(&b);
}

/* 15: of every class and word, right behind 4 and before all that follow. */
static void test_cross_sorts(void)
{
    static const uint64_t words[] = { 0, 1, BIT(63), BIT(31), BIT(32) | BIT(8),
                                      0xFF00FF00FF00FF00, UINT64_MAX };
    struct buffers b;
    unsigned i, class_, mode, kind;

    for (i = 0; i < sizeof words / sizeof words[0]; i++) {
        open_cross(&b, 64, words[i], 0);
        for (class_ = 0; class_ < 64; class_++) {
            if (words[i] & BIT(class_)) {
                for (mode = 0; mode < MODES; mode++) {
                    expect_step(&b, 0, ACQUIRE, class_, mode, 15,
                                "a crosslock as a lock");
                    expect_step(&b, 7, RELEASE, class_, mode, 15,
                                "15 before 5");
                }
                expect_step(&b, 1, CROSS, class_, 0, 0, "a crosslock");
                expect_step(&b, 2, COMMIT, class_, 0, 0, "its commit");
                expect_step(&b, 3, ACQUIRE, class_, TRY + R, 15,
                            "a crosslock in progress as a lock");
                expect_step(&b, 3, UNCROSS, class_, 0, 0, "its release");
            } else {
                for (kind = CROSS; kind <= UNCROSS; kind++) {
                    expect_step(&b, 0, kind, class_, 0, 15,
                                "a lock as a crosslock");
                    expect_step(&b, 0, kind, class_, 1, 3, "3 before 15");
                }
                expect_step(&b, 1, ACQUIRE, class_, class_ % MODES, 0,
                            "a lock");
                expect_step(&b, 1, CROSS, class_, 0, 15, "a held lock");
                expect_step(&b, 1, RELEASE, class_, class_ % MODES, 0,
                            "its release");
            }
        }
        free_buffers(&b);
    }
}

/* With a frame that is full, a full history, a full list and a full count. */
static void test_cross_order(void)
{
    struct buffers b;
    unsigned i, full;

    open_cross(&b, 64, UINT64_MAX - 7, 0);
    for (i = 0; i < 48; i++)
        expect_step(&b, 0, ACQUIRE, 1, R, 0, "fill the frame");
    for (i = 8; i < 24; i++)
        expect_step(&b, 1, CROSS, i, 0, 0, "fill the list");
    for (i = 0; i < 256; i++) {
        expect_step(&b, 2, ACQUIRE, 2, R, 0, "fill the history");
        expect_step(&b, 2, RELEASE, 2, R, 0, "and give it back");
    }
    for (full = 0; full < 2; full++) {
        put_count(&b, full ? UINT32_MAX : 1000);
        expect_step(&b, 0, ACQUIRE, 8, E, 15, "15 before 8 and 19");
        expect_step(&b, 0, ACQUIRE, 8, TRY + E, 15, "15 before 8");
        expect_step(&b, 0, RELEASE, 8, E, 15, "15 before 5");
        expect_step(&b, 0, CROSS, 1, 0, 15, "15 before 18");
        expect_step(&b, 0, COMMIT, 1, 0, 15, "15 before 17");
        expect_step(&b, 0, UNCROSS, 2, 0, 15, "15 before 17");
        expect_step(&b, 0, CROSS, 64, 0, 4, "4 before 15");
        expect_step(&b, 0, ACQUIRE, 64, E, 4, "4 before 15");
        expect_step(&b, 0, CROSS, 8, 0, 16, "16 before 18");
        expect_step(&b, 0, CROSS, 23, 0, 16, "16 before 18, the last");
        expect_step(&b, 0, CROSS, 24, 0, 18, "18");
        expect_step(&b, 0, COMMIT, 24, 0, 17, "17, commit");
        expect_step(&b, 0, UNCROSS, 63, 0, 17, "17, release");
        for (i = 0; i < 3; i++) {
            expect_step(&b, 0, ACQUIRE, 0, i, 8, "8 before 19");
            expect_step(&b, 0, ACQUIRE, 0, TRY + i, 8, "8, a try");
            expect_step(&b, 1, ACQUIRE, 0, i, 19, "19");
        }
        expect_step(&b, 0, RELEASE, 0, R, 5, "5");
        expect_step(&b, 0, EXIT_HARD, 0, 0, 6, "6");
        if (full) {
            expect_step(&b, 1, ACQUIRE, 0, TRY + E, 9, "9, a try");
            expect_step(&b, 1, COMMIT, 8, 0, 9, "9, commit");
            expect_step(&b, 1, UNCROSS, 8, 0, 9, "9, crosslock release");
        }
    }
    put_desk(&b, CLOSED_AT, 1);
    for (i = CROSS; i <= UNCROSS; i++) {
        expect_step(&b, 0, i, 1, 0, 10, "10 before 15");
        expect_step(&b, 0, i, 8, 0, 10, "10 before 16");
        expect_step(&b, 0, i, 24, 0, 10, "10 before 17 and 18");
    }
    expect_step(&b, 1, ACQUIRE, 0, E, 10, "10 before 19");
    put_desk(&b, STATES_AT + 7, 9);
    expect_step(&b, 0, CROSS, 8, 0, 11, "11 before all");
    put_desk(&b, STATES_AT + 7, 0);
    put_desk(&b, CLOSED_AT, 0);
    /* 9 alone for a crosslock acquire. */
    put_count(&b, 5);
    expect_step(&b, 1, UNCROSS, 8, 0, 0, "one less");
    put_count(&b, UINT32_MAX);
    expect_step(&b, 1, CROSS, 8, 0, 9, "9, crosslock acquire");
    put_count(&b, UINT32_MAX - 1);
    expect_step(&b, 1, CROSS, 8, 0, 0, "the last that is counted");
    free_buffers(&b);
}

/* In every state and by every core, over frames that are full: never 8, counted
 * as any record, and the frame's locks are marked after it. */
static void test_cross_states(void)
{
    struct buffers b;
    unsigned core, state, mode, kind;

    open_cross(&b, 8, BIT(6) | BIT(7), 0);
    for (core = 0; core < 8; core++) {
        for (state = 0; state < 9; state++) {
            for (mode = 0; mode < MODES; mode++) {
                for (kind = CROSS; kind <= UNCROSS; kind++) {
                    put_desk(&b, STATES_AT + core, state);
                    put_held(&b, core, state, mode, 0);
                    put_word(&b, PROGRESS_AT, kind == CROSS ? 0 : BIT(7));
                    expect_step(&b, core, kind, 7, 0, 0, "in a state");
                    check_byte(&b, 34 + 7, 0, "in a state: no marks");
                }
                put_held(&b, core, 0, mode, 0);
            }
            put_held(&b, core, 0, E, 1);
        }
        put_desk(&b, STATES_AT + core, 0);
    }
    free_buffers(&b);

    open_cross(&b, 64, BIT(63), 0);
    for (state = 0; state < 9; state++) {
        unsigned frame = frame_of(3, state);

        put_desk(&b, STATES_AT + 3, state);
        put_frame(&b, frame, DEPTH, THIRD_TRIES);
        expect_step(&b, 3, CROSS, 63, 0, 0, "over a full frame");
        expect_step(&b, 3, COMMIT, 63, 0, 0, "commit over a full frame");
        expect_step(&b, 3, UNCROSS, 63, 0, 0, "release over a full frame");
        expect_step(&b, 3, ACQUIRE, 1, R, 8, "a lock over a full frame");
        check_byte(&b, 10 + frame, DEPTH, "over a full frame: the depth");
        put_frame(&b, frame, 0, NO_TRIES);
    }
    free_buffers(&b);
}

/* The marks after kinds 10 to 12 may be the fault: a lock that the task holds
 * unmarked, on a desk from elsewhere. A cycle that stands is one too. */
static void test_cross_marks(void)
{
    struct buffers b;
    unsigned kind, way;

    for (kind = CROSS; kind <= UNCROSS; kind++) {
        for (way = 0; way < 4; way++) {
            open_cross(&b, 8, BIT(7), 0);
            put_word(&b, PROGRESS_AT, kind == CROSS ? 0 : BIT(7));
            put_desk(&b, DEPTHS_AT + 6, way < 2);
            put_desk(&b, HELD_AT + DEPTH * 6, way < 2 ? 3 : 0);
            put_desk(&b, MARKS_AT + 3, way == 0 ? 1 : way == 1 ? 16 : 0);
            if (way == 2) {
                put_sheet(&b, 5, 4, PLUNGEROWL_EN);
                put_sheet(&b, 4, 5, PLUNGEROWL_EN);
            } else if (way == 3) {
                put_desk(&b, MARKS_AT + 7, 5); /* of the crosslock itself */
            }
            expect_step(&b, 2, kind, 7, 0, 1, "a fault behind a crosslock");
            free_buffers(&b);
        }
        /* Not by the locks of a frame that was interrupted. */
        open_cross(&b, 8, BIT(7), 0);
        put_word(&b, PROGRESS_AT, kind == CROSS ? 0 : BIT(7));
        put_desk(&b, STATES_AT + 2, 4);
        put_desk(&b, DEPTHS_AT + 6, 1);
        put_desk(&b, HELD_AT + DEPTH * 6, 3);
        put_desk(&b, MARKS_AT + 3, 1);
        expect_step(&b, 2, kind, 7, 0, 0, "an interrupted frame");
        check_byte(&b, 34 + 3, 1, "an interrupted frame: marks");
        free_buffers(&b);
    }
}

/* A crosslock acquire draws from every lock of the current frame, by a try or
 * not: E or S by its mode, and then N. From no other frame, and no core but its
 * own. */
static void test_cross_take(void)
{
    struct buffers b;
    unsigned mode, frame, i, j;

    for (frame = 0; frame < 24; frame++) {
        open_cross(&b, 64, BIT(0) | BIT(63), 0);
        for (i = 0; i < 8; i++)
            put_desk(&b, STATES_AT + i, 8);
        put_desk(&b, STATES_AT + frame / 3, state_for(frame));
        for (i = 0; i < 24; i++) {
            if (!frames_fit[i % 3][b.desk.bytes[STATES_AT + i / 3]])
                continue;
            put_desk(&b, DEPTHS_AT + i, i == frame ? 47 : 2);
            for (j = 0; j < (i == frame ? 47 : 2); j++) {
                mode = (i == frame ? j : i + j) % MODES;
                put_desk(&b, HELD_AT + DEPTH * i + j,
                         (i == frame ? 1 + j : 49 + i % 14 / 2)
                         + 64 * (mode % TRY));
                put_origin(&b, i, j, mode >= TRY);
            }
        }
        expect_step(&b, frame / 3, CROSS, 63, 0, 0, "from every lock");
        for (i = 0; i < 64; i++)
            check_kinds(&b, i, 63, i < 1 || i > 47 ? 0
                        : (i - 1) % 3 == 0 ? PLUNGEROWL_EN : PLUNGEROWL_SN,
                        "from every lock");
        check_none_from(&b, 63, "from every lock");
        check_byte(&b, 10 + frame, 47, "from every lock: the depth");
        expect_step(&b, frame / 3, CROSS, 0, 0, 0, "and to another crosslock");
        check_kinds(&b, 63, 0, 0, "no crosslock to a crosslock");
        check_kinds(&b, 0, 63, 0, "no crosslock to a crosslock");
        free_buffers(&b);
    }
    /* The same lock in two modes, and once more: kinds add up. */
    open_cross(&b, 8, BIT(7), 0);
    expect_step(&b, 0, ACQUIRE, 1, TRY + r, 0, "try 1r");
    expect_step(&b, 0, CROSS, 7, 0, 0, "1 SN 7");
    check_kinds(&b, 1, 7, PLUNGEROWL_SN, "1 SN 7");
    expect_step(&b, 0, UNCROSS, 7, 0, 0, "released");
    expect_step(&b, 0, RELEASE, 1, TRY + r, 0, "release try 1r");
    expect_step(&b, 0, ACQUIRE, 1, TRY + E, 0, "try 1E");
    expect_step(&b, 0, CROSS, 7, 0, 0, "1 EN 7");
    check_kinds(&b, 1, 7, PLUNGEROWL_SN | PLUNGEROWL_EN, "1 EN 7");
    check_seen(&b, 1, 7, 2, "1 EN 7");
    free_buffers(&b);
}

/* A commit draws to each kept acquire of its core and frame: EN, or ER for a
 * recursive read, released or not. */
static void test_cross_commit(void)
{
    struct buffers b;
    unsigned mode, released;

    for (released = 0; released < 2; released++) {
        open_cross(&b, 16, BIT(15) | BIT(14), 3);
        expect_step(&b, 0, ACQUIRE, 13, R, 0, "before the crosslock");
        expect_step(&b, 4, CROSS, 15, 0, 0, "the crosslock");
        for (mode = 0; mode < MODES; mode++) {
            expect_step(&b, 0, ACQUIRE, mode, mode, 0, "an acquire");
            if (released)
                expect_step(&b, 0, RELEASE, mode, mode, 0, "its release");
            expect_step(&b, 3, ACQUIRE, 6, R, 0, "another core's");
        }
        check_progress(&b, BIT(15), 9, "kept");
        expect_step(&b, 0, ENTER_SOFT, 0, 0, 0, "enter soft");
        expect_step(&b, 0, COMMIT, 15, 0, 0, "commit in a handler");
        check_none_from(&b, 15, "commit in a handler");
        expect_step(&b, 0, ACQUIRE, 7, r, 0, "7r in the handler");
        expect_step(&b, 0, RELEASE, 7, r, 0, "its release");
        expect_step(&b, 0, COMMIT, 15, 0, 0, "commit in a handler");
        check_kinds(&b, 15, 7, PLUNGEROWL_EN, "commit in a handler");
        expect_step(&b, 0, EXIT_SOFT, 0, 0, 0, "exit soft");
        expect_step(&b, 5, COMMIT, 15, 0, 0, "commit by an idle core");
        check_kinds(&b, 15, 0, 0, "commit by an idle core");
        expect_step(&b, 0, COMMIT, 15, 0, 0, "commit by the core");
        for (mode = 0; mode < 14; mode++)
            check_kinds(&b, 15, mode, mode < R || mode == 7 ? PLUNGEROWL_EN
                        : mode == R ? PLUNGEROWL_ER : 0, "commit by the core");
        check_kinds(&b, 15, 14, 0, "no other crosslock");
        check_kinds(&b, 15, 15, 0, "nor itself");
        check_progress(&b, BIT(15), 10, "a commit ends nothing");
        expect_step(&b, 0, COMMIT, 15, 0, 0, "commit again");
        expect_step(&b, 3, COMMIT, 15, 0, 0, "commit by the other core");
        check_kinds(&b, 15, 6, PLUNGEROWL_ER, "commit by the other core");
        check_progress(&b, BIT(15), 10, "commits end nothing");
        free_buffers(&b);
    }
    /* A release does not commit; any core may release. */
    open_cross(&b, 8, BIT(7), 0);
    expect_step(&b, 0, CROSS, 7, 0, 0, "crosslock 7");
    expect_step(&b, 1, ACQUIRE, 1, E, 0, "core 1, 1E");
    expect_step(&b, 1, UNCROSS, 7, 0, 0, "core 1 releases it");
    check_none_from(&b, 7, "a release draws nothing");
    expect_step(&b, 1, COMMIT, 7, 0, 17, "no longer in progress");
    free_buffers(&b);
}

/* In each frame of each core: what was acquired in that frame, and no other. */
static void test_cross_frames(void)
{
    struct buffers b;
    unsigned frame, i;

    for (frame = 0; frame < 24; frame++) {
        open_cross(&b, 25, BIT(24), 0);
        put_word(&b, PROGRESS_AT, BIT(24));
        put_entries(&b, KEPT_AT, 256);
        for (i = 0; i < 256; i++)
            put_entry(&b, i, 1 + i % 24, i % 24 + 64 * (i / 24 % 3));
        put_desk(&b, STATES_AT + frame / 3, state_for(frame));
        expect_step(&b, frame / 3, COMMIT, 24, 0, 0, "a frame's own");
        for (i = 0; i < 24; i++)
            check_kinds(&b, 24, i, i == frame ? PLUNGEROWL_EN | PLUNGEROWL_ER
                                              : 0, "a frame's own");
        free_buffers(&b);
    }
}

/* Only what came since the crosslock's own last acquire. Others that are in
 * progress keep the history. */
static void test_cross_since(void)
{
    struct buffers b;
    unsigned i;

    open_cross(&b, 16, BIT(13) | BIT(14) | BIT(15), 0);
    expect_step(&b, 0, ACQUIRE, 0, E, 0, "not kept");
    expect_step(&b, 7, CROSS, 13, 0, 0, "crosslock 13");
    expect_step(&b, 0, ACQUIRE, 1, E, 0, "kept first");
    expect_step(&b, 7, CROSS, 14, 0, 0, "crosslock 14");
    expect_step(&b, 0, ACQUIRE, 2, E, 0, "kept second");
    expect_step(&b, 7, CROSS, 15, 0, 0, "crosslock 15");
    expect_step(&b, 0, ACQUIRE, 3, E, 0, "kept third");
    for (i = 0; i < 3; i++)
        check_number(b.desk.bytes + 1418 + 4 * (13 + i), i, "since");
    expect_step(&b, 0, COMMIT, 15, 0, 0, "commit 15");
    expect_step(&b, 0, COMMIT, 14, 0, 0, "commit 14");
    expect_step(&b, 0, COMMIT, 13, 0, 0, "commit 13");
    for (i = 0; i < 12; i++) {
        unsigned kept = i >= 1 && i <= 3;

        check_kinds(&b, 13, i, kept ? 2 : 0, "since 13");
        check_kinds(&b, 14, i, kept && i > 1 ? 2 : 0, "since 14");
        check_kinds(&b, 15, i, kept && i > 2 ? 2 : 0, "since 15");
    }
    /* Acquired again: from then on. */
    expect_step(&b, 7, UNCROSS, 14, 0, 0, "release 14");
    check_number(b.desk.bytes + 1418 + 4 * 14, 1, "a since number stays");
    expect_step(&b, 0, ACQUIRE, 4, E, 0, "kept fourth");
    expect_step(&b, 7, CROSS, 14, 0, 0, "crosslock 14 again");
    check_number(b.desk.bytes + 1418 + 4 * 14, 4, "since again");
    expect_step(&b, 0, ACQUIRE, 5, E, 0, "kept fifth");
    expect_step(&b, 0, COMMIT, 14, 0, 0, "commit 14 again");
    check_kinds(&b, 14, 4, 0, "since again");
    check_kinds(&b, 14, 5, 2, "since again");
    free_buffers(&b);
}

/* 16 are in progress at most, each once; which they are does not matter. */
static void test_cross_list(void)
{
    struct buffers b;
    unsigned step, i, j;

    for (step = 1; step < 64; step += 2) {
        open_cross(&b, 64, UINT64_MAX, 0);
        for (i = 0; i < 16; i++) {
            expect_step(&b, i % 8, CROSS, i * step % 64, 0, 0, "one more");
            expect_step(&b, i % 8, CROSS, i * step % 64, 0, 16, "twice");
        }
        for (i = 16; i < 64; i++) {
            expect_step(&b, 0, CROSS, i * step % 64, 0, 18, "the 17th");
            expect_step(&b, 0, COMMIT, i * step % 64, 0, 17, "not in it");
            expect_step(&b, 0, UNCROSS, i * step % 64, 0, 17, "not in it");
        }
        for (i = 0; i < 16; i++) {
            j = (i * 5 + 3) % 16;
            expect_step(&b, 1, UNCROSS, j * step % 64, 0, 0, "one less");
            expect_step(&b, 1, CROSS, (16 + i) * step % 64, 0, 0, "room again");
            expect_step(&b, 1, CROSS, j * step % 64, 0, 18, "full again");
        }
        for (i = 16; i < 32; i++)
            expect_step(&b, 6, UNCROSS, i * step % 64, 0, 0, "all out");
        check_progress(&b, 0, 0, "all out");
        free_buffers(&b);
    }
}

/* Kept are acquires that are no tries, of all cores and frames, while one is in
 * progress. Releasing one of two frees nothing; the last empties it. */
static void test_cross_kept(void)
{
    struct buffers b;
    unsigned core, mode, i;

    open_cross(&b, 8, BIT(6) | BIT(7), 0);
    expect_step(&b, 0, ACQUIRE, 1, R, 0, "not kept");
    check_progress(&b, 0, 0, "not kept");
    expect_step(&b, 0, CROSS, 7, 0, 0, "crosslock 7");
    expect_step(&b, 0, CROSS, 6, 0, 0, "crosslock 6");
    check_progress(&b, BIT(6) | BIT(7), 0, "crosslocks are not kept");
    for (core = 0; core < 8; core++) {
        for (mode = 0; mode < MODES; mode++) {
            expect_step(&b, core, ACQUIRE, core % 6, mode, 0, "any mode");
            expect_step(&b, core, RELEASE, core % 6, mode, 0, "its release");
        }
        expect_step(&b, core, SOFT_OFF, 0, 0, 0, "an event");
        check_progress(&b, BIT(6) | BIT(7), 3 * (core + 1), "any mode");
    }
    for (i = 0; i < 24; i++)
        check_entry(&b, i, 1 + 3 * (i / 3), i / 3 % 6 + 64 * (i % 3), "kept");
    expect_step(&b, 3, UNCROSS, 7, 0, 0, "one of two");
    check_progress(&b, BIT(6), 24, "one of two");
    expect_step(&b, 3, ACQUIRE, 5, E, 0, "still kept");
    check_entry(&b, 24, 10, 5, "still kept");
    expect_step(&b, 3, UNCROSS, 6, 0, 0, "the last");
    check_progress(&b, 0, 0, "the last");
    for (i = 0; i < 24; i++)
        check_entry(&b, i, 1 + 3 * (i / 3), i / 3 % 6 + 64 * (i % 3), "stays");
    check_entry(&b, 24, 10, 5, "stays");
    expect_step(&b, 3, ACQUIRE, 4, E, 0, "not kept any more");
    check_progress(&b, 0, 0, "not kept any more");
    expect_step(&b, 2, CROSS, 7, 0, 0, "crosslock 7 again");
    expect_step(&b, 4, ACQUIRE, 3, R, 0, "from the first on");
    check_entry(&b, 0, 13, 3 + 128, "from the first on");
    check_entry(&b, 1, 1, 64, "from the first on");
    expect_step(&b, 1, COMMIT, 7, 0, 0, "what is not kept any more");
    check_none_from(&b, 7, "what is not kept any more");
    free_buffers(&b);
}

/* 256 are kept, and not one more: 19, and the lock is not held. Tries pass, and
 * so does all that is not kept. */
static void test_cross_full(void)
{
    struct buffers b;
    unsigned i, mode;

    open_cross(&b, 64, BIT(61) | BIT(62) | BIT(63), 7);
    expect_step(&b, 0, CROSS, 63, 0, 0, "crosslock 63");
    for (i = 0; i < 256; i++) {
        if (i == 200)
            expect_step(&b, 0, CROSS, 62, 0, 0, "crosslock 62");
        expect_step(&b, i % 8, ACQUIRE, i % 60, R, 0, "one more kept");
        expect_step(&b, i % 8, RELEASE, i % 60, R, 0, "one more released");
        check_progress(&b, i < 200 ? BIT(63) : BIT(63) | BIT(62), i + 1,
                       "one more kept");
        check_entry(&b, i, 1 + 3 * (i % 8), i % 60 + 128, "one more kept");
    }
    for (mode = 0; mode < MODES; mode++) {
        expect_step(&b, 0, ACQUIRE, 60, mode, mode < TRY ? 19 : 0, "the 257th");
        expect_step(&b, 0, RELEASE, 60, mode, mode < TRY ? 5 : 0,
                    "its release");
    }
    expect_step(&b, 0, ENTER_HARD, 0, 0, 0, "an event");
    expect_step(&b, 0, ACQUIRE, 60, E, 19, "the 257th in a handler");
    expect_step(&b, 0, EXIT_HARD, 0, 0, 0, "no lock is held there");
    /* Since 256: nothing. */
    expect_step(&b, 0, CROSS, 61, 0, 0, "crosslock 61");
    check_number(b.desk.bytes + 1418 + 4 * 61, 256, "since 256");
    for (i = 0; i < 8; i++)
        expect_step(&b, i, COMMIT, 61, 0, 0, "commit since 256");
    check_none_from(&b, 61, "commit since 256");
    expect_step(&b, 7, COMMIT, 62, 0, 0, "commit since 200");
    expect_step(&b, 7, COMMIT, 63, 0, 0, "commit since 0");
    for (i = 0; i < 60; i++) {
        unsigned by_7 = 0, late = 0, j;

        for (j = i; j < 256; j += 60) {
            by_7 |= j % 8 == 7;
            late |= j % 8 == 7 && j >= 200;
        }
        check_kinds(&b, 63, i, by_7, "commit since 0");
        check_kinds(&b, 62, i, late, "commit since 200");
    }
    /* No room before none is in progress. */
    expect_step(&b, 1, UNCROSS, 63, 0, 0, "one released");
    expect_step(&b, 1, ACQUIRE, 60, E, 19, "no room yet");
    expect_step(&b, 1, UNCROSS, 61, 0, 0, "another");
    expect_step(&b, 1, ACQUIRE, 60, E, 19, "no room yet");
    expect_step(&b, 1, CROSS, 63, 0, 0, "and one acquired again");
    expect_step(&b, 1, UNCROSS, 62, 0, 0, "the first of all");
    expect_step(&b, 1, ACQUIRE, 60, E, 19, "still no room");
    expect_step(&b, 1, UNCROSS, 63, 0, 0, "the last of all");
    expect_step(&b, 1, ACQUIRE, 60, E, 0, "nothing to keep");
    check_progress(&b, 0, 0, "nothing to keep");
    expect_step(&b, 2, CROSS, 62, 0, 0, "a crosslock again");
    expect_step(&b, 3, ACQUIRE, 60, R, 0, "room again");
    check_entry(&b, 0, 10, 60 + 128, "room again");
    free_buffers(&b);

    /* With none in progress nothing is refused, on a desk from elsewhere. */
    open_cross(&b, 8, BIT(7), 0);
    put_entries(&b, KEPT_AT, 256);
    for (i = 0; i < 256; i++)
        put_entry(&b, i, 1 + i % 24, 3);
    expect_step(&b, 0, ACQUIRE, 1, E, 0, "256, none in progress");
    check_progress(&b, 0, 256, "256, none in progress");
    expect_step(&b, 0, CROSS, 7, 0, 0, "256, a crosslock");
    check_number(b.desk.bytes + 1418 + 4 * 7, 256, "256, a crosslock");
    expect_step(&b, 0, ACQUIRE, 2, E, 19, "256, one in progress");
    expect_step(&b, 0, COMMIT, 7, 0, 0, "256, a commit");
    check_none_from(&b, 7, "256, a commit");
    expect_step(&b, 0, UNCROSS, 7, 0, 0, "256, released");
    check_progress(&b, 0, 0, "256, released");
    free_buffers(&b);
}

/* Kept counts from elsewhere, on both sides of what a byte holds. */
static void test_cross_entries(void)
{
    static const unsigned starts[] = { 0, 1, 127, 128, 253, 254, 255 };
    struct buffers b;
    unsigned i, j;

    for (i = 0; i < sizeof starts / sizeof starts[0]; i++) {
        open_cross(&b, 8, BIT(7) | BIT(6), 0);
        put_word(&b, PROGRESS_AT, BIT(7));
        put_entries(&b, KEPT_AT, starts[i]);
        put_entries(&b, SINCE_AT + 4 * 7, starts[i]);
        for (j = 0; j < starts[i]; j++)
            put_entry(&b, j, 4, 1);
        for (; j < 256; j++)
            put_entry(&b, j, 4, 2); /* not kept */
        expect_step(&b, 1, COMMIT, 7, 0, 0, "nothing since");
        check_none_from(&b, 7, "nothing since");
        expect_step(&b, 0, CROSS, 6, 0, 0, "another");
        check_number(b.desk.bytes + 1418 + 4 * 6, starts[i], "another");
        expect_step(&b, 1, ACQUIRE, 3, R, 0, "one more");
        check_entry(&b, starts[i], 4, 3 + 128, "one more");
        check_progress(&b, BIT(7) | BIT(6), starts[i] + 1, "one more");
        expect_step(&b, 1, COMMIT, 7, 0, 0, "one since");
        check_kinds(&b, 7, 1, 0, "one since");
        check_kinds(&b, 7, 2, 0, "one since");
        check_kinds(&b, 7, 3, PLUNGEROWL_ER, "one since");
        expect_step(&b, 1, COMMIT, 6, 0, 0, "one since, the other");
        check_kinds(&b, 6, 3, PLUNGEROWL_ER, "one since, the other");
        free_buffers(&b);
    }
}

/* A step without the checks of each byte; the copies go on. */
static void quick_step(struct buffers *b, unsigned core, unsigned kind,
                       unsigned class_, unsigned mode)
{
    uint8_t record[RECORD_SIZE] = { 0x4C, 0x4B };
    unsigned is;

    record[2] = (uint8_t)core;
    record[3] = (uint8_t)kind;
    record[4] = (uint8_t)class_;
    record[5] = (uint8_t)mode;
    want_accepted(b, record);
    is = plungerowl_step(b->desk.bytes, b->desk.size,
                         b->sheet.bytes, b->sheet.size,
                         b->seen.bytes, b->seen.size,
                         b->history.bytes, b->history.size,
                         b->slip.bytes, b->slip.size, record, sizeof record);
    check(is == 0, "a quick step answers %u", is);
}

/* Visits of soft and hard handlers while one crosslock is in progress: the
 * first acquires something, and no later one is taken for it, however many
 * there are. The last one acquires something and commits in the same visit. */
static void visit_often(unsigned visits)
{
    static const unsigned enter[] = { ENTER_HARD, ENTER_SOFT };
    static const unsigned leave[] = { EXIT_HARD, EXIT_SOFT };
    struct buffers b;
    unsigned i, core;

    open_cross(&b, 4, BIT(3), 0);
    expect_step(&b, 7, CROSS, 3, 0, 0, "many visits, the crosslock");
    for (i = 0; i <= visits; i++) {
        int tried = i < 4 || (i & (i - 1)) == 0 || (i & (i + 1)) == 0
                    || ((i - 1) & (i - 2)) == 0 || i + 2 > visits;

        for (core = 0; core < 2; core++) {
            quick_step(&b, core, enter[core], 0, 0);
            if (tried) {
                quick_step(&b, core, COMMIT, 3, 0);
                check_buffers(&b, "a visit of many, commit");
                check_none_from(&b, 3, "a visit of many");
            }
            if (i == 0) {
                quick_step(&b, core, ACQUIRE, core, R);
                quick_step(&b, core, RELEASE, core, R);
            }
            quick_step(&b, core, leave[core], 0, 0);
            if (tried) {
                check_entry(&b, core, 0, 0, "a visit of many, ended");
                check_buffers(&b, "a visit of many");
            }
        }
    }
    check_progress(&b, BIT(3), 2, "many visits");
    for (core = 0; core < 2; core++) {
        quick_step(&b, core, enter[core], 0, 0);
        quick_step(&b, core, ACQUIRE, core, R);
        quick_step(&b, core, RELEASE, core, R);
        quick_step(&b, core, COMMIT, 3, 0);
        check_kinds(&b, 3, core, PLUNGEROWL_ER, "the last visit of many");
    }
    check_buffers(&b, "the last visit of many");
    free_buffers(&b);
}

static void test_cross_visits(void)
{
    static const unsigned few[] = { 1, 2, 3, 8, 16, 127, 128, 255, 256, 257,
                                    512 };
    size_t i;

    for (i = 0; i < sizeof few / sizeof few[0]; i++)
        visit_often(few[i]);
    if (sides == GUARD_BOTH)
        visit_often(65537);
}

/* Each visit acquires and commits what is its own; its room stays taken. */
static void test_cross_visits_kept(void)
{
    struct buffers b;
    unsigned i, soft;

    for (soft = 0; soft < 2; soft++) {
        open_cross(&b, 64, BIT(63), 0);
        expect_step(&b, 7, CROSS, 63, 0, 0, "the crosslock");
        for (i = 0; i < 256; i++) {
            expect_step(&b, 2, soft ? ENTER_SOFT : ENTER_HARD, 0, 0, 0,
                        "enter");
            expect_step(&b, 2, COMMIT, 63, 0, 0, "nothing of its own");
            if (i < 60)
                check_kinds(&b, 63, i, 0, "nothing of its own");
            expect_step(&b, 2, ACQUIRE, i % 60, R, 0, "a lock");
            expect_step(&b, 2, COMMIT, 63, 0, 0, "its own");
            check_kinds(&b, 63, i % 60, PLUNGEROWL_ER, "its own");
            expect_step(&b, 2, soft ? EXIT_SOFT : EXIT_HARD, 0, 0, 7, "held");
            check_entry(&b, i, soft ? 8 : 9, i % 60 + 128, "a refused exit");
            expect_step(&b, 2, RELEASE, i % 60, R, 0, "its release");
            expect_step(&b, 2, soft ? EXIT_SOFT : EXIT_HARD, 0, 0, 0, "exit");
            check_entry(&b, i, 0, 0, "struck out");
            check_progress(&b, BIT(63), i + 1, "its room stays taken");
        }
        expect_step(&b, 2, ACQUIRE, 1, R, 19, "no room is free again");
        free_buffers(&b);
    }
}

/* A hard handler over a soft one ends nothing of the soft one's, and the task's
 * frame never ends; over each state that a hard handler may come. */
static void test_cross_nested(void)
{
    struct buffers b;
    unsigned state;

    open_cross(&b, 8, BIT(7), 0);
    expect_step(&b, 6, CROSS, 7, 0, 0, "the crosslock");
    expect_step(&b, 1, ACQUIRE, 1, r, 0, "task, 1r");
    expect_step(&b, 1, ENTER_SOFT, 0, 0, 0, "enter soft");
    expect_step(&b, 1, ACQUIRE, 2, r, 0, "soft, 2r");
    expect_step(&b, 1, ENTER_HARD, 0, 0, 0, "enter hard");
    expect_step(&b, 1, ACQUIRE, 3, TRY + r, 0, "hard, try 3r");
    expect_step(&b, 1, ACQUIRE, 4, r, 0, "hard, 4r");
    check_entry(&b, 0, 4, 1 + 64, "nested: the task's");
    check_entry(&b, 1, 5, 2 + 64, "nested: the soft handler's");
    check_entry(&b, 2, 6, 4 + 64, "nested: the hard handler's");
    expect_step(&b, 1, COMMIT, 7, 0, 0, "commit in the hard handler");
    check_kinds(&b, 7, 4, PLUNGEROWL_EN, "commit in the hard handler");
    check_kinds(&b, 7, 2, 0, "commit in the hard handler");
    expect_step(&b, 1, EXIT_HARD, 0, 0, 7, "held");
    expect_step(&b, 1, RELEASE, 4, r, 0, "release 4r");
    expect_step(&b, 1, RELEASE, 3, TRY + r, 0, "release try 3r");
    expect_step(&b, 1, EXIT_HARD, 0, 0, 0, "exit hard");
    check_entry(&b, 1, 5, 2 + 64, "nested: stays");
    check_entry(&b, 2, 0, 0, "nested: struck out");
    expect_step(&b, 1, EXIT_HARD, 0, 0, 6, "no hard handler");
    expect_step(&b, 1, COMMIT, 7, 0, 0, "commit in the soft handler");
    check_kinds(&b, 7, 2, PLUNGEROWL_EN, "commit in the soft handler");
    check_kinds(&b, 7, 1, 0, "commit in the soft handler");
    expect_step(&b, 1, RELEASE, 2, r, 0, "release 2r");
    expect_step(&b, 1, EXIT_SOFT, 0, 0, 0, "exit soft");
    check_entry(&b, 0, 4, 1 + 64, "nested: the task's stays");
    check_entry(&b, 1, 0, 0, "nested: struck out too");
    expect_step(&b, 1, COMMIT, 7, 0, 0, "commit in the task");
    check_kinds(&b, 7, 1, PLUNGEROWL_EN, "commit in the task");
    free_buffers(&b);

    for (state = 0; state < 9; state++) { /* whose entries an exit strikes */
        unsigned kind = state == 4 ? EXIT_SOFT : EXIT_HARD;
        unsigned core = (state * 3 + 1) % 8, i;

        open_cross(&b, 8, BIT(7), 0);
        put_entries(&b, KEPT_AT, 250);
        for (i = 0; i < 256; i++)
            put_entry(&b, i, 1 + i % 24, i % 8);
        put_desk(&b, STATES_AT + core, state);
        if (state < 6 && state != 4) {
            expect_step(&b, core, kind, 0, 0, 6, "no exit");
            expect_step(&b, core, EXIT_SOFT, 0, 0, 6, "no exit");
        } else {
            expect_step(&b, core, kind, 0, 0, 0, "an exit");
        }
        for (i = 0; i < 256; i++) {
            int struck = i < 250 && i % 24 == 3 * core + (state == 4 ? 1 : 2)
                         && (state == 4 || state >= 6);

            check_entry(&b, i, struck ? 0 : 1 + i % 24, struck ? 0 : i % 8,
                        "an exit");
        }
        free_buffers(&b);
    }
}

/* The record that draws has its number: the crosslock acquire for what leads to
 * the crosslock, the commit for what leads from it, where there was none. */
static void test_cross_numbers(void)
{
    static const uint32_t starts[] = { 0, 250, 65530, 0x00FFFFF0, 0xFFFFFFF0 };
    struct buffers b;
    unsigned i;

    for (i = 0; i < sizeof starts / sizeof starts[0]; i++) {
        uint32_t first = starts[i];

        open_cross(&b, 8, BIT(7), 0);
        put_count(&b, first);
        put_kinds(&b, 7, 3, PLUNGEROWL_EN);
        put_seen(&b, 7, 3, 77);
        put_kinds(&b, 4, 7, PLUNGEROWL_EN);
        put_seen(&b, 4, 7, UINT32_MAX);
        expect_step(&b, 0, ACQUIRE, 1, R, 0, "1R");
        expect_step(&b, 0, ACQUIRE, 4, TRY + R, 0, "try 4R");
        expect_step(&b, 0, CROSS, 7, 0, 0, "crosslock");
        check_seen(&b, 1, 7, first + 3, "to the crosslock");
        check_seen(&b, 4, 7, UINT32_MAX, "to the crosslock, before");
        check_kinds(&b, 4, 7, PLUNGEROWL_EN | PLUNGEROWL_SN, "both kinds");
        expect_step(&b, 2, ACQUIRE, 2, R, 0, "2R");
        expect_step(&b, 2, ACQUIRE, 3, R, 0, "3R");
        expect_step(&b, 0, RELEASE, 7, R, 15, "refused, not counted");
        expect_step(&b, 0, CROSS, 7, 0, 16, "refused, not counted");
        expect_step(&b, 2, COMMIT, 7, 0, 0, "commit");
        check_seen(&b, 7, 2, first + 6, "from the crosslock");
        check_seen(&b, 7, 3, 77, "from the crosslock, before");
        expect_step(&b, 2, COMMIT, 7, 0, 0, "commit again");
        check_seen(&b, 7, 2, first + 6, "from the crosslock again");
        expect_step(&b, 2, UNCROSS, 7, 0, 0, "release");
        check_count(&b, first + 8, "all are counted");
        free_buffers(&b);
    }
}

/* Joints at a crosslock are strong; at the lock they are as ever. Held in the
 * first mode while the crosslock is acquired, acquired in the second before the
 * commit. */
static void test_cross_strong(void)
{
    struct buffers b;
    unsigned held, acquired;

    for (held = 0; held < MODES; held++) {
        for (acquired = 0; acquired < MODES; acquired++) {
            int fault = acquired < R || (acquired == R && held % TRY == E);

            open_cross(&b, 4, BIT(0), 0);
            expect_step(&b, 0, ACQUIRE, 2, held, 0, "held");
            expect_step(&b, 0, CROSS, 0, 0, 0, "crosslock");
            expect_step(&b, 0, RELEASE, 2, held, 0, "given back");
            expect_step(&b, 5, ACQUIRE, 2, acquired, 0, "acquired");
            expect_step(&b, 5, COMMIT, 0, 0, fault, "commit");
            if (fault)
                check(b.slip.bytes[0] == 2 && b.slip.bytes[1] == 0
                      && b.slip.bytes[1 + ENTRY] == 2, "the cycle shown");
            free_buffers(&b);
        }
    }
    /* Two crosslocks, each waited for while the other is signalled. */
    open_cross(&b, 8, BIT(6) | BIT(7), 0);
    expect_step(&b, 0, ACQUIRE, 1, r, 0, "1r");
    expect_step(&b, 0, CROSS, 6, 0, 0, "crosslock 6");
    expect_step(&b, 1, ACQUIRE, 2, R, 0, "2R");
    expect_step(&b, 1, CROSS, 7, 0, 0, "crosslock 7");
    expect_step(&b, 2, ACQUIRE, 2, R, 0, "core 2, 2R");
    expect_step(&b, 2, COMMIT, 6, 0, 0, "6 ER 2 SN 7: weak");
    expect_step(&b, 3, ACQUIRE, 1, E, 0, "core 3, 1E");
    expect_step(&b, 3, COMMIT, 7, 0, 0, "7 EN 1 SN 6, still weak at 2");
    expect_step(&b, 2, ACQUIRE, 2, TRY + E, 0, "core 2, try 2E");
    expect_step(&b, 2, COMMIT, 6, 0, 0, "a try is no wait");
    expect_step(&b, 4, ACQUIRE, 2, r, 0, "core 4, 2r");
    expect_step(&b, 4, COMMIT, 6, 0, 1, "6 EN 2 SN 7 EN 1 SN 6");
    check(b.slip.bytes[0] == 4, "four dependencies");
    free_buffers(&b);
}

/* A slip through a crosslock and locks, and marks. */
static void test_cross_shown(void)
{
    static const uint8_t slip[] = { 3, 1, 2, 0, 4, 0, 0, 0,
                                    5, 2, 0, 9, 0, 0, 0,
                                    2, 1, 1, 0, 0, 0, 0 };
    struct buffers b;

    open_cross(&b, 6, BIT(5), 0);
    expect_step(&b, 0, HARD_OFF, 0, 0, 0, "hard off");
    expect_step(&b, 0, HARD_OFF, 0, 0, 0, "hard off again");
    expect_step(&b, 0, ACQUIRE, 1, E, 0, "1E, hard off");
    expect_step(&b, 0, CROSS, 5, 0, 0, "crosslock: 1 EN 5");
    expect_step(&b, 3, ENTER_HARD, 0, 0, 0, "hard handler");
    expect_step(&b, 3, ACQUIRE, 1, R, 0, "1R: hard-safe R");
    expect_step(&b, 3, RELEASE, 1, R, 0, "release 1R");
    expect_step(&b, 1, ACQUIRE, 2, E, 0, "2E: hard-unsafe, 2 ER 1 hard");
    expect_step(&b, 1, COMMIT, 5, 0, 1, "commit: 5 EN 2");
    check_whole_slip(&b, slip, "marks and a crosslock");
    free_buffers(&b);
}

/* Each clause of the fit test about crosslocks on the desk; the question sees
 * them too. */
static void test_cross_unfit(void)
{
    static const unsigned some_k[] = { 1, 2, 7, 8, 31, 32, 33, 63, 64 };
    static const uint32_t over[] = { 257, 258, 511, 512, 0xFFFF, 65536,
                                     65536 + 255, 0x01000000, 0x80000000,
                                     UINT32_MAX };
    struct buffers b;
    unsigned i, j, k;

    for (j = 0; j < sizeof some_k / sizeof some_k[0]; j++) {
        k = some_k[j];
        open_buffers(&b, k, 0);
        for (i = 0; i < 64; i++) {
            put_word(&b, DECLARED_AT, BIT(i));
            if (i < k)
                expect_no_reach(&b, 0, 0, "a declared class");
            else
                expect_unfit(&b, "a declared class of K or more");
            put_word(&b, PROGRESS_AT, BIT(i));
            if (i < k)
                expect_no_reach(&b, 0, 0, "in progress");
            else
                expect_unfit(&b, "in progress, of K or more");
            put_word(&b, DECLARED_AT, 0);
            expect_unfit(&b, "in progress, not declared");
            put_word(&b, DECLARED_AT, (UINT64_MAX >> (64 - k)) & ~BIT(i));
            expect_unfit(&b, "in progress, others are declared");
            put_word(&b, PROGRESS_AT, 0);
        }
        free_buffers(&b);
    }
    open_cross(&b, 64, UINT64_MAX, 0);
    for (i = 0; i <= 64; i++) { /* any of so many */
        for (j = 0; j < 64; j += 9) {
            uint64_t word = i == 64 ? UINT64_MAX : BIT(i) - 1;

            put_word(&b, PROGRESS_AT, word << j | (j ? word >> (64 - j) : 0));
            if (i <= 16)
                expect_no_reach(&b, 0, 0, "16 in progress");
            else
                expect_unfit(&b, "more than 16 in progress");
        }
    }
    seed = 20261118;
    for (i = 0; i < 300; i++) {
        uint64_t word = 0;
        unsigned ones = 0;

        for (j = below(20); j > 0; j--)
            word |= BIT(below(64));
        for (j = 0; j < 64; j++)
            ones += word >> j & 1;
        put_word(&b, PROGRESS_AT, word);
        if (ones <= 16)
            expect_no_reach(&b, 0, 0, "any in progress");
        else
            expect_unfit(&b, "any, and too many");
    }
    put_word(&b, PROGRESS_AT, 0);
    for (i = 0; i < sizeof over / sizeof over[0]; i++) {
        put_entries(&b, KEPT_AT, over[i]);
        expect_unfit(&b, "more than 256 kept");
    }
    for (i = 0; i <= 256; i++) { /* with none in progress */
        put_entries(&b, KEPT_AT, i);
        expect_no_reach(&b, 0, 0, "kept with none in progress");
        expect_step(&b, 0, HARD_ON, 0, 0, 0, "kept with none in progress");
    }
    for (i = 0; i < 4; i++) { /* each of its bytes */
        put_entries(&b, KEPT_AT, 0);
        put_desk(&b, KEPT_AT + i, i == 1 ? 2 : 1);
        if (i == 0)
            expect_no_reach(&b, 0, 0, "one kept");
        else
            expect_unfit(&b, "a high byte of the kept count");
    }
    free_buffers(&b);
}

/* Each clause about the history: of entries below the kept count, and only by
 * what takes a history. */
static void test_cross_unfit_history(void)
{
    struct buffers b;
    unsigned i, place, lock;

    open_cross(&b, 8, BIT(7), 4);
    put_entries(&b, KEPT_AT, 256);
    for (i = 0; i < 256; i++) {
        for (place = 0; place < 256; place += place < 26 || i % 51 == 0 ? 1
                                               : 23) {
            for (lock = 0; lock < 256; lock += i == 63 || i == 255 ? 1
                                               : i % 9 == 0 ? 24 : 67) {
                int fits = place == 0 ? lock == 0
                           : place <= 24 && lock % 64 < 8 && lock < 192;

                put_entry(&b, i, place, lock);
                expect_step(&b, 0, HARD_ON, 0, 0, fits ? 0 : 11, "an entry");
                if (fits || (i > 0 && i < 255 && (place + lock) % 4 != 0))
                    continue;
                expect_no_reach(&b, 0, 0, "an unfit entry, ask");
                expect_step(&b, 0, 99, 0, 0, 11, "an unfit entry");
                put_entries(&b, KEPT_AT, i);
                expect_step(&b, 0, HARD_ON, 0, 0, 0, "behind what is kept");
                put_entries(&b, KEPT_AT, 256);
            }
        }
        put_entry(&b, i, 0, 0);
    }
    for (place = 0; place < 26; place++) { /* all bytes, at the ends */
        for (lock = 0; lock < 256; lock++) {
            int fits = place == 0 ? lock == 0
                       : place <= 24 && lock % 64 < 8 && lock < 192;

            put_entry(&b, lock % 2 ? 0 : 255, place, lock);
            expect_step(&b, 0, HARD_ON, 0, 0, fits ? 0 : 11, "the ends");
            put_entry(&b, lock % 2 ? 0 : 255, 0, 0);
        }
    }
    free_buffers(&b);

    open_cross(&b, 64, BIT(63), 0); /* by K */
    put_entries(&b, KEPT_AT, 1);
    for (i = 1; i < 64; i++) {
        put_word(&b, DECLARED_AT, 0);
        put_desk(&b, 0, i);
        b.k = i;
        put_entry(&b, 0, 1, i - 1);
        expect_step(&b, 0, HARD_ON, 0, 0, 0, "class K - 1");
        put_entry(&b, 0, 1, i);
        expect_step(&b, 0, HARD_ON, 0, 0, 11, "class K");
    }
    free_buffers(&b);
}

/* Desks from elsewhere that are fit, and judged as they stand. */
static void test_cross_elsewhere(void)
{
    static const uint32_t since[] = { 0, 1, 2, 3, 255, 256, 257, 65536,
                                      0x01000000, 0x80000000, UINT32_MAX };
    struct buffers b;
    unsigned i;

    /* A held lock, marks, dependencies and an entry of a declared class. */
    open_cross(&b, 8, BIT(2), 0);
    put_desk(&b, DEPTHS_AT, 1);
    put_desk(&b, HELD_AT, 2 + 64);
    expect_step(&b, 0, RELEASE, 2, r, 15, "a held crosslock, release");
    expect_step(&b, 0, ACQUIRE, 3, E, 0, "a held crosslock: 2 SN 3");
    check_kinds(&b, 2, 3, PLUNGEROWL_SN, "a held crosslock");
    check_byte(&b, 34 + 2, 0x88, "a held crosslock is marked");
    expect_step(&b, 0, CROSS, 2, 0, 1, "2 SN 2, from itself");
    free_buffers(&b);

    open_cross(&b, 8, BIT(2) | BIT(3), 0);
    put_desk(&b, MARKS_AT + 2, 4);
    put_desk(&b, MARKS_AT + 5, 1);
    put_sheet(&b, 2, 3, PLUNGEROWL_SR);
    put_sheet(&b, 6, 2, PLUNGEROWL_ER);
    expect_reach(&b, 2, BIT(3) | BIT(5), 2, "marks of a crosslock, ask");
    expect_reach(&b, 6, BIT(2) | BIT(5), 2, "to a crosslock by ER, ask");
    expect_step(&b, 0, CROSS, 2, 0, 0, "marks of a crosslock");
    put_sheet(&b, 5, 2, PLUNGEROWL_EN);
    expect_step(&b, 0, COMMIT, 2, 0, 1, "2 EN 5 hard, 5 EN 2");
    free_buffers(&b);

    for (i = 0; i < 3; i++) {
        open_cross(&b, 8, BIT(2) | BIT(3), 0);
        put_word(&b, PROGRESS_AT, BIT(2) | BIT(3));
        put_entries(&b, KEPT_AT, 2);
        put_entry(&b, 0, 1, 3 + 64 * i);
        put_entry(&b, 1, 4, 2 + 64 * i);
        expect_step(&b, 0, COMMIT, 2, 0, 0, "an entry of a crosslock");
        check_kinds(&b, 2, 3, i == R ? PLUNGEROWL_ER : PLUNGEROWL_EN,
                    "an entry of a crosslock");
        expect_step(&b, 1, COMMIT, 2, 0, 1, "an entry of itself");
        check_kinds(&b, 2, 2, i == R ? PLUNGEROWL_ER : PLUNGEROWL_EN,
                    "an entry of itself");
        free_buffers(&b);
    }
    /* Any since number: from there on, up to the kept count. */
    for (i = 0; i < sizeof since / sizeof since[0]; i++) {
        open_cross(&b, 8, BIT(7) | BIT(6), 0);
        put_word(&b, PROGRESS_AT, BIT(7));
        put_entries(&b, SINCE_AT + 4 * 7, since[i]);
        put_entries(&b, SINCE_AT + 4 * 6, since[i]);
        put_entries(&b, SINCE_AT + 4 * 63, since[i]);
        put_entries(&b, KEPT_AT, 3);
        put_entry(&b, 0, 1, 1);
        put_entry(&b, 1, 1, 2);
        put_entry(&b, 2, 1, 3);
        put_entry(&b, 3, 1, 4); /* not kept */
        expect_no_reach(&b, 7, 0, "any since number, ask");
        expect_step(&b, 0, COMMIT, 7, 0, 0, "any since number");
        check_kinds(&b, 7, 1, since[i] < 1 ? 2 : 0, "any since number");
        check_kinds(&b, 7, 2, since[i] < 2 ? 2 : 0, "any since number");
        check_kinds(&b, 7, 3, since[i] < 3 ? 2 : 0, "any since number");
        check_kinds(&b, 7, 4, 0, "any since number");
        expect_step(&b, 0, CROSS, 6, 0, 0, "a since number is written");
        check_number(b.desk.bytes + 1418 + 4 * 6, 3, "a since number");
        check_number(b.desk.bytes + 1418 + 4 * 63, since[i], "another's");
        expect_step(&b, 0, UNCROSS, 7, 0, 0, "a since number stays");
        check_number(b.desk.bytes + 1418 + 4 * 7, since[i], "it stays");
        free_buffers(&b);
    }
    /* Kept with none in progress: a crosslock begins behind it, and an exit
     * strikes out there too. */
    open_cross(&b, 8, BIT(7), 0);
    put_entries(&b, KEPT_AT, 2);
    put_entry(&b, 0, 3, 1);
    put_entry(&b, 1, 1, 2);
    expect_step(&b, 0, ACQUIRE, 3, E, 0, "none in progress: not kept");
    check_progress(&b, 0, 2, "none in progress");
    expect_step(&b, 0, ENTER_HARD, 0, 0, 0, "enter hard");
    expect_step(&b, 0, EXIT_HARD, 0, 0, 0, "exit hard");
    check_entry(&b, 0, 0, 0, "none in progress, struck out");
    expect_step(&b, 0, CROSS, 7, 0, 0, "crosslock behind what is kept");
    expect_step(&b, 0, COMMIT, 7, 0, 0, "commit");
    check_none_from(&b, 7, "behind what is kept");
    expect_step(&b, 0, ACQUIRE, 4, E, 0, "kept third");
    check_entry(&b, 2, 1, 4, "kept third");
    expect_step(&b, 0, COMMIT, 7, 0, 0, "commit");
    check_kinds(&b, 7, 4, 2, "behind what is kept");
    check_kinds(&b, 7, 2, 0, "behind what is kept");
    free_buffers(&b);
}

/* Opened without crosslocks kinds 10 to 12 are 15; a log as it was before has
 * zeros in all that is new. */
static void test_cross_none(void)
{
    struct buffers b;
    unsigned i, kind;

    open_buffers(&b, 8, 6);
    for (i = 0; i < 8; i++) {
        for (kind = CROSS; kind <= UNCROSS; kind++)
            expect_step(&b, i, kind, i, 0, 15, "no crosslocks");
        expect_step(&b, i, ACQUIRE, i, R, 0, "a lock");
        expect_step(&b, i, i % 2 ? ENTER_SOFT : ENTER_HARD, 0, 0, 0, "enter");
        expect_step(&b, i, ACQUIRE, i, R, 0, "a lock in a handler");
        expect_step(&b, i, RELEASE, i, R, 0, "its release");
        expect_step(&b, i, i % 2 ? EXIT_SOFT : EXIT_HARD, 0, 0, 0, "exit");
    }
    for (i = 1398; i < 1674; i++)
        check_byte(&b, i, 0, "no crosslocks");
    for (i = 0; i < 512; i++)
        check(b.history.bytes[i] == 0, "no crosslocks: history byte %u", i);
    free_buffers(&b);
}

/* The answer that is due to a record that is not malformed, but for a fault and
 * a full count. */
static unsigned cross_answer(const struct buffers *b, unsigned core,
                             unsigned kind, unsigned class_, unsigned mode)
{
    const uint8_t *desk = b->want_desk.bytes;
    uint64_t progress = word_at(desk + 1406);
    int named = kind <= RELEASE || kind >= CROSS;
    int crosslock = named && class_ < b->k
                    && (word_at(desk + 1398) & BIT(class_)) != 0;
    unsigned ones = 0, i, answer = 0;

    for (i = 0; i < 64; i++)
        ones += progress >> i & 1;
    if (named && class_ >= b->k)
        return 4;
    if (named && crosslock != (kind >= CROSS))
        return 15;
    if (kind < CROSS)
        answer = deep_answer(b, core, kind, class_, mode);
    if (answer != 0)
        return answer;
    if (kind == CROSS)
        return progress & BIT(class_) ? 16 : ones == 16 ? 18 : 0;
    if (kind > CROSS)
        return progress & BIT(class_) ? 0 : 17;
    return kind == ACQUIRE && mode < TRY && progress != 0
           && low_first(desk + 1414) == 256 ? 19 : 0;
}

/* The same with a fault, on other copies. */
static unsigned cross_due(const struct buffers *b, const uint8_t *record)
{
    static uint8_t desk[1674], sheet[64 * 64], seen[4 * 64 * 64], history[512];
    unsigned due = cross_answer(b, record[2], record[3], record[4], record[5]);
    struct buffers after = *b;

    if (due != 0)
        return due;
    memcpy(desk, b->want_desk.bytes, sizeof desk);
    memcpy(sheet, b->want_sheet.bytes, b->k * b->k);
    memcpy(seen, b->want_seen.bytes, 4 * b->k * b->k);
    memcpy(history, b->want_history.bytes, sizeof history);
    after.want_desk.bytes = desk;
    after.want_sheet.bytes = sheet;
    after.want_seen.bytes = seen;
    after.want_history.bytes = history;
    want_accepted(&after, record);
    return least_cycle(&after)[0] != 0;
}

/* A record of any kind, in one of four modes; releases are of what is held.
 * There are times of many cross acquires, and of many cross releases. */
static void random_cross_record(const struct buffers *b, uint8_t record[6],
                                unsigned cores, const uint8_t *modes, int many)
{
    unsigned core = below(cores), kind, class_ = below(b->k);
    const uint8_t *desk = b->desk.bytes;
    unsigned frame = current_frame(desk, core), mode = modes[below(4)];
    unsigned depth = desk[DEPTHS_AT + frame];

    kind = below(3) == 0 ? (many ? CROSS + below(7) / 3
                                 : UNCROSS - below(7) / 3)
           : below(3) == 0 ? HARD_ON + below(8)
           : below(3) == 0 || depth > 20 ? RELEASE : ACQUIRE;
    if (kind == RELEASE && depth > 0) {
        class_ = desk[HELD_AT + DEPTH * frame + below(depth)] % 64;
        mode = newest_mode(desk, frame, class_);
    }
    if (kind == EXIT_SOFT || kind == EXIT_HARD)
        kind = desk[STATES_AT + core] >= 6 ? EXIT_HARD : EXIT_SOFT;
    record[0] = 0x4C;
    record[1] = 0x4B;
    record[2] = (uint8_t)core;
    record[3] = (uint8_t)kind;
    record[4] = (uint8_t)(kind <= RELEASE || kind >= CROSS ? class_ : 0);
    record[5] = (uint8_t)(kind <= RELEASE ? mode : 0);
}

/* Random logs: short ones in any modes up to a fault, and long ones of
 * recursive reads and tries, which have none and fill the history. */
static void test_cross_random(void)
{
    static const uint8_t any[] = { E, r, R, TRY + E };
    static const uint8_t reads[] = { R, R, R, TRY + R };
    unsigned met[20] = { 0 }, run, i, faults = 0;
    struct buffers b;

    seed = 20261121 + sides;
    for (run = 0; run < 130; run++) {
        int is_long = run % 26 == 25;
        unsigned k = is_long ? 64 : 2 + below(7);
        uint64_t declared = 0;

        for (i = 0; i < k; i++)
            if (below(is_long ? 2 + run / 26 % 3 : 3) == 0)
                declared |= BIT(i);
        open_cross(&b, k, declared, run % 3);
        for (i = 0; i < (is_long ? 3000 : 120)
                    && b.desk.bytes[CLOSED_AT] == 0; i++) {
            uint8_t record[RECORD_SIZE];
            unsigned due;

            random_cross_record(&b, record, is_long ? 8 : 3,
                                is_long ? reads : any,
                                !is_long || i / 1000 % 2 == 0);
            due = is_long ? cross_answer(&b, record[2], record[3], record[4],
                                         record[5])
                          : cross_due(&b, record);
            met[due]++;
            expect_bytes(&b, record, sizeof record, due, "a random log");
        }
        faults += b.desk.bytes[CLOSED_AT];
        free_buffers(&b);
    }
    check(faults > 40, "random logs with crosslocks: %u faults", faults);
    for (i = 0; i < 20; i++)
        check(met[i] > 2 || (i >= 2 && i <= 4) || (i >= 8 && i <= 14),
              "random logs with crosslocks: %u times %u", met[i], i);
}

/* ----------------------------------------- crosslocks in a feed, and joined */

static void log_long_header(struct log *log, unsigned k, uint64_t declared)
{
    unsigned i;

    log_header(log, k);
    log->bytes[2] = 2;
    for (i = 0; i < 8; i++)
        log_byte(log, (unsigned)(declared >> 8 * i & 255));
}

/* Every value of each byte of the long header; the twelfth byte brings the
 * answer, also with a wrong first one, and the third alone says how many. */
static void test_cross_feed_header(void)
{
    static struct log log;
    struct feeding f;
    unsigned place, value, i, k;

    start_feed(&f, 64, 0);
    for (k = 8; k <= 64; k += 56) {
        for (place = 0; place < 12; place++) {
            for (value = 0; value < 256; value++) {
                unsigned good;

                log_long_header(&log, k, 0x41);
                log_record(&log, 0, CROSS, 0, 0);
                if (place == 2 && value != 2)
                    continue;
                good = place < 3 ? value == log.bytes[place]
                       : place == 3 ? value >= 7 && value <= 64
                       : place == 4 || k == 64 || value == 0;
                log.bytes[place] = (uint8_t)value;
                if (place == 4)
                    log.bytes[16] = (uint8_t)(value & 1 ? 0 : 63);
                start_again(&f);
                for (i = 0; i < 11; i++)
                    expect_feed(&f, log.bytes + i, 1, 0, 0,
                                "long header, byte by byte");
                check(f.feed.bytes[COUNT_AT] == 11
                      && memcmp(f.feed.bytes + LOOSE_AT, log.bytes, 11) == 0,
                      "long header: eleven loose bytes");
                expect_feed(&f, log.bytes + 11, 1, good ? 0 : 2, 0,
                            "long header");
                start_again(&f);
                feed_or_end(&f, log.bytes, log.size, "long header and record");
                if (!good)
                    expect_end(&f, 2, 0, "long header, refused");
                else if (place != 4)
                    expect_end(&f, 0, 1, "long header and record");
            }
        }
    }
    /* Other third bytes: four bytes are the header, whatever follows. */
    for (value = 0; value < 256; value++) {
        if (value == 2)
            continue;
        log_long_header(&log, 8, 1);
        log.bytes[2] = (uint8_t)value;
        start_again(&f);
        expect_feed(&f, log.bytes, 3, 0, 0, "three bytes");
        expect_feed(&f, log.bytes + 3, 1, value == 1 ? 0 : 2, 0, "the fourth");
        start_again(&f);
        expect_feed(&f, log.bytes, log.size, value == 1 ? 3 : 2, value == 1,
                    "a word behind a short header");
    }
    /* 4D 48 02 03 is part of a header, and refused with its twelfth byte. */
    log_long_header(&log, 3, 0);
    log.bytes[0] = 0x4D;
    start_again(&f);
    expect_feed(&f, log.bytes, 4, 0, 0, "4D 48 02 03");
    expect_feed(&f, log.bytes + 4, 7, 0, 0, "and seven more");
    expect_feed(&f, log.bytes + 11, 1, 2, 0, "and one more");
    expect_stopped(&f, 2, 0, "4D 48 02 03");
    free_feed(&f);
}

/* The end behind each byte of a long header, and of the record behind it. */
static void test_cross_feed_end(void)
{
    static struct log log;
    struct feeding f;
    size_t at;

    log_long_header(&log, 8, 0x80);
    log_record(&log, 3, CROSS, 7, 0);
    start_feed(&f, 8, 2);
    for (at = 0; at <= log.size; at++) {
        unsigned answer = at < 12 ? 2 : at % 6 ? 3 : 0;
        uint64_t number = at < 12 ? 0 : (at - 12) / 6 + (answer == 3);

        start_again(&f);
        feed_or_end(&f, log.bytes, at, "a part of a log");
        expect_end(&f, answer, number, "its end");
        if (answer != 0)
            expect_stopped(&f, answer, number, "its end");
    }
    free_feed(&f);
}

/* Logs with crosslocks, in one piece, cut once at every byte and at all, and
 * some cut twice; behind an answer but 0 stands more. */
static void test_cross_feed_cuts(void)
{
    static const struct {
        uint8_t answer, number, records;
        uint8_t record[6][4]; /* core, kind, class, mode */
    } rows[] = {
        { 0, 1, 1, { { 0, CROSS, 3, 0 } } },
        { 1, 4, 4, { { 0, ACQUIRE, 1, E }, { 0, CROSS, 3, 0 },
                     { 1, ACQUIRE, 1, E }, { 1, COMMIT, 3, 0 } } },
        { 0, 5, 5, { { 0, ACQUIRE, 1, E }, { 0, CROSS, 3, 0 },
                     { 1, ACQUIRE, 1, TRY + E }, { 1, COMMIT, 3, 0 },
                     { 4, UNCROSS, 3, 0 } } },
        { 15, 1, 1, { { 0, ACQUIRE, 3, TRY + E } } },
        { 15, 1, 1, { { 0, CROSS, 1, 0 } } },
        { 16, 2, 2, { { 0, CROSS, 3, 0 }, { 1, CROSS, 3, 0 } } },
        { 17, 1, 1, { { 0, COMMIT, 3, 0 } } },
        { 17, 3, 3, { { 0, CROSS, 3, 0 }, { 1, UNCROSS, 3, 0 },
                      { 0, UNCROSS, 3, 0 } } },
        { 4, 1, 1, { { 0, CROSS, 4, 0 } } },
        { 3, 1, 1, { { 0, CROSS, 3, 1 } } },
        { 3, 1, 1, { { 0, 13, 3, 0 } } }
    };
    static struct log log;
    struct feeding f;
    size_t i, j;

    start_feed(&f, 4, 0);
    for (i = 0; i < sizeof rows / sizeof rows[0]; i++) {
        unsigned answer = rows[i].answer, number = rows[i].number;

        log_long_header(&log, 4, BIT(3));
        for (j = 0; j < rows[i].records; j++)
            log_record(&log, rows[i].record[j][0], rows[i].record[j][1],
                       rows[i].record[j][2], rows[i].record[j][3]);
        if (answer != 0) {
            log_record(&log, 6, ACQUIRE, 0, E);
            log_loose(&log, 3);
        }
        feed_cut(&f, &log, 0, answer, number, "one piece");
        feed_cut(&f, &log, UINT64_MAX, answer, number, "by bytes");
        for (j = 0; j + 1 < log.size; j++) {
            feed_cut(&f, &log, BIT(j), answer, number, "two pieces");
            feed_cut(&f, &log, BIT(j) | BIT(11), answer, number, "three");
        }
    }
    log_long_header(&log, 4, BIT(3)); /* all cuts of the header */
    feed_all_cuts(&f, &log, 0, 0, "cuts of a long header");
    log.size = 10;
    feed_all_cuts(&f, &log, 2, 0, "cuts of a part of it");
    free_feed(&f);
}

/* Feeds by hand with the loose bytes of a long header: fit up to eleven if the
 * third of them is 02. */
static void test_cross_feed_fit(void)
{
    struct feeding f;
    unsigned count, value, at;

    start_feed(&f, 8, 3);
    for (count = 0; count < 256; count += count < 20 ? 1 : 59) {
        for (value = 0; value < 256; value += value < 5 ? 1 : 50) {
            put_whole_feed(&f, 0, 0, count, 0);
            if (count > 2)
                put_feed(&f, LOOSE_AT + 2, value);
            if (count < (count > 2 && value == 2 ? 12u : 4u)) {
                expect_feed(&f, (const uint8_t *)"", 0, 0, 0, "fit, a header");
                for (at = count; at < 11; at++) {
                    put_feed(&f, LOOSE_AT + at, 2);
                    expect_unfit_feed(&f, "a place behind the loose bytes");
                    put_feed(&f, LOOSE_AT + at, 0);
                }
                if (count > 0) {
                    put_feed(&f, ANSWER_AT, 2);
                    expect_unfit_feed(&f, "2 with loose bytes");
                }
            } else {
                expect_unfit_feed(&f, "too many loose bytes of a header");
            }
            put_whole_feed(&f, 0, 1, count, 3);
            if (count > 2)
                put_feed(&f, LOOSE_AT + 2, value);
            if (count > 5)
                expect_unfit_feed(&f, "too many loose bytes of a record");
        }
    }
    for (value = 12; value < 256; value++) { /* answers that stand */
        put_whole_feed(&f, value, 1, 0, 7);
        if (value >= 15 && value <= 19)
            expect_stopped(&f, value, 7, "15 to 19");
        else
            expect_unfit_feed(&f, "12 to 14, and over 19");
        put_whole_feed(&f, value, 0, 0, 0);
        expect_unfit_feed(&f, "before opening");
    }
    free_feed(&f);
}

/* Histories of each length through a feed: 2 with the header, 11 with a record
 * and at the end. */
static void test_cross_feed_lengths(void)
{
    static struct log log;
    struct feeding f;
    unsigned i, loose;

    log_long_header(&log, 8, BIT(7));
    log_record(&log, 0, CROSS, 7, 0);
    start_feed(&f, 8, 0);
    for (i = 0; i <= 512; i++) {
        start_again(&f);
        f.history_len = i;
        expect_feed(&f, log.bytes, 11, 0, 0,
                    "short history, before the header");
        expect_feed(&f, log.bytes + 11, 7, i < 512 ? 2 : 0, i == 512,
                    "short history");
        expect_end(&f, i < 512 ? 2 : 0, i == 512, "short history, end");
    }
    for (loose = 0; loose <= 6; loose++) {
        start_again(&f);
        f.history_len = 512;
        expect_feed(&f, log.bytes, 12, 0, 0, "a header");
        f.history_len = 511;
        if (loose == 6) {
            expect_feed(&f, log.bytes + 12, 6, 11, 1, "short, a record");
            continue;
        }
        expect_feed(&f, log.bytes + 12, loose, 0, 0, "short, loose bytes");
        expect_end(&f, loose ? 11 : 0, loose > 0, "short, end");
        f.history_len = 512;
        start_again(&f);
        expect_feed(&f, log.bytes, 12 + loose, 0, 0, "another writer");
        put_entries(&f.b, KEPT_AT, 1);
        put_entry(&f.b, 0, 25, 0);
        expect_end(&f, loose ? 11 : 0, loose > 0, "an unfit entry, end");
    }
    free_feed(&f);
    for (i = 0; i < 512; i += 73) {
        start_all(&f, 8, FEED_SIZE, 1674, 64, 256, i, 57);
        expect_feed(&f, log.bytes, log.size, 2, 0, "a history that is short");
        free_feed(&f);
        start_all(&f, 8, FEED_SIZE + 9, 1674, 64, 256, 513 + i, 57);
        expect_feed(&f, log.bytes, log.size, 0, 1, "a longer history");
        free_feed(&f);
    }
}

/* Logs longer than every buffer, with crosslocks and handlers, of each ending,
 * in pieces of any size. */
static void test_cross_feed_long(void)
{
    static const unsigned endings[] = { 0, 1, 15, 16, 17, 18, 19, 3 };
    static const unsigned most[] = { 2, 13, 4000, 30000 };
    static struct log log;
    struct feeding f;
    unsigned i, j, n;

    seed = 20261122;
    start_feed(&f, 64, 0);
    for (i = 0; i < sizeof endings / sizeof endings[0]; i++) {
        for (j = 0; j < sizeof most / sizeof most[0]; j++) {
            struct said last = { 0, 0 };
            size_t at = 0;

            log_long_header(&log, 64, ~(uint64_t)0 << 40);
            for (n = 0; log.size < (j < 2 ? 1000u : 16600u); n++) {
                unsigned core = below(8), cross = 40 + below(24), k;

                log_record(&log, core, CROSS, cross, 0);
                for (k = below(6); k > 0; k--) {
                    unsigned low = below(39), other = below(8);

                    log_record(&log, other, ENTER_HARD, 0, 0);
                    log_record(&log, other, ACQUIRE, 39, R);
                    log_record(&log, other, RELEASE, 39, R);
                    log_record(&log, other, EXIT_HARD, 0, 0);
                    log_record(&log, core, ACQUIRE, low, TRY + E);
                    log_record(&log, core, RELEASE, low, TRY + E);
                }
                log_record(&log, core, COMMIT, cross, 0);
                log_record(&log, below(8), UNCROSS, cross, 0);
            }
            check(log.size > 16384 || j < 2, "a log that is long");
            switch (endings[i]) {
            case 1:
                log_record(&log, 0, ACQUIRE, 1, E);
                log_record(&log, 0, CROSS, 63, 0);
                log_record(&log, 1, ACQUIRE, 1, E);
                log_record(&log, 1, COMMIT, 63, 0);
                break;
            case 15: log_record(&log, 0, CROSS, 39, 0); break;
            case 17: log_record(&log, 0, COMMIT, 40, 0); break;
            case 16:
                log_record(&log, 0, CROSS, 40, 0);
                log_record(&log, 1, CROSS, 40, 0);
                break;
            case 18:
                for (n = 0; n < 17; n++)
                    log_record(&log, 0, CROSS, 40 + n, 0);
                break;
            case 19:
                log_record(&log, 0, CROSS, 40, 0);
                for (n = 0; n < 257; n++)
                    log_record(&log, n % 8, ACQUIRE, n / 8, R);
                break;
            case 3: log_loose(&log, 5); break;
            default: break;
            }
            start_again(&f);
            while (at < log.size) {
                size_t size = below(most[j]);

                if (size > log.size - at)
                    size = log.size - at;
                last = feed_or_end(&f, log.bytes + at, size, "a long log");
                at += size;
            }
            check(last.answer == (endings[i] == 3 ? 0 : endings[i]),
                  "a long log: %u, not %u", last.answer, endings[i]);
            last = feed_or_end(&f, NULL, 0, "a long log, end");
            check(last.answer == endings[i], "a long log, end: %u, not %u",
                  last.answer, endings[i]);
        }
    }
    free_feed(&f);
}

static void open_cross_benches(struct benches *n, unsigned k, uint64_t one,
                               uint64_t two, size_t tail)
{
    open_cross(&n->one, k, one, tail);
    open_cross(&n->two, k, two, tail);
    make_buffers(&n->b, k, tail);
}

/* Crosslocks in progress, kept acquires and since numbers, of any values. */
static void put_cross_busy(struct buffers *b, uint64_t progress, uint32_t kept)
{
    unsigned i;

    put_busy(b, 9);
    put_word(b, PROGRESS_AT, progress);
    put_entries(b, KEPT_AT, kept);
    for (i = 0; i < 64; i++)
        put_entries(b, SINCE_AT + 4 * i, i % 3 ? UINT32_MAX - i : i);
    for (i = 0; i < 512; i++) /* no fit history, and not handed over */
        b->history.bytes[i] = b->want_history.bytes[i] = 255;
}

/* 12 also for different words, between 11 and 13; the joined desk has the word,
 * and none in progress. */
static void test_cross_join(void)
{
    static const uint64_t words[] = { 0, 1, 2, 0x80, BIT(31), BIT(32), BIT(62),
                                      BIT(63), 0x0102030405060708, UINT64_MAX,
                                      UINT64_MAX - 1, UINT64_MAX >> 1 };
    const unsigned count = sizeof words / sizeof words[0];
    struct benches n;
    unsigned i, j, closed;

    for (i = 0; i < count; i++) {
        for (j = 0; j < count; j++) {
            open_cross_benches(&n, 64, words[i], words[j], 0);
            put_cross_busy(&n.one, 0, 256);
            put_cross_busy(&n.two, words[j] & 0x8040201008040201, 0);
            for (closed = 0; closed < 4; closed++) {
                put_desk(&n.one, CLOSED_AT, closed & 1);
                put_desk(&n.two, CLOSED_AT, closed / 2);
                expect_join(&n.one, &n.two, &n.b, i != j ? 12 : closed ? 13 : 0,
                            "words");
            }
            if (i == j) {
                put_desk(&n.one, CLOSED_AT, 0);
                put_desk(&n.two, CLOSED_AT, 0);
                expect_both_orders(&n.one, &n.two, &n.b, 0, "one word");
                check(word_at(n.b.desk.bytes + 1398) == words[i],
                      "one word: declared");
                check_progress(&n.b, 0, 0, "one word");
                for (closed = 1418; closed < 1674; closed++)
                    check_byte(&n.b, closed, 0, "one word: since numbers");
            }
            free_benches(&n);
        }
    }
    for (i = 0; i < 64; i++) { /* that differ in one class */
        open_cross_benches(&n, 64, UINT64_MAX, UINT64_MAX & ~BIT(i), 0);
        expect_join(&n.one, &n.two, &n.b, 12, "one class less");
        expect_join(&n.two, &n.one, &n.b, 12, "one class more");
        put_desk(&n.one, STATES_AT, 9);
        expect_join(&n.one, &n.two, &n.b, 11, "11 before 12");
        put_desk(&n.one, STATES_AT, 0);
        for (j = 0; j < LENT; j++)
            if (j == DESK_3 || j == SLIP_3)
                expect_join_less(&n.one, &n.two, &n.b, j, 1, 11,
                                 "a length, 11 before 12");
        free_benches(&n);
    }
    /* Words of other K: 12 by K, and the same. */
    open_cross(&n.one, 8, 0x80, 0);
    open_cross(&n.two, 9, 0x80, 0);
    make_buffers(&n.b, 9, 0);
    expect_join(&n.one, &n.two, &n.b, 12, "another K, the same word");
    free_benches(&n);
}

/* Each clause about crosslocks on a desk, in either bench; no history. */
static void test_cross_join_unfit(void)
{
    struct benches n;
    unsigned side, i;

    for (side = 0; side < 2; side++) {
        struct buffers *b = side ? &n.two : &n.one;

        open_cross_benches(&n, 20, 0xFFFFF, 0xFFFFF, 0);
        for (i = 0; i < 64; i++) {
            put_word(b, DECLARED_AT, 0xFFFFF | BIT(i));
            expect_join(&n.one, &n.two, &n.b, i < 20 ? 0 : 11, "declared");
            put_word(b, DECLARED_AT, 0xFFFFF);
            put_word(b, PROGRESS_AT, BIT(i));
            expect_join(&n.one, &n.two, &n.b, i < 20 ? 0 : 11, "in progress");
            put_word(b, PROGRESS_AT, 0);
        }
        for (i = 0; i <= 20; i++) {
            put_word(b, PROGRESS_AT, BIT(i) - 1);
            expect_join(&n.one, &n.two, &n.b, i <= 16 ? 0 : 11, "so many");
        }
        put_word(b, PROGRESS_AT, BIT(3));
        put_word(&n.one, DECLARED_AT, 0xFFFF7);
        put_word(&n.two, DECLARED_AT, 0xFFFF7);
        expect_join(&n.one, &n.two, &n.b, 11, "in progress, not declared");
        put_word(b, PROGRESS_AT, 0);
        for (i = 0; i < 32; i++) {
            put_entries(b, KEPT_AT, (uint32_t)1 << i);
            expect_join(&n.one, &n.two, &n.b, i <= 8 ? 0 : 11, "kept");
            put_entries(b, KEPT_AT, ((uint32_t)1 << i) + 1);
            expect_join(&n.one, &n.two, &n.b, i < 8 ? 0 : 11, "kept and one");
        }
        put_entries(b, KEPT_AT, 256);
        for (i = 0; i < 512; i++)
            b->history.bytes[i] = b->want_history.bytes[i] = 200;
        expect_join(&n.one, &n.two, &n.b, 0, "a history is not looked at");
        free_benches(&n);
    }
}

/* Benches in the middle of crosslocks: what they drew counts, what they kept
 * does not. The joined one goes on with any history. */
static void test_cross_join_on(void)
{
    static const uint8_t slip[] = { 2, 1, 2, 0, 2, 0, 0, 0,
                                    3, 2, 0, 3, 0, 0, 0 };
    struct benches n;
    unsigned i, fill;

    open_cross_benches(&n, 4, BIT(3), BIT(3), 2);
    expect_step(&n.one, 0, ACQUIRE, 1, E, 0, "bench 1, 1E");
    expect_step(&n.one, 0, CROSS, 3, 0, 0, "bench 1: 1 EN 3");
    expect_step(&n.two, 0, CROSS, 3, 0, 0, "bench 2, crosslock 3");
    expect_step(&n.two, 1, ACQUIRE, 1, E, 0, "bench 2, 1E");
    expect_both_orders(&n.one, &n.two, &n.b, 0, "no commit yet");
    expect_step(&n.two, 1, COMMIT, 3, 0, 0, "bench 2: 3 EN 1");
    expect_join(&n.one, &n.two, &n.b, 1, "both in progress");
    check_whole_slip(&n.b, slip, "both in progress");
    check_progress(&n.b, 0, 0, "both in progress");
    expect_step(&n.one, 1, ACQUIRE, 2, E, 0, "bench 1 goes on");
    check_entry(&n.one, 0, 4, 2, "bench 1 goes on");
    free_benches(&n);

    for (fill = 0; fill < 256; fill += 51) { /* any history, not prepared */
        open_cross_benches(&n, 4, BIT(3), BIT(3), 0);
        put_cross_busy(&n.one, BIT(3), 256);
        expect_join(&n.one, &n.two, &n.b, 0, "to be stepped on");
        for (i = 0; i < 512; i++)
            n.b.history.bytes[i] = n.b.want_history.bytes[i] = (uint8_t)fill;
        expect_step(&n.b, 0, COMMIT, 3, 0, 17, "not in progress");
        expect_step(&n.b, 0, ACQUIRE, 1, E, 0, "1E, not kept");
        expect_step(&n.b, 0, CROSS, 3, 0, 0, "crosslock 3");
        expect_step(&n.b, 1, COMMIT, 3, 0, 0, "nothing is kept");
        check_none_from(&n.b, 3, "nothing is kept");
        expect_step(&n.b, 1, ACQUIRE, 1, E, 0, "kept");
        check_entry(&n.b, 0, 4, 1, "kept");
        expect_step(&n.b, 1, COMMIT, 3, 0, 1, "the fault");
        expect_join(&n.b, &n.two, &n.one, 13, "closed");
        free_benches(&n);
    }
}

/* Kinds 10 to 12 pass refusal 3, and count for nothing. */
static void test_cross_balance(void)
{
    static struct log piece;
    unsigned kind, class_, mode, i;

    for (kind = CROSS; kind <= UNCROSS; kind++) {
        for (class_ = 0; class_ < 256; class_++) {
            for (mode = 0; mode < 7; mode++) {
                no_records(&piece);
                log_record(&piece, class_ % 8, kind, class_, mode);
                expect_no_balance(piece.bytes, 6, 0, "of a crosslock");
                log_record(&piece, 1, ACQUIRE, class_ % 64, mode % MODES);
                log_record(&piece, 1, kind, class_ % 64, 0);
                expect_one_balance(&piece, class_ % 64, 1, "and of a lock");
            }
        }
    }
    no_records(&piece);
    for (i = 0; i < MOST_RECORDS; i++)
        log_record(&piece, i % 8, CROSS + i % 3, i % 64, 0);
    expect_no_balance(piece.bytes, piece.size, 0, "the most of crosslocks");
}

/* ------------------------------------------------- the order of a merge */

/* Each core's records in its order; a log is a merge of them. From opening,
 * with kinds 0 to 9 and no malformed record, past refusals: however they are
 * merged the desk stays open or is closed, and left open it has the same bytes,
 * and so has the sheet. The second sheet may have other numbers. */
enum { MOST_OF_A_CORE = 600 };

struct parts {
    unsigned k;
    uint64_t declared;
    unsigned count[CORES];
    uint8_t records[CORES][MOST_OF_A_CORE][RECORD_SIZE];
};

static void no_parts(struct parts *p, unsigned k, uint64_t declared)
{
    p->k = k;
    p->declared = declared;
    memset(p->count, 0, sizeof p->count);
}

static void add_part(struct parts *p, unsigned core, unsigned kind,
                     unsigned class_, unsigned mode)
{
    uint8_t *record = p->records[core][p->count[core]];

    need(p->count[core] < MOST_OF_A_CORE);
    p->count[core]++;
    record[0] = 0x4C;
    record[1] = 0x4B;
    record[2] = (uint8_t)core;
    record[3] = (uint8_t)kind;
    record[4] = (uint8_t)class_;
    record[5] = (uint8_t)mode;
}

/* Which core's record is next: one core after another, from the last core to
 * the first, in turn, in turn from the last on, by chance, by chance in long
 * stretches, and one of the first core last. */
enum merge { CORE_AFTER_CORE, BACKWARD, IN_TURN, IN_TURN_BACKWARD, BY_CHANCE,
             BY_CHANCE_AGAIN, IN_STRETCHES, MERGES };

static unsigned next_core(const struct parts *p, enum merge merge,
                          const unsigned done[CORES], unsigned last)
{
    unsigned core = 0;

    switch (merge) {
    case CORE_AFTER_CORE: core = 0; break;
    case BACKWARD: core = CORES - 1; break;
    case IN_TURN: core = (last + 1) % CORES; break;
    case IN_TURN_BACKWARD: core = (last + CORES - 1) % CORES; break;
    case IN_STRETCHES: core = below(20) == 0 ? below(CORES) : last; break;
    default: core = below(CORES); break;
    }
    while (done[core] == p->count[core])
        core = (core + (merge == BACKWARD || merge == IN_TURN_BACKWARD
                        ? CORES - 1 : 1)) % CORES;
    return core;
}

/* What a merge has left. */
struct left {
    unsigned answers[20]; /* how many of each */
    uint8_t desk[PLUNGEROWL_DESK_SIZE], sheet[PLUNGEROWL_SHEET_SIZE(64)];
    uint8_t seen[PLUNGEROWL_SEEN_SIZE(64)];
};

/* A step, whatever is the answer: what is around the buffers stays, and with a
 * refusal what is in them. */
static unsigned step_any(struct buffers *b, const uint8_t *record,
                         const char *what)
{
    unsigned is = call_step(b, b->desk.size, b->sheet.size, b->seen.size,
                            b->history.size, b->slip.size, record, RECORD_SIZE,
                            what);

    if (is <= PLUNGEROWL_FAULT) {
        memcpy(b->want_desk.bytes, b->desk.bytes, PLUNGEROWL_DESK_SIZE);
        memcpy(b->want_sheet.bytes, b->sheet.bytes, b->k * b->k);
        memcpy(b->want_seen.bytes, b->seen.bytes, 4 * b->k * b->k);
    }
    if (is == PLUNGEROWL_FAULT)
        memcpy(b->want_slip.bytes, b->slip.bytes, PLUNGEROWL_SLIP_SIZE(b->k));
    check_buffers(b, what);
    return is;
}

/* The answer that is due to a record of a merge, by the copies. What draws and
 * marks nothing new leaves an open desk without a cycle. */
static unsigned merge_due(const struct buffers *b, const uint8_t *record)
{
    static uint8_t desk[1674], sheet[64 * 64], seen[4 * 64 * 64], history[512];
    unsigned due = cross_answer(b, record[2], record[3], record[4], record[5]);
    struct buffers after = *b;

    if (b->want_desk.bytes[CLOSED_AT] != 0)
        return PLUNGEROWL_CLOSED;
    if (due != 0)
        return due;
    memcpy(desk, b->want_desk.bytes, sizeof desk);
    memcpy(sheet, b->want_sheet.bytes, b->k * b->k);
    memcpy(seen, b->want_seen.bytes, 4 * b->k * b->k);
    memcpy(history, b->want_history.bytes, sizeof history);
    after.want_desk.bytes = desk;
    after.want_sheet.bytes = sheet;
    after.want_seen.bytes = seen;
    after.want_history.bytes = history;
    want_accepted(&after, record);
    if (memcmp(desk + MARKS_AT, b->want_desk.bytes + MARKS_AT, 64) == 0
        && memcmp(sheet, b->want_sheet.bytes, b->k * b->k) == 0)
        return 0;
    return least_cycle(&after)[0] != 0;
}

/* Run a merge from a fresh desk; by_copies: with every byte compared after
 * every record. */
static void run_merge(const struct parts *p, enum merge merge, size_t tail,
                      int by_copies, struct left *left, const char *what)
{
    unsigned done[CORES] = { 0 }, core = 0, all = 0, i;
    struct buffers b;

    memset(left->answers, 0, sizeof left->answers);
    make_buffers(&b, p->k, tail);
    b.declared = p->declared;
    expect_open(&b, p->k, 0, what);
    for (i = 0; i < CORES; i++)
        all += p->count[i];
    if (merge == IN_TURN)
        core = CORES - 1; /* so that core 0 is first */
    for (i = 0; i < all; i++) {
        const uint8_t *record;
        unsigned answer;

        core = next_core(p, merge, done, core);
        record = p->records[core][done[core]++];
        if (by_copies) {
            answer = merge_due(&b, record);
            expect_bytes(&b, record, RECORD_SIZE, answer, what);
        } else {
            answer = step_any(&b, record, what);
        }
        if (answer < 20)
            left->answers[answer]++;
    }
    memcpy(left->desk, b.desk.bytes, sizeof left->desk);
    memcpy(left->sheet, b.sheet.bytes, p->k * p->k);
    memcpy(left->seen, b.seen.bytes, 4 * p->k * p->k);
    free_buffers(&b);
}

/* Two merges of the same: both open and the same but for first-seen numbers, or
 * both closed, with one fault each. */
static void check_same_left(const struct parts *p, const struct left *one,
                            const struct left *other, unsigned merge,
                            const char *what)
{
    unsigned i;

    check(one->desk[CLOSED_AT] == other->desk[CLOSED_AT],
          "%s: closed %u, merge %u: closed %u", what, one->desk[CLOSED_AT],
          merge, other->desk[CLOSED_AT]);
    check(other->answers[PLUNGEROWL_FAULT] == other->desk[CLOSED_AT],
          "%s, merge %u: %u faults", what, merge,
          other->answers[PLUNGEROWL_FAULT]);
    if (one->desk[CLOSED_AT] != 0 || other->desk[CLOSED_AT] != 0)
        return;
    for (i = 0; i < PLUNGEROWL_DESK_SIZE && one->desk[i] == other->desk[i];)
        i++;
    check(i == PLUNGEROWL_DESK_SIZE, "%s, merge %u: desk byte %u", what, merge,
          i);
    for (i = 0; i < p->k * p->k && one->sheet[i] == other->sheet[i];)
        i++;
    check(i == p->k * p->k, "%s, merge %u: sheet byte %u", what, merge, i);
    for (i = 0; i < 20; i++)
        check(one->answers[i] == other->answers[i],
              "%s, merge %u: %u times %u", what, merge, other->answers[i], i);
    check(low_first(other->desk + ACCEPTED_AT) == other->answers[0],
          "%s, merge %u: the count", what, merge);
}

/* All merges; adds the answers of all up in met. Whether the desk is closed. */
static unsigned expect_same_left(const struct parts *p, int by_copies,
                                 unsigned met[20], const char *what)
{
    static struct left first, left;
    unsigned merge, i;

    for (merge = 0; merge < MERGES; merge++) {
        run_merge(p, (enum merge)merge, merge % 3 == 2 ? 9 : 0, by_copies,
                  merge == 0 ? &first : &left, what);
        check_same_left(p, &first, merge == 0 ? &first : &left, merge, what);
        for (i = 0; i < 20; i++)
            met[i] += merge == 0 ? first.answers[i] : left.answers[i];
    }
    return first.desk[CLOSED_AT];
}

/* By hand: what is left is known. A lock that several cores hold at once, one
 * acquired in a handler of one core while another is in none, a full frame
 * beside others, refusals between accepted records; then P2 and marks of two
 * cores. */
static void test_merge_by_hand(void)
{
    static struct parts p;
    static struct left left;
    unsigned met[20] = { 0 }, i, core;

    no_parts(&p, 8, 0);
    for (core = 0; core < CORES; core++) { /* the same lock on every core */
        add_part(&p, core, ACQUIRE, 1, E);
        add_part(&p, core, RELEASE, 2, E);
        add_part(&p, core, ACQUIRE, 2, E);
        add_part(&p, core, EXIT_SOFT, 0, 0);
        add_part(&p, core, ACQUIRE, 8, E);
    }
    check(!expect_same_left(&p, 1, met, "one lock on all cores"),
          "one lock on all cores: closed");
    check(met[0] == 16 * MERGES && met[4] == 8 * MERGES && met[5] == 8 * MERGES
          && met[6] == 8 * MERGES, "one lock on all cores: the answers");

    no_parts(&p, 8, BIT(5)); /* frames full beside each other */
    memset(met, 0, sizeof met);
    for (i = 0; i < 49; i++) {
        add_part(&p, 2, ACQUIRE, 1, R);
        add_part(&p, 3, ACQUIRE, 1, TRY + R);
    }
    add_part(&p, 1, ENTER_HARD, 0, 0);
    add_part(&p, 1, ACQUIRE, 7, E);
    add_part(&p, 1, EXIT_HARD, 0, 0); /* refused: 7 is held */
    add_part(&p, 0, ACQUIRE, 4, E);
    add_part(&p, 0, ACQUIRE, 5, E); /* a crosslock */
    check(!expect_same_left(&p, 1, met, "full frames"), "full frames: closed");
    check(met[0] == 99 * MERGES && met[8] == 2 * MERGES && met[7] == MERGES
          && met[15] == MERGES, "full frames: the answers");

    no_parts(&p, 3, 0); /* P2 */
    memset(met, 0, sizeof met);
    add_part(&p, 0, ACQUIRE, 1, E);
    add_part(&p, 0, ACQUIRE, 2, E);
    add_part(&p, 1, ACQUIRE, 2, E);
    add_part(&p, 1, ACQUIRE, 1, E);
    check(expect_same_left(&p, 1, met, "crosswise"), "crosswise: open");

    no_parts(&p, 1, 0); /* a task of one core, a handler of another */
    add_part(&p, 6, ACQUIRE, 0, E);
    add_part(&p, 6, RELEASE, 0, E);
    add_part(&p, 7, ENTER_HARD, 0, 0);
    add_part(&p, 7, ACQUIRE, 0, E);
    add_part(&p, 7, RELEASE, 0, E);
    add_part(&p, 7, EXIT_HARD, 0, 0);
    check(expect_same_left(&p, 1, met, "a handler"), "a handler: open");

    no_parts(&p, 3, 0); /* a fault by the first core alone, a record behind it */
    add_part(&p, 0, ACQUIRE, 0, E);
    add_part(&p, 0, ACQUIRE, 0, E);
    add_part(&p, 0, RELEASE, 0, E);
    add_part(&p, 4, ACQUIRE, 2, r);
    check(expect_same_left(&p, 1, met, "its own class"), "its own class: open");
    run_merge(&p, CORE_AFTER_CORE, 0, 1, &left, "its own class");
    check(left.answers[0] == 1 && left.answers[1] == 1 && left.answers[10] == 2,
          "its own class, the first core first: the answers");
    run_merge(&p, BACKWARD, 0, 1, &left, "its own class");
    check(left.answers[0] == 2 && left.answers[1] == 1 && left.answers[10] == 1,
          "its own class, the last core first: the answers");
}

/* The second sheet is left out above: a merge decides which record is the first
 * to draw. */
static void test_merge_seen(void)
{
    static struct parts p;
    static struct left up, down;
    uint8_t first[36] = { 0 }, second[36] = { 0 };

    no_parts(&p, 3, 0);
    add_part(&p, 0, ACQUIRE, 0, E);
    add_part(&p, 0, ACQUIRE, 1, E);
    add_part(&p, 1, ACQUIRE, 1, E);
    add_part(&p, 1, ACQUIRE, 2, E);
    run_merge(&p, CORE_AFTER_CORE, 0, 1, &up, "0 to 1, 1 to 2");
    run_merge(&p, BACKWARD, 0, 1, &down, "1 to 2, 0 to 1");
    check_same_left(&p, &up, &down, BACKWARD, "0 to 1, 1 to 2");
    first[4 * 1] = second[4 * 5] = 2; /* 0 to 1 is pair 1, 1 to 2 is pair 5 */
    first[4 * 5] = second[4 * 1] = 4;
    check(memcmp(up.seen, first, sizeof first) == 0, "0 to 1 is drawn first");
    check(memcmp(down.seen, second, sizeof second) == 0,
          "1 to 2 is drawn first");
    check(up.desk[CLOSED_AT] == 0 && low_first(up.desk + ACCEPTED_AT) == 4,
          "0 to 1, 1 to 2: open, of four records");
}

/* Kinds 10 to 12 are left out too: whether a crosslock is in progress, and what
 * was acquired since, is a matter of all cores. */
static void test_merge_cross(void)
{
    static struct parts p;
    static struct left left;
    struct buffers b;
    unsigned i;

    no_parts(&p, 8, BIT(3));
    add_part(&p, 0, ACQUIRE, 1, E);
    add_part(&p, 0, CROSS, 3, 0);
    add_part(&p, 1, ACQUIRE, 1, E);
    add_part(&p, 1, COMMIT, 3, 0);
    open_cross(&b, 8, BIT(3), 0);
    for (i = 0; i < 4; i++)
        expect_bytes(&b, p.records[i / 2][i % 2], RECORD_SIZE, i == 3,
                     "the crosslock first");
    check(b.desk.bytes[CLOSED_AT] == 1, "the crosslock first: open");
    free_buffers(&b);
    open_cross(&b, 8, BIT(3), 0);
    for (i = 0; i < 4; i++)
        expect_bytes(&b, p.records[1 - i / 2][i % 2], RECORD_SIZE,
                     i == 1 ? 17 : 0, "the commit first");
    check(b.desk.bytes[CLOSED_AT] == 0, "the commit first: closed");
    free_buffers(&b);
    run_merge(&p, CORE_AFTER_CORE, 0, 1, &left, "the crosslock first");
    check(left.answers[0] == 3 && left.answers[1] == 1, "0 0 0 1");
    run_merge(&p, BACKWARD, 0, 1, &left, "the commit first");
    check(left.answers[0] == 3 && left.answers[17] == 1, "0 17 0 0");
}

/* A core as a log goes along: its state, and what it holds in each frame. */
struct going {
    unsigned state, depth[3];
    uint8_t held[3][DEPTH], mode[3][DEPTH]; /* held: places among the classes */
};

/* How classes and modes are chosen: any; rising or falling in a frame, classes
 * of tasks, of soft and of hard handlers apart, which never is a fault of one
 * core, nor, if all rise, of several; reads and tries that never are one; any,
 * exclusive; rising, exclusive, any class for handlers too. */
enum choice { ANY, RISING, FALLING, READS, EXCLUSIVE, EXCLUSIVE_RISING };

/* A class for an acquire as its place among the n ordinary ones, or n. */
static unsigned choose_place(const struct going *g, unsigned n,
                             enum choice choice, int is_try)
{
    unsigned frame = g->state <= 3 ? 0 : g->state <= 5 ? 1 : 2;
    unsigned from = (frame * n + 2) / 3, to = ((frame + 1) * n + 2) / 3, i;

    if (choice == EXCLUSIVE_RISING)
        from = 0, to = n;
    else if (choice != RISING && choice != FALLING)
        return n == 0 ? n : below(n);
    for (i = 0; i < g->depth[frame] && !is_try; i++) {
        if (choice != FALLING && g->held[frame][i] >= from)
            from = g->held[frame][i] + 1u;
        if (choice == FALLING && g->held[frame][i] < to)
            to = g->held[frame][i];
    }
    return from < to ? from + below(to - from) : n;
}

/* Add a record of a core, mostly one that is accepted. */
static void add_any(struct parts *p, struct going *g, unsigned core,
                    const uint8_t *ordinary, unsigned n, enum choice choice)
{
    static const uint8_t reads[] = { R, R, TRY + r, TRY + R };
    unsigned frame = g->state <= 3 ? 0 : g->state <= 5 ? 1 : 2, i;
    unsigned chance = below(32), depth = g->depth[frame], place, mode, kind;

    kind = below(2);
    mode = below(MODES);
    if (chance == 0) { /* 4 */
        add_part(p, core, kind, p->k + below(256 - p->k), mode);
        return;
    }
    if (chance == 1 && p->declared != 0) { /* 15 */
        for (i = below(64); !(p->declared & BIT(i)); i = (i + 1) % 64)
            ;
        add_part(p, core, kind, i, mode);
        return;
    }
    if (chance == 2 && n > 0) { /* 5 */
        place = below(n);
        for (i = depth; i-- > 0 && g->held[frame][i] != place;)
            ;
        if (i == (unsigned)-1 || g->mode[frame][i] != mode) {
            add_part(p, core, RELEASE, ordinary[place], mode);
            return;
        }
    }
    if (chance < 10) { /* an event; 6 and 7 too */
        kind = chance < 7 && g->state >= 4
               ? (g->state >= 6 ? EXIT_HARD : EXIT_SOFT) : HARD_ON + below(8);
        add_part(p, core, kind, 0, 0);
        if (next_state[g->state][kind - HARD_ON] >= 0
            && (depth == 0 || (kind != EXIT_SOFT && kind != EXIT_HARD)))
            g->state = (unsigned)next_state[g->state][kind - HARD_ON];
        return;
    }
    if (depth > 0 && (choice == READS ? chance < 15
                      : chance < 18 || depth > 3)) {
        place = g->held[frame][below(depth)];
        for (i = depth - 1; g->held[frame][i] != place; i--)
            ;
        add_part(p, core, RELEASE, ordinary[place], g->mode[frame][i]);
        for (; i + 1 < depth; i++) {
            g->held[frame][i] = g->held[frame][i + 1];
            g->mode[frame][i] = g->mode[frame][i + 1];
        }
        g->depth[frame]--;
        return;
    }
    mode = choice == READS ? reads[below(4)]
           : choice >= EXCLUSIVE ? (below(4) == 0 ? TRY + E : E) : below(MODES);
    place = choose_place(g, n, choice, mode >= TRY);
    if (place == n)
        return;
    add_part(p, core, ACQUIRE, ordinary[place], mode);
    if (depth < DEPTH) {
        g->held[frame][depth] = (uint8_t)place;
        g->mode[frame][depth] = (uint8_t)mode;
        g->depth[frame]++;
    }
}

/* Parts of so many records for each of the first cores. One core of falling
 * ones chooses so, the others rise. */
static void make_parts(struct parts *p, unsigned k, uint64_t declared,
                       unsigned cores, unsigned records, enum choice choice)
{
    struct going g;
    uint8_t ordinary[64];
    unsigned n = 0, core, i, falls = below(cores);

    no_parts(p, k, declared);
    for (i = 0; i < k; i++)
        if (!(declared & BIT(i)))
            ordinary[n++] = (uint8_t)i;
    for (core = 0; core < cores; core++) {
        memset(&g, 0, sizeof g);
        for (i = 0; i < records; i++)
            add_any(p, &g, core, ordinary, n,
                    choice == FALLING && core != falls ? RISING : choice);
    }
}

/* Of every fourth class up to K some are declared, or none is. */
static uint64_t any_declared(unsigned k, int some)
{
    uint64_t word = 0;
    unsigned i;

    for (i = 0; i < k && some; i++)
        if (below(4) == 0)
            word |= BIT(i);
    if (some && word == 0)
        word = BIT(below(k));
    return word;
}

static const unsigned merge_sizes[] = { 1, 3, 8, 64 };

/* Random logs of every choice, by the calls alone: nothing else says what is
 * due. */
static void test_merge_random(void)
{
    static struct parts p;
    unsigned met[20] = { 0 }, closed[5] = { 0 }, open[5] = { 0 }, run, i;

    seed = 20261122 + sides;
    for (run = 0; run < 120; run++) {
        enum choice choice = (enum choice)(run % 5);
        unsigned k = merge_sizes[run / 5 % 4], cores = 2 + below(7);
        unsigned few = 4 + below(6);

        make_parts(&p, k, any_declared(k, run / 20 % 2), cores,
                   choice == READS ? 60 + run % 40 * 3 : choice == RISING ? 30
                   : choice == FALLING ? 60 : few, choice);
        if (expect_same_left(&p, 0, met, "a random merge"))
            closed[choice]++;
        else
            open[choice]++;
    }
    check(closed[RISING] == 0 && closed[READS] == 0,
          "random merges: %u and %u are closed", closed[RISING], closed[READS]);
    check(closed[ANY] > 4 && open[ANY] > 1 && closed[FALLING] > 2
          && open[FALLING] > 4 && closed[EXCLUSIVE] > 4 && open[EXCLUSIVE] > 1,
          "random merges: closed %u %u %u, open %u %u %u", closed[ANY],
          closed[FALLING], closed[EXCLUSIVE], open[ANY], open[FALLING],
          open[EXCLUSIVE]);
    for (i = 0; i < 20; i++)
        check((met[i] > 0) == (i <= 1 || (i >= 4 && i <= 8) || i == 10
                               || i == 15),
              "random merges: %u times %u", met[i], i);
}

/* The same with every byte compared, which says of each record what is due. */
static void test_merge_copies(void)
{
    static struct parts p;
    unsigned met[20] = { 0 }, closed = 0, run;

    seed = 20261123 + sides;
    for (run = 0; run < 30; run++) {
        unsigned k = merge_sizes[run % 3], cores = 2 + below(7);

        make_parts(&p, k, any_declared(k, run / 3 % 2), cores,
                   run % 5 == READS ? 60 : 12, (enum choice)(run % 5));
        closed += expect_same_left(&p, 1, met, "a merge by its copies");
    }
    check(closed > 5 && closed < 25, "merges by their copies: %u closed",
          closed);
}

/* Logs that are longer than any buffer, which is the second sheet of 64
 * classes; the last records of two cores close the desk, or do not. */
static void test_merge_long(void)
{
    static struct parts p;
    unsigned met[20] = { 0 }, run, core, all;

    seed = 20261124 + sides;
    for (run = 0; run < 3; run++) {
        struct going fresh;
        uint8_t ordinary[64];
        unsigned n = 0, i;
        uint64_t declared = run == 1 ? BIT(0) | BIT(63) | BIT(31) : 0;

        no_parts(&p, 64, declared);
        for (i = 0; i < 64; i++)
            if (!(declared & BIT(i)))
                ordinary[n++] = (uint8_t)i;
        for (core = all = 0; core < CORES; core++) {
            memset(&fresh, 0, sizeof fresh);
            while (p.count[core] < 390)
                add_any(&p, &fresh, core, ordinary, n,
                        run == 1 ? READS : RISING);
            /* back to a task with nothing held in it */
            while (fresh.state >= 4) {
                unsigned frame = fresh.state >= 6 ? 2 : 1;

                if (fresh.state == 5) {
                    add_part(&p, core, HARD_ON, 0, 0);
                    fresh.state = 4;
                }
                while (fresh.depth[frame] > 0) {
                    fresh.depth[frame]--;
                    add_part(&p, core, RELEASE,
                             ordinary[fresh.held[frame][fresh.depth[frame]]],
                             fresh.mode[frame][fresh.depth[frame]]);
                }
                add_part(&p, core, frame == 2 ? EXIT_HARD : EXIT_SOFT, 0, 0);
                fresh.state = (unsigned)next_state[fresh.state][frame == 2 ? 7
                                                                           : 5];
            }
            while (fresh.depth[0] > 0) {
                fresh.depth[0]--;
                add_part(&p, core, RELEASE,
                         ordinary[fresh.held[0][fresh.depth[0]]],
                         fresh.mode[0][fresh.depth[0]]);
            }
            if (run == 2 && core % 7 == 0) { /* 1E and 2E, and crosswise */
                add_part(&p, core, ACQUIRE, core == 0 ? 1 : 2, E);
                add_part(&p, core, ACQUIRE, core == 0 ? 2 : 1, E);
            }
            all += p.count[core];
        }
        check(RECORD_SIZE * all > PLUNGEROWL_SEEN_SIZE(64),
              "a long merge: %u records", all);
        check(expect_same_left(&p, 0, met, "a long merge") == (run == 2),
              "a long merge: run %u", run);
    }
}

/* -------------------------------------------- with exclusive acquires only */

/* The three rules of the user's document on lock classes, worked out from the
 * bytes: a circle of lock dependencies; a class that is both safe and unsafe at
 * a level; a path of lock dependencies, one or more, from a safe class of a
 * level to an unsafe one of it. */
enum { CIRCLE = 1, HARD_CLASS = 2, SOFT_CLASS = 4, HARD_PATH = 8,
       SOFT_PATH = 16, RULES = 32 };

static unsigned broken_rules(const uint8_t *desk, const uint8_t *sheet,
                             unsigned k)
{
    uint64_t to[64], safe[2] = { 0, 0 }, unsafe[2] = { 0, 0 };
    unsigned broken = 0, i, j, level;

    for (i = 0; i < k; i++) {
        to[i] = 0;
        for (j = 0; j < k; j++)
            if (sheet[i * k + j] != 0)
                to[i] |= BIT(j);
        for (level = 0; level < 2; level++) {
            unsigned marks = desk[MARKS_AT + i] >> 4 * level & 15;

            safe[level] |= (marks & 3) != 0 ? BIT(i) : 0;
            unsafe[level] |= (marks & 12) != 0 ? BIT(i) : 0;
        }
    }
    for (j = 0; j < k; j++) /* paths through classes up to j */
        for (i = 0; i < k; i++)
            if (to[i] & BIT(j))
                to[i] |= to[j];
    for (i = 0; i < k; i++) {
        if (to[i] & BIT(i))
            broken |= CIRCLE;
        for (level = 0; level < 2; level++) {
            if (safe[level] & unsafe[level] & BIT(i))
                broken |= level ? SOFT_CLASS : HARD_CLASS;
            if ((safe[level] & BIT(i)) && (to[i] & unsafe[level]))
                broken |= level ? SOFT_PATH : HARD_PATH;
        }
    }
    return broken;
}

/* A step of a log with exclusive acquires: a fault exactly where a rule is
 * broken now. Which are, if it is accepted. */
static unsigned expect_rules(struct buffers *b, const uint8_t *record,
                             const char *what)
{
    unsigned answer = step_any(b, record, what), broken;

    if (answer > PLUNGEROWL_FAULT)
        return 0;
    broken = broken_rules(b->desk.bytes, b->sheet.bytes, b->k);
    check((broken != 0) == (answer == PLUNGEROWL_FAULT),
          "%s: answer %u, broken rules %u", what, answer, broken);
    return broken;
}

struct ruled {
    const char *what;
    unsigned broken;
    uint8_t records[16][4]; /* core, kind, class and mode; then core 255 */
};

#define HANDLER(core, level, class_) \
    { core, ENTER_##level, 0, 0 }, { core, ACQUIRE, class_, E }, \
    { core, RELEASE, class_, E }, { core, EXIT_##level, 0, 0 }
#define PAIR(core, one, other) \
    { core, ACQUIRE, one, E }, { core, ACQUIRE, other, E }, \
    { core, RELEASE, other, E }, { core, RELEASE, one, E }
#define OFF(core) { core, HARD_OFF, 0, 0 }

/* The last record breaks the rule. With hard interrupts off no class is
 * unsafe. */
static const struct ruled ruled[] = {
    { "a circle of one", CIRCLE,
      { OFF(0), { 0, ACQUIRE, 3, E }, { 0, ACQUIRE, 3, E }, { 255, 0, 0, 0 } } },
    { "a circle of two", CIRCLE,
      { OFF(0), OFF(1), PAIR(0, 1, 2), { 1, ACQUIRE, 2, E },
        { 1, ACQUIRE, 1, E }, { 255, 0, 0, 0 } } },
    { "a circle of three", CIRCLE,
      { OFF(0), PAIR(0, 1, 2), PAIR(0, 2, 4), { 0, ACQUIRE, 4, E },
        { 0, ACQUIRE, 1, E }, { 255, 0, 0, 0 } } },
    { "a class in a task and in a hard handler", HARD_CLASS,
      { { 0, ACQUIRE, 3, E }, { 0, RELEASE, 3, E }, { 1, ENTER_HARD, 0, 0 },
        { 1, ACQUIRE, 3, E }, { 255, 0, 0, 0 } } },
    { "a class in a hard handler and in a task", HARD_CLASS,
      { HANDLER(1, HARD, 3), { 0, SOFT_OFF, 0, 0 }, { 0, ACQUIRE, 3, E },
        { 255, 0, 0, 0 } } },
    { "a class in a task and in a soft handler", SOFT_CLASS,
      { { 0, ACQUIRE, 3, E }, { 0, RELEASE, 3, E }, { 1, ENTER_SOFT, 0, 0 },
        { 1, ACQUIRE, 3, E }, { 255, 0, 0, 0 } } },
    { "a class in a soft handler and in a task", SOFT_CLASS,
      { HANDLER(1, SOFT, 3), { 0, ACQUIRE, 3, E }, { 255, 0, 0, 0 } } },
    { "a hard path of one, its end unsafe last", HARD_PATH,
      { HANDLER(0, HARD, 1), OFF(2), PAIR(2, 1, 4), { 3, ACQUIRE, 4, E },
        { 255, 0, 0, 0 } } },
    { "a hard path of one, drawn last", HARD_PATH,
      { HANDLER(0, HARD, 1), { 3, ACQUIRE, 4, E }, OFF(2),
        { 2, ACQUIRE, 1, E }, { 2, ACQUIRE, 4, E }, { 255, 0, 0, 0 } } },
    { "a hard path of one, its begin safe last", HARD_PATH,
      { { 3, ACQUIRE, 4, E }, OFF(2), PAIR(2, 1, 4), { 0, ENTER_HARD, 0, 0 },
        { 0, ACQUIRE, 1, E }, { 255, 0, 0, 0 } } },
    { "a hard path of three", HARD_PATH,
      { { 3, ACQUIRE, 6, E }, OFF(2), PAIR(2, 1, 4), PAIR(2, 5, 6),
        { 2, ACQUIRE, 4, E }, { 2, ACQUIRE, 5, E }, { 0, ENTER_HARD, 0, 0 },
        { 0, ACQUIRE, 1, E }, { 255, 0, 0, 0 } } },
    { "a soft path of one, its end unsafe last", SOFT_PATH,
      { HANDLER(0, SOFT, 1), OFF(2), PAIR(2, 1, 4), { 3, ACQUIRE, 4, E },
        { 255, 0, 0, 0 } } },
    { "a soft path of one, drawn last", SOFT_PATH,
      { HANDLER(0, SOFT, 1), { 3, ACQUIRE, 4, E }, OFF(2),
        { 2, ACQUIRE, 1, E }, { 2, ACQUIRE, 4, E }, { 255, 0, 0, 0 } } },
    { "a soft path of one, its begin safe last", SOFT_PATH,
      { { 3, ACQUIRE, 4, E }, OFF(2), PAIR(2, 1, 4), { 0, ENTER_SOFT, 0, 0 },
        { 0, ACQUIRE, 1, E }, { 255, 0, 0, 0 } } },
    { "a soft path of three", SOFT_PATH,
      { { 3, ACQUIRE, 6, E }, OFF(2), PAIR(2, 1, 4), PAIR(2, 5, 6),
        { 2, ACQUIRE, 4, E }, { 2, ACQUIRE, 5, E }, { 0, ENTER_SOFT, 0, 0 },
        { 0, ACQUIRE, 1, E }, { 255, 0, 0, 0 } } },
    /* Clean: the levels are apart, and a path goes along its dependencies. */
    { "from a soft-safe class to one that is hard-unsafe only", 0,
      { HANDLER(0, SOFT, 1), { 3, SOFT_OFF, 0, 0 }, { 3, ACQUIRE, 4, E }, OFF(2),
        { 2, ACQUIRE, 1, E }, { 2, ACQUIRE, 4, E }, { 255, 0, 0, 0 } } },
    { "from an unsafe class to a hard-safe one", 0,
      { HANDLER(0, HARD, 1), { 3, ACQUIRE, 4, E }, OFF(2), { 2, ACQUIRE, 4, E },
        { 2, ACQUIRE, 1, E }, { 255, 0, 0, 0 } } },
    { "soft-safe and hard-unsafe", 0,
      { HANDLER(0, SOFT, 1), { 3, SOFT_OFF, 0, 0 }, { 3, ACQUIRE, 1, E },
        { 255, 0, 0, 0 } } },
    { "hard-safe and a soft-safe class that it leads to", 0,
      { HANDLER(0, HARD, 1), { 1, ENTER_SOFT, 0, 0 }, OFF(1),
        { 1, ACQUIRE, 4, E }, OFF(2), { 2, ACQUIRE, 1, E },
        { 2, ACQUIRE, 4, E }, { 255, 0, 0, 0 } } }
};

static void test_rules_by_hand(void)
{
    unsigned alone = 0, i, j;
    struct buffers b;

    for (i = 0; i < sizeof ruled / sizeof ruled[0]; i++) {
        unsigned broken = 0;

        open_buffers(&b, 8, i % 2 ? 7 : 0);
        for (j = 0; ruled[i].records[j][0] != 255; j++) {
            uint8_t record[RECORD_SIZE] = { 0x4C, 0x4B };

            memcpy(record + 2, ruled[i].records[j], 4);
            check(broken == 0, "%s: broken before record %u", ruled[i].what, j);
            expect_bytes(&b, record, RECORD_SIZE,
                         ruled[i].broken != 0
                         && ruled[i].records[j + 1][0] == 255, ruled[i].what);
            broken = broken_rules(b.desk.bytes, b.sheet.bytes, 8);
        }
        check(broken == ruled[i].broken, "%s: broken rules %u, not %u",
              ruled[i].what, broken, ruled[i].broken);
        alone |= broken;
        free_buffers(&b);
    }
    check(alone == RULES - 1, "rules by hand: %u alone", alone);
}

/* Exclusive acquires of three cores: in handlers, in pairs with hard off, and
 * alone in a task. */
static void make_roles(struct parts *p, unsigned k, unsigned records)
{
    unsigned i;

    no_parts(p, k, 0);
    add_part(p, 1, HARD_OFF, 0, 0);
    for (i = 0; i < records; i++) {
        unsigned hard = below(2), class_ = below(k), other = below(k);

        add_part(p, 0, hard ? ENTER_HARD : ENTER_SOFT, 0, 0);
        add_part(p, 0, ACQUIRE, class_, E);
        add_part(p, 0, RELEASE, class_, E);
        add_part(p, 0, hard ? EXIT_HARD : EXIT_SOFT, 0, 0);
        class_ = below(k);
        add_part(p, 1, ACQUIRE, class_, E);
        add_part(p, 1, ACQUIRE, other, class_ == other ? TRY + E : E);
        add_part(p, 1, RELEASE, other, class_ == other ? TRY + E : E);
        add_part(p, 1, RELEASE, class_, E);
        class_ = below(k);
        add_part(p, 2, below(2) ? SOFT_OFF : SOFT_ON, 0, 0);
        add_part(p, 2, ACQUIRE, class_, E);
        add_part(p, 2, RELEASE, class_, E);
    }
}

/* Random logs of exclusive acquires, tries too, up to the fault. */
static void test_rules_random(void)
{
    static struct parts p;
    unsigned met[RULES] = { 0 }, clean = 0, run, i;

    seed = 20261125 + sides;
    for (run = 0; run < 900; run++) {
        unsigned k = run % 40 == 0 ? 64 : 2 + below(7), broken = 0, core = 0;
        unsigned done[CORES] = { 0 }, all = 0, cores = 1 + below(3);
        unsigned records = 4 + below(25);
        struct buffers b;

        if (run % 3 == 0)
            make_roles(&p, k, records / 4);
        else
            make_parts(&p, k, any_declared(k, run % 7 == 0), cores,
                       records, run % 3 == 1 ? EXCLUSIVE
                                                   : EXCLUSIVE_RISING);
        make_buffers(&b, k, run % 3);
        b.declared = p.declared;
        expect_open(&b, k, 0, "exclusive");
        for (i = 0; i < CORES; i++)
            all += p.count[i];
        for (i = 0; i < all && broken == 0; i++) {
            core = next_core(&p, BY_CHANCE, done, core);
            broken = expect_rules(&b, p.records[core][done[core]++],
                                  "exclusive and random");
        }
        met[broken]++;
        clean += broken == 0;
        free_buffers(&b);
    }
    for (i = 1; i < RULES; i *= 2)
        check(met[i] > 3, "random rules: %u times %u alone", met[i], i);
    check(clean > 10, "random rules: %u clean", clean);
}

/* ------------------------------------------------------------------- main */

/* A call gave each of these answers, and no other. */
static void check_met(const char *call, const int met[256], const char *answers)
{
    unsigned i;

    for (i = 0; i < 256; i++)
        check((met[i] != 0) == (i < strlen(answers) && answers[i] == 'x'),
              "%s: answer %u %s given", call, i, met[i] ? "was" : "was never");
}

struct test {
    const char *name;
    void (*run)(void);
};

#define TEST(name) { #name, test_##name }

static const struct test tests[] = {
    TEST(sizes), TEST(numbers),
    TEST(open_refused), TEST(open_accepted), TEST(reopen),
    TEST(p2), TEST(two_cycles), TEST(full_slip), TEST(release_order),
    TEST(frames), TEST(late_mark), TEST(standing_cycle),
    TEST(refusal_3), TEST(refusal_4), TEST(refusal_5),
    TEST(table), TEST(table_marks), TEST(acquire_marks), TEST(kinds),
    TEST(refusal_7), TEST(refusal_8), TEST(order), TEST(closed),
    TEST(closed_by_hand),
    TEST(try_example), TEST(try_held_byte), TEST(origin_acquires),
    TEST(origin_releases), TEST(origin_bytes), TEST(origin_edges),
    TEST(origin_moves), TEST(origin_last),
    TEST(try_dependencies), TEST(try_crosswise), TEST(try_marks),
    TEST(try_in_handlers), TEST(try_over_hard_on), TEST(try_same_class),
    TEST(try_other_frame), TEST(try_release), TEST(try_full),
    TEST(release_table), TEST(release_modes), TEST(release_pairs),
    TEST(release_classes), TEST(release_frames), TEST(release_from_top),
    TEST(release_places), TEST(release_every_mode), TEST(release_fault),
    TEST(unfit_lengths), TEST(short_buffers), TEST(old_slip), TEST(unfit_heads),
    TEST(unfit_held), TEST(unfit_origins), TEST(unfit_frames),
    TEST(unfit_marks), TEST(fullest), TEST(unfit_sheet),
    TEST(ask_refused), TEST(ask_arrivals), TEST(ask_back), TEST(ask_marks),
    TEST(feed_start), TEST(feed_again), TEST(feed_example), TEST(feed_header),
    TEST(feed_record), TEST(feed_cuts), TEST(feed_between), TEST(feed_long),
    TEST(feed_many), TEST(feed_two), TEST(feed_stop), TEST(feed_end),
    TEST(feed_end_loose), TEST(feed_end_order), TEST(feed_not_looked_at),
    TEST(feed_short), TEST(feed_unfit), TEST(feed_fit), TEST(feed_by_hand),
    TEST(feed_number), TEST(feed_lengths), TEST(feed_classes),
    TEST(feed_other_writer), TEST(feed_releases),
    TEST(shown_by_hand), TEST(shown_kinds), TEST(shown_sources),
    TEST(shown_ring), TEST(shown_ties), TEST(shown_by_any_record),
    TEST(shown_in_logs), TEST(shown_all_tried), TEST(shown_layers),
    TEST(shown_random_logs),
    TEST(clashes), TEST(clashes_and_locks), TEST(clashes_of_two),
    TEST(count), TEST(count_carries), TEST(count_full), TEST(count_full_fault),
    TEST(count_order), TEST(seen_places), TEST(seen_by_one),
    TEST(seen_later_kind), TEST(seen_try), TEST(seen_refused),
    TEST(seen_by_marks), TEST(seen_of_the_fault), TEST(seen_long),
    TEST(seen_from_elsewhere), TEST(seen_not_compared),
    TEST(seen_older_not_shown), TEST(seen_past),
    TEST(unfit_numbers), TEST(any_count), TEST(above_count),
    TEST(unfit_last_pair),
    TEST(feed_seen), TEST(feed_count_full),
    TEST(depth_limit), TEST(depth_steps), TEST(depth_three), TEST(depth_faults),
    TEST(depth_marks), TEST(depth_newest), TEST(depth_random), TEST(depth_fed),
    TEST(old_lengths), TEST(old_lengths_fed), TEST(old_desks),
    TEST(join_example), TEST(join_every_k), TEST(join_lengths),
    TEST(join_short), TEST(join_classes), TEST(join_other_classes),
    TEST(join_closed), TEST(join_order), TEST(join_unfit),
    TEST(join_unfit_halves), TEST(join_untied), TEST(join_fresh),
    TEST(join_parts), TEST(join_marks), TEST(join_kinds), TEST(join_pairs),
    TEST(join_all_pairs), TEST(join_numbers), TEST(join_number_of_other_kind),
    TEST(join_shown), TEST(join_there_and_back), TEST(join_by_marks),
    TEST(join_by_marks_of_logs), TEST(join_paths), TEST(join_full_slip),
    TEST(join_own_cycle), TEST(join_itself), TEST(join_overlap),
    TEST(join_read_only), TEST(join_past), TEST(join_over), TEST(join_refused),
    TEST(join_fullest), TEST(join_step_on), TEST(join_step_refused),
    TEST(join_feed_on), TEST(join_on), TEST(join_random), TEST(join_logs),
    TEST(balance_example), TEST(balance_written), TEST(balance_lengths),
    TEST(balance_longer), TEST(balance_huge), TEST(balance_header),
    TEST(balance_bytes), TEST(balance_pairs), TEST(balance_as_step),
    TEST(balance_cores), TEST(balance_kinds), TEST(balance_modes),
    TEST(balance_releases), TEST(balance_classes), TEST(balance_malformed),
    TEST(balance_malformed_long), TEST(balance_numbers), TEST(balance_most),
    TEST(balance_order), TEST(balance_not_accepted), TEST(balance_random),
    TEST(balance_joined), TEST(balance_again), TEST(balance_places),
    TEST(balance_read_only),
    TEST(cross_example), TEST(cross_visit_example), TEST(cross_open),
    TEST(cross_lengths), TEST(cross_refusal_3), TEST(cross_sorts),
    TEST(cross_order), TEST(cross_states), TEST(cross_marks), TEST(cross_take),
    TEST(cross_commit), TEST(cross_frames), TEST(cross_since), TEST(cross_list),
    TEST(cross_kept), TEST(cross_full), TEST(cross_entries), TEST(cross_visits),
    TEST(cross_visits_kept), TEST(cross_nested), TEST(cross_numbers),
    TEST(cross_strong), TEST(cross_shown), TEST(cross_unfit),
    TEST(cross_unfit_history), TEST(cross_elsewhere), TEST(cross_none),
    TEST(cross_random), TEST(cross_feed_header), TEST(cross_feed_end),
    TEST(cross_feed_cuts), TEST(cross_feed_fit), TEST(cross_feed_lengths),
    TEST(cross_feed_long), TEST(cross_join), TEST(cross_join_unfit),
    TEST(cross_join_on), TEST(cross_balance),
    TEST(merge_by_hand), TEST(merge_seen), TEST(merge_cross),
    TEST(merge_random), TEST(merge_copies), TEST(merge_long),
    TEST(rules_by_hand), TEST(rules_random)
};

/* Run the test of the name, or all for NULL; how many were run. */
static size_t run_tests(const char *name)
{
    size_t i, run = 0;

    for (i = 0; i < sizeof tests / sizeof tests[0]; i++) {
        if (name == NULL || strcmp(name, tests[i].name) == 0) {
            tests[i].run();
            run++;
        }
    }
    return run;
}

int main(int argc, char **argv)
{
    const char *name;

    only_first = argc > 1 && strcmp(argv[1], "--first") == 0;
    name = argv[1 + only_first];
    for (sides = GUARD_BOTH; sides <= FENCE_BEHIND; sides++) {
        if (run_tests(name) == 0) {
            fprintf(stderr, "selftest: no test %s\n", name);
            return 2;
        }
    }
    if (name == NULL) {
        /* The answers from 0 on: x given, - not. */
        check_met("open", open_met, "x-x");
        check_met("step", step_met, "xx-xxxxxxxxx---xxxxx");
        check_met("ask", ask_met, "x---x------x");
        check_met("start", start_met, "x-x");
        check_met("feed", feed_met, "xxxxxxxxxxxx---xxxxx");
        check_met("end", end_met, "xxxxxxxxxxxx---xxxxx");
        check_met("balance", balance_met, "x-------------x");
        check_met("join", join_met, "xx---------xxx");
    }
    printf("selftest: %lu checks, %lu wrong\n", checks, failures);
    return failures == 0 ? 0 : 1;
}
