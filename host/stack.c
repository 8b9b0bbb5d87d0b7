/*
 * stack.c - measure the stack that each call of libplungerowl.a uses, and hold
 * it to the limits of plungerowl.h.
 *
 * Each call runs on a painted stack; it used what lies between its caller's
 * stack pointer and the lowest byte that no longer has the paint. The most that
 * any input took is printed for some K. Wrong are, at K = 64: more than the
 * limit, less than half of it (the limit is stale), a call that does not get by
 * with a stack of exactly the limit and a guard page behind it, and one that
 * gets by with less than was measured (then the measure is wrong). Wrong is
 * also a limit of step, feed or join over 16 KB, which is promised for every
 * input.
 *
 * The worst input is known from crates/search/src/lib.rt. Whether there is a
 * cycle is found by arrived_by_n and arrived_by_r, which call each other from
 * class to class; their path passes a class at most twice, once arrived at by N
 * and once by R. The deepest input has a path of all 2 K arrivals, and no
 * cycle: a ring of SN with ER beside it, closed by SR. From class 0 it goes
 * round by N, arrives at class 0 by R, and goes round once more by R. The marks
 * of each class are looked up in a table before that walk, which is left out
 * where they clash; the cycle that is shown is found after it, without
 * recursion. Both take less, and so do crosslocks, whose dependencies are in
 * the sheet before the search. The other inputs are there to meet something
 * deeper, should it exist. A join searches in the same way: it gets the input
 * divided between two benches, so that the joined graph is the input's.
 *
 * Link with -z now: the dynamic linker's stack at a first call is not measured.
 * Exit status: 0 all right, 1 something wrong, 2 the system refuses.
 */
#define _DEFAULT_SOURCE
#include <signal.h>
#include <stdint.h>
#include <stdio.h>
#include <stdlib.h>
#include <string.h>
#include <sys/mman.h>
#include <sys/resource.h>
#include <sys/wait.h>
#include <ucontext.h>
#include <unistd.h>

#include "plungerowl.h"

#define STACK_SIZE ((size_t)1 << 17)
#define PROMISED 16384 /* bytes that no step, feed or join passes */
#define PAINT 0xC5
#define RANDOM_INPUTS 300
#define LOOSE (PLUNGEROWL_RECORD_SIZE - 1) /* of a record */

/* A record is fed whole, or its last byte to a feed that has the others; the
 * end finds these. */
enum { OPEN, STEP, ASK, START, FEED, FEED_LAST, END, BALANCE, JOIN, CALLS };

static const char *const call_names[CALLS] = {
    "open", "step", "ask", "feed_start", "feed", "feed of a last byte",
    "feed_end", "balance", "join"
};
static const size_t limits[CALLS] = {
    PLUNGEROWL_STACK_OPEN, PLUNGEROWL_STACK_STEP, PLUNGEROWL_STACK_ASK,
    PLUNGEROWL_STACK_FEED_START, PLUNGEROWL_STACK_FEED, PLUNGEROWL_STACK_FEED,
    PLUNGEROWL_STACK_FEED_END, PLUNGEROWL_STACK_BALANCE, PLUNGEROWL_STACK_JOIN
};
static const unsigned sizes[] = { 1, 8, 16, 32, 64 };

static int wrong;

static void say_wrong(const char *call, const char *what, size_t a, size_t b)
{
    printf("wrong: stack of %s: %s (%zu, %zu)\n", call, what, a, b);
    wrong = 1;
}

static void quit(const char *message)
{
    perror(message);
    exit(2);
}

/* ----------------------------------------------------- a call on a stack */

struct input {
    unsigned k;
    unsigned class_; /* asked for */
    unsigned piece;  /* the bytes of the piece that are balanced */
    uint8_t record[PLUNGEROWL_RECORD_SIZE];
    uint8_t feed[PLUNGEROWL_FEED_SIZE];
    uint8_t desk[PLUNGEROWL_DESK_SIZE];
    uint8_t sheet[PLUNGEROWL_SHEET_SIZE(PLUNGEROWL_MAX_CLASSES)];
    uint8_t seen[PLUNGEROWL_SEEN_SIZE(PLUNGEROWL_MAX_CLASSES)];
    uint8_t history[PLUNGEROWL_HISTORY_SIZE];
};

/* What the call on the other stack is given, a join two, and its answer. */
static struct input lent, second, joined;
static uint8_t slip[PLUNGEROWL_SLIP_SIZE(PLUNGEROWL_MAX_CLASSES)];
static uint64_t word, number;
static uint32_t count;
static uint8_t piece[PLUNGEROWL_MAX_PIECE_SIZE + PLUNGEROWL_RECORD_SIZE];
static int32_t balances[PLUNGEROWL_MAX_CLASSES];
static unsigned answer;

/* The stack pointer of the caller of the empty functions below. */
static uint8_t *caller_stack;

#define NOTE_CALLER() \
    (caller_stack = (uint8_t *)__builtin_frame_address(0) + 2 * sizeof(void *))

static uint8_t empty_open(uint64_t classes, uint64_t declared, uint8_t *desk,
                          size_t desk_len, uint8_t *sheet, size_t sheet_len,
                          uint8_t *seen, size_t seen_len, uint8_t *history,
                          size_t history_len)
{
    (void)classes, (void)declared, (void)desk, (void)desk_len, (void)sheet;
    (void)sheet_len, (void)seen, (void)seen_len, (void)history;
    (void)history_len;
    NOTE_CALLER();
    return 0;
}

static uint8_t empty_step(uint8_t *desk, size_t desk_len, uint8_t *sheet,
                          size_t sheet_len, uint8_t *seen, size_t seen_len,
                          uint8_t *history, size_t history_len,
                          uint8_t *slip_, size_t slip_len,
                          const uint8_t *record, size_t record_len)
{
    (void)desk, (void)desk_len, (void)sheet, (void)sheet_len, (void)seen;
    (void)seen_len, (void)history, (void)history_len, (void)slip_;
    (void)slip_len, (void)record, (void)record_len;
    NOTE_CALLER();
    return 0;
}

static uint8_t empty_ask(const uint8_t *desk, size_t desk_len,
                         const uint8_t *sheet, size_t sheet_len,
                         const uint8_t *seen, size_t seen_len,
                         uint64_t class_, uint64_t *word_, uint32_t *count_)
{
    (void)desk, (void)desk_len, (void)sheet, (void)sheet_len;
    (void)seen, (void)seen_len, (void)class_, (void)word_, (void)count_;
    NOTE_CALLER();
    return 0;
}

static uint8_t empty_start(uint8_t *feed, size_t feed_len)
{
    (void)feed, (void)feed_len;
    NOTE_CALLER();
    return 0;
}

static uint8_t empty_feed(uint8_t *feed, size_t feed_len, uint8_t *desk,
                          size_t desk_len, uint8_t *sheet, size_t sheet_len,
                          uint8_t *seen, size_t seen_len, uint8_t *history,
                          size_t history_len, uint8_t *slip_, size_t slip_len,
                          const uint8_t *piece_, size_t piece_len,
                          uint64_t *record)
{
    (void)feed, (void)feed_len, (void)desk, (void)desk_len, (void)sheet;
    (void)sheet_len, (void)seen, (void)seen_len, (void)history;
    (void)history_len, (void)slip_, (void)slip_len, (void)piece_;
    (void)piece_len, (void)record;
    NOTE_CALLER();
    return 0;
}

static uint8_t empty_end(uint8_t *feed, size_t feed_len, uint8_t *desk,
                         size_t desk_len, uint8_t *sheet, size_t sheet_len,
                         uint8_t *seen, size_t seen_len, uint8_t *history,
                         size_t history_len, uint8_t *slip_, size_t slip_len,
                         uint64_t *record)
{
    (void)feed, (void)feed_len, (void)desk, (void)desk_len, (void)sheet;
    (void)sheet_len, (void)seen, (void)seen_len, (void)history;
    (void)history_len, (void)slip_, (void)slip_len, (void)record;
    NOTE_CALLER();
    return 0;
}

static uint8_t empty_balance(const uint8_t *piece_, size_t piece_len,
                             int32_t *balances_)
{
    (void)piece_, (void)piece_len, (void)balances_;
    NOTE_CALLER();
    return 0;
}

static uint8_t empty_join(const uint8_t *desk1, size_t desk1_len,
                          const uint8_t *sheet1, size_t sheet1_len,
                          const uint8_t *seen1, size_t seen1_len,
                          const uint8_t *desk2, size_t desk2_len,
                          const uint8_t *sheet2, size_t sheet2_len,
                          const uint8_t *seen2, size_t seen2_len,
                          uint8_t *desk, size_t desk_len, uint8_t *sheet,
                          size_t sheet_len, uint8_t *seen, size_t seen_len,
                          uint8_t *slip_, size_t slip_len)
{
    (void)desk1, (void)desk1_len, (void)sheet1, (void)sheet1_len, (void)seen1;
    (void)seen1_len, (void)desk2, (void)desk2_len, (void)sheet2;
    (void)sheet2_len, (void)seen2, (void)seen2_len, (void)desk, (void)desk_len;
    (void)sheet, (void)sheet_len, (void)seen, (void)seen_len, (void)slip_;
    (void)slip_len;
    NOTE_CALLER();
    return 0;
}

/* volatile: the compiler must call what they point to, as it points there. */
static uint8_t (*volatile to_open)(uint64_t, uint64_t, uint8_t *, size_t,
                                   uint8_t *, size_t, uint8_t *, size_t,
                                   uint8_t *, size_t);
static uint8_t (*volatile to_step)(uint8_t *, size_t, uint8_t *, size_t,
                                   uint8_t *, size_t, uint8_t *, size_t,
                                   uint8_t *, size_t, const uint8_t *, size_t);
static uint8_t (*volatile to_ask)(const uint8_t *, size_t, const uint8_t *,
                                  size_t, const uint8_t *, size_t, uint64_t,
                                  uint64_t *, uint32_t *);
static uint8_t (*volatile to_start)(uint8_t *, size_t);
static uint8_t (*volatile to_feed)(uint8_t *, size_t, uint8_t *, size_t,
                                   uint8_t *, size_t, uint8_t *, size_t,
                                   uint8_t *, size_t, uint8_t *, size_t,
                                   const uint8_t *, size_t, uint64_t *);
static uint8_t (*volatile to_end)(uint8_t *, size_t, uint8_t *, size_t,
                                  uint8_t *, size_t, uint8_t *, size_t,
                                  uint8_t *, size_t, uint8_t *, size_t,
                                  uint64_t *);
static uint8_t (*volatile to_balance)(const uint8_t *, size_t, int32_t *);
static uint8_t (*volatile to_join)(const uint8_t *, size_t, const uint8_t *,
                                   size_t, const uint8_t *, size_t,
                                   const uint8_t *, size_t, const uint8_t *,
                                   size_t, const uint8_t *, size_t, uint8_t *,
                                   size_t, uint8_t *, size_t, uint8_t *, size_t,
                                   uint8_t *, size_t);

static void point_to_library(void)
{
    to_open = plungerowl_open;
    to_step = plungerowl_step;
    to_ask = plungerowl_ask;
    to_start = plungerowl_feed_start;
    to_feed = plungerowl_feed;
    to_end = plungerowl_feed_end;
    to_balance = plungerowl_balance;
    to_join = plungerowl_join;
}

static void point_to_empty(void)
{
    to_open = empty_open;
    to_step = empty_step;
    to_ask = empty_ask;
    to_start = empty_start;
    to_feed = empty_feed;
    to_end = empty_end;
    to_balance = empty_balance;
    to_join = empty_join;
}

static void run_open(void)
{
    answer = to_open(lent.k, lent.desk[PLUNGEROWL_DECLARED_AT], lent.desk,
                     sizeof lent.desk, lent.sheet, sizeof lent.sheet,
                     lent.seen, sizeof lent.seen,
                     lent.history, sizeof lent.history);
}

static void run_step(void)
{
    answer = to_step(lent.desk, sizeof lent.desk, lent.sheet, sizeof lent.sheet,
                     lent.seen, sizeof lent.seen,
                     lent.history, sizeof lent.history, slip, sizeof slip,
                     lent.record, sizeof lent.record);
}

static void run_ask(void)
{
    answer = to_ask(lent.desk, sizeof lent.desk, lent.sheet, sizeof lent.sheet,
                    lent.seen, sizeof lent.seen, lent.class_, &word, &count);
}

static void run_start(void)
{
    answer = to_start(lent.feed, sizeof lent.feed);
}

static void run_feed(void)
{
    answer = to_feed(lent.feed, sizeof lent.feed, lent.desk, sizeof lent.desk,
                     lent.sheet, sizeof lent.sheet, lent.seen, sizeof lent.seen,
                     lent.history, sizeof lent.history, slip, sizeof slip,
                     lent.record, sizeof lent.record, &number);
}

static void run_feed_last(void)
{
    answer = to_feed(lent.feed, sizeof lent.feed, lent.desk, sizeof lent.desk,
                     lent.sheet, sizeof lent.sheet, lent.seen, sizeof lent.seen,
                     lent.history, sizeof lent.history, slip, sizeof slip,
                     lent.record + LOOSE, 1, &number);
}

static void run_end(void)
{
    answer = to_end(lent.feed, sizeof lent.feed, lent.desk, sizeof lent.desk,
                    lent.sheet, sizeof lent.sheet, lent.seen, sizeof lent.seen,
                    lent.history, sizeof lent.history, slip, sizeof slip,
                    &number);
}

static void run_balance(void)
{
    answer = to_balance(piece, lent.piece, balances);
}

static void run_join(void)
{
    answer = to_join(lent.desk, sizeof lent.desk, lent.sheet, sizeof lent.sheet,
                     lent.seen, sizeof lent.seen, second.desk,
                     sizeof second.desk, second.sheet, sizeof second.sheet,
                     second.seen, sizeof second.seen, joined.desk,
                     sizeof joined.desk, joined.sheet, sizeof joined.sheet,
                     joined.seen, sizeof joined.seen, slip, sizeof slip);
}

static void (*const runs[CALLS])(void) = {
    run_open, run_step, run_ask, run_start, run_feed, run_feed_last, run_end,
    run_balance, run_join
};

/* The dependencies of what is lent are divided between it and a second bench;
 * the marks, the held locks and the others of its desk are of both. */
static void divide(void)
{
    unsigned i, j;

    second = lent;
    for (i = 0; i < lent.k * lent.k; i++) {
        struct input *without = i % 3 == 0 ? &second : &lent;

        without->sheet[i] = 0;
        for (j = 0; j < PLUNGEROWL_NUMBER_SIZE; j++)
            without->seen[PLUNGEROWL_NUMBER_SIZE * i + j] = 0;
    }
}

/* The input for a call, with the feed or the second bench that it needs. */
static void lend(const struct input *in, int call)
{
    lent = *in;
    if (call == JOIN)
        divide();
    lent.feed[PLUNGEROWL_FEED_OPENED_AT] = 1;
    if (call == FEED_LAST || call == END) {
        lent.feed[PLUNGEROWL_FEED_COUNT_AT] = LOOSE;
        memcpy(lent.feed + PLUNGEROWL_FEED_LOOSE_AT, lent.record, LOOSE);
    }
}

static int is_piece(unsigned length)
{
    return length <= PLUNGEROWL_MAX_PIECE_SIZE
           && length % PLUNGEROWL_RECORD_SIZE == 0;
}

/* The call did what it was meant to do: the end alone finds a short record, and
 * a piece may be one that is refused. */
static int is_right(int call)
{
    if (call == BALANCE)
        return answer == (is_piece(lent.piece) ? PLUNGEROWL_OK
                                               : PLUNGEROWL_BAD_PIECE);
    return call == END ? answer == PLUNGEROWL_BAD_RECORD
                       : answer <= PLUNGEROWL_FAULT;
}

/* Run the call on the stack of the given size that begins at low. */
static void run_on(uint8_t *low, size_t size, int call)
{
    static ucontext_t here, there;

    if (getcontext(&there) != 0)
        quit("getcontext");
    there.uc_stack.ss_sp = low;
    there.uc_stack.ss_size = size;
    there.uc_link = &here;
    makecontext(&there, runs[call], 0);
    if (swapcontext(&here, &there) != 0)
        quit("swapcontext");
}

/* A stack with a page behind it that must not be touched. */
static uint8_t *make_stack(void)
{
    size_t page = (size_t)sysconf(_SC_PAGESIZE);
    uint8_t *pages = mmap(NULL, page + STACK_SIZE, PROT_READ | PROT_WRITE,
                          MAP_PRIVATE | MAP_ANONYMOUS, -1, 0);

    if (pages == MAP_FAILED || mprotect(pages, page, PROT_NONE) != 0)
        quit("mmap");
    return pages + page;
}

static uint8_t *stack;

/* What the way to a call takes of a stack, before the call itself. */
static size_t overhead_of(int call)
{
    point_to_empty();
    run_on(stack, STACK_SIZE, call);
    point_to_library();
    return (size_t)(stack + STACK_SIZE - caller_stack);
}

/* The bytes that the call used of a painted stack. */
static size_t measure(const struct input *in, int call)
{
    size_t overhead = overhead_of(call);
    size_t low = 0;

    lend(in, call);
    memset(stack, PAINT, STACK_SIZE);
    run_on(stack, STACK_SIZE, call);
    while (low < STACK_SIZE && stack[low] == PAINT)
        low++;
    return STACK_SIZE - overhead - low;
}

/* Whether the call gets by with so many bytes and a guard page behind them. */
static int suffices(const struct input *in, int call, size_t size)
{
    size_t overhead = overhead_of(call);
    int status;
    pid_t child;

    fflush(stdout);
    child = fork();
    if (child < 0)
        quit("fork");
    if (child == 0) {
        lend(in, call);
        run_on(stack, size + overhead, call);
        _exit(!is_right(call));
    }
    if (waitpid(child, &status, 0) != child)
        quit("waitpid");
    if (WIFEXITED(status) && WEXITSTATUS(status) == 0)
        return 1;
    if (!WIFSIGNALED(status) || WTERMSIG(status) != SIGSEGV)
        say_wrong(call_names[call], "ended in another way", size, 0);
    return 0;
}

/* ---------------------------------------------------------------- inputs */

static uint64_t seed = 20261115;

static unsigned below(unsigned n)
{
    seed ^= seed << 13;
    seed ^= seed >> 7;
    seed ^= seed << 17;
    return (unsigned)(seed >> 33) % n;
}

static void put(struct input *in, unsigned from, unsigned to, unsigned kinds)
{
    if (from < in->k && to < in->k)
        in->sheet[from * in->k + to] |= (uint8_t)kinds;
}

/* A hard on in state 0: accepted, and changes nothing before the search. */
static void put_hard_on(struct input *in)
{
    static const uint8_t hard_on[] = { 0x4C, 0x4B, 0, PLUNGEROWL_HARD_ON,
                                       0, 0 };

    memcpy(in->record, hard_on, sizeof hard_on);
}

/* An acquire of the last class, the 48th lock of its frame, over all other
 * places with held locks of class 0, every other one acquired by a try. */
static void put_acquire(struct input *in)
{
    const unsigned others = PLUNGEROWL_MAX_DEPTH - 1;
    unsigned i;
    const uint8_t acquire[] = { 0x4C, 0x4B, 0, PLUNGEROWL_ACQUIRE,
                                (uint8_t)(in->k - 1),
                                PLUNGEROWL_RECURSIVE_READ };

    memcpy(in->record, acquire, sizeof acquire);
    in->desk[PLUNGEROWL_DEPTHS_AT] = (uint8_t)others;
    memset(in->desk + PLUNGEROWL_HELD_AT, 64 * PLUNGEROWL_RECURSIVE_READ,
           others);
    for (i = 0; i < others; i += 2)
        in->desk[PLUNGEROWL_ORIGINS_AT + i / 8] |= (uint8_t)(1 << i % 8);
}

/* The same with all other frames that may have locks full, each of 48: cores 1
 * to 7 are in hard handlers over soft ones. */
static void put_full_frames(struct input *in)
{
    unsigned core, place;

    put_acquire(in);
    for (core = 1; core < PLUNGEROWL_CORES; core++)
        in->desk[PLUNGEROWL_STATES_AT + core] = 8;
    memset(in->desk + PLUNGEROWL_DEPTHS_AT + 3, PLUNGEROWL_MAX_DEPTH,
           PLUNGEROWL_FRAMES - 3);
    for (place = 3 * PLUNGEROWL_MAX_DEPTH; place < PLUNGEROWL_PLACES; place++) {
        in->desk[PLUNGEROWL_HELD_AT + place] = 64 * PLUNGEROWL_RECURSIVE_READ;
        if (place % 2 == 0)
            in->desk[PLUNGEROWL_ORIGINS_AT + place / 8]
                |= (uint8_t)(1 << place % 8);
    }
}

/* All full, core 0's task too: its oldest lock, of the last class and by a try,
 * is released, which moves 47 and their origin bits; or hard interrupts come
 * on, which marks 48. Where K is 1 all are of the last class, and the newest,
 * which is by no try, is released. */
static void put_fullest(struct input *in, unsigned kind)
{
    uint8_t record[] = { 0x4C, 0x4B, 0, (uint8_t)kind, 0, 0 };

    if (kind == PLUNGEROWL_RELEASE) {
        record[4] = (uint8_t)(in->k - 1);
        record[5] = in->k == 1 ? PLUNGEROWL_RECURSIVE_READ
                               : PLUNGEROWL_TRY_RECURSIVE_READ;
    }
    put_full_frames(in);
    memcpy(in->record, record, sizeof record);
    in->desk[PLUNGEROWL_DEPTHS_AT] = PLUNGEROWL_MAX_DEPTH;
    in->desk[PLUNGEROWL_HELD_AT] += (uint8_t)(in->k - 1);
    in->desk[PLUNGEROWL_HELD_AT + PLUNGEROWL_MAX_DEPTH - 1]
        = 64 * PLUNGEROWL_RECURSIVE_READ;
}

/* A crosslock, class 0, and a record of it, over 47 locks that core 0's task
 * holds; in progress for all but its acquire. The history is full of what that
 * task and its handlers acquired, and of entries that are struck out. */
static void put_cross(struct input *in, unsigned kind)
{
    const uint8_t record[] = { 0x4C, 0x4B, 0, (uint8_t)kind, 0, 0 };
    unsigned i;

    put_acquire(in);
    memcpy(in->record, record, sizeof record);
    for (i = 0; i < PLUNGEROWL_MAX_DEPTH - 1u; i++)
        in->desk[PLUNGEROWL_HELD_AT + i] += (uint8_t)(in->k - 1);
    in->desk[PLUNGEROWL_DECLARED_AT] = 1;
    in->desk[PLUNGEROWL_PROGRESS_AT] = kind != PLUNGEROWL_CROSS_ACQUIRE;
    in->desk[PLUNGEROWL_KEPT_AT + 1] = 1; /* 256 */
    for (i = 0; i < PLUNGEROWL_MAX_KEPT; i++) {
        in->history[2 * i] = (uint8_t)(i % 4);
        if (i % 4 > 0)
            in->history[2 * i + 1]
                = (uint8_t)(in->k - 1 + 64 * PLUNGEROWL_RECURSIVE_READ);
    }
}

/* The exit of a hard handler that acquired 256 locks. */
static void put_exit(struct input *in)
{
    unsigned i;

    put_cross(in, PLUNGEROWL_EXIT_HARD);
    in->desk[PLUNGEROWL_STATES_AT] = 6;
    for (i = 0; i < PLUNGEROWL_MAX_KEPT; i++) {
        in->history[2 * i] = 3;
        in->history[2 * i + 1] = (uint8_t)(in->k - 1);
    }
}

/* A chain through all classes in order, its kinds in turn. */
static void put_chain(struct input *in, unsigned even, unsigned odd)
{
    unsigned i;

    for (i = 0; i + 1 < in->k; i++)
        put(in, i, i + 1, i % 2 == 0 ? even : odd);
}

static void put_ring(struct input *in, unsigned kinds)
{
    put_chain(in, kinds, kinds);
    put(in, in->k - 1, 0, kinds);
}

/* Every class below another leads to it. */
static void put_order(struct input *in, unsigned kinds)
{
    unsigned from, to;

    for (from = 0; from < in->k; from++)
        for (to = from + 1; to < in->k; to++)
            put(in, from, to, kinds);
}

static void put_diagonal(struct input *in, unsigned kinds)
{
    unsigned i;

    for (i = 0; i < in->k; i++)
        put(in, i, i, kinds);
}

/* A ring of layers of two classes, all of a layer to all of the next. */
static void put_layers(struct input *in)
{
    unsigned i, b;

    for (i = 0; i < in->k; i++)
        for (b = 0; b < 2; b++)
            put(in, i, (i / 2 * 2 + 2 + b) % in->k, 15);
}

/* The upper half is a ring, all of it leads to all of the lower half, and that
 * is an order. */
static void put_ring_over_order(struct input *in)
{
    unsigned half = in->k / 2, from, to;

    for (from = 0; from < in->k; from++)
        for (to = 0; to < half; to++)
            if (from >= half || from < to)
                put(in, from, to, 15);
    for (from = half; from < in->k; from++)
        put(in, from, from + 1 < in->k ? from + 1 : half, PLUNGEROWL_EN);
}

static void put_marks(struct input *in, unsigned mark)
{
    memset(in->desk + PLUNGEROWL_MARKS_AT, (int)mark, in->k);
}

/* The numbers that the pairs with kinds need. */
static void put_numbers(struct input *in)
{
    unsigned i;

    in->desk[PLUNGEROWL_ACCEPTED_AT] = 1;
    for (i = 0; i < in->k * in->k; i++)
        in->seen[PLUNGEROWL_NUMBER_SIZE * i] = in->sheet[i] != 0;
}

static void put_random(struct input *in)
{
    unsigned from, to, density = 1 + below(8);
    int acyclic = below(4) != 0;

    for (from = 0; from < in->k; from++)
        for (to = acyclic ? from + 1 : 0; to < in->k; to++)
            if (below(density) == 0)
                put(in, from, to, below(16));
    if (below(2) == 0)
        put_chain(in, 1u << below(4), 1u << below(4));
    if (below(2) == 0)
        put(in, in->k - 1, below(in->k), 1u << below(4));
    if (below(4) == 0)
        put_marks(in, below(4) + 16 * below(4)); /* safe ones */
    else if (below(4) == 0)
        put_marks(in, 5 * below(16) & 12); /* hard-unsafe ones */
    if (below(4) == 0)
        put_acquire(in);
    else if (below(4) == 0)
        put_full_frames(in);
    else if (below(4) == 0)
        put_fullest(in, PLUNGEROWL_RELEASE + below(2));
    else if (below(3) == 0)
        put_cross(in, PLUNGEROWL_CROSS_ACQUIRE + below(3));
}

/* Acquires and releases in all modes and hard ons, every fourth of any bytes:
 * each input balances the first so many of them. */
static void make_piece(void)
{
    size_t at;

    for (at = 0; at + PLUNGEROWL_RECORD_SIZE <= sizeof piece;
         at += PLUNGEROWL_RECORD_SIZE) {
        int any = below(4) == 0;

        piece[at] = (uint8_t)(any ? below(256) : 0x4C);
        piece[at + 1] = (uint8_t)(any ? below(256) : 0x4B);
        piece[at + 2] = (uint8_t)below(any ? 256 : PLUNGEROWL_CORES);
        piece[at + 3] = (uint8_t)below(any ? 256 : 3);
        piece[at + 4] = (uint8_t)below(any ? 256 : PLUNGEROWL_MAX_CLASSES);
        piece[at + 5] = (uint8_t)(any ? below(256)
                                  : piece[at + 3] <= PLUNGEROWL_RELEASE
                                  ? below(2 * PLUNGEROWL_TRY_EXCLUSIVE) : 0);
    }
}

/* For each shape: no record, some, the most, and two that are refused; then
 * any number of bytes. */
static unsigned piece_of(unsigned shape)
{
    static const unsigned lengths[] = {
        0, PLUNGEROWL_RECORD_SIZE, 100 * PLUNGEROWL_RECORD_SIZE,
        PLUNGEROWL_MAX_PIECE_SIZE, PLUNGEROWL_MAX_PIECE_SIZE + 6,
        PLUNGEROWL_RECORD_SIZE + 1 };
    const unsigned fixed = sizeof lengths / sizeof lengths[0];

    return shape < fixed ? lengths[shape] : below(1000);
}

enum { RINGS = 13, DIAGONALS = RINGS + 4, DEEPEST = DIAGONALS + 4,
       CROSSES = DEEPEST + 13, SHAPES = CROSSES + 8 };

static void make_input(struct input *in, unsigned k, unsigned shape)
{
    memset(in, 0, sizeof *in);
    in->k = k;
    in->desk[0] = (uint8_t)k;
    put_hard_on(in);
    switch (shape) {
    case 0: break;
    case 1: put_chain(in, PLUNGEROWL_EN, PLUNGEROWL_EN); break;
    case 2: put_chain(in, PLUNGEROWL_SN, PLUNGEROWL_SN); break;
    case 3: put_chain(in, 15, 15); break;
    case 4: put_chain(in, PLUNGEROWL_ER, PLUNGEROWL_EN);
            put(in, k - 1, 0, PLUNGEROWL_EN); break;
    case 5: put_chain(in, PLUNGEROWL_EN, PLUNGEROWL_SN);
            put(in, k - 1, 0, PLUNGEROWL_SN); break;
    case 6: put_order(in, 15); break;
    case 7: put_order(in, 15); put(in, k - 1, 0, PLUNGEROWL_EN); break;
    case 8: put_order(in, 15); put_marks(in, 255); break;
    case 9: put_chain(in, PLUNGEROWL_EN, PLUNGEROWL_EN);
            put_marks(in, 51); break;
    case 10: put_chain(in, PLUNGEROWL_EN, PLUNGEROWL_EN);
             put_acquire(in); break;
    case 11: put_ring(in, PLUNGEROWL_EN); put_acquire(in); break;
    case 12: put_layers(in); break;
    case RINGS: case RINGS + 1: case RINGS + 2: case RINGS + 3:
        put_ring(in, 1u << (shape - RINGS)); break;
    case DIAGONALS: case DIAGONALS + 1: case DIAGONALS + 2: case DIAGONALS + 3:
        put_ring(in, 1u << (shape - DIAGONALS));
        put_diagonal(in, PLUNGEROWL_SR); break;
    case DEEPEST:
    case DEEPEST + 1:
        put_chain(in, PLUNGEROWL_SN | PLUNGEROWL_ER,
                  PLUNGEROWL_SN | PLUNGEROWL_ER);
        put(in, k - 1, 0, shape == DEEPEST ? PLUNGEROWL_SR : PLUNGEROWL_ER);
        break;
    case DEEPEST + 2: /* the same with an acquire, which adds (0, k - 1) */
        put_chain(in, PLUNGEROWL_SN | PLUNGEROWL_ER,
                  PLUNGEROWL_SN | PLUNGEROWL_ER);
        put(in, k - 1, 0, PLUNGEROWL_SR);
        put_acquire(in); break;
    case DEEPEST + 3: put_ring(in, PLUNGEROWL_SN);
                      put_order(in, PLUNGEROWL_ER); break;
    case DEEPEST + 4: put_ring(in, PLUNGEROWL_SR);
                      put_order(in, PLUNGEROWL_EN); break;
    case DEEPEST + 5: put_ring_over_order(in); break;
    case DEEPEST + 6: put_ring_over_order(in); put_marks(in, 51); break;
    case DEEPEST + 7: put_layers(in); put_acquire(in); break;
    case DEEPEST + 8: put_ring(in, 15); put_diagonal(in, 15);
                      put_order(in, 15); put_marks(in, 255); break;
    case DEEPEST + 9: case DEEPEST + 10: case DEEPEST + 11: case DEEPEST + 12:
        put_chain(in, PLUNGEROWL_SN | PLUNGEROWL_ER,
                  PLUNGEROWL_SN | PLUNGEROWL_ER);
        put(in, k - 1, 0, PLUNGEROWL_SR);
        if (shape == DEEPEST + 9)
            put_full_frames(in);
        else if (shape < DEEPEST + 12)
            put_fullest(in, shape == DEEPEST + 10 ? PLUNGEROWL_RELEASE
                                                  : PLUNGEROWL_HARD_ON);
        else
            put_full_frames(in), put_hard_on(in);
        break;
    case CROSSES: case CROSSES + 1: case CROSSES + 2: case CROSSES + 3:
    case CROSSES + 4: case CROSSES + 5: case CROSSES + 6: case CROSSES + 7:
        if (shape % 2 == CROSSES % 2) {
            put_chain(in, PLUNGEROWL_SN | PLUNGEROWL_ER,
                      PLUNGEROWL_SN | PLUNGEROWL_ER);
            put(in, k - 1, 0, PLUNGEROWL_SR);
        }
        if ((shape - CROSSES) / 2 < 3)
            put_cross(in, PLUNGEROWL_CROSS_ACQUIRE + (shape - CROSSES) / 2);
        else
            put_exit(in);
        break;
    default: put_random(in); break;
    }
    put_numbers(in);
    in->class_ = below(k);
    in->piece = piece_of(shape);
}

/* ------------------------------------------------------------ the measures */

struct worst {
    size_t used;
    struct input in;
};

static void measure_all(unsigned k, struct worst worst[CALLS])
{
    struct input in;
    unsigned shape;
    int call;

    memset(worst, 0, CALLS * sizeof worst[0]);
    for (shape = 0; shape < SHAPES + RANDOM_INPUTS; shape++) {
        make_input(&in, k, shape);
        for (call = 0; call < CALLS; call++) {
            size_t used = measure(&in, call);

            if (!is_right(call))
                say_wrong(call_names[call], "another answer", shape, answer);
            if (used > worst[call].used) {
                worst[call].used = used;
                worst[call].in = in;
            }
        }
    }
    printf("stack: K = %2u: ", k);
    for (call = 0; call < CALLS; call++)
        printf("%s %zu%s", call_names[call], worst[call].used,
               call + 1 < CALLS ? ", " : " bytes\n");
}

static void check_limit(int call, const struct worst *worst)
{
    size_t limit = limits[call];
    size_t less = (worst->used - 1) / 16 * 16; /* stacks are aligned to 16 */

    if (worst->used > limit)
        say_wrong(call_names[call], "over the limit", worst->used, limit);
    if (2 * worst->used < limit) {
        say_wrong(call_names[call], "under half the limit", worst->used, limit);
        return;
    }
    if (!suffices(&worst->in, call, limit))
        say_wrong(call_names[call], "the limit does not suffice", limit, 0);
    if (suffices(&worst->in, call, less))
        say_wrong(call_names[call], "less than measured suffices", less, 0);
}

/* What is said to be the deepest input is as deep as any that was met, and the
 * limit is what is promised, or less. */
static void check_deepest(int call, const struct worst *worst)
{
    struct input in;
    size_t used;

    make_input(&in, PLUNGEROWL_MAX_CLASSES, DEEPEST);
    used = measure(&in, call);
    if (used != worst->used)
        say_wrong(call_names[call], "another input is deeper", used,
                  worst->used);
    if (limits[call] > PROMISED)
        say_wrong(call_names[call], "a limit over 16 KB", limits[call],
                  PROMISED);
}

int main(void)
{
    static struct worst worst[CALLS];
    const struct rlimit no_core = { 0, 0 };
    size_t most[CALLS] = { 0 };
    size_t i;
    int call;

    setrlimit(RLIMIT_CORE, &no_core);
    stack = make_stack();
    make_piece();
    point_to_library();
    for (i = 0; i < sizeof sizes / sizeof sizes[0]; i++) {
        measure_all(sizes[i], worst);
        for (call = 0; call < CALLS; call++) {
            if (worst[call].used < most[call])
                say_wrong(call_names[call], "fewer classes need more",
                          most[call], worst[call].used);
            most[call] = worst[call].used;
        }
    }
    check_deepest(STEP, &worst[STEP]);
    check_deepest(FEED, &worst[FEED]);
    check_deepest(FEED_LAST, &worst[FEED_LAST]);
    check_deepest(JOIN, &worst[JOIN]);
    for (call = 0; call < CALLS; call++)
        check_limit(call, &worst[call]);
    printf("stack: limits: ");
    for (call = 0; call < CALLS; call++)
        printf("%s %zu, ", call_names[call], limits[call]);
    printf("%s\n", wrong ? "not kept" : "each tried with a guard page");
    return wrong;
}
