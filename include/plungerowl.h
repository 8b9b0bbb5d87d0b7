/*
 * plungerowl.h - C interface of the lock log validator libplungerowl.a.
 *
 * docs/FORMATS.md has the whole of it: the log and its records, every byte of
 * the lent buffers, the rules, and the answers with their conditions.
 *
 * The library keeps no memory of its own. The caller lends buffers and hands
 * them to the calls:
 *
 *   desk     PLUNGEROWL_DESK_SIZE bytes      cores, held locks, usage marks,
 *                                            origin bits, records accepted,
 *                                            crosslocks
 *   sheet    PLUNGEROWL_SHEET_SIZE(K) bytes  lock dependencies seen
 *   seen     PLUNGEROWL_SEEN_SIZE(K) bytes   the second sheet: which record
 *                                            first drew one between two classes
 *   history  PLUNGEROWL_HISTORY_SIZE bytes   acquires kept while a crosslock is
 *                                            in progress
 *   slip     PLUNGEROWL_SLIP_SIZE(K) bytes   the cycle reported on a fault
 *   feed     PLUNGEROWL_FEED_SIZE bytes      how far a log in pieces has come
 *
 * K is the number of lock classes, 1 to PLUNGEROWL_MAX_CLASSES. Opening, or the
 * log's header, declares which of them are crosslocks: as a completion, which
 * one context waits for and another signals. The others are locks.
 *
 * There are two ways to hand over a log: record by record, by plungerowl_open
 * and plungerowl_step, or as it comes, in pieces that are cut anywhere, by
 * plungerowl_feed_start, plungerowl_feed and plungerowl_feed_end. The second
 * needs a feed, and K is then the header's, and so is what is declared: sheet,
 * seen and slip for PLUNGEROWL_MAX_CLASSES do for every log. Questions may be
 * asked in both.
 *
 * A bench is a desk with its sheet and seen. A third way to a bench is to join
 * two of them, of logs that were handed over apart: plungerowl_join makes a
 * third with all dependencies and marks of both and fresh cores, and tells
 * whether that is a fault. It may be stepped on, asked and joined again. A
 * history belongs to the bench that is stepped on, but is no part of what is
 * asked and joined.
 *
 * The order in which the records of the cores are merged into one log does not
 * matter, as long as none is of a crosslock and none is refused with
 * PLUNGEROWL_COUNT_FULL: desk and sheet are the same in the end, or the desk is
 * closed in each order. Only seen may differ, and a closed bench.
 *
 * One thing needs no buffers of the library: plungerowl_balance counts, over a
 * piece of a log, each class's acquires less its releases.
 *
 * Rules for callers, for every call:
 *
 *   - Each pointer is valid for as many bytes as the length after it says:
 *     readable, and writable where it is not const. Lengths longer than the
 *     stated sizes are allowed; bytes past the stated sizes are never touched.
 *     Where no length follows, the pointer is valid for its number, or, of a
 *     balance, for its PLUNGEROWL_MAX_CLASSES numbers, and writable.
 *   - No pointer is null, not even with length 0: pass any valid pointer.
 *   - The buffers of one call do not overlap: feed, desk, sheet, seen, history,
 *     slip, the record of a step, the piece of a feed or of a balance, and the
 *     numbers that are written: *word and *count, *record of a feed, and the
 *     balances. Pointers to numbers are aligned for their types; the others
 *     need no alignment. Only of a join the six buffers that are read may
 *     overlap each other, so a bench may be joined with itself; the four that
 *     are written overlap no other.
 *   - One caller at a time: while a call runs, nobody else reads or writes the
 *     buffers it was given. Calls on separate buffers do not affect each other.
 *   - The stack has room for the call: PLUNGEROWL_STACK_OPEN and so on, below.
 *
 * The library does not check these rules. Everything else is answered with a
 * number: any lengths, any contents of the buffers, any values.
 *
 * The declarations below match the library on x86-64 System V (Linux). A slice
 * crosses the interface as a pointer followed by a size_t length. The answer is
 * the low byte of the returned register (al) and nothing else of it: the other
 * bits of rax are left as they happen to be (an opening with K = 0 was seen to
 * return FFFFFFFFFFFFFF02). So a caller in another language must declare the
 * result as an unsigned 8-bit number, or mask it, and not take it for an int.
 * Of the C library only memcpy and memset are needed.
 */
#ifndef PLUNGEROWL_H
#define PLUNGEROWL_H

#include <stddef.h>
#include <stdint.h>

#ifdef __cplusplus
extern "C" {
#endif

/* Limits. */
#define PLUNGEROWL_MAX_CLASSES 64
#define PLUNGEROWL_CORES 8
#define PLUNGEROWL_MAX_DEPTH 48 /* held locks in a frame */
#define PLUNGEROWL_MAX_IN_PROGRESS 16 /* crosslocks */
#define PLUNGEROWL_MAX_KEPT 256 /* acquires in a history */

/*
 * Where the parts of a desk begin; docs/FORMATS.md says what they have. A core
 * has three frames: task, soft handler, hard handler. The places for held locks
 * are PLUNGEROWL_MAX_DEPTH in each frame; every place has a byte and, further
 * on, an origin bit. Behind the count of accepted records are, all low byte
 * first: a word of 8 bytes with bit c for each crosslock c that is declared;
 * one for those in progress; how many entries of the history are kept; and for
 * each of 64 classes how many were when it was last acquired as a crosslock.
 */
#define PLUNGEROWL_FRAMES (3 * PLUNGEROWL_CORES)
#define PLUNGEROWL_PLACES (PLUNGEROWL_FRAMES * PLUNGEROWL_MAX_DEPTH)
#define PLUNGEROWL_CLOSED_AT 1
#define PLUNGEROWL_STATES_AT 2
#define PLUNGEROWL_DEPTHS_AT (PLUNGEROWL_STATES_AT + PLUNGEROWL_CORES)
#define PLUNGEROWL_MARKS_AT (PLUNGEROWL_DEPTHS_AT + PLUNGEROWL_FRAMES)
#define PLUNGEROWL_HELD_AT (PLUNGEROWL_MARKS_AT + PLUNGEROWL_MAX_CLASSES)
#define PLUNGEROWL_ORIGINS_AT (PLUNGEROWL_HELD_AT + PLUNGEROWL_PLACES)
#define PLUNGEROWL_ACCEPTED_AT (PLUNGEROWL_ORIGINS_AT + PLUNGEROWL_PLACES / 8)
#define PLUNGEROWL_DECLARED_AT (PLUNGEROWL_ACCEPTED_AT + PLUNGEROWL_NUMBER_SIZE)
#define PLUNGEROWL_PROGRESS_AT (PLUNGEROWL_DECLARED_AT + PLUNGEROWL_WORD_SIZE)
#define PLUNGEROWL_KEPT_AT (PLUNGEROWL_PROGRESS_AT + PLUNGEROWL_WORD_SIZE)
#define PLUNGEROWL_SINCE_AT (PLUNGEROWL_KEPT_AT + PLUNGEROWL_NUMBER_SIZE)

/*
 * Sizes in bytes; k is the number of classes, 1 to 64. A number is that of an
 * accepted record, or of entries of a history; a word has a bit for each class;
 * both low byte first. An entry is one dependency in a slip: class, kind,
 * source, number. A desk has 1,674 bytes, and a history 512: two for each
 * acquire that it may keep, 1 + frame number and class + 64 x mode, or both 0.
 */
#define PLUNGEROWL_NUMBER_SIZE 4
#define PLUNGEROWL_WORD_SIZE 8
#define PLUNGEROWL_ENTRY_SIZE (3 + PLUNGEROWL_NUMBER_SIZE)
#define PLUNGEROWL_DESK_SIZE \
    (PLUNGEROWL_SINCE_AT + PLUNGEROWL_NUMBER_SIZE * PLUNGEROWL_MAX_CLASSES)
#define PLUNGEROWL_HISTORY_SIZE (2 * PLUNGEROWL_MAX_KEPT)
#define PLUNGEROWL_SHEET_SIZE(k) ((size_t)(k) * (size_t)(k))
#define PLUNGEROWL_SEEN_SIZE(k) \
    (PLUNGEROWL_NUMBER_SIZE * PLUNGEROWL_SHEET_SIZE(k))
#define PLUNGEROWL_SLIP_SIZE(k) \
    ((size_t)1 + PLUNGEROWL_ENTRY_SIZE * (size_t)(k))
#define PLUNGEROWL_RECORD_SIZE 6

/*
 * A log is a header and then records. The header is 4C 48 01 K, which declares
 * no crosslocks, or 4C 48 02 K and the declared word, low byte first. Its third
 * byte alone tells how long it is: 02 is 12 bytes, any other 4.
 */
#define PLUNGEROWL_HEADER_SIZE 4
#define PLUNGEROWL_LONG_HEADER_SIZE \
    (PLUNGEROWL_HEADER_SIZE + PLUNGEROWL_WORD_SIZE)

/* A piece whose balances are asked for is so many records at most: 60,000
 * bytes. It has no header. */
#define PLUNGEROWL_MAX_PIECE_RECORDS 10000
#define PLUNGEROWL_MAX_PIECE_SIZE \
    (PLUNGEROWL_RECORD_SIZE * PLUNGEROWL_MAX_PIECE_RECORDS)

/*
 * Where the parts of a feed begin; docs/FORMATS.md says what they have. Loose
 * bytes are those of a header or record that is not complete yet; a feed keeps
 * them, and has a place for each of the most that there can be. A feed has 22
 * bytes.
 */
#define PLUNGEROWL_MOST_LOOSE (PLUNGEROWL_LONG_HEADER_SIZE - 1)
#define PLUNGEROWL_FEED_ANSWER_AT 0
#define PLUNGEROWL_FEED_OPENED_AT 1
#define PLUNGEROWL_FEED_COUNT_AT 2
#define PLUNGEROWL_FEED_LOOSE_AT 3
#define PLUNGEROWL_FEED_NUMBER_AT \
    (PLUNGEROWL_FEED_LOOSE_AT + PLUNGEROWL_MOST_LOOSE)
#define PLUNGEROWL_FEED_NUMBER_SIZE 8
#define PLUNGEROWL_FEED_SIZE \
    (PLUNGEROWL_FEED_NUMBER_AT + PLUNGEROWL_FEED_NUMBER_SIZE)

/*
 * Stack that a call needs, in bytes below the caller's stack pointer, at K = 64
 * (fewer classes need no more). host/stack.c measures it, and tries each call
 * with so many bytes and a guard page behind them. memcpy and memset are
 * counted as glibc has them; what the dynamic linker takes to find them at a
 * first call is not (link with -z now). A step is the deepest, also one in a
 * feed, and a join, whose search is the same: under 16 KB on every input. The
 * search goes from class to class by two functions that call each other, with a
 * class at most twice on the path and 64 bytes each time. The cycle in the slip
 * is found without recursion.
 */
#define PLUNGEROWL_STACK_OPEN 128
#define PLUNGEROWL_STACK_STEP 13312
#define PLUNGEROWL_STACK_ASK 2560
#define PLUNGEROWL_STACK_JOIN 13312
#define PLUNGEROWL_STACK_FEED_START 16
#define PLUNGEROWL_STACK_FEED 13312
#define PLUNGEROWL_STACK_FEED_END 768
#define PLUNGEROWL_STACK_BALANCE 16

/*
 * Answers. "frame" is the current frame of the core named by the record.
 * 0 and 1 accept the record; a header or record with another answer changes no
 * byte of desk, sheet, seen, history and slip, and neither does a join with
 * another.
 * plungerowl_feed and plungerowl_feed_end give what opening and the steps
 * inside them answered, so what is said of step holds of them too.
 */
enum plungerowl_answer {
    /* open: opened; ask: answered; feed_start: started;
     * step: accepted, no closed strong path; slip unchanged;
     * join: joined, no closed strong path; slip unchanged;
     * feed, feed_end: all that was complete got 0;
     * balance: counted */
    PLUNGEROWL_OK = 0,
    /* step: accepted, a closed strong path exists; desk closed, slip written;
     * join: joined, and so */
    PLUNGEROWL_FAULT = 1,
    /* open: K not 1 to 64, a declared class of K or more, desk under
     * PLUNGEROWL_DESK_SIZE bytes, sheet under K x K bytes, seen under
     * 4 x K x K, or history under PLUNGEROWL_HISTORY_SIZE; feed: so with what
     * the header has, or another header than the two above; feed_end: the
     * header is missing or short; feed_start: feed under PLUNGEROWL_FEED_SIZE
     * bytes */
    PLUNGEROWL_BAD_OPENING = 2,
    /* step: not six bytes, wrong signature, core over 7, kind over 12, mode
     * over 5, or a byte that should be 0; feed_end: also loose bytes of a
     * record */
    PLUNGEROWL_BAD_RECORD = 3,
    /* step: class K or more, of an acquire, a release, or kinds 10 to 12; ask:
     * class K or more */
    PLUNGEROWL_BAD_CLASS = 4,
    /* step: release, but the frame's newest held lock of the class was acquired
     * in another mode, or there is none */
    PLUNGEROWL_NOT_HELD = 5,
    /* step: interrupt event that the core's state does not allow */
    PLUNGEROWL_BAD_EVENT = 6,
    /* step: exit soft or exit hard allowed, but the frame has a held lock */
    PLUNGEROWL_STILL_HELD = 7,
    /* step: acquire, but the frame has PLUNGEROWL_MAX_DEPTH held locks */
    PLUNGEROWL_FRAME_FULL = 8,
    /* step: a record that would be accepted, but the count of accepted records
     * stands at 4,294,967,295 */
    PLUNGEROWL_COUNT_FULL = 9,
    /* step: desk closed by an earlier fault */
    PLUNGEROWL_CLOSED = 10,
    /* step: desk, sheet, seen, history or slip unfit; ask: desk, sheet or seen
     * unfit; feed and feed_end: as step, or, with *record 0, feed unfit
     * (too short, or contents that the fit tests of FORMATS.md rule out);
     * join: desk, sheet or seen of either bench unfit, or one of the four that
     * are to be written too short for the larger K of the two */
    PLUNGEROWL_UNFIT = 11,
    /* join: the benches have different K, or declare different crosslocks */
    PLUNGEROWL_OTHER_CLASSES = 12,
    /* join: a desk of the two is closed */
    PLUNGEROWL_BENCH_CLOSED = 13,
    /* balance: the piece is over PLUNGEROWL_MAX_PIECE_SIZE bytes, or not a whole
     * number of records */
    PLUNGEROWL_BAD_PIECE = 14,
    /* step: acquire, by a try too, or release of a class that is declared a
     * crosslock, or kinds 10 to 12 with a class that is not */
    PLUNGEROWL_WRONG_SORT = 15,
    /* step: cross acquire, but it is in progress already */
    PLUNGEROWL_IN_PROGRESS = 16,
    /* step: commit or cross release, but it is not in progress */
    PLUNGEROWL_NOT_IN_PROGRESS = 17,
    /* step: cross acquire, but PLUNGEROWL_MAX_IN_PROGRESS are in progress */
    PLUNGEROWL_LIST_FULL = 18,
    /* step: acquire, not by a try, while a crosslock is in progress, but
     * PLUNGEROWL_MAX_KEPT are kept already */
    PLUNGEROWL_HISTORY_FULL = 19
};

/* Record kinds (byte 3 of a record). */
enum plungerowl_kind {
    PLUNGEROWL_ACQUIRE = 0,
    PLUNGEROWL_RELEASE = 1,
    PLUNGEROWL_HARD_ON = 2,
    PLUNGEROWL_HARD_OFF = 3,
    PLUNGEROWL_SOFT_ON = 4,
    PLUNGEROWL_SOFT_OFF = 5,
    PLUNGEROWL_ENTER_SOFT = 6,
    PLUNGEROWL_EXIT_SOFT = 7,
    PLUNGEROWL_ENTER_HARD = 8,
    PLUNGEROWL_EXIT_HARD = 9,
    /* Of a crosslock: somebody is going to wait for it; what the core did since
     * then in its current frame leads to its release; nobody waits any more. */
    PLUNGEROWL_CROSS_ACQUIRE = 10,
    PLUNGEROWL_COMMIT = 11,
    PLUNGEROWL_CROSS_RELEASE = 12
};

/*
 * Modes of an acquire and of the release that ends it (byte 5 of a record).
 * Those with TRY are successful tries: such an acquire did not wait, and once
 * held it is a lock of the mode of that name without TRY; its release has the
 * mode with TRY. A try that failed is not in a log. Other kinds have 0.
 */
enum plungerowl_mode {
    PLUNGEROWL_EXCLUSIVE = 0,
    PLUNGEROWL_NONRECURSIVE_READ = 1,
    PLUNGEROWL_RECURSIVE_READ = 2,
    PLUNGEROWL_TRY_EXCLUSIVE = 3,
    PLUNGEROWL_TRY_NONRECURSIVE_READ = 4,
    PLUNGEROWL_TRY_RECURSIVE_READ = 5
};

/*
 * Kinds of a dependency: summed in a sheet byte, single in a slip. First
 * letter: the held lock excludes everybody (E) or is shared (S). Second: the
 * acquired lock waits as a recursive read (R) or as any other (N). Those to a
 * crosslock end in N, and those from one begin with E.
 */
enum plungerowl_dependency {
    PLUNGEROWL_ER = 1,
    PLUNGEROWL_EN = 2,
    PLUNGEROWL_SR = 4,
    PLUNGEROWL_SN = 8
};

/*
 * Sources of a dependency in a slip: a lock acquired, and not by a try, while
 * another was held, and so where one of the two is a crosslock; or usage marks
 * of hard or of soft interrupts.
 */
enum plungerowl_source {
    PLUNGEROWL_SOURCE_HOLD = 0,
    PLUNGEROWL_SOURCE_HARD = 1,
    PLUNGEROWL_SOURCE_SOFT = 2
};

/*
 * Open: prepare desk, sheet, seen and history for a new log with the given
 * number of classes, of which those are crosslocks whose bit in declared is 1:
 * bit c, of value 2 to the c, for class c.
 *
 * Answers 0 or 2. On 0 desk byte 0 is K, the eight from PLUNGEROWL_DECLARED_AT
 * on are declared, the other desk bytes up to PLUNGEROWL_DESK_SIZE are zero,
 * and so are the K x K bytes of the sheet, the 4 x K x K of seen and the
 * PLUNGEROWL_HISTORY_SIZE of the history. On 2 nothing is changed. The slip is
 * not needed here and needs no preparation.
 */
uint8_t plungerowl_open(uint64_t classes, uint64_t declared,
                        uint8_t *desk, size_t desk_len,
                        uint8_t *sheet, size_t sheet_len,
                        uint8_t *seen, size_t seen_len,
                        uint8_t *history, size_t history_len);

/*
 * Step: validate one record of the log (without the log's header).
 *
 * Answers 0, 1, 3 to 11 or 15 to 19. Where several refusals apply, the first in
 * the order 11, 10, 3, 4, 15, 6, 7, 5, 8, 16, 17, 18, 19, 9 is given. A record
 * may be any bytes of any length.
 *
 * A crosslock is never held and has no marks. Kinds 10 to 12 have mode 0, go in
 * every state of the core, and need no place in its frame. The cross
 * acquire draws dependencies to it from every lock that the current frame
 * holds, and begins its progress. From then on acquires of locks, by all cores
 * and but for tries, are kept in the history. A commit draws a dependency from
 * the crosslock to each lock that was kept since, released or not, if it was
 * acquired by the committing core in the frame that is current now and in the
 * same visit of a handler: what an earlier one did is struck out at its exit.
 * It may be repeated, and by any core. The cross release ends the progress,
 * and with the last one in progress the history is empty again, and not before.
 *
 * Accepted records are numbered from 1 on, since opening or since a join;
 * refused ones are not counted. seen has for two classes, from and to, the
 * number of the record that first drew a lock dependency there, of whatever
 * kind, in the four bytes from 4 x (from x K + to) on, low byte first; 0 for
 * none. On a joined desk the numbers from before the join stay, and may be
 * above the desk's count; on any desk that is fit.
 *
 * On 1 the slip has the cycle: n in byte 0 and then, for each of its n
 * dependencies, an entry: class, kind, source, and the number that seen has for
 * its two classes, low byte first, or 0 where the source is not a hold. The
 * bytes past 1 + 7n are unchanged. Each dependency goes to the class of the
 * next one, the last to the first; no class comes twice, and the lowest comes
 * first. Of all such cycles it is the one with the fewest dependencies, and
 * among those the least, with class, kind, source, class .. compared from left
 * to right. The numbers are not compared, so memcmp of two slips does not tell.
 * Which cycle it is follows from the marks and the sheet that the record
 * leaves, and from nothing else.
 */
uint8_t plungerowl_step(uint8_t *desk, size_t desk_len,
                        uint8_t *sheet, size_t sheet_len,
                        uint8_t *seen, size_t seen_len,
                        uint8_t *history, size_t history_len,
                        uint8_t *slip, size_t slip_len,
                        const uint8_t *record, size_t record_len);

/*
 * Ask: which classes end a strong path of one or more dependencies from class_?
 *
 * Answers 0, or 11 before 4. On 0 bit i of *word is set for each such class i
 * and *count is the number of bits set; on a refusal both are 0. A closed desk
 * may be asked, and of a crosslock as of any class. Desk, sheet and seen are
 * only read, and of seen no more than whether it is fit.
 */
uint8_t plungerowl_ask(const uint8_t *desk, size_t desk_len,
                       const uint8_t *sheet, size_t sheet_len,
                       const uint8_t *seen, size_t seen_len,
                       uint64_t class_, uint64_t *word, uint32_t *count);

/*
 * Join: of two benches, desk1, sheet1, seen1 and desk2, sheet2, seen2, make a
 * third in desk, sheet, seen, with the slip for a fault.
 *
 * Answers 0, 1, or 11 before 12 before 13. The benches may be any fit bytes,
 * whether or not they came from opening and steps; they are only read, and need
 * no slip. The four buffers to be written need no preparation. They must have
 * room for the larger K of the two, the slip too, fault or not; else 11.
 *
 * On 0 and 1 desk byte 0 is K, the crosslocks are those that both declare, the
 * cores are fresh and hold nothing, no crosslock is in progress, nothing is
 * kept, and the record count is 0, as after opening. The benches may have
 * crosslocks in progress; that, and their histories, do not matter. The joined
 * bench is stepped on with any history of PLUNGEROWL_HISTORY_SIZE bytes, which
 * needs no preparation. The marks of a class are those that either bench has,
 * and so are the kinds from a class to another. The number in seen is the first
 * bench's, or the second's where that has none, whichever kinds each has there:
 * that of a record of its own log.
 *
 * 1 is given exactly when the joined bench has a closed strong path, be it one
 * that neither has alone or one that stood on an open desk. The joined desk is
 * then closed, and the slip has the cycle as a step would show it there. With
 * 0 the slip is unchanged. But for the numbers in seen and slip, the benches in
 * the other order give the same.
 */
uint8_t plungerowl_join(const uint8_t *desk1, size_t desk1_len,
                        const uint8_t *sheet1, size_t sheet1_len,
                        const uint8_t *seen1, size_t seen1_len,
                        const uint8_t *desk2, size_t desk2_len,
                        const uint8_t *sheet2, size_t sheet2_len,
                        const uint8_t *seen2, size_t seen2_len,
                        uint8_t *desk, size_t desk_len,
                        uint8_t *sheet, size_t sheet_len,
                        uint8_t *seen, size_t seen_len,
                        uint8_t *slip, size_t slip_len);

/*
 * A log in pieces: start a feed, feed the pieces in order, end. Each call needs
 * the same six buffers as the last one left them. With any cuts the first
 * answer but 0, its number and the bytes of desk, sheet, seen, history and slip
 * are those of opening with what the header has and a step for each record.
 *
 * Start: a fresh feed, all PLUNGEROWL_FEED_SIZE bytes 0, before each log.
 * Answers 0, or 2 and nothing is changed. Desk, sheet, seen, history and slip
 * need no preparation.
 */
uint8_t plungerowl_feed_start(uint8_t *feed, size_t feed_len);

/*
 * Feed: take the next piece of the log, of any length, also 0.
 *
 * Answers 0 to 11 or 15 to 19. The header and each record get their answer when
 * they are complete and not before: the header opens desk, sheet, seen and
 * history, a record is a step. A header whose third byte is 02 is complete with
 * its twelfth byte, any other with its fourth. At the first answer but 0 the
 * feed stops: what follows in the piece is not looked at, and every later call
 * repeats the answer and its number and changes nothing.
 *
 * *record is always written: with answer 0 how many records were validated so
 * far, else the number of the record that got the answer, where the first is 1
 * and 0 is the header. (Should it get to UINT64_MAX, it stays there.) An unfit
 * feed answers 11 with *record 0, and nothing is changed.
 */
uint8_t plungerowl_feed(uint8_t *feed, size_t feed_len,
                        uint8_t *desk, size_t desk_len,
                        uint8_t *sheet, size_t sheet_len,
                        uint8_t *seen, size_t seen_len,
                        uint8_t *history, size_t history_len,
                        uint8_t *slip, size_t slip_len,
                        const uint8_t *piece, size_t piece_len,
                        uint64_t *record);

/*
 * Feed end: the log ends here.
 *
 * A header that is missing or short is refused with 2, *record 0. Loose bytes
 * of a record are a step with a short record: 11, 10 or else 3, with the number
 * of the next record. Both stop the feed. Otherwise as plungerowl_feed with an
 * empty piece: with answer 0 the log may go on, so the call may come between
 * any two records. Desk, sheet, seen, history and slip are never changed here.
 */
uint8_t plungerowl_feed_end(uint8_t *feed, size_t feed_len,
                            uint8_t *desk, size_t desk_len,
                            uint8_t *sheet, size_t sheet_len,
                            uint8_t *seen, size_t seen_len,
                            uint8_t *history, size_t history_len,
                            uint8_t *slip, size_t slip_len,
                            uint64_t *record);

/*
 * Balance: of each class its acquires less its releases, over a piece of a log:
 * records, without a header, from anywhere.
 *
 * Answers 0 or 14. On 0 balances[c] is, for each class c from 0 to 63, the
 * number of records of kind 0 less the number of records of kind 1, of those
 * with class c that are not malformed; whether a desk would accept them is not
 * asked, and there is no K, and no crosslock. A record that is malformed (the
 * conditions of PLUNGEROWL_BAD_RECORD), of another kind, those of crosslocks
 * too, or of class 64 or more counts for nothing. A balance is -10000 to 10000;
 * below zero the acquire may be before the piece. On 14 all 64 balances are 0.
 * So all 64 are always written, whatever they were before. The balances of two
 * pieces that follow each other, neither of them refused and both together
 * within the limit, add up to those of both together.
 */
uint8_t plungerowl_balance(const uint8_t *piece, size_t piece_len,
                           int32_t balances[PLUNGEROWL_MAX_CLASSES]);

#ifdef __cplusplus
}
#endif

#endif
