/*
 * host.c - validate a lock log, join two, or balance a piece of one, through
 * libplungerowl.a.
 *
 * Usage: host [-p BYTES] [LOG]      (standard input without LOG)
 *        host join LOG1 LOG2
 *        host balance [PIECE]       (standard input without PIECE)
 *
 * Feeds the log as it comes, a read a piece, up to the first answer but 0; a
 * read asks for BYTES bytes, 1 to 1048576, or 4096 without -p. Prints what the
 * program prints (docs/FORMATS.md, "The program") and, after a clean or faulted
 * log, one line "class C reaches N: i j k" for each class from which a strong
 * path leads to something.
 *
 * With join as its first argument it validates two logs and, where both are
 * clean, joins their benches. Prints "clean", "fault" and the cycle, or
 * "refused 12", and after the first two what each class reaches in the joined
 * bench. Where a log is not clean it prints, for each that is not, "log 1: " or
 * "log 2: " and what the program prints for that log by itself. Both logs are
 * read before anything is printed.
 *
 * With balance as its first argument it reads a piece: up to its end, but one
 * byte more than the longest piece has at most, which is enough to see that it
 * is too long. Prints a line "CLASS BALANCE" for each class whose balance is
 * not 0, the lowest first, so nothing at all where every balance is 0, or
 * "refused 14". Logs in files called balance and join are validated by
 * ./balance and ./join.
 *
 * Exit status: 0 the whole output was written, whatever it says; 2 trouble with
 * usage, input, output or memory; 3 the library broke its promises (guard
 * bytes, answers).
 */
#define _POSIX_C_SOURCE 200809L
#include <errno.h>
#include <fcntl.h>
#include <inttypes.h>
#include <stdint.h>
#include <stdio.h>
#include <stdlib.h>
#include <string.h>
#include <unistd.h>

#include "guarded.h"
#include "plungerowl.h"

enum { STATUS_OK = 0, STATUS_TROUBLE = 2, STATUS_LIBRARY = 3 };
enum { PIECE_SIZE = 4096, MOST_PIECE_SIZE = 1 << 20 };

/* K is known with the header only: sheet, seen and slip are for the most
 * classes. */
struct buffers {
    struct guarded feed;
    struct guarded desk;
    struct guarded sheet;
    struct guarded seen;
    struct guarded history;
    struct guarded slip;
    struct guarded piece;
};

static const char *input_name = "the input";

static void quit(int status, const char *message)
{
    fflush(stdout);
    fprintf(stderr, "host: %s\n", message);
    exit(status);
}

static void quit_input(const char *what)
{
    fprintf(stderr, "host: %s cannot be %s\n", input_name, what);
    exit(STATUS_TROUBLE);
}

static void make_buffers(struct buffers *b, size_t piece_size)
{
    const unsigned classes = PLUNGEROWL_MAX_CLASSES;

    if (!guarded_make(&b->feed, PLUNGEROWL_FEED_SIZE, 0xEE)
        || !guarded_make(&b->desk, PLUNGEROWL_DESK_SIZE, 0xEE)
        || !guarded_make(&b->sheet, PLUNGEROWL_SHEET_SIZE(classes), 0xEE)
        || !guarded_make(&b->seen, PLUNGEROWL_SEEN_SIZE(classes), 0xEE)
        || !guarded_make(&b->history, PLUNGEROWL_HISTORY_SIZE, 0xEE)
        || !guarded_make(&b->slip, PLUNGEROWL_SLIP_SIZE(classes), 0xEE)
        || !guarded_make(&b->piece, piece_size, 0xEE))
        quit(STATUS_TROUBLE, "out of memory");
}

static void free_buffers(struct buffers *b)
{
    guarded_free(&b->feed);
    guarded_free(&b->desk);
    guarded_free(&b->sheet);
    guarded_free(&b->seen);
    guarded_free(&b->history);
    guarded_free(&b->slip);
    guarded_free(&b->piece);
}

static void check_guards(const struct buffers *b)
{
    if (!guarded_intact(&b->feed))
        quit(STATUS_LIBRARY, "bytes around the feed were changed");
    if (!guarded_intact(&b->desk))
        quit(STATUS_LIBRARY, "bytes around the desk were changed");
    if (!guarded_intact(&b->sheet))
        quit(STATUS_LIBRARY, "bytes around the sheet were changed");
    if (!guarded_intact(&b->seen))
        quit(STATUS_LIBRARY, "bytes around the second sheet were changed");
    if (!guarded_intact(&b->history))
        quit(STATUS_LIBRARY, "bytes around the history were changed");
    if (!guarded_intact(&b->slip))
        quit(STATUS_LIBRARY, "bytes around the slip were changed");
    if (!guarded_intact(&b->piece))
        quit(STATUS_LIBRARY, "bytes around the piece were changed");
}

static void start_feed(struct buffers *b)
{
    if (plungerowl_feed_start(b->feed.bytes, b->feed.size) != PLUNGEROWL_OK)
        quit(STATUS_LIBRARY, "the feed was refused");
    check_guards(b);
}

/* Feed the first bytes of the piece. */
static unsigned feed_piece(struct buffers *b, size_t length, uint64_t *record)
{
    unsigned answer = plungerowl_feed(b->feed.bytes, b->feed.size,
                                      b->desk.bytes, b->desk.size,
                                      b->sheet.bytes, b->sheet.size,
                                      b->seen.bytes, b->seen.size,
                                      b->history.bytes, b->history.size,
                                      b->slip.bytes, b->slip.size,
                                      b->piece.bytes, length, record);
    check_guards(b);
    return answer;
}

static unsigned end_feed(struct buffers *b, uint64_t *record)
{
    unsigned answer = plungerowl_feed_end(b->feed.bytes, b->feed.size,
                                          b->desk.bytes, b->desk.size,
                                          b->sheet.bytes, b->sheet.size,
                                          b->seen.bytes, b->seen.size,
                                          b->history.bytes, b->history.size,
                                          b->slip.bytes, b->slip.size, record);
    check_guards(b);
    return answer;
}

static unsigned ask_buffers(const struct buffers *b, unsigned class_,
                            uint64_t *word, uint32_t *count)
{
    unsigned answer = plungerowl_ask(b->desk.bytes, b->desk.size,
                                     b->sheet.bytes, b->sheet.size,
                                     b->seen.bytes, b->seen.size,
                                     class_, word, count);
    check_guards(b);
    return answer;
}

/* Read up to size bytes; how many were read, 0 at the end of the input. */
static size_t read_bytes(int input, uint8_t *bytes, size_t size)
{
    ssize_t length;

    do {
        length = read(input, bytes, size);
    } while (length < 0 && errno == EINTR);
    if (length < 0)
        quit_input("read");
    return (size_t)length;
}

/* Feed piece after piece, up to the first answer but 0, or to the end. */
static unsigned feed_log(struct buffers *b, int input, uint64_t *record)
{
    unsigned answer = PLUNGEROWL_OK;
    size_t length;

    start_feed(b);
    while (answer == PLUNGEROWL_OK
           && (length = read_bytes(input, b->piece.bytes, b->piece.size)) > 0)
        answer = feed_piece(b, length, record);
    if (answer == PLUNGEROWL_OK)
        answer = end_feed(b, record);
    return answer;
}

static const char *kind_name(unsigned kind)
{
    switch (kind) {
    case PLUNGEROWL_ER: return "ER";
    case PLUNGEROWL_EN: return "EN";
    case PLUNGEROWL_SR: return "SR";
    case PLUNGEROWL_SN: return "SN";
    default: quit(STATUS_LIBRARY, "the slip has an unknown kind");
    }
    return "";
}

static const char *source_name(unsigned source)
{
    switch (source) {
    case PLUNGEROWL_SOURCE_HOLD: return "hold";
    case PLUNGEROWL_SOURCE_HARD: return "hard";
    case PLUNGEROWL_SOURCE_SOFT: return "soft";
    default: quit(STATUS_LIBRARY, "the slip has an unknown source");
    }
    return "";
}

/* K of an opened desk. */
static unsigned classes_of(const struct buffers *b)
{
    return b->desk.bytes[0];
}

/* The numbers of the entries are not printed. */
static void print_cycle(const struct buffers *b)
{
    const uint8_t *slip = b->slip.bytes;
    unsigned n = slip[0];
    unsigned i;

    if (n < 1 || n > classes_of(b))
        quit(STATUS_LIBRARY, "the slip has a wrong length");
    for (i = 0; i < n; i++) {
        const uint8_t *entry = slip + 1 + PLUNGEROWL_ENTRY_SIZE * i;
        const uint8_t *next = slip + 1 + PLUNGEROWL_ENTRY_SIZE * ((i + 1) % n);

        printf("%u %s %u %s\n", (unsigned)entry[0], kind_name(entry[1]),
               (unsigned)next[0], source_name(entry[2]));
    }
}

static void print_reach_of(const struct buffers *b, unsigned class_)
{
    uint64_t word = 0;
    uint32_t count = 0;
    unsigned i;

    if (ask_buffers(b, class_, &word, &count) != PLUNGEROWL_OK)
        quit(STATUS_LIBRARY, "a question was refused");
    if (count == 0)
        return;
    printf("class %u reaches %" PRIu32 ":", class_, count);
    for (i = 0; i < classes_of(b); i++)
        if (word >> i & 1)
            printf(" %u", i);
    printf("\n");
}

static void print_reach(const struct buffers *b)
{
    unsigned class_;

    for (class_ = 0; class_ < classes_of(b); class_++)
        print_reach_of(b, class_);
}

/* What the program prints for a log that is not clean. */
static void print_unclean(const struct buffers *b, unsigned answer,
                          uint64_t record)
{
    if (answer == PLUNGEROWL_FAULT) {
        printf("fault at record %" PRIu64 "\n", record);
        print_cycle(b);
    } else {
        printf("refused %u at record %" PRIu64 "\n", answer, record);
    }
}

static void validate_log(int input, size_t piece_size)
{
    struct buffers b;
    uint64_t record = 0;
    unsigned answer;

    make_buffers(&b, piece_size);
    answer = feed_log(&b, input, &record);
    if (answer == PLUNGEROWL_OK)
        printf("clean, %" PRIu64 " records\n", record);
    else
        print_unclean(&b, answer, record);
    if (answer <= PLUNGEROWL_FAULT)
        print_reach(&b);
    free_buffers(&b);
}

/* Validate the log of a name, from its file. */
static unsigned validate_file(struct buffers *b, const char *name,
                              const char *path, uint64_t *record)
{
    int input = open(path, O_RDONLY);
    unsigned answer;

    input_name = name;
    if (input < 0)
        quit_input("opened");
    make_buffers(b, PIECE_SIZE);
    answer = feed_log(b, input, record);
    close(input);
    return answer;
}

static unsigned join_benches(const struct buffers *one,
                             const struct buffers *two, struct buffers *b)
{
    unsigned answer = plungerowl_join(one->desk.bytes, one->desk.size,
                                      one->sheet.bytes, one->sheet.size,
                                      one->seen.bytes, one->seen.size,
                                      two->desk.bytes, two->desk.size,
                                      two->sheet.bytes, two->sheet.size,
                                      two->seen.bytes, two->seen.size,
                                      b->desk.bytes, b->desk.size,
                                      b->sheet.bytes, b->sheet.size,
                                      b->seen.bytes, b->seen.size,
                                      b->slip.bytes, b->slip.size);
    check_guards(one);
    check_guards(two);
    check_guards(b);
    return answer;
}

/* The join of two clean logs. */
static void print_join(const struct buffers *one, const struct buffers *two)
{
    struct buffers b;
    unsigned answer;

    make_buffers(&b, 1);
    answer = join_benches(one, two, &b);
    if (answer == PLUNGEROWL_OK) {
        printf("clean\n");
    } else if (answer == PLUNGEROWL_FAULT) {
        printf("fault\n");
        print_cycle(&b);
    } else if (answer == PLUNGEROWL_OTHER_CLASSES) {
        printf("refused %u\n", answer);
    } else {
        quit(STATUS_LIBRARY, "a join has an unknown answer");
    }
    if (answer <= PLUNGEROWL_FAULT)
        print_reach(&b);
    free_buffers(&b);
}

static void join_logs(char *const paths[2])
{
    static const char *const names[2] = { "log 1", "log 2" };
    struct buffers b[2];
    uint64_t records[2] = { 0, 0 };
    unsigned answers[2], i;

    for (i = 0; i < 2; i++)
        answers[i] = validate_file(&b[i], names[i], paths[i], &records[i]);
    for (i = 0; i < 2; i++) {
        if (answers[i] == PLUNGEROWL_OK)
            continue;
        printf("%s: ", names[i]);
        print_unclean(&b[i], answers[i], records[i]);
    }
    if (answers[0] == PLUNGEROWL_OK && answers[1] == PLUNGEROWL_OK)
        print_join(&b[0], &b[1]);
    free_buffers(&b[0]);
    free_buffers(&b[1]);
}

/* Fill the buffer; how many bytes it got, fewer than it has if the input ends
 * before. */
static size_t read_whole(int input, struct guarded *piece)
{
    size_t length = 0;
    size_t more;

    while (length < piece->size
           && (more = read_bytes(input, piece->bytes + length,
                                 piece->size - length)) > 0)
        length += more;
    return length;
}

static void print_balances(const int32_t balances[PLUNGEROWL_MAX_CLASSES])
{
    unsigned class_;

    for (class_ = 0; class_ < PLUNGEROWL_MAX_CLASSES; class_++)
        if (balances[class_] != 0)
            printf("%u %" PRId32 "\n", class_, balances[class_]);
}

static void balance_piece(int input)
{
    struct guarded piece, room;
    int32_t balances[PLUNGEROWL_MAX_CLASSES];
    unsigned answer;
    size_t length;

    if (!guarded_make(&piece, PLUNGEROWL_MAX_PIECE_SIZE + 1, 0xEE)
        || !guarded_make_numbers(&room, sizeof balances, 0xEE))
        quit(STATUS_TROUBLE, "out of memory");
    length = read_whole(input, &piece);
    answer = plungerowl_balance(piece.bytes, length, (int32_t *)room.bytes);
    if (!guarded_intact(&piece))
        quit(STATUS_LIBRARY, "bytes around the piece were changed");
    if (!guarded_intact(&room))
        quit(STATUS_LIBRARY, "bytes around the balances were changed");
    memcpy(balances, room.bytes, sizeof balances);
    if (answer == PLUNGEROWL_OK)
        print_balances(balances);
    else if (answer == PLUNGEROWL_BAD_PIECE)
        printf("refused %u\n", answer);
    else
        quit(STATUS_LIBRARY, "a balance has an unknown answer");
    guarded_free(&piece);
    guarded_free(&room);
}

static size_t piece_size_of(const char *text)
{
    char *end;
    unsigned long size = strtoul(text, &end, 10);

    if (text[0] < '0' || text[0] > '9' || *end != '\0' || size < 1
        || size > MOST_PIECE_SIZE)
        quit(STATUS_TROUBLE, "a piece has 1 to 1048576 bytes");
    return size;
}

static int end_output(void)
{
    if (fflush(stdout) != 0 || ferror(stdout))
        quit(STATUS_TROUBLE, "the output cannot be written");
    return STATUS_OK;
}

int main(int argc, char **argv)
{
    static const char usage[] = "usage: host [-p BYTES] [LOG], "
                                "host join LOG1 LOG2, or host balance [PIECE]";
    size_t piece_size = PIECE_SIZE;
    int input = STDIN_FILENO;
    int balance = argc > 1 && strcmp(argv[1], "balance") == 0;

    if (argc > 1 && strcmp(argv[1], "join") == 0) {
        if (argc != 4)
            quit(STATUS_TROUBLE, usage);
        join_logs(argv + 2);
        return end_output();
    }
    if (balance) {
        argc--;
        argv++;
    } else if (argc > 2 && strcmp(argv[1], "-p") == 0) {
        piece_size = piece_size_of(argv[2]);
        argc -= 2;
        argv += 2;
    }
    if (argc > 2)
        quit(STATUS_TROUBLE, usage);
    if (argc == 2 && (input = open(argv[1], O_RDONLY)) < 0)
        quit_input("opened");
    if (balance)
        balance_piece(input);
    else
        validate_log(input, piece_size);
    if (input != STDIN_FILENO)
        close(input);
    return end_output();
}
