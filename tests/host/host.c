/* A host: calls the library on every record of standard input, and compares all that it returns and leaves behind with
 * what the second implementation says. The README of reference/ has the form of a record.
 *
 * Each call is made twice: with every lent block right before pages that cannot be touched, and right behind such
 * pages. So what is read or written outside of a block is noticed. A buffer holds a pattern before the call, a new one each
 * time, so that an item which is not written, or wrongly written, is noticed.
 *
 * Prints a line for each of the first records that fail, and last 'N passed, M failed'. Status 0 if all passed, 1 if one
 * failed or there was none, 2 if standard input is not made of records or has operations that this build lacks.
 */
#define _GNU_SOURCE
#include "nostwier.h"

#include <endian.h>
#include <inttypes.h>
#include <setjmp.h>
#include <signal.h>
#include <stdarg.h>
#include <stdio.h>
#include <stdlib.h>
#include <string.h>
#include <sys/mman.h>

enum {
    MOST = 1 << 16,  /* bytes of a block, at most */
    GUARD = 1 << 20, /* bytes before and behind a block that cannot be touched */
    TOLD = 20,       /* records that fail and are told of, at most */
    OPERATIONS = 8,
    FIRST_WRITER = 7 /* operations from here on take numbers and write bytes; others take bytes and write numbers */
};

static void die(const char *what)
{
    fprintf(stderr, "host: %s\n", what);
    exit(2);
}

/* ---- Blocks between pages that cannot be touched. MOST and GUARD are whole pages. */

static uint8_t *make_arena(void)
{
    uint8_t *all = mmap(NULL, GUARD + MOST + GUARD, PROT_NONE, MAP_PRIVATE | MAP_ANONYMOUS, -1, 0);
    if (all == MAP_FAILED || mprotect(all + GUARD, MOST, PROT_READ | PROT_WRITE) != 0)
        die("no memory for a guarded block");
    return all + GUARD;
}

/* A block of n bytes at the arena's start, or at its end. */
static void *block(uint8_t *arena, size_t n, int at_end)
{
    return at_end ? arena + MOST - n : arena;
}

/* ---- Records. */

/* The calls by the operation's number; those that the header does not declare are missing. */
static void (*const operations[OPERATIONS + 1])(void);

static uint8_t *take(size_t n)
{
    static uint8_t bytes[MOST];
    if (n > MOST)
        die("a record is longer than the blocks of this host");
    if (fread(bytes, 1, n, stdin) != n)
        die("a record ends too early");
    return bytes;
}

static uint32_t take_u32(void)
{
    uint32_t number;
    memcpy(&number, take(sizeof number), sizeof number);
    return be32toh(number);
}

static int64_t take_i64(void)
{
    uint64_t number;
    memcpy(&number, take(sizeof number), sizeof number);
    return (int64_t)be64toh(number);
}

/* Bytes as they lie, or numbers turned into those of this machine. */
struct items {
    size_t count;
    size_t size; /* of one item, 1 or 8 */
    union {
        uint8_t bytes[MOST];
        int64_t numbers[MOST / 8];
    };
};

static void take_items(struct items *to, size_t count, size_t size)
{
    to->count = count;
    to->size = size;
    memcpy(to->bytes, take(count * size), count * size);
    for (size_t i = 0; size == 8 && i < count; i++)
        to->numbers[i] = (int64_t)be64toh((uint64_t)to->numbers[i]);
}

static struct {
    unsigned operation;
    struct items first, second;
    size_t room; /* items of the lent buffer */
    uint32_t refusal, place;
    int64_t cost, bound, gap;
    struct items written;
} record;

/* Takes the next record; 0 if there is none. */
static int take_record(void)
{
    int operation = getchar();
    if (operation == EOF) {
        if (ferror(stdin))
            die("standard input cannot be read");
        return 0;
    }
    record.operation = (unsigned)operation;
    if (operation > OPERATIONS || operations[operation] == NULL)
        die("an operation that this build lacks");
    size_t lent = operation >= FIRST_WRITER ? 8 : 1, written = operation >= FIRST_WRITER ? 1 : 8;
    size_t first = take_u32(), second = take_u32();
    record.room = take_u32();
    if (record.room * written > MOST)
        die("a buffer is longer than the blocks of this host");
    take_items(&record.first, first, lent);
    take_items(&record.second, second, 1);
    record.refusal = take_u32();
    record.place = take_u32();
    record.cost = take_i64();
    record.bound = take_i64();
    record.gap = take_i64();
    take_items(&record.written, take_u32(), written);
    if (record.written.count > record.room)
        die("a record expects more than its buffer holds");
    return 1;
}

/* ---- What is compared. */

static unsigned long passed, failed;
static int wrong; /* whether the record at hand has failed */

/* The record at hand fails; tells of the first reason. */
__attribute__((format(printf, 1, 2))) static void fail(const char *format, ...)
{
    if (!wrong && failed < TOLD) {
        va_list arguments;
        va_start(arguments, format);
        printf("record %lu, operation %u: ", passed + failed + 1, record.operation);
        vprintf(format, arguments);
        putchar('\n');
        va_end(arguments);
    }
    wrong = 1;
}

static void same(const char *what, int64_t got, int64_t expected)
{
    if (got != expected)
        fail("the %s is %" PRId64 ", not %" PRId64, what, got, expected);
}

/* ---- What is lent: copies of the two inputs, and a buffer full of a pattern. */

static uint8_t *arenas[3];
static uint8_t patterns[256 + MOST]; /* a pattern begins at any of the first places; the next call's differs in each byte */
static struct {
    void *first, *second, *buffer;
    uint8_t pattern;
} lent;

static void make_patterns(void)
{
    for (size_t i = 0; i < sizeof patterns; i++)
        patterns[i] = (uint8_t)(37 * i + i / 256);
}

static void lend(int at_end)
{
    size_t first = record.first.count * record.first.size, room = record.room * record.written.size;
    lent.first = block(arenas[0], first, at_end);
    lent.second = block(arenas[1], record.second.count, at_end);
    lent.buffer = block(arenas[2], room, at_end);
    lent.pattern += 101;
    memcpy(lent.first, record.first.bytes, first);
    memcpy(lent.second, record.second.bytes, record.second.count);
    memcpy(lent.buffer, patterns + lent.pattern, room);
}

/* The bytes of the buffer from one place to another are those expected, given for the whole buffer. */
static void look_at_buffer(const char *what, const uint8_t *expected, size_t from, size_t to)
{
    const uint8_t *buffer = lent.buffer;
    size_t i = from;
    if (memcmp(buffer + from, expected + from, to - from) == 0)
        return;
    while (buffer[i] == expected[i])
        i++;
    fail("item %zu of the buffer %s", i / record.written.size, what);
}

static void look_at_lent(void)
{
    size_t room = record.room * record.written.size, written = record.written.count * record.written.size;
    if (memcmp(lent.first, record.first.bytes, record.first.count * record.first.size) != 0)
        fail("the first input has changed");
    if (memcmp(lent.second, record.second.bytes, record.second.count) != 0)
        fail("the second input has changed");
    look_at_buffer("is not the one expected", record.written.bytes, 0, written);
    look_at_buffer("has changed", patterns + lent.pattern, written, room);
}

/* ---- The operations. Each makes its call and compares what that returns. */

static void check_case(void)
{
    same("refusal", nostwier_check_case(lent.first, record.first.count), record.refusal);
}

#ifdef NOSTWIER_HAS_CERTIFICATE
static void check_certificate(void)
{
    nostwier_result got =
        nostwier_check_certificate(lent.first, record.first.count, lent.second, record.second.count);
    same("refusal", got.refusal, record.refusal);
    same("place", got.place, record.place);
    same("cost", got.cost, record.cost);
    same("bound", got.bound, record.bound);
    same("gap", got.gap, record.gap);
}

static void answer(nostwier_answer got)
{
    same("refusal", got.refusal, record.refusal);
    same("place", got.place, record.place);
}

static void prices(void)
{
    answer(nostwier_prices(lent.first, record.first.count, lent.second, record.second.count, lent.buffer, record.room));
}

#endif

#ifdef NOSTWIER_HAS_CHARGES
static void charges(void)
{
    answer(nostwier_charges(lent.first, record.first.count, lent.second, record.second.count, lent.buffer, record.room));
}
#endif

#ifdef NOSTWIER_HAS_NUMBERS
static void count(nostwier_count got)
{
    same("refusal", got.refusal, record.refusal);
    same("count", got.count, (int64_t)record.written.count);
}

static void read_case(void)
{
    count(nostwier_read_case(lent.first, record.first.count, lent.buffer, record.room));
}

static void read_certificate(void)
{
    count(nostwier_read_certificate(lent.first, record.first.count, lent.buffer, record.room));
}

static void write_case(void)
{
    count(nostwier_write_case(lent.first, record.first.count, lent.buffer, record.room));
}

static void write_certificate(void)
{
    count(nostwier_write_certificate(lent.first, record.first.count, lent.buffer, record.room));
}
#endif

static void (*const operations[OPERATIONS + 1])(void) = {
    [1] = check_case,
#ifdef NOSTWIER_HAS_CERTIFICATE
    [2] = check_certificate,
    [3] = prices,
#endif
#ifdef NOSTWIER_HAS_CHARGES
    [4] = charges,
#endif
#ifdef NOSTWIER_HAS_NUMBERS
    [5] = read_case,
    [6] = read_certificate,
    [7] = write_case,
    [8] = write_certificate,
#endif
};

/* ---- A call that the system stops, because it touches what is not lent or otherwise, ends here. */

static sigjmp_buf stopped;
static volatile sig_atomic_t calling;

static void stop(int number)
{
    if (calling)
        siglongjmp(stopped, number);
    signal(number, SIG_DFL); /* the host's own fault */
    raise(number);
}

static void watch_signals(void)
{
    static uint8_t stack[1 << 16]; /* the usual one may be what has run out */
    static const int signals[] = {SIGSEGV, SIGBUS, SIGFPE, SIGILL, SIGTRAP, SIGABRT};
    stack_t other = {.ss_sp = stack, .ss_size = sizeof stack};
    struct sigaction action = {.sa_handler = stop, .sa_flags = SA_ONSTACK};
    if (sigaltstack(&other, NULL) != 0)
        die("no stack for signals");
    for (size_t i = 0; i < sizeof signals / sizeof *signals; i++)
        if (sigaction(signals[i], &action, NULL) != 0)
            die("a signal cannot be watched");
}

static void call(int at_end)
{
    lend(at_end);
    switch (sigsetjmp(stopped, 1)) {
    case 0:
        calling = 1;
        operations[record.operation]();
        break;
    case SIGSEGV:
    case SIGBUS:
        fail("it touched memory that was not lent");
        break;
    default:
        fail("it was stopped by a signal");
    }
    calling = 0;
    look_at_lent();
}

int main(void)
{
    for (int i = 0; i < 3; i++)
        arenas[i] = make_arena();
    make_patterns();
    watch_signals();
    while (take_record()) {
        wrong = 0;
        call(1);
        call(0);
        if (wrong)
            failed++;
        else
            passed++;
    }
    printf("%lu passed, %lu failed\n", passed, failed);
    return passed == 0 || failed != 0;
}
