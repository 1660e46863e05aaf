/* The benchmark: the library against the baseline in C, against the same ideas in C, against the reference, and against
 * solvers that solve the case again, all in one process with one clock. bench/run makes its inputs:
 *
 *   bench DIR    DIR/R-Z-F/N.case, N.cert and N.mps: accepted pairs of that size; DIR/refused/: pairs of any kind
 *
 * First every implementation must answer the same on every input. Then each call is timed by itself, and the
 * implementations take turns on each input. What a bar compares takes turns in rounds, one of which gives both times and
 * their ratio. Prints tables in Markdown. Status 1 if answers differ or a bar is missed, 2 if an input or a
 * solver fails.
 */
#define _GNU_SOURCE
#include "baseline.h"
#include "same_ideas.h"

#include <coin/Clp_C_Interface.h>
#include <glpk.h>
#include <inttypes.h>
#include <stdarg.h>
#include <stdio.h>
#include <stdlib.h>
#include <string.h>
#include <sys/mman.h>
#include <time.h>
#include <ucontext.h>

nostwier_result reference_check_certificate(const uint8_t *c, size_t cn, const uint8_t *q, size_t qn);
nostwier_answer reference_prices(const uint8_t *c, size_t cn, const uint8_t *q, size_t qn, int64_t *out, size_t n);
nostwier_answer reference_charges(const uint8_t *c, size_t cn, const uint8_t *q, size_t qn, int64_t *out, size_t n);

enum {
    MOST_INPUTS = 4096,
    MOST_SAMPLES = 20000,
    MOST_ROUNDS = 4000,
    ROOM = 2048, /* numbers of a buffer */
    ZONES = 8,   /* of every case that is timed */
    MOST = NOSTWIER_MOST_FLOWGATES,
    TIMED = 20,  /* pairs of a size, at most */
    DAY = 288,   /* intervals of five minutes */
    DAYS = 200
};

__attribute__((noreturn, format(printf, 1, 2))) static void die(const char *format, ...)
{
    va_list arguments;
    va_start(arguments, format);
    fputs("bench: ", stderr);
    vfprintf(stderr, format, arguments);
    fputc('\n', stderr);
    exit(2);
}

/* ---- Inputs. */

typedef struct {
    char name[256];
    uint8_t *c, *q;
    size_t cn, qn;
} input;

typedef struct {
    int count;
    input of[MOST_INPUTS];
} inputs;

static uint8_t *take_file(const char *name, const char *kind, size_t *size)
{
    char path[300];
    snprintf(path, sizeof path, "%s.%s", name, kind);
    FILE *file = fopen(path, "rb");
    if (file == NULL)
        return NULL;
    uint8_t *bytes = malloc(1 << 16);
    if (bytes == NULL)
        die("no memory");
    *size = fread(bytes, 1, 1 << 16, file);
    fclose(file);
    return bytes;
}

static void take_inputs(inputs *all, const char *folder, const char *below, int most)
{
    for (all->count = 0; all->count < most; all->count++) {
        input *in = &all->of[all->count];
        snprintf(in->name, sizeof in->name, "%s/%s/%d", folder, below, all->count + 1);
        in->c = take_file(in->name, "case", &in->cn);
        if (in->c == NULL)
            break;
        in->q = take_file(in->name, "cert", &in->qn);
        if (in->q == NULL)
            die("%s has no certificate", in->name);
    }
    if (all->count == 0)
        die("no pair in %s/%s", folder, below);
}

static void take_size(inputs *all, const char *folder, int r, int f, int most)
{
    char below[40];
    snprintf(below, sizeof below, "%d-%d-%d", r, ZONES, f);
    take_inputs(all, folder, below, most);
}

static void give_back(inputs *all)
{
    for (int i = 0; i < all->count; i++) {
        free(all->of[i].c);
        free(all->of[i].q);
    }
}

/* ---- The calls of each implementation. */

enum call { CHECK, PRICES, CHARGES, CALLS };
enum maker { LIBRARY, BASELINE, SAME_IDEAS, REFERENCE, MAKERS };
static const char *const call_names[CALLS] = {"check", "prices", "charges"};
static const char *const maker_names[MAKERS] = {"library", "baseline in C", "same ideas in C", "reference"};

/* What a call returns and writes. */
static struct {
    nostwier_result result;
    nostwier_answer answer;
    size_t room;
    int64_t buffer[ROOM];
} given;

typedef void run(const input *in);

#define CHECK_OF(maker)                                                                                                \
    static void maker##_checks(const input *in)                                                                       \
    {                                                                                                                  \
        given.result = maker##_check_certificate(in->c, in->cn, in->q, in->qn);                                       \
    }
#define LIST_OF(maker, call)                                                                                           \
    static void maker##_lists_##call(const input *in)                                                                 \
    {                                                                                                                  \
        given.answer = maker##_##call(in->c, in->cn, in->q, in->qn, given.buffer, given.room);                        \
    }

#define CALLS_OF(maker) CHECK_OF(maker) LIST_OF(maker, prices) LIST_OF(maker, charges)

CALLS_OF(nostwier)
CALLS_OF(baseline)
CALLS_OF(same_ideas)
CALLS_OF(reference)

static run *const runs[MAKERS][CALLS] = {
    [LIBRARY] = {nostwier_checks, nostwier_lists_prices, nostwier_lists_charges},
    [BASELINE] = {baseline_checks, baseline_lists_prices, baseline_lists_charges},
    [SAME_IDEAS] = {same_ideas_checks, same_ideas_lists_prices, same_ideas_lists_charges},
    [REFERENCE] = {reference_checks, reference_lists_prices, reference_lists_charges},
};

/* ---- Equal answers. */

/* How many numbers a call would write, from the counts in the file's head, whatever they are. */
static size_t numbers(enum call call, const input *in)
{
    if (call == CHECK || in->cn < 8)
        return 0;
    size_t r = in->c[5], z = in->c[6], f = in->c[7];
    size_t count = call == PRICES ? r + 4 * z : 21 + 4 * z + f + 19 * r;
    return count < ROOM - 8 ? count : ROOM - 8;
}

static void lend(size_t room)
{
    memset(&given, 0, sizeof given);
    given.room = room;
    for (size_t i = 0; i < ROOM; i++)
        given.buffer[i] = (int64_t)(0x5bd1e995u * (i + 1));
}

static unsigned long compared, accepted;

/* Each implementation's answer is the first one's, with buffers just too short, just long enough and longer. */
static int same_answers(const inputs *all)
{
    static char first[sizeof given];
    int same = 1;
    for (int i = 0; i < all->count; i++)
        for (int call = CHECK; call < CALLS; call++)
            for (int k = 0; k < (call == CHECK ? 1 : 3); k++) {
                size_t needed = numbers(call, &all->of[i]), room = k == 2 ? needed + 7 : needed - (k == 1 && needed > 0);
                const char *by = NULL;
                for (int maker = 0; maker < MAKERS; maker++) {
                    lend(room);
                    runs[maker][call](&all->of[i]);
                    if (by == NULL) {
                        by = maker_names[maker];
                        memcpy(first, &given, sizeof given);
                        accepted += call == CHECK && given.result.refusal == 0;
                    } else if (memcmp(first, &given, sizeof given) != 0) {
                        printf("%s: %s and %s differ in %s\n", all->of[i].name, by, maker_names[maker], call_names[call]);
                        same = 0;
                    }
                    compared++;
                }
            }
    return same;
}

/* ---- Times, in nanoseconds. */

static double read_clock(clockid_t clock)
{
    struct timespec time;
    clock_gettime(clock, &time);
    return 1e9 * (double)time.tv_sec + (double)time.tv_nsec;
}

static double now(void)
{
    return read_clock(CLOCK_MONOTONIC);
}

/* For what takes milliseconds, in which other programs may have their turn. It is too slow a clock for single calls. */
static double processor_time(void)
{
    return read_clock(CLOCK_PROCESS_CPUTIME_ID);
}

typedef struct {
    int count;
    double of[MOST_SAMPLES];
} samples;

static void add(samples *all, double time)
{
    if (all->count < MOST_SAMPLES)
        all->of[all->count++] = time;
}

static int by_size(const void *a, const void *b)
{
    double x = *(const double *)a, y = *(const double *)b;
    return (x > y) - (x < y);
}

typedef struct {
    double median, p99;
} times;

static times times_of(samples *all)
{
    if (all->count == 0)
        return (times){0, 0};
    qsort(all->of, (size_t)all->count, sizeof *all->of, by_size);
    return (times){all->of[all->count / 2], all->of[(all->count - 1) * 99 / 100]};
}

/* Brings an input into the nearest cache, so that it does not matter who is called on it first. */
static void touch(const input *in)
{
    static volatile uint8_t last;
    for (size_t i = 0; i < in->cn; i += 32)
        last = in->c[i];
    for (size_t i = 0; i < in->qn; i += 32)
        last = in->q[i];
    (void)last;
}

static double single_time(enum maker maker, enum call call, const input *in)
{
    touch(in);
    double start = now();
    runs[maker][call](in);
    return now() - start;
}

/* The implementations take turns on every input, first one way round and then the other, until the baseline has its samples
 * or the time is up. The reference is slow, and is called in one round of many. */
static void measure(const inputs *all, enum call call, int makers, double budget, times out[MAKERS])
{
    static samples taken[MAKERS];
    double until = now() + budget;
    for (int maker = 0; maker < MAKERS; maker++)
        taken[maker].count = 0;
    lend(ROOM);
    for (int round = 0; round < 3 || (now() < until && taken[BASELINE].count < MOST_SAMPLES); round++)
        for (int i = 0; i < all->count; i++)
            for (int turn = 0; turn < makers; turn++) {
                int maker = round % 2 == 0 ? turn : makers - 1 - turn;
                if (maker == REFERENCE && round % 16 != 0)
                    continue;
                double time = single_time(maker, call, &all->of[i]);
                if (round > 0 || maker == REFERENCE)
                    add(&taken[maker], time);
            }
    for (int maker = 0; maker < MAKERS; maker++)
        out[maker] = times_of(&taken[maker]);
}

/* ---- Two calls compared. On a shared machine the clock's rate and other programs' turns change within milliseconds, so the
 * two take turns within a round, and it is rounds that are compared. */

typedef struct {
    run *call;
    const inputs *on;
} side;

typedef struct {
    double of[2]; /* times of the two sides */
} round_times;

/* How they take turns: so many inputs of one side, then of the other; by which clock; whether inputs are brought into the
 * cache before the clock is read; and how often all of that. */
typedef struct {
    int turn, touched, rounds;
    clockid_t clock;
} manner;

static const manner single_calls = {1, 1, MOST_ROUNDS, CLOCK_MONOTONIC};
/* In a row: two hours of the day in turn, by processor time, since other programs have their turns in it. */
static const manner in_a_row = {24, 0, DAYS, CLOCK_PROCESS_CPUTIME_ID};

static double turn_time(side side, int first, manner how)
{
    int end = first + how.turn < side.on->count ? first + how.turn : side.on->count;
    for (int i = first; i < end && how.touched; i++)
        touch(&side.on->of[i]);
    double start = read_clock(how.clock);
    for (int i = first; i < end; i++)
        side.call(&side.on->of[i]);
    return read_clock(how.clock) - start;
}

static int by_sum(const void *a, const void *b)
{
    const round_times *x = a, *y = b;
    double left = x->of[0] + x->of[1], right = y->of[0] + y->of[1];
    return (left > right) - (left < right);
}

static int by_ratio(const void *a, const void *b)
{
    const round_times *x = a, *y = b;
    double left = x->of[0] * y->of[1], right = y->of[0] * x->of[1];
    return (left > right) - (left < right);
}

/* The times, for one call on one input, of the round whose ratio is the median among the fastest quarter of all rounds, which
 * other programs disturb least. The side that begins changes from turn to turn and from round to round. */
static round_times in_turns(side a, side b, manner how)
{
    static round_times taken[MOST_ROUNDS];
    const side sides[2] = {a, b};
    if (a.on->count != b.on->count)
        die("%d inputs beside %d", a.on->count, b.on->count);
    lend(ROOM);
    for (int round = -1; round < how.rounds; round++) {
        round_times sum = {{0, 0}};
        for (int first = 0; first < a.on->count; first += how.turn)
            for (int k = 0; k < 2; k++) {
                int which = (round + 1 + first / how.turn + k) % 2;
                sum.of[which] += turn_time(sides[which], first, how) / a.on->count;
            }
        if (round >= 0)
            taken[round] = sum;
    }
    qsort(taken, (size_t)how.rounds, sizeof *taken, by_sum);
    qsort(taken, (size_t)how.rounds / 4, sizeof *taken, by_ratio);
    return taken[how.rounds / 8];
}

static round_times beside(enum maker other, const inputs *all, enum call call, manner how)
{
    return in_turns((side){runs[LIBRARY][call], all}, (side){runs[other][call], all}, how);
}

static void cell(times time)
{
    printf(" %.2f / %.2f |", time.median / 1e3, time.p99 / 1e3);
}

static void ratio(double a, double b)
{
    printf(" %.2f |", a / b);
}

/* ---- Solvers. Only the solution of a programme that has been read is timed. */

typedef struct {
    times check, glpk, clp;
} solved;

static void within(const char *solver, const input *in, double optimum)
{
    nostwier_result result = baseline_check_certificate(in->c, in->cn, in->q, in->qn);
    double room = 1e-6 * (1e9 + (optimum < 0 ? -optimum : optimum));
    if (optimum < (double)result.bound - room || optimum > (double)result.cost + room)
        die("%s: the optimum of %s, %.0f, is not between bound and cost", in->name, solver, optimum);
}

static double glpk_time(const input *in, const char *programme)
{
    glp_prob *problem = glp_create_prob();
    glp_smcp how;
    glp_init_smcp(&how);
    how.msg_lev = GLP_MSG_OFF;
    how.presolve = GLP_ON; /* as glpsol does */
    if (glp_read_mps(problem, GLP_MPS_DECK, NULL, programme) != 0)
        die("GLPK cannot read %s", programme);
    double start = processor_time();
    int status = glp_simplex(problem, &how);
    double end = processor_time();
    if (status != 0 || glp_get_status(problem) != GLP_OPT)
        die("GLPK cannot solve %s", programme);
    within("GLPK", in, glp_get_obj_val(problem));
    glp_delete_prob(problem);
    return end - start;
}

static double clp_time(const input *in, const char *programme)
{
    Clp_Simplex *model = Clp_newModel();
    Clp_setLogLevel(model, 0);
    if (Clp_readMps(model, programme, 0, 0) != 0)
        die("CLP cannot read %s", programme);
    double start = processor_time();
    Clp_initialSolve(model); /* as clp does */
    double end = processor_time();
    if (Clp_status(model) != 0)
        die("CLP cannot solve %s", programme);
    within("CLP", in, Clp_objectiveValue(model));
    Clp_deleteModel(model);
    return end - start;
}

/* The library's check has its turns between the solutions, so that all meet the same machine. */
static solved solve(const inputs *all, int rounds)
{
    static samples check, glpk, clp;
    check.count = glpk.count = clp.count = 0;
    for (int round = 0; round < rounds; round++)
        for (int i = 0; i < all->count; i++) {
            const input *in = &all->of[i];
            char programme[300];
            snprintf(programme, sizeof programme, "%s.mps", in->name);
            add(&glpk, glpk_time(in, programme));
            add(&clp, clp_time(in, programme));
            for (int k = 0; k < 100; k++)
                add(&check, single_time(LIBRARY, CHECK, in));
        }
    return (solved){times_of(&check), times_of(&glpk), times_of(&clp)};
}

/* ---- The stack: a call is made on one that is full of a pattern, and what it leaves of that is looked at, before anything
 * else runs there. */

enum { STACK = 1 << 20, PATTERN = 0xa5 };
static ucontext_t caller, callee;
static run *probed;
static const input *probed_on;
static uint8_t *stack;
static size_t untouched;

static void nothing(const input *in)
{
    (void)in;
}

static void probe(void)
{
    probed(probed_on);
    for (untouched = 0; untouched < STACK && stack[untouched] == PATTERN; untouched++)
        ;
}

static size_t stack_used(run *f, const input *in)
{
    if (stack == NULL)
        stack = mmap(NULL, STACK, PROT_READ | PROT_WRITE, MAP_PRIVATE | MAP_ANONYMOUS, -1, 0);
    if (stack == MAP_FAILED)
        die("no memory for a stack");
    memset(stack, PATTERN, STACK);
    probed = f;
    probed_on = in;
    getcontext(&callee);
    callee.uc_stack = (stack_t){.ss_sp = stack, .ss_size = STACK};
    callee.uc_link = &caller;
    makecontext(&callee, probe, 0);
    swapcontext(&caller, &callee);
    return STACK - untouched;
}

/* The other five of the eight calls. What is read of an input is what is written after it, and must be the same file. */
static uint32_t refusal;
static struct {
    nostwier_count of;
    int64_t numbers[NOSTWIER_MOST_CASE_NUMBERS];
} held;
static struct {
    nostwier_count of;
    uint8_t bytes[NOSTWIER_MOST_CASE_BYTES];
} written;

static void nostwier_checks_case(const input *in)
{
    refusal = nostwier_check_case(in->c, in->cn);
}

static void nostwier_reads_case(const input *in)
{
    held.of = nostwier_read_case(in->c, in->cn, held.numbers, NOSTWIER_MOST_CASE_NUMBERS);
}

static void nostwier_reads_certificate(const input *in)
{
    held.of = nostwier_read_certificate(in->q, in->qn, held.numbers, NOSTWIER_MOST_CASE_NUMBERS);
}

static void nostwier_writes_case(const input *in)
{
    (void)in;
    written.of = nostwier_write_case(held.numbers, held.of.count, written.bytes, sizeof written.bytes);
}

static void nostwier_writes_certificate(const input *in)
{
    (void)in;
    written.of = nostwier_write_certificate(held.numbers, held.of.count, written.bytes, sizeof written.bytes);
}

/* In this order, so that each file is read right before it is written. */
enum file { NO_FILE, CASE_FILE, CERTIFICATE_FILE };
static const struct {
    const char *name;
    run *call;
    enum file writes;
} eight[] = {
    {"check of a case", nostwier_checks_case, NO_FILE},
    {"check of a certificate", nostwier_checks, NO_FILE},
    {"prices", nostwier_lists_prices, NO_FILE},
    {"charges", nostwier_lists_charges, NO_FILE},
    {"reading a case", nostwier_reads_case, NO_FILE},
    {"writing a case", nostwier_writes_case, CASE_FILE},
    {"reading a certificate", nostwier_reads_certificate, NO_FILE},
    {"writing a certificate", nostwier_writes_certificate, CERTIFICATE_FILE},
};

static int succeeded(enum file writes, const input *in)
{
    const uint8_t *file = writes == CASE_FILE ? in->c : in->q;
    size_t size = writes == CASE_FILE ? in->cn : in->qn;
    if (refusal != 0 || given.result.refusal != 0 || given.answer.refusal != 0 || held.of.refusal != 0 || written.of.refusal != 0)
        return 0;
    return writes == NO_FILE || (written.of.count == size && memcmp(written.bytes, file, size) == 0);
}

/* ---- The tables. */

static const int all_r[] = {1, 2, 4, 8, 16, 32, 64}, all_f[] = {0, 1, 2, 4, 8, MOST};
static const int some_r[] = {1, 8, 64}, some_f[] = {0, MOST};
#define LENGTH(list) ((int)(sizeof(list) / sizeof *(list)))
#define DIGITS(number) #number
#define TEXT(macro) DIGITS(macro)
#define MOST_F "F " TEXT(NOSTWIER_MOST_FLOWGATES)

static int missed;

static const char *verdict(int met)
{
    missed += !met;
    return met ? "pass" : "MISS";
}

/* A line on a ratio: the library's time, the other one and the ratio. */
static void line(const char *what, double most, const char *other, round_times pair, double unit, const char *name)
{
    printf("| %s at most %g times %s |", what, most, other);
    printf(" %.2f %s | %.2f %s | %.2f |", pair.of[0] / unit, name, pair.of[1] / unit, name, pair.of[0] / pair.of[1]);
}

static void bar(const char *what, double most, const char *other, round_times pair, double unit, const char *name)
{
    line(what, most, other, pair, unit, name);
    printf(" %s |\n", verdict(pair.of[0] <= most * pair.of[1]));
}

/* An aim that is not reached makes no run fail. */
static void aim(const char *what, double most, const char *other, round_times pair, double unit, const char *name)
{
    line(what, most, other, pair, unit, name);
    printf(" %s |\n", pair.of[0] <= most * pair.of[1] ? "reached" : "not reached");
}

static int equal_answers(const char *folder)
{
    static inputs all;
    int same;
    take_inputs(&all, folder, "refused", MOST_INPUTS);
    same = same_answers(&all);
    give_back(&all);
    for (int i = 0; i < LENGTH(all_r); i++)
        for (int j = 0; j < LENGTH(all_f); j++)
            if (all_r[i] == 64 || all_f[j] == MOST || (all_f[j] == 0 && (all_r[i] == 1 || all_r[i] == 8))) {
                take_size(&all, folder, all_r[i], all_f[j], DAY);
                same &= same_answers(&all);
                give_back(&all);
            }
    return same;
}

static void table_of_calls(const char *folder)
{
    static inputs all;
    times of[MAKERS];
    printf("Times are in microseconds: median / 99th percentile of single calls. Z is %d.\n\n", ZONES);
    printf("| call | R | F |");
    for (int maker = 0; maker < MAKERS; maker++)
        printf(" %s |", maker_names[maker]);
    printf(" library : baseline | library : same ideas | reference : library |\n|---|---|---|---|---|---|---|---|---|---|\n");
    for (int call = CHECK; call < CALLS; call++)
        for (int i = 0; i < LENGTH(some_r); i++)
            for (int j = 0; j < LENGTH(some_f); j++) {
                take_size(&all, folder, some_r[i], some_f[j], TIMED);
                measure(&all, call, MAKERS, 5e8, of);
                printf("| %s | %d | %d |", call_names[call], some_r[i], some_f[j]);
                for (int maker = 0; maker < MAKERS; maker++)
                    cell(of[maker]);
                ratio(of[LIBRARY].median, of[BASELINE].median);
                ratio(of[LIBRARY].median, of[SAME_IDEAS].median);
                ratio(of[REFERENCE].median, of[LIBRARY].median);
                putchar('\n');
                give_back(&all);
            }
}

/* Returns the times of the check and of GLPK at R 64 with the most flowgates. */
static round_times table_of_solvers(const char *folder)
{
    static inputs all;
    round_times last = {{0, 0}};
    printf("\n| R | F | check | GLPK solves again | CLP solves again | GLPK : check | CLP : check |\n|---|---|---|---|---|---|---|\n");
    for (int i = 0; i < LENGTH(some_r); i++)
        for (int j = 0; j < LENGTH(some_f); j++) {
            take_size(&all, folder, some_r[i], some_f[j], TIMED);
            solved here = solve(&all, some_r[i] == 64 ? 4 : 10);
            printf("| %d | %d |", some_r[i], some_f[j]);
            cell(here.check);
            cell(here.glpk);
            cell(here.clp);
            ratio(here.glpk.median, here.check.median);
            ratio(here.clp.median, here.check.median);
            putchar('\n');
            last = (round_times){{here.check.median, here.glpk.median}};
            give_back(&all);
        }
    return last;
}

static void table_of_growth(const char *folder)
{
    static inputs all;
    times of[MAKERS];
    printf("\nGrowth of the check with R (F %d), and with F (R 64):\n\n| R | F | library | baseline in C | same ideas in C |\n"
           "|---|---|---|---|---|\n", MOST);
    for (int i = 0; i < LENGTH(all_r) + LENGTH(all_f) - 1; i++) {
        int r = i < LENGTH(all_r) ? all_r[i] : 64, f = i < LENGTH(all_r) ? MOST : all_f[i - LENGTH(all_r)];
        take_size(&all, folder, r, f, TIMED);
        measure(&all, CHECK, REFERENCE, 5e8, of);
        printf("| %d | %d |", r, f);
        for (int maker = 0; maker < REFERENCE; maker++)
            cell(of[maker]);
        putchar('\n');
        give_back(&all);
    }
}

/* A day: the intervals one after the other, none a second time before all the others. Returns the check's times of all, and the
 * baseline's. */
static round_times table_of_days(const inputs *day)
{
    round_times check = {{0, 0}};
    printf("\n%d intervals in a row (R 64, F %d), in milliseconds, one of %d days for each line:\n\n", DAY, MOST, DAYS);
    printf("| call | beside | library | that | library : that |\n|---|---|---|---|---|\n");
    for (int call = CHECK; call < CALLS; call++)
        for (int other = BASELINE; other < REFERENCE; other++) {
            round_times one = beside(other, day, call, in_a_row);
            one = (round_times){{DAY * one.of[0], DAY * one.of[1]}};
            printf("| %s | %s | %.2f | %.2f |", call_names[call], maker_names[other], one.of[0] / 1e6, one.of[1] / 1e6);
            ratio(one.of[0], one.of[1]);
            putchar('\n');
            if (call == CHECK && other == BASELINE)
                check = one;
        }
    return check;
}

/* Returns the deepest use of all. */
static size_t table_of_stack(const inputs *day)
{
    size_t frame = stack_used(nothing, NULL), deepest[LENGTH(eight)] = {0}, most = 0;
    lend(ROOM);
    for (int i = 0; i < TIMED; i++)
        for (int k = 0; k < LENGTH(eight); k++) {
            size_t used = stack_used(eight[k].call, &day->of[i]) - frame;
            if (!succeeded(eight[k].writes, &day->of[i]))
                die("%s: %s does not succeed", day->of[i].name, eight[k].name);
            deepest[k] = used > deepest[k] ? used : deepest[k];
        }
    printf("\nStack of each of the eight calls (R 64, F %d), in bytes, deepest on %d pairs:\n\n| call | bytes |\n|---|---|\n", MOST, TIMED);
    for (int k = 0; k < LENGTH(eight); k++) {
        printf("| %s | %zu |\n", eight[k].name, deepest[k]);
        most = deepest[k] > most ? deepest[k] : most;
    }
    return most;
}

int main(int count, char **arguments)
{
    static inputs one, bare, small, all, day;
    if (count != 2)
        die("usage: bench DIR");
    const char *folder = arguments[1];
    glp_term_out(GLP_OFF);
    if (!equal_answers(folder))
        return 1;
    printf("Before timing, %lu answers of library, baseline, same ideas and reference were equal; %lu certificates of them are "
           "accepted, the others refused.\n\n", compared, accepted);

    take_size(&day, folder, 64, MOST, DAY);
    if (day.count < DAY)
        die("fewer than %d pairs of R 64, F %d", DAY, MOST);
    take_size(&all, folder, 64, MOST, TIMED);
    take_size(&small, folder, 16, MOST, TIMED);
    take_size(&one, folder, 1, MOST, TIMED);
    take_size(&bare, folder, 1, 0, TIMED);
    table_of_calls(folder);
    round_times glpk = table_of_solvers(folder);
    table_of_growth(folder);
    round_times row = table_of_days(&day);
    size_t deepest = table_of_stack(&day);

    printf("\n| bar | library | beside it | ratio | |\n|---|---|---|---|---|\n");
    bar("check at R 64, " MOST_F, 0.85, "the baseline (aim 0.7)", beside(BASELINE, &all, CHECK, single_calls), 1e3, "µs");
    bar("prices at R 64, " MOST_F, 0.95, "the baseline", beside(BASELINE, &all, PRICES, single_calls), 1e3, "µs");
    bar("charges at R 64, " MOST_F, 0.95, "the baseline", beside(BASELINE, &all, CHARGES, single_calls), 1e3, "µs");
    bar("check, 288 intervals in a row (R 64, " MOST_F "),", 0.9, "the baseline", row, 1e6, "ms");
    bar("check at R 1, " MOST_F, 1.1, "the baseline", beside(BASELINE, &one, CHECK, single_calls), 1e3, "µs");
    bar("check at R 1, F 0", 1.1, "the baseline", beside(BASELINE, &bare, CHECK, single_calls), 1e3, "µs");
    bar("check at R 64", 4, "that at R 16 (" MOST_F ")",
        in_turns((side){nostwier_checks, &all}, (side){nostwier_checks, &small}, single_calls), 1e3, "µs");
    printf("| check at R 64, " MOST_F " at least 500 times faster than GLPK | %.2f µs | %.2f µs | %.0f | %s |\n", glpk.of[0] / 1e3,
           glpk.of[1] / 1e3, glpk.of[1] / glpk.of[0], verdict(glpk.of[1] >= 500 * glpk.of[0]));
    printf("| less than 32 KiB of stack, deepest of the eight calls | %zu bytes | - | - | %s |\n", deepest, verdict(deepest < 32768));
    aim("aim, no bar: check at R 64, " MOST_F, 1.15, "the same ideas in C", beside(SAME_IDEAS, &all, CHECK, single_calls), 1e3, "µs");
    give_back(&bare);
    give_back(&one);
    give_back(&small);
    give_back(&all);
    give_back(&day);
    return missed > 0;
}
