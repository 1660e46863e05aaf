/* A host of the library: checks a case and a certificate, and prints what the certificate shows.
 *
 *   cc host.c $(pkg-config --cflags --libs nostwier) -o host
 *   ./host CASE CERT [MOST]
 *
 * Prints cost, bound and gap, the prices, and the charges above 0, largest first, with what each belongs to: MOST of them,
 * 10 if it is not given. Exit status 0 if the certificate is accepted, 1 if it is refused, 2 if a file cannot be read.
 */
#include <nostwier.h>
#include <nostwier_refusals.h>

#include <errno.h>
#include <inttypes.h>
#include <stdio.h>
#include <stdlib.h>
#include <string.h>

/* ---- Files. */

struct file {
    uint8_t bytes[1 << 16]; /* longer than any valid file: what is longer is cut short, and refused */
    size_t length;
};

static void take_file(struct file *to, const char *path)
{
    FILE *from = fopen(path, "rb");
    if (from != NULL)
        to->length = fread(to->bytes, 1, sizeof to->bytes, from);
    if (from == NULL || ferror(from)) {
        fprintf(stderr, "host: cannot read '%s': %s\n", path, strerror(errno));
        exit(2);
    }
    fclose(from);
}

/* ---- What rows, quantities and charges of version 1 are called. All are counted from 0 here. */

struct head { /* of a case, its bytes 4 to 7 */
    uint8_t version;
    size_t resources, zones, flowgates;
};

static const char *const curves[] = {"operating", "regulating-plus-spinning", "regulating", "short-term"};
static const char *const services[] = {"energy e", "regulating g", "contingency c", "on-line short-term s",
                                       "off-line short-term o"};
static const char *const limits[] = {"e+g+c <= MAX", "e+s <= MAX", "e-g >= MIN", "e <= HI", "e >= LO"};

enum {
    CURVES = sizeof curves / sizeof *curves,
    SERVICES = sizeof services / sizeof *services,
    LIMITS = sizeof limits / sizeof *limits,
    CURVE_STEPS = 4,
    ENERGY_STEPS = 10,
    OF_RESOURCE = ENERGY_STEPS + SERVICES - 1 /* charges of a resource's quantities: its steps stand for energy */
};

struct label {
    char text[80];
};

static struct label row_label(struct head n, size_t row)
{
    struct label label;
    size_t zones = 1 + CURVES, flowgates = zones + CURVES * n.zones, resources = flowgates + n.flowgates;
    if (row == 0)
        snprintf(label.text, sizeof label.text, "energy equals demand");
    else if (row < zones)
        snprintf(label.text, sizeof label.text, "market-wide %s reserve", curves[row - 1]);
    else if (row < flowgates)
        snprintf(label.text, sizeof label.text, "zone %zu: %s reserve", (row - zones) / CURVES + 1,
                 curves[(row - zones) % CURVES]);
    else if (row < resources)
        snprintf(label.text, sizeof label.text, "flowgate %zu", row - flowgates + 1);
    else
        snprintf(label.text, sizeof label.text, "resource %zu: %s", (row - resources) / LIMITS + 1,
                 limits[(row - resources) % LIMITS]);
    return label;
}

static struct label quantity_label(size_t quantity)
{
    struct label label;
    if (quantity < CURVES)
        snprintf(label.text, sizeof label.text, "cleared %s reserve", curves[quantity]);
    else
        snprintf(label.text, sizeof label.text, "resource %zu: %s", (quantity - CURVES) / SERVICES + 1,
                 services[(quantity - CURVES) % SERVICES]);
    return label;
}

static struct label charge_label(struct head n, size_t charge)
{
    struct label label;
    size_t rows = NOSTWIER_ROWS(n.version, n.resources, n.zones, n.flowgates), steps = rows + OF_RESOURCE * n.resources;
    if (charge < rows) {
        struct label row = row_label(n, charge);
        snprintf(label.text, sizeof label.text, "row %zu, %.60s", charge + 1, row.text);
    } else if (charge >= steps) {
        charge -= steps;
        snprintf(label.text, sizeof label.text, "%s curve: step %zu", curves[charge / CURVE_STEPS], charge % CURVE_STEPS + 1);
    } else {
        size_t resource = (charge - rows) / OF_RESOURCE + 1, part = (charge - rows) % OF_RESOURCE;
        if (part < ENERGY_STEPS)
            snprintf(label.text, sizeof label.text, "resource %zu: energy step %zu", resource, part + 1);
        else
            snprintf(label.text, sizeof label.text, "resource %zu: %s", resource, services[part - ENERGY_STEPS + 1]);
    }
    return label;
}

/* ---- Grains in dollars, with nine places: to the nearest, halves away from 0. */

static struct label dollars(int64_t grains)
{
    struct label label;
    uint64_t size = grains < 0 ? 0 - (uint64_t)grains : (uint64_t)grains, per = (uint64_t)NOSTWIER_GRAINS_PER_DOLLAR;
    uint64_t whole = size / per, parts = (size % per * 1000000000 + per / 2) / per;
    if (parts == 1000000000) {
        whole++;
        parts = 0;
    }
    snprintf(label.text, sizeof label.text, "%s%" PRIu64 ".%09" PRIu64, grains < 0 ? "-" : "", whole, parts);
    return label;
}

static void print_grains(const char *what, int64_t grains)
{
    printf("%-5s %22" PRId64 " grains  $%s\n", what, grains, dollars(grains).text);
}

/* ---- Charges, largest first; equal ones in their order. */

static int64_t charges[NOSTWIER_MOST_CHARGES];

static int larger_first(const void *left, const void *right)
{
    size_t a = *(const size_t *)left, b = *(const size_t *)right;
    if (charges[a] != charges[b])
        return charges[a] < charges[b] ? 1 : -1;
    return a < b ? -1 : a > b;
}

static void print_charges(struct head n, size_t most)
{
    static size_t order[NOSTWIER_MOST_CHARGES];
    size_t count = 0;
    for (size_t i = 0; i < NOSTWIER_CHARGES(n.version, n.resources, n.zones, n.flowgates); i++)
        if (charges[i] > 0)
            order[count++] = i;
    qsort(order, count, sizeof *order, larger_first);
    printf("charges above 0: %zu\n", count);
    for (size_t i = 0; i < count && i < most; i++)
        printf("%22" PRId64 " grains  $%s  %s\n", charges[order[i]], dollars(charges[order[i]]).text,
               charge_label(n, order[i]).text);
}

/* ---- The host. */

/* Says why a pair was refused, and what to do; ends the program. */
static void refused(struct head n, uint32_t refusal, uint32_t place)
{
    printf("refused %" PRIu32, refusal);
    if (place > 0)
        printf(" %" PRIu32, place);
    printf(": %s", nostwier_refusal_text(refusal));
    if (refusal == NOSTWIER_QUANTITY_BOUND)
        printf(" (%s)", quantity_label(place - 1).text);
    if (refusal == NOSTWIER_ROW_BROKEN)
        printf(" (%s)", row_label(n, place - 1).text);
    printf("\nwhat to do: %s\n", nostwier_refusal_advice(refusal));
    exit(1);
}

int main(int argc, char **argv)
{
    static struct file c, q;
    static int64_t prices[NOSTWIER_MOST_PRICES];
    if (argc != 3 && argc != 4) {
        fprintf(stderr, "usage: host CASE CERT [MOST]\n");
        return 2;
    }
    take_file(&c, argv[1]);
    take_file(&q, argv[2]);

    /* Version and counts are there to be relied on once the case is valid, so in refusals 13 and 14 too. */
    struct head n = {c.bytes[4], c.bytes[5], c.bytes[6], c.bytes[7]};
    nostwier_result result = nostwier_check_certificate(c.bytes, c.length, q.bytes, q.length);
    if (result.refusal != NOSTWIER_ACCEPTED)
        refused(n, result.refusal, result.place);
    print_grains("cost", result.cost);
    print_grains("bound", result.bound);
    print_grains("gap", result.gap);

    nostwier_answer answer =
        nostwier_prices(c.bytes, c.length, q.bytes, q.length, prices, sizeof prices / sizeof *prices);
    if (answer.refusal != NOSTWIER_ACCEPTED)
        refused(n, answer.refusal, answer.place);
    for (size_t i = 0; i < n.resources; i++)
        printf("resource %zu: LMP %" PRId64 "\n", i + 1, prices[i]);
    for (size_t i = 0; i < n.zones; i++) {
        const int64_t *zone = prices + n.resources + 4 * i;
        printf("zone %zu: regulating %" PRId64 ", spinning %" PRId64 ", supplemental %" PRId64 ", short-term %" PRId64 "\n",
               i + 1, zone[0], zone[1], zone[2], zone[3]);
    }

    answer = nostwier_charges(c.bytes, c.length, q.bytes, q.length, charges, sizeof charges / sizeof *charges);
    if (answer.refusal != NOSTWIER_ACCEPTED)
        refused(n, answer.refusal, answer.place);
    print_charges(n, argc == 4 ? strtoul(argv[3], NULL, 10) : 10);
    return 0;
}
