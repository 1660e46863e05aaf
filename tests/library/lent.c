/* Lends the library buffers of exactly the sizes that the header gives for a pair's version and counts, and one item shorter:
 *
 *   lent CASE CERT    an accepted pair
 *
 * The first must be long enough and the second must not, for each call that writes. Prints a line for each call of which that is
 * not so. Status 0 if there is none, 1 if there is one, 2 if a file cannot be read. */
#include <nostwier.h>

#include <stdio.h>
#include <stdlib.h>

typedef struct {
    uint8_t bytes[1 << 16];
    size_t length;
} file;

typedef nostwier_answer list(const uint8_t *c, size_t cn, const uint8_t *q, size_t qn, int64_t *out, size_t n);
typedef nostwier_count reader(const uint8_t *file, size_t length, int64_t *out, size_t n);
typedef nostwier_count writer(const int64_t *v, size_t n, uint8_t *out, size_t length);

static file c, q;
static int64_t numbers[NOSTWIER_MOST_CASE_NUMBERS];
static int wrong;

static void take(file *to, const char *path)
{
    FILE *from = fopen(path, "rb");
    if (from == NULL) {
        perror(path);
        exit(2);
    }
    to->length = fread(to->bytes, 1, sizeof to->bytes, from);
    fclose(from);
}

static void expect(const char *call, size_t size, uint32_t enough, size_t written, uint32_t shorter)
{
    if (enough == NOSTWIER_ACCEPTED && written == size && shorter == NOSTWIER_BUFFER_SHORT)
        return;
    printf("%s: refused %u with room for %zu, %zu written; refused %u with one fewer\n", call, (unsigned)enough, size, written,
           (unsigned)shorter);
    wrong = 1;
}

static void lists(const char *call, list *write, size_t size)
{
    uint32_t shorter = write(c.bytes, c.length, q.bytes, q.length, numbers, size - 1).refusal;
    expect(call, size, write(c.bytes, c.length, q.bytes, q.length, numbers, size).refusal, size, shorter);
}

/* Reads a file's numbers, and writes the file anew. */
static void reads_and_writes(const char *what, const file *from, reader *read, size_t count, writer *write, size_t bytes)
{
    static uint8_t anew[NOSTWIER_MOST_CASE_BYTES];
    uint32_t shorter = read(from->bytes, from->length, numbers, count - 1).refusal;
    nostwier_count enough = read(from->bytes, from->length, numbers, count);
    expect(what, count, enough.refusal, enough.count, shorter);
    shorter = write(numbers, count, anew, bytes - 1).refusal;
    enough = write(numbers, count, anew, bytes);
    expect(what, bytes, enough.refusal, enough.count, shorter);
}

int main(int argc, char **argv)
{
    if (argc != 3)
        return 2;
    take(&c, argv[1]);
    take(&q, argv[2]);
    uint8_t version = c.bytes[4], r = c.bytes[5], z = c.bytes[6], f = c.bytes[7];
    lists("prices", nostwier_prices, NOSTWIER_PRICES(r, z));
    lists("charges", nostwier_charges, NOSTWIER_CHARGES(version, r, z, f));
    reads_and_writes("case", &c, nostwier_read_case, NOSTWIER_CASE_NUMBERS(version, r, z, f), nostwier_write_case,
                     NOSTWIER_CASE_BYTES(version, r, z, f));
    reads_and_writes("certificate", &q, nostwier_read_certificate, NOSTWIER_CERTIFICATE_NUMBERS(version, r, z, f),
                     nostwier_write_certificate, NOSTWIER_CERTIFICATE_BYTES(version, r, z, f));
    return wrong;
}
