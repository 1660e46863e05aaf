/* One call of the library on each of some pairs, whose instructions callgrind counts:
 *
 *   calls CALL DIR COUNT    CALL as in the header, without 'nostwier_'; DIR/N.case and DIR/N.cert are pair N
 *
 * Status 1 if a pair is refused, 2 if it cannot be run. */
#include "nostwier.h"

#include <stdio.h>
#include <stdlib.h>
#include <string.h>

enum { ROOM = 2048 };

typedef struct {
    uint8_t bytes[1 << 16];
    size_t size;
} file;

static void take(file *f, const char *folder, int number, const char *kind)
{
    char path[4096];
    snprintf(path, sizeof path, "%s/%d.%s", folder, number, kind);
    FILE *from = fopen(path, "rb");
    if (from == NULL) {
        perror(path);
        exit(2);
    }
    f->size = fread(f->bytes, 1, sizeof f->bytes, from);
    fclose(from);
}

static uint32_t refusal_of(const char *call, const file *c, const file *q)
{
    static int64_t out[ROOM];
    if (strcmp(call, "check_case") == 0)
        return nostwier_check_case(c->bytes, c->size);
    if (strcmp(call, "check_certificate") == 0)
        return nostwier_check_certificate(c->bytes, c->size, q->bytes, q->size).refusal;
    if (strcmp(call, "prices") == 0)
        return nostwier_prices(c->bytes, c->size, q->bytes, q->size, out, ROOM).refusal;
    if (strcmp(call, "charges") == 0)
        return nostwier_charges(c->bytes, c->size, q->bytes, q->size, out, ROOM).refusal;
    fprintf(stderr, "calls: no call %s\n", call);
    exit(2);
}

int main(int count, char **arguments)
{
    static file c, q;
    if (count != 4)
        return 2;
    for (int i = 1; i <= atoi(arguments[3]); i++) {
        take(&c, arguments[2], i, "case");
        take(&q, arguments[2], i, "cert");
        uint32_t refusal = refusal_of(arguments[1], &c, &q);
        if (refusal != 0) {
            fprintf(stderr, "calls: %s refuses pair %d: %u\n", arguments[1], i, (unsigned)refusal);
            return 1;
        }
    }
    return 0;
}
