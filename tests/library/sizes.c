/* Prints what the headers say, for tests/library/run to compare. It is built as C and as C++.
 *
 *   sizes VERSION R Z F   the sizes of files of this version with these counts, on one line: bytes of case and certificate, numbers
 *                         of both, rows, prices, charges
 *   sizes most            the same of the largest case
 *   sizes versions        the versions of files whose sizes the header knows
 *   sizes refusals        a line for each number from 0 to one past the last refusal: the number, its text, its advice
 */
#include <nostwier.h>
#include <nostwier_refusals.h>

#include <stdio.h>
#include <stdlib.h>
#include <string.h>

/* The sizes of the largest case are constants, good for arrays. */
static int64_t room[NOSTWIER_MOST_CHARGES + NOSTWIER_MOST_PRICES];

/* So is each size whose arguments are. */
#define CONSTANT(name, size) typedef char name[size(1, 1, 1, 0)]
CONSTANT(case_bytes, NOSTWIER_CASE_BYTES);
CONSTANT(certificate_bytes, NOSTWIER_CERTIFICATE_BYTES);
CONSTANT(case_numbers, NOSTWIER_CASE_NUMBERS);
CONSTANT(certificate_numbers, NOSTWIER_CERTIFICATE_NUMBERS);
CONSTANT(rows, NOSTWIER_ROWS);
CONSTANT(charges, NOSTWIER_CHARGES);

int main(int argc, char **argv)
{
    if (argc == 5) {
        int version = atoi(argv[1]), r = atoi(argv[2]), z = atoi(argv[3]), f = atoi(argv[4]);
        printf("%zu %zu %zu %zu %zu %zu %zu\n", NOSTWIER_CASE_BYTES(version, r, z, f),
               NOSTWIER_CERTIFICATE_BYTES(version, r, z, f), NOSTWIER_CASE_NUMBERS(version, r, z, f),
               NOSTWIER_CERTIFICATE_NUMBERS(version, r, z, f), NOSTWIER_ROWS(version, r, z, f), NOSTWIER_PRICES(r, z),
               NOSTWIER_CHARGES(version, r, z, f));
    } else if (argc == 2 && strcmp(argv[1], "most") == 0) {
        printf("%zu %zu %zu %zu %zu %zu %zu\n", NOSTWIER_MOST_CASE_BYTES, NOSTWIER_MOST_CERTIFICATE_BYTES,
               NOSTWIER_MOST_CASE_NUMBERS, NOSTWIER_MOST_CERTIFICATE_NUMBERS, NOSTWIER_OF_MOST(NOSTWIER_ROWS),
               NOSTWIER_MOST_PRICES, sizeof room / sizeof *room - NOSTWIER_MOST_PRICES);
    } else if (argc == 2 && strcmp(argv[1], "versions") == 0) {
        for (int version = 0; version < 256; version++)
            if (NOSTWIER_CASE_BYTES(version, 1, 1, 0) > 0)
                printf("%d\n", version);
    } else if (argc == 2 && strcmp(argv[1], "refusals") == 0) {
        for (uint32_t number = 0; number <= NOSTWIER_REFUSALS + 1; number++)
            printf("%u\t%s\t%s\n", (unsigned)number, nostwier_refusal_text(number), nostwier_refusal_advice(number));
    } else {
        return 2;
    }
    return 0;
}
