/* What the refusals of nostwier.h mean, and what to do about each: plain C, no part of the library. */
#ifndef NOSTWIER_REFUSALS_H
#define NOSTWIER_REFUSALS_H

#include "nostwier.h"

/* The last refusal. */
#define NOSTWIER_REFUSALS 17

/* A number that a macro stands for, as text. */
#define NOSTWIER_DIGITS(number) #number
#define NOSTWIER_TEXT(macro) NOSTWIER_DIGITS(macro)

/* What a refusal, by its number, says; of a number that is none, 'no such refusal'. */
static inline const char *nostwier_refusal_text(uint32_t refusal)
{
    switch (refusal) {
    case NOSTWIER_ACCEPTED:
        return "accepted";
    case NOSTWIER_CASE_LENGTH:
        return "the case is under 170 bytes, or not as long as its first four bytes say";
    case NOSTWIER_CASE_VERSION:
        return "the case is of a version other than 1";
    case NOSTWIER_COUNTS:
        return "the number of resources, zones or flowgates is out of range";
    case NOSTWIER_CASE_SIZE:
        return "the case is not of the size that its resources, zones and flowgates need";
    case NOSTWIER_FIELD_RANGE:
        return "a field of the case is outside its range";
    case NOSTWIER_STEP_RULE:
        return "the steps of an offer or of a demand curve are against their rule";
    case NOSTWIER_LIMIT_PAIR:
        return "a resource has a minimum above its maximum";
    case NOSTWIER_CERTIFICATE_LENGTH:
        return "the certificate is under 44 bytes, or not as long as its first four bytes say";
    case NOSTWIER_CERTIFICATE_VERSION:
        return "the certificate is of a version other than 1";
    case NOSTWIER_CERTIFICATE_COUNTS:
        return "the certificate has other numbers of resources, zones or flowgates than the case";
    case NOSTWIER_CERTIFICATE_SIZE:
        return "the certificate is not of the size that its resources, zones and flowgates need";
    case NOSTWIER_PRICE_RANGE:
        return "a price of the certificate is outside its range";
    case NOSTWIER_QUANTITY_BOUND:
        return "a quantity of the certificate is above its bound";
    case NOSTWIER_ROW_BROKEN:
        return "the schedule breaks a row";
    case NOSTWIER_BUFFER_SHORT:
        return "the lent buffer is too short";
    case NOSTWIER_NUMBERS:
        return "the list of numbers is of a wrong length, or a number does not fit its field";
    case NOSTWIER_INPUT_LONG:
        return "the input is above 32,768 bytes";
    default:
        return "no such refusal";
    }
}

/* What to do about it. */
static inline const char *nostwier_refusal_advice(uint32_t refusal)
{
    switch (refusal) {
    case NOSTWIER_ACCEPTED:
        return "nothing";
    case NOSTWIER_CASE_LENGTH:
    case NOSTWIER_CERTIFICATE_LENGTH:
        return "look whether the file was cut short, or is another file; its first four bytes, big-endian, are the number of "
               "bytes after them";
    case NOSTWIER_CASE_VERSION:
    case NOSTWIER_CERTIFICATE_VERSION:
        return "write the file anew in version 1, the fifth byte";
    case NOSTWIER_COUNTS:
        return "keep to 1 to " NOSTWIER_TEXT(NOSTWIER_MOST_RESOURCES) " resources, 1 to " NOSTWIER_TEXT(NOSTWIER_MOST_ZONES)
               " zones and 0 to " NOSTWIER_TEXT(NOSTWIER_MOST_FLOWGATES) " flowgates, the sixth to eighth byte";
    case NOSTWIER_CASE_SIZE:
        return "look for a record that is missing or too many: 170 bytes, 16 a zone, 154 a resource, 4 and 2 a resource for "
               "each flowgate";
    case NOSTWIER_FIELD_RANGE:
        return "look for a wrong unit (kW, cents per MWh, thousandths) or a field out of order";
    case NOSTWIER_STEP_RULE:
        return "put steps of width 0 last, with price 0; let energy prices never fall and curve prices never rise; keep a "
               "resource's energy widths within 2,000,000 kW in sum";
    case NOSTWIER_LIMIT_PAIR:
        return "compare the economic, regulating and emergency limits of each resource";
    case NOSTWIER_CERTIFICATE_COUNTS:
        return "look whether the certificate was made for this case";
    case NOSTWIER_CERTIFICATE_SIZE:
        return "look for an entry that is missing or too many: 44 bytes, 16 a zone, 4 a flowgate, 40 a resource";
    case NOSTWIER_PRICE_RANGE:
        return "write the price of every row but row 1 as 0 or more (where a solver gives a negative dual, reference/README.md "
               "says which sign it counts), and set one beyond its range to the range's end: row 1 within +-400,000,000, flowgates "
               "0 to 400,000 cents, others 0 to 400,000,000 thousandths of a cent";
    case NOSTWIER_QUANTITY_BOUND:
        return "compare the quantity with its bound in the case; round it down, or look whether the resource is on-line and "
               "its flag is set";
    case NOSTWIER_ROW_BROKEN:
        return "change the schedule so that the row is met in whole kW: round it another way, or let the solver look for whole "
               "numbers";
    case NOSTWIER_BUFFER_SHORT:
        return "lend a buffer as long as the sizes in nostwier.h say";
    case NOSTWIER_NUMBERS:
        return "look for a negative number or one of too many digits; in a list give every field but length and version, in the "
               "file's order";
    case NOSTWIER_INPUT_LONG:
        return "give the program one case and one certificate, nothing else";
    default:
        return "look whether library and header are of one version";
    }
}

#endif
