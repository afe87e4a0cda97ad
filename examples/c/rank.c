/* Scores the match weights of a few records and lists them by their scores, the greatest first. Equal scores keep the order of the list,
 * and a record whose weight could not be read comes last, with the reason and without a place. Then the same with exceptions of the user's
 * own, which part two records that had one score. In the repository's root:
 *
 *     make archive
 *     cc -I include -o target/rank examples/c/rank.c target/staticlib/libweigher.a
 *     target/rank
 */
#include <inttypes.h>
#include <math.h>
#include <stdint.h>
#include <stdio.h>
#include <stdlib.h>
#include <string.h>

#include "weigher.h"

struct record {
    const char *name;
    double weight;
    double score;
    size_t number;
};

/* The functions take and return patterns: a double's bits as a number. */
static uint64_t pattern(double x)
{
    uint64_t bits;
    memcpy(&bits, &x, sizeof bits);
    return bits;
}

static double value(uint64_t bits)
{
    double x;
    memcpy(&x, &bits, sizeof x);
    return x;
}

/* A weight that could not be read: a NaN with the reason's number in its low bits. */
static double unreadable(uint64_t reason)
{
    return value(WEIGHER_NAN | reason);
}

/* The score of such a weight has the same low bits, 51 of them. */
static uint64_t reason(double score)
{
    return pattern(score) & 0x0007ffffffffffff;
}

static double built_in_score(double weight)
{
    return value(weigher_score(pattern(weight)));
}

/* In the order of x. lo is more than half of a spacing, so that the scores are the floats behind hi. */
static const weigher_entry own_list[] = {
    {.x = -0x1p-60, .hi = -0x1.62e42fefa39efp-61, .lo = -0x1.2p-114},
    {.x = 0x1.8p-60, .hi = 0x1.0a2b23f3bab73p-60, .lo = 0x1.2p-113},
};

static double own_score(double weight)
{
    uint64_t score;
    unsigned refusal = weigher_score_with(own_list, sizeof own_list / sizeof own_list[0], pattern(weight), &score);
    if (refusal != 0) {
        fprintf(stderr, "the list is refused by %u\n", refusal);
        exit(1);
    }
    return value(score);
}

/* For qsort, which may swap equal elements: so the number in the list decides between equal scores. */
static int by_score(const void *first, const void *second)
{
    const struct record *a = first, *b = second;
    int a_missing = isnan(a->score) != 0, b_missing = isnan(b->score) != 0;
    if (a_missing != b_missing)
        return a_missing - b_missing;
    if (a->score > b->score)
        return -1;
    if (a->score < b->score)
        return 1;
    return a->number < b->number ? -1 : 1;
}

static void print_record(size_t place, const struct record *record)
{
    if (isnan(record->score))
        printf(" - %016" PRIx64 "   reason %" PRIu64 "  %s\n", pattern(record->score), reason(record->score), record->name);
    else
        printf("%2zu %016" PRIx64 " %10.3f  %s\n", place, pattern(record->score), record->score, record->name);
}

static void rank(struct record *records, size_t count, double (*score)(double))
{
    for (size_t i = 0; i < count; i++)
        records[i].score = score(records[i].weight);
    qsort(records, count, sizeof records[0], by_score);
    for (size_t i = 0; i < count; i++)
        print_record(i + 1, &records[i]);
}

int main(void)
{
    struct record records[] = {
        {.name = "baptism of Ann Pell, 1731", .weight = 1.0},
        {.name = "baptism of Anne Pell, 1733", .weight = 1.0000000000000002},
        {.name = "burial of Ann Pell, 1731", .weight = -1.5},
        {.name = "marriage of Ann Pell, 1752", .weight = 12.25},
        {.name = "baptism of Amy Bell, page torn", .weight = unreadable(3)},
        {.name = "baptism of John Hull, 1731", .weight = -60.0},
        {.name = "burial of Mary Cole, 1702", .weight = -54.0},
        {.name = "marriage of A. Pell, 1750", .weight = 0.0},
        {.name = "burial of Amy Bell, 1790", .weight = 1.3010426069826051e-18},
        {.name = "burial of A. Bell, 1791", .weight = 1.3010426069826053e-18},
        {.name = "baptism of Ann Ball, 1730", .weight = -8.673617379884035e-19},
    };
    size_t count = sizeof records / sizeof records[0];
    for (size_t i = 0; i < count; i++)
        records[i].number = i;
    printf("By the built-in table:\n");
    rank(records, count, built_in_score);
    printf("\nBy our own list:\n");
    rank(records, count, own_score);
    return 0;
}
