/* A few calls of each function of weigher.h, with what they return. */
#include <inttypes.h>
#include <stdio.h>
#include <string.h>

#include "weigher.h"

#define SHOW(call) printf("%s = 0x%016" PRIx64 "\n", #call, call)

static void numeric(void)
{
    SHOW(weigher_score(0xc04b000000000000)); /* -54 */
    SHOW(weigher_score(0x3970000000000000)); /* 2^-104 */
    SHOW(weigher_score(0xfff0000000000001)); /* a NaN with the reason 1 in its low bits */

    /* 2^-104, which a product rounded before the sum loses */
    SHOW(weigher_fused(0x3ff0000000000001, 0x3ff0000000000001, 0xbff0000000000002));
    SHOW(weigher_fused(0x4000000000000000, 0x4008000000000000, 0x3ff0000000000000)); /* 2 * 3 + 1 */
    SHOW(weigher_fused(0x4000000000000000, 0x7ff8000000000003, 0xfff0000000000001)); /* the first of two NaNs */
    SHOW(weigher_fused(0x0000000000000000, 0x7ff0000000000000, 0xfff0000000000001)); /* 0 * infinity and a NaN */
    SHOW(weigher_fused(0x0000000000000000, 0x7ff0000000000000, 0x3ff0000000000000)); /* 0 * infinity */

    SHOW(weigher_round(0x4004000000000000)); /* 2.5 */
    SHOW(weigher_round(0xbfe0000000000000)); /* -0.5 */
    SHOW(weigher_floor(0x4004000000000000)); /* 2.5 */
    SHOW(weigher_floor(0xbfe0000000000000)); /* -0.5 */

    SHOW(weigher_scale(0x3ff8000000000000, 4));         /* 1.5 */
    SHOW(weigher_scale(0x3ff8000000000000, -1074));     /* a tie between 1 and 2 times 2^-1074 */
    SHOW(weigher_scale(0xbff8000000000000, INT32_MAX)); /* -1.5, far beyond the finite ones */
}

/* 1/3, rounded, times itself and plus 1: a sum that lies between two floats. */
static void show_fused_in(const char *name, uint8_t direction)
{
    uint64_t result;
    unsigned refusal = weigher_fused_in(direction, 0x3fd5555555555555, 0x3fd5555555555555, 0x3ff0000000000000, &result);
    if (refusal == 0)
        printf("weigher_fused_in %s: 0x%016" PRIx64 "\n", name, result);
    else
        printf("weigher_fused_in %s: refusal %u\n", name, refusal);
}

static void directions(void)
{
    show_fused_in("nearest", WEIGHER_NEAREST);
    show_fused_in("toward zero", WEIGHER_TOWARD_ZERO);
    show_fused_in("up", WEIGHER_UP);
    show_fused_in("down", WEIGHER_DOWN);
    show_fused_in("in a direction that is not there", 4);
}

/* 2^-60 and 2^-59. */
static const double tiny = 8.673617379884035e-19, twice_tiny = 1.734723475976807e-18;

static void show_score_with(const char *name, const weigher_entry *list, size_t list_len, uint64_t x)
{
    uint64_t score;
    unsigned refusal = weigher_score_with(list, list_len, x, &score);
    if (refusal == 0)
        printf("weigher_score_with %s: 0x%016" PRIx64 "\n", name, score);
    else
        printf("weigher_score_with %s: refusal %u\n", name, refusal);
}

static void lists(void)
{
    const weigher_entry list[] = {{tiny, 1.0, 0.5}, {twice_tiny, 7.0, 0.0}, {1.0, 9.0, 0.0}};
    const weigher_entry turned[] = {{twice_tiny, 7.0, 0.0}, {tiny, 1.0, 0.5}};
    const weigher_entry long_list[WEIGHER_LONGEST_LIST + 1] = {{tiny, 1.0, 0.5}};
    show_score_with("of 2^-60 by an empty list", NULL, 0, 0x3c30000000000000);
    show_score_with("of 2^-60 by its entry", list, 3, 0x3c30000000000000);
    show_score_with("of 1, whose entry is never met", list, 3, 0x3ff0000000000000);
    show_score_with("of a NaN", list, 3, 0xfff0000000000001);
    show_score_with("by a list that is too long", long_list, WEIGHER_LONGEST_LIST + 1, 0x3c30000000000000);
    show_score_with("by a list out of order", turned, 2, 0x3c30000000000000);
}

static void show_answer(const char *call, size_t used, size_t len, unsigned refusal, const uint8_t *answer)
{
    printf("%s: used %zu, refusal %u, answer of %zu", call, used, refusal, len);
    for (size_t i = 0; i < len; i++)
        printf("%s%02x", i == 0 ? ": " : " ", answer[i]);
    printf("\n");
}

/* The whole case of document 01: the weight -54, a body of no bytes, and half of a length. */
static const uint8_t stream[] = {0x00, 0x0a, 0x01, 0x01, 0xc0, 0x4b, 0x00, 0x00, 0x00, 0x00, 0x00, 0x00, 0x00, 0x00, 0x00};

static void frame_by_frame(void)
{
    uint8_t answer[WEIGHER_ANSWER_ROOM];
    weigher_state state = weigher_fresh();
    size_t at = 0;
    while (at < sizeof stream) {
        weigher_taken taken = weigher_take(state, stream + at, sizeof stream - at, answer, sizeof answer);
        show_answer("weigher_take", taken.used, taken.len, taken.refusal, answer);
        state = taken.state;
        at += taken.used;
    }
    weigher_closed closed = weigher_close(state, answer, sizeof answer);
    show_answer("weigher_close", 0, closed.len, closed.refusal, answer);
    weigher_counts counts = closed.state.counts;
    printf("accepted %" PRIu64 ", refused %" PRIu64 ", total %" PRIu64 "\n", counts.accepted, counts.refused, counts.total);
}

static void whole_piece(void)
{
    uint8_t answers[7 * sizeof stream + 2 * WEIGHER_ANSWER_ROOM];
    weigher_handed_on handed = weigher_hand_on(weigher_fresh(), stream, sizeof stream, answers, sizeof answers);
    show_answer("weigher_hand_on", handed.used, handed.len, handed.refusal, answers);
}

static void show_sheet(const char *name, const uint8_t *sheet, size_t len)
{
    uint8_t answer[WEIGHER_ANSWER_ROOM];
    weigher_taken taken = weigher_take(weigher_fresh(), sheet, len, answer, sizeof answer);
    show_answer(name, taken.used, taken.len, taken.refusal, answer);
}

/* Sheets of two members, with the weights 2 and 1, and a third line, which is to be the sum of both. */
static void households(void)
{
    uint8_t sheet[] = {0x00, 0x1d, 0x01, 0x05,                                /* L = 29, version 1, kind 5 */
                       0x00, 0x40, 0x00, 0x00, 0x00, 0x00, 0x00, 0x00, 0x00,  /* line 0: the weight 2 */
                       0x00, 0x3f, 0xf0, 0x00, 0x00, 0x00, 0x00, 0x00, 0x00,  /* line 1: the weight 1 */
                       0x01, 0x00, 0x01, 0x00, 0x00, 0x00, 0x00, 0x00, 0x00}; /* line 2: line 0 plus line 1 */
    uint8_t *line = sheet + 4 + 2 * 9;
    show_sheet("weigher_take of a household", sheet, sizeof sheet);
    line[2] = 2; /* not a line before it */
    show_sheet("weigher_take of a line that names itself", sheet, sizeof sheet);
    line[0] = 2;
    show_sheet("weigher_take of a line of neither form", sheet, sizeof sheet);
}

static void refused_calls(void)
{
    uint8_t answer[WEIGHER_ANSWER_ROOM];
    weigher_taken taken = weigher_take(weigher_fresh(), stream, sizeof stream, answer, sizeof answer - 1);
    show_answer("weigher_take with a small buffer", taken.used, taken.len, taken.refusal, answer);

    weigher_state state = weigher_fresh();
    state.frame.body[0] = 1; /* a byte of a body, although no length has come */
    weigher_closed closed = weigher_close(state, answer, sizeof answer);
    show_answer("weigher_close of a bad state", 0, closed.len, closed.refusal, answer);
}

static void show_screened(size_t weights, weigher_screened screened)
{
    static const char *const tags[] = {"refused", "clean", "missing"};
    printf("weigher_screening of %zu weights: %s, number %zu\n", weights, tags[screened.tag], screened.number);
}

static void payloads(void)
{
    /* A body with the weights 2, infinity and two NaNs. */
    static const uint8_t body[] = {0x01, 0x01, 0x40, 0x00, 0x00, 0x00, 0x00, 0x00, 0x00, 0x00, 0x7f, 0xf0,
                                   0x00, 0x00, 0x00, 0x00, 0x00, 0x00, 0xff, 0xf0, 0x00, 0x00, 0x00, 0x00,
                                   0x00, 0x01, 0x7f, 0xf8, 0x00, 0x00, 0x00, 0x00, 0x00, 0x00};
    size_t start = weigher_payload(body, sizeof body);
    printf("weigher_payload of %zu bytes: from %zu on\n", sizeof body, start);
    printf("weigher_payload of 1 byte: from %zu on\n", weigher_payload(body, 1));
    for (size_t weights = 0; weights <= 4; weights++)
        show_screened(weights, weigher_screening(body + start, 8 * weights));
}

static void show_constant(const char *text)
{
    uint64_t result;
    unsigned refusal = weigher_constant((const uint8_t *)text, strlen(text), &result);
    if (refusal == 0)
        printf("weigher_constant of %s: 0x%016" PRIx64 "\n", text, result);
    else
        printf("weigher_constant of %s: refusal %u\n", text, refusal);
}

static void constants(void)
{
    show_constant("0x1.62e42fefa39efp-1");
    show_constant("-0X.8P+1");
    show_constant("-0x0p999999999999999999999");
    show_constant("0x1");                  /* no p */
    show_constant("0x1.00000000000001p0"); /* 1 + 2^-56 */
}

int main(void)
{
    numeric();
    directions();
    lists();
    frame_by_frame();
    whole_piece();
    households();
    refused_calls();
    payloads();
    constants();
    return 0;
}
