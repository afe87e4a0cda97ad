/* The calls that take bytes across the C interface: the layout of their structs, every byte of a state passed and returned, refused calls,
 * buffers that end where memory does, and NULL for what is empty; the texts of constants; the directions of sums, in calls and in frames;
 * the counts of frames and reports of them; lists of exceptions; NaN operands; and household sheets. Says which check failed, and then
 * ends with status 1. */
#define _DEFAULT_SOURCE
#include <stddef.h>
#include <stdint.h>
#include <stdio.h>
#include <stdlib.h>
#include <string.h>
#include <sys/mman.h>
#include <unistd.h>

#include "weigher.h"

#ifdef __cplusplus
#define LAYOUT(fact) static_assert(fact, #fact)
#else
#define LAYOUT(fact) _Static_assert(fact, #fact)
#endif

LAYOUT(sizeof(weigher_frame) == 528);
LAYOUT(offsetof(weigher_frame, count) == 0);
LAYOUT(offsetof(weigher_frame, hi) == 8);
LAYOUT(offsetof(weigher_frame, lo) == 9);
LAYOUT(offsetof(weigher_frame, body) == 10);
LAYOUT(sizeof(weigher_counts) == 24);
LAYOUT(offsetof(weigher_counts, accepted) == 0);
LAYOUT(offsetof(weigher_counts, refused) == 8);
LAYOUT(offsetof(weigher_counts, total) == 16);
LAYOUT(sizeof(weigher_state) == 552);
LAYOUT(offsetof(weigher_state, frame) == 0);
LAYOUT(offsetof(weigher_state, counts) == 528);
LAYOUT(sizeof(weigher_taken) == 576);
LAYOUT(offsetof(weigher_taken, used) == 552);
LAYOUT(offsetof(weigher_taken, len) == 560);
LAYOUT(offsetof(weigher_taken, refusal) == 568);
LAYOUT(sizeof(weigher_closed) == 568);
LAYOUT(offsetof(weigher_closed, len) == 552);
LAYOUT(offsetof(weigher_closed, refusal) == 560);
LAYOUT(sizeof(weigher_handed_on) == 576);
LAYOUT(offsetof(weigher_handed_on, used) == 552);
LAYOUT(offsetof(weigher_handed_on, len) == 560);
LAYOUT(offsetof(weigher_handed_on, refusal) == 568);
LAYOUT(sizeof(weigher_screened) == 16);
LAYOUT(offsetof(weigher_screened, number) == 8);
LAYOUT(sizeof(weigher_entry) == 24);
LAYOUT(offsetof(weigher_entry, x) == 0);
LAYOUT(offsetof(weigher_entry, hi) == 8);
LAYOUT(offsetof(weigher_entry, lo) == 16);

static void check_at(int line, int holds, const char *fact)
{
    if (!holds) {
        printf("tests/c/service.c:%d: not so: %s\n", line, fact);
        exit(1);
    }
}

#define CHECK(fact) check_at(__LINE__, (fact) != 0, #fact)

static int same(weigher_state a, weigher_state b)
{
    return a.frame.count == b.frame.count && a.frame.hi == b.frame.hi && a.frame.lo == b.frame.lo
        && memcmp(a.frame.body, b.frame.body, sizeof a.frame.body) == 0 && memcmp(&a.counts, &b.counts, sizeof a.counts) == 0;
}

static weigher_state with_counts(weigher_state state, weigher_counts counts)
{
    state.counts = counts;
    return state;
}

/* The state behind so many frames: fresh but for the counts. */
static weigher_state after(uint64_t accepted, uint64_t refused)
{
    const weigher_counts counts = {accepted, refused, accepted + refused};
    return with_counts(weigher_fresh(), counts);
}

/* n bytes of 0xee, with memory that is neither to be read nor written right behind them. */
static uint8_t *before_end(size_t n)
{
    size_t page = (size_t)sysconf(_SC_PAGESIZE), room = (n + page - 1) / page * page;
    uint8_t *pages = (uint8_t *)mmap(NULL, room + page, PROT_READ | PROT_WRITE, MAP_PRIVATE | MAP_ANONYMOUS, -1, 0);
    CHECK(pages != MAP_FAILED && mprotect(pages + room, page, PROT_NONE) == 0);
    memset(pages, 0xee, room);
    return pages + room - n;
}

static int untouched(const uint8_t *bytes, size_t n)
{
    for (size_t i = 0; i < n; i++)
        if (bytes[i] != 0xee)
            return 0;
    return 1;
}

static const uint8_t frame[] = {0x00, 0x0a, 0x01, 0x01, 0xc0, 0x4b, 0x00, 0x00, 0x00, 0x00, 0x00, 0x00};
static const uint8_t scores[] = {0x00, 0x0a, 0x01, 0x00, 0xbf, 0xf0, 0x00, 0x00, 0x00, 0x00, 0x00, 0x00};
static const uint8_t unfinished[] = {0x00, 0x02, 0x01, 0x08};

/* A call that is refused hands the state back and leaves the buffer. */
static void check_refused(weigher_state state, size_t room, unsigned number)
{
    uint8_t *buffer = before_end(room);
    weigher_taken taken = weigher_take(state, frame, sizeof frame, buffer, room);
    CHECK(taken.refusal == number && taken.used == 0 && taken.len == 0 && same(taken.state, state));
    weigher_handed_on handed = weigher_hand_on(state, frame, sizeof frame, buffer, room);
    CHECK(handed.refusal == number && handed.used == 0 && handed.len == 0 && same(handed.state, state));
    weigher_closed closed = weigher_close(state, buffer, room);
    CHECK(closed.refusal == number && closed.len == 0 && same(closed.state, state));
    CHECK(untouched(buffer, room));
}

/* Bytes that differ show that each is passed and returned at its place. */
static void check_refusals(void)
{
    weigher_state counted, ones;
    counted.frame.count = 0x0123456789abcdef;
    counted.frame.hi = 0xa5;
    counted.frame.lo = 0x5a;
    for (size_t i = 0; i < sizeof counted.frame.body; i++)
        counted.frame.body[i] = (uint8_t)(i * 7 + 1);
    counted.counts.accepted = 0x1021324354657687;
    counted.counts.refused = 0x98a9bacbdcedfe0f;
    counted.counts.total = 0x1e2d3c4b5a697887;
    memset(&ones, 0xff, sizeof ones);
    check_refused(counted, WEIGHER_ANSWER_ROOM, WEIGHER_BAD_STATE);
    check_refused(ones, WEIGHER_ANSWER_ROOM, WEIGHER_BAD_STATE);
    check_refused(counted, WEIGHER_ANSWER_ROOM - 1, WEIGHER_SMALL_BUFFER);
    check_refused(ones, 0, WEIGHER_SMALL_BUFFER);
    check_refused(weigher_fresh(), WEIGHER_ANSWER_ROOM - 1, WEIGHER_SMALL_BUFFER);
}

/* The state for the first bytes of the frame. */
static weigher_state state_of(size_t count)
{
    weigher_state state;
    memset(&state, 0, sizeof state);
    state.frame.count = count;
    state.frame.hi = count > 0 ? frame[0] : 0;
    state.frame.lo = count > 1 ? frame[1] : 0;
    if (count > 2)
        memcpy(state.frame.body, frame + 2, count - 2);
    return state;
}

/* The frame, cut at a place, and closed there. */
static void check_cut(size_t cut)
{
    uint8_t *piece = before_end(sizeof frame), *buffer = before_end(WEIGHER_ANSWER_ROOM);
    memcpy(piece, frame, sizeof frame);
    weigher_taken taken = weigher_take(weigher_fresh(), piece, cut, buffer, WEIGHER_ANSWER_ROOM);
    CHECK(taken.used == cut && taken.len == 0 && taken.refusal == 0);
    CHECK(same(taken.state, state_of(cut)) && untouched(buffer, WEIGHER_ANSWER_ROOM));
    weigher_closed closed = weigher_close(taken.state, buffer, WEIGHER_ANSWER_ROOM);
    CHECK(same(closed.state, weigher_fresh()) && untouched(buffer + closed.len, WEIGHER_ANSWER_ROOM - closed.len));
    CHECK(cut == 0 ? closed.len == 0 && closed.refusal == 0 : closed.len == 4 && closed.refusal == WEIGHER_UNFINISHED);
    CHECK(memcmp(buffer, unfinished, closed.len) == 0);
    taken = weigher_take(taken.state, piece + cut, sizeof frame - cut, buffer, WEIGHER_ANSWER_ROOM);
    CHECK(taken.used == sizeof frame - cut && taken.len == sizeof scores && taken.refusal == 0);
    CHECK(same(taken.state, after(1, 0)) && memcmp(buffer, scores, sizeof scores) == 0);
    CHECK(untouched(buffer + sizeof scores, WEIGHER_ANSWER_ROOM - sizeof scores));
}

/* Three frames, with room for two answers and then some. */
static void check_hand_on(void)
{
    size_t room = WEIGHER_ANSWER_ROOM + sizeof scores;
    uint8_t *piece = before_end(3 * sizeof frame), *buffer = before_end(room);
    for (size_t i = 0; i < 3; i++)
        memcpy(piece + i * sizeof frame, frame, sizeof frame);
    weigher_handed_on handed = weigher_hand_on(weigher_fresh(), piece, 3 * sizeof frame, buffer, room);
    CHECK(handed.used == 2 * sizeof frame && handed.len == 2 * sizeof scores && handed.refusal == 0);
    CHECK(memcmp(buffer, scores, sizeof scores) == 0 && memcmp(buffer + sizeof scores, scores, sizeof scores) == 0);
    CHECK(same(handed.state, after(2, 0)) && untouched(buffer + handed.len, room - handed.len));
}

static void check_null(void)
{
    uint8_t buffer[WEIGHER_ANSWER_ROOM];
    CHECK(weigher_take(weigher_fresh(), NULL, 0, buffer, sizeof buffer).refusal == 0);
    CHECK(weigher_take(weigher_fresh(), NULL, 0, NULL, 0).refusal == WEIGHER_SMALL_BUFFER);
    CHECK(weigher_hand_on(weigher_fresh(), NULL, 0, buffer, sizeof buffer).refusal == 0);
    CHECK(weigher_hand_on(weigher_fresh(), NULL, 0, NULL, 0).refusal == WEIGHER_SMALL_BUFFER);
    CHECK(weigher_close(weigher_fresh(), NULL, 0).refusal == WEIGHER_SMALL_BUFFER);
    CHECK(weigher_payload(NULL, 0) == 0);
    CHECK(weigher_screening(NULL, 0).tag == WEIGHER_SCREENED_REFUSED);
    uint64_t result = 1;
    CHECK(weigher_constant(NULL, 0, &result) == WEIGHER_BAD_TEXT && result == 1);
    CHECK(weigher_score_with(NULL, 0, 0xc04b000000000000, &result) == 0 && result == 0xbff0000000000000);
}

static void check_payload(void)
{
    for (size_t n = 0; n <= sizeof frame; n++)
        CHECK(weigher_payload(before_end(n), n) == (n < 2 ? n : 2));
}

static void check_screened(const uint8_t *payload, size_t n, unsigned tag, size_t number)
{
    weigher_screened screened = weigher_screening(payload, n);
    CHECK(screened.tag == tag && screened.number == number);
}

/* The place of the first NaN among so many weights, or their number. */
static size_t first_nan(const uint8_t *payload, size_t weights)
{
    for (size_t place = 0; place < weights; place++) {
        uint64_t bits = 0;
        for (size_t i = 0; i < 8; i++)
            bits = bits << 8 | payload[8 * place + i];
        double weight;
        memcpy(&weight, &bits, sizeof weight);
        if (weight != weight)
            return place;
    }
    return weights;
}

/* 64 weights: no NaN, one at each place, from there on to the end, and so at last everywhere. */
static void check_screening(void)
{
    const size_t weights = 64;
    uint8_t *payload = before_end(8 * weights);
    memset(payload, 0, 8 * weights);
    CHECK(first_nan(payload, weights) == weights);
    check_screened(payload, 8 * weights, WEIGHER_SCREENED_CLEAN, 0);
    for (size_t n = 8 * weights - 7; n < 8 * weights; n++)
        check_screened(payload, n, WEIGHER_SCREENED_REFUSED, WEIGHER_BAD_PAYLOAD);
    for (size_t place = 0; place < weights; place++) {
        uint8_t *weight = payload + 8 * place;
        weight[0] = 0xff;
        weight[1] = 0xf0;
        CHECK(first_nan(payload, weights) == weights);
        check_screened(payload, 8 * weights, WEIGHER_SCREENED_CLEAN, 0); /* -infinity */
        weight[7] = 0x01;
        CHECK(first_nan(payload, weights) == place);
        check_screened(payload, 8 * weights, WEIGHER_SCREENED_MISSING, place);
        memset(weight, 0, 8);
    }
    for (size_t place = weights; place-- > 0;) {
        payload[8 * place] = 0x7f;
        payload[8 * place + 1] = 0xf8;
        CHECK(first_nan(payload, weights) == place);
        check_screened(payload, 8 * weights, WEIGHER_SCREENED_MISSING, place);
    }
}

/* Text and result end where memory does. A text that is refused leaves the result. */
static void check_constant(const char *text, unsigned number, uint64_t pattern)
{
    size_t n = strlen(text);
    uint8_t *bytes = before_end(n);
    uint64_t *result = (uint64_t *)before_end(sizeof *result);
    memcpy(bytes, text, n);
    int as_it_should = weigher_constant(bytes, n, result) == number && memcmp(bytes, text, n) == 0
        && (number == 0 ? *result == pattern : untouched((uint8_t *)result, sizeof *result));
    check_at(__LINE__, as_it_should, text);
}

/* Digits that fill most of a page, and an exponent that makes up for them. */
static void check_long_constants(void)
{
    static char zeros[3001], text[3100];
    memset(zeros, '0', sizeof zeros - 1);
    snprintf(text, sizeof text, "0x.%s3p12004", zeros);
    check_constant(text, 0, 0x4008000000000000);
    snprintf(text, sizeof text, "0x3%sp-12000", zeros);
    check_constant(text, 0, 0x4008000000000000);
    snprintf(text, sizeof text, "0x3p-%s", zeros);
    check_constant(text, 0, 0x4008000000000000);
    snprintf(text, sizeof text, "-0x0p9%s", zeros);
    check_constant(text, 0, 0x8000000000000000);
    snprintf(text, sizeof text, "0x1p9%s", zeros);
    check_constant(text, WEIGHER_INEXACT, 0);
    snprintf(text, sizeof text, "0x3%s.8p-12000", zeros);
    check_constant(text, WEIGHER_INEXACT, 0);
    snprintf(text, sizeof text, "0x3%s.8p-12000.", zeros);
    check_constant(text, WEIGHER_BAD_TEXT, 0);
}

static void check_constants(void)
{
    static const struct {
        const char *text;
        uint64_t pattern;
    } good[] = {
        {"0x1.p0", 0x3ff0000000000000},
        {"0x.8p0", 0x3fe0000000000000},
        {"+0x00.00P-0", 0},
        {"-0x0p999999999999999999999", 0x8000000000000000},
        {"0x10000000000000000000000000p-100", 0x3ff0000000000000},
        {"0x1.62e42fefa39efp-1", 0x3fe62e42fefa39ef},
        {"-0X1.8P+1", 0xc008000000000000},
        {"0x1.AbCdEfP00000000000000000000000000000", 0x3ffabcdef0000000},
        {"0x1.fffffffffffffp1023", 0x7fefffffffffffff},
        {"0x1p-1022", 0x0010000000000000},
        {"0x1p-1074", 1},
        {"0x6p-1075", 3},
    };
    static const char *const malformed[] = {
        "", "0x", "0xp0", "0x.p0", "0x1", "0x1p", "0x1p+", "0x1.0.0p0", "0x1p0 ", " 0x1p0", "0x1p0x", "1p0", "--0x1p0", "0x1p+-1",
        "0x1g0p0", "0x1.00000000000001p0x", "inf", "nan", "1.5",
    };
    static const char *const inexact[] = {
        "0x1.00000000000001p0", "0x3fffffffffffffp0", "0x1.fffffffffffff8p1023", "0x1p1024", "-0x1p-1075", "0x3p-1075",
        "0x1p18446744073709551616",
    };
    for (size_t i = 0; i < sizeof good / sizeof good[0]; i++)
        check_constant(good[i].text, 0, good[i].pattern);
    for (size_t i = 0; i < sizeof malformed / sizeof malformed[0]; i++)
        check_constant(malformed[i], WEIGHER_BAD_TEXT, 0);
    for (size_t i = 0; i < sizeof inexact / sizeof inexact[0]; i++)
        check_constant(inexact[i], WEIGHER_INEXACT, 0);
    check_long_constants();
}

/* a * b + c to nearest, toward zero, up and down. */
static const struct sum {
    uint64_t operands[3];
    uint64_t in[4];
} sums[] = {
    /* 1/9 + 1 and 1 - 1/9, with 1/3 rounded, of both signs */
    {{0x3fd5555555555555, 0x3fd5555555555555, 0x3ff0000000000000},
     {0x3ff1c71c71c71c72, 0x3ff1c71c71c71c71, 0x3ff1c71c71c71c72, 0x3ff1c71c71c71c71}},
    {{0xbfd5555555555555, 0x3fd5555555555555, 0xbff0000000000000},
     {0xbff1c71c71c71c72, 0xbff1c71c71c71c71, 0xbff1c71c71c71c71, 0xbff1c71c71c71c72}},
    {{0xbfd5555555555555, 0x3fd5555555555555, 0x3ff0000000000000},
     {0x3fec71c71c71c71d, 0x3fec71c71c71c71c, 0x3fec71c71c71c71d, 0x3fec71c71c71c71c}},
    {{0x3fd5555555555555, 0x3fd5555555555555, 0xbff0000000000000},
     {0xbfec71c71c71c71d, 0xbfec71c71c71c71c, 0xbfec71c71c71c71c, 0xbfec71c71c71c71d}},
    /* 2 * 3 + 1 */
    {{0x4000000000000000, 0x4008000000000000, 0x3ff0000000000000},
     {0x401c000000000000, 0x401c000000000000, 0x401c000000000000, 0x401c000000000000}},
    /* ties: 2^-53 behind 1, which is even, and behind 1 + 2^-52, which is odd */
    {{0x3ca0000000000000, 0x3ff0000000000000, 0x3ff0000000000000},
     {0x3ff0000000000000, 0x3ff0000000000000, 0x3ff0000000000001, 0x3ff0000000000000}},
    {{0x3ca0000000000000, 0x3ff0000000000000, 0x3ff0000000000001},
     {0x3ff0000000000002, 0x3ff0000000000001, 0x3ff0000000000002, 0x3ff0000000000001}},
    {{0xbca0000000000000, 0x3ff0000000000000, 0xbff0000000000000},
     {0xbff0000000000000, 0xbff0000000000000, 0xbff0000000000000, 0xbff0000000000001}},
    {{0xbca0000000000000, 0x3ff0000000000000, 0xbff0000000000001},
     {0xbff0000000000002, 0xbff0000000000001, 0xbff0000000000001, 0xbff0000000000002}},
    /* beyond the largest float: twice as large, half of a spacing, a quarter */
    {{0x7fefffffffffffff, 0x4000000000000000, 0x0000000000000000},
     {0x7ff0000000000000, 0x7fefffffffffffff, 0x7ff0000000000000, 0x7fefffffffffffff}},
    {{0xffefffffffffffff, 0x4000000000000000, 0x0000000000000000},
     {0xfff0000000000000, 0xffefffffffffffff, 0xffefffffffffffff, 0xfff0000000000000}},
    {{0x7fefffffffffffff, 0x3ff0000000000000, 0x7c90000000000000},
     {0x7ff0000000000000, 0x7fefffffffffffff, 0x7ff0000000000000, 0x7fefffffffffffff}},
    {{0x7fefffffffffffff, 0x3ff0000000000000, 0x7c80000000000000},
     {0x7fefffffffffffff, 0x7fefffffffffffff, 0x7ff0000000000000, 0x7fefffffffffffff}},
    {{0xffefffffffffffff, 0x3ff0000000000000, 0xfc80000000000000},
     {0xffefffffffffffff, 0xffefffffffffffff, 0xffefffffffffffff, 0xfff0000000000000}},
    /* products that vanish, alone and beside 1 and -1 */
    {{0x0000000000000001, 0x3fe0000000000000, 0x0000000000000000}, {0, 0, 1, 0}},
    {{0x8000000000000001, 0x3fe0000000000000, 0x0000000000000000},
     {0x8000000000000000, 0x8000000000000000, 0x8000000000000000, 0x8000000000000001}},
    {{0x0000000000000001, 0x0000000000000001, 0x3ff0000000000000},
     {0x3ff0000000000000, 0x3ff0000000000000, 0x3ff0000000000001, 0x3ff0000000000000}},
    {{0x8000000000000001, 0x0000000000000001, 0x3ff0000000000000},
     {0x3ff0000000000000, 0x3fefffffffffffff, 0x3ff0000000000000, 0x3fefffffffffffff}},
    {{0x0000000000000001, 0x0000000000000001, 0xbff0000000000000},
     {0xbff0000000000000, 0xbfefffffffffffff, 0xbfefffffffffffff, 0xbff0000000000000}},
    /* half of a spacing behind the largest subnormal float */
    {{0x0000000000000001, 0x3fe0000000000000, 0x000fffffffffffff},
     {0x0010000000000000, 0x000fffffffffffff, 0x0010000000000000, 0x000fffffffffffff}},
    /* exact zero sums: of unlike signs, of two +0 and of two -0 */
    {{0x3ff0000000000000, 0x3ff0000000000000, 0xbff0000000000000}, {0, 0, 0, 0x8000000000000000}},
    {{0xbff0000000000000, 0x3ff0000000000000, 0x3ff0000000000000}, {0, 0, 0, 0x8000000000000000}},
    {{0x0000000000000000, 0x3ff0000000000000, 0x8000000000000000}, {0, 0, 0, 0x8000000000000000}},
    {{0x8000000000000000, 0x3ff0000000000000, 0x0000000000000000}, {0, 0, 0, 0x8000000000000000}},
    {{0x0000000000000000, 0x3ff0000000000000, 0x0000000000000000}, {0, 0, 0, 0}},
    {{0x8000000000000000, 0x3ff0000000000000, 0x8000000000000000},
     {0x8000000000000000, 0x8000000000000000, 0x8000000000000000, 0x8000000000000000}},
    /* infinity */
    {{0xfff0000000000000, 0x3ff0000000000000, 0x7fefffffffffffff},
     {0xfff0000000000000, 0xfff0000000000000, 0xfff0000000000000, 0xfff0000000000000}},
};

static void put(uint8_t *bytes, uint64_t pattern)
{
    for (size_t i = 8; i-- > 0; pattern >>= 8)
        bytes[i] = (uint8_t)pattern;
}

/* A frame of kind 3 with a direction byte and one triple, and its answer. */
enum { DIRECTED = 29, DIRECTED_ANSWER = 12 };

static void put_directed(uint8_t *bytes, uint8_t direction, const uint64_t *operands)
{
    static const uint8_t head[] = {0x00, 0x1b, 0x01, 0x03};
    memcpy(bytes, head, sizeof head);
    bytes[4] = direction;
    for (size_t i = 0; i < 3; i++)
        put(bytes + 5 + 8 * i, operands[i]);
}

static void put_answer(uint8_t *bytes, uint64_t result)
{
    memcpy(bytes, scores, 4);
    put(bytes + 4, result);
}

/* The sum of a call, and that of a frame. */
static void check_sum(const struct sum *sum, uint8_t direction)
{
    const uint64_t *operands = sum->operands;
    uint64_t *result = (uint64_t *)before_end(sizeof *result);
    CHECK(weigher_fused_in(direction, operands[0], operands[1], operands[2], result) == 0 && *result == sum->in[direction]);
    uint8_t *piece = before_end(DIRECTED), *buffer = before_end(WEIGHER_ANSWER_ROOM), want[DIRECTED_ANSWER];
    put_directed(piece, direction, operands);
    put_answer(want, sum->in[direction]);
    weigher_taken taken = weigher_take(weigher_fresh(), piece, DIRECTED, buffer, WEIGHER_ANSWER_ROOM);
    CHECK(taken.used == DIRECTED && taken.len == sizeof want && taken.refusal == 0 && same(taken.state, after(1, 0)));
    CHECK(memcmp(buffer, want, sizeof want) == 0 && untouched(buffer + sizeof want, WEIGHER_ANSWER_ROOM - sizeof want));
}

/* Refused at its last byte by this number, as a frame alone. */
static void check_refused_frame(const uint8_t *bytes, size_t n, unsigned number)
{
    uint8_t buffer[WEIGHER_ANSWER_ROOM];
    const uint8_t want[] = {0x00, 0x02, 0x01, (uint8_t)number};
    weigher_taken taken = weigher_take(weigher_fresh(), bytes, n - 1, buffer, sizeof buffer);
    CHECK(taken.used == n - 1 && taken.len == 0 && taken.refusal == 0);
    taken = weigher_take(taken.state, bytes + n - 1, 1, buffer, sizeof buffer);
    CHECK(taken.used == 1 && taken.len == sizeof want && taken.refusal == number && same(taken.state, after(0, 1)));
    CHECK(memcmp(buffer, want, sizeof want) == 0);
}

/* Every byte above 3: the call leaves the result, and frames are refused whatever is behind the byte. */
static void check_no_directions(void)
{
    uint64_t *result = (uint64_t *)before_end(sizeof *result);
    uint8_t bytes[DIRECTED];
    for (unsigned direction = 4; direction <= 255; direction++) {
        CHECK(weigher_fused_in((uint8_t)direction, 1, 2, 3, result) == WEIGHER_BAD_DIRECTION);
        CHECK(untouched((uint8_t *)result, sizeof *result));
        put_directed(bytes, (uint8_t)direction, sums[0].operands);
        check_refused_frame(bytes, DIRECTED, WEIGHER_BAD_DIRECTION);
        for (size_t behind = 0; behind < 24; behind++) {
            bytes[1] = (uint8_t)(3 + behind);
            check_refused_frame(bytes, 5 + behind, WEIGHER_BAD_DIRECTION);
        }
    }
}

/* Known directions with no triple or a part of one behind them, and a payload without a direction. */
static void check_no_triples(void)
{
    static const uint8_t empty[] = {0x00, 0x02, 0x01, 0x03};
    uint8_t bytes[DIRECTED];
    check_refused_frame(empty, sizeof empty, WEIGHER_BAD_PAYLOAD);
    for (unsigned direction = 0; direction <= 3; direction++) {
        put_directed(bytes, (uint8_t)direction, sums[0].operands);
        for (size_t behind = 0; behind < 24; behind++) {
            bytes[1] = (uint8_t)(3 + behind);
            check_refused_frame(bytes, 5 + behind, WEIGHER_BAD_PAYLOAD);
        }
    }
}

/* Answered and refused frames of kind 3 in one piece. */
static void check_directions_handed_on(void)
{
    static const uint8_t refused[] = {
        0x00, 0x03, 0x01, 0x03, 0x04,                   /* 11 */
        0x00, 0x06, 0x01, 0x03, 0x04, 0x00, 0x00, 0x00, /* 11 */
        0x00, 0x02, 0x01, 0x03,                         /* 5 */
        0x00, 0x03, 0x01, 0x03, 0x00,                   /* 5 */
        0x00, 0x03, 0x02, 0x03, 0x04,                   /* 3 */
        0x00, 0x03, 0x01, 0xff, 0x04,                   /* 4 */
    };
    static const uint8_t refusals[] = {0, 2, 1, 11, 0, 2, 1, 11, 0, 2, 1, 5, 0, 2, 1, 5, 0, 2, 1, 3, 0, 2, 1, 4};
    const size_t len = 4 * DIRECTED + sizeof refused, want_len = 4 * DIRECTED_ANSWER + sizeof refusals;
    const size_t room = 7 * len + 2 * WEIGHER_ANSWER_ROOM;
    uint8_t *piece = before_end(len), *want = before_end(want_len), *buffer = before_end(room);
    for (size_t i = 0; i < 4; i++) {
        put_directed(piece + i * DIRECTED, (uint8_t)i, sums[0].operands);
        put_answer(want + i * DIRECTED_ANSWER, sums[0].in[i]);
    }
    memcpy(piece + 4 * DIRECTED, refused, sizeof refused);
    memcpy(want + 4 * DIRECTED_ANSWER, refusals, sizeof refusals);
    weigher_handed_on handed = weigher_hand_on(weigher_fresh(), piece, len, buffer, room);
    CHECK(handed.used == len && handed.len == want_len && handed.refusal == 0 && same(handed.state, after(4, 6)));
    CHECK(memcmp(buffer, want, want_len) == 0 && untouched(buffer + want_len, room - want_len));
}

static void check_directions(void)
{
    CHECK(WEIGHER_NEAREST == 0 && WEIGHER_TOWARD_ZERO == 1 && WEIGHER_UP == 2 && WEIGHER_DOWN == 3);
    for (size_t i = 0; i < sizeof sums / sizeof sums[0]; i++) {
        const uint64_t *operands = sums[i].operands;
        CHECK(weigher_fused(operands[0], operands[1], operands[2]) == sums[i].in[WEIGHER_NEAREST]);
        for (unsigned direction = 0; direction <= 3; direction++)
            check_sum(&sums[i], (uint8_t)direction);
    }
    check_no_directions();
    check_no_triples();
    check_directions_handed_on();
}

static const uint8_t report[] = {0x00, 0x02, 0x01, 0x04};

enum { REPORT_ANSWER = 28 };

static uint8_t *append(uint8_t *end, const uint8_t *bytes, size_t n)
{
    memcpy(end, bytes, n);
    return end + n;
}

/* The answer to a report. */
static uint8_t *append_counts(uint8_t *end, weigher_counts counts)
{
    static const uint8_t head[] = {0x00, 0x1a, 0x01, 0x00};
    memcpy(end, head, sizeof head);
    put(end + 4, counts.accepted);
    put(end + 12, counts.refused);
    put(end + 20, counts.total);
    return end + REPORT_ANSWER;
}

#define MOST UINT64_MAX
#define HALF (UINT64_C(1) << 63)

/* The counts before a frame, and behind one that is accepted or refused. */
static const struct step {
    weigher_counts before, accepted, refused;
} steps[] = {
    {{0, 0, 0}, {1, 0, 1}, {0, 1, 1}},
    {{3, 4, 7}, {4, 4, 8}, {3, 5, 8}},
    {{0x0123456789abcdef, 0x1021324354657687, 0x114477aade114476},
     {0x0123456789abcdf0, 0x1021324354657687, 0x114477aade114477},
     {0x0123456789abcdef, 0x1021324354657688, 0x114477aade114477}},
    /* the total reaches its end */
    {{MOST - 1, 0, MOST - 1}, {MOST, 0, MOST}, {MOST - 1, 1, MOST}},
    {{0, MOST - 1, MOST - 1}, {1, MOST - 1, MOST}, {0, MOST, MOST}},
    {{HALF - 1, HALF - 1, MOST - 1}, {HALF, HALF - 1, MOST}, {HALF - 1, HALF, MOST}},
    /* it has stopped, and the other two go on */
    {{HALF, HALF - 1, MOST}, {HALF + 1, HALF - 1, MOST}, {HALF, HALF, MOST}},
    {{HALF, HALF, MOST}, {HALF + 1, HALF, MOST}, {HALF, HALF + 1, MOST}},
    {{MOST - 1, 1, MOST}, {MOST, 1, MOST}, {MOST - 1, 2, MOST}},
    {{MOST - 1, MOST - 1, MOST}, {MOST, MOST - 1, MOST}, {MOST - 1, MOST, MOST}},
    /* others have stopped too */
    {{MOST, 0, MOST}, {MOST, 0, MOST}, {MOST, 1, MOST}},
    {{0, MOST, MOST}, {1, MOST, MOST}, {0, MOST, MOST}},
    {{MOST, MOST, MOST}, {MOST, MOST, MOST}, {MOST, MOST, MOST}},
};

/* take and hand_on of a whole frame. */
static void check_counted(const struct step *step, const uint8_t *bytes, size_t n, const uint8_t *want, size_t want_len)
{
    const size_t room = WEIGHER_ANSWER_ROOM;
    const weigher_state before = with_counts(weigher_fresh(), step->before);
    const weigher_state behind = with_counts(weigher_fresh(), want[3] == 0 ? step->accepted : step->refused);
    uint8_t *buffer = before_end(room);
    weigher_taken taken = weigher_take(before, bytes, n, buffer, room);
    CHECK(taken.used == n && taken.len == want_len && taken.refusal == want[3] && same(taken.state, behind));
    CHECK(memcmp(buffer, want, want_len) == 0 && untouched(buffer + want_len, room - want_len));
    memset(buffer, 0xee, room);
    weigher_handed_on handed = weigher_hand_on(before, bytes, n, buffer, room);
    CHECK(handed.used == n && handed.len == want_len && handed.refusal == 0 && same(handed.state, behind));
    CHECK(memcmp(buffer, want, want_len) == 0 && untouched(buffer + want_len, room - want_len));
}

/* The part of a frame and the close there change no number. */
static void check_counts_kept(const struct step *step, size_t cut)
{
    uint8_t buffer[WEIGHER_ANSWER_ROOM];
    const weigher_state fresh = with_counts(weigher_fresh(), step->before), state = with_counts(state_of(cut), step->before);
    CHECK(same(weigher_take(fresh, frame, cut, buffer, sizeof buffer).state, state));
    CHECK(same(weigher_hand_on(fresh, frame, cut, buffer, sizeof buffer).state, state));
    weigher_closed closed = weigher_close(state, buffer, sizeof buffer);
    CHECK(closed.refusal == (cut == 0 ? 0 : WEIGHER_UNFINISHED) && same(closed.state, fresh));
    weigher_taken taken = weigher_take(state, frame + cut, sizeof frame - cut, buffer, sizeof buffer);
    CHECK(taken.len == sizeof scores && same(taken.state, with_counts(weigher_fresh(), step->accepted)));
    check_refused(state, WEIGHER_ANSWER_ROOM - 1, WEIGHER_SMALL_BUFFER);
}

static void check_step(const struct step *step)
{
    static const uint8_t no_body[] = {0x00, 0x00}, by_1[] = {0x00, 0x02, 0x01, 0x01};
    static const uint8_t with_payload[] = {0x00, 0x03, 0x01, 0x04, 0x00}, by_5[] = {0x00, 0x02, 0x01, 0x05};
    static const uint8_t bad_line[] = {0x00, 0x0b, 0x01, 0x05, 2, 0, 0, 0, 0, 0, 0, 0, 0}, by_14[] = {0x00, 0x02, 0x01, 0x0e};
    static const uint8_t own_line[] = {0x00, 0x0b, 0x01, 0x05, 1, 0, 0, 0, 0, 0, 0, 0, 0}, by_15[] = {0x00, 0x02, 0x01, 0x0f};
    static const uint8_t sheet[] = {0x00, 0x0b, 0x01, 0x05, 0, 0xc0, 0x4b, 0, 0, 0, 0, 0, 0}; /* the weight of the frame */
    uint8_t numbers[REPORT_ANSWER];
    append_counts(numbers, step->before);
    check_counted(step, frame, sizeof frame, scores, sizeof scores);
    check_counted(step, report, sizeof report, numbers, sizeof numbers);
    check_counted(step, no_body, sizeof no_body, by_1, sizeof by_1);
    check_counted(step, with_payload, sizeof with_payload, by_5, sizeof by_5);
    check_counted(step, bad_line, sizeof bad_line, by_14, sizeof by_14);
    check_counted(step, own_line, sizeof own_line, by_15, sizeof by_15);
    check_counted(step, sheet, sizeof sheet, scores, sizeof scores);
    for (size_t cut = 0; cut < sizeof frame; cut++)
        check_counts_kept(step, cut);
}

/* One off, 0, wrapped, and stopped too early; before a frame and at each place inside one. */
static void check_wrong_totals(void)
{
    static const weigher_counts wrong[] = {
        {0, 0, 1}, {0, 0, MOST}, {1, 0, 0}, {0, 1, 0}, {3, 4, 0}, {3, 4, 6}, {3, 4, 8}, {3, 4, MOST},
        {MOST - 1, 0, 0}, {MOST - 1, 0, MOST}, {MOST, 0, 0}, {MOST, 0, MOST - 1}, {0, MOST, 0}, {0, MOST, MOST - 1},
        {MOST, 1, 0}, {MOST, 1, MOST - 1}, {MOST, MOST, 0}, {MOST, MOST, MOST - 1}, {HALF, HALF, 0}, {HALF, HALF, MOST - 1},
        {HALF, HALF - 1, 0}, {HALF, HALF - 1, MOST - 1}, {HALF - 1, HALF - 1, 0}, {HALF - 1, HALF - 1, MOST},
    };
    for (size_t i = 0; i < sizeof wrong / sizeof wrong[0]; i++)
        for (size_t cut = 0; cut < sizeof frame; cut++) {
            check_refused(with_counts(state_of(cut), wrong[i]), WEIGHER_ANSWER_ROOM, WEIGHER_BAD_STATE);
            check_refused(with_counts(state_of(cut), wrong[i]), WEIGHER_ANSWER_ROOM - 1, WEIGHER_SMALL_BUFFER);
        }
}

/* A right total does not make up for a frame that no bytes leave. */
static void check_wrong_frames(void)
{
    for (size_t i = 0; i < sizeof steps / sizeof steps[0]; i++) {
        weigher_state state = with_counts(state_of(5), steps[i].before);
        state.frame.body[3] = 1;
        check_refused(state, WEIGHER_ANSWER_ROOM, WEIGHER_BAD_STATE);
    }
}

/* A payload of each length, one that is too long, and another version. */
static void check_refused_reports(void)
{
    static uint8_t bytes[2 + WEIGHER_LONGEST_BODY + 1] = {0x00, 0x00, 0x01, 0x04};
    for (size_t body = 3; body <= WEIGHER_LONGEST_BODY + 1; body++) {
        bytes[0] = (uint8_t)(body >> 8);
        bytes[1] = (uint8_t)body;
        check_refused_frame(bytes, 2 + body, body > WEIGHER_LONGEST_BODY ? WEIGHER_LONG_BODY : WEIGHER_BAD_PAYLOAD);
    }
    static const uint8_t version_2[] = {0x00, 0x02, 0x02, 0x04};
    check_refused_frame(version_2, sizeof version_2, WEIGHER_BAD_VERSION);
}

/* Every refusal is counted but 8; a report counts what was before it. */
static void check_reports_handed_on(void)
{
    static const uint8_t refused[] = {
        0x00, 0x00,                   /* 1 */
        0x00, 0x02, 0x02, 0x04,       /* 3 */
        0x00, 0x02, 0x01, 0xff,       /* 4 */
        0x00, 0x03, 0x01, 0x03, 0x04, /* 11 */
        0x00, 0x03, 0x01, 0x04, 0x00, /* 5 */
        0x00, 0x0b, 0x01, 0x05, 0x02, /* 14 */
        0x00, 0x00, 0x00, 0x00, 0x00, 0x00, 0x00, 0x00,
        0x00, 0x0b, 0x01, 0x05, 0x01, /* 15 */
        0x00, 0x00, 0x00, 0x00, 0x00, 0x00, 0x00, 0x00,
        0x02, 0x03,                   /* 2, with 515 bytes of 0 */
    };
    static const uint8_t refusals[] = {0, 2, 1, 1, 0, 2, 1, 3, 0, 2, 1, 4, 0, 2, 1, 11, 0, 2, 1, 5, 0, 2, 1, 14, 0, 2, 1, 15, 0, 2, 1, 2};
    uint8_t piece[sizeof report + sizeof frame + sizeof refused + 515 + 2 * sizeof report + 1] = {0};
    uint8_t want[3 * REPORT_ANSWER + sizeof scores + sizeof refusals], buffer[7 * sizeof piece + 2 * WEIGHER_ANSWER_ROOM];
    uint8_t *end = append(piece, report, sizeof report);
    end = append(end, frame, sizeof frame);
    end = append(end, refused, sizeof refused) + 515;
    end = append(end, report, sizeof report);
    append(end, report, sizeof report);
    end = append_counts(want, after(0, 0).counts);
    end = append(end, scores, sizeof scores);
    end = append(end, refusals, sizeof refusals);
    end = append_counts(end, after(2, 8).counts);
    append_counts(end, after(3, 8).counts);
    weigher_handed_on handed = weigher_hand_on(weigher_fresh(), piece, sizeof piece, buffer, sizeof buffer);
    CHECK(handed.used == sizeof piece && handed.len == sizeof want && handed.refusal == 0);
    CHECK(memcmp(buffer, want, sizeof want) == 0 && same(handed.state, with_counts(state_of(1), after(4, 8).counts)));
    weigher_closed closed = weigher_close(handed.state, buffer, sizeof buffer);
    CHECK(closed.refusal == WEIGHER_UNFINISHED && same(closed.state, after(4, 8)));
}

/* The room that weigher.h names is enough for the longest answers: that to a frame whose last byte alone is in the piece, and reports. */
static void check_room(void)
{
    const size_t reports = 1000, len = 1 + reports * sizeof report, room = 7 * len + 2 * WEIGHER_ANSWER_ROOM;
    static const uint8_t zeros[2 + WEIGHER_LONGEST_BODY] = {0x02, 0x02, 0x01, 0x01};
    uint8_t *piece = before_end(len), *buffer = before_end(room), want[REPORT_ANSWER];
    weigher_taken taken = weigher_take(weigher_fresh(), zeros, sizeof zeros - 1, buffer, room);
    piece[0] = 0;
    for (size_t i = 0; i < reports; i++)
        memcpy(piece + 1 + i * sizeof report, report, sizeof report);
    weigher_handed_on handed = weigher_hand_on(taken.state, piece, len, buffer, room);
    CHECK(handed.used == len && handed.len == WEIGHER_ANSWER_ROOM + reports * sizeof want && handed.refusal == 0);
    CHECK(same(handed.state, after(1 + reports, 0)));
    for (size_t i = 0; i < reports; i++) {
        append_counts(want, after(1 + i, 0).counts);
        CHECK(memcmp(buffer + WEIGHER_ANSWER_ROOM + i * sizeof want, want, sizeof want) == 0);
    }
    CHECK(untouched(buffer + handed.len, room - handed.len));
}

/* Four reports and a refused frame before the third, from two below the end on: accepted and the total stop, and refused goes on. */
static void check_stop(void)
{
    static const uint8_t piece[] = {0, 2, 1, 4, 0, 2, 1, 4, 0, 0, 0, 2, 1, 4, 0, 2, 1, 4}, by_1[] = {0, 2, 1, 1};
    static const weigher_counts counts[] = {{MOST - 2, 0, MOST - 2}, {MOST - 1, 0, MOST - 1}, {MOST, 1, MOST}};
    uint8_t buffer[7 * sizeof piece + 2 * WEIGHER_ANSWER_ROOM], want[4 * REPORT_ANSWER + sizeof by_1];
    uint8_t *end = append_counts(append_counts(want, counts[0]), counts[1]);
    end = append(end, by_1, sizeof by_1);
    append_counts(append_counts(end, counts[2]), counts[2]);
    weigher_handed_on handed = weigher_hand_on(with_counts(weigher_fresh(), counts[0]), piece, sizeof piece, buffer, sizeof buffer);
    CHECK(handed.used == sizeof piece && handed.len == sizeof want && memcmp(buffer, want, sizeof want) == 0);
    CHECK(same(handed.state, with_counts(weigher_fresh(), counts[2])));
}

static void check_reports(void)
{
    for (size_t i = 0; i < sizeof steps / sizeof steps[0]; i++)
        check_step(&steps[i]);
    check_wrong_totals();
    check_wrong_frames();
    check_refused_reports();
    check_reports_handed_on();
    check_room();
    check_stop();
}

static weigher_entry entry_of(uint64_t x, uint64_t hi, uint64_t lo)
{
    const uint64_t patterns[] = {x, hi, lo};
    weigher_entry entry;
    memcpy(&entry, patterns, sizeof entry);
    return entry;
}

static uint64_t pattern_of(double x)
{
    uint64_t pattern;
    memcpy(&pattern, &x, sizeof pattern);
    return pattern;
}

/* 2^-60, whose score is ln 2 times that, and patterns of a few numbers. */
static const uint64_t tiny = 0x3c30000000000000, sign = 0x8000000000000000, tiny_score = 0x3c262e42fefa39ef;
static const uint64_t one = 0x3ff0000000000000, seven = 0x401c000000000000, largest = 0x7fefffffffffffff;

/* A list is for weights of these sizes. */
static const uint64_t first_size = 0x3970000000000001, last_size = 0x3cc0527dbd87e24d;

/* So many entries for the weights 2^-60 and on, a float after another. Their scores are 0.5, 1.5 and so on. */
static weigher_entry *list_of(size_t n)
{
    weigher_entry *list = (weigher_entry *)before_end(n * sizeof *list);
    for (size_t i = 0; i < n; i++)
        list[i] = entry_of(tiny + i, pattern_of((double)i), pattern_of(0.5));
    return list;
}

static void check_scored(const weigher_entry *list, size_t n, uint64_t x, uint64_t want)
{
    uint64_t *score = (uint64_t *)before_end(sizeof *score);
    CHECK(weigher_score_with(list, n, x, score) == 0 && *score == want);
}

/* No entry is met, and the table that the list stands in for has none for this weight either. */
static void check_unmet(const weigher_entry *list, size_t n, uint64_t x)
{
    check_scored(list, n, x, weigher_score(x));
}

/* For NaNs, weights of each step and two of the list: the score keeps its content, and so does the list. */
static void check_list_refused(const weigher_entry *list, size_t n, unsigned number)
{
    const uint64_t weights[] = {WEIGHER_NAN, 0xfff0000000000001, UINT64_MAX, 0xc04b000000000000, 0x4090000000000000, 0, sign, 1, tiny,
                                tiny + 1, 0xc04a800000000000, 0x3fe0000000000000, pattern_of(list[0].x), pattern_of(list[n - 1].x)};
    uint64_t *score = (uint64_t *)before_end(sizeof *score);
    uint8_t *before = before_end(n * sizeof *list);
    memcpy(before, list, n * sizeof *list);
    for (size_t i = 0; i < sizeof weights / sizeof weights[0]; i++) {
        CHECK(weigher_score_with(list, n, weights[i], score) == number);
        CHECK(untouched((uint8_t *)score, sizeof *score));
    }
    CHECK(memcmp(before, list, n * sizeof *list) == 0);
}

static void check_empty_list(void)
{
    const weigher_entry *list = list_of(0);
    check_scored(list, 0, tiny, tiny_score);
    check_unmet(list, 0, first_size);
    check_unmet(list, 0, last_size);
    check_unmet(list, 0, last_size | sign);
}

/* Each entry is found, and not the floats around the list. */
static void check_list(size_t n)
{
    const weigher_entry *list = list_of(n);
    for (size_t i = 0; i < n; i++)
        check_scored(list, n, tiny + i, pattern_of((double)i + 0.5));
    check_unmet(list, n, tiny - 1);
    check_unmet(list, n, tiny + n);
    check_unmet(list, n, tiny ^ sign);
}

/* Entries for weights that no list is for, and one between them. */
static void check_unmet_entries(void)
{
    const uint64_t others[] = {0xffefffffffffffff, 0xc090000000000000, 0xc04b000000000000, 0xc04a800000000000,
                               0xbfe0000000000000, 0xbcc0527dbd87e24e, 0xb970000000000000, 0x8000000000000001,
                               0x0000000000000001, 0x3970000000000000, tiny,               0x3cc0527dbd87e24e,
                               0x3fe0000000000000, 0x3ff0000000000000, 0x404a800000000000, 0x4090000000000000,
                               0x7fefffffffffffff};
    const size_t n = sizeof others / sizeof others[0];
    weigher_entry *list = list_of(n);
    for (size_t i = 0; i < n; i++)
        list[i] = entry_of(others[i], seven, 0);
    for (size_t i = 0; i < n; i++)
        check_scored(list, n, others[i], others[i] == tiny ? seven : weigher_score(others[i]));
}

/* The first and the last weight that a list is for, of both signs. */
static void check_list_bounds(void)
{
    const uint64_t weights[] = {last_size | sign, first_size | sign, first_size, last_size};
    weigher_entry *list = list_of(4);
    for (size_t i = 0; i < 4; i++)
        list[i] = entry_of(weights[i], seven, one);
    for (size_t i = 0; i < 4; i++)
        check_scored(list, 4, weights[i], 0x4020000000000000); /* 8 */
}

/* Two entries of the built-in table give the scores that document 01 has. Without an entry both weights have others, although the built-in
 * table has them. */
static void check_built_in_entries(void)
{
    weigher_entry *list = list_of(2);
    check_scored(list, 2, 0xbab1e3a6eaa49c6e, 0xbaa8ccbeeaab37e3);
    check_scored(list, 2, 0x3978a5dd21ef35af, 0x397115aa0fb29a70);
    list[0] = entry_of(0xbab1e3a6eaa49c6e, 0xbaa8ccbeeaab37e4, 0x3750000000000000);
    list[1] = entry_of(0x3978a5dd21ef35af, 0x397115aa0fb29a70, 0xb621000000000000);
    check_scored(list, 2, 0xbab1e3a6eaa49c6e, 0xbaa8ccbeeaab37e4);
    check_scored(list, 2, 0x3978a5dd21ef35af, 0x397115aa0fb29a6f);
    list[1].hi = list[1].lo = 0.5;
    check_scored(list, 2, 0x3978a5dd21ef35af, one);
}

/* hi + lo: ties, more than half of a spacing, beyond the finite floats, zeros. */
static void check_list_sums(void)
{
    static const uint64_t sums_of_two[][3] = {
        {0x3ff0000000000000, 0x3ca0000000000000, 0x3ff0000000000000},
        {0x3ff0000000000001, 0x3ca0000000000000, 0x3ff0000000000002},
        {0x3ff0000000000000, 0x3ca0000000000001, 0x3ff0000000000001},
        {0xbff0000000000000, 0xbca0000000000001, 0xbff0000000000001},
        {0x7fefffffffffffff, 0x7c90000000000000, 0x7ff0000000000000},
        {0x7fefffffffffffff, 0x7c80000000000000, 0x7fefffffffffffff},
        {0xffefffffffffffff, 0xffefffffffffffff, 0xfff0000000000000},
        {0x3ff0000000000000, 0xbff0000000000000, 0x0000000000000000},
        {0x8000000000000000, 0x8000000000000000, 0x8000000000000000},
        {0x8000000000000000, 0x0000000000000000, 0x0000000000000000},
        {0x0000000000000001, 0x0000000000000001, 0x0000000000000002},
    };
    weigher_entry *list = list_of(1);
    for (size_t i = 0; i < sizeof sums_of_two / sizeof sums_of_two[0]; i++) {
        const uint64_t *sum = sums_of_two[i];
        list[0] = entry_of(tiny, sum[0], sum[1]);
        check_scored(list, 1, tiny, sum[2]);
    }
}

static void check_long_lists(void)
{
    const size_t longest = WEIGHER_LONGEST_LIST;
    CHECK(longest == 256);
    weigher_entry *list = list_of(longest + 1);
    check_scored(list, longest, tiny + longest - 1, pattern_of(255.5));
    check_list_refused(list, longest + 1, WEIGHER_LIST_TOO_LONG);
    list[longest / 2] = entry_of(0, UINT64_MAX, 0);
    check_list_refused(list, longest + 1, WEIGHER_LIST_TOO_LONG);
    check_list_refused(list, longest, WEIGHER_BAD_ENTRY);
    check_list_refused(list_of(10000), 10000, WEIGHER_LIST_TOO_LONG);
}

/* A bad entry at a place of a list that is good without it. */
static void check_bad_entry(size_t n, size_t place)
{
    static const uint64_t not_finite[] = {0x7ff0000000000000, 0xfff0000000000000, 0x7ff0000000000001, 0xfff8000000000000, UINT64_MAX};
    weigher_entry *list = list_of(n), good = list[place];
    for (size_t i = 0; i < sizeof not_finite / sizeof not_finite[0]; i++) {
        list[place] = entry_of(not_finite[i], one, 0);
        check_list_refused(list, n, WEIGHER_BAD_ENTRY);
        list[place] = entry_of(pattern_of(good.x), not_finite[i], 0);
        check_list_refused(list, n, WEIGHER_BAD_ENTRY);
        list[place] = entry_of(pattern_of(good.x), one, not_finite[i]);
        check_list_refused(list, n, WEIGHER_BAD_ENTRY);
    }
    for (size_t i = 0; i < 2; i++) {
        list[place] = entry_of(i == 0 ? 0 : sign, one, 0);
        check_list_refused(list, n, WEIGHER_BAD_ENTRY);
    }
    if (n > 1) {
        list[place] = list[place == 0 ? 1 : place - 1]; /* twice */
        check_list_refused(list, n, WEIGHER_BAD_ENTRY);
        list[place] = entry_of(place == 0 ? largest : largest | sign, one, 0); /* far out of order */
        check_list_refused(list, n, WEIGHER_BAD_ENTRY);
    }
    list[place] = good;
    check_scored(list, n, tiny + place, pattern_of((double)place + 0.5));
}

/* Values ascend from -2^-59 to -2^-60, and patterns the other way. A zero between the signs is in order and refused all the same. */
static void check_list_order(void)
{
    const uint64_t twice = 0x3c40000000000000;
    weigher_entry *list = list_of(3);
    list[0] = entry_of(twice | sign, one, 0);
    list[1] = entry_of(tiny | sign, one, 0);
    list[2] = entry_of(tiny, one, 0);
    check_scored(list, 3, twice | sign, one);
    check_scored(list, 3, tiny | sign, one);
    check_scored(list, 3, tiny, one);
    list[0] = entry_of(tiny | sign, one, 0);
    list[1] = entry_of(twice | sign, one, 0);
    check_list_refused(list, 2, WEIGHER_BAD_ENTRY);
    list[1] = entry_of(sign, one, 0);
    check_list_refused(list, 3, WEIGHER_BAD_ENTRY);
    list[1] = entry_of(0, one, 0);
    check_list_refused(list, 3, WEIGHER_BAD_ENTRY);
    list[0] = entry_of(tiny, one, 0);
    list[1] = entry_of(twice | sign, one, 0);
    check_list_refused(list, 2, WEIGHER_BAD_ENTRY);
}

static void check_lists(void)
{
    static const size_t lengths[] = {1, 2, 3, 56, 256};
    check_empty_list();
    for (size_t i = 0; i < sizeof lengths / sizeof lengths[0]; i++) {
        size_t n = lengths[i];
        check_list(n);
        check_bad_entry(n, 0);
        check_bad_entry(n, n / 2);
        check_bad_entry(n, n - 1);
    }
    check_unmet_entries();
    check_list_bounds();
    check_built_in_entries();
    check_list_sums();
    check_long_lists();
    check_list_order();
}

/* NaNs of both signs, with the top fraction bit clear and set, and what each of them gives. */
static const struct nan_case {
    uint64_t nan, result;
} nans[] = {
    {0x7ff0000000000001, 0x7ff8000000000001},
    {0xfff0000000000001, 0xfff8000000000001},
    {0x7ff8000000000003, 0x7ff8000000000003},
    {0xfff8000000000003, 0xfff8000000000003},
    {0x7ff8000000000000, 0x7ff8000000000000},
    {0xfff8000000000000, 0xfff8000000000000},
    {0xfff0000080000000, 0xfff8000080000000},
    {0x7ff0000100000000, 0x7ff8000100000000},
    {0x7ff4000000000000, 0x7ffc000000000000},
    {0xfff123456789abcd, 0xfff923456789abcd},
    {0x7ff7ffffffffffff, 0x7fffffffffffffff},
    {0xffffffffffffffff, 0xffffffffffffffff},
};
static const size_t nan_count = sizeof nans / sizeof nans[0];

/* The answer of one result to a frame, taken whole and handed on byte by byte. */
static void check_answer(const uint8_t *bytes, size_t n, uint64_t result)
{
    uint8_t buffer[WEIGHER_ANSWER_ROOM], want[DIRECTED_ANSWER];
    put_answer(want, result);
    weigher_taken taken = weigher_take(weigher_fresh(), bytes, n, buffer, sizeof buffer);
    CHECK(taken.used == n && taken.len == sizeof want && taken.refusal == 0 && memcmp(buffer, want, sizeof want) == 0);
    memset(buffer, 0xee, sizeof buffer);
    weigher_state state = weigher_fresh();
    for (size_t i = 0; i < n; i++) {
        weigher_handed_on handed = weigher_hand_on(state, bytes + i, 1, buffer, sizeof buffer);
        CHECK(handed.used == 1 && handed.len == (i + 1 < n ? 0 : sizeof want) && handed.refusal == 0);
        state = handed.state;
    }
    CHECK(memcmp(buffer, want, sizeof want) == 0 && same(state, after(1, 0)));
}

static void check_scaled_nan(uint64_t nan, uint64_t result)
{
    static const int32_t powers[] = {INT32_MIN, -2099, -1074, -1, 0, 1, 1023, 2099, INT32_MAX};
    for (size_t i = 0; i < sizeof powers / sizeof powers[0]; i++)
        CHECK(weigher_scale(nan, powers[i]) == result);
}

/* Good lists, one that is too long, one out of order, and one with the same NaN. */
static void check_nan_by_lists(uint64_t nan, uint64_t result)
{
    weigher_entry *list = list_of(WEIGHER_LONGEST_LIST + 1);
    check_scored(list, 0, nan, result);
    check_scored(list, 1, nan, result);
    check_scored(list, WEIGHER_LONGEST_LIST, nan, result);
    uint64_t *score = (uint64_t *)before_end(sizeof *score);
    CHECK(weigher_score_with(list, WEIGHER_LONGEST_LIST + 1, nan, score) == WEIGHER_LIST_TOO_LONG);
    list[1] = list[0];
    CHECK(weigher_score_with(list, 2, nan, score) == WEIGHER_BAD_ENTRY);
    list[0] = entry_of(nan, one, 0);
    CHECK(weigher_score_with(list, 1, nan, score) == WEIGHER_BAD_ENTRY);
    CHECK(untouched((uint8_t *)score, sizeof *score));
}

static void check_nan(uint64_t nan, uint64_t result)
{
    uint8_t bytes[sizeof frame];
    memcpy(bytes, frame, 4);
    put(bytes + 4, nan);
    check_answer(bytes, sizeof bytes, result);
    CHECK(weigher_score(nan) == result);
    CHECK(weigher_round(nan) == result);
    CHECK(weigher_floor(nan) == result);
    check_scaled_nan(nan, result);
    check_nan_by_lists(nan, result);
}

/* A frame of kind 2 with one triple. */
enum { TRIPLE = 28 };

static void put_triple(uint8_t *bytes, const uint64_t *operands)
{
    static const uint8_t head[] = {0x00, 0x1a, 0x01, 0x02};
    memcpy(bytes, head, sizeof head);
    for (size_t i = 0; i < 3; i++)
        put(bytes + 4 + 8 * i, operands[i]);
}

/* By the calls and by frames, and refused with a byte that is no direction. */
static void check_nan_sum(const uint64_t *operands, uint64_t want)
{
    const uint64_t a = operands[0], b = operands[1], c = operands[2], kept = 5;
    uint64_t result = kept;
    uint8_t triple[TRIPLE], directed[DIRECTED];
    CHECK(weigher_fused_in(4, a, b, c, &result) == WEIGHER_BAD_DIRECTION && result == kept);
    put_directed(directed, 4, operands);
    check_refused_frame(directed, DIRECTED, WEIGHER_BAD_DIRECTION);
    for (unsigned direction = 0; direction <= 3; direction++) {
        CHECK(weigher_fused_in((uint8_t)direction, a, b, c, &result) == 0 && result == want);
        put_directed(directed, (uint8_t)direction, operands);
        check_answer(directed, DIRECTED, want);
    }
    CHECK(weigher_fused(a, b, c) == want);
    put_triple(triple, operands);
    check_answer(triple, TRIPLE, want);
}

/* Every triple with a NaN in one place, in two, or in all: the first of them is the one that counts. */
static void check_nan_sums(void)
{
    static const uint64_t others[] = {0x0000000000000000, 0x8000000000000000, 0x3ff0000000000000, 0x7ff0000000000000, 0xfff0000000000000};
    uint64_t values[sizeof nans / sizeof nans[0] + sizeof others / sizeof others[0]];
    const size_t count = sizeof values / sizeof values[0];
    for (size_t i = 0; i < count; i++)
        values[i] = i < nan_count ? nans[i].nan : others[i - nan_count];
    for (size_t i = 0; i < count * count * count; i++) {
        const size_t a = i / count / count, b = i / count % count, c = i % count;
        const size_t first = a < nan_count ? a : b < nan_count ? b : c;
        const uint64_t operands[] = {values[a], values[b], values[c]};
        if (first < nan_count)
            check_nan_sum(operands, nans[first].result);
    }
}

/* 0 * infinity and infinity - infinity without a NaN. */
static void check_invalid_sums(void)
{
    static const uint64_t invalid[][3] = {
        {0x0000000000000000, 0x7ff0000000000000, 0x3ff0000000000000},
        {0x7ff0000000000000, 0x8000000000000000, 0x3ff0000000000000},
        {0x8000000000000000, 0xfff0000000000000, 0x7ff0000000000000},
        {0xfff0000000000000, 0x0000000000000000, 0x0000000000000000},
        {0x7ff0000000000000, 0x3ff0000000000000, 0xfff0000000000000},
        {0x3ff0000000000000, 0xfff0000000000000, 0x7ff0000000000000},
        {0xfff0000000000000, 0xbff0000000000000, 0xfff0000000000000},
        {0x7ff0000000000000, 0xfff0000000000000, 0x7ff0000000000000},
    };
    CHECK(WEIGHER_NAN == 0x7ff8000000000000);
    for (size_t i = 0; i < sizeof invalid / sizeof invalid[0]; i++)
        check_nan_sum(invalid[i], WEIGHER_NAN);
}

static void check_nans(void)
{
    for (size_t i = 0; i < nan_count; i++)
        check_nan(nans[i].nan, nans[i].result);
    check_nan_sums();
    check_invalid_sums();
}

/* The lines of a household sheet, a frame of kind 5, and how many a body has room for. */
enum { LINE = 9, MOST_LINES = 56, ROOM_FOR_SHEETS = 4 + (MOST_LINES + 1) * LINE };

/* The length, the version and the kind before a payload of so many bytes. Returns the bytes of the whole frame. */
static size_t put_head(uint8_t *bytes, uint8_t kind, size_t payload)
{
    const size_t body = 2 + payload;
    bytes[0] = (uint8_t)(body >> 8);
    bytes[1] = (uint8_t)body;
    bytes[2] = 1;
    bytes[3] = kind;
    return 2 + body;
}

static uint8_t *line_at(uint8_t *sheet, size_t number)
{
    return sheet + 4 + LINE * number;
}

/* A line of the first form. */
static void put_member(uint8_t *sheet, size_t number, uint64_t weight)
{
    uint8_t *line = line_at(sheet, number);
    line[0] = 0;
    put(line + 1, weight);
}

/* A line of the second form. */
static void put_named(uint8_t *sheet, size_t number, size_t first, size_t second)
{
    uint8_t *line = line_at(sheet, number);
    memset(line, 0, LINE);
    line[0] = 1;
    line[1] = (uint8_t)first;
    line[2] = (uint8_t)second;
}

static void put_members(uint8_t *sheet, size_t lines)
{
    for (size_t i = 0; i < lines; i++)
        put_member(sheet, i, one);
}

/* take and hand_on of a whole frame, which ends where memory does. Behind the answer the buffer keeps its content. */
static void check_whole(const uint8_t *bytes, size_t n, const uint8_t *want, size_t want_len)
{
    static uint8_t *pieces, *buffer;
    const size_t room = WEIGHER_ANSWER_ROOM;
    if (buffer == NULL) {
        pieces = before_end(ROOM_FOR_SHEETS);
        buffer = before_end(room);
    }
    uint8_t *piece = pieces + ROOM_FOR_SHEETS - n;
    memcpy(piece, bytes, n);
    const weigher_state behind = want[3] == 0 ? after(1, 0) : after(0, 1);
    memset(buffer, 0xee, room);
    weigher_taken taken = weigher_take(weigher_fresh(), piece, n, buffer, room);
    CHECK(taken.used == n && taken.len == want_len && taken.refusal == want[3] && same(taken.state, behind));
    CHECK(memcmp(buffer, want, want_len) == 0 && untouched(buffer + want_len, room - want_len));
    memset(buffer, 0xee, room);
    weigher_handed_on handed = weigher_hand_on(weigher_fresh(), piece, n, buffer, room);
    CHECK(handed.used == n && handed.len == want_len && handed.refusal == 0 && same(handed.state, behind));
    CHECK(memcmp(buffer, want, want_len) == 0 && untouched(buffer + want_len, room - want_len));
    CHECK(memcmp(piece, bytes, n) == 0);
}

/* The frame, cut at each place, closed there and, from the same state, taken to its end; and handed on byte by byte. */
static void check_in_parts(const uint8_t *bytes, size_t n, const uint8_t *want, size_t want_len)
{
    uint8_t buffer[WEIGHER_ANSWER_ROOM];
    const size_t room = sizeof buffer;
    const weigher_state behind = want[3] == 0 ? after(1, 0) : after(0, 1);
    weigher_state state = weigher_fresh();
    for (size_t cut = 1; cut <= n; cut++) {
        memset(buffer, 0xee, room);
        weigher_handed_on handed = weigher_hand_on(state, bytes + cut - 1, 1, buffer, room);
        state = handed.state;
        CHECK(handed.used == 1 && handed.refusal == 0 && handed.len == (cut < n ? 0 : want_len));
        CHECK(memcmp(buffer, want, handed.len) == 0 && untouched(buffer + handed.len, room - handed.len));
        if (cut == n)
            break;
        CHECK(same(weigher_take(weigher_fresh(), bytes, cut, buffer, room).state, state) && untouched(buffer, room));
        CHECK(state.frame.count == cut && memcmp(state.frame.body, bytes + 2, cut < 2 ? 0 : cut - 2) == 0);
        weigher_closed closed = weigher_close(state, buffer, room);
        CHECK(closed.refusal == WEIGHER_UNFINISHED && closed.len == 4 && same(closed.state, weigher_fresh()));
        CHECK(memcmp(buffer, unfinished, 4) == 0 && untouched(buffer + 4, room - 4));
        weigher_taken taken = weigher_take(state, bytes + cut, n - cut, buffer, room);
        CHECK(taken.used == n - cut && taken.len == want_len && taken.refusal == want[3] && same(taken.state, behind));
        CHECK(memcmp(buffer, want, want_len) == 0);
    }
    CHECK(same(state, behind));
}

/* The household of four of docs/PROTOCOL.md. */
static void check_household(void)
{
    static const uint8_t sheet[] = {
        0x00, 0x26, 0x01, 0x05,                               /* L = 38 */
        0x00, 0x40, 0x08, 0x00, 0x00, 0x00, 0x00, 0x00, 0x00, /* line 0: 3 */
        0x00, 0xbf, 0xf0, 0x00, 0x00, 0x00, 0x00, 0x00, 0x00, /* line 1: -1 */
        0x01, 0x00, 0x01, 0x00, 0x00, 0x00, 0x00, 0x00, 0x00, /* line 2: line 0 plus line 1, 2 */
        0x01, 0x02, 0x00, 0x00, 0x00, 0x00, 0x00, 0x00, 0x00, /* line 3: line 2 plus line 0, 5 */
    };
    static const uint8_t want[] = {
        0x00, 0x22, 0x01, 0x00,                         /* L = 34 */
        0x40, 0x1c, 0x00, 0x00, 0x00, 0x00, 0x00, 0x00, /* 7 */
        0xbf, 0xe0, 0x00, 0x00, 0x00, 0x00, 0x00, 0x00, /* -0.5 */
        0x40, 0x08, 0x00, 0x00, 0x00, 0x00, 0x00, 0x00, /* 3 */
        0x40, 0x3f, 0x00, 0x00, 0x00, 0x00, 0x00, 0x00, /* 31 */
    };
    check_whole(sheet, sizeof sheet, want, sizeof want);
    check_in_parts(sheet, sizeof sheet, want, sizeof want);
}

/* A weight or, of the second form, two numbers; and the score. */
struct line {
    uint8_t form, first, second;
    uint64_t weight, score;
};

#define MEMBER(weight, score) {0, 0, 0, weight, score}
#define SUM(first, second, score) {1, first, second, 0, score}

static void check_lines(const struct line *lines, size_t n)
{
    uint8_t sheet[ROOM_FOR_SHEETS], want[WEIGHER_ANSWER_ROOM];
    for (size_t i = 0; i < n; i++) {
        if (lines[i].form == 0)
            put_member(sheet, i, lines[i].weight);
        else
            put_named(sheet, i, lines[i].first, lines[i].second);
        put(want + 4 + 8 * i, lines[i].score);
    }
    const size_t len = put_head(sheet, 5, LINE * n), want_len = put_head(want, 0, 8 * n);
    check_whole(sheet, len, want, want_len);
    check_in_parts(sheet, len, want, want_len);
}

static const uint64_t infinity = 0x7ff0000000000000, minus_one = 0xbff0000000000000, fifteen = 0x402e000000000000;

/* The sums of the largest float and itself, of both signs, and what they give: infinities do not come back. */
static void check_overflow(void)
{
    const struct line up[] = {
        MEMBER(largest, infinity), SUM(0, 0, infinity),  MEMBER(largest | sign, minus_one), SUM(1, 2, infinity),
        SUM(0, 2, 0),              SUM(2, 2, minus_one), SUM(1, 5, WEIGHER_NAN),            SUM(5, 1, WEIGHER_NAN),
    };
    const struct line down[] = {
        MEMBER(largest | sign, minus_one), SUM(0, 0, minus_one), MEMBER(largest, infinity), SUM(1, 2, minus_one),
        SUM(2, 0, 0),                      SUM(2, 2, infinity),  SUM(1, 5, WEIGHER_NAN),    SUM(5, 1, WEIGHER_NAN),
    };
    check_lines(up, sizeof up / sizeof up[0]);
    check_lines(down, sizeof down / sizeof down[0]);
}

/* Each sum is rounded before it is added to again, a tie to the even float: 2^53 + 1 is 2^53, and (2^53 + 2) + 1 is 2^53 + 4. */
static void check_rounded_lines(void)
{
    const uint64_t large = 0x4340000000000000;
    const struct line lines[] = {
        MEMBER(large, infinity), MEMBER(one, one), MEMBER(large + 1, infinity), MEMBER(large | sign, minus_one),
        SUM(0, 1, infinity),     SUM(4, 3, 0),     SUM(2, 1, infinity),         SUM(6, 3, fifteen),
    };
    check_lines(lines, sizeof lines / sizeof lines[0]);
}

/* +0 unless both are -0. */
static void check_zero_lines(void)
{
    const struct line lines[] = {
        MEMBER(one, one),
        MEMBER(minus_one, 0xbfe0000000000000),
        MEMBER(0, 0),
        MEMBER(sign, sign),
        SUM(0, 1, 0),
        SUM(1, 0, 0),
        SUM(2, 2, 0),
        SUM(2, 3, 0),
        SUM(3, 2, 0),
        SUM(4, 3, 0),
        SUM(3, 3, sign),
        SUM(10, 3, sign),
        SUM(3, 10, sign),
        SUM(11, 4, 0),
    };
    check_lines(lines, sizeof lines / sizeof lines[0]);
}

/* Of two NaNs that of the line named first, with its top fraction bit set; and infinities of unlike signs. */
static void check_nan_lines(void)
{
    const uint64_t ten = 0x7ff800000000000a, eleven = 0xfff800000000000b;
    const struct line lines[] = {
        MEMBER(0x7ff000000000000a, ten),
        MEMBER(0xfff000000000000b, eleven),
        MEMBER(infinity, infinity),
        MEMBER(infinity | sign, minus_one),
        SUM(0, 1, ten),
        SUM(1, 0, eleven),
        SUM(0, 0, ten),
        SUM(2, 1, eleven),
        SUM(1, 2, eleven),
        SUM(2, 3, WEIGHER_NAN),
        SUM(3, 2, WEIGHER_NAN),
        SUM(9, 5, WEIGHER_NAN), /* the NaN of an operation goes on as any other */
        SUM(5, 9, eleven),
        SUM(3, 4, ten),
        SUM(2, 2, infinity),
        SUM(3, 3, minus_one),
    };
    check_lines(lines, sizeof lines / sizeof lines[0]);
}

/* The bytes behind a first byte of 0 are a weight, also those that are numbers or filler in the other form. */
static void check_any_weights(void)
{
    const struct line lines[] = {
        MEMBER(UINT64_MAX, UINT64_MAX),
        MEMBER(0xfff0ff0102030405, 0xfff8ff0102030405),
        MEMBER(0xc04b010203040506, minus_one),
        MEMBER(0x4090010203040506, infinity),
        MEMBER(0xff00000000000001, minus_one),
        SUM(4, 3, minus_one),
    };
    check_lines(lines, sizeof lines / sizeof lines[0]);
}

static uint64_t pattern_at(const uint8_t *bytes)
{
    uint64_t pattern = 0;
    for (size_t i = 0; i < 8; i++)
        pattern = pattern << 8 | bytes[i];
    return pattern;
}

/* The sum by C's own +; of NaNs the first, with its top fraction bit set. */
static uint64_t sum_of(uint64_t first, uint64_t second)
{
    const uint64_t top = 0x0008000000000000;
    double a, b;
    memcpy(&a, &first, sizeof a);
    memcpy(&b, &second, sizeof b);
    const double sum = a + b;
    return a != a ? first | top : b != b ? second | top : sum != sum ? WEIGHER_NAN : pattern_of(sum);
}

/* The answer to a sheet of good lines is that to a frame of kind 1 with the values of its lines. */
static void check_values(uint8_t *sheet, size_t lines)
{
    uint64_t values[MOST_LINES] = {0};
    uint8_t weights[4 + 8 * MOST_LINES], want[WEIGHER_ANSWER_ROOM];
    for (size_t i = 0; i < lines; i++) {
        const uint8_t *line = line_at(sheet, i);
        values[i] = line[0] == 0 ? pattern_at(line + 1) : sum_of(values[line[1]], values[line[2]]);
        put(weights + 4 + 8 * i, values[i]);
    }
    const size_t len = put_head(weights, 1, 8 * lines);
    weigher_taken taken = weigher_take(weigher_fresh(), weights, len, want, sizeof want);
    CHECK(taken.refusal == 0 && taken.len == len);
    check_whole(sheet, put_head(sheet, 5, LINE * lines), want, len);
}

/* Each pair of values in both orders, each with itself, and sums of sums. */
static void check_pairs(void)
{
    static const uint64_t values[] = {
        0x0000000000000000, 0x0000000000000001, 0x000fffffffffffff, 0x0010000000000000, 0x3ca0000000000000, 0x3fd5555555555555,
        0x3fefffffffffffff, 0x3ff0000000000000, 0x3ff0000000000001, 0x4008000000000000, 0x404a800000000000, 0x4090000000000000,
        0x4340000000000000, 0x4340000000000001, 0x7c90000000000000, 0x7fefffffffffffff, 0x7ff0000000000000, 0x7ff0000000000005,
        0x7ff8000000000006,
    };
    const size_t count = 2 * sizeof values / sizeof values[0];
    for (size_t i = 0; i < count * count; i++) {
        const size_t first = i / count, second = i % count;
        uint8_t sheet[ROOM_FOR_SHEETS];
        put_member(sheet, 0, values[first / 2] | (first % 2 == 0 ? 0 : sign));
        put_member(sheet, 1, values[second / 2] | (second % 2 == 0 ? 0 : sign));
        put_named(sheet, 2, 0, 1);
        put_named(sheet, 3, 1, 0);
        put_named(sheet, 4, 0, 0);
        put_named(sheet, 5, 2, 3);
        put_named(sheet, 6, 2, 1);
        put_named(sheet, 7, 4, 2);
        check_values(sheet, 8);
    }
}

/* From one line on to 56: each is the line before it and the first, the line before it twice, or the two before it. */
static void check_chains(void)
{
    static const uint64_t weights[] = {0x3ff0000000000000, 0xbfe8000000000000, 0x3fb999999999999a, 0x0000000000000001,
                                       0x7f90000000000000, 0x7ff0000000000003};
    uint8_t sheet[ROOM_FOR_SHEETS];
    for (size_t i = 0; i < 3 * sizeof weights / sizeof weights[0]; i++) {
        put_member(sheet, 0, weights[i / 3]);
        check_values(sheet, 1);
        for (size_t n = 1; n < MOST_LINES; n++) {
            put_named(sheet, n, n - 1, i % 3 == 0 ? 0 : i % 3 == 1 ? n - 1 : n < 2 ? 0 : n - 2);
            check_values(sheet, n + 1);
        }
    }
}

/* Line after line is one more: the values are 1 to 56, and the scores 2^x - 1. With a line more the body is too long. */
static void check_chain_of_56(void)
{
    struct line lines[MOST_LINES];
    for (size_t i = 0; i < MOST_LINES; i++) {
        const struct line line = SUM((uint8_t)(i - 1), 0, pattern_of((double)((UINT64_C(1) << (i + 1)) - 1)));
        lines[i] = line;
    }
    lines[0].form = 0;
    lines[0].weight = one;
    check_lines(lines, MOST_LINES);
    uint8_t sheet[ROOM_FOR_SHEETS];
    put_members(sheet, MOST_LINES + 1);
    check_refused_frame(sheet, put_head(sheet, 5, LINE * (MOST_LINES + 1)), WEIGHER_LONG_BODY);
}

/* Every line before it may be named by a line, first and second. */
static void check_names(void)
{
    uint8_t sheet[ROOM_FOR_SHEETS];
    for (size_t i = 0; i < MOST_LINES; i++)
        put_member(sheet, i, pattern_of((double)i - 20.5));
    for (size_t n = 1; n < MOST_LINES; n++) {
        for (size_t named = 0; named < n; named++) {
            put_named(sheet, n, named, n / 2);
            check_values(sheet, n + 1);
            put_named(sheet, n, n / 2, named);
            check_values(sheet, MOST_LINES);
        }
        put_member(sheet, n, pattern_of((double)n - 20.5));
    }
}

/* Refused, with no score in the buffer. */
static void check_bad_sheet(uint8_t *sheet, size_t lines, unsigned number)
{
    const uint8_t want[] = {0x00, 0x02, 0x01, (uint8_t)number};
    check_whole(sheet, put_head(sheet, 5, LINE * lines), want, sizeof want);
}

/* A line at each place of a sheet that is good without it: every byte that begins no line. */
static void check_bad_forms(size_t lines)
{
    uint8_t sheet[ROOM_FOR_SHEETS];
    put_members(sheet, lines);
    for (size_t place = 0; place < lines; place++) {
        for (unsigned byte = 2; byte <= 255; byte++) {
            line_at(sheet, place)[0] = (uint8_t)byte;
            check_bad_sheet(sheet, lines, WEIGHER_BAD_LINE);
        }
        put_member(sheet, place, one);
    }
}

/* Each of the six bytes behind the numbers, with each of its bits alone. */
static void check_bad_fillers(size_t lines)
{
    uint8_t sheet[ROOM_FOR_SHEETS];
    put_members(sheet, lines);
    for (size_t place = 1; place < lines; place++) {
        put_named(sheet, place, 0, place - 1);
        check_values(sheet, lines);
        for (size_t at = 3; at < LINE; at++) {
            for (unsigned bit = 0; bit < 8; bit++) {
                line_at(sheet, place)[at] = (uint8_t)(1u << bit);
                check_bad_sheet(sheet, lines, WEIGHER_BAD_LINE);
            }
            line_at(sheet, place)[at] = 0;
        }
        put_member(sheet, place, one);
    }
}

/* Its own number, greater ones that the sheet has, and those that it does not have, first, second and both. */
static void check_later_lines(size_t lines)
{
    uint8_t sheet[ROOM_FOR_SHEETS];
    put_members(sheet, lines);
    for (size_t place = 0; place < lines; place++) {
        for (size_t name = place; name <= 255; name++) {
            put_named(sheet, place, name, 0);
            check_bad_sheet(sheet, lines, WEIGHER_LATER_LINE);
            put_named(sheet, place, 0, name);
            check_bad_sheet(sheet, lines, WEIGHER_LATER_LINE);
            put_named(sheet, place, name, name);
            check_bad_sheet(sheet, lines, WEIGHER_LATER_LINE);
        }
        put_member(sheet, place, one);
    }
}

/* 14 is tried before 15 on one line. */
static void check_both_on_a_line(size_t lines)
{
    uint8_t sheet[ROOM_FOR_SHEETS];
    put_members(sheet, lines);
    for (size_t place = 0; place < lines; place++) {
        put_named(sheet, place, place, 255);
        check_bad_sheet(sheet, lines, WEIGHER_LATER_LINE);
        for (size_t at = 3; at < LINE; at++) {
            line_at(sheet, place)[at] = 1;
            check_bad_sheet(sheet, lines, WEIGHER_BAD_LINE);
            line_at(sheet, place)[at] = 0;
        }
        line_at(sheet, place)[0] = 2;
        check_bad_sheet(sheet, lines, WEIGHER_BAD_LINE);
        put_member(sheet, place, one);
    }
}

/* The first of two bad lines decides. */
static void check_two_bad_lines(size_t lines)
{
    static const uint8_t bad[][LINE] = {{2, 0, 0, 0, 0, 0, 0, 0, 0}, {1, 0, 0, 0, 0, 0, 0, 0, 1}, {1, 0, 200, 0, 0, 0, 0, 0, 0}};
    static const unsigned numbers[] = {WEIGHER_BAD_LINE, WEIGHER_BAD_LINE, WEIGHER_LATER_LINE};
    uint8_t sheet[ROOM_FOR_SHEETS];
    put_members(sheet, lines);
    for (size_t first = 0; first < lines; first++)
        for (size_t second = first + 1; second < lines; second++) {
            for (size_t i = 0; i < 9; i++) {
                memcpy(line_at(sheet, first), bad[i / 3], LINE);
                memcpy(line_at(sheet, second), bad[i % 3], LINE);
                check_bad_sheet(sheet, lines, numbers[i / 3]);
            }
            put_member(sheet, first, one);
            put_member(sheet, second, one);
        }
}

/* Bad sheets cut at each place. A close there is 8. */
static void check_bad_sheets_in_parts(void)
{
    static const uint8_t by_14[] = {0x00, 0x02, 0x01, 0x0e}, by_15[] = {0x00, 0x02, 0x01, 0x0f};
    uint8_t sheet[ROOM_FOR_SHEETS];
    put_members(sheet, 3);
    const size_t len = put_head(sheet, 5, LINE * 3);
    line_at(sheet, 1)[0] = 0xff;
    check_in_parts(sheet, len, by_14, sizeof by_14);
    put_named(sheet, 1, 0, 2);
    check_in_parts(sheet, len, by_15, sizeof by_15);
}

/* Payloads of each length, of good lines, of lines that 14 refuses and of those that 15 refuses: 5 comes first, and 2 before it. */
static void check_sheet_lengths(void)
{
    static const unsigned numbers[] = {0, WEIGHER_BAD_LINE, WEIGHER_BAD_LINE, WEIGHER_LATER_LINE};
    static const uint8_t fill[] = {0, 2, 0xff};
    uint8_t sheet[ROOM_FOR_SHEETS], scores_of_0[WEIGHER_ANSWER_ROOM] = {0};
    for (size_t i = 0; i < 4; i++)
        for (size_t payload = 0; payload <= LINE * (MOST_LINES + 1); payload++) {
            for (size_t n = 0; n <= MOST_LINES; n++) {
                if (i < 3)
                    memset(line_at(sheet, n), fill[i], LINE);
                else
                    put_named(sheet, n, 0, 0);
            }
            unsigned number = numbers[i];
            if (payload == 0 || payload % LINE != 0)
                number = WEIGHER_BAD_PAYLOAD;
            if (2 + payload > WEIGHER_LONGEST_BODY)
                number = WEIGHER_LONG_BODY;
            const uint8_t refused[] = {0x00, 0x02, 0x01, (uint8_t)number};
            const size_t len = put_head(sheet, 5, payload);
            if (number == 0)
                check_whole(sheet, len, scores_of_0, put_head(scores_of_0, 0, payload / LINE * 8));
            else
                check_whole(sheet, len, refused, sizeof refused);
        }
}

/* 3 comes before 14 and 15, and other kinds have no lines. */
static void check_around_sheets(void)
{
    uint8_t sheet[ROOM_FOR_SHEETS];
    put_named(sheet, 0, 0, 0);
    const size_t len = put_head(sheet, 5, LINE);
    check_refused_frame(sheet, len, WEIGHER_LATER_LINE);
    sheet[2] = 2;
    check_refused_frame(sheet, len, WEIGHER_BAD_VERSION);
    sheet[2] = 1;
    for (size_t kind = 1; kind <= 4; kind++) {
        sheet[3] = (uint8_t)kind;
        check_refused_frame(sheet, len, WEIGHER_BAD_PAYLOAD);
    }
    sheet[3] = 0;
    check_refused_frame(sheet, len, WEIGHER_BAD_KIND);
    sheet[3] = 0xff;
    check_refused_frame(sheet, len, WEIGHER_BAD_KIND);
}

/* Sheets and reports in one piece: what 14 and 15 refuse is counted. */
static void check_sheets_handed_on(void)
{
    static const uint8_t piece[] = {
        0x00, 0x14, 0x01, 0x05, 0, 0x3f, 0xf0, 0, 0, 0, 0, 0, 0, 1, 0, 0, 0, 0, 0, 0, 0, 0, /* 1, and twice as much */
        0x00, 0x02, 0x01, 0x04,
        0x00, 0x0b, 0x01, 0x05, 2, 0, 0, 0, 0, 0, 0, 0, 0, /* 14 */
        0x00, 0x02, 0x01, 0x04,
        0x00, 0x0b, 0x01, 0x05, 1, 0, 0, 0, 0, 0, 0, 0, 0, /* 15 */
        0x00, 0x02, 0x01, 0x04,
        0x00, 0x02, 0x01, 0x05, /* 5 */
        0x00, 0x0b, 0x01, 0x05, 0, 0, 0, 0, 0, 0, 0, 0, 0, /* 0 */
        0x00, 0x02, 0x01, 0x04,
        0x00, 0x0b, 0x01, 0x05, 2, /* the stream ends inside a sheet */
    };
    static const uint8_t two_scores[] = {0x00, 0x12, 0x01, 0x00, 0x3f, 0xf0, 0, 0, 0, 0, 0, 0, 0x40, 0x08, 0, 0, 0, 0, 0, 0};
    static const uint8_t by_14[] = {0, 2, 1, 14}, by_15[] = {0, 2, 1, 15}, by_5[] = {0, 2, 1, 5};
    static const uint8_t zero[] = {0x00, 0x0a, 0x01, 0x00, 0, 0, 0, 0, 0, 0, 0, 0};
    uint8_t buffer[7 * sizeof piece + 2 * WEIGHER_ANSWER_ROOM], want[sizeof buffer];
    uint8_t *end = append(want, two_scores, sizeof two_scores);
    end = append_counts(end, after(1, 0).counts);
    end = append(end, by_14, sizeof by_14);
    end = append_counts(end, after(2, 1).counts);
    end = append(end, by_15, sizeof by_15);
    end = append_counts(end, after(3, 2).counts);
    end = append(end, by_5, sizeof by_5);
    end = append(end, zero, sizeof zero);
    end = append_counts(end, after(5, 3).counts);
    const size_t want_len = (size_t)(end - want);
    weigher_handed_on handed = weigher_hand_on(weigher_fresh(), piece, sizeof piece, buffer, sizeof buffer);
    CHECK(handed.used == sizeof piece && handed.len == want_len && handed.refusal == 0 && memcmp(buffer, want, want_len) == 0);
    CHECK(handed.state.frame.count == 5);
    weigher_closed closed = weigher_close(handed.state, buffer, sizeof buffer);
    CHECK(closed.refusal == WEIGHER_UNFINISHED && same(closed.state, after(6, 3)));
}

static void check_sheets(void)
{
    static const size_t lengths[] = {1, 2, 3, MOST_LINES};
    CHECK(WEIGHER_BAD_LINE == 14 && WEIGHER_LATER_LINE == 15);
    check_household();
    check_overflow();
    check_rounded_lines();
    check_zero_lines();
    check_nan_lines();
    check_any_weights();
    check_pairs();
    check_chains();
    check_chain_of_56();
    check_names();
    for (size_t i = 0; i < sizeof lengths / sizeof lengths[0]; i++) {
        size_t lines = lengths[i];
        check_bad_forms(lines);
        check_bad_fillers(lines);
        check_later_lines(lines);
        check_both_on_a_line(lines);
        check_two_bad_lines(lines);
    }
    check_bad_sheets_in_parts();
    check_sheet_lengths();
    check_around_sheets();
    check_sheets_handed_on();
}

int main(void)
{
    CHECK(same(weigher_fresh(), state_of(0)));
    check_refusals();
    for (size_t cut = 0; cut < sizeof frame; cut++)
        check_cut(cut);
    check_hand_on();
    check_null();
    check_payload();
    check_screening();
    check_constants();
    check_directions();
    check_reports();
    check_lists();
    check_nans();
    check_sheets();
    return 0;
}
