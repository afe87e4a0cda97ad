/* The weigher for C and C++, on x86-64 Linux. Link with libweigher.a.
 *
 * Four groups of calls: the framed service, which takes the bytes of a stream
 * in pieces of any size and answers each frame; payload and screening, for
 * those who make frames; the numeric functions; and the reader of constants.
 * docs/PROTOCOL.md has the frames, the answers and the refusals byte by byte.
 *
 * Every call takes every value of its arguments, and ends. None allocates,
 * none keeps anything between calls, and there is no global state: any number
 * of threads may call at once, each with buffers of its own.
 *
 * A pointer and the length behind it are a run of bytes, or of entries, that is
 * there to read (const) or to write. Where the length is 0 the pointer may be
 * NULL. The buffer for answers does not overlap the piece, nor a constant's
 * result its text, nor a score the list of entries.
 *
 * Floats are binary64, passed and returned as their 64-bit patterns; those of
 * entries are doubles. Every pattern and every double is taken. Results are
 * rounded to nearest, ties to even, but for those of weigher_fused_in and of
 * frames of kind 3, which are given a direction; a constant is never rounded.
 *
 * A NaN operand is the result, in calls and in frames alike, with its sign and
 * its payload, the low 51 bits, kept and its top fraction bit, bit 51, set: so
 * an unreadable weight hands the reason in its low bits on to its score. Of
 * several NaNs it is the first among a, b, c, and in a sum of two lines of a
 * household sheet that of the line named first. Patterns are integers, so that
 * no bit of a NaN is lost on the way. An invalid operation without a NaN
 * operand, 0 * infinity or infinity - infinity, gives WEIGHER_NAN. */
#ifndef WEIGHER_H
#define WEIGHER_H

#include <stddef.h>
#include <stdint.h>

#ifdef __cplusplus
extern "C" {
#endif

/* ---- The service
 *
 * A stream has a state of its own, which each call takes and hands back:
 *
 *     weigher_state state = weigher_fresh();
 *     for each piece of the stream
 *         until it is used up: weigher_hand_on on its unused end, and send
 *         the answers
 *     weigher_close at the stream's end, and send its answer
 *
 * examples/c/embed.c does so for two streams. */

/* The longest body that is answered, and that a state keeps. */
#define WEIGHER_LONGEST_BODY 514

/* The bytes of a buffer that every answer fits into. */
#define WEIGHER_ANSWER_ROOM 516

/* The numbers of refusals. 1 to 5, 8, 11, 14 and 15 are answers too, the bytes
 * 00 02 01 and the number. 6 and 7 refuse a call and are no answers: they are
 * tried first, in this order, and then the call returns the state as it was,
 * with used and len 0, and the buffer keeps its content. 9 and 10 are for texts
 * of constants alone. 11 is for frames of kind 3, which are tried for it after
 * 4 and before 5, and for weigher_fused_in. 12 and 13 are for the lists of
 * weigher_score_with alone. 14 and 15 are for frames of kind 5, which are tried
 * for them after 5, line by line: the first bad line decides, and on one line
 * 14 is tried before 15. */
enum {
    WEIGHER_SHORT_BODY = 1,     /* the body has under 2 bytes */
    WEIGHER_LONG_BODY = 2,      /* it has over WEIGHER_LONGEST_BODY bytes */
    WEIGHER_BAD_VERSION = 3,    /* the version is not 1 */
    WEIGHER_BAD_KIND = 4,       /* the kind is not one of 1 to 5 */
    WEIGHER_BAD_PAYLOAD = 5,    /* the payload has no items, or a part of one,
                                   or is a report's and not empty */
    WEIGHER_SMALL_BUFFER = 6,   /* the buffer is under WEIGHER_ANSWER_ROOM */
    WEIGHER_BAD_STATE = 7,      /* the state is one that no bytes leave */
    WEIGHER_UNFINISHED = 8,     /* the stream ended inside a frame */
    WEIGHER_BAD_TEXT = 9,       /* the text has not the form of a constant */
    WEIGHER_INEXACT = 10,       /* its value is not exactly a finite float */
    WEIGHER_BAD_DIRECTION = 11, /* the direction is above WEIGHER_DOWN, 3 */
    WEIGHER_LIST_TOO_LONG = 12, /* the list is over WEIGHER_LONGEST_LIST */
    WEIGHER_BAD_ENTRY = 13,     /* an x, hi or lo is not finite, or an x is 0 or
                                   not above the x before it */
    WEIGHER_BAD_LINE = 14,      /* the first byte of a line is above 1, or one
                                   of its filler bytes is not 0 */
    WEIGHER_LATER_LINE = 15     /* a line names its own number or a greater one,
                                   whether the sheet has that line or not */
};

/* A frame of kind 5 is a household sheet. Its payload is n lines of 9 bytes, at
 * most 56, so that its length L is 2 + 9n. A line has one of two forms:
 *
 *     0, and a weight of 8 bytes, big-endian
 *     1, the numbers of two lines, a byte each, and six filler bytes of 0
 *
 * Lines are counted from 0, and a line of the second form names lines before it
 * alone; it may name one twice, and a line may be named by any number of lines.
 * The value of a line is its weight, or the sum of the values of the two lines
 * that it names, the first plus the second, rounded to nearest. The answer has
 * the score of each line's value, in the order of the lines: it is that to a
 * frame of kind 1 whose weights are the values, and has 4 + 8n bytes. A sheet
 * with a bad line is refused as a whole. */

/* What has come of the present frame. Places of the body that are not filled
 * hold 0, and a body of under 2 or over WEIGHER_LONGEST_BODY bytes fills
 * none. */
typedef struct weigher_frame {
    size_t count; /* the bytes that have come, length bytes among them */
    uint8_t hi;   /* the length bytes */
    uint8_t lo;
    uint8_t body[WEIGHER_LONGEST_BODY];
} weigher_frame;

/* The frames that ended since weigher_fresh, each number stopped at 2^64-1,
 * UINT64_MAX. weigher_close keeps them, and its refusal 8 is not counted; calls
 * refused by 6 or 7 leave them as they are. A state whose total is not the sum
 * of the other two, stopped at 2^64-1, is refused by 7; apart from that the
 * numbers decide nothing.
 *
 * A frame of kind 4 is a report. Its payload is empty, so that it is the bytes
 * 00 02 01 04, and its answer is 28 bytes: 00 1a 01 00 and then accepted,
 * refused and total, 8 bytes each, big-endian, of the frames that ended before
 * it. It does not count itself; later reports count it as accepted. With a
 * payload it is refused by 5, and counted as refused. */
typedef struct weigher_counts {
    uint64_t accepted; /* frames that were answered and not refused */
    uint64_t refused;  /* frames that were refused by 1 to 5, 11, 14 or 15 */
    uint64_t total;    /* both */
} weigher_counts;

/* All that the service knows between calls. It is a plain value, to be copied,
 * stored or sent at will; two are equal where their fields are (there is
 * padding behind the body). Any value may be handed to a call, and one that no
 * bytes leave is refused by 7. */
typedef struct weigher_state {
    weigher_frame frame;
    weigher_counts counts;
} weigher_state;

typedef struct weigher_taken {
    weigher_state state; /* for the next call */
    size_t used;         /* the bytes of the piece that were used */
    size_t len;          /* the bytes of the answer, at the buffer's front */
    uint8_t refusal;     /* the number of the refusal, or 0 */
} weigher_taken;

typedef struct weigher_closed {
    weigher_state state;
    size_t len;
    uint8_t refusal;
} weigher_closed;

typedef struct weigher_handed_on {
    weigher_state state;
    size_t used;
    size_t len;      /* the bytes of all answers, one after another */
    uint8_t refusal; /* 6, 7 or 0; for a frame, byte 3 of its answer has it */
} weigher_handed_on;

/* The state before a stream's first byte, with all counts 0. Each whole frame
 * leaves it too, but for the counts. */
weigher_state weigher_fresh(void);

/* Uses the piece up to the end of the first frame that ends in it, or all of
 * it, and answers the frame that ended: refusal is then 0, 1 to 5, 11, 14 or
 * 15. Where none ended, len and refusal are 0. The buffer keeps its content
 * behind the answer. */
weigher_taken weigher_take(weigher_state state,
                           const uint8_t *piece, size_t piece_len,
                           uint8_t *answer, size_t answer_len);

/* Ends the stream. An unfinished frame is answered by refusal 8; where there is
 * none, len and refusal are 0. The state is then fresh but for the counts, for
 * a next stream. */
weigher_closed weigher_close(weigher_state state,
                             uint8_t *answer, size_t answer_len);

/* weigher_take on the piece's unused end, again and again, until the piece is
 * used up or the buffer has under WEIGHER_ANSWER_ROOM bytes left. So a piece
 * that has a byte is used in part at least, unless 6 or 7 refuses the call. A
 * buffer of 7 * piece_len + 2 * WEIGHER_ANSWER_ROOM bytes has room for the
 * answers to the whole piece: a report's has 7 times the bytes of its frame. */
weigher_handed_on weigher_hand_on(weigher_state state,
                                  const uint8_t *piece, size_t piece_len,
                                  uint8_t *answers, size_t answers_len);

/* ---- Payloads */

/* Where a body's payload starts: at 2, or at body_len where that is less. It
 * goes to the body's end. */
size_t weigher_payload(const uint8_t *body, size_t body_len);

/* The tags of a weigher_screened, and its number under each. */
enum {
    WEIGHER_SCREENED_REFUSED = 0, /* the refusal's number, 5: the payload is
                                     empty, or no whole weights */
    WEIGHER_SCREENED_CLEAN = 1,   /* 0: no weight is a NaN */
    WEIGHER_SCREENED_MISSING = 2  /* the place of the first weight that is a
                                     NaN, counted in weights from 0 */
};

typedef struct weigher_screened {
    uint8_t tag;
    size_t number;
} weigher_screened;

/* Looks through a payload of kind 1 for the first weight that is a NaN. */
weigher_screened weigher_screening(const uint8_t *payload, size_t payload_len);

/* ---- The numeric functions */

/* The NaN of an invalid operation without a NaN operand. */
#define WEIGHER_NAN UINT64_C(0x7ff8000000000000)

/* 2^x - 1, the score of the weight x. For 2^-104 < |x| <= 0x1.0527dbd87e24dp-51
 * it is proved to lie within 1/2 + 2^-40 of its own spacing, the gap from its
 * size to the next larger float, from the exact
 * (LN2H + LN2L) * x + C2 * x * x, with LN2H = 0x1.62e42fefa39efp-1,
 * LN2L = 0x1.abc9e3b39803fp-56 and C2 = 0x1.ebfbdff82c58fp-3. */
uint64_t weigher_score(uint64_t x);

/* The entries of the longest list that is good. */
#define WEIGHER_LONGEST_LIST 256

/* An exception: the weight x, whose score is hi + lo, rounded. */
typedef struct weigher_entry {
    double x;
    double hi;
    double lo;
} weigher_entry;

/* The score of the weight x by a list of the caller's own, which stands in for
 * the first of the built-in tables of exceptions, that of 56 entries. It does
 * so for weights of 2^-104 < |x| <= 0x1.0527dbd87e24dp-51: where an entry's x
 * equals the weight, the score is hi + lo, rounded, which may be infinite, and
 * where none does, it is computed, also for a weight of the built-in table.
 * Every other weight has the score that weigher_score gives, and an entry for
 * it is never met. weigher_score and the service always use the built-in table.
 *
 * A list is good where it has at most WEIGHER_LONGEST_LIST entries, all finite
 * and strictly ascending by x, in the order of values, with no x equal to 0; an
 * empty list is good. Any list may be passed, and is checked at each call,
 * before all else and for every weight, a NaN too. score points to a uint64_t
 * that may be written.
 *
 * Returns 0, and *score is the pattern of the score. Or returns
 * WEIGHER_LIST_TOO_LONG, which is tried first, or WEIGHER_BAD_ENTRY, and *score
 * keeps its content. */
uint8_t weigher_score_with(const weigher_entry *list, size_t list_len,
                           uint64_t x, uint64_t *score);

/* a * b + c, rounded once to nearest. */
uint64_t weigher_fused(uint64_t a, uint64_t b, uint64_t c);

/* The directions of rounding. A frame of kind 3 has the same bytes. */
enum {
    WEIGHER_NEAREST = 0,     /* the nearest float, a tie to the even one */
    WEIGHER_TOWARD_ZERO = 1, /* the nearest that is not larger in size */
    WEIGHER_UP = 2,          /* the least that is not below, or +infinity */
    WEIGHER_DOWN = 3         /* the greatest that is not above, or -infinity */
};

/* a * b + c, rounded once in a direction. An exact zero sum of unlike signs is
 * -0 for WEIGHER_DOWN and +0 for the others. result points to a uint64_t that
 * may be written.
 *
 * Returns 0, and *result is the pattern of the sum. Or returns
 * WEIGHER_BAD_DIRECTION, where the direction is above 3, with a NaN too, and
 * *result keeps its content. */
uint8_t weigher_fused_in(uint8_t direction, uint64_t a, uint64_t b, uint64_t c,
                         uint64_t *result);

/* The nearest whole number, a tie to the even one. A zero result has the
 * sign of x. */
uint64_t weigher_round(uint64_t x);

/* The greatest whole number not above x. The sign of a zero is kept. */
uint64_t weigher_floor(uint64_t x);

/* x * 2^n, rounded once. A zero or infinite result has the sign of x. */
uint64_t weigher_scale(uint64_t x, int32_t n);

/* ---- Constants */

/* Reads a C23 hexadecimal float, such as 0x1.62e42fefa39efp-1: + or - or
 * neither, 0x, hexadecimal digits with at most one point, p, + or - or neither,
 * decimal digits, and nothing else. At least one digit stands between 0x and p,
 * and at least one behind p. Letters may be of either case. The text may have
 * any length, and needs no 0 behind it; result points to a uint64_t that may be
 * written.
 *
 * Returns 0, and *result is the float whose value is exactly the text's; a zero
 * keeps the text's sign, with every exponent. Or returns the refusal's number,
 * WEIGHER_BAD_TEXT, which is tried first, or WEIGHER_INEXACT, and *result keeps
 * its content. */
uint8_t weigher_constant(const uint8_t *text, size_t text_len,
                         uint64_t *result);

#ifdef __cplusplus
}
#endif

#endif
