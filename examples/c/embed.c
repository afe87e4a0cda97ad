/* The service inside another program: each connection has a state of its own, on_data is called with whatever bytes have come for it, and
 * on_end when its peer is done. Here two connections are played, with their pieces cut anywhere and in turns, and each answer is printed.
 * In the repository's root:
 *
 *     make archive
 *     cc -I include -o target/embed examples/c/embed.c target/staticlib/libweigher.a
 *     target/embed
 */
#include <stddef.h>
#include <stdint.h>
#include <stdio.h>

#include "weigher.h"

struct connection {
    const char *name;
    weigher_state state;
};

/* Where a server would write to the connection. */
static void send_answers(const struct connection *connection, const uint8_t *answers, size_t len)
{
    size_t at = 0;
    while (at < len) {
        /* An answer's length is in its first two bytes, as a frame's is. */
        size_t end = at + 2 + answers[at] * 256u + answers[at + 1];
        printf("%s:", connection->name);
        for (; at < end; at++)
            printf(" %02x", answers[at]);
        printf("\n");
    }
}

/* Neither 6 nor 7 refuses a call here: the buffer is large enough, and the state is the one that the last call returned. So each call uses
 * a byte at least. */
static void on_data(struct connection *connection, const uint8_t *piece, size_t len)
{
    uint8_t answers[4 * WEIGHER_ANSWER_ROOM];
    while (len > 0) {
        weigher_handed_on handed = weigher_hand_on(connection->state, piece, len, answers, sizeof answers);
        connection->state = handed.state;
        send_answers(connection, answers, handed.len);
        piece += handed.used;
        len -= handed.used;
    }
}

static void on_end(struct connection *connection)
{
    uint8_t answer[WEIGHER_ANSWER_ROOM];
    weigher_closed closed = weigher_close(connection->state, answer, sizeof answer);
    connection->state = closed.state;
    send_answers(connection, answer, closed.len);
}

int main(void)
{
    /* The weights -54 and 2, a frame each, a household of 2, 1 and the sum of both, and then a frame whose end does not come. */
    const uint8_t first[] = {0x00, 0x0a, 0x01, 0x01, 0xc0, 0x4b, 0x00, 0x00, 0x00, 0x00, 0x00, 0x00,
                             0x00, 0x0a, 0x01, 0x01, 0x40, 0x00, 0x00, 0x00, 0x00, 0x00, 0x00, 0x00,
                             0x00, 0x1d, 0x01, 0x05, 0x00, 0x40, 0x00, 0x00, 0x00, 0x00, 0x00, 0x00, 0x00, 0x00, 0x3f, 0xf0,
                             0x00, 0x00, 0x00, 0x00, 0x00, 0x00, 0x01, 0x00, 0x01, 0x00, 0x00, 0x00, 0x00, 0x00, 0x00,
                             0x00, 0x0a, 0x01, 0x01};
    /* A body of no bytes, a kind that is not there, 2 * 3 + 1, and a report: one frame was accepted, and two refused. */
    const uint8_t second[] = {0x00, 0x00, 0x00, 0x02, 0x01, 0xff, 0x00, 0x1a, 0x01, 0x02, 0x40, 0x00, 0x00, 0x00, 0x00, 0x00, 0x00,
                              0x00, 0x40, 0x08, 0x00, 0x00, 0x00, 0x00, 0x00, 0x00, 0x3f, 0xf0, 0x00, 0x00, 0x00, 0x00, 0x00, 0x00,
                              0x00, 0x02, 0x01, 0x04};
    struct connection one = {"one", weigher_fresh()}, two = {"two", weigher_fresh()};
    on_data(&one, first, 1);
    on_data(&two, second, 9);
    on_data(&one, first + 1, 15);
    on_data(&two, second + 9, sizeof second - 9);
    on_data(&one, first + 16, 14);
    on_end(&two);
    on_data(&one, first + 30, sizeof first - 30);
    on_end(&one);
    return 0;
}
