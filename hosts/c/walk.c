/* Asks three servers for the time, twice in the same order, and says whether one of them lied.
 *
 *     walk [LAG [LIARS]]
 *
 * This program plays the servers too, with what a server of one's own writes. The clock of the
 * third is LAG seconds behind, or not at all. With LIARS it also tells the time, in microseconds,
 * by all that was heard, where so many of the three may lie. Nobody signs, and both signatures are
 * taken as good.
 * A console would take random bytes for the nonce and the rands, send the requests over UDP, take
 * the responses with tb_walk_take_signed, which verifies them, and cut its report out of the pile
 * with tb_cut_signed_run.
 */
#include "trawlbeacon.h"

#include <stdio.h>
#include <stdlib.h>
#include <string.h>

enum { SERVERS = 3, RADIUS = 3, LONGEST_DELAY = 5, DRIFT = 100, MICROSECONDS = 1000000 };
static const uint8_t KEYS[32 * SERVERS] = {[0] = 1, [32] = 2, [64] = 3};
static uint64_t now = 1773685571, lag;

/* Sends a request to a server and receives its response, which takes a second. Returns the
 * response's length. */
static size_t exchange(uint64_t server, const uint8_t *request, uint8_t *response, size_t room) {
    static const uint8_t pubk[32], signature[64];
    uint8_t cert[TB_CERT_LENGTH] = {0}, root[32] = {0}, srv[32] = {0};
    struct tb_request asked = tb_read_request(request, TB_REQUEST_LENGTH);
    tb_srv_value(KEYS + 32 * server, srv);
    if (asked.code != TB_PASSED || (asked.with_srv && memcmp(asked.srv, srv, 32) != 0))
        return 0; /* a server ignores what is no request, or names another */
    uint64_t time = ++now - (server == SERVERS - 1 ? lag : 0);
    tb_write_cert(pubk, 0, UINT64_MAX, signature, cert, sizeof cert);
    tb_leaf(request, TB_REQUEST_LENGTH, root);
    return tb_write_response(request, TB_REQUEST_LENGTH, 0, root, request, 0, time, RADIUS, cert,
                             sizeof cert, signature, response, room)
        .length;
}

/* Tells the time by all that was heard. Returns whether there was one. */
static bool tell_time(const struct tb_clock *clock, uint64_t liars) {
    struct tb_time time = tb_clock_now(clock, now * MICROSECONDS, liars);
    if (time.code == TB_PASSED)
        printf("the time is from %llu to %llu\n", (unsigned long long)time.low,
               (unsigned long long)time.high);
    else
        printf("no time, by code %u: %s\n", (unsigned)time.code, tb_code_text(time.code));
    return time.code == TB_PASSED;
}

int main(int argc, char **argv) {
    static uint8_t pile[2 * SERVERS * TB_RECORD_LENGTH], request[TB_REQUEST_LENGTH],
        response[TB_LONGEST_PACKET + 1];
    const uint8_t nonce[32] = {4}, rand[32] = {5};
    struct tb_walk walk = {{0}, 0, 0, {0}, {0}, 0, 0};
    struct tb_took took = {.outcome = TB_NOTHING_SAID};
    struct tb_clock clock = {0};
    lag = argc > 1 ? strtoull(argv[1], NULL, 10) : 0;
    tb_clock_start(&clock, DRIFT);

    uint32_t code =
        tb_walk_start(&walk, KEYS, sizeof KEYS, nonce, LONGEST_DELAY, pile, sizeof pile);
    while (code == TB_PASSED) {
        struct tb_asked asked = tb_walk_ask(&walk, request, sizeof request);
        code = asked.code; /* TB_ENDED, once the walk has ended */
        if (code != TB_PASSED) break;
        uint64_t sent = now;
        size_t n = exchange(asked.server, request, response, sizeof response);
        took = tb_walk_take(&walk, 1, 1, sent, now, rand, response, n, pile, sizeof pile);
        code = took.code; /* a console would wait, and ask the same again */
        if (code == TB_PASSED)
            code = tb_clock_take_walked(&clock, asked.server, took, sent * MICROSECONDS,
                                        now * MICROSECONDS);
    }

    if (code != TB_ENDED)
        printf("refused with code %u: %s\n", (unsigned)code, tb_code_text(code));
    else if (took.outcome == TB_MALFEASANCE)
        printf("malfeasance: records %u and %u contradict each other\n", (unsigned)took.first,
               (unsigned)took.second);
    else if (took.outcome == TB_CONSISTENT)
        printf("consistent\n");
    else
        printf("the pile was altered\n");
    bool timed = argc < 3 || tell_time(&clock, strtoull(argv[2], NULL, 10));
    return fflush(stdout) == 0 && code == TB_ENDED && timed ? 0 : 1;
}
