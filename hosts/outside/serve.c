/* A small Roughtime server: answers what waits at a UDP port of this machine, in whole batches.
 *
 *     cc -o serve serve.c $(pkg-config --cflags --libs trawlbeacon)
 *     ./serve PORT
 *
 * It prints its long-term public key, for which ask.c asks, and makes both of its keys anew at each
 * start. A server that people rely on keeps its long-term key on another machine, and is silent
 * where its clock is not kept right: trawld is one.
 */
#define _DEFAULT_SOURCE /* for getentropy */
#include <arpa/inet.h>
#include <netinet/in.h>
#include <stdint.h>
#include <stdio.h>
#include <stdlib.h>
#include <sys/socket.h>
#include <time.h>
#include <trawlbeacon.h>
#include <unistd.h>

enum {
    SLOTS = 64,
    SLOT = TB_LONGEST_PACKET + 1, /* one byte more: what is too long is no packet */
    ROOM = TB_ANSWER_ROOM(TB_CERT_LENGTH),
    RADIUS = 3,
    DAY = 86400
};

static uint8_t packets[SLOTS * SLOT], answers[SLOTS * ROOM], rows[TB_MOST_ROWS_LENGTH];
static uint32_t lengths[SLOTS], answer_lengths[SLOTS];
static struct sockaddr_in from[SLOTS];

/* Writes the CERT by which the long-term key lets the delegated one sign for a day. */
static void delegate(const uint8_t long_term[32], const uint8_t delegated[32], uint8_t *cert) {
    uint64_t now = (uint64_t)time(NULL);
    uint8_t pubk[32] = {0}, dele[TB_DELE_LENGTH] = {0}, signature[64] = {0};
    tb_public_key(delegated, pubk);
    tb_write_dele(pubk, now, now + DAY, dele, sizeof dele);
    tb_sign_parts(long_term, (const uint8_t *)TB_DELEGATION_CONTEXT, sizeof TB_DELEGATION_CONTEXT,
                  dele, sizeof dele, signature);
    tb_write_cert(pubk, now, now + DAY, signature, cert, TB_CERT_LENGTH);
}

/* Waits for a packet, and receives what is there. Returns how many packets there are. */
static size_t receive(int udp) {
    size_t count = 0;
    while (count < SLOTS) {
        socklen_t size = sizeof from[count];
        ssize_t length =
            recvfrom(udp, packets + count * SLOT, SLOT, count == 0 ? 0 : MSG_DONTWAIT,
                     (struct sockaddr *)&from[count], &size);
        if (length < 0) break;
        lengths[count++] = (uint32_t)length;
    }
    return count;
}

/* Answers those that are meant for this server, with one signature. */
static void answer(int udp, size_t count, const uint8_t srv[32], const uint8_t *cert,
                   const uint8_t delegated[32]) {
    struct tb_batch batch = tb_answer_batch(
        packets, sizeof packets, SLOT, lengths, count, srv, cert, TB_CERT_LENGTH, delegated,
        (uint64_t)time(NULL), RADIUS, rows, sizeof rows, answers, sizeof answers, ROOM,
        answer_lengths, SLOTS);
    if (batch.code != TB_PASSED) {
        fprintf(stderr, "serve: code %u: %s\n", (unsigned)batch.code, tb_code_text(batch.code));
        return;
    }
    for (size_t i = 0; i < count; i++)
        if (answer_lengths[i] > 0)
            sendto(udp, answers + i * ROOM, answer_lengths[i], 0, (struct sockaddr *)&from[i],
                   sizeof from[i]);
}

int main(int argc, char **argv) {
    struct sockaddr_in here = {.sin_family = AF_INET};
    here.sin_addr.s_addr = htonl(INADDR_LOOPBACK);
    here.sin_port = htons(argc == 2 ? (uint16_t)atoi(argv[1]) : 0);
    uint8_t long_term[32], delegated[32], key[32] = {0}, srv[32] = {0}, cert[TB_CERT_LENGTH] = {0};
    int udp = socket(AF_INET, SOCK_DGRAM, 0);
    if (argc != 2 || udp < 0 || bind(udp, (struct sockaddr *)&here, sizeof here) != 0 ||
        getentropy(long_term, 32) != 0 || getentropy(delegated, 32) != 0) {
        fprintf(stderr, "usage: serve PORT, where nobody else listens\n");
        return 2;
    }
    tb_public_key(long_term, key);
    tb_srv_value(key, srv);
    delegate(long_term, delegated, cert);
    for (int i = 0; i < 32; i++) printf("%02x", key[i]);
    printf("\n");
    if (fflush(stdout) != 0) return 1;
    for (;;) {
        size_t count = receive(udp);
        if (count > 0) answer(udp, count, srv, cert, delegated);
    }
}
