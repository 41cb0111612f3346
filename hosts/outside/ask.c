/* Asks one Roughtime server for the time over UDP, and prints the window of the time.
 *
 *     cc -o ask ask.c $(pkg-config --cflags --libs trawlbeacon)
 *     ./ask KEY HOST PORT
 *
 * KEY is the server's long-term public key, 64 digits of hex. One server can lie: the program trawl
 * asks several, and tells the time although some of them do.
 */
#define _DEFAULT_SOURCE /* for getaddrinfo and getentropy */
#include <netdb.h>
#include <stdbool.h>
#include <stdint.h>
#include <stdio.h>
#include <string.h>
#include <sys/socket.h>
#include <sys/time.h>
#include <trawlbeacon.h>
#include <unistd.h>

/* Reads 64 digits of hex. */
static bool read_key(const char *digits, uint8_t key[32]) {
    if (strlen(digits) != 64 || strspn(digits, "0123456789abcdefABCDEF") != 64) return false;
    for (int i = 0; i < 32; i++) {
        unsigned byte = 0;
        sscanf(digits + 2 * i, "%2x", &byte);
        key[i] = (uint8_t)byte;
    }
    return true;
}

/* Opens a socket for a server, on which a wait ends after a second. Returns -1 where it cannot. */
static int open_socket(const char *host, const char *port) {
    struct addrinfo hints = {.ai_socktype = SOCK_DGRAM}, *found = NULL;
    struct timeval second = {.tv_sec = 1};
    if (getaddrinfo(host, port, &hints, &found) != 0) return -1;
    int udp = socket(found->ai_family, found->ai_socktype, found->ai_protocol);
    bool open = udp >= 0 && connect(udp, found->ai_addr, found->ai_addrlen) == 0 &&
                setsockopt(udp, SOL_SOCKET, SO_RCVTIMEO, &second, sizeof second) == 0;
    freeaddrinfo(found);
    return open ? udp : -1;
}

/* Sends a request up to three times, and waits a second for each answer. Returns the length of the
 * answer, 0 where none came. */
static size_t exchange(int udp, const uint8_t *request, size_t request_len, uint8_t *response,
                       size_t room) {
    for (int tries = 0; tries < 3; tries++) {
        if (send(udp, request, request_len, 0) < 0) continue;
        ssize_t length = recv(udp, response, room, 0);
        if (length > 0) return (size_t)length;
    }
    return 0;
}

int main(int argc, char **argv) {
    uint8_t key[32], nonce[32];
    int udp = argc == 4 && read_key(argv[1], key) ? open_socket(argv[2], argv[3]) : -1;
    if (udp < 0 || getentropy(nonce, sizeof nonce) != 0) {
        fprintf(stderr, "usage: ask KEY HOST PORT\n");
        return 2;
    }
    uint8_t request[TB_REQUEST_LENGTH] = {0};
    uint8_t response[TB_LONGEST_PACKET + 1] = {0}; /* one byte more: what is too long is refused */
    tb_write_request(key, nonce, request, sizeof request);
    size_t length = exchange(udp, request, sizeof request, response, sizeof response);
    struct tb_verdict said = tb_check_signed(key, request, sizeof request, response, length);
    if (said.code != TB_PASSED) {
        printf("refused with code %u: %s\n", (unsigned)said.code, tb_code_text(said.code));
        return 1;
    }
    printf("the time is from %llu to %llu\n", (unsigned long long)said.low,
           (unsigned long long)said.high);
    return fflush(stdout) == 0 ? 0 : 1;
}
