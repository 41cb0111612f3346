#ifndef PACKET_H
#define PACKET_H

#include "response.h"
#include "trawlbeacon.h"

#include <stdbool.h>
#include <stdint.h>
#include <stdio.h>
#include <stdlib.h>
#include <string.h>

/* A byte more than the longest packet has, so that a file that is too long is refused and not cut
 * off. */
enum { ROOM = TB_LONGEST_PACKET + 1 };

struct packet {
    uint8_t bytes[ROOM];
    size_t length;
};

/* Reads a packet from a file, or ends the program where it cannot be read. */
static void read_file(const char *name, struct packet *into) {
    FILE *file = fopen(name, "rb");
    if (file != NULL) {
        into->length = fread(into->bytes, 1, ROOM, file);
        bool failed = ferror(file) != 0;
        fclose(file);
        if (!failed) return;
    }
    perror(name);
    exit(2);
}

/* Reads 32 bytes from 64 digits of hex. */
static bool read_hex(const char *text, uint8_t bytes[32]) {
    if (strspn(text, "0123456789abcdefABCDEF") != 64 || text[64] != '\0') return false;
    for (size_t i = 0; i < 32; i++) {
        const char digits[3] = {text[2 * i], text[2 * i + 1], '\0'};
        bytes[i] = (uint8_t)strtoul(digits, NULL, 16);
    }
    return true;
}

/* A server's long-term key, the nonce of a request to it, and what it answered. */
struct exchange {
    uint8_t key[32];
    uint8_t nonce[32];
    struct packet response;
};

/* The draft's own server, nonce and response. */
static void take_the_drafts(struct exchange *into) {
    memcpy(into->key, KEY, sizeof KEY);
    memcpy(into->response.bytes, RESPONSE, sizeof RESPONSE);
    into->response.length = sizeof RESPONSE;
    memcpy(into->nonce, tb_read_response(RESPONSE, sizeof RESPONSE).nonc, 32);
}

/* Takes what the arguments KEY NONCE RESPONSE name, or the draft's where there are none. Ends the
 * program where they are other ones. */
static void read_arguments(int argc, char **argv, struct exchange *into) {
    if (argc == 4 && read_hex(argv[1], into->key) && read_hex(argv[2], into->nonce)) {
        read_file(argv[3], &into->response);
    } else if (argc == 1) {
        take_the_drafts(into);
    } else {
        fprintf(stderr, "usage: %s [KEY NONCE RESPONSE]\n", argv[0]);
        exit(2);
    }
}

/* Prints the window of the time, or the refusal. Returns the status to end with. */
static int print_verdict(struct tb_verdict verdict) {
    if (verdict.code != TB_PASSED) {
        printf("refused with code %u: %s", (unsigned)verdict.code, tb_code_text(verdict.code));
        /* Only these codes name a byte. */
        if (verdict.code >= TB_FRAME && verdict.code <= TB_VALUE)
            printf(", at byte %llu", (unsigned long long)verdict.at);
        printf("\n");
        return 1;
    }
    printf("the time is from %llu to %llu\n", (unsigned long long)verdict.low,
           (unsigned long long)verdict.high);
    return fflush(stdout) == 0 ? 0 : 1; /* what was not written was not told */
}

#endif
