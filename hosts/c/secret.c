/* Calls what signs with a seed that memcheck is told to take for undefined: it then names each jump
 * and each address that hangs on the seed. tools/try-secrets runs it, on each case by its name:
 *
 *     secret CASE
 *
 * prints what the call wrote and, under memcheck, on standard error, how many of its bytes the seed
 * reached: a run in which it reached none shows nothing. The cases that begin with "leaking" are
 * wrong ones, which must be found: a branch, an index and a division by a byte of the seed, and the
 * library's own verification, which branches on its inputs, with the seed's public key for a secret.
 */
#include "trawlbeacon.h"

#include <stdio.h>
#include <string.h>
#include <valgrind/memcheck.h>

/* Bytes of texts, which are public. A text in parts is cut behind a delegation's context. */
enum { MOST = 300, CUT = sizeof TB_DELEGATION_CONTEXT };

static uint8_t seed[32], text[MOST], out[64];

static size_t parts(size_t n) { return n < CUT ? n : CUT; }

static void public_key(size_t n) {
    (void)n;
    tb_public_key(seed, out);
}
static void sign(size_t n) { tb_sign(seed, text, n, out); }
static void sign_parts(size_t n) {
    tb_sign_parts(seed, text, parts(n), text + parts(n), n - parts(n), out);
}

/* Of two calls one is made, by a bit of the seed. */
static void leaking_branch(size_t n) {
    if (seed[0] & 1) tb_sign(seed, text, n, out);
    else tb_sha512(seed, sizeof seed, out);
}

static void leaking_index(size_t n) {
    (void)n;
    for (size_t i = 0; i < sizeof out; i++) out[i] = text[seed[i % sizeof seed]];
}

/* memcheck sees nothing of it: the disassembly is searched for it. */
void leaking_division(size_t n) {
    for (size_t i = 0; i < sizeof out; i++) out[i] = (uint8_t)(n / (seed[i % sizeof seed] | 1u));
}

/* The key hangs on the seed, and is taken for secret; the signature is made public. */
static void leaking_verify(size_t n) {
    uint8_t key[32] = {0}, signature[64] = {0};
    tb_public_key(seed, key);
    tb_sign(seed, text, n, signature);
    (void)VALGRIND_MAKE_MEM_DEFINED(signature, sizeof signature);
    memset(out, tb_verify(key, sizeof key, text, n, signature, sizeof signature), sizeof out);
}

/* How many bytes each writes, and of what length its text is. */
static const struct {
    const char *name;
    void (*call)(size_t n);
    size_t length, writes;
} CASES[] = {{"tb_public_key", public_key, 0, 32},
             {"tb_sign-0", sign, 0, 64},
             {"tb_sign-100", sign, 100, 64},
             {"tb_sign-300", sign, 300, 64},
             {"tb_sign_parts-0", sign_parts, 0, 64},
             {"tb_sign_parts-100", sign_parts, 100, 64},
             {"tb_sign_parts-300", sign_parts, 300, 64},
             {"leaking_branch", leaking_branch, 100, 64},
             {"leaking_index", leaking_index, 0, 64},
             {"leaking_division", leaking_division, 300, 64},
             {"leaking_verify", leaking_verify, 100, 64}};

/* How many bytes of the result have a bit that memcheck takes for undefined. */
static size_t reached(size_t n) {
    uint8_t undefined[sizeof out];
    size_t count = 0;
    (void)VALGRIND_GET_VBITS(out, undefined, n);
    for (size_t i = 0; i < n; i++) count += undefined[i] != 0;
    return count;
}

static void run(size_t i) {
    CASES[i].call(CASES[i].length);
    if (RUNNING_ON_VALGRIND)
        fprintf(stderr, "reached %zu of %zu bytes\n", reached(CASES[i].writes), CASES[i].writes);
    (void)VALGRIND_MAKE_MEM_DEFINED(out, sizeof out);
    for (size_t k = 0; k < CASES[i].writes; k++) printf("%02x", out[k]);
    printf("\n");
}

int main(int words, char **word) {
    for (size_t i = 0; i < sizeof text; i++) text[i] = (uint8_t)(37 * i + 11);
    for (size_t i = 0; i < sizeof seed; i++) seed[i] = (uint8_t)(29 * i + 3);
    (void)VALGRIND_MAKE_MEM_UNDEFINED(seed, sizeof seed);
    for (size_t i = 0; words == 2 && i < sizeof CASES / sizeof *CASES; i++)
        if (strcmp(word[1], CASES[i].name) == 0) {
            run(i);
            return fflush(stdout) == 0 ? 0 : 1;
        }
    fprintf(stderr, "usage: secret CASE\n");
    return 2;
}
