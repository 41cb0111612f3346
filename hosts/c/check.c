/* Calls the proved library from C, and so shows that the header declares it as it was compiled.
 *
 * It hashes "abc" and the empty message and compares the digests with NIST's, then holds each other
 * function to what the header says of it: a hash by the digest of its parts joined, also where they
 * come in pieces, a tree of three leaves by its nodes and the largest one by a path through it, a
 * reader and the check by a request of ours and by a response that draft 19 prints, a verification
 * by signatures of RFC 8032 and of that response, what signs by the same signatures and their
 * seeds, what verifies by itself by the draft's whole report and by the forms that take answers, a
 * lookup by the place of the record, old stamps by both sides of each limit, a pile by the times it
 * was made of, its report as JSON by a text that is made here of the same records, windows as they
 * come by every pair of them, a walk by its records and by each refusal at each step, and where it
 * verifies by itself by the draft's three responses and tb_answers, a clock by windows whose ends
 * are reckoned here, a writer by what it leaves in a buffer, a server by the draft's response,
 * which it writes again out of its values, and by one that it signs itself, the words of a code by
 * some of them. Whether all of that is right on every input is for the tests of hosts/rust.
 */
#include "layout.h"
#include "report.h"
#include "response.h"
#include "trawlbeacon.h"

#include <stdio.h>
#include <string.h>

/* NIST's example for FIPS 180-4. */
static const char ABC[] = "ddaf35a193617abacc417349ae20413112e6fa4e89a97ea20a9eeee64b55d39a"
                          "2192992a274fc1a836ba3c23a3feebbd454d4423643ce80e2a9ac94fa54ca49f";
/* The digest of no bytes: Len = 0 in vectors/SHA512ShortMsg.rsp. */
static const char EMPTY[] = "cf83e1357eefb8bdf1542850d66d8007d620e4050b5715dc83f4a921d36ce9ce"
                            "47d0d13c5d85f2b0ff8318d2877eec2f63b931bd47417a81a538327af927da3e";

enum { RESPONSE_LENGTH = sizeof RESPONSE };

/* Where things stand in that response. In another one they may stand elsewhere: a host that reads
 * them at these places can be deceived. */
enum { SIG_AT = 68, NONC_AT = 132, TYPE_AT = 164 };
enum { SREP_AT = 168, SREP_LENGTH = 92, RADI_AT = 212, MIDP_AT = 216, VERS_AT = 224 };
enum { ROOT_AT = 228 };
enum { CERT_AT = 260, CERT_LENGTH = 152, CERT_SIG_AT = 276, DELE_AT = 340, DELE_LENGTH = 72 };
enum { PUBK_AT = 364, MINT_AT = 396, MAXT_AT = 404 };

/* Where things stand in a record of a pile. */
enum { RAND_AT = 32, REQUEST_LENGTH_AT = 64, RESPONSE_LENGTH_AT = 68, GAP_AT = 72 };
enum { REQUEST_AT = 96, RESPONSE_AT = 2096 };

static int compared, differing;

/* Writes n bytes as hex, which takes 2n characters and the end of a string. */
static void to_hex(const uint8_t *bytes, size_t n, char *text) {
    text[0] = '\0';
    for (size_t i = 0; i < n; i++) sprintf(text + 2 * i, "%02x", bytes[i]);
}

/* Reads 2n characters of hex. */
static void from_hex(const char *text, uint8_t *bytes, size_t n) {
    for (size_t i = 0; i < n; i++) {
        unsigned byte = 0;
        sscanf(text + 2 * i, "%2x", &byte);
        bytes[i] = (uint8_t)byte;
    }
}

static void expect_number(const char *what, uint64_t is, uint64_t should) {
    compared++;
    if (is == should) return;
    printf("%s differs: it is %llu, and it should be %llu\n", what, (unsigned long long)is,
           (unsigned long long)should);
    differing++;
}

/* Compares n bytes, of which it shows the first 64. */
static void expect_bytes(const char *what, const uint8_t *is, const uint8_t *should, size_t n) {
    char is_text[2 * 64 + 1], should_text[2 * 64 + 1];
    compared++;
    if (memcmp(is, should, n) == 0) return;
    to_hex(is, n < 64 ? n : 64, is_text);
    to_hex(should, n < 64 ? n : 64, should_text);
    printf("%s differs:\n  it is        %s\n  it should be %s\n", what, is_text, should_text);
    differing++;
}

/* Compares every one of n bytes with one byte. */
static void expect_all(const char *what, const uint8_t *is, uint8_t should, size_t n) {
    size_t same = 0;
    while (same < n && is[same] == should) same++;
    expect_number(what, same, n);
}

/* Compares a digest of 64 bytes with the hex that it should be. */
static void expect_digest(const char *what, const uint8_t *message, size_t n,
                          const char *expected) {
    uint8_t out[64] = {0}, should[64];
    tb_sha512(message, n, out);
    from_hex(expected, should, sizeof should);
    expect_bytes(what, out, should, sizeof out);
}

/* Compares a hash of 32 bytes with the start of the digest of the message that it should be the
 * hash of. */
static void expect_hash(const char *what, const uint8_t hash[32], const uint8_t *message,
                        size_t n) {
    uint8_t digest[64] = {0};
    tb_sha512(message, n, digest);
    expect_bytes(what, hash, digest, 32);
}

/* Each function over parts that stand one after the other in one array, beside the hash of that
 * array. */
static void expect_hashes(void) {
    uint8_t joined[1 + 64], out[32] = {0};
    for (size_t i = 0; i < sizeof joined; i++) joined[i] = (uint8_t)(37 * i + 11);
    const uint8_t *first = joined + 1, *second = joined + 33;

    joined[0] = 0x00;
    tb_leaf(first, 64, out);
    expect_hash("tb_leaf of 64 bytes", out, joined, 65);
    tb_leaf(first, 0, out);
    expect_hash("tb_leaf of no bytes", out, joined, 1);
    tb_empty_place(out);
    expect_hash("tb_empty_place", out, joined, 1);
    joined[0] = 0x01;
    tb_parent(first, second, out);
    expect_hash("tb_parent", out, joined, 65);
    joined[0] = 0xff;
    tb_srv_value(first, out);
    expect_hash("tb_srv_value", out, joined, 33);
    tb_link(joined, 33, second, out);
    expect_hash("tb_link", out, joined, 65);
}

/* Hashes in pieces, cut at every place, beside the whole; and a state that can take no more. */
static void expect_pieces(void) {
    uint8_t message[300], rand[32], whole[64] = {0}, out[64] = {0}, hash[32] = {0};
    for (size_t i = 0; i < sizeof message; i++) message[i] = (uint8_t)(41 * i + 5);
    memset(rand, 0x33, sizeof rand);
    expect_number("size of a state", sizeof(struct tb_running), TB_RUNNING_SIZE);

    tb_sha512(message, sizeof message, whole);
    for (size_t cut = 0; cut <= sizeof message; cut++) {
        struct tb_running state = {{0}, {0}, 0};
        tb_sha512_start(&state);
        expect_number("tb_sha512_take", tb_sha512_take(&state, message, cut), 0);
        tb_sha512_finish(&state, out); /* which takes nothing from the state */
        expect_number("tb_sha512_take of the rest",
                      tb_sha512_take(&state, message + cut, sizeof message - cut), 0);
        tb_sha512_finish(&state, out);
        expect_bytes("tb_sha512_finish", out, whole, sizeof out);
        tb_hash_finish(&state, hash);
        expect_bytes("tb_hash_finish", hash, whole, sizeof hash);
        expect_number("count of a state", state.count, sizeof message);

        tb_sha512_take(&state, rand, sizeof rand);
        tb_hash_finish(&state, out);
        tb_link(message, sizeof message, rand, hash);
        expect_bytes("a link in pieces", out, hash, sizeof hash);

        tb_leaf_start(&state);
        tb_sha512_take(&state, message, cut);
        tb_sha512_take(&state, message + cut, sizeof message - cut);
        tb_hash_finish(&state, out);
        tb_leaf(message, sizeof message, hash);
        expect_bytes("a leaf in pieces", out, hash, sizeof hash);
    }

    struct tb_running full = {{0}, {0}, 0}, before;
    tb_sha512_start(&full);
    full.count = UINT64_MAX - 100;
    before = full;
    expect_number("a piece too long", tb_sha512_take(&full, message, 101), TB_PIECES);
    expect_number("a code", TB_PIECES, 30);
    expect_bytes("a state after a refusal", (const uint8_t *)&full, (const uint8_t *)&before,
                 sizeof full);
    expect_number("a piece that just fits", tb_sha512_take(&full, message, 100), 0);
    expect_number("a count that is full", full.count, UINT64_MAX);
    expect_number("no bytes more", tb_sha512_take(&full, message, 0), 0);
    expect_number("one byte more", tb_sha512_take(&full, message, 1), TB_PIECES);
}

/* Writes a request, where there is room and where there is none, and reads it back. */
static void expect_request(void) {
    uint8_t key[32], nonce[32], srv[32] = {0}, out[TB_REQUEST_LENGTH + 8];
    memset(key, 0x11, sizeof key);
    memset(nonce, 0x22, sizeof nonce);
    memset(out, 0xee, sizeof out);
    tb_srv_value(key, srv);

    struct tb_wrote wrote = tb_write_request(key, nonce, out, TB_REQUEST_LENGTH - 1);
    expect_number("tb_write_request without room", wrote.code, 19);
    expect_number("length of a request without room", wrote.length, 0);
    expect_all("a buffer without room", out, 0xee, sizeof out);
    wrote = tb_write_request(key, nonce, out, sizeof out);
    expect_number("tb_write_request", wrote.code, 0);
    expect_number("length of a request", wrote.length, TB_REQUEST_LENGTH);
    expect_all("what follows the request", out + TB_REQUEST_LENGTH, 0xee, 8);

    struct tb_request read = tb_read_request(out, TB_REQUEST_LENGTH);
    expect_number("code of the request", read.code, 0);
    expect_number("with_srv of the request", read.with_srv, 1);
    expect_bytes("nonc of the request", read.nonc, nonce, sizeof nonce);
    expect_bytes("srv of the request", read.srv, srv, sizeof srv);
}

static void expect_refused_request(const uint8_t *packet, size_t n, uint32_t code, uint64_t at) {
    struct tb_request read = tb_read_request(packet, n);
    expect_number("code of a refused request", read.code, code);
    expect_number("at of a refused request", read.at, at);
    expect_number("with_srv of a refused request", read.with_srv, 0);
    expect_all("nonc of a refused request", read.nonc, 0, sizeof read.nonc);
    expect_all("srv of a refused request", read.srv, 0, sizeof read.srv);
}

static void expect_refused_response(const uint8_t *packet, size_t n, uint32_t code,
                                    uint64_t at) {
    struct tb_response read = tb_read_response(packet, n);
    expect_number("code of a refused response", read.code, code);
    expect_number("at of a refused response", read.at, at);
    expect_number("midp of a refused response", read.midp, 0);
    expect_number("indx of a refused response", read.indx, 0);
    expect_number("radi of a refused response", read.radi, 0);
    expect_all("nonc of a refused response", read.nonc, 0, sizeof read.nonc);
    expect_all("root of a refused response", read.root, 0, sizeof read.root);
}

static void expect_response(const uint8_t *packet) {
    struct tb_response read = tb_read_response(packet, RESPONSE_LENGTH);
    expect_number("code of the response", read.code, 0);
    expect_number("midp of the response", read.midp, 1773685571);
    expect_number("indx of the response", read.indx, 0);
    expect_number("radi of the response", read.radi, 3);
    expect_bytes("nonc of the response", read.nonc, packet + NONC_AT, sizeof read.nonc);
    expect_bytes("root of the response", read.root, packet + ROOT_AT, sizeof read.root);

    /* It has no VER, which a request needs. Cut short it is neither. */
    expect_refused_request(packet, RESPONSE_LENGTH, 6, 12);
    expect_refused_request(packet, 11, 1, 0);
    expect_refused_response(packet, RESPONSE_LENGTH - 4, 3, 0);
    expect_refused_response(packet, 0, 1, 0);
}

static void expect_refused_parts(const uint8_t *packet, size_t n, uint32_t code, uint64_t at) {
    struct tb_parts parts = tb_signed_parts(packet, n);
    expect_number("code of refused parts", parts.code, code);
    expect_number("at of refused parts", parts.at, at);
    expect_all("signature of refused parts", parts.signature, 0, sizeof parts.signature);
    expect_all("delegation of refused parts", parts.delegation, 0, sizeof parts.delegation);
    expect_all("pubk of refused parts", parts.pubk, 0, sizeof parts.pubk);
}

/* What is verified in the response. A wrong TYPE stops nothing; a request has no SIG. */
static void expect_parts(const uint8_t *packet) {
    uint8_t other[RESPONSE_LENGTH], request[TB_REQUEST_LENGTH] = {0};
    struct tb_parts parts = tb_signed_parts(packet, RESPONSE_LENGTH);
    expect_number("code of the parts", parts.code, 0);
    expect_bytes("signature of the parts", parts.signature, packet + SIG_AT,
                 sizeof parts.signature);
    expect_bytes("delegation of the parts", parts.delegation, packet + CERT_SIG_AT,
                 sizeof parts.delegation);
    expect_bytes("pubk of the parts", parts.pubk, packet + PUBK_AT, sizeof parts.pubk);
    memcpy(other, packet, sizeof other);
    other[TYPE_AT] = 7;
    expect_number("code of the parts with another TYPE", tb_signed_parts(other, sizeof other).code,
                  0);
    tb_write_request(KEY, packet + NONC_AT, request, sizeof request);
    expect_refused_parts(request, sizeof request, 6, 12);
    expect_refused_parts(packet, RESPONSE_LENGTH - 4, 3, 0);
    expect_refused_parts(packet, 0, 1, 0);
}

typedef struct tb_wrote writer(const uint8_t *packet, tb_size packet_len, uint8_t *out,
                               tb_size out_len);

/* Writes a text, where there is room and where there is none: the context with its zero byte, then
 * the value. */
static void expect_text(writer *write, const uint8_t *packet, const char *context,
                        const uint8_t *value, size_t n) {
    uint8_t out[200];
    size_t front = strlen(context) + 1;
    memset(out, 0xee, sizeof out);
    struct tb_wrote text = write(packet, RESPONSE_LENGTH, out, front + n - 1);
    expect_number("code of a text without room", text.code, 19);
    expect_number("length of a text without room", text.length, 0);
    text = write(packet, 12, out, sizeof out);
    expect_number("code of a text of a packet cut short", text.code, 3);
    expect_number("length of a text of a packet cut short", text.length, 0);
    expect_all("the buffer of a refused text", out, 0xee, sizeof out);

    text = write(packet, RESPONSE_LENGTH, out, sizeof out);
    expect_number("code of a text", text.code, 0);
    expect_number("length of a text", text.length, front + n);
    expect_bytes("context of a text", out, (const uint8_t *)context, front);
    expect_bytes("value of a text", out + front, value, n);
    expect_all("what follows a text", out + front + n, 0xee, sizeof out - front - n);
}

/* The nodes of the tree of three leaves, in the order of its rows: four leaves, of which the last
 * is an empty place, their two parents and the root. */
static void lay_three(uint8_t nodes[7][32]) {
    for (uint8_t i = 0; i < 3; i++) memset(nodes[i], 0x31 + i, 32);
    tb_empty_place(nodes[3]);
    tb_parent(nodes[0], nodes[1], nodes[4]);
    tb_parent(nodes[2], nodes[3], nodes[5]);
    tb_parent(nodes[4], nodes[5], nodes[6]);
}

static void expect_placed(const char *what, struct tb_placed is, uint64_t code, uint64_t indx,
                          uint64_t depth) {
    expect_number(what, is.code, code);
    expect_number(what, is.indx, indx);
    expect_number(what, is.depth, depth);
}

/* A path that was written: the two siblings, and nothing behind them. */
static void expect_siblings(const uint8_t *out, const uint8_t *first, const uint8_t *second) {
    expect_bytes("the first sibling", out, first, 32);
    expect_bytes("the second sibling", out + 32, second, 32);
    expect_all("what follows a path", out + 64, 0xee, 8);
}

static void expect_paths(uint8_t nodes[7][32]) {
    const uint8_t *leaves = nodes[0];
    uint8_t out[72];
    memset(out, 0xee, sizeof out);
    expect_placed("tb_path without room", tb_path(leaves, 96, 0, out, 63), 19, 0, 0);
    expect_placed("tb_path past the last leaf", tb_path(leaves, 96, 3, out, sizeof out), 20, 0, 0);
    expect_placed("tb_path of no whole leaves", tb_path(leaves, 95, 0, out, sizeof out), 20, 0, 0);
    expect_placed("tb_path_from of short rows", tb_path_from(leaves, 223, 3, 0, out, sizeof out),
                  20, 0, 0);
    expect_placed("tb_path_from without room", tb_path_from(leaves, 224, 3, 0, out, 63), 19, 0, 0);
    expect_all("the buffer of a refused path", out, 0xee, sizeof out);
    expect_placed("tb_path", tb_path(leaves, 96, 0, out, sizeof out), 0, 0, 2);
    expect_siblings(out, nodes[1], nodes[5]);
    expect_number("tb_leads", tb_leads(nodes[0], 0, out, 64, nodes[6]), 1);
    for (uint32_t other = 1; other < 4; other++)
        expect_number("tb_leads with another number",
                      tb_leads(nodes[0], other, out, 64, nodes[6]), 0);
    expect_number("tb_leads with too long a number", tb_leads(nodes[0], 4, out, 64, nodes[6]), 0);
    expect_placed("tb_path of the second leaf", tb_path(leaves, 96, 1, out, sizeof out), 0, 1, 2);
    expect_siblings(out, nodes[0], nodes[5]);
    expect_number("tb_leads from the second leaf", tb_leads(nodes[1], 1, out, 64, nodes[6]), 1);
    expect_placed("tb_path_from", tb_path_from(leaves, 224, 3, 2, out, sizeof out), 0, 2, 2);
    expect_siblings(out, nodes[3], nodes[4]);
    expect_number("tb_leads from the last leaf", tb_leads(nodes[2], 2, out, 64, nodes[6]), 1);
}

static void expect_tree(void) {
    uint8_t nodes[7][32] = {{0}}, out[7 * 32 + 8];
    lay_three(nodes);
    struct tb_rooted rooted = tb_root(nodes[0], 96);
    expect_number("code of a root", rooted.code, 0);
    expect_number("depth of a root", rooted.depth, 2);
    expect_bytes("a root", rooted.root, nodes[6], 32);
    rooted = tb_root(nodes[0], 0);
    expect_number("code of a root of no leaves", rooted.code, 20);
    expect_number("depth of a root of no leaves", rooted.depth, 0);
    expect_all("a root of no leaves", rooted.root, 0, 32);

    memset(out, 0xee, sizeof out);
    struct tb_laid laid = tb_rows(nodes[0], 96, out, 7 * 32 - 1);
    expect_number("code of rows without room", laid.code, 19);
    expect_number("depth of rows without room", laid.depth, 0);
    expect_number("length of rows without room", laid.length, 0);
    expect_all("a buffer without room for rows", out, 0xee, sizeof out);
    laid = tb_rows(nodes[0], 96, out, sizeof out);
    expect_number("code of rows", laid.code, 0);
    expect_number("depth of rows", laid.depth, 2);
    expect_number("length of rows", laid.length, sizeof nodes);
    expect_bytes("the rows", out, nodes[0], sizeof nodes);
    expect_all("what follows the rows", out + sizeof nodes, 0xee, 8);
    expect_paths(nodes);
}

/* The largest tree, and one leaf too many. */
static void expect_largest_tree(void) {
    static uint8_t leaves[32 * (TB_MOST_LEAVES + 1)], rows[TB_MOST_ROWS_LENGTH];
    uint8_t path[320];
    const uint8_t *last = leaves + 32 * (TB_MOST_LEAVES - 1);
    const uint8_t *root = rows + TB_MOST_ROWS_LENGTH - 32;
    for (size_t i = 0; i < sizeof leaves; i++) leaves[i] = (uint8_t)(i / 32 + 7 * i);
    memset(rows, 0xee, sizeof rows);

    struct tb_laid laid = tb_rows(leaves, sizeof leaves, rows, sizeof rows);
    expect_number("code of rows of 1,025 leaves", laid.code, 20);
    expect_number("length of rows of 1,025 leaves", laid.length, 0);
    expect_all("the buffer of refused rows", rows, 0xee, sizeof rows);
    expect_number("code of a root of 1,025 leaves", tb_root(leaves, sizeof leaves).code, 20);
    expect_placed("tb_path of 1,025 leaves", tb_path(leaves, sizeof leaves, 0, path, sizeof path),
                  20, 0, 0);

    laid = tb_rows(leaves, sizeof leaves - 32, rows, sizeof rows);
    expect_number("code of rows of 1,024 leaves", laid.code, 0);
    expect_number("depth of rows of 1,024 leaves", laid.depth, 10);
    expect_number("length of rows of 1,024 leaves", laid.length, TB_MOST_ROWS_LENGTH);
    expect_bytes("the leaves in the rows", rows, leaves, sizeof leaves - 32);
    expect_bytes("a root of 1,024 leaves", tb_root(leaves, sizeof leaves - 32).root, root, 32);
    expect_placed("tb_path of the last of 1,024 leaves",
                  tb_path(leaves, sizeof leaves - 32, 1023, path, sizeof path), 0, 1023, 10);
    expect_number("tb_leads from the last of 1,024 leaves",
                  tb_leads(last, 1023, path, sizeof path, root), 1);
    memset(path, 0xee, sizeof path);
    expect_placed("tb_path_from of the last of 1,024 leaves",
                  tb_path_from(rows, sizeof rows, 1024, 1023, path, sizeof path), 0, 1023, 10);
    expect_number("tb_leads from the last leaf in the rows",
                  tb_leads(last, 1023, path, sizeof path, root), 1);
}

static void expect_verdict(const char *what, struct tb_verdict is, struct tb_verdict should) {
    expect_number(what, is.code, should.code);
    expect_number(what, is.radi, should.radi);
    expect_number(what, is.at, should.at);
    expect_number(what, is.midp, should.midp);
    expect_number(what, is.low, should.low);
    expect_number(what, is.high, should.high);
    expect_number(what, is.mint, should.mint);
    expect_number(what, is.maxt, should.maxt);
    expect_bytes(what, is.pubk, should.pubk, sizeof is.pubk);
}

/* What the draft's response tells, as its bytes say. */
static struct tb_verdict drafts(const uint8_t *packet) {
    struct tb_verdict valid = {.radi = 3,
                               .midp = 1773685571,
                               .low = 1773685568,
                               .high = 1773685574,
                               .mint = 1773080680,
                               .maxt = 1776273880};
    memcpy(valid.pubk, packet + PUBK_AT, sizeof valid.pubk);
    return valid;
}

/* Numbers that are not 1, among them what a library may answer to say that it failed: each is a
 * no. */
static const uint32_t NOES[] = {0,   (uint32_t)-1, (uint32_t)-2, 2,         3,
                                256, 257,          0x01000000,   0x80000001};

static void expect_noes(const uint8_t *request, size_t n, const uint8_t *response, size_t m) {
    struct tb_verdict delegation = {.code = 12}, signature = {.code = 13};
    for (size_t i = 0; i < sizeof NOES / sizeof NOES[0]; i++) {
        uint32_t no = NOES[i];
        expect_verdict("no delegation", tb_check_response(request, n, response, m, no, 1),
                       delegation);
        expect_verdict("no signature", tb_check_response(request, n, response, m, 1, no),
                       signature);
        expect_verdict("neither", tb_check_response(request, n, response, m, no, no), delegation);
    }
}

/* A response that every call refuses with 7, those too that ask neither for TYPE nor for the
 * version. */
static void expect_no_radius(const uint8_t *packet) {
    uint8_t other[RESPONSE_LENGTH], request[TB_REQUEST_LENGTH] = {0}, out[200];
    size_t n = sizeof request, m = sizeof other;
    struct tb_verdict value = {.code = 7, .at = RADI_AT};
    memcpy(other, packet, m);
    memset(other + RADI_AT, 0, 4);
    memset(out, 0xee, sizeof out);
    tb_write_request(KEY, packet + NONC_AT, request, n);
    expect_refused_response(other, m, 7, RADI_AT);
    expect_refused_parts(other, m, 7, RADI_AT);
    expect_number("delegation text without a radius",
                  tb_delegation_text(other, m, out, sizeof out).code, 7);
    expect_number("response text without a radius",
                  tb_response_text(other, m, out, sizeof out).code, 7);
    expect_number("at of a response text without a radius",
                  tb_response_text(other, m, out, sizeof out).at, RADI_AT);
    expect_all("the buffer of a text without a radius", out, 0xee, sizeof out);
    expect_verdict("no radius", tb_check_response(request, n, other, m, 1, 1), value);
    memset(other + RADI_AT, 0xff, 4);
    expect_number("the largest radius", tb_read_response(other, m).radi, UINT32_MAX);
}

/* Puts version 2 into a packet of n bytes, and counts its 4 bytes in the length field and in the
 * offsets that stand at these places. */
static size_t add_version(uint8_t *packet, size_t n, size_t at, const size_t *offsets,
                          size_t count) {
    memmove(packet + at + 4, packet + at, n - at);
    memcpy(packet + at, "\2\0\0", 4);
    packet[8] += 4;
    for (size_t i = 0; i < count; i++) packet[offsets[i]] += 4;
    return n + 4;
}

/* A VERS that lacks the version of the response, and then a second version that the client knows,
 * the server, or both: only the last is a downgrade. */
static void expect_versions(const uint8_t *packet) {
    static const size_t in_request[] = {16, 20, 24, 28}, in_response[] = {32, 36, 184};
    uint8_t other[RESPONSE_LENGTH + 4], request[TB_REQUEST_LENGTH + 4] = {0};
    size_t n = TB_REQUEST_LENGTH, m = RESPONSE_LENGTH;
    struct tb_verdict valid = drafts(packet), version = {.code = 8};
    memcpy(other, packet, m);
    tb_write_request(KEY, packet + NONC_AT, request, n);
    other[VERS_AT] = 2;
    expect_refused_response(other, m, 8, 0);
    expect_number("parts without the version in VERS", tb_signed_parts(other, m).code, 0);
    expect_verdict("no version in VERS", tb_check_response(request, n, other, m, 1, 1), version);
    other[VERS_AT] = 1;
    m = add_version(other, m, ROOT_AT, in_response, 3);
    expect_verdict("a version of the server's",
                   tb_check_response(request, n, other, m, 1, 1), valid);
    n = add_version(request, n, 56, in_request, 4);
    tb_leaf(request, n, other + ROOT_AT + 4);
    expect_number("the longer request", tb_read_request(request, n).code, 0);
    expect_number("the longer response", tb_read_response(other, m).code, 0);
    expect_verdict("a downgrade", tb_check_response(request, n, other, m, 1, 1), version);
    memcpy(other, packet, RESPONSE_LENGTH);
    tb_leaf(request, n, other + ROOT_AT);
    expect_verdict("a version of the client's",
                   tb_check_response(request, n, other, RESPONSE_LENGTH, 1, 1), valid);
}

/* The request that the response answers is the one that we write with its nonce. */
static void expect_checks(const uint8_t *packet) {
    uint8_t request[TB_REQUEST_LENGTH] = {0};
    size_t n = sizeof request, m = RESPONSE_LENGTH;
    tb_write_request(KEY, packet + NONC_AT, request, n);
    struct tb_verdict valid = drafts(packet);
    expect_verdict("a valid response", tb_check_response(request, n, packet, m, 1, 1), valid);
    struct tb_verdict bad = {.code = 14}, cut = {.code = 3}, other = {.code = 9};
    expect_noes(request, n, packet, m);
    expect_verdict("a bad request", tb_check_response(request, n - 1, packet, m - 1, 0, 0), bad);
    expect_verdict("a response cut short", tb_check_response(request, n, packet, m - 1, 0, 0), cut);
    tb_write_request(KEY, KEY, request, n);
    expect_verdict("another request", tb_check_response(request, n, packet, m, 1, 1), other);
}

static void expect_found(const char *what, struct tb_found is, uint64_t code, uint64_t list,
                         uint64_t offset) {
    expect_number(what, is.code, code);
    expect_number(what, is.list, list);
    expect_number(what, is.offset, offset);
}

/* Two lists of two records; the second SRV value of the owner's list is the first of the shipped
 * one. */
static void expect_lookups(void) {
    uint8_t owner[128], shipped[128];
    for (size_t i = 0; i < 4; i++) memset(owner + 32 * i, (int)i, 32);
    for (size_t i = 0; i < 4; i++) memset(shipped + 32 * i, (int)i + 2, 32);
    const uint8_t *first = owner + 32, *second = owner + 96, *last = shipped + 96, *key = shipped;
    expect_found("the first of the owner's", tb_find_server(owner, 128, shipped, 128, first), 0, 0,
                 0);
    expect_found("one in both lists", tb_find_server(owner, 128, shipped, 128, second), 0, 0, 64);
    expect_found("one in both lists, without the owner's",
                 tb_find_server(owner, 0, shipped, 128, second), 0, 1, 0);
    expect_found("the last of the shipped", tb_find_server(owner, 128, shipped, 128, last), 0, 1,
                 64);
    expect_found("a key", tb_find_server(owner, 128, shipped, 128, key), 22, 0, 0);
    expect_found("a broken list", tb_find_server(owner, 128, shipped, 127, first), 21, 0, 0);
}

static void expect_old(const char *what, struct tb_old is, uint64_t code, uint64_t low,
                       uint64_t high) {
    expect_number(what, is.code, code);
    expect_number(what, is.low, low);
    expect_number(what, is.high, high);
}

/* The number in the eight bytes of an old MIDP. */
static uint64_t old_midp(const uint8_t value[8]) {
    uint64_t midp = 0;
    for (int i = 7; i >= 0; i--) midp = midp << 8 | value[i];
    return midp;
}

/* Stamps of the 2021 draft: one as it stands in a packet, and both sides of each limit. */
static void expect_old_windows(void) {
    /* 20 May 2021, which is day 59354 and 18767 days after 1 January 1970, at 00:02:03.456789 */
    static const uint8_t MAY_2021[8] = {0x15, 0xcd, 0x5b, 0x07, 0x00, 0xda, 0xe7, 0x00};
    const uint64_t may = 18767 * UINT64_C(86400), zero = UINT64_C(40587) << 40, second = 1000000;
    const uint64_t day = 86400 * second, last = UINT64_C(0xffffff) << 40;
    const uint64_t end = (UINT64_C(0xffffff) - 40587 + 1) * 86400;
    uint64_t midp = old_midp(MAY_2021);
    expect_old("an old stamp", tb_old_window(midp, 0), 0, may + 123, may + 124);
    expect_old("the next second", tb_old_window(midp, 543211), 0, may + 122, may + 124);
    expect_old("past the next second", tb_old_window(midp, 543212), 0, may + 122, may + 125);
    expect_old("the second before", tb_old_window(midp, 456789), 0, may + 123, may + 124);
    expect_old("before that second", tb_old_window(midp, 456790), 0, may + 122, may + 124);
    expect_old("day zero", tb_old_window(zero, 0), 0, 0, 0);
    expect_old("day zero and a radius", tb_old_window(zero, 1), 0, 0, 1);
    expect_old("the last before day zero", tb_old_window(zero - 1, 0), 29, 0, 0);
    expect_old("the end of the day before",
               tb_old_window((UINT64_C(40586) << 40) + day, UINT32_MAX), 29, 0, 0);
    expect_old("whole seconds", tb_old_window(zero + 9 * second, 4000000), 0, 5, 13);
    expect_old("a low end that stops", tb_old_window(zero + 9 * second, 9000001), 0, 0, 19);
    expect_old("before midnight", tb_old_window(zero + day - 1, 0), 0, 86399, 86400);
    expect_old("the next midnight", tb_old_window(zero + day, 0), 0, 86400, 86400);
    expect_old("a leap second", tb_old_window(zero + day + second - 1, 0), 0, 86400, 86400);
    expect_old("its radius", tb_old_window(zero + day + second - 1, 1), 0, 86399, 86401);
    expect_old("past a leap second", tb_old_window(zero + day + second, 0), 29, 0, 0);
    expect_old("the last stamp", tb_old_window(last + day, UINT32_MAX), 0, end - 4295, end + 4295);
    expect_old("past it", tb_old_window(UINT64_MAX, UINT32_MAX), 29, 0, 0);
}

/* Document 01's fifth example: what four records say of the time. The last contradicts the two
 * before it, and the run is 2 to 3. The first and the third have one key, and come from two
 * delegations, by their times; the last one's key is zeros, as the one that stands beside a
 * refusal. */
enum { RECORDS = 4, PILE_LENGTH = RECORDS * TB_RECORD_LENGTH };
static const struct tb_verdict TIMES[RECORDS] = {
    {0, 10, 0, 1000, 990, 1010, 0, 2000, {1}},
    {0, 10, 0, 1500, 1490, 1510, 1500, UINT64_MAX, {2}},
    {0, 1, 0, 1495, 1494, 1496, 1495, 1495, {1}},
    {0, 10, 0, 1400, 1390, 1410, 0, 2000, {0}},
};
static const uint8_t YES[2 * (TB_MOST_RECORDS + 1)] = {1, 1, 1, 1, 1, 1, 1, 1, 1, 1, 1, 1,
                                                       1, 1, 1, 1, 1, 1, 1, 1, 1, 1, 1, 1,
                                                       1, 1, 1, 1, 1, 1, 1, 1, 1, 1};

/* Writes a number in n bytes, least significant first. */
static void put_number(uint8_t *at, uint64_t number, size_t n) {
    for (size_t i = 0; i < n; i++) at[i] = (uint8_t)(number >> 8 * i);
}

/* The answer to a request of ours: the draft's response with the request's nonce, with the request
 * as the only leaf of its tree, and with another time and another delegation. */
static void answer(uint8_t *response, const uint8_t *request, struct tb_verdict time) {
    struct tb_request read = tb_read_request(request, TB_REQUEST_LENGTH);
    memcpy(response, RESPONSE, RESPONSE_LENGTH);
    memcpy(response + NONC_AT, read.nonc, sizeof read.nonc);
    tb_leaf(request, TB_REQUEST_LENGTH, response + ROOT_AT);
    put_number(response + RADI_AT, time.radi, 4);
    put_number(response + MIDP_AT, time.midp, 8);
    put_number(response + MINT_AT, time.mint, 8);
    put_number(response + MAXT_AT, time.maxt, 8);
    memcpy(response + PUBK_AT, time.pubk, sizeof time.pubk);
}

/* Lays out a record of a pile. */
static void lay(uint8_t *record, const uint8_t key[32], const uint8_t rand[32],
                const uint8_t *request, const uint8_t *response) {
    memset(record, 0, TB_RECORD_LENGTH);
    memcpy(record, key, 32);
    memcpy(record + RAND_AT, rand, 32);
    put_number(record + REQUEST_LENGTH_AT, TB_REQUEST_LENGTH, 4);
    put_number(record + RESPONSE_LENGTH_AT, RESPONSE_LENGTH, 4);
    memcpy(record + REQUEST_AT, request, TB_REQUEST_LENGTH);
    memcpy(record + RESPONSE_AT, response, RESPONSE_LENGTH);
}

/* Makes record k of a pile of the response: a request with the nonce that links it to the record
 * before, and its answer. */
static void lay_record(uint8_t *record, size_t k, struct tb_verdict time) {
    const uint8_t *before = record + RESPONSE_AT - TB_RECORD_LENGTH;
    uint8_t rand[32], nonce[32] = {0}, request[TB_REQUEST_LENGTH] = {0}, response[RESPONSE_LENGTH];
    memset(rand, (int)k, sizeof rand);
    if (k > 0) tb_link(before, RESPONSE_LENGTH, rand, nonce);
    tb_write_request(KEY, nonce, request, sizeof request);
    answer(response, request, time);
    lay(record, KEY, rand, request, response);
}

static void expect_judged(const char *what, struct tb_judged is, uint64_t place,
                          struct tb_verdict should) {
    struct tb_verdict verdict = {is.code, is.radi, is.at,   is.midp, is.low,
                                 is.high, is.mint, is.maxt, {0}};
    memcpy(verdict.pubk, is.pubk, sizeof verdict.pubk);
    expect_number(what, is.place, place);
    expect_verdict(what, verdict, should);
}

static void expect_reported(const char *what, struct tb_reported is, uint64_t code, uint64_t place,
                            uint64_t first, uint64_t second) {
    expect_number(what, is.code, code);
    expect_number(what, is.place, place);
    expect_number(what, is.at, 0);
    expect_number(what, is.first, first);
    expect_number(what, is.second, second);
}

static void expect_cut(const char *what, struct tb_cut is, uint64_t code, uint64_t first,
                       uint64_t last) {
    expect_number(what, is.code, code);
    expect_number(what, is.first, first);
    expect_number(what, is.last, last);
}

/* Holds every function that takes answers to 15. */
static void expect_bad_pile(const char *what, const uint8_t *pile, size_t n, const uint8_t *answers,
                            size_t m) {
    static uint8_t out[(TB_MOST_RECORDS + 1) * TB_RECORD_LENGTH];
    struct tb_verdict bad = {.code = 15};
    memset(out, 0xee, sizeof out);
    expect_number(what, tb_pile_code(pile, n, answers, m), 15);
    expect_number(what, tb_pile_contradicts(pile, n, answers, m), 15);
    expect_judged(what, tb_judge(pile, n, answers, m, 2), 2, bad);
    expect_reported(what, tb_check_report(pile, n, answers, m), 15, 0, 0, 0);
    expect_cut(what, tb_cut_run(pile, n, answers, m, out, sizeof out), 15, 0, 0);
    expect_cut(what, tb_cut_run(pile, n, answers, m, out, 0), 15, 0, 0);
    expect_all(what, out, 0xee, sizeof out);
}

static void expect_bad_piles(const uint8_t *pile) {
    static const uint8_t many[(TB_MOST_RECORDS + 1) * TB_RECORD_LENGTH];
    uint8_t neither[2 * RECORDS];
    memcpy(neither, YES, sizeof neither);
    neither[2 * RECORDS - 1] = 2;
    expect_bad_pile("a pile of no bytes", pile, 0, YES, 0);
    expect_bad_pile("a pile that lacks a byte", pile, PILE_LENGTH - 1, YES, 2 * RECORDS);
    expect_bad_pile("a pile of 17 records", many, sizeof many, YES, sizeof YES);
    expect_bad_pile("no answers", pile, PILE_LENGTH, YES, 0);
    expect_bad_pile("an answer too many", pile, PILE_LENGTH, YES, 2 * RECORDS + 1);
    expect_bad_pile("an answer that is neither", pile, PILE_LENGTH, neither, sizeof neither);
    expect_number("tb_linked in 17 records", tb_linked(many, sizeof many, 1), 0);
    expect_number("tb_first_rand_zero of 17 records", tb_first_rand_zero(many, sizeof many), 0);
    expect_number("tb_first_rand_zero of 16 records",
                  tb_first_rand_zero(many, sizeof many - TB_RECORD_LENGTH), 1);
    expect_number("tb_pile_code of 16 records",
                  tb_pile_code(many, sizeof many - TB_RECORD_LENGTH, YES, sizeof YES - 2), 0);
}

/* The four records one by one, and the place behind them. */
static void expect_records(const uint8_t *pile) {
    struct tb_verdict nothing = {.code = 15};
    for (size_t k = 0; k < RECORDS; k++) {
        expect_judged("a record", tb_judge(pile, PILE_LENGTH, YES, 2 * RECORDS, k), k, TIMES[k]);
        expect_number("tb_linked", tb_linked(pile, PILE_LENGTH, k), k > 0);
    }
    expect_judged("no record", tb_judge(pile, PILE_LENGTH, YES, 2 * RECORDS, RECORDS), RECORDS,
                  nothing);
    expect_number("tb_linked of no record", tb_linked(pile, PILE_LENGTH, RECORDS), 0);
    expect_number("tb_first_rand_zero", tb_first_rand_zero(pile, PILE_LENGTH), 1);
    expect_number("tb_first_rand_zero of another rand",
                  tb_first_rand_zero(pile + TB_RECORD_LENGTH, TB_RECORD_LENGTH), 0);
    expect_number("tb_contradicts, just not", tb_contradicts(1000, 5, 990, 5), 0);
    expect_number("tb_contradicts, just", tb_contradicts(1000, 5, 990, 4), 1);
    expect_number("tb_contradicts below 0", tb_contradicts(3, 10, 0, 1), 0);
    expect_number("tb_contradicts above 2^64 - 1", tb_contradicts(UINT64_MAX, 0, UINT64_MAX - 1, 1),
                  0);
}

/* Whether a valid answer comes from one delegation with itself, and with itself where something of
 * it is another: of what DELE holds, of the window, or a refusal. */
static void expect_delegation(struct tb_verdict is) {
    struct tb_verdict other = is;
    other.radi++, other.midp++, other.low++, other.high++;
    expect_number("tb_same_delegation of two windows", tb_same_delegation(is, other), 1);
    for (size_t i = 0; i < sizeof other.pubk; i++) {
        other.pubk[i] ^= 1;
        expect_number("tb_same_delegation with another PUBK", tb_same_delegation(is, other), 0);
        other.pubk[i] ^= 1;
    }
    for (unsigned bit = 0; bit < 64; bit++) {
        other.mint ^= UINT64_C(1) << bit;
        expect_number("tb_same_delegation with another MINT", tb_same_delegation(is, other), 0);
        expect_number("tb_same_delegation of another MINT", tb_same_delegation(other, is), 0);
        other.mint = is.mint;
        other.maxt ^= UINT64_C(1) << bit;
        expect_number("tb_same_delegation with another MAXT", tb_same_delegation(is, other), 0);
        expect_number("tb_same_delegation of another MAXT", tb_same_delegation(other, is), 0);
        other.maxt = is.maxt;
    }
    other.code = 13;
    expect_number("tb_same_delegation of a refused answer", tb_same_delegation(is, other), 0);
    expect_number("tb_same_delegation after a refused answer", tb_same_delegation(other, is), 0);
    expect_number("tb_same_delegation of two refused", tb_same_delegation(other, other), 0);
}

/* Until when each of the four windows may be used, and which two come from one delegation; a
 * refused answer, with the same key and MAXT in its place, is never used and comes from none. */
static void expect_reuse(const uint8_t *pile) {
    for (size_t k = 0; k < RECORDS; k++) {
        struct tb_verdict is =
            tb_verdict_of(tb_judge(pile, PILE_LENGTH, YES, 2 * RECORDS, k));
        struct tb_verdict refused = is;
        refused.code = 13;
        expect_verdict("tb_verdict_of", is, TIMES[k]);
        expect_number("tb_may_use at 0", tb_may_use(is, 0), 1);
        expect_number("tb_may_use at MAXT", tb_may_use(is, is.maxt), 1);
        expect_number("tb_may_use at the last second of all", tb_may_use(is, UINT64_MAX),
                      is.maxt == UINT64_MAX);
        if (is.maxt < UINT64_MAX)
            expect_number("tb_may_use past MAXT", tb_may_use(is, is.maxt + 1), 0);
        expect_number("tb_may_use of a refused answer", tb_may_use(refused, 0), 0);
        expect_delegation(is);
        for (size_t i = 0; i < RECORDS; i++) {
            struct tb_judged other = tb_judge(pile, PILE_LENGTH, YES, 2 * RECORDS, i);
            expect_number("tb_same_delegation", tb_same_delegation(is, tb_verdict_of(other)),
                          i == k);
        }
    }
    struct tb_verdict none =
        tb_verdict_of(tb_judge(pile, PILE_LENGTH, YES, 2 * RECORDS, RECORDS));
    expect_number("tb_may_use of no record", tb_may_use(none, 0), 0);
    expect_number("tb_same_delegation of no record", tb_same_delegation(none, none), 0);
}

/* Windows of document 01's examples 1 to 7, in the order in which they were told, and whether some
 * two contradict each other. */
struct told {
    uint64_t midp;
    uint32_t radi;
};
static const struct example {
    size_t count;
    struct told windows[4];
    bool contradict;
} EXAMPLES[] = {
    {2, {{1000, 5}, {990, 5}}, false},
    {2, {{1000, 5}, {990, 4}}, true},
    {2, {{3, 10}, {0, 1}}, false},
    {2, {{3, 10}, {0, 0}}, false},
    {2, {{UINT64_MAX, 1}, {UINT64_MAX, 1}}, false},
    {2, {{UINT64_MAX, 1}, {UINT64_MAX - 3, 1}}, true},
    {4, {{1000, 10}, {1500, 10}, {1495, 1}, {1400, 10}}, true},
    {3, {{100, 1}, {90, 1}, {80, 1}}, true},
    {3, {{100, 1}, {95, 20}, {80, 1}}, true},
    {1, {{UINT64_MAX, 1}}, false},
    {0, {{0, 0}}, false},
};

/* Both checks of such windows, every pair and the one pass, which starts from any number. */
static void expect_example(const struct example *example) {
    struct tb_tally tally = {UINT64_MAX};
    bool pairs = false, pass = false;
    tb_tally_start(&tally);
    for (size_t j = 0; j < example->count; j++) {
        struct told later = example->windows[j];
        for (size_t i = 0; i < j; i++) {
            struct told earlier = example->windows[i];
            pairs |= tb_contradicts(earlier.midp, earlier.radi, later.midp, later.radi);
        }
        pass |= tb_tally_take(&tally, later.midp, later.radi);
    }
    expect_number("every pair of an example", pairs, example->contradict);
    expect_number("the one pass over an example", pass, example->contradict);
}

/* The one pass, from state to state, and from states that no start led to. */
static void expect_tally(void) {
    for (size_t k = 0; k < sizeof EXAMPLES / sizeof *EXAMPLES; k++) expect_example(EXAMPLES + k);
    struct tb_tally tally = {1};
    tb_tally_start(&tally);
    expect_number("a tally that is started", tally.most, 0);
    expect_number("the first window", tb_tally_take(&tally, 3, 10), 0);
    expect_number("a tally below 0", tally.most, 0);
    expect_number("a larger window", tb_tally_take(&tally, 1000, 5), 0);
    expect_number("a tally of 1000 - 5", tally.most, 995);
    expect_number("a window that touches", tb_tally_take(&tally, 990, 5), 0);
    expect_number("a tally that stays", tally.most, 995);
    expect_number("a window that contradicts", tb_tally_take(&tally, 990, 4), 1);
    expect_number("a tally that stays once more", tally.most, 995);
    expect_number("the largest window", tb_tally_take(&tally, UINT64_MAX, UINT32_MAX), 0);
    expect_number("a tally of the largest", tally.most, UINT64_MAX - UINT32_MAX);
    struct tb_tally any = {UINT64_MAX};
    expect_number("above any number", tb_tally_take(&any, UINT64_MAX, UINT32_MAX), 0);
    expect_number("below any number", tb_tally_take(&any, 0, UINT32_MAX), 1);
    expect_number("any number stays", any.most, UINT64_MAX);
}

/* The run of the four records: where there is room for it, and where there would be only if out
 * need not be as long as the pile. */
static void expect_run(const uint8_t *pile) {
    static uint8_t out[PILE_LENGTH + 8];
    const uint8_t *first = pile + 2 * TB_RECORD_LENGTH;
    size_t n = 2 * TB_RECORD_LENGTH, rest = RAND_AT + 32;
    memset(out, 0xee, sizeof out);
    expect_cut("tb_cut_run without room",
               tb_cut_run(pile, PILE_LENGTH, YES, 2 * RECORDS, out, PILE_LENGTH - 1), 19, 0, 0);
    expect_cut("tb_cut_run of a record",
               tb_cut_run(pile, TB_RECORD_LENGTH, YES, 2, out, sizeof out), 18, 0, 0);
    expect_all("the buffer of a refused cut", out, 0xee, sizeof out);
    expect_cut("tb_cut_run", tb_cut_run(pile, PILE_LENGTH, YES, 2 * RECORDS, out, sizeof out), 0, 2,
               3);
    expect_bytes("the key of the run", out, first, RAND_AT);
    expect_all("the rand of the run", out + RAND_AT, 0, 32);
    expect_bytes("the rest of the run", out + rest, first + rest, n - rest);
    expect_all("what follows the run", out + n, 0xee, sizeof out - n);
    expect_reported("tb_check_report of the run", tb_check_report(out, n, YES, 4), 0, 0, 0, 1);
}

/* Writes n bytes in base64 (RFC 4648, section 4), and tells where they end. */
static char *put_base64(char *to, const uint8_t *bytes, size_t n) {
    static const char letters[] =
        "ABCDEFGHIJKLMNOPQRSTUVWXYZabcdefghijklmnopqrstuvwxyz0123456789+/";
    for (size_t i = 0; i < n; i += 3) {
        uint32_t group = (uint32_t)bytes[i] << 16;
        if (i + 1 < n) group |= (uint32_t)bytes[i + 1] << 8;
        if (i + 2 < n) group |= bytes[i + 2];
        for (size_t k = 0; k < 4; k++)
            *to++ = i + k > n ? '=' : letters[group >> (18 - 6 * k) & 63];
    }
    return to;
}

/* Writes a member of an entry, and what stands before and behind it. */
static char *put_member(char *to, const char *before, const uint8_t *bytes, size_t n) {
    size_t length = strlen(before);
    memcpy(to, before, length);
    to = put_base64(to + length, bytes, n);
    *to++ = '"';
    return to;
}

/* Writes records that are laid out as lay_record does as a report (draft 19, section 8.4.1), and
 * tells its length. */
static size_t put_report(char *text, const uint8_t *pile, size_t records) {
    char *to = text + sprintf(text, "{\"responses\":[");
    for (size_t k = 0; k < records; k++) {
        const uint8_t *record = pile + k * TB_RECORD_LENGTH;
        if (k > 0) to = put_member(to, ",{\"rand\":\"", record + RAND_AT, 32);
        to = put_member(to, k > 0 ? ",\"publicKey\":\"" : "{\"publicKey\":\"", record, 32);
        to = put_member(to, ",\"request\":\"", record + REQUEST_AT, TB_REQUEST_LENGTH);
        to = put_member(to, ",\"response\":\"", record + RESPONSE_AT, RESPONSE_LENGTH);
        *to++ = '}';
    }
    return (size_t)(to - text) + (size_t)sprintf(to, "]}");
}

static void expect_report_read(const char *what, struct tb_records is, uint64_t code,
                               uint64_t records) {
    expect_number(what, is.code, code);
    expect_number(what, is.records, records);
}

static void expect_report_wrote(const char *what, struct tb_published is, uint64_t code,
                                uint64_t place, uint64_t at, uint64_t length) {
    expect_number(what, is.code, code);
    expect_number(what, is.place, place);
    expect_number(what, is.at, at);
    expect_number(what, is.length, length);
}

static void expect_text_cut(const char *what, struct tb_forwarded is, uint64_t code, uint64_t first,
                            uint64_t last, uint64_t length) {
    expect_number(what, is.code, code);
    expect_number(what, is.first, first);
    expect_number(what, is.last, last);
    expect_number(what, is.length, length);
}

/* The text of the four records, read: as it is, with too little room, and where it is none. */
static void expect_read(const uint8_t *pile, const uint8_t *text, size_t n) {
    static const char none[] = "{\"responses\": []}";
    static uint8_t out[PILE_LENGTH + 8];
    memset(out, 0xee, sizeof out);
    expect_report_read("tb_read_report of a byte less",
                       tb_read_report(text, n - 1, out, sizeof out), 24, 0);
    expect_report_read("tb_read_report of no bytes", tb_read_report(text, 0, out, sizeof out), 24,
                       0);
    expect_report_read("tb_read_report of no entry",
                       tb_read_report((const uint8_t *)none, sizeof none - 1, out, sizeof out), 25,
                       0);
    expect_report_read("tb_read_report without room", tb_read_report(text, n, out, PILE_LENGTH - 1),
                       19, 0);
    expect_all("the buffer of a refused text", out, 0xee, sizeof out);
    expect_report_read("tb_read_report", tb_read_report(text, n, out, sizeof out), 0, RECORDS);
    expect_bytes("the records of a text", out, pile, PILE_LENGTH);
    expect_all("what follows the records", out + PILE_LENGTH, 0xee, sizeof out - PILE_LENGTH);
}

/* The four records as a report, written, with and without room, and refused as the check of a
 * report refuses them. None of their signatures verifies. */
static void expect_written(uint8_t *pile, const uint8_t *text, size_t n) {
    static uint8_t out[TB_LONGEST_REPORT];
    uint8_t answers[2 * RECORDS], *wrong = pile + TB_RECORD_LENGTH + RESPONSE_AT + RADI_AT;
    size_t m = sizeof answers;
    memcpy(answers, YES, m);
    memset(out, 0xee, sizeof out);
    expect_report_wrote("tb_write_report without room",
                        tb_write_report(pile, PILE_LENGTH, answers, m, out, n - 1), 19, 0, 0, 0);
    expect_report_wrote("tb_write_report of too few answers",
                        tb_write_report(pile, PILE_LENGTH, answers, m - 1, out, sizeof out), 15, 0,
                        0, 0);
    expect_report_wrote("tb_write_report of a record",
                        tb_write_report(pile, TB_RECORD_LENGTH, answers, 2, out, sizeof out), 18, 0,
                        0, 0);
    answers[2 * 3 + 1] = 0;
    expect_report_wrote("tb_write_report of a refused record",
                        tb_write_report(pile, PILE_LENGTH, answers, m, out, sizeof out), 13, 3, 0,
                        0);
    uint8_t radius = *wrong;
    *wrong = 0;
    expect_report_wrote("tb_write_report without a radius",
                        tb_write_report(pile, PILE_LENGTH, answers, m, out, sizeof out), 7, 1,
                        RADI_AT, 0);
    *wrong = radius;
    expect_report_wrote("tb_write_signed_report",
                        tb_write_signed_report(pile, PILE_LENGTH, out, sizeof out), 12, 0, 0, 0);
    expect_report_wrote("tb_write_signed_report of no pile",
                        tb_write_signed_report(pile, PILE_LENGTH - 1, out, sizeof out), 15, 0, 0,
                        0);
    expect_all("the buffer of a refused report", out, 0xee, sizeof out);
    expect_report_wrote("tb_write_report",
                        tb_write_report(pile, PILE_LENGTH, YES, m, out, sizeof out), 0, 0, 0, n);
    expect_bytes("the text of a report", out, text, n);
    expect_all("what follows the text", out + n, 0xee, sizeof out - n);
}

/* The run of the four records, cut out of their text. */
static void expect_cut_texts(const uint8_t *pile, const uint8_t *text, size_t n) {
    static char should[TB_LONGEST_REPORT];
    static uint8_t out[TB_LONGEST_REPORT];
    size_t m = 2 * RECORDS, length = put_report(should, pile + 2 * TB_RECORD_LENGTH, 2);
    memset(out, 0xee, sizeof out);
    expect_text_cut("tb_cut_text of a byte less", tb_cut_text(text, n - 1, YES, m, out, sizeof out),
                    24, 0, 0, 0);
    expect_text_cut("tb_cut_text of too many answers",
                    tb_cut_text(text, n, YES, m + 1, out, sizeof out), 15, 0, 0, 0);
    expect_text_cut("tb_cut_text without room", tb_cut_text(text, n, YES, m, out, length - 1), 19,
                    0, 0, 0);
    expect_text_cut("tb_cut_signed_text", tb_cut_signed_text(text, n, out, sizeof out), 18, 0, 0,
                    0);
    expect_all("the buffer of a refused cut", out, 0xee, sizeof out);
    expect_text_cut("tb_cut_text", tb_cut_text(text, n, YES, m, out, length), 0, 2, 3, length);
    expect_bytes("the text of the run", out, (const uint8_t *)should, length);
    expect_all("what follows that text", out + length, 0xee, sizeof out - length);
}

/* The draft's own report, whose signatures verify: written, cut to its first two records, and both
 * read again. */
static void expect_signed_texts(void) {
    static uint8_t report[REPORT_LENGTH], back[REPORT_LENGTH];
    static uint8_t text[TB_LONGEST_REPORT], out[TB_LONGEST_REPORT];
    lay_report(report);
    struct tb_published wrote =
        tb_write_signed_report(report, sizeof report, text, sizeof text);
    size_t n = (size_t)wrote.length;
    expect_report_wrote("tb_write_signed_report of the draft's report", wrote, 0, 0, 0, n);
    expect_number("the records of its text",
                  tb_read_report(text, n, back, sizeof back).records, DRAFTS);
    expect_bytes("its records again", back, report, sizeof report);
    struct tb_forwarded cut = tb_cut_signed_text(text, n, out, sizeof out);
    expect_text_cut("tb_cut_signed_text of the draft's report", cut, 0, 0, 1, cut.length);
    expect_number("the records of the run's text",
                  tb_read_report(out, (size_t)cut.length, back, sizeof back).records, 2);
    expect_bytes("the run's records", back, report, 2 * TB_RECORD_LENGTH);
}

static void expect_report_texts(uint8_t *pile) {
    static char text[TB_LONGEST_REPORT];
    size_t n = put_report(text, pile, RECORDS);
    expect_read(pile, (const uint8_t *)text, n);
    expect_written(pile, (const uint8_t *)text, n);
    expect_cut_texts(pile, (const uint8_t *)text, n);
    expect_signed_texts();
}

/* The four records, and what becomes of the report and the run where something is wrong with one of
 * them. */
static void expect_reports(uint8_t *pile) {
    static uint8_t out[PILE_LENGTH];
    uint8_t answers[2 * RECORDS], *last = pile + 3 * TB_RECORD_LENGTH;
    memcpy(answers, YES, sizeof answers);
    size_t n = PILE_LENGTH, m = sizeof answers;
    expect_reported("tb_check_report", tb_check_report(pile, n, answers, m), 0, 0, 2, 3);
    expect_reported("tb_check_report of a record",
                    tb_check_report(pile, TB_RECORD_LENGTH, answers, 2), 18, 0, 0, 0);
    expect_number("tb_pile_contradicts", tb_pile_contradicts(pile, n, answers, m), 0);
    expect_number("tb_pile_contradicts of three records",
                  tb_pile_contradicts(pile, 3 * TB_RECORD_LENGTH, answers, 6), 18);
    answers[2 * 3] = 0;
    expect_number("tb_pile_contradicts without the last",
                  tb_pile_contradicts(pile, n, answers, m), 18);
    answers[2 * 3] = 1;
    answers[2 * 2] = 0;
    expect_number("tb_pile_contradicts past a refused record",
                  tb_pile_contradicts(pile, n, answers, m), 0);
    expect_cut("tb_cut_run through a refused record",
               tb_cut_run(pile, n, answers, m, out, sizeof out), 18, 0, 0);
    answers[2 * 2] = 1;
    answers[2 * 1 + 1] = 0;
    expect_reported("a refused record", tb_check_report(pile, n, answers, m), 13, 1, 0, 0);
    expect_cut("tb_cut_run beside a refused record",
               tb_cut_run(pile, n, answers, m, out, sizeof out), 0, 2, 3);
    answers[2 * 1 + 1] = 1;
    uint8_t *wrong = pile + TB_RECORD_LENGTH + RESPONSE_AT + RADI_AT, radius = *wrong;
    *wrong = 0;
    struct tb_reported placed = tb_check_report(pile, n, answers, m);
    expect_number("code of a record without a radius", placed.code, 7);
    expect_number("place of a record without a radius", placed.place, 1);
    expect_number("at of a record without a radius", placed.at, RADI_AT);
    struct tb_verdict value = {.code = 7, .at = RADI_AT};
    expect_judged("a record without a radius", tb_judge(pile, n, answers, m, 1), 1, value);
    *wrong = radius;
    last[RAND_AT]++;
    expect_reported("a record that is not linked", tb_check_report(pile, n, answers, m), 17, 3, 0,
                    0);
    expect_cut("tb_cut_run without a link", tb_cut_run(pile, n, answers, m, out, sizeof out), 18, 0,
               0);
    expect_number("tb_pile_contradicts without a link",
                  tb_pile_contradicts(pile, n, answers, m), 0);
    pile[RAND_AT] = 1;
    expect_reported("a first rand", tb_check_report(pile, n, answers, m), 17, 0, 0, 0);
    last[GAP_AT] = 1;
    expect_reported("a damaged record", tb_check_report(pile, n, answers, m), 16, 3, 0, 0);
}

/* A buffer for the pile of the longest walk, and what it should hold. */
enum { WALK_ROOM = TB_MOST_PILE_LENGTH, LONGEST = 5 };
static uint8_t walk_pile[WALK_ROOM + 8], walk_should[WALK_ROOM + 8];

/* What servers of a walk tell where they agree. */
static const struct tb_verdict HONEST = {0, 5, 0, 1000, 995, 1005, 0, 2000, {7}};

/* A response with a byte changed, the code that it is refused with, and the place that is named. */
static const struct {
    uint32_t code;
    size_t at;
    uint8_t flip;
    uint64_t place;
} SPOILT[] = {{TB_MARK, 0, 1, 0},
              {TB_PACKET_LENGTH, 8, 4, 0},
              {TB_FRAME, 12, 7, 12},           /* N is 0 */
              {TB_TAG_ORDER, 43, 0x7f, 44},    /* the first tag is above the second */
              {TB_TAG_ABSENT, 67, 1, 12},      /* INDY */
              {TB_VALUE, RADI_AT, 5, RADI_AT}, /* a radius of 0 */
              {TB_TYPE_OR_VERSION, TYPE_AT, 2, 0},
              {TB_NONCE, NONC_AT, 1, 0},
              {TB_PATH, ROOT_AT, 1, 0},
              {TB_TIME, MINT_AT + 7, 0x80, 0}};

static void expect_took(const char *what, struct tb_took is, struct tb_took should) {
    expect_number(what, is.code, should.code);
    expect_number(what, is.outcome, should.outcome);
    expect_number(what, is.at, should.at);
    expect_number(what, is.first, should.first);
    expect_number(what, is.second, should.second);
    expect_number(what, is.midp, should.midp);
    expect_number(what, is.low, should.low);
    expect_number(what, is.high, should.high);
    expect_number(what, is.mint, should.mint);
    expect_number(what, is.maxt, should.maxt);
    expect_number(what, is.radi, should.radi);
}

/* What is said of an accepted response that tells this time: how the walk stands, and the window. */
static struct tb_took with_window(struct tb_took stands, struct tb_verdict time) {
    stands.midp = time.midp;
    stands.low = time.midp - time.radi;
    stands.high = time.midp + time.radi;
    stands.mint = time.mint;
    stands.maxt = time.maxt;
    stands.radi = time.radi;
    return stands;
}

/* A call of tb_walk_take that is refused, which leaves the state and the pile. */
static void expect_untaken(const char *what, struct tb_walk *walk, uint32_t answers, uint64_t sent,
                           uint64_t received, const uint8_t *response, size_t n, size_t room,
                           uint32_t code, uint64_t at) {
    const struct tb_walk before = *walk;
    const uint8_t rand[32] = {9};
    const struct tb_took should = {.code = code, .at = at};
    expect_took(what,
                tb_walk_take(walk, answers >> 1, answers & 1, sent, received, rand, response, n,
                             walk_pile, room),
                should);
    expect_bytes(what, (const uint8_t *)walk, (const uint8_t *)&before, sizeof before);
    expect_bytes(what, walk_pile, walk_should, sizeof walk_pile);
}

/* Every refusal of a response that was sent for at this second and is right but for one thing. */
static void expect_refusals(struct tb_walk *walk, const uint8_t *right, uint64_t sent) {
    uint8_t response[RESPONSE_LENGTH];
    const size_t n = RESPONSE_LENGTH, room = walk->count * 2 * TB_RECORD_LENGTH;
    for (size_t i = 0; i < sizeof SPOILT / sizeof *SPOILT; i++) {
        memcpy(response, right, sizeof response);
        response[SPOILT[i].at] ^= SPOILT[i].flip;
        expect_untaken("a walk's bad response", walk, 3, sent, sent, response, n, room,
                       SPOILT[i].code, SPOILT[i].place);
    }
    expect_untaken("a walk without a response", walk, 3, sent, sent, right, 0, room,
                   TB_PACKET_SIZE, 0);
    expect_untaken("a walk without a signature", walk, 2, sent, sent, right, n, room,
                   TB_SIGNATURE, 0);
    expect_untaken("a walk without a delegation", walk, 0, sent, sent, right, n, room,
                   TB_DELEGATION, 0);
    expect_untaken("a walk that waits too long", walk, 0, sent, sent + LONGEST + 1, right, 0, room,
                   TB_DELAY, 0);
    expect_untaken("a walk whose clock falls", walk, 0, sent, sent - 1, right, 0, room, TB_CLOCK,
                   0);
    if (walk->last > 0)
        expect_untaken("a walk that sends too early", walk, 0, walk->last - 1, UINT64_MAX, right, 0,
                       room, TB_CLOCK, 0);
    expect_untaken("a walk without room", walk, 0, sent, sent - 1, right, 0, room - 1, TB_ROOM, 0);
}

/* What a walk asks at step k, twice the same, and with a byte of room too little. */
static void expect_asked(const struct tb_walk *walk, size_t k, uint8_t request[TB_REQUEST_LENGTH]) {
    const size_t server = k % walk->count;
    uint8_t should[TB_REQUEST_LENGTH] = {0}, out[TB_REQUEST_LENGTH + 8];
    tb_write_request(walk->keys + 32 * server, walk->nonce, should, sizeof should);
    memset(out, 0xee, sizeof out);
    struct tb_asked asked = tb_walk_ask(walk, out, TB_REQUEST_LENGTH - 1);
    expect_number("tb_walk_ask without room", asked.code, TB_ROOM);
    expect_number("server of a walk without room", asked.server, 0);
    expect_all("nonce of a walk without room", asked.nonce, 0, sizeof asked.nonce);
    expect_all("a request without room", out, 0xee, sizeof out);
    for (size_t i = 0; i < 2; i++) {
        asked = tb_walk_ask(walk, out, TB_REQUEST_LENGTH + i);
        expect_number("tb_walk_ask", asked.code, 0);
        expect_number("server of a walk", asked.server, server);
        expect_bytes("nonce of a walk", asked.nonce, walk->nonce, sizeof asked.nonce);
        expect_bytes("request of a walk", out, should, sizeof should);
        expect_all("what follows the request of a walk", out + sizeof should, 0xee, 8);
    }
    memcpy(request, should, sizeof should);
}

/* One step that is taken, at the longest delay and sent as soon as it may be. */
static struct tb_took expect_step(struct tb_walk *walk, size_t k, struct tb_verdict time) {
    uint8_t request[TB_REQUEST_LENGTH], response[RESPONSE_LENGTH], rand[32], nonce[32] = {0};
    const uint64_t sent = k == 0 ? 100 : walk->last;
    const size_t room = walk->count * 2 * TB_RECORD_LENGTH;
    uint8_t key[32], before[32];
    expect_asked(walk, k, request);
    answer(response, request, time);
    expect_refusals(walk, response, sent);
    memset(rand, (int)k + 1, sizeof rand);
    memcpy(key, walk->keys + 32 * (k % walk->count), sizeof key);
    memcpy(before, walk->rand, sizeof before);
    struct tb_took took = tb_walk_take(walk, 1, 1, sent, sent + LONGEST, rand, response,
                                       RESPONSE_LENGTH, walk_pile, room);
    lay(walk_should + k * TB_RECORD_LENGTH, key, before, request, response);
    expect_bytes("the pile of a walk", walk_pile, walk_should, sizeof walk_pile);
    tb_link(response, RESPONSE_LENGTH, rand, nonce);
    expect_bytes("the next nonce of a walk", walk->nonce, nonce, sizeof nonce);
    expect_bytes("the next rand of a walk", walk->rand, rand, sizeof rand);
    expect_number("the next step of a walk", walk->step, k + 1);
    expect_number("the clock of a walk", walk->last, sent + LONGEST);
    return took;
}

static void start_walk(struct tb_walk *walk, size_t servers) {
    uint8_t keys[32 * TB_MOST_SERVERS];
    const uint8_t nonce[32] = {3};
    for (size_t i = 0; i < sizeof keys; i++) keys[i] = (uint8_t)(i / 32 + 1);
    memset(walk_pile, 0xee, sizeof walk_pile);
    memset(walk_should, 0xee, sizeof walk_should);
    expect_number("tb_walk_start",
                  tb_walk_start(walk, keys, 32 * servers, nonce, LONGEST, walk_pile,
                                servers * 2 * TB_RECORD_LENGTH),
                  0);
    expect_bytes("keys of a walk", walk->keys, keys, 32 * servers);
    expect_all("no keys of a walk", walk->keys + 32 * servers, 0, sizeof keys - 32 * servers);
    expect_bytes("the first nonce of a walk", walk->nonce, nonce, sizeof nonce);
    expect_all("the first rand of a walk", walk->rand, 0, sizeof walk->rand);
    expect_number("servers of a walk", walk->count, servers);
    expect_number("the first step of a walk", walk->step, 0);
    expect_bytes("a pile at the start", walk_pile, walk_should, sizeof walk_pile);
}

/* How often a host that goes on with an ended walk asks or takes before its loop ends: one that
 * goes by the code of tb_walk_ask not once, one that goes by the outcome once. */
static void expect_loops_end(struct tb_walk *walk) {
    enum { MANY = 10 };
    uint8_t request[TB_REQUEST_LENGTH] = {0};
    const uint8_t rand[32] = {9};
    struct tb_took took = {.outcome = TB_NOTHING_SAID};
    uint32_t code = TB_PASSED;
    int turns = 0;
    while (turns < MANY) {
        code = tb_walk_ask(walk, request, sizeof request).code;
        if (code != TB_PASSED) break;
        turns++;
    }
    expect_number("turns of a loop over an ended walk", (uint64_t)turns, 0);
    expect_number("the code of a loop over an ended walk", code, TB_ENDED);
    for (took.outcome = TB_GOES_ON; took.outcome == TB_GOES_ON && turns < MANY; turns++)
        took = tb_walk_take_signed(walk, 0, 0, rand, RESPONSE, RESPONSE_LENGTH, walk_pile,
                                   sizeof walk_pile);
    expect_number("turns of a loop by the outcome", (uint64_t)turns, 1);
    expect_number("the code of a loop by the outcome", took.code, TB_ENDED);
    expect_number("the outcome beside a refusal", took.outcome, TB_NOTHING_SAID);
}

/* A walk whose last server lags behind by so much at its last answer, and whose pile is altered
 * before that, or not. */
static void expect_walk(size_t servers, uint64_t lag, bool altered, struct tb_took end) {
    static uint8_t run[WALK_ROOM];
    const struct tb_took goes_on = {.outcome = TB_GOES_ON};
    const size_t last = 2 * servers - 1, room = servers * 2 * TB_RECORD_LENGTH;
    struct tb_verdict late = HONEST;
    struct tb_walk walk = {{0}, 0, 0, {0}, {0}, 0, 0};
    late.midp -= lag;
    start_walk(&walk, servers);
    for (size_t k = 0; k < last; k++)
        expect_took("a step of a walk", expect_step(&walk, k, HONEST),
                    with_window(goes_on, HONEST));
    if (altered) walk_should[RAND_AT] = walk_pile[RAND_AT] = 1;
    expect_took("the end of a walk", expect_step(&walk, last, late), with_window(end, late));
    expect_untaken("a walk that has ended", &walk, 0, 1, 0, walk_pile, 0, 0, TB_ENDED, 0);
    expect_number("a walk that has ended", tb_walk_ask(&walk, run, 0).code, TB_ENDED);
    expect_loops_end(&walk);
    if (altered) return;
    bool lied = end.outcome == TB_MALFEASANCE;
    expect_reported("the report of a walk", tb_check_report(walk_pile, room, YES, 4 * servers),
                    lied ? 0 : TB_NO_CONTRADICTION, 0, end.first, end.second);
    expect_number("the run of a walk",
                  tb_cut_run(walk_pile, room, YES, 4 * servers, run, sizeof run).code,
                  lied ? 0 : TB_NO_CONTRADICTION);
}

/* The draft's three servers, and the walk over them that the responses of its report were made for,
 * which ends after its first round. */
static void start_drafts_walk(struct tb_walk *walk) {
    uint8_t keys[32 * DRAFTS];
    memcpy(keys, KEY, sizeof KEY);
    memcpy(keys + sizeof KEY, LATER_KEYS, sizeof LATER_KEYS);
    memset(walk_pile, 0xee, sizeof walk_pile);
    memset(walk_should, 0xee, sizeof walk_should);
    expect_number("a start over the draft's servers",
                  tb_walk_start(walk, keys, sizeof keys, RESPONSE + NONC_AT, LONGEST, walk_pile,
                                2 * REPORT_LENGTH),
                  0);
}

/* Takes a response by its signatures, and holds that to tb_walk_take with what tb_answers says
 * under the key of the server that is asked: the answer, the state and the pile. */
static struct tb_took expect_taken_alike(const char *what, struct tb_walk *walk, uint64_t sent,
                                         uint64_t received, const uint8_t *response, size_t n,
                                         size_t room) {
    struct tb_walk given = *walk;
    uint8_t yes[2] = {7, 7}, rand[32] = {9};
    if (walk->step + 1 < DRAFTS) memcpy(rand, RANDS[walk->step], sizeof rand);
    tb_answers(walk->keys + 32 * (walk->step % DRAFTS), response, n, yes);
    struct tb_took should = tb_walk_take(&given, yes[0], yes[1], sent, received, rand, response, n,
                                         walk_should, room);
    struct tb_took is =
        tb_walk_take_signed(walk, sent, received, rand, response, n, walk_pile, room);
    expect_took(what, is, should);
    expect_bytes(what, (const uint8_t *)walk, (const uint8_t *)&given, sizeof given);
    expect_bytes(what, walk_pile, walk_should, sizeof walk_pile);
    return is;
}

/* A response of the draft's with a byte changed, and the code that it is refused with. */
static const struct {
    uint32_t code;
    size_t at;
    uint8_t flip;
} FORGED[] = {{TB_DELEGATION, CERT_SIG_AT, 1}, {TB_DELEGATION, CERT_SIG_AT + 63, 0x10},
              {TB_DELEGATION, PUBK_AT + 5, 1}, {TB_SIGNATURE, SIG_AT, 1},
              {TB_SIGNATURE, SIG_AT + 63, 1},  {TB_SIGNATURE, MIDP_AT, 1},
              {TB_MARK, 0, 1},                 {TB_FRAME, 12, 7},
              {TB_VALUE, RADI_AT, 3},          {TB_NONCE, NONC_AT, 1},
              {TB_PATH, ROOT_AT, 1},           {TB_TIME, MINT_AT + 7, 0x80}};

static void expect_signed_refusals(struct tb_walk *walk, const uint8_t *right, uint64_t sent) {
    const size_t n = DRAFT_LENGTH, room = 2 * REPORT_LENGTH;
    const struct tb_walk before = *walk;
    const char *what = "a refusal of a walk by signatures";
    for (size_t i = 0; i < sizeof FORGED / sizeof FORGED[0]; i++) {
        uint8_t response[DRAFT_LENGTH];
        memcpy(response, right, n);
        response[FORGED[i].at] ^= FORGED[i].flip;
        const uint64_t late = sent + LONGEST + 1;
        struct tb_took took = expect_taken_alike(what, walk, sent, sent, response, n, room);
        expect_number(what, took.code, FORGED[i].code);
        took = expect_taken_alike(what, walk, sent, late, response, n, room);
        expect_number(what, took.code, TB_DELAY);
        took = expect_taken_alike(what, walk, sent, sent - 1, response, n, room);
        expect_number(what, took.code, TB_CLOCK);
        took = expect_taken_alike(what, walk, sent, sent - 1, response, n, room - 1);
        expect_number(what, took.code, TB_ROOM);
    }
    expect_bytes(what, (const uint8_t *)walk, (const uint8_t *)&before, sizeof before);
}

/* The draft's first round: its three responses are accepted by their own signatures, and under
 * another server's key none is. What they leave is the draft's report. */
static void expect_signed_walk(void) {
    static uint8_t report[REPORT_LENGTH];
    const size_t room = 2 * REPORT_LENGTH;
    struct tb_walk walk = {{0}, 0, 0, {0}, {0}, 0, 0};
    start_drafts_walk(&walk);
    for (size_t k = 0; k < DRAFTS; k++) {
        const uint8_t *right = k == 0 ? RESPONSE : LATER[k - 1];
        const uint64_t sent = 100 + 10 * k;
        expect_signed_refusals(&walk, right, sent);
        struct tb_walk other = walk;
        memcpy(other.keys + 32 * k, walk.keys + 32 * ((k + 1) % DRAFTS), 32);
        struct tb_took took =
            expect_taken_alike("another's key", &other, sent, sent, right, DRAFT_LENGTH, room);
        /* The key is in the request, and so in the leaf that the path begins with. */
        expect_number("another's key", took.code, TB_PATH);
        took = expect_taken_alike("a step by signatures", &walk, sent, sent + LONGEST, right,
                                  DRAFT_LENGTH, room);
        const struct tb_took goes_on = {.outcome = TB_GOES_ON};
        const struct tb_judged judged = tb_judge_signed(walk_pile, (k + 1) * TB_RECORD_LENGTH, k);
        expect_took("a step by signatures", took, with_window(goes_on, tb_verdict_of(judged)));
        expect_number("the time of a step by signatures", took.midp,
                      k == 0 ? 1773685571 : 1773599171);
    }
    lay_report(report);
    expect_bytes("the draft's report by a walk", walk_pile, report, sizeof report);
    expect_number("the step after the draft's", walk.step, DRAFTS);
    walk.step = 2 * DRAFTS;
    const char *ended = "an ended walk by signatures";
    expect_number(ended, expect_taken_alike(ended, &walk, 1, 0, RESPONSE, 0, 0).code, TB_ENDED);
}

/* A start that is refused leaves the state as it was. */
static void expect_no_start(const char *what, const uint8_t *keys, size_t n, size_t room,
                            uint32_t code) {
    struct tb_walk walk;
    const uint8_t nonce[32] = {3};
    memset(&walk, 0x77, sizeof walk);
    memset(walk_pile, 0xee, sizeof walk_pile);
    memset(walk_should, 0xee, sizeof walk_should);
    expect_number(what, tb_walk_start(&walk, keys, n, nonce, LONGEST, walk_pile, room), code);
    expect_all(what, (const uint8_t *)&walk, 0x77, sizeof walk);
    memset(&walk, 0, sizeof walk);
    expect_untaken(what, &walk, 3, 0, 0, keys, n, room, TB_ENDED, 0);
    expect_number(what, tb_walk_ask(&walk, walk_pile, room).code, TB_ENDED);
    expect_all(what, walk_pile, 0xee, sizeof walk_pile);
}

/* Walks of the fewest and of the most servers, and each refusal of a start. */
static void expect_walks(void) {
    const struct tb_took fine = {.outcome = TB_CONSISTENT}, bad = {.outcome = TB_PILE_ALTERED};
    for (size_t servers = TB_FEWEST_SERVERS; servers <= TB_MOST_SERVERS; servers += 5) {
        const uint64_t last = 2 * servers - 1;
        const struct tb_took lie = {.outcome = TB_MALFEASANCE, .first = last - 1, .second = last};
        expect_walk(servers, 0, false, fine);
        expect_walk(servers, 10, false, fine);
        expect_walk(servers, 11, false, lie);
        expect_walk(servers, 11, true, bad);
    }
    uint8_t keys[32 * (TB_MOST_SERVERS + 1)];
    for (size_t i = 0; i < sizeof keys; i++) keys[i] = (uint8_t)(i / 32 + 1);
    const size_t few = 32 * TB_FEWEST_SERVERS, many = 32 * TB_MOST_SERVERS;
    expect_no_start("no server", keys, 0, WALK_ROOM, TB_WALK_SERVERS);
    expect_no_start("two servers", keys, few - 32, WALK_ROOM, TB_WALK_SERVERS);
    expect_no_start("nine servers", keys, many + 32, WALK_ROOM, TB_WALK_SERVERS);
    expect_no_start("a key cut short", keys, many - 1, WALK_ROOM, TB_WALK_SERVERS);
    expect_no_start("a byte of a key", keys, few + 1, WALK_ROOM, TB_WALK_SERVERS);
    expect_no_start("too short a pile", keys, few, 6 * TB_RECORD_LENGTH - 1, TB_ROOM);
    expect_no_start("too short a pile for eight", keys, many, WALK_ROOM - 1, TB_ROOM);
    memcpy(keys + many - 32, keys, 32);
    expect_no_start("one key twice", keys, many, 0, TB_WALK_SERVERS);
    expect_signed_walk();
}

/* What a call of a server's writers answered, and what it left in a buffer of 0xee. */
static void expect_wrote(const char *what, struct tb_wrote is, uint64_t code, uint64_t at,
                         const uint8_t *out, size_t room, const uint8_t *should, size_t n) {
    size_t length = code == 0 ? n : 0;
    expect_number(what, is.code, code);
    expect_number(what, is.at, at);
    expect_number(what, is.length, length);
    expect_bytes(what, out, should, length);
    expect_all(what, out + length, 0xee, room - length);
}

/* What a writer of a part of a list, or of a server, answered, and what it left in out. */
static void expect_part(const char *what, struct tb_wrote is, uint64_t code, const char *text,
                        const uint8_t *out) {
    expect_wrote(what, is, code, 0, out, strlen(text) + 8, (const uint8_t *)text, strlen(text));
}

/* A list of two servers, the first of which speaks another version. */
static const char LISTED[] =
    "{\"servers\":[{\"name\":\"old\",\"version\":2,\"publicKeyType\":\"ed25519\","
    "\"publicKey\":\"AAAA\",\"addresses\":[]},"
    "{\"name\":\"\\ud83d\\ude00\",\"version\":1,\"publicKeyType\":\"ed25519\","
    "\"publicKey\":\"AQEBAQEBAQEBAQEBAQEBAQEBAQEBAQEBAQEBAQEBAQE=\","
    "\"addresses\":[{\"protocol\":\"tcp\",\"address\":\"[::1]:2002\"}]}],"
    "\"sources\":[\"https://a.example/list\"]}";

/* The parts of that list, by their places. */
static void expect_listed_parts(const uint8_t *text, size_t n) {
    uint8_t out[64];
    memset(out, 0xee, sizeof out);
    expect_part("no name", tb_server_name(text, n, 1, out, 64), 36, "", out);
    expect_part("no room for a name", tb_server_name(text, n, 0, out, 3), 19, "", out);
    expect_part("a name", tb_server_name(text, n, 0, out, 64), 0, "\xf0\x9f\x98\x80", out);
    memset(out, 0xee, sizeof out);
    expect_part("no source", tb_list_source(text, n, 1, out, 64), 36, "", out);
    expect_part("no reports", tb_list_reports(text, n, out, 64), 36, "", out);
    expect_part("a source", tb_list_source(text, n, 0, out, 64), 0, "https://a.example/list", out);
    struct tb_addressed at = tb_server_address(text, n, 0, 1, out, 64);
    expect_number("no address", at.code, 36);
    expect_number("no address", at.length, 0);
    at = tb_server_address(text, n, 0, 0, out, 64);
    expect_number("an address", at.code, 0);
    expect_number("an address of TCP", at.tcp, 1);
    expect_number("the length of an address", at.length, 10);
    expect_bytes("an address", out, (const uint8_t *)"[::1]:2002", 10);
}

/* Lists of servers as JSON: read, by their parts, and written. */
static void expect_lists(void) {
    const uint8_t *text = (const uint8_t *)LISTED;
    size_t n = sizeof LISTED - 1;
    uint8_t out[512], key[32], srv[32];
    memset(out, 0xee, sizeof out);
    memset(key, 1, 32);
    tb_srv_value(key, srv);
    struct tb_servers read = tb_read_servers(text, n, out, 63);
    expect_number("no room for a record", read.code, 19);
    read = tb_read_servers(text, n - 1, out, 64);
    expect_number("a list cut short", read.code, 24);
    read = tb_read_servers((const uint8_t *)"{\"servers\":[]}", 14, out, 64);
    expect_number("a list of nobody", read.code, 25);
    expect_number("a list of nobody", read.records + read.passed_over, 0);
    expect_all("out after refusals", out, 0xee, sizeof out);
    read = tb_read_servers(text, n, out, 64);
    expect_number("a list", read.code, 0);
    expect_number("records of a list", read.records, 1);
    expect_number("servers that are passed over", read.passed_over, 1);
    expect_bytes("the key of a record", out, key, 32);
    expect_bytes("the SRV value of a record", out + 32, srv, 32);
    expect_listed_parts(text, n);

    const uint8_t *lines = (const uint8_t *)"udp a:1\n", *name = (const uint8_t *)"a\"";
    static const char due[] =
        "{\"name\":\"a\\\"\",\"version\":1,\"publicKeyType\":\"ed25519\",\"publicKey\":"
        "\"AQEBAQEBAQEBAQEBAQEBAQEBAQEBAQEBAQEBAQEBAQE=\",\"addresses\":[{\"protocol\":\"udp\","
        "\"address\":\"a:1\"}]}";
    memset(out, 0xee, sizeof out);
    expect_part("half a line", tb_write_server(name, 2, 1, key, lines, 7, out, 512), 24, "", out);
    expect_part("a server", tb_write_server(name, 2, 1, key, lines, 8, out, 512), 0, due, out);
    uint32_t version = 1, two = 2, eight = 8;
    memset(out, 0xee, sizeof out);
    struct tb_wrote wrote = tb_write_servers(key, 31, &version, 1, name, 2, &two, 1, lines, 8,
                                             &eight, 1, lines, 0, lines, 0, out, 512);
    expect_part("keys that are not whole", wrote, 21, "", out);
    wrote = tb_write_servers(key, 32, &version, 1, name, 2, &two, 1, lines, 8, &eight, 1, lines, 0,
                             lines, 0, out, 512);
    expect_number("a list that is written", wrote.code, 0);
    expect_number("the length of a list", wrote.length, sizeof due - 1 + 14);
    expect_bytes("the start of a list", out, (const uint8_t *)"{\"servers\":[", 12);
    expect_bytes("the server of a list", out + 12, (const uint8_t *)due, sizeof due - 1);
    expect_number("a list is read back", tb_read_servers(out, wrote.length, out + 448, 64).records,
                  1);
}

/* SREP, DELE and CERT of the draft's response, out of their values, and with a byte of room too
 * little. */
static void expect_server_parts(const uint8_t *packet) {
    const uint8_t *pubk = packet + PUBK_AT, *sig = packet + CERT_SIG_AT, *root = packet + ROOT_AT;
    const uint64_t mint = 1773080680, maxt = 1776273880, midp = 1773685571;
    uint8_t out[200];
    size_t room = sizeof out;
    for (size_t n = 0; n < 2; n++) {
        uint32_t code = n == 0 ? TB_ROOM : 0;
        memset(out, 0xee, room);
        expect_wrote("tb_write_dele", tb_write_dele(pubk, mint, maxt, out, TB_DELE_LENGTH - 1 + n),
                     code, 0, out, room, packet + DELE_AT, DELE_LENGTH);
        memset(out, 0xee, room);
        expect_wrote("tb_write_cert",
                     tb_write_cert(pubk, mint, maxt, sig, out, TB_CERT_LENGTH - 1 + n), code, 0,
                     out, room, packet + CERT_AT, CERT_LENGTH);
        memset(out, 0xee, room);
        expect_wrote("tb_write_srep", tb_write_srep(root, midp, 3, out, TB_SREP_LENGTH - 1 + n),
                     code, 0, out, room, packet + SREP_AT, SREP_LENGTH);
        memset(out, 0xee, room);
        expect_wrote("tb_write_srep with a radius of 0",
                     tb_write_srep(root, midp, 0, out, TB_SREP_LENGTH - 1 + n), TB_VALUE, 0, out,
                     room, out, 0);
    }
}

/* A call of tb_write_response, which can be changed. */
struct reply {
    const uint8_t *request;
    size_t request_len;
    uint32_t indx;
    const uint8_t *root;
    size_t path_len;
    uint64_t midp;
    uint32_t radi;
    const uint8_t *cert;
    size_t cert_len;
    size_t room;
};

static void expect_reply(const char *what, struct reply is, uint64_t code, uint64_t at) {
    static const uint8_t path[36];
    uint8_t out[TB_REQUEST_LENGTH];
    memset(out, 0xee, sizeof out);
    struct tb_wrote wrote = tb_write_response(is.request, is.request_len, is.indx, is.root, path,
                                              is.path_len, is.midp, is.radi, is.cert, is.cert_len,
                                              RESPONSE + SIG_AT, out, is.room);
    expect_wrote(what, wrote, code, at, out, sizeof out, RESPONSE, RESPONSE_LENGTH);
}

/* The draft's response again, out of its request and its values; and each code with those after it,
 * but 23, which comes by itself. */
static void expect_server(const uint8_t *packet) {
    uint8_t request[TB_REQUEST_LENGTH] = {0}, cert[CERT_LENGTH], root[32] = {0};
    tb_write_request(KEY, packet + NONC_AT, request, sizeof request);
    memcpy(cert, packet + CERT_AT, sizeof cert);
    struct reply good = {request, sizeof request, 0, packet + ROOT_AT, 0, 1773685571, 3, cert,
                         sizeof cert, RESPONSE_LENGTH};
    expect_number("bytes of a response", TB_RESPONSE_BYTES(0, CERT_LENGTH), RESPONSE_LENGTH);
    expect_reply("the draft's response", good, 0, 0);

    struct reply bad = good;
    bad.room--;
    expect_reply("a response without room", bad, TB_ROOM, 0);
    bad.midp = 1776273881;
    expect_reply("a response after MAXT", bad, TB_TIME, 0);
    bad.midp = 1773080679;
    expect_reply("a response before MINT", bad, TB_TIME, 0);
    bad.indx = 1;
    expect_reply("a response with another INDX", bad, TB_PATH, 0);
    bad.indx = 0;
    bad.path_len = 36;
    expect_reply("a response with no whole siblings", bad, TB_PATH, 0);
    cert[80 + 4 * 4 + 3] = 0;
    expect_reply("a DELE whose tags do not rise", bad, TB_TAG_ORDER, 80 + 4 * 4);
    cert[4] = 60;
    expect_reply("a CERT whose SIG is short", bad, TB_VALUE, 16);
    cert[8]--;
    expect_reply("a CERT without SIG", bad, TB_TAG_ABSENT, 0);
    cert[5] = 1;
    expect_reply("a CERT with a wrong offset", bad, TB_FRAME, 4);
    bad.cert_len = 0;
    expect_reply("no CERT", bad, TB_FRAME, 0);
    bad.radi = 0;
    expect_reply("a response with a radius of 0", bad, TB_VALUE, 0);
    bad.request_len--;
    expect_reply("a response to a bad request", bad, TB_REQUEST, 0);

    /* A request as long as its response, and one that is shorter. */
    for (size_t n = RESPONSE_LENGTH; n >= RESPONSE_LENGTH - 4; n -= 4) {
        uint8_t out[RESPONSE_LENGTH];
        put_number(request + 8, n - 12, 4);
        tb_leaf(request, n, root);
        struct tb_wrote wrote =
            tb_write_response(request, n, 0, root, request, 0, 1773685571, 3, packet + CERT_AT,
                              CERT_LENGTH, packet + SIG_AT, out, sizeof out);
        expect_number("a response and its request", wrote.code,
                      n == RESPONSE_LENGTH ? 0 : TB_RESPONSE_LENGTH);
        if (wrote.code == 0)
            expect_number("such a response", tb_check_response(request, n, out, n, 1, 1).code, 0);
    }
}

static void expect_words(uint32_t code, const char *should) {
    const char *is = tb_code_text(code);
    compared++;
    if (strcmp(is, should) == 0) return;
    printf("code %u differs: it says '%s', and it should say '%s'\n", (unsigned)code, is, should);
    differing++;
}

/* The words of some codes, among them the first, the last and the longest, and of numbers that are
 * none. */
static void expect_all_words(void) {
    expect_words(TB_PASSED, "passed");
    expect_words(1, "the packet has under 12 or over 2,000 bytes");
    expect_words(TB_SIGNATURE, "the response's signature does not verify");
    expect_words(15, "the pile is not 1 to 16 whole records, or its answers are not two bytes a "
                     "record, each 1 or 0");
    expect_words(TB_UNKNOWN_SERVER, "no list has the server");
    expect_words(23, "the response would be longer than the request that it answers");
    expect_words(TB_REPORT_TEXT, "the text is no report and no server list: not JSON, too deep, or "
                                 "a member missing, repeated or wrong");
    expect_words(25, "the text has no entry, too many, or one with a packet above 2,000 bytes or "
                     "over 8 addresses");
    expect_words(TB_LIST_PLACE, "the list has no such server, address, source or place for "
                                "reports");
    expect_words(1000, "no such code");
    expect_words(29, "an old stamp's date is under 40587, or its microseconds are "
                     "86,401,000,000 or more");
    expect_words(UINT32_MAX, "no such code");
}

/* RFC 8032, section 7.1, all but the one of 1,023 bytes: a seed, its key, a text, its length, a
 * signature. The last text is the digest of "abc". */
enum { LONGEST_SIGNED = 64 };
static const struct {
    const char *seed, *key, *text;
    size_t length;
    const char *signature;
} SIGNED[] = {
    {"9d61b19deffd5a60ba844af492ec2cc44449c5697b326919703bac031cae7f60",
     "d75a980182b10ab7d54bfed3c964073a0ee172f3daa62325af021a68f707511a", "", 0,
     "e5564300c360ac729086e2cc806e828a84877f1eb8e5d974d873e06522490155"
     "5fb8821590a33bacc61e39701cf9b46bd25bf5f0595bbe24655141438e7a100b"},
    {"4ccd089b28ff96da9db6c346ec114e0f5b8a319f35aba624da8cf6ed4fb8a6fb",
     "3d4017c3e843895a92b70aa74d1b7ebc9c982ccf2ec4968cc0cd55f12af4660c", "72", 1,
     "92a009a9f0d4cab8720e820b5f642540a2b27b5416503f8fb3762223ebdb69da"
     "085ac1e43e15996e458f3613d0f11d8c387b2eaeb4302aeeb00d291612bb0c00"},
    {"c5aa8df43f9f837bedb7442f31dcb7b166d38535076f094b85ce3a2e0b4458f7",
     "fc51cd8e6218a1a38da47ed00230f0580816ed13ba3303ac5deb911548908025", "af82", 2,
     "6291d657deec24024827e69c3abe01a30ce548a284743a445e3680d7db5ac3ac"
     "18ff9b538d16f290ae67f760984dc6594a7c15e9716ed28dc027beceea1ec40a"},
    {"833fe62409237b9d62ec77587520911e9a759cec1d19755b7da901b96dca3d42",
     "ec172b93ad5e563bf4932c70e1245034c35467ef2efd4d64ebf819683467e2bf", ABC, LONGEST_SIGNED,
     "dc2a4459e7369633a52b1bf277839a00201009a3efbf3ecb69bea2186c26b589"
     "09351fc9ac90b3ecfdfbc7c66431e0303dca179c138ac17ad9bef1177331a704"},
};

/* A key is made of its seed, and a signature of a text, whole and in every pair of parts, as the
 * RFC prints them; nothing beside them is written. */
static void expect_made(void) {
    for (size_t i = 0; i < sizeof SIGNED / sizeof *SIGNED; i++) {
        uint8_t seed[32], kept[32], text[LONGEST_SIGNED] = {0}, should[64], out[64 + 8];
        size_t n = SIGNED[i].length;
        from_hex(SIGNED[i].seed, seed, 32);
        from_hex(SIGNED[i].text, text, n);
        memcpy(kept, seed, sizeof kept);
        memset(out, 0xee, sizeof out);
        from_hex(SIGNED[i].key, should, 32);
        tb_public_key(seed, out);
        expect_bytes("a public key of RFC 8032", out, should, 32);
        expect_all("what follows a public key", out + 32, 0xee, sizeof out - 32);
        from_hex(SIGNED[i].signature, should, 64);
        tb_sign(seed, text, n, out);
        expect_bytes("a signature that is made", out, should, 64);
        for (size_t k = 0; k <= n; k++) {
            memset(out, 0xee, sizeof out);
            tb_sign_parts(seed, text, k, text + k, n - k, out);
            expect_bytes("a signature of parts", out, should, 64);
        }
        expect_all("what follows a signature", out + 64, 0xee, sizeof out - 64);
        expect_bytes("a seed after all calls", seed, kept, sizeof seed);
    }
}

/* What is made verifies, of texts of 0 to 300 bytes, which are signed whole and in two parts; and
 * not as another text's, nor as another's. */
static void expect_made_verifies(void) {
    uint8_t seed[32], other[32], key[32] = {0}, text[301], whole[64] = {0}, parts[64] = {0};
    for (size_t i = 0; i < sizeof text; i++) text[i] = (uint8_t)(43 * i + 9);
    for (size_t n = 0; n < sizeof text; n += 12) {
        memset(seed, (uint8_t)n, sizeof seed);
        memset(other, (uint8_t)(n + 1), sizeof other);
        tb_public_key(seed, key);
        tb_sign(seed, text, n, whole);
        tb_sign_parts(seed, text, n / 3, text + n / 3, n - n / 3, parts);
        expect_bytes("parts and the whole", parts, whole, sizeof whole);
        expect_number("what is made verifies", tb_verify(key, 32, text, n, whole, 64), 1);
        expect_number("not of a longer text", tb_verify(key, 32, text, n + 1, whole, 64), 0);
        tb_sign(other, text, n, parts);
        expect_number("nor by another seed", tb_verify(key, 32, text, n, parts, 64), 0);
    }
}

/* A signature verifies as it is, in every pair of parts, and not with a byte of it changed. */
static void expect_verified(void) {
    for (size_t i = 0; i < sizeof SIGNED / sizeof *SIGNED; i++) {
        uint8_t key[33] = {0}, text[LONGEST_SIGNED] = {0}, signature[65] = {0};
        size_t n = SIGNED[i].length;
        from_hex(SIGNED[i].key, key, 32);
        from_hex(SIGNED[i].text, text, n);
        from_hex(SIGNED[i].signature, signature, 64);
        expect_number("a signature of RFC 8032", tb_verify(key, 32, text, n, signature, 64), 1);
        for (size_t k = 0; k <= n; k++)
            expect_number("the same in parts",
                          tb_verify_parts(key, 32, text, k, text + k, n - k, signature, 64), 1);
        for (size_t k = 0; k < 64; k++) {
            signature[k]++;
            expect_number("a changed signature", tb_verify(key, 32, text, n, signature, 64), 0);
            signature[k]--;
        }
        for (size_t k = 0; k < 32; k++) {
            key[k]++;
            expect_number("a changed key", tb_verify(key, 32, text, n, signature, 64), 0);
            key[k]--;
        }
        expect_number("a long key", tb_verify(key, 33, text, n, signature, 64), 0);
        expect_number("a short key", tb_verify(key, 31, text, n, signature, 64), 0);
        expect_number("a long signature", tb_verify(key, 32, text, n, signature, 65), 0);
        expect_number("a short signature", tb_verify(key, 32, text, n, signature, 63), 0);
        expect_number("no signature", tb_verify(key, 32, text, n, signature, 0), 0);
    }
}

/* The seeds of a server: of its long-term key, and of the key that it delegates to. */
static const uint8_t LONG_TERM[32] = {0x52}, DELEGATED[32] = {0x51};

/* What a client says of the response of that server, made as the header's section on servers goes,
 * where a key delegates behind some context. */
static uint32_t served(const uint8_t delegating[32], const char *context, size_t context_len) {
    const uint64_t mint = 1773600000, midp = 1773685571, maxt = 1773700000;
    uint8_t pubk[32] = {0}, key[32] = {0}, nonce[32] = {7}, root[32] = {0}, signature[64] = {0};
    uint8_t dele[TB_DELE_LENGTH] = {0}, cert[TB_CERT_LENGTH] = {0}, srep[TB_SREP_LENGTH] = {0};
    uint8_t request[TB_REQUEST_LENGTH] = {0}, out[TB_RESPONSE_BYTES(0, TB_CERT_LENGTH)] = {0};
    tb_public_key(DELEGATED, pubk);
    tb_public_key(LONG_TERM, key);
    tb_write_dele(pubk, mint, maxt, dele, sizeof dele);
    tb_sign_parts(delegating, (const uint8_t *)context, context_len, dele, sizeof dele, signature);
    tb_write_cert(pubk, mint, maxt, signature, cert, sizeof cert);
    tb_write_request(key, nonce, request, sizeof request);
    tb_leaf(request, sizeof request, root);
    tb_write_srep(root, midp, 3, srep, sizeof srep);
    tb_sign_parts(DELEGATED, (const uint8_t *)TB_RESPONSE_CONTEXT, sizeof TB_RESPONSE_CONTEXT, srep,
                  sizeof srep, signature);
    tb_write_response(request, sizeof request, 0, root, request, 0, midp, 3, cert, sizeof cert,
                      signature, out, sizeof out);
    struct tb_verdict said = tb_check_signed(key, request, sizeof request, out, sizeof out);
    expect_number("midp of what is served", said.midp, said.code == TB_PASSED ? midp : 0);
    return said.code;
}

/* It passes, and not where the context is another, or the delegation another's. */
static void expect_served(void) {
    const char *right = TB_DELEGATION_CONTEXT, *wrong = TB_RESPONSE_CONTEXT;
    size_t n = sizeof TB_DELEGATION_CONTEXT, m = sizeof TB_RESPONSE_CONTEXT;
    expect_number("what is signed and served", served(LONG_TERM, right, n), 0);
    expect_number("without the zero byte", served(LONG_TERM, right, n - 1), TB_DELEGATION);
    expect_number("with the other context", served(LONG_TERM, wrong, m), TB_DELEGATION);
    expect_number("delegated by another", served(DELEGATED, right, n), TB_DELEGATION);
}

/* A batch of that server: packets in slots that are a little longer than ours, and room for the
 * answers to each. One place more has room, and must stay as it is. */
enum {
    BATCH = 5,
    BATCH_SLOT = TB_REQUEST_LENGTH + 4,
    BATCH_ROOM = TB_ANSWER_ROOM(TB_CERT_LENGTH) + 3,
    BATCH_ROWS = 15 * 32
};
static const uint64_t BATCH_MINT = 1773600000, BATCH_TIME = 1773685571, BATCH_MAXT = 1773700000;

static struct batch {
    uint8_t key[32], srv[32], cert[TB_CERT_LENGTH];
    uint8_t packets[BATCH * BATCH_SLOT], rows[BATCH_ROWS], out[(BATCH + 1) * BATCH_ROOM];
    uint32_t lengths[TB_MOST_LEAVES + 1], out_lengths[BATCH + 1];
} batch;

/* Lays packets 0, 2 and 4 for that server, 1 for another, and 3 that is longer than its slot. */
static void lay_batch(void) {
    uint8_t pubk[32] = {0}, dele[TB_DELE_LENGTH] = {0}, signature[64] = {0};
    tb_public_key(DELEGATED, pubk);
    tb_public_key(LONG_TERM, batch.key);
    tb_srv_value(batch.key, batch.srv);
    tb_write_dele(pubk, BATCH_MINT, BATCH_MAXT, dele, sizeof dele);
    tb_sign_parts(LONG_TERM, (const uint8_t *)TB_DELEGATION_CONTEXT, sizeof TB_DELEGATION_CONTEXT,
                  dele, sizeof dele, signature);
    tb_write_cert(pubk, BATCH_MINT, BATCH_MAXT, signature, batch.cert, sizeof batch.cert);
    memset(batch.packets, 0x5a, sizeof batch.packets);
    for (uint8_t i = 0; i < BATCH; i++) {
        const uint8_t nonce[32] = {i};
        tb_write_request(i == 1 ? pubk : batch.key, nonce, batch.packets + i * BATCH_SLOT,
                         BATCH_SLOT);
        batch.lengths[i] = i == 3 ? BATCH_SLOT + 1 : TB_REQUEST_LENGTH;
    }
}

/* Clears all that is written, and answers so many of the packets. */
static struct tb_batch answer_some(size_t count, const uint8_t seed[32], uint64_t midp,
                                   uint32_t radi, size_t room) {
    memset(batch.rows, 0xee, sizeof batch.rows);
    memset(batch.out, 0xee, sizeof batch.out);
    memset(batch.out_lengths, 0xee, sizeof batch.out_lengths);
    return tb_answer_batch(batch.packets, sizeof batch.packets, BATCH_SLOT, batch.lengths, count,
                           batch.srv, batch.cert, sizeof batch.cert, seed, midp, radi, batch.rows,
                           sizeof batch.rows, batch.out, sizeof batch.out, room, batch.out_lengths,
                           BATCH + 1);
}

/* Three have an answer of two siblings, the others none, and what follows stays. */
static void expect_answers(void) {
    const size_t n = TB_RESPONSE_BYTES(64, TB_CERT_LENGTH);
    struct tb_batch told = answer_some(BATCH, DELEGATED, BATCH_TIME, 3, BATCH_ROOM);
    expect_number("code of a batch", told.code, 0);
    expect_number("at of a batch", told.at, 0);
    expect_number("answers of a batch", told.answered, 3);
    for (size_t i = 0; i < BATCH; i++) {
        const uint8_t *out = batch.out + i * BATCH_ROOM, *asked = batch.packets + i * BATCH_SLOT;
        size_t length = i % 2 == 0 ? n : 0;
        expect_number("length of an answer", batch.out_lengths[i], length);
        expect_all("what follows an answer", out + length, 0xee, BATCH_ROOM - length);
        if (length == 0) continue;
        struct tb_verdict said =
            tb_check_signed(batch.key, asked, TB_REQUEST_LENGTH, out, length);
        expect_number("an answer that is checked", said.code, 0);
        expect_number("the time of an answer", said.midp, BATCH_TIME);
        expect_number("indx of an answer", tb_read_response(out, length).indx, i / 2);
    }
    expect_all("the room behind a batch", batch.out + BATCH * BATCH_ROOM, 0xee, BATCH_ROOM);
    expect_all("the length behind a batch", (const uint8_t *)(batch.out_lengths + BATCH), 0xee, 4);
    expect_all("what follows the rows", batch.rows + 7 * 32, 0xee, BATCH_ROWS - 7 * 32);
}

/* A refusal, after which all stays. */
static void expect_unanswered(uint32_t code, struct tb_batch told) {
    expect_number("code of a refused batch", told.code, code);
    expect_number("answers of a refused batch", told.answered, 0);
    expect_number("at of a refused batch", told.at, 0);
    expect_all("rows of a refused batch", batch.rows, 0xee, sizeof batch.rows);
    expect_all("out of a refused batch", batch.out, 0xee, sizeof batch.out);
    expect_all("lengths of a refused batch", (const uint8_t *)batch.out_lengths, 0xee,
               sizeof batch.out_lengths);
}

static void expect_batch(void) {
    lay_batch();
    expect_answers();
    batch.lengths[0] = 0;
    struct tb_batch none = answer_some(2, DELEGATED, BATCH_TIME, 3, BATCH_ROOM);
    expect_number("code where nobody is answered", none.code, 0);
    expect_number("answers where nobody is answered", none.answered, 0);
    expect_all("rows where nobody is answered", batch.rows, 0xee, sizeof batch.rows);
    batch.lengths[0] = TB_REQUEST_LENGTH;
    expect_unanswered(TB_ROOM, answer_some(BATCH, DELEGATED, BATCH_MAXT, 3, 511));
    expect_unanswered(TB_LEAVES, answer_some(0, DELEGATED, BATCH_TIME, 3, 0));
    expect_unanswered(TB_LEAVES, answer_some(TB_MOST_LEAVES + 1, DELEGATED, BATCH_MINT, 3, 0));
    expect_unanswered(TB_TIME, answer_some(0, DELEGATED, BATCH_MAXT + 1, 3, 0));
    expect_unanswered(TB_TIME, answer_some(0, DELEGATED, BATCH_MINT - 1, 3, 0));
    expect_unanswered(TB_OTHER_KEY, answer_some(0, LONG_TERM, BATCH_MAXT + 1, 3, 0));
    expect_unanswered(TB_VALUE, answer_some(0, LONG_TERM, BATCH_MAXT + 1, 0, 0));
    batch.cert[0] = 0;
    expect_unanswered(TB_FRAME, answer_some(0, LONG_TERM, BATCH_MAXT + 1, 3, 0));
}

/* The signature of a response that draft 19 prints, over its text and over the parts of that. */
static void expect_signed(const uint8_t *packet) {
    static const char context[] = "RoughTime v1 response signature";
    uint8_t text[TB_LONGEST_TEXT] = {0};
    struct tb_parts parts = tb_signed_parts(packet, RESPONSE_LENGTH);
    size_t n = tb_response_text(packet, RESPONSE_LENGTH, text, sizeof text).length;
    const uint8_t *key = parts.pubk, *signature = parts.signature;
    expect_number("the draft's signature", tb_verify(key, 32, text, n, signature, 64), 1);
    expect_number("the draft's signature in parts",
                  tb_verify_parts(key, 32, (const uint8_t *)context, sizeof context,
                                  packet + SREP_AT, SREP_LENGTH, signature, 64),
                  1);
    expect_number("without the context's zero byte",
                  tb_verify_parts(key, 32, (const uint8_t *)context, sizeof context - 1,
                                  packet + SREP_AT, SREP_LENGTH, signature, 64),
                  0);
    expect_number("the delegation's signature for the response's",
                  tb_verify(key, 32, text, n, parts.delegation, 64), 0);
}

/* The answers about a response under a key, the check that verifies by itself, and the one that
 * takes those answers. */
static void expect_signed_check(const char *what, const uint8_t key[32], const uint8_t *request,
                                size_t n, const uint8_t *response, size_t m, uint8_t delegation,
                                uint8_t signature, struct tb_verdict should) {
    uint8_t out[4] = {0xee, 0xee, 0xee, 0xee};
    tb_answers(key, response, m, out + 1);
    expect_number(what, out[1], delegation);
    expect_number(what, out[2], signature);
    expect_number(what, out[0] + out[3], 2 * 0xee);
    expect_verdict(what, tb_check_signed(key, request, n, response, m), should);
    expect_verdict(what, tb_check_response(request, n, response, m, out[1], out[2]), should);
}

/* Where a byte is changed in the response, and what comes of it. */
static const struct changed {
    const char *what;
    size_t at, n;
    uint32_t code;
    uint8_t delegation, signature;
} CHANGED[] = {
    {"a changed signature", SIG_AT, 64, 13, 1, 0},
    {"a changed delegation", CERT_SIG_AT, 64, 12, 0, 1},
    {"a changed delegated key", PUBK_AT, 32, 12, 0, 0},
    {"a changed MINT", MINT_AT, 2, 12, 0, 1},
    {"a changed MAXT", MAXT_AT, 2, 12, 0, 1},
    {"a changed MIDP", MIDP_AT, 1, 13, 1, 0},
    {"a changed RADI", RADI_AT, 4, 13, 1, 0},
    {"a changed ROOT", ROOT_AT, 32, 10, 1, 0},
    {"a changed nonce", NONC_AT, 32, 9, 1, 1},
    {"a changed TYPE", TYPE_AT, 4, 8, 1, 1},
};

/* The draft's response, by its own signatures: as it is, with a byte changed of it or of the key,
 * and with no signature to be read. */
static void expect_signed_checks(const uint8_t *packet) {
    uint8_t request[TB_REQUEST_LENGTH] = {0}, other[RESPONSE_LENGTH], key[32];
    size_t n = sizeof request, m = sizeof other;
    struct tb_verdict valid = drafts(packet), refused = {.code = 12};
    memcpy(other, packet, m);
    memcpy(key, KEY, sizeof key);
    tb_write_request(KEY, packet + NONC_AT, request, n);
    expect_signed_check("the draft's signatures", key, request, n, packet, m, 1, 1, valid);
    for (size_t i = 0; i < sizeof CHANGED / sizeof *CHANGED; i++) {
        struct changed changed = CHANGED[i];
        refused.code = changed.code;
        for (size_t k = changed.at; k < changed.at + changed.n; k++) {
            other[k]++;
            expect_signed_check(changed.what, key, request, n, other, m, changed.delegation,
                                changed.signature, refused);
            other[k]--;
        }
    }
    refused.code = 12;
    for (size_t k = 0; k < sizeof key; k++) {
        key[k]++;
        expect_signed_check("a changed key", key, request, n, packet, m, 0, 1, refused);
        key[k]--;
    }
    memcpy(other + SIG_AT, packet + CERT_SIG_AT, 64);
    memcpy(other + CERT_SIG_AT, packet + SIG_AT, 64);
    expect_signed_check("signatures exchanged", key, request, n, other, m, 0, 0, refused);
    struct tb_verdict bad = {.code = 14}, cut = {.code = 3}, none = {.code = 1};
    struct tb_verdict value = {.code = 7, .at = RADI_AT};
    expect_signed_check("signed, for a bad request", key, request, n - 1, packet, m, 1, 1, bad);
    expect_signed_check("signed and cut short", key, request, n, packet, m - 1, 0, 0, cut);
    expect_signed_check("nothing signed", key, request, n, packet, 0, 0, 0, none);
    memset(other + RADI_AT, 0, 4);
    expect_signed_check("signed without a radius", key, request, n, other, m, 0, 0, value);
}

/* Holds every form that takes a pile alone to 15. */
static void expect_no_pile(const char *what, const uint8_t *pile, size_t n) {
    static uint8_t out[(TB_MOST_RECORDS + 1) * TB_RECORD_LENGTH];
    struct tb_verdict bad = {.code = 15};
    memset(out, 0xee, sizeof out);
    expect_judged(what, tb_judge_signed(pile, n, 1), 1, bad);
    expect_reported(what, tb_check_signed_report(pile, n), 15, 0, 0, 0);
    expect_cut(what, tb_cut_signed_run(pile, n, out, sizeof out), 15, 0, 0);
    expect_cut(what, tb_cut_signed_run(pile, n, out, 0), 15, 0, 0);
    expect_all(what, out, 0xee, sizeof out);
}

/* The draft's report with a byte changed in one of its records: what is said of that record, of the
 * pile as a report and as one to be cut. The run is that of the first two, so that the third does
 * not matter to it. */
static void expect_changed_record(const char *what, uint8_t *pile, size_t k, size_t at,
                                  uint32_t code) {
    static uint8_t out[REPORT_LENGTH];
    struct tb_verdict refused = {.code = code};
    uint8_t *byte = pile + k * TB_RECORD_LENGTH + at;
    (*byte)++;
    memset(out, 0xee, sizeof out);
    if (code != 17)
        expect_judged(what, tb_judge_signed(pile, REPORT_LENGTH, k), k, refused);
    expect_reported(what, tb_check_signed_report(pile, REPORT_LENGTH), code, k, 0, 0);
    bool stands = k == 2 || (code == 17 && k == 0);
    expect_cut(what, tb_cut_signed_run(pile, REPORT_LENGTH, out, sizeof out), stands ? 0 : 18, 0,
               stands);
    (*byte)--;
}

/* The draft's report, by its own signatures. */
static void expect_signed_report(void) {
    static const uint8_t many[(TB_MOST_RECORDS + 1) * TB_RECORD_LENGTH];
    static uint8_t pile[REPORT_LENGTH], out[REPORT_LENGTH + 8];
    size_t n = REPORT_LENGTH, two = 2 * TB_RECORD_LENGTH;
    struct tb_verdict nothing = {.code = 15};
    lay_report(pile);
    memset(out, 0xee, sizeof out);
    for (size_t k = 0; k < DRAFTS; k++) {
        struct tb_judged alone = tb_judge_signed(pile, n, k);
        struct tb_judged given = tb_judge(pile, n, YES, 2 * DRAFTS, k);
        expect_number("code of a signed record", alone.code, 0);
        expect_number("place of a signed record", alone.place, k);
        expect_number("midp of a signed record", alone.midp, k == 0 ? 1773685571 : 1773599171);
        expect_bytes("a signed record", (const uint8_t *)&alone, (const uint8_t *)&given,
                     sizeof alone);
    }
    expect_judged("no signed record", tb_judge_signed(pile, n, DRAFTS), DRAFTS, nothing);
    expect_reported("tb_check_signed_report", tb_check_signed_report(pile, n), 0, 0, 0, 1);
    expect_reported("tb_check_signed_report of a record",
                    tb_check_signed_report(pile, TB_RECORD_LENGTH), 18, 0, 0, 0);
    expect_cut("tb_cut_signed_run without room", tb_cut_signed_run(pile, n, out, n - 1), 19, 0, 0);
    expect_cut("tb_cut_signed_run of a record",
               tb_cut_signed_run(pile, TB_RECORD_LENGTH, out, sizeof out), 18, 0, 0);
    expect_all("the buffer of a refused signed cut", out, 0xee, sizeof out);
    expect_cut("tb_cut_signed_run", tb_cut_signed_run(pile, n, out, sizeof out), 0, 0, 1);
    expect_bytes("the signed run", out, pile, two);
    expect_all("what follows the signed run", out + two, 0xee, sizeof out - two);
    expect_reported("tb_check_signed_report of the run", tb_check_signed_report(out, two), 0, 0, 0,
                    1);
    for (size_t k = 0; k < DRAFTS; k++) {
        for (size_t i = 0; i < 32; i += 7) {
            expect_changed_record("a key of a pile", pile, k, i, 12);
            expect_changed_record("a rand of a pile", pile, k, RAND_AT + i, 17);
            expect_changed_record("a delegation of a pile", pile, k, RESPONSE_AT + CERT_SIG_AT + i,
                                  12);
        }
        expect_changed_record("a gap of a pile", pile, k, GAP_AT, 16);
        expect_changed_record("a request of a pile", pile, k, REQUEST_AT, 14);
    }
    /* The next record is linked to the whole response, its signature too. */
    for (size_t i = 0; i < 64; i += 9)
        expect_changed_record("a signature of a pile", pile, 2, RESPONSE_AT + SIG_AT + i, 13);
    expect_no_pile("no bytes, signed", pile, 0);
    expect_no_pile("a byte too little, signed", pile, n - 1);
    expect_no_pile("17 records, signed", many, sizeof many);
    expect_no_pile("half a record, signed", pile, TB_RECORD_LENGTH / 2);
}

/* ---- The time ---- */

static void expect_time(const char *what, struct tb_time is, struct tb_time should) {
    expect_number(what, is.code, should.code);
    expect_number(what, is.stopped, should.stopped);
    expect_number(what, is.low, should.low);
    expect_number(what, is.high, should.high);
    expect_number(what, is.counted, should.counted);
    expect_number(what, is.agree, should.agree);
    expect_number(what, is.suspects, should.suspects);
}

static void expect_no_time(const char *what, struct tb_time is, uint32_t code) {
    struct tb_time nothing = {.code = code};
    expect_time(what, is, nothing);
}

/* Compares every number of two states. */
static void expect_clock(const char *what, const struct tb_clock *is,
                         const struct tb_clock *should) {
    expect_number(what, is->drift, should->drift);
    for (size_t i = 0; i < 2 * TB_CLOCK_SERVERS; i++) {
        expect_number(what, is->low[i], should->low[i]);
        expect_number(what, is->high[i], should->high[i]);
        expect_number(what, is->maxt[i], should->maxt[i]);
        expect_number(what, is->sent[i], should->sent[i]);
        expect_number(what, is->received[i], should->received[i]);
    }
}

/* A window that is taken by hand: what stood at the server's first place goes to its second. */
static void put_window(struct tb_clock *clock, size_t server, uint64_t low, uint64_t high,
                       uint64_t maxt, uint64_t sent, uint64_t received) {
    uint64_t *arrays[] = {clock->low, clock->high, clock->maxt, clock->sent, clock->received};
    const uint64_t numbers[] = {low, high, maxt, sent, received};
    for (size_t i = 0; i < 5; i++) {
        arrays[i][2 * server + 1] = arrays[i][2 * server];
        arrays[i][2 * server] = numbers[i];
    }
}

/* Starts write over any state, or leave it. */
static void expect_clock_starts(void) {
    static const struct {
        uint32_t drift, code;
    } STARTS[] = {{0, 0}, {100, 0}, {999999, 0}, {1000000, 32}, {1000001, 32}, {UINT32_MAX, 32}};
    for (size_t i = 0; i < sizeof STARTS / sizeof STARTS[0]; i++) {
        struct tb_clock clock, should = {0};
        memset(&clock, 0xee, sizeof clock);
        should.drift = STARTS[i].drift;
        if (STARTS[i].code != 0) should = clock;
        expect_number("tb_clock_start", tb_clock_start(&clock, STARTS[i].drift), STARTS[i].code);
        expect_clock("a clock that is started", &clock, &should);
    }
}

/* Takes a window, by its numbers and out of an answer, and holds the code and the state to what
 * they should be. No two numbers of an answer are the same, so that none stands in for another. */
static void expect_heard(const char *what, struct tb_clock *clock, uint64_t server, uint64_t sent,
                         uint64_t received, uint32_t code) {
    struct tb_clock should = *clock, by_verdict = *clock, by_walk = *clock;
    const uint64_t low = 1000 + sent, high = 1006 + sent, maxt = 5000 + received;
    const struct tb_verdict said = {.radi = 3, .at = 1, .midp = low + 3, .low = low, .high = high,
                                    .mint = 2, .maxt = maxt};
    const struct tb_took took = {.outcome = TB_MALFEASANCE, .at = 1, .first = 5, .second = 6,
                                 .midp = low + 3, .low = low, .high = high, .mint = 2,
                                 .maxt = maxt, .radi = 3};
    if (code == 0) put_window(&should, (size_t)server, low, high, maxt, sent, received);
    expect_number(what, tb_clock_take(clock, server, low, high, maxt, sent, received), code);
    expect_number(what, tb_clock_take_verdict(&by_verdict, server, said, sent, received), code);
    expect_number(what, tb_clock_take_walked(&by_walk, server, took, sent, received), code);
    expect_clock(what, clock, &should);
    expect_clock(what, &by_verdict, &should);
    expect_clock(what, &by_walk, &should);
}

/* Of an answer that is a refusal nothing is taken, whatever else it holds, and its own code is told
 * before any other. */
static void expect_unheard(const struct tb_clock *clock) {
    struct tb_clock is = *clock;
    const struct tb_verdict said = {.code = TB_SIGNATURE, .low = 1000, .high = 1006, .maxt = 5000};
    const struct tb_took took = {.code = TB_ENDED, .low = 1000, .high = 1006, .maxt = 5000};
    for (uint64_t server = 0; server <= TB_CLOCK_SERVERS; server += TB_CLOCK_SERVERS) {
        expect_number("a refusal", tb_clock_take_verdict(&is, server, said, 9, 9), TB_SIGNATURE);
        expect_number("a walk's refusal", tb_clock_take_walked(&is, server, took, 9, 9), TB_ENDED);
        expect_clock("a clock that takes no refusal", &is, clock);
    }
}

/* Each server's two newest windows, and each refusal before the one that comes after it. */
static void expect_clock_takes(void) {
    struct tb_clock clock = {0};
    tb_clock_start(&clock, 100);
    for (uint64_t server = 0; server < TB_CLOCK_SERVERS; server++) {
        for (uint64_t k = 0; k < 4; k++)
            expect_heard("a window", &clock, server, 10 * k + server, 10 * k + 2 * server, 0);
        const uint64_t last = 30 + 2 * server;
        expect_heard("received before it was sent", &clock, server, 1000, 999, TB_CLOCK);
        expect_heard("received before the last", &clock, server, 0, last - 1, TB_CLOCK);
        expect_heard("received with the last", &clock, server, 0, last, 0);
    }
    expect_heard("a ninth server", &clock, 8, 1000, 999, TB_CLOCK_INPUT);
    expect_heard("a server that is no 32 bits", &clock, (uint64_t)1 << 32, 9, 9, TB_CLOCK_INPUT);
    expect_heard("the last server that there is", &clock, UINT64_MAX, 9, 9, TB_CLOCK_INPUT);
    expect_heard("any moment", &clock, 3, 0, UINT64_MAX, 0);
    expect_unheard(&clock);
}

/* A clock with 100 parts of a million, and three servers, of which the last is nine seconds ahead:
 * each is heard in the first second, and trusted up to second 5000. */
static struct tb_clock three_servers(void) {
    struct tb_clock clock = {0};
    tb_clock_start(&clock, 100);
    tb_clock_take(&clock, 0, 997, 1003, 5000, 70000, 110000);
    tb_clock_take(&clock, 1, 998, 1004, 5000, 70000, 120000);
    tb_clock_take(&clock, 2, 1006, 1012, 5000, 70000, 170000);
    return clock;
}

/* One of three lies. With it as many may lie as there are. */
static void expect_one_liar(void) {
    const struct tb_clock clock = three_servers();
    /* At 170000 the first two say 997.059994 to 1003.100010 and 998.049995 to 1004.100010. */
    for (uint64_t later = 0; later <= 200000; later += 997) {
        const uint64_t down = later * 999900 / 1000000, up = (later * 1000100 + 999999) / 1000000;
        const uint64_t low = 998049995 + down, high = 1003100010 + up;
        struct tb_time one = {.low = low, .high = high, .counted = 3, .agree = 3, .suspects = 4};
        struct tb_time two = {.low = 997059994 + down, .high = 1012100010 + up, .counted = 3,
                              .agree = 7};
        expect_time("one of three may lie", tb_clock_now(&clock, 170000 + later, 1), one);
        expect_time("two of three may lie", tb_clock_now(&clock, 170000 + later, 2), two);
    }
    expect_no_time("nobody lies", tb_clock_now(&clock, 170000, 0), TB_NO_AGREEMENT);
    expect_no_time("nobody lies, later", tb_clock_now(&clock, 3000000000, 0), TB_NO_AGREEMENT);
    expect_no_time("three may lie", tb_clock_now(&clock, 170000, 3), TB_TOO_FEW);
    expect_no_time("any number may lie", tb_clock_now(&clock, 170000, UINT64_MAX), TB_TOO_FEW);
    expect_no_time("a moment before", tb_clock_now(&clock, 169999, 3), TB_CLOCK);
    struct tb_clock later = clock;
    later.received[15] = 170001;
    expect_no_time("a moment before nothing", tb_clock_now(&later, 170000, 3), TB_CLOCK);
    expect_no_time("no drift and no window", tb_clock_now(&(struct tb_clock){0}, 0, 0), TB_TOO_FEW);
}

/* Windows past MAXT, the two windows of a server, and ends that stop. */
static void expect_clock_borders(void) {
    struct tb_clock clock = {0};
    tb_clock_start(&clock, 0);
    tb_clock_take(&clock, 7, 990, 1000, 1000, 0, 0);
    struct tb_time last = {.low = 990999999, .high = 1000999999, .counted = 1, .agree = 128};
    expect_time("the last moment of MAXT", tb_clock_now(&clock, 999999, 0), last);
    expect_no_time("past MAXT", tb_clock_now(&clock, 1000000, 0), TB_TOO_FEW);
    tb_clock_take(&clock, 7, 995, 1005, 5000, 0, 0);
    struct tb_time both = {.low = 995000000, .high = 1000000000, .counted = 1, .agree = 128};
    expect_time("two windows of a server", tb_clock_now(&clock, 0, 0), both);
    expect_no_time("they count once", tb_clock_now(&clock, 0, 1), TB_TOO_FEW);
    struct tb_time newest = {.low = 996000000, .high = 1006000000, .counted = 1, .agree = 128};
    expect_time("one of them past MAXT", tb_clock_now(&clock, 1000000, 0), newest);
    tb_clock_take(&clock, 7, 1100, 1200, 5000, 0, 0);
    expect_no_time("two that contradict", tb_clock_now(&clock, 0, 0), TB_NO_AGREEMENT);
    tb_clock_take(&clock, 0, 0, UINT64_MAX, UINT64_MAX, 0, 0);
    struct tb_time all = {.stopped = 1, .high = UINT64_MAX, .counted = 2, .agree = 1,
                          .suspects = 128};
    expect_time("an end that stopped", tb_clock_now(&clock, 0, 1), all);
    tb_clock_take(&clock, 0, 18446744073710, UINT64_MAX, UINT64_MAX, 0, 0);
    all.low = UINT64_MAX;
    expect_time("two ends that stopped", tb_clock_now(&clock, 5, 1), all);
}

static void expect_clocks(void) {
    expect_number("size of a clock", sizeof(struct tb_clock), 648);
    expect_clock_starts();
    expect_clock_takes();
    expect_one_liar();
    expect_clock_borders();
}

static void expect_piles(void) {
    static uint8_t pile[PILE_LENGTH];
    for (size_t k = 0; k < RECORDS; k++) lay_record(pile + k * TB_RECORD_LENGTH, k, TIMES[k]);
    expect_bad_piles(pile);
    expect_records(pile);
    expect_reuse(pile);
    expect_run(pile);
    expect_report_texts(pile);
    expect_reports(pile);
}

int main(void) {
    const uint8_t *abc = (const uint8_t *)"abc";
    uint8_t packet[RESPONSE_LENGTH];
    memcpy(packet, RESPONSE, sizeof packet);

    expect_digest("the digest of \"abc\"", abc, 3, ABC);
    expect_digest("the digest of the empty message", abc, 0, EMPTY);
    expect_hashes();
    expect_pieces();
    expect_request();
    expect_response(packet);
    expect_parts(packet);
    expect_tree();
    expect_largest_tree();
    expect_made();
    expect_made_verifies();
    expect_served();
    expect_batch();
    expect_verified();
    expect_signed(packet);
    expect_checks(packet);
    expect_signed_checks(packet);
    expect_no_radius(packet);
    expect_versions(packet);
    expect_lookups();
    expect_old_windows();
    expect_piles();
    expect_signed_report();
    expect_tally();
    expect_walks();
    expect_clocks();
    expect_lists();
    expect_server_parts(packet);
    expect_server(packet);
    expect_all_words();
    expect_text(tb_delegation_text, packet, "RoughTime v1 delegation signature", packet + DELE_AT,
                DELE_LENGTH);
    expect_text(tb_response_text, packet, "RoughTime v1 response signature", packet + SREP_AT,
                SREP_LENGTH);
    expect_bytes("the packet after all calls", packet, RESPONSE, sizeof packet);
    if (differing > 0) {
        printf("the C host: %d of %d comparisons differ\n", differing, compared);
        return 1;
    }
    /* xtask counts holds the table of docs/PROVED.md to this line. */
    printf("counted: %d comparisons from C with what the header says\n", compared);
    return fflush(stdout) == 0 ? 0 : 1;
}
