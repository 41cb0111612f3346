/* The proved Roughtime library, for C. Link libtrawlbeacon, which ./install installs. In a clone
 * link libcapi.a, which tools/native-lib makes; it is the same library.
 *
 * - Ask one server: tb_write_request, tb_check_signed.
 * - Know the time from several: tb_clock_start, tb_clock_take_verdict, tb_clock_now.
 * - Prove a lie: tb_walk_start, tb_walk_ask, tb_walk_take_signed, tb_cut_signed_run.
 * - Judge a report: tb_read_report, tb_check_signed_report. Read a list: tb_read_servers.
 * - Run a server: tb_answer_batch.
 *
 * H is Roughtime's hash: the first 32 bytes of SHA-512. H(a, b) is the hash of the bytes a followed
 * by the bytes b. Times are whole seconds since 1970, except for the clock, which uses
 * microseconds, and for the stamps of old captures.
 *
 * What a caller must do, and no compiler checks:
 *
 * - Pass no null pointer. Where a length is 0, pass any pointer that is not null.
 * - Pass pointers to as many bytes as the length after them says, or the array in the declaration.
 * - Initialise out, and every other buffer or state that is written. Let it overlap nothing else
 *   that you pass. Inputs may overlap each other.
 * - Have enough stack: see the constants TB_.._STACK.
 *
 * What every function does:
 *
 * - It takes any bytes, and ends. The same input gives the same answer.
 * - It allocates nothing, and keeps no pointer and no state. Threads may call it at once.
 * - Where it can refuse, it returns a code, or a struct with one. 0 is no refusal. Else it is the
 *   first code that applies, of those that its comment lists and in their order.
 * - On a refusal nothing is written. All other fields are 0, except `at` and `place`.
 * - Where it returns nothing or a bool, it cannot refuse.
 * - It writes from the start of out. The bytes after that stay as they were.
 */
#ifndef TRAWLBEACON_H
#define TRAWLBEACON_H

#include <stdbool.h>
#include <stddef.h>
#include <stdint.h>

#ifdef __cplusplus
extern "C" {
#endif

/* The version of this header. A change of the first number breaks callers. A change of the second
 * may raise the TB_.._STACK numbers. */
#define TB_VERSION_MAJOR 1
#define TB_VERSION_MINOR 3

/* ---- Codes ----
 *
 * With the codes 4 to 7, the field `at` is the byte at which the packet is bad, counted from the
 * packet's first byte. With every other code it is 0 and means nothing. It is the start of:
 *
 * - 4 and 5: the first wrong word of a message's header. That is an offset that is no multiple of
 *   4, falls or leaves the values, or a tag that is not above the one before it. Or it is N, the
 *   number of tags, where that is not 1 to 32 or the header is too long. Where a message's length
 *   is under 4 or no multiple of 4, it is the message itself.
 * - 6: the message that lacks the tag.
 * - 7: the value, which may be empty. Of several wrong values it is the one with the smallest tag.
 */

/* cargo xtask codes makes what is between the two marks from the library's own table. */
/* codes: begin */
enum tb_code {
    /* passed */
    TB_PASSED = 0,
    /* the packet has under 12 or over 2,000 bytes */
    TB_PACKET_SIZE = 1,
    /* the packet does not begin with ROUGHTIM */
    TB_MARK = 2,
    /* the packet's length field differs from the rest */
    TB_PACKET_LENGTH = 3,
    /* a message's length, number of tags, header or offset is wrong */
    TB_FRAME = 4,
    /* the tags of a message do not rise */
    TB_TAG_ORDER = 5,
    /* a needed tag is absent */
    TB_TAG_ABSENT = 6,
    /* a value's length is wrong, a version list does not rise, or RADI is 0 */
    TB_VALUE = 7,
    /* TYPE or the version is wrong, VERS lacks it, or both sides know a higher one */
    TB_TYPE_OR_VERSION = 8,
    /* NONC is not the request's */
    TB_NONCE = 9,
    /* INDX is too large, or the path does not lead to ROOT */
    TB_PATH = 10,
    /* MIDP is outside MINT to MAXT */
    TB_TIME = 11,
    /* the delegation's signature does not verify */
    TB_DELEGATION = 12,
    /* the response's signature does not verify */
    TB_SIGNATURE = 13,
    /* the request that the response answers is bad */
    TB_REQUEST = 14,
    /* the pile is not 1 to 16 whole records, or its answers are not two bytes a record, each 1 or
     * 0 */
    TB_PILE = 15,
    /* a record's lengths are above 2,000, or a byte that must be zero is not */
    TB_RECORD = 16,
    /* the first rand is not zero, or a record is not linked to the one before it */
    TB_LINK = 17,
    /* no two records contradict each other, or no run of records convicts */
    TB_NO_CONTRADICTION = 18,
    /* the buffer is too short */
    TB_ROOM = 19,
    /* the leaves are not 1 to 1,024 whole ones, or the place is past the last */
    TB_LEAVES = 20,
    /* a list of servers is not whole records */
    TB_LISTS = 21,
    /* no list has the server */
    TB_UNKNOWN_SERVER = 22,
    /* the response would be longer than the request that it answers */
    TB_RESPONSE_LENGTH = 23,
    /* the text is no report and no server list: not JSON, too deep, or a member missing, repeated
     * or wrong */
    TB_REPORT_TEXT = 24,
    /* the text has no entry, too many, or one with a packet above 2,000 bytes or over 8
     * addresses */
    TB_ENTRIES = 25,
    /* a response was received before it was sent for, or a moment is before the last receipt */
    TB_CLOCK = 26,
    /* the response took longer than is allowed */
    TB_DELAY = 27,
    /* the walk has ended */
    TB_ENDED = 28,
    /* an old stamp's date is under 40587, or its microseconds are 86,401,000,000 or more */
    TB_OLD_STAMP = 29,
    /* the pieces of a message come to more than 2^64 - 1 bytes */
    TB_PIECES = 30,
    /* the servers of a walk are not 3 to 8 whole keys, or one key stands there twice */
    TB_WALK_SERVERS = 31,
    /* the server of a clock is above 7, or its drift is a million or more */
    TB_CLOCK_INPUT = 32,
    /* no more servers are counted than may lie */
    TB_TOO_FEW = 33,
    /* no time lies in the windows of enough servers */
    TB_NO_AGREEMENT = 34,
    /* the seed's public key is not the PUBK of CERT */
    TB_OTHER_KEY = 35,
    /* the list has no such server, address, source or place for reports */
    TB_LIST_PLACE = 36
};

/* What a code says, in words. */
static inline const char *tb_code_text(uint32_t code) {
    switch (code) {
    case TB_PASSED:
        return "passed";
    case TB_PACKET_SIZE:
        return "the packet has under 12 or over 2,000 bytes";
    case TB_MARK:
        return "the packet does not begin with ROUGHTIM";
    case TB_PACKET_LENGTH:
        return "the packet's length field differs from the rest";
    case TB_FRAME:
        return "a message's length, number of tags, header or offset is wrong";
    case TB_TAG_ORDER:
        return "the tags of a message do not rise";
    case TB_TAG_ABSENT:
        return "a needed tag is absent";
    case TB_VALUE:
        return "a value's length is wrong, a version list does not rise, or RADI is 0";
    case TB_TYPE_OR_VERSION:
        return "TYPE or the version is wrong, VERS lacks it, or both sides know a higher one";
    case TB_NONCE:
        return "NONC is not the request's";
    case TB_PATH:
        return "INDX is too large, or the path does not lead to ROOT";
    case TB_TIME:
        return "MIDP is outside MINT to MAXT";
    case TB_DELEGATION:
        return "the delegation's signature does not verify";
    case TB_SIGNATURE:
        return "the response's signature does not verify";
    case TB_REQUEST:
        return "the request that the response answers is bad";
    case TB_PILE:
        return "the pile is not 1 to 16 whole records, or its answers are not two bytes a record, "
               "each 1 or 0";
    case TB_RECORD:
        return "a record's lengths are above 2,000, or a byte that must be zero is not";
    case TB_LINK:
        return "the first rand is not zero, or a record is not linked to the one before it";
    case TB_NO_CONTRADICTION:
        return "no two records contradict each other, or no run of records convicts";
    case TB_ROOM:
        return "the buffer is too short";
    case TB_LEAVES:
        return "the leaves are not 1 to 1,024 whole ones, or the place is past the last";
    case TB_LISTS:
        return "a list of servers is not whole records";
    case TB_UNKNOWN_SERVER:
        return "no list has the server";
    case TB_RESPONSE_LENGTH:
        return "the response would be longer than the request that it answers";
    case TB_REPORT_TEXT:
        return "the text is no report and no server list: not JSON, too deep, or a member missing, "
               "repeated or wrong";
    case TB_ENTRIES:
        return "the text has no entry, too many, or one with a packet above 2,000 bytes or over 8 "
               "addresses";
    case TB_CLOCK:
        return "a response was received before it was sent for, or a moment is before the last "
               "receipt";
    case TB_DELAY:
        return "the response took longer than is allowed";
    case TB_ENDED:
        return "the walk has ended";
    case TB_OLD_STAMP:
        return "an old stamp's date is under 40587, or its microseconds are 86,401,000,000 or more";
    case TB_PIECES:
        return "the pieces of a message come to more than 2^64 - 1 bytes";
    case TB_WALK_SERVERS:
        return "the servers of a walk are not 3 to 8 whole keys, or one key stands there twice";
    case TB_CLOCK_INPUT:
        return "the server of a clock is above 7, or its drift is a million or more";
    case TB_TOO_FEW:
        return "no more servers are counted than may lie";
    case TB_NO_AGREEMENT:
        return "no time lies in the windows of enough servers";
    case TB_OTHER_KEY:
        return "the seed's public key is not the PUBK of CERT";
    case TB_LIST_PLACE:
        return "the list has no such server, address, source or place for reports";
    default:
        return "no such code";
    }
}
/* codes: end */

/* ---- Lengths ---- */

/* A length, a number of things or a place among them. It has 64 bits on every machine, as in the
 * library, also where a size_t has 32. */
typedef uint64_t tb_size;

/* The bytes of the longest packet that is read. Receive into one byte more: a longer packet is then
 * refused, and not cut off. */
#define TB_LONGEST_PACKET 2000

/* Room for every text that tb_delegation_text and tb_response_text write. */
#define TB_LONGEST_TEXT 2000

/* The bytes of the request that tb_write_request writes. */
#define TB_REQUEST_LENGTH 1036

/* The most leaves of a tree, and the bytes of the rows of the largest tree. */
#define TB_MOST_LEAVES 1024
#define TB_MOST_ROWS_LENGTH (32 * (2 * TB_MOST_LEAVES - 1))

/* Bytes of stack that are enough for every function of a tree. On x86-64 tb_root, tb_path and
 * tb_rows take at most 69,376. tb_leads takes 1,568. hosts/c/stack.c measures them on the machine
 * at hand. */
#define TB_TREE_STACK 131072

/* Bytes of stack that are enough for every function that verifies a signature, except
 * tb_cut_signed_text. On x86-64 a verification takes 7,832, and tb_walk_take_signed, which takes
 * the most, 11,496. hosts/c/stack.c measures them. */
#define TB_VERIFY_STACK 16384

/* Bytes of stack that are enough for tb_public_key, tb_sign and tb_sign_parts. On x86-64 a
 * signature takes 5,368. hosts/c/stack.c measures it. */
#define TB_SIGN_STACK 8192

/* Bytes of stack that are enough for tb_answer_batch. On x86-64 it takes at most 70,160.
 * hosts/c/stack.c measures it. */
#define TB_BATCH_STACK 131072

/* Bytes of stack that are enough for tb_cut_text and tb_cut_signed_text, which keep sixteen records
 * there. On x86-64 they take 72,784 and 74,872. hosts/c/stack.c measures them. The 33 other
 * functions that it measures take at most 13,392. */
#define TB_TEXT_STACK 98304

/* The bytes of a record of a list of servers. */
#define TB_SERVER_LENGTH 64

/* The bytes of a record of a pile, the most records of a pile, and the bytes of the largest pile.
 */
#define TB_RECORD_LENGTH 4096
#define TB_MOST_RECORDS 16
#define TB_MOST_PILE_LENGTH (TB_MOST_RECORDS * TB_RECORD_LENGTH)

/* ---- Hashes ---- */

/* Writes the SHA-512 digest of a message. */
void tb_sha512(const uint8_t *message, tb_size message_len, uint8_t out[64]);

/* Writes the leaf of a request packet in the Merkle tree: H(0x00, packet). */
void tb_leaf(const uint8_t *packet, tb_size packet_len, uint8_t out[32]);

/* Writes the parent of two nodes of the tree: H(0x01, left, right). left and right may be the same
 * bytes. */
void tb_parent(const uint8_t left[32], const uint8_t right[32], uint8_t out[32]);

/* Writes what is at a leaf of the tree where there is no packet: H(0x00). */
void tb_empty_place(uint8_t out[32]);

/* Writes the SRV value of a server's long-term public key: H(0xff, key). By it a request names the
 * server that it is meant for. */
void tb_srv_value(const uint8_t key[32], uint8_t out[32]);

/* Writes the nonce that ties the next request of a chain to a response: H(response, rand). */
void tb_link(const uint8_t *response, tb_size response_len, const uint8_t rand[32],
             uint8_t out[32]);

/* ---- Hashes in pieces ----
 *
 * For a message that comes a read at a time: start, take pieces of any length, and finish. The
 * digest is that of all pieces one after the other, however they were cut. Finishing only reads the
 * state, so you can finish again, and take more pieces after it.
 *
 * The state is yours. You can copy it and keep it. It must be initialised memory before it is
 * started ({0} in C, {} in C++). A state that no start led to does no harm: each function ends,
 * stays within it, and returns the same for the same bytes. */

/* The state: the hash value after the whole blocks so far, the bytes that fill no block yet, and
 * how many bytes there were. */
struct tb_running {
    uint64_t h[8];
    uint8_t rest[128];
    uint64_t count;
};

/* The bytes of a state. */
#define TB_RUNNING_SIZE 200

/* What the functions below call, with the fields of a state one by one. Call those instead. The
 * fields must not overlap each other or the piece. */
void tb_sha512_start_fields(uint64_t h[8], uint8_t rest[128], uint64_t *count);
void tb_leaf_start_fields(uint64_t h[8], uint8_t rest[128], uint64_t *count);
uint32_t tb_sha512_take_fields(uint64_t h[8], uint8_t rest[128], uint64_t *count,
                               const uint8_t *piece, tb_size piece_len);
void tb_sha512_finish_fields(const uint64_t h[8], const uint8_t rest[128], uint64_t count,
                             uint8_t out[64]);
void tb_hash_finish_fields(const uint64_t h[8], const uint8_t rest[128], uint64_t count,
                           uint8_t out[32]);

/* Starts the hash of a message. */
static inline void tb_sha512_start(struct tb_running *state) {
    tb_sha512_start_fields(state->h, state->rest, &state->count);
}

/* Starts the leaf of a request packet, which is the hash of 0x00 and then of the packet. The pieces
 * are those of the packet, and tb_hash_finish writes what tb_leaf writes of the whole. */
static inline void tb_leaf_start(struct tb_running *state) {
    tb_leaf_start_fields(state->h, state->rest, &state->count);
}

/* Takes a piece, which must not overlap the state. It can refuse with 30, where all that was taken
 * would be more than 2^64 - 1 bytes, with the 0x00 of a leaf counted. Then the state stays as it
 * was. */
static inline uint32_t tb_sha512_take(struct tb_running *state, const uint8_t *piece,
                                      tb_size piece_len) {
    return tb_sha512_take_fields(state->h, state->rest, &state->count, piece, piece_len);
}

/* Writes the SHA-512 digest of what was taken so far. */
static inline void tb_sha512_finish(const struct tb_running *state, uint8_t out[64]) {
    tb_sha512_finish_fields(state->h, state->rest, state->count, out);
}

/* Writes H of what was taken so far. After tb_leaf_start that is the leaf of the packet. Where the
 * pieces are a response and then the rand of the next request, it is what tb_link writes. */
static inline void tb_hash_finish(const struct tb_running *state, uint8_t out[32]) {
    tb_hash_finish_fields(state->h, state->rest, state->count, out);
}

/* ---- Requests and responses ----
 *
 * In a response 4 to 7 are judged for the outermost message, then for SREP, then for CERT, then for
 * DELE. A RADI of 0 is a 7 of SREP. 8 comes after all of them. It is returned where one of these
 * holds:
 *
 * - TYPE is not 1, SREP's VER is not 1, or VERS lacks SREP's VER;
 * - there is a request, and its VER lacks SREP's VER;
 * - there is a request, and some version above SREP's VER is in both its VER and VERS. */

/* What a good request says. srv means something only where with_srv is 1, and is zeros where
 * with_srv is 0. */
struct tb_request {
    uint32_t code;
    uint32_t with_srv;
    uint64_t at;
    uint8_t nonc[32];
    uint8_t srv[32];
};

/* Reads a request. It can refuse, in this order, with 1 to 8. */
struct tb_request tb_read_request(const uint8_t *packet, tb_size packet_len);

/* What a good response says. midp is in seconds since 1970, and radi in seconds. */
struct tb_response {
    uint32_t code;
    uint32_t indx;
    uint64_t at;
    uint64_t midp;
    uint32_t radi;
    uint8_t nonc[32];
    uint8_t root[32];
};

/* Reads a response. It can refuse, in this order, with 1 to 8. A response that is read without a
 * refusal need not be valid: tb_check_signed tells that, from its request and both signatures. */
struct tb_response tb_read_response(const uint8_t *packet, tb_size packet_len);

/* What a writer wrote: how many bytes, 0 on a refusal. */
struct tb_wrote {
    uint32_t code;
    uint64_t at;
    uint64_t length;
};

/* Writes the request with this nonce to the server with this long-term key: TB_REQUEST_LENGTH
 * bytes. It can refuse with 19, where out is shorter than that. */
struct tb_wrote tb_write_request(const uint8_t key[32], const uint8_t nonce[32], uint8_t *out,
                                 tb_size out_len);

/* ---- Signatures ----
 *
 * Functions with "signed" in their names verify both signatures of a response themselves:
 * tb_check_signed, tb_judge_signed, tb_check_signed_report, tb_cut_signed_run,
 * tb_write_signed_report, tb_cut_signed_text and tb_walk_take_signed. Use these.
 *
 * For a caller with an Ed25519 of its own there are tb_check_response, tb_judge, tb_check_report,
 * tb_cut_run, tb_write_report, tb_cut_text, tb_pile_contradicts and tb_walk_take. They verify
 * nothing, and take the caller's answers. Such a caller gets the signatures, the key and the texts
 * from tb_signed_parts, tb_delegation_text and tb_response_text, and reads none of them from the
 * packet. A host that reads them from the packet itself can be made to accept a forged time. */

/* Returns whether the signature of the text verifies under the key. This is Ed25519 of RFC 8032,
 * 5.1.7, with S below the group order and the group equation without the cofactor. Any lengths are
 * taken: a key that is not 32 bytes, or a signature that is not 64, is a no. The time that it takes
 * depends on the inputs, so pass nothing secret. It needs TB_VERIFY_STACK. */
bool tb_verify(const uint8_t *key, tb_size key_len, const uint8_t *text, tb_size text_len,
               const uint8_t *signature, tb_size signature_len);

/* Returns what tb_verify returns for the text that is context and then value, with no buffer for
 * the whole. It is a no, too, where the two have more than 2^64 - 65 bytes together. It needs
 * TB_VERIFY_STACK. */
bool tb_verify_parts(const uint8_t *key, tb_size key_len, const uint8_t *context,
                     tb_size context_len, const uint8_t *value, tb_size value_len,
                     const uint8_t *signature, tb_size signature_len);

/* What is verified in a response: its signature (SIG of the outermost message), the delegation's
 * signature (SIG of CERT), and the delegated key (PUBK of DELE). */
struct tb_parts {
    uint32_t code;
    uint64_t at;
    uint8_t signature[64];
    uint8_t delegation[64];
    uint8_t pubk[32];
};

/* Takes the two signatures and the delegated key out of a response. It can refuse, in this order,
 * with 1 to 7. */
struct tb_parts tb_signed_parts(const uint8_t *packet, tb_size packet_len);

/* Writes the text that the delegation signs. The delegation is good if tb_parts.delegation is a
 * signature of this text under the server's long-term key. TB_LONGEST_TEXT bytes are room for any
 * text. The codes are 1 to 7 and 19. */
struct tb_wrote tb_delegation_text(const uint8_t *packet, tb_size packet_len, uint8_t *out,
                                   tb_size out_len);

/* Writes the text that the response signs. The response is good if tb_parts.signature is a
 * signature of this text under tb_parts.pubk. TB_LONGEST_TEXT bytes are room for any text. It can
 * refuse, in this order, with 1 to 7 and 19. */
struct tb_wrote tb_response_text(const uint8_t *packet, tb_size packet_len, uint8_t *out,
                                 tb_size out_len);

/* What a valid response says: the time is from low to high. low is midp - radi, but not below 0,
 * and high is midp + radi, but not above 2^64 - 1. pubk is the delegated key that signed it. mint
 * and maxt are the first and the last second for which that key is trusted. midp is from mint to
 * maxt, while low and high may be outside. On a refusal pubk is zeros. */
struct tb_verdict {
    uint32_t code;
    uint32_t radi;
    uint64_t at;
    uint64_t midp;
    uint64_t low;
    uint64_t high;
    uint64_t mint;
    uint64_t maxt;
    uint8_t pubk[32];
};

/* Checks a response against the request that it answers, with the caller's answers about the
 * signatures. delegation and signature say whether each verifies: 1 is yes, and every other number
 * is no. So you can pass what OpenSSL returns, also -1. It can refuse, in this order, with 14,
 * where the request is bad, and 1 to 13. */
struct tb_verdict tb_check_response(const uint8_t *request, tb_size request_len,
                                    const uint8_t *response, tb_size response_len,
                                    uint32_t delegation, uint32_t signature);

/* Writes whether the two signatures of a response verify, 1 for yes and 0 for no. out[0] is for the
 * delegation, under the server's long-term key. out[1] is for the response, under its delegated
 * key. Both are 0 where one of the codes 1 to 7 applies to the response. It needs TB_VERIFY_STACK.
 */
void tb_answers(const uint8_t key[32], const uint8_t *response, tb_size response_len,
                uint8_t out[2]);

/* Checks a response against the request that it answers, and both signatures, under the server's
 * long-term key. On TB_PASSED the server with this key said, in answer to this request, that the
 * time is from low to high. One server can lie: see the clock. Receive into TB_LONGEST_PACKET + 1
 * bytes.
 *
 * It can refuse, in this order, with 14, where the request is bad, and 1 to 13. Signatures are
 * verified last, and only where no other code applies. The response's is verified only where the
 * delegation's verifies. It needs TB_VERIFY_STACK. */
struct tb_verdict tb_check_signed(const uint8_t key[32], const uint8_t *request,
                                  tb_size request_len, const uint8_t *response,
                                  tb_size response_len);

/* What the two functions below call, with the fields of answers one by one. Call those instead. */
bool tb_may_use_fields(uint32_t code, uint64_t maxt, uint64_t time);
bool tb_same_delegation_fields(uint32_t first_code, const uint8_t first_pubk[32],
                               uint64_t first_mint, uint64_t first_maxt, uint32_t second_code,
                               const uint8_t second_pubk[32], uint64_t second_mint,
                               uint64_t second_maxt);

/* Returns whether the window of an answer that you kept may still be used at a time. It may where
 * the answer's code is 0 and the time is not past its maxt. maxt itself still counts. A time before
 * mint is no obstacle, since low may be before mint, too. For an answer about a record of a pile,
 * pass what tb_verdict_of returns. */
static inline bool tb_may_use(struct tb_verdict kept, uint64_t time) {
    return tb_may_use_fields(kept.code, kept.maxt, time);
}

/* Returns whether two answers come from one delegation. They do where both codes are 0 and pubk,
 * mint and maxt are equal, which is all that DELE holds (draft 19, 5.2.6). Refused answers come
 * from none. An answer does not name the long-term key, so compare also under which key each was
 * checked. */
static inline bool tb_same_delegation(struct tb_verdict first, struct tb_verdict second) {
    return tb_same_delegation_fields(first.code, first.pubk, first.mint, first.maxt, second.code,
                                     second.pubk, second.mint, second.maxt);
}

/* ---- Trees ----
 *
 * A tree has 1 to TB_MOST_LEAVES leaves of 32 bytes, one after the other. It has 2^depth places for
 * them, as few as will do, and each empty place holds H(0x00). Places count from 0 at the left. A
 * leaf has depth siblings of 32 bytes, at most 10, and its indx is its place. A server that answers
 * a batch builds the tree once, by tb_rows, and takes each path by tb_path_from. */

/* Returns whether the siblings of a path lead from the leaf to the root, and indx needs no more
 * bits than there are siblings. Where a bit of indx is 0, the hash so far is the left child and the
 * sibling the right one (draft 19, 5.3.1). A path that is not 0 to 32 whole siblings leads nowhere.
 */
bool tb_leads(const uint8_t leaf[32], uint32_t indx, const uint8_t *path, tb_size path_len,
              const uint8_t root[32]);

/* The root of a tree, and its depth. */
struct tb_rooted {
    uint32_t code;
    uint32_t depth;
    uint8_t root[32];
};

/* Returns the root of the tree of these leaves. It can refuse with 20. It needs TB_TREE_STACK. */
struct tb_rooted tb_root(const uint8_t *leaves, tb_size leaves_len);

/* The place of a leaf, and how many siblings were written. */
struct tb_placed {
    uint32_t code;
    uint32_t indx;
    uint32_t depth;
};

/* Writes the siblings of the leaf at a place, first the one beside it: 32 * depth bytes, at
 * most 320. It can refuse, in this order, with 20 and 19. It needs TB_TREE_STACK. */
struct tb_placed tb_path(const uint8_t *leaves, tb_size leaves_len, tb_size place, uint8_t *out,
                         tb_size out_len);

/* The depth of the tree whose rows were written, and how many bytes they are. */
struct tb_laid {
    uint32_t code;
    uint32_t depth;
    uint64_t length;
};

/* Writes all rows of a tree, first the leaves with every empty place, and last the root. These are
 * 2^(depth + 1) - 1 nodes of 32 bytes, and the root is the 32 bytes at out + length - 32.
 * TB_MOST_ROWS_LENGTH bytes are always enough. It can refuse, in this order, with 20 and 19. It
 * needs TB_TREE_STACK. */
struct tb_laid tb_rows(const uint8_t *leaves, tb_size leaves_len, uint8_t *out, tb_size out_len);

/* Writes the siblings of the leaf at a place, as tb_path does, out of the rows that tb_rows wrote
 * for count leaves: 32 * depth bytes, at most 320. Nothing is hashed, and other rows are taken as
 * they are. It can refuse, in this order, with 20, also where the rows are too short for that many
 * leaves, and 19. */
struct tb_placed tb_path_from(const uint8_t *rows, tb_size rows_len, tb_size count, tb_size place,
                              uint8_t *out, tb_size out_len);

/* ---- Signing ----
 *
 * Ed25519 of RFC 8032, 5.1.5 and 5.1.6. A key is its seed, which the RFC calls the private key: 32
 * bytes of a good random source that nobody else has. The public key is made of the seed in each
 * call. You never pass it: with two public keys, two signatures of one text would reveal the
 * private key. The same seed and text have the same signature.
 *
 * The seed is secret. No branch and no address depends on it: on x86-64 that is tested in the
 * compiled code, on the paths that tools/try-secrets runs, and it is not proved. What was computed
 * from a seed stays below the caller's stack, which the library cannot wipe. SECURITY.md says what
 * else is not promised, and what a host must do. */

/* Writes the public key of a seed. It needs TB_SIGN_STACK. */
void tb_public_key(const uint8_t seed[32], uint8_t out[32]);

/* Writes the signature of a text. It verifies by tb_verify under the seed's public key. It needs
 * TB_SIGN_STACK. */
void tb_sign(const uint8_t seed[32], const uint8_t *text, tb_size text_len, uint8_t out[64]);

/* Writes the signature of the text that is context and then value, with no buffer for the whole.
 * Where the two have more than 2^64 - 65 bytes together, which no host has, it writes 64 zero
 * bytes. It needs TB_SIGN_STACK. */
void tb_sign_parts(const uint8_t seed[32], const uint8_t *context, tb_size context_len,
                   const uint8_t *value, tb_size value_len, uint8_t out[64]);

/* ---- Servers ----
 *
 * tb_answer_batch answers a whole batch in one call, and signs it:
 *
 * 1. Once for each delegated key: tb_write_dele; sign TB_DELEGATION_CONTEXT and then those bytes
 *    with the long-term key; tb_write_cert. Do this on another machine, which no packet reaches. It
 *    gets the delegated public key, and gives back CERT.
 * 2. Receive up to TB_MOST_LEAVES packets into slots of one size. Call tb_answer_batch. Send each
 *    answer whose length is not 0 back to where its packet came from.
 *
 * Where the delegated key is in hardware, or signs elsewhere, do the same in steps:
 *
 * 1. As above.
 * 2. Read each packet by tb_read_request, and ignore what it refuses. Ignore what names another
 *    server, too: with_srv is 1, and srv is not tb_srv_value of the long-term key (draft 19, 5.2).
 *    tb_write_response does not look at that. A server with several long-term keys takes the key
 *    that srv names, and ignores what has with_srv 0.
 * 3. For each batch of the others: tb_leaf of each, tb_rows, and tb_write_srep once, with the root,
 *    which is the last 32 of tb_laid.length bytes. Sign TB_RESPONSE_CONTEXT and then those bytes
 *    with the delegated key.
 * 4. For each request: tb_path_from and tb_write_response.
 *
 * One signature serves the whole batch. Each response passes tb_check_response for its own request
 * where both signatures verify. */

/* The bytes before DELE and before SREP where they are signed, with the zero byte of each string:
 * 34 and 32 bytes, as sizeof tells. */
#define TB_DELEGATION_CONTEXT "RoughTime v1 delegation signature"
#define TB_RESPONSE_CONTEXT "RoughTime v1 response signature"

/* The bytes that tb_write_dele, tb_write_cert, tb_write_srep and tb_write_response write. */
#define TB_DELE_LENGTH 72
#define TB_CERT_LENGTH 152
#define TB_SREP_LENGTH 92
#define TB_RESPONSE_BYTES(path_len, cert_len) (264 + (path_len) + (cert_len))

/* Writes DELE, TB_DELE_LENGTH bytes: the delegated public key, and the first and the last second at
 * which it may sign. The code is 19. */
struct tb_wrote tb_write_dele(const uint8_t pubk[32], uint64_t mint, uint64_t maxt, uint8_t *out,
                              tb_size out_len);

/* Writes CERT, TB_CERT_LENGTH bytes: the DELE of these three, and a signature. The signature is the
 * long-term key's, over TB_DELEGATION_CONTEXT and then the bytes that tb_write_dele writes for the
 * same three. It can refuse with 19. */
struct tb_wrote tb_write_cert(const uint8_t pubk[32], uint64_t mint, uint64_t maxt,
                              const uint8_t signature[64], uint8_t *out, tb_size out_len);

/* Writes SREP, TB_SREP_LENGTH bytes, with VER 1 and VERS {1}: the root of a batch, the time and its
 * radius. It can refuse, in this order, with 7, where radi is 0, and 19. Beside this 7, at is 0. */
struct tb_wrote tb_write_srep(const uint8_t root[32], uint64_t midp, uint32_t radi, uint8_t *out,
                              tb_size out_len);

/* Writes the response to a request. indx and path are the place of its leaf and its siblings. cert
 * is the value of CERT. signature is that over what tb_write_srep writes for the same root, midp
 * and radi.
 *
 * out of TB_RESPONSE_BYTES(path_len, cert_len) bytes is enough. It can refuse, in this order, with:
 *
 * - 14;
 * - 7, where radi is 0;
 * - 4 to 7 of CERT, then of its DELE;
 * - 10, also where the path is not 0 to 32 whole siblings;
 * - 11;
 * - 23, where the response would be longer than the request;
 * - 19.
 *
 * at is a byte of the value of CERT, counted from its first. Beside 7 it is 0 exactly where radi is
 * 0, since no value of CERT starts there. */
struct tb_wrote tb_write_response(const uint8_t *request, tb_size request_len, uint32_t indx,
                                  const uint8_t root[32], const uint8_t *path, tb_size path_len,
                                  uint64_t midp, uint32_t radi, const uint8_t *cert,
                                  tb_size cert_len, const uint8_t signature[64], uint8_t *out,
                                  tb_size out_len);

/* How many packets of a batch were answered, 0 on a refusal. */
struct tb_batch {
    uint32_t code;
    uint64_t at;
    uint64_t answered;
};

/* Room for every answer to a batch of up to TB_MOST_LEAVES packets. */
#define TB_ANSWER_ROOM(cert_len) TB_RESPONSE_BYTES(320, (cert_len))

/* Answers a batch: writes the response to each packet that gets one, with one signature for all.
 *
 * Packet i is the first lengths[i] bytes of the slot that starts at packets + i * slot. lengths_len
 * says how many packets there are, 1 to TB_MOST_LEAVES. It counts numbers and not bytes, and so
 * does out_lengths_len. srv is tb_srv_value of the long-term key, cert the value of CERT, seed that
 * of the delegated key, midp the time and radi its radius.
 *
 * Who is answered. A packet is meant for this server if it is no longer than its slot,
 * tb_read_request takes it, and it has no SRV or this one (draft 19, 5.2). A server with several
 * long-term keys must ignore packets without SRV, and must remove them before the call. A packet
 * that is meant for the server is answered if it has at least 264 + 32 * d + cert_len bytes. Here d
 * is the smallest number such that at most 2^d of these packets have that many bytes. So no answer
 * is longer than its request. A packet that is too short for any answer changes nothing for the
 * others. The tree is that of the answered packets in their order, and its depth may be less than
 * d.
 *
 * What is written. out_lengths[i] is the length of the answer to packet i, or 0. That answer starts
 * at out + i * room. The front of rows is what tb_rows writes for the leaves of the answered
 * packets. All else stays: the rest of each room, the room of a packet without answer, out_lengths
 * behind the packets', and all of rows where nobody is answered, which is no refusal. rows, out and
 * out_lengths overlap nothing. TB_MOST_ROWS_LENGTH bytes of rows, and a room of
 * TB_ANSWER_ROOM(cert_len), are always enough. It needs TB_BATCH_STACK.
 *
 * Each answer is what tb_write_response writes of the same. It passes tb_check_signed for its
 * request if the long-term key signed CERT, which is not checked here. The seed's public key, which
 * is no secret, is compared with PUBK.
 *
 * It can refuse, in this order, with:
 *
 * - 7, where radi is 0;
 * - 4 to 7 of CERT, then of its DELE, with at as in tb_write_response;
 * - 35, where PUBK of CERT is not the seed's public key;
 * - 11, where midp is outside MINT to MAXT;
 * - 20, where there is no packet, or more than TB_MOST_LEAVES;
 * - 19, where packets_len is below lengths_len slots, out_len below lengths_len rooms, or
 *   out_lengths_len below lengths_len. Also where, with e the depth of a tree of lengths_len
 *   leaves, rows_len is below 32 * (2^(e+1) - 1) or room is below 264 + 32 * e + cert_len. */
struct tb_batch tb_answer_batch(const uint8_t *packets, tb_size packets_len, tb_size slot,
                                const uint32_t *lengths, tb_size lengths_len, const uint8_t srv[32],
                                const uint8_t *cert, tb_size cert_len, const uint8_t seed[32],
                                uint64_t midp, uint32_t radi, uint8_t *rows, tb_size rows_len,
                                uint8_t *out, tb_size out_len, tb_size room, uint32_t *out_lengths,
                                tb_size out_lengths_len);

/* ---- Lists of servers ---- */

/* Where a server was found. list is 0 for the owner's list and 1 for the shipped one. The record is
 * the TB_SERVER_LENGTH bytes at offset there. */
struct tb_found {
    uint32_t code;
    uint32_t list;
    uint64_t offset;
};

/* Looks up the server with the SRV value srv, in the owner's list and then in the shipped one. A
 * list is records of TB_SERVER_LENGTH bytes, each a long-term key and then its SRV value. It may be
 * empty. The first match wins. That an SRV value belongs to its key is not checked. It can refuse,
 * in this order, with 21, where a list is not whole records, and 22, where neither list has the
 * server. */
struct tb_found tb_find_server(const uint8_t *owner, tb_size owner_len, const uint8_t *shipped,
                               tb_size shipped_len, const uint8_t srv[32]);

/* Lists of servers also come as JSON, as others publish them (draft 19, section 8.3). Such a text
 * is an object with "servers", a list of objects. Each has "name", "version", "publicKeyType",
 * "publicKey" and "addresses", once each. The outer object may have "sources" and "reports". Other
 * members are skipped.
 *
 * A server can be asked where its publicKeyType is "ed25519", its version is written 1 and its key
 * has 32 bytes. Other servers are passed over, and counted. Places count from 0. Places of servers
 * count servers that can be asked, in the order of their records.
 *
 * The five readers below can refuse, in this order, with:
 *
 * - 24: the text is no such list, for one of the reasons below. Every server is looked at, also one
 *   that is passed over.
 * - 25: there is no server, more than TB_LISTED_SERVERS, or one with more than TB_LISTED_ADDRESSES
 *   addresses.
 * - 36: there is nothing at the place that is asked for.
 * - 19: the buffer is too short. What is written is never longer than the text.
 *
 * The reasons for 24:
 *
 * - it is not JSON, or objects and arrays nest deeper than 16;
 * - a member other than "sources" and "reports" is missing;
 * - a named member is there twice, or is of another kind;
 * - a version has a fraction or an exponent, or a key is no base64;
 * - a name, an address or a URL contains half a pair of surrogates;
 * - a protocol is neither "tcp" nor "udp", or an address is no host and port;
 * - a URL is not one of https, or is longer than 2,048 bytes. */

/* The most servers of such a list, and the most addresses of a server. */
#define TB_LISTED_SERVERS 64
#define TB_LISTED_ADDRESSES 8

/* How many records were written, and how many servers were passed over. */
struct tb_servers {
    uint32_t code;
    uint64_t records;
    uint64_t passed_over;
};

/* Writes the record of each server that can be asked, in the list's order and TB_SERVER_LENGTH
 * bytes each. tb_find_server takes these records. TB_LISTED_SERVERS * TB_SERVER_LENGTH bytes are
 * always enough. It can refuse, in this order, with 24, 25 and 19. */
struct tb_servers tb_read_servers(const uint8_t *text, tb_size text_len, uint8_t *out,
                                  tb_size out_len);

/* Writes the name of the server at a place, in UTF-8. The name is for people. It may hold any
 * characters, so do not print it to a terminal as it is. A buffer as long as the text is always
 * enough. It can refuse, in this order, with 24, 25, 36 and 19. */
struct tb_wrote tb_server_name(const uint8_t *text, tb_size text_len, tb_size place, uint8_t *out,
                               tb_size out_len);

/* An address of a server. tcp is 1 for TCP and 0 for UDP, and length says how many bytes it has. */
struct tb_addressed {
    uint32_t code;
    uint32_t tcp;
    uint64_t length;
};

/* Writes an address of the server at a place; which is the place of the address. It is a host, a
 * colon and a port from 0 to 65535. The host is an IPv4 address, an IPv6 address in brackets, or a
 * name. A buffer as long as the text is always enough. It can refuse, in this order, with 24, 25,
 * 36 and 19. */
struct tb_addressed tb_server_address(const uint8_t *text, tb_size text_len, tb_size place,
                                      tb_size which, uint8_t *out, tb_size out_len);

/* Writes the URL at a place of "sources", where a GET returns newer lists. A buffer as long as the
 * text is always enough. It can refuse, in this order, with 24, 25, 36 and 19. */
struct tb_wrote tb_list_source(const uint8_t *text, tb_size text_len, tb_size place, uint8_t *out,
                               tb_size out_len);

/* Writes the URL of "reports", to which reports may be sent by POST (draft 19, section 8.4.2). A
 * buffer as long as the text is always enough. It can refuse, in this order, with 24, 25, 36, where
 * the list names none, and 19. */
struct tb_wrote tb_list_reports(const uint8_t *text, tb_size text_len, uint8_t *out,
                                tb_size out_len);

/* Writes one server as an object of such a list, without blanks, and with escapes only where they
 * are needed. Its publicKeyType is "ed25519". addresses has a line for each address: udp or tcp, a
 * blank, a host, a colon, a port and a line feed. It can refuse, in this order, with 24, where the
 * name is not UTF-8 or a line is wrong; 25, where there are more than TB_LISTED_ADDRESSES; and 19,
 * where a larger buffer is needed. */
struct tb_wrote tb_write_server(const uint8_t *name, tb_size name_len, uint32_t version,
                                const uint8_t key[32], const uint8_t *addresses,
                                tb_size addresses_len, uint8_t *out, tb_size out_len);

/* Writes a whole list, with as many servers as there are versions. keys has 32 bytes a server.
 * names has all names one after the other, and name_lengths the length of each. addresses has the
 * lines of all servers, as tb_write_server takes them, and address_lengths the length of each
 * server's lines. sources has a line for each URL, and reports is a URL. Where either is empty the
 * list has no such member. The lengths of versions, name_lengths and address_lengths count numbers.
 *
 * It can refuse, in this order, with:
 *
 * - 21, where keys_len is not 32 a server, name_lengths or address_lengths has not one number a
 *   server, or their sums are not names_len and addresses_len;
 * - 24, as in tb_write_server, and where a URL is not one of https or is longer than 2,048 bytes;
 * - 25, where there is no server, more than TB_LISTED_SERVERS, or one with more than
 *   TB_LISTED_ADDRESSES addresses;
 * - 19, where a larger buffer is needed. */
struct tb_wrote tb_write_servers(const uint8_t *keys, tb_size keys_len, const uint32_t *versions,
                                 tb_size versions_len, const uint8_t *names, tb_size names_len,
                                 const uint32_t *name_lengths, tb_size name_lengths_len,
                                 const uint8_t *addresses, tb_size addresses_len,
                                 const uint32_t *address_lengths, tb_size address_lengths_len,
                                 const uint8_t *sources, tb_size sources_len,
                                 const uint8_t *reports, tb_size reports_len, uint8_t *out,
                                 tb_size out_len);

/* ---- Piles and reports ----
 *
 * A pile is 1 to TB_MOST_RECORDS records of TB_RECORD_LENGTH bytes, one after the other. Places of
 * records count from 0. A record holds a request and the response that answers it. Every number has
 * its least significant byte first:
 *
 *          0 to   31  the server's long-term key
 *         32 to   63  rand
 *         64 to   67  the length of the request, at most TB_LONGEST_PACKET
 *         68 to   71  the length of the response, at most TB_LONGEST_PACKET
 *         72 to   95  zeros
 *         96 to 2095  the request packet, and zeros after it
 *       2096 to 4095  the response packet, and zeros after it
 *
 * Functions with "signed" in their names verify the signatures of each record by the key in it. The
 * others take the caller's answers beside the pile, and do not read the key. Answers are two bytes
 * a record, in the records' order: whether the delegation's signature verifies, and whether the
 * response's does. 1 is yes, 0 is no, and no other byte is allowed.
 *
 * A record is valid where none of 16, 14 and 1 to 13 applies to it. It is linked where the nonce of
 * its request is tb_link of the whole response packet of the record before it and of its own rand.
 */

/* Returns 15 where a pile is not 1 to 16 whole records or its answers are not two bytes a record,
 * each 1 or 0. Else it returns 0. The records are not looked at. */
uint32_t tb_pile_code(const uint8_t *pile, tb_size pile_len, const uint8_t *answers,
                      tb_size answers_len);

/* What is said of one record: its window and its key, as in tb_verdict, or a refusal. place is the
 * place that was asked for, also on a refusal. at is a byte of the record's response packet. */
struct tb_judged {
    uint32_t code;
    uint32_t radi;
    uint64_t place;
    uint64_t at;
    uint64_t midp;
    uint64_t low;
    uint64_t high;
    uint64_t mint;
    uint64_t maxt;
    uint8_t pubk[32];
};

/* Returns the same answer as a tb_verdict, without the place, for tb_may_use, tb_same_delegation
 * and tb_clock_take_verdict. */
static inline struct tb_verdict tb_verdict_of(struct tb_judged judged) {
    struct tb_verdict verdict;
    verdict.code = judged.code;
    verdict.radi = judged.radi;
    verdict.at = judged.at;
    verdict.midp = judged.midp;
    verdict.low = judged.low;
    verdict.high = judged.high;
    verdict.mint = judged.mint;
    verdict.maxt = judged.maxt;
    for (int i = 0; i < 32; i++) verdict.pubk[i] = judged.pubk[i];
    return verdict;
}

/* Judges the record at a place by the caller's answers. Links and rands are not checked. It can
 * refuse, in this order, with 15, also where there is no such record, 16, 14 and 1 to 13. */
struct tb_judged tb_judge(const uint8_t *pile, tb_size pile_len, const uint8_t *answers,
                          tb_size answers_len, tb_size place);

/* Judges the record at a place, and verifies its signatures by the key in the record. Links and
 * rands are not checked. It can refuse, in this order, with 15, where the pile is not 1 to 16 whole
 * records or there is no such record, 16, 14 and 1 to 13. Signatures are verified last, and only
 * where no other code applies. It needs TB_VERIFY_STACK. */
struct tb_judged tb_judge_signed(const uint8_t *pile, tb_size pile_len, tb_size place);

/* Returns whether the record at a place is linked to the one before it. It is not, where that
 * cannot be asked: the pile is not 1 to 16 whole records, there is no such record or none before
 * it, the request is bad, or a length that is needed is above 2,000. */
bool tb_linked(const uint8_t *pile, tb_size pile_len, tb_size place);

/* Returns whether the rand of the first record is all zero. It is not where the pile is not 1 to 16
 * whole records. */
bool tb_first_rand_zero(const uint8_t *pile, tb_size pile_len);

/* Returns true where an earlier window contradicts a later one: earlier_midp - earlier_radi is
 * above later_midp + later_radi, without overflow. mint, maxt and the keys play no part. */
bool tb_contradicts(uint64_t earlier_midp, uint32_t earlier_radi, uint64_t later_midp,
                    uint32_t later_radi);

/* Returns whether a valid record of a pile contradicts a later valid one, as a code, since a pile
 * can be refused:
 *
 * - 0, TB_PASSED: yes. (tb_contradicts returns true for that.)
 * - 18: no.
 * - 15: the pile or its answers are not what they must be.
 *
 * Links, rands and bad records between the two are not looked at: 0 does not say that a run
 * convicts by itself. */
uint32_t tb_pile_contradicts(const uint8_t *pile, tb_size pile_len, const uint8_t *answers,
                             tb_size answers_len);

/* What is kept of windows that are judged as they come: the largest midp - radi so far, which stops
 * at 0, and 0 before any. The state is yours, and can be copied and kept. Any value is safe. */
struct tb_tally {
    uint64_t most;
};

/* What the two functions below call, with the number that is kept. Call those instead. */
void tb_tally_start_field(uint64_t *most);
bool tb_tally_take_field(uint64_t *most, uint64_t midp, uint32_t radi);

/* Starts, before any window. */
static inline void tb_tally_start(struct tb_tally *tally) {
    tb_tally_start_field(&tally->most);
}

/* Takes one more window, and returns whether some window that was taken before contradicts it. So
 * two of many windows contradict each other exactly where one of the answers is true. */
static inline bool tb_tally_take(struct tb_tally *tally, uint64_t midp, uint32_t radi) {
    return tb_tally_take_field(&tally->most, midp, radi);
}

/* What the check of a report says. On 0, first and second are the places of the two records that
 * contradict each other, first below second. On 1 to 14, 16 and 17, place is that of the record to
 * which the code applies; else it is 0 and means nothing. at is a byte of that record's response
 * packet. */
struct tb_reported {
    uint32_t code;
    uint64_t place;
    uint64_t at;
    uint64_t first;
    uint64_t second;
};

/* Checks whether a pile is a report, by the caller's answers. It is one where each record is valid,
 * the first rand is all zero, each later record is linked, and some two records contradict each
 * other. If several pairs do, it names the closest pair, and the first of equally close ones.
 *
 * It can refuse, in this order, with:
 *
 * - 15;
 * - 16, 14 or 1 to 13, of the first record that is not valid;
 * - 17, of the first record that is not linked, or of record 0 where its rand is not zero;
 * - 18. */
struct tb_reported tb_check_report(const uint8_t *pile, tb_size pile_len, const uint8_t *answers,
                                   tb_size answers_len);

/* Checks whether a pile is a report, as tb_check_report does, and verifies the signatures of each
 * record by the key in it. Look up whose keys are in the records: anybody can make a report with
 * keys of his own. It needs TB_VERIFY_STACK. It can refuse, in this order, with:
 *
 * - 15, where the pile is not 1 to 16 whole records;
 * - 16, 14 or 1 to 13, of the first record that is not valid;
 * - 17, of the first record that is not linked, or of record 0 where its rand is not zero;
 * - 18. */
struct tb_reported tb_check_signed_report(const uint8_t *pile, tb_size pile_len);

/* Which run was cut: the places in the pile of its first and last record. */
struct tb_cut {
    uint32_t code;
    uint64_t first;
    uint64_t last;
};

/* Cuts out of a pile the shortest run of records that convicts by itself, and the first of equally
 * short ones. A run is records in a row. Its records are valid by the caller's answers, each after
 * its first is linked, and two of them contradict each other. A bad record is no refusal, but no
 * run goes through it.
 *
 * It writes the run's (last - first + 1) * TB_RECORD_LENGTH bytes, with the rand of its first
 * record set to zero. With the answers of its records the run is then a report. out must be as long
 * as the pile, however short the run is. It can refuse, in this order, with 15, 19 and 18. */
struct tb_cut tb_cut_run(const uint8_t *pile, tb_size pile_len, const uint8_t *answers,
                         tb_size answers_len, uint8_t *out, tb_size out_len);

/* Cuts out the shortest run that convicts by itself, as tb_cut_run does, and verifies the
 * signatures of each record by the key in it. It writes (last - first + 1) * TB_RECORD_LENGTH
 * bytes, which are a report by tb_check_signed_report. out must be as long as the pile, however
 * short the run is. It can refuse, in this order, with 15, 19 and 18. It needs TB_VERIFY_STACK. */
struct tb_cut tb_cut_signed_run(const uint8_t *pile, tb_size pile_len, uint8_t *out,
                                tb_size out_len);

/* ---- Reports as JSON ----
 *
 * The maintainers of lists take reports in the public format of draft 19, section 8.4.1. It is a
 * JSON object with the member responses, a list of objects. Each has the members rand, publicKey,
 * request and response, which are strings of base64. These functions turn such a text into records
 * of a pile, and back. */

/* The bytes of the longest text that is written. A text that is read may be longer. */
#define TB_LONGEST_REPORT 87609

/* How many records were read. */
struct tb_records {
    uint32_t code;
    uint64_t records;
};

/* Reads a text, and writes its records, TB_RECORD_LENGTH bytes each. It can refuse, in this order,
 * with:
 *
 * - 24: the text is no report, for one of the reasons below. All entries are checked for 24 before
 *   25 is.
 * - 25: there is no entry or more than 16, or a packet has more than 2,000 bytes.
 * - 19: out has fewer than TB_RECORD_LENGTH bytes a record. TB_MOST_PILE_LENGTH is always enough.
 *
 * The reasons for 24:
 *
 * - it is not JSON (RFC 8259): it is not UTF-8, has a byte order mark, has anything but blanks
 *   after its value, or has more than 16 objects and arrays one within another;
 * - a needed member is missing, repeated or of the wrong kind;
 * - a string is not base64 (RFC 4648, 4), which must have its padding, spare bits of zero and no
 *   line breaks;
 * - a key or a rand is not 32 bytes.
 *
 * Names are compared, and base64 is read, after unescaping. Other members are passed over, repeated
 * or not. So is a rand in the first entry, whose record has zeros for it. A packet may have no
 * bytes. */
struct tb_records tb_read_report(const uint8_t *text, tb_size text_len, uint8_t *out,
                                 tb_size out_len);

/* How long the text is. Beside a code, place is that of the record to which it applies and at a
 * byte of its packet, as in tb_reported. */
struct tb_published {
    uint32_t code;
    uint64_t place;
    uint64_t at;
    uint64_t length;
};

/* Writes the text of a report, by the caller's answers. It has no blanks and no escapes, its
 * members are in the order rand, publicKey, request, response, and the first entry has no rand. out
 * of TB_LONGEST_REPORT bytes is always long enough. tb_read_report makes the same pile of the text.
 * It can refuse, in this order, with those of tb_check_report: 15; 16, 14 or 1 to 13; 17; 18; and
 * then 19. */
struct tb_published tb_write_report(const uint8_t *pile, tb_size pile_len, const uint8_t *answers,
                                    tb_size answers_len, uint8_t *out, tb_size out_len);

/* Writes the text of a report, as tb_write_report does, and verifies the signatures of each record
 * by the key in it. out of TB_LONGEST_REPORT bytes is always long enough. It can refuse, in this
 * order, with those of tb_check_signed_report: 15; 16, 14 or 1 to 13; 17; 18; and then 19. It needs
 * TB_VERIFY_STACK. */
struct tb_published tb_write_signed_report(const uint8_t *pile, tb_size pile_len, uint8_t *out,
                                           tb_size out_len);

/* The places in the text of the run's first and last record, and how long the run's own text is. */
struct tb_forwarded {
    uint32_t code;
    uint64_t first;
    uint64_t last;
    uint64_t length;
};

/* Cuts a report in JSON, and writes the result as JSON, in one call. It reads the text as
 * tb_read_report does, cuts out the shortest run that convicts by itself as tb_cut_run does, and
 * writes that run's text. The answers are two bytes for each record of the text. It can refuse, in
 * this order, with 24 and 25, 15 for the answers, 18, and 19 for the text. It needs TB_TEXT_STACK.
 */
struct tb_forwarded tb_cut_text(const uint8_t *text, tb_size text_len, const uint8_t *answers,
                                tb_size answers_len, uint8_t *out, tb_size out_len);

/* Cuts a report in JSON, and writes the result as JSON, in one call. It does what tb_cut_text does,
 * and verifies the signatures of each record by the key in it. out of TB_LONGEST_REPORT bytes is
 * always long enough. It can refuse, in this order, with 24, 25, 18, and 19 for the text. It needs
 * TB_TEXT_STACK. */
struct tb_forwarded tb_cut_signed_text(const uint8_t *text, tb_size text_len, uint8_t *out,
                                       tb_size out_len);

/* ---- The measuring walk ----
 *
 * Draft 19, 8.2: 3 to 8 servers are asked one after the other, and then once more in the same
 * order. The walk says whom to ask and what, takes each response and writes its record. After the
 * last one it says whether the servers contradict each other:
 *
 *     struct tb_took took = {0};
 *     uint32_t code = tb_walk_start(&walk, ..);
 *     while (code == TB_PASSED) {
 *         struct tb_asked asked = tb_walk_ask(&walk, request, sizeof request);
 *         code = asked.code;                       TB_ENDED, once the walk has ended
 *         if (code != TB_PASSED) break;
 *         send request to asked.server, and receive the response;
 *         took = tb_walk_take_signed(&walk, ..);   where it is refused: wait, and ask again
 *     }
 *
 * The loop goes by the code of tb_walk_ask. So it also ends for a stored walk that had ended.
 * took.outcome is then still TB_NOTHING_SAID.
 *
 * The pile is at the front of your buffer, which has room for two records a server. You pass it at
 * each call, and must not alter it between calls. It holds one record for each response that was
 * taken; with 8 servers it is TB_MOST_PILE_LENGTH bytes in the end. The rest of the buffer stays.
 * Once the walk has ended, tb_check_report with every answer yes says of that pile what the walk
 * said. tb_cut_run finds a run in it exactly where the walk said malfeasance.
 *
 * A call that is refused leaves state and pile as they were. You can send the same request again,
 * and take another response to it.
 *
 * The state is yours. You can copy it and keep it. It must be initialised memory before it is
 * started ({0} in C, {} in C++). A state that no start led to does no harm: each function ends,
 * stays within state and buffers, and returns the same for the same bytes. */

/* The state: the servers' keys, 32 bytes each and then zeros, and how many there are; the step,
 * from 0; the nonce that is asked next, and the rand that it was made with. last is when the last
 * response was received, and most the longest delay that is allowed. */
struct tb_walk {
    uint8_t keys[256];
    uint64_t count;
    uint64_t step;
    uint8_t nonce[32];
    uint8_t rand[32];
    uint64_t last;
    uint64_t most;
};

/* The fewest and the most servers of a walk. */
#define TB_FEWEST_SERVERS 3
#define TB_MOST_SERVERS 8

/* Which server is asked next, from 0 in the order of the keys, and with which nonce. */
struct tb_asked {
    uint32_t code;
    uint64_t server;
    uint8_t nonce[32];
};

/* What is said of the walk after a response:
 *
 * - TB_NOTHING_SAID: the response was refused, also since the walk has ended;
 * - TB_GOES_ON: it was taken, and there is more to ask;
 * - TB_CONSISTENT: the walk has ended, and no two answers contradict each other;
 * - TB_MALFEASANCE: the walk has ended, and two answers contradict each other;
 * - TB_PILE_ALTERED: the walk has ended, and the buffer is not what the walk wrote. Nothing is said
 *   of the servers.
 *
 * TB_PILE_ALTERED means that a record is no longer valid, with every answer yes, or no longer
 * linked, or that the first rand is not zero. So it notices every altered byte of the pile except
 * in the keys, if SHA-512 has no collision. An altered key is not noticed, since no check reads it
 * but with a signature: tb_check_signed_report returns 12 for such a record. */
enum tb_outcome {
    TB_NOTHING_SAID = 0,
    TB_GOES_ON = 1,
    TB_CONSISTENT = 2,
    TB_MALFEASANCE = 3,
    TB_PILE_ALTERED = 4
};

/* The result for one response. If code is not 0, outcome is TB_NOTHING_SAID. On TB_MALFEASANCE
 * only, first and second are the places of two records that contradict each other, as
 * tb_check_report names them. at is a byte of the response packet. The rest is the window of the
 * response that was taken, as in tb_verdict, for the server that tb_asked named. The last response
 * has one, too, whatever the outcome is. Beside a code it is zeros. pubk is not here:
 * tb_judge_signed of the record returns it. */
struct tb_took {
    uint32_t code;
    uint32_t outcome;
    uint64_t at;
    uint64_t first;
    uint64_t second;
    uint64_t midp;
    uint64_t low;
    uint64_t high;
    uint64_t mint;
    uint64_t maxt;
    uint32_t radi;
};

/* What the functions below call, with the fields of a state one by one. Call those instead. The
 * fields must not overlap each other, the inputs or the pile. */
uint32_t tb_walk_start_fields(uint8_t keys[256], uint64_t *count, uint64_t *step, uint8_t nonce[32],
                              uint8_t rand[32], uint64_t *last, uint64_t *most,
                              const uint8_t *servers, tb_size servers_len, const uint8_t first[32],
                              uint64_t longest, const uint8_t *pile, tb_size pile_len);
struct tb_asked tb_walk_ask_fields(const uint8_t keys[256], uint64_t count, uint64_t step,
                                   const uint8_t nonce[32], const uint8_t rand[32], uint64_t last,
                                   uint64_t most, uint8_t *out, tb_size out_len);
struct tb_took tb_walk_take_fields(const uint8_t keys[256], uint64_t count, uint64_t *step,
                                   uint8_t nonce[32], uint8_t rand[32], uint64_t *last,
                                   uint64_t most, uint32_t delegation, uint32_t signature,
                                   uint64_t sent, uint64_t received, const uint8_t next[32],
                                   const uint8_t *response, tb_size response_len, uint8_t *pile,
                                   tb_size pile_len);
struct tb_took tb_walk_take_signed_fields(const uint8_t keys[256], uint64_t count, uint64_t *step,
                                          uint8_t nonce[32], uint8_t rand[32], uint64_t *last,
                                          uint64_t most, uint64_t sent, uint64_t received,
                                          const uint8_t next[32], const uint8_t *response,
                                          tb_size response_len, uint8_t *pile, tb_size pile_len);

/* Starts a walk over the servers with these long-term keys, 32 bytes each, in their order. nonce is
 * 32 random bytes. longest is the longest delay in seconds that a response may take. Nothing is
 * written to the pile. It can refuse, in this order, with 31, where the keys are not 3 to 8 whole
 * ones or one is there twice, and 19, where the pile has under two records a server. On a refusal
 * the state stays as it was. A state of zeros is no walk: every call on it is refused with 28. */
static inline uint32_t tb_walk_start(struct tb_walk *walk, const uint8_t *servers,
                                     tb_size servers_len, const uint8_t nonce[32], uint64_t longest,
                                     const uint8_t *pile, tb_size pile_len) {
    return tb_walk_start_fields(walk->keys, &walk->count, &walk->step, walk->nonce, walk->rand,
                                &walk->last, &walk->most, servers, servers_len, nonce, longest,
                                pile, pile_len);
}

/* Returns which server is asked next, and writes the request to it: TB_REQUEST_LENGTH bytes.
 * Nothing else changes, so asking again gives the same. It can refuse, in this order, with 28
 * and 19. */
static inline struct tb_asked tb_walk_ask(const struct tb_walk *walk, uint8_t *out,
                                          tb_size out_len) {
    return tb_walk_ask_fields(walk->keys, walk->count, walk->step, walk->nonce, walk->rand,
                              walk->last, walk->most, out, out_len);
}

/* Takes the response to the request that tb_walk_ask wrote, by the caller's answers about its
 * signatures. delegation and signature say whether each verifies: 1 is yes, and every other number
 * is no. sent and received are when the request was sent and the response received, by the caller's
 * own clock, in seconds. rand is 32 random bytes for the next request. pile is the same buffer at
 * every call. It can refuse, in this order, with:
 *
 * - 28, where the walk has ended;
 * - 19, where the pile has under two records a server;
 * - 26, where received is before sent, or sent is before the last receipt;
 * - 27, where it took longer than the walk's longest delay;
 * - 1 to 13, as in tb_check_response. */
static inline struct tb_took tb_walk_take(struct tb_walk *walk, uint32_t delegation,
                                          uint32_t signature, uint64_t sent, uint64_t received,
                                          const uint8_t rand[32], const uint8_t *response,
                                          tb_size response_len, uint8_t *pile, tb_size pile_len) {
    return tb_walk_take_fields(walk->keys, walk->count, &walk->step, walk->nonce, walk->rand,
                               &walk->last, walk->most, delegation, signature, sent, received, rand,
                               response, response_len, pile, pile_len);
}

/* Takes the response to the request that tb_walk_ask wrote, and verifies its signatures under the
 * key of the server that is asked. sent and received are when the request was sent and the response
 * received, by the caller's own clock, in seconds. rand is 32 random bytes for the next request.
 * pile is the same buffer at every call. It needs TB_VERIFY_STACK. It can refuse, in this order,
 * with:
 *
 * - 28, where the walk has ended;
 * - 19, where the pile has under two records a server;
 * - 26, where received is before sent, or sent is before the last receipt;
 * - 27, where it took longer than the walk's longest delay;
 * - 1 to 13, as in tb_check_signed. Signatures are verified last, and only where no other code
 *   applies. */
static inline struct tb_took tb_walk_take_signed(struct tb_walk *walk, uint64_t sent,
                                                 uint64_t received, const uint8_t rand[32],
                                                 const uint8_t *response, tb_size response_len,
                                                 uint8_t *pile, tb_size pile_len) {
    return tb_walk_take_signed_fields(walk->keys, walk->count, &walk->step, walk->nonce, walk->rand,
                                      &walk->last, walk->most, sent, received, rand, response,
                                      response_len, pile, pile_len);
}

/* ---- The time ----
 *
 * The clock tells what time it is, although some servers lie or are silent. It takes the windows of
 * valid responses as they come, of up to 8 servers, and keeps the two newest of each. So one state
 * serves for months:
 *
 *     start; take the window of each valid response, of a walk or of a single exchange; ask.
 *
 * You ask at a moment of your own clock, and say how many servers may lie, `liars`. The answer is
 * the two ends between which the time is. If at most `liars` of the counted servers lie, it is
 * proved that the true time is between the ends, and that every suspect lies. If also 2 * liars <
 * counted, each end was in the span of an honest server when they were counted. So no liar moves an
 * end further from the truth than that span is wide.
 *
 * What the host must do:
 *
 * - liars. If you ask n servers, pass at most (n - 1) / 2. A silent server lowers counted. With 2 *
 *   liars >= counted the answer is still right, but one liar may stretch it.
 * - drift. State what the maker of the clock crystal states, and more for heat and age. 100 is
 *   usual, and 500 more where the system slews the clock. Too small a drift is the one lie that
 *   nothing shows.
 * - Which clock. Use one clock for sent, received and moment. It must go on in suspend and never be
 *   set: CLOCK_BOOTTIME on Linux. After a restart of the machine start a new state.
 * - Rounding. Read sent before the first copy of a request is sent, and round it down: an answer
 *   may be to any copy. Read received after the response came, and round it up.
 * - Which windows. Give each server one number, for good. Take windows of valid responses alone,
 *   each to a request whose nonce nobody could guess.
 * - Leap seconds. The time counts none: it stands still for one second there (draft 19, 4.1.4).
 *   After it, a window from before is a second too late, as if its server lied. Beside windows from
 *   after it the time may be wrong, and honest servers suspect. Servers allow for it in their radi
 *   while it happens. If you know of one, start a new state after it.
 *
 * How the time is found (Marzullo 1984). The span of a window at a moment starts at low, plus what
 * has passed since it was received, less the drift. It ends at high, plus what has passed since its
 * request was first sent, plus the drift. It is rounded outwards. A window is not used where, at
 * the moment that is asked about, its own high end is past its maxt; maxt itself still counts. The
 * span of a server is what all its used windows allow, and a server that has one is counted. The
 * servers are counted at the newest receipt among the used windows. From there the two ends move on
 * with your clock. So waiting changes only the ends: it brings no agreement and clears no suspect.
 *
 * The state is yours. You can copy it, and keep it as long as the machine runs. It must be
 * initialised memory before it is started ({0} in C, {} in C++). A state of zeros is what a start
 * with a drift of 0 leaves. A state that no start led to does no harm: each function ends, stays
 * within it, and returns the same for the same bytes. */

/* The most servers of a clock. It keeps two windows of each. */
#define TB_CLOCK_SERVERS 8

/* The state: the bound on the drift of the host's own clock, in parts per million, and the windows
 * that are kept. Places 2 * s and 2 * s + 1 are the newest window of server s and the one before
 * it. low, high and maxt are seconds since 1970. sent and received are microseconds of the host's
 * own clock. A place whose maxt is 0 has no window. */
struct tb_clock {
    uint32_t drift;
    uint64_t low[16];
    uint64_t high[16];
    uint64_t maxt[16];
    uint64_t sent[16];
    uint64_t received[16];
};

/* The time at a moment: from low to high, in microseconds since 1970. stopped is 1 where high is
 * 2^64 - 1: the result did not fit, and the time may be later. counted is how many servers were
 * counted. agree and suspects are sets of these, in which server s is the bit 1 << s: those whose
 * span meets the time, and those whose span does not. Each counted server is in one of the two. */
struct tb_time {
    uint32_t code;
    uint32_t stopped;
    uint64_t low;
    uint64_t high;
    uint64_t counted;
    uint64_t agree;
    uint64_t suspects;
};

/* What the functions below call, with the fields of a state one by one. Call those instead. The
 * fields must not overlap each other. */
uint32_t tb_clock_start_fields(uint32_t *drift, uint64_t low[16], uint64_t high[16],
                               uint64_t maxt[16], uint64_t sent[16], uint64_t received[16],
                               uint32_t bound);
uint32_t tb_clock_take_fields(uint32_t drift, uint64_t low[16], uint64_t high[16],
                              uint64_t maxt[16], uint64_t sent[16], uint64_t received[16],
                              uint64_t server, uint64_t window_low, uint64_t window_high,
                              uint64_t window_maxt, uint64_t window_sent, uint64_t window_received);
struct tb_time tb_clock_now_fields(uint32_t drift, const uint64_t low[16], const uint64_t high[16],
                                   const uint64_t maxt[16], const uint64_t sent[16],
                                   const uint64_t received[16], uint64_t moment, uint64_t liars);

/* Starts, before any window. drift is the most by which the host's own clock goes wrong, in parts
 * per million, below 1,000,000. It can refuse with 32. On a refusal the state stays as it was. */
static inline uint32_t tb_clock_start(struct tb_clock *clock, uint32_t drift) {
    return tb_clock_start_fields(&clock->drift, clock->low, clock->high, clock->maxt, clock->sent,
                                 clock->received, drift);
}

/* Takes the window of a valid response of a server, 0 to 7. low, high and maxt are as in its
 * tb_verdict, tb_judged or tb_took. sent is when the first copy of its request was sent, and
 * received when it was received. Both are microseconds of the host's own clock. Prefer the next two
 * functions, which take a whole answer: it is easy to swap numbers here. The window becomes that
 * server's newest, and the one before the newest so far is forgotten.
 *
 * It can refuse, in this order, with 32, where the server is above 7; and 26, where it was received
 * before it was sent for, or before the last window that was taken of that server. Windows of two
 * servers may be taken in any order. On a refusal the state stays as it was. */
static inline uint32_t tb_clock_take(struct tb_clock *clock, uint64_t server, uint64_t low,
                                     uint64_t high, uint64_t maxt, uint64_t sent,
                                     uint64_t received) {
    return tb_clock_take_fields(clock->drift, clock->low, clock->high, clock->maxt, clock->sent,
                                clock->received, server, low, high, maxt, sent, received);
}

/* Takes the window of a valid response from what tb_check_signed, tb_check_response or
 * tb_verdict_of returned. sent and received are microseconds of the host's own clock. It can
 * refuse, in this order, with the answer's own, where it is a refusal, and then nothing is taken;
 * else those of tb_clock_take. */
static inline uint32_t tb_clock_take_verdict(struct tb_clock *clock, uint64_t server,
                                             struct tb_verdict said, uint64_t sent,
                                             uint64_t received) {
    if (said.code != TB_PASSED) return said.code;
    return tb_clock_take_fields(clock->drift, clock->low, clock->high, clock->maxt, clock->sent,
                                clock->received, server, said.low, said.high, said.maxt, sent,
                                received);
}

/* Takes the window of a response from what tb_walk_take_signed or tb_walk_take returned, whatever
 * the outcome is. server is the one that tb_asked named. sent and received are microseconds here,
 * and seconds in the walk. It can refuse, in this order, with the answer's own, where it is a
 * refusal, and then nothing is taken; else those of tb_clock_take. */
static inline uint32_t tb_clock_take_walked(struct tb_clock *clock, uint64_t server,
                                            struct tb_took took, uint64_t sent, uint64_t received) {
    if (took.code != TB_PASSED) return took.code;
    return tb_clock_take_fields(clock->drift, clock->low, clock->high, clock->maxt, clock->sent,
                                clock->received, server, took.low, took.high, took.maxt, sent,
                                received);
}

/* Returns the time at a moment of the host's own clock, in microseconds, where at most `liars` of
 * the counted servers lie. Nothing changes. It can refuse, in this order, with:
 *
 * - 26: the moment is before the receipt of some window that was taken;
 * - 33: no more servers are counted than may lie;
 * - 34: no time lies in the spans of all but `liars` of the counted servers. More lie. */
static inline struct tb_time tb_clock_now(const struct tb_clock *clock, uint64_t moment,
                                          uint64_t liars) {
    return tb_clock_now_fields(clock->drift, clock->low, clock->high, clock->maxt, clock->sent,
                               clock->received, moment, liars);
}

/* ---- Old captures ----
 *
 * Captures of the draft of May 2021 tell the time in another form, which tb_old_window turns into
 * seconds. The library reads no old packet and checks nothing of one. An old window is no evidence:
 * it enters no pile and no report, and tb_contradicts and tb_tally_take are not for it.
 *
 * How a host reads the stamp out of an old response. The packet is ROUGHTIM, a length and a
 * message. A message is N, N - 1 offsets, N tags and the values, all as today. The value of SREP is
 * such a message, too. It has both values that are wanted, each to be found by its tag:
 *
 *     MIDP, tag 0x5044494d: 8 bytes, one number, least significant byte first
 *           bytes 0 to 4  microseconds since midnight
 *           bytes 5 to 7  the day, a Modified Julian Date; 40587 is 1 January 1970
 *     RADI, tag 0x49444152: 4 bytes, one number, least significant byte first: microseconds
 *
 * Each is passed as that one number. For MIDP:
 *
 *     uint64_t midp = 0;
 *     for (int i = 7; i >= 0; i--) midp = midp << 8 | value[i];
 */

/* The ends of an old stamp's window, in seconds since 1970. */
struct tb_old {
    uint32_t code;
    uint64_t low;
    uint64_t high;
};

/* Returns the window of an old MIDP and RADI. A day has 86,400 seconds. low is the largest whole
 * second that is not after MIDP - RADI, or 0 where that is before 1970. high is the smallest that
 * is not before MIDP + RADI. Microseconds of the day from 86,400,000,000 to 86,400,999,999, a leap
 * second, are all read as the next midnight before RADI is applied. It can refuse with 29, where
 * the day is under 40587 or the microseconds are 86,401,000,000 or more. */
struct tb_old tb_old_window(uint64_t midp, uint32_t radi);

/* ---- Layouts ----
 *
 * The library was compiled for structs of these sizes, in which a number of 64 bits stands at a
 * multiple of 8. A compiler that lays them out otherwise refuses this header. */

#if defined(__cplusplus) && __cplusplus >= 201103L
#define TB_HOLDS(what) static_assert(what, #what)
#elif defined(__STDC_VERSION__) && __STDC_VERSION__ >= 201112L
#define TB_HOLDS(what) _Static_assert(what, #what)
#else
#define TB_HOLDS(what) extern char tb_holds[(what) ? 1 : -1]
#endif

TB_HOLDS(offsetof(struct tb_wrote, at) == 8);
TB_HOLDS(sizeof(struct tb_running) == 200);
TB_HOLDS(sizeof(struct tb_request) == 80);
TB_HOLDS(sizeof(struct tb_response) == 96);
TB_HOLDS(sizeof(struct tb_wrote) == 24);
TB_HOLDS(sizeof(struct tb_parts) == 176);
TB_HOLDS(sizeof(struct tb_verdict) == 88);
TB_HOLDS(sizeof(struct tb_rooted) == 40);
TB_HOLDS(sizeof(struct tb_placed) == 12);
TB_HOLDS(sizeof(struct tb_laid) == 16);
TB_HOLDS(sizeof(struct tb_batch) == 24);
TB_HOLDS(sizeof(struct tb_found) == 16);
TB_HOLDS(sizeof(struct tb_servers) == 24);
TB_HOLDS(sizeof(struct tb_addressed) == 16);
TB_HOLDS(sizeof(struct tb_judged) == 96);
TB_HOLDS(sizeof(struct tb_tally) == 8);
TB_HOLDS(sizeof(struct tb_reported) == 40);
TB_HOLDS(sizeof(struct tb_cut) == 24);
TB_HOLDS(sizeof(struct tb_records) == 16);
TB_HOLDS(sizeof(struct tb_published) == 32);
TB_HOLDS(sizeof(struct tb_forwarded) == 32);
TB_HOLDS(sizeof(struct tb_walk) == 352);
TB_HOLDS(sizeof(struct tb_asked) == 48);
TB_HOLDS(sizeof(struct tb_took) == 80);
TB_HOLDS(sizeof(struct tb_clock) == 648);
TB_HOLDS(sizeof(struct tb_time) == 48);
TB_HOLDS(sizeof(struct tb_old) == 24);

#undef TB_HOLDS

#ifdef __cplusplus
}
#endif

#endif
