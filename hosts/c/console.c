/* Asks one server for the time, as a console does that verifies signatures by itself, here with
 * OpenSSL's Ed25519. Link it with -lcrypto. example.c leaves that to the library.
 *
 *     console KEY NONCE RESPONSE
 *
 * writes the request to the server with the long-term key KEY, with the nonce NONCE, takes the file
 * RESPONSE for what the server answered, and prints the window of the time, or the code of the
 * refusal and its words. KEY and NONCE are 64 digits of hex. Without arguments the server is the
 * first one of the report that draft 19 prints, and so are the nonce and the answer.
 *
 * A console would take 32 random bytes for the nonce, or tb_link of the response before this one
 * and 32 random bytes, and would send the request over UDP.
 */
#include "packet.h"
#include "trawlbeacon.h"

#include <openssl/evp.h>

/* What OpenSSL says of a signature under a public key: 1 where it is right, and else 0, or a number
 * below 0 where OpenSSL itself failed. tb_check_response takes it as it is: only 1 is a yes. */
static uint32_t verify(const uint8_t key[32], const uint8_t signature[64], const uint8_t *text,
                       size_t length) {
    int answer = 0;
    EVP_PKEY *public_key = EVP_PKEY_new_raw_public_key(EVP_PKEY_ED25519, NULL, key, 32);
    EVP_MD_CTX *context = EVP_MD_CTX_new();
    if (public_key != NULL && context != NULL &&
        EVP_DigestVerifyInit(context, NULL, NULL, NULL, public_key) == 1)
        answer = EVP_DigestVerify(context, signature, 64, text, length);
    EVP_MD_CTX_free(context);
    EVP_PKEY_free(public_key);
    return (uint32_t)answer;
}

/* Checks a response to a request, from the server with this long-term key. Keys, signatures and
 * texts come from the library alone. Where it refuses to hand them out both answers are no, and
 * tb_check_response says why. */
static struct tb_verdict check(const uint8_t key[32], const uint8_t *request, size_t request_len,
                               const uint8_t *response, size_t response_len) {
    uint8_t text[TB_LONGEST_TEXT] = {0};
    uint32_t delegation = 0, signature = 0;
    struct tb_parts parts = tb_signed_parts(response, response_len);
    if (parts.code == TB_PASSED) {
        struct tb_wrote wrote = tb_delegation_text(response, response_len, text, sizeof text);
        delegation = verify(key, parts.delegation, text, wrote.length);
        wrote = tb_response_text(response, response_len, text, sizeof text);
        signature = verify(parts.pubk, parts.signature, text, wrote.length);
    }
    return tb_check_response(request, request_len, response, response_len, delegation, signature);
}

int main(int argc, char **argv) {
    static struct exchange asked; /* zeros at first */
    uint8_t request[TB_REQUEST_LENGTH] = {0};
    read_arguments(argc, argv, &asked);
    struct tb_wrote wrote = tb_write_request(asked.key, asked.nonce, request, sizeof request);
    return print_verdict(check(asked.key, request, wrote.length, asked.response.bytes,
                               asked.response.length));
}
