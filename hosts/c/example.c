/* Asks one server for the time, as a console does. The library verifies both signatures.
 *
 *     example KEY NONCE RESPONSE
 *
 * writes the request to the server with the long-term key KEY, with the nonce NONCE, takes the file
 * RESPONSE for what the server answered, and prints the window of the time, or the code of the
 * refusal and its words. KEY and NONCE are 64 digits of hex. Without arguments the server is the
 * first one of the report that draft 19 prints, and so are the nonce and the answer.
 *
 * A console would take 32 random bytes for the nonce, or tb_link of the response before this one
 * and 32 random bytes, and would send the request over UDP.
 */
#include "packet.h"
#include "trawlbeacon.h"

int main(int argc, char **argv) {
    static struct exchange asked; /* zeros at first */
    uint8_t request[TB_REQUEST_LENGTH] = {0};
    read_arguments(argc, argv, &asked);
    struct tb_wrote wrote = tb_write_request(asked.key, asked.nonce, request, sizeof request);
    return print_verdict(tb_check_signed(asked.key, request, wrote.length, asked.response.bytes,
                                         asked.response.length));
}
