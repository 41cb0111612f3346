/* Answers cases for a host in another language, as the header and the C compiler have the calls, so
 * that what that host says can be compared.
 *
 * A case on standard input is a byte, which call it is, a byte, how many parts follow, and the parts:
 * the length of each, of four bytes, and its bytes. A number is a part of eight bytes. Every number
 * has its least significant byte first. The answer is a line on standard output: words parted by
 * blanks, numbers in decimal and bytes in hex, of which only the digest stands there if they are
 * many.
 */
#include "trawlbeacon.h"

#include <inttypes.h>
#include <stdio.h>
#include <stdlib.h>
#include <string.h>

enum { MOST_PARTS = 128, FEW = 64 };

/* The parts of a case. */
static struct {
    uint8_t *bytes;
    tb_size length;
} part[MOST_PARTS];

static uint8_t out[TB_LONGEST_REPORT > TB_MOST_PILE_LENGTH ? TB_LONGEST_REPORT : TB_MOST_PILE_LENGTH];

#define BYTES(i) part[i].bytes
#define LENT(i) part[i].bytes, part[i].length

/* A number in so many bytes. */
static uint64_t number_in(const uint8_t *bytes, int n) {
    uint64_t number = 0;
    for (int i = n - 1; i >= 0; i--) number = number << 8 | bytes[i];
    return number;
}

static uint64_t number(int i) { return number_in(BYTES(i), 8); }

static void say(uint64_t word) { printf("%" PRIu64 " ", word); }

/* Says bytes, or the digest of many. */
static void show(const uint8_t *bytes, tb_size n) {
    uint8_t digest[64] = {0};
    if (n > FEW) {
        tb_sha512(bytes, n, digest);
        bytes = digest;
        n = sizeof digest;
    }
    for (tb_size i = 0; i < n; i++) printf("%02x", bytes[i]);
    printf("- ");
}

static void show_window(struct tb_verdict told) {
    say(told.code), say(told.at), say(told.midp), say(told.radi), say(told.low), say(told.high);
    say(told.mint), say(told.maxt), show(told.pubk, sizeof told.pubk);
}

static void packets(int call) {
    uint8_t hash[32] = {0};
    if (call == 1) tb_link(LENT(0), BYTES(1), hash), show(hash, sizeof hash);
    if (call == 2) {
        struct tb_wrote wrote = tb_write_request(BYTES(0), BYTES(1), out, TB_REQUEST_LENGTH);
        say(wrote.code), show(out, wrote.length);
    }
    if (call == 3) {
        struct tb_request read = tb_read_request(LENT(0));
        say(read.code), say(read.at), say(read.with_srv);
        show(read.nonc, sizeof read.nonc), show(read.srv, sizeof read.srv);
    }
    if (call == 4) {
        struct tb_response read = tb_read_response(LENT(0));
        say(read.code), say(read.at), say(read.indx), say(read.midp), say(read.radi);
        show(read.nonc, sizeof read.nonc), show(read.root, sizeof read.root);
    }
    if (call == 5) show_window(tb_check_signed(BYTES(0), LENT(1), LENT(2)));
    if (call == 6) say(tb_verify(LENT(0), LENT(1), LENT(2)));
}

/* Of a pile: its record at a place, whether that is linked, its report, the run, and the text. */
static void piles(void) {
    struct tb_judged judged = tb_judge_signed(LENT(0), number(1));
    show_window(tb_verdict_of(judged)), say(tb_linked(LENT(0), number(1)));
    struct tb_reported told = tb_check_signed_report(LENT(0));
    say(told.code), say(told.place), say(told.at), say(told.first), say(told.second);
    struct tb_cut cut = tb_cut_signed_run(LENT(0), out, part[0].length);
    say(cut.code), say(cut.first), say(cut.last);
    show(out, cut.code == TB_PASSED ? (cut.last - cut.first + 1) * TB_RECORD_LENGTH : 0);
    struct tb_published text = tb_write_signed_report(LENT(0), out, sizeof out);
    say(text.code), say(text.place), say(text.at), show(out, text.length);
}

static void reports(void) {
    struct tb_records read = tb_read_report(LENT(0), out, TB_MOST_PILE_LENGTH);
    say(read.code), show(out, read.records * TB_RECORD_LENGTH);
    struct tb_forwarded cut = tb_cut_signed_text(LENT(0), out, TB_LONGEST_REPORT);
    say(cut.code), say(cut.first), say(cut.last), show(out, cut.length);
}

/* A list of servers, and whatever stands at each place. */
static void lists(void) {
    uint8_t *room = malloc(part[0].length + 1);
    if (room == NULL) abort();
    struct tb_servers read = tb_read_servers(LENT(0), out, TB_LISTED_SERVERS * TB_SERVER_LENGTH);
    say(read.code), say(read.passed_over), show(out, read.records * TB_SERVER_LENGTH);
    for (tb_size place = 0; place < read.records; place++) {
        show(room, tb_server_name(LENT(0), place, room, part[0].length).length);
        for (tb_size which = 0; which < TB_LISTED_ADDRESSES; which++) {
            struct tb_addressed at = tb_server_address(LENT(0), place, which, room, part[0].length);
            if (at.code == TB_PASSED) say(at.tcp), show(room, at.length);
        }
    }
    for (tb_size place = 0; read.code == TB_PASSED; place++) {
        struct tb_wrote source = tb_list_source(LENT(0), place, room, part[0].length);
        if (source.code != TB_PASSED) break;
        show(room, source.length);
    }
    struct tb_wrote to = tb_list_reports(LENT(0), room, part[0].length);
    say(to.code), show(room, to.length);
    free(room);
}

/* A walk over the keys in the first part; then of each response when it was sent for and received,
 * and a rand. */
static void walk(int parts) {
    static uint8_t pile[TB_MOST_PILE_LENGTH], request[TB_REQUEST_LENGTH];
    struct tb_walk state;
    tb_size room = part[0].length / 32 * 2 * TB_RECORD_LENGTH;
    memset(&state, 0, sizeof state), memset(pile, 0, sizeof pile);
    if (room > sizeof pile) room = sizeof pile;
    say(tb_walk_start(&state, LENT(0), BYTES(1), number(2), pile, room));
    for (int i = 3; i + 3 < parts; i += 4) {
        struct tb_asked asked = tb_walk_ask(&state, request, sizeof request);
        say(asked.code), say(asked.server);
        if (asked.code == TB_PASSED) show(request, sizeof request);
        struct tb_took took = tb_walk_take_signed(&state, number(i + 1), number(i + 2),
                                                  BYTES(i + 3), LENT(i), pile, room);
        say(took.code), say(took.at), say(took.outcome), say(took.first), say(took.second);
        say(took.midp), say(took.radi), say(took.low), say(took.high), say(took.mint), say(took.maxt);
        show((const uint8_t *)&state, sizeof state), show(pile, state.step * TB_RECORD_LENGTH);
    }
}

/* A clock of a drift; then of each window its server and five numbers; and last a moment and how
 * many may lie. */
static void clock_of(int parts) {
    struct tb_clock state;
    int i = 1;
    memset(&state, 0, sizeof state);
    say(tb_clock_start(&state, (uint32_t)number(0)));
    for (; i + 6 <= parts - 2; i += 6)
        say(tb_clock_take(&state, number(i), number(i + 1), number(i + 2), number(i + 3),
                          number(i + 4), number(i + 5)));
    struct tb_time now = tb_clock_now(&state, number(i), number(i + 1));
    say(now.code), say(now.low), say(now.high), say(now.stopped), say(now.counted);
    say(now.agree), say(now.suspects);
}

static void answer(int call, int parts) {
    if (call <= 6) packets(call);
    if (call == 7) piles();
    if (call == 8) reports();
    if (call == 9) lists();
    if (call == 10) walk(parts);
    if (call == 11) clock_of(parts);
    printf("\n");
}

/* Reads a part, into memory of its own so that what is past its end is not there. */
static int read_part(int i) {
    uint8_t length[4];
    free(part[i].bytes);
    part[i].bytes = NULL;
    if (fread(length, 1, 4, stdin) != 4) return 0;
    part[i].length = number_in(length, 4);
    part[i].bytes = malloc(part[i].length > 0 ? part[i].length : 1);
    if (part[i].bytes == NULL) return 0;
    return fread(part[i].bytes, 1, part[i].length, stdin) == part[i].length;
}

int main(void) {
    int call, parts;
    while ((call = getchar()) != EOF) {
        parts = getchar();
        if (parts == EOF || parts > MOST_PARTS) return 1;
        for (int i = 0; i < parts; i++)
            if (!read_part(i)) return 1;
        answer(call, parts);
    }
    for (int i = 0; i < MOST_PARTS; i++) free(part[i].bytes);
    return fflush(stdout) == 0 ? 0 : 1;
}
