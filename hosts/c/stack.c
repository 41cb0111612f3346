/* Measures the stack that each tree operation takes, and holds the most of them to the header's
 * TB_TREE_STACK: with that much every operation ends, and on one page less than the most some
 * operation runs off the end. A verification is measured too, and held to 8 KB; and every form
 * that verifies by itself, the most of which is held to TB_VERIFY_STACK; what signs, which is held
 * to TB_SIGN_STACK; a whole batch, which is held to TB_BATCH_STACK; and what goes from text to text,
 * which is held to TB_TEXT_STACK. What every other operation takes is told as well.
 *
 * Each call runs on a stack of this program's own, which is painted first and has memory below it
 * that nobody may touch. That is done with contexts and not with threads, since a C library wants
 * more for a thread than an operation takes.
 */
#define _GNU_SOURCE
#include "report.h"
#include "response.h"
#include "trawlbeacon.h"

#include <stdio.h>
#include <stdlib.h>
#include <string.h>
#include <sys/mman.h>
#include <sys/wait.h>
#include <ucontext.h>
#include <unistd.h>

enum { PAGE = 4096, LARGE = 64 * PAGE, FENCE = 64 * PAGE, PAINT = 0xa5, VERIFICATION = 8192 };

static uint8_t leaves[32 * TB_MOST_LEAVES], rows[TB_MOST_ROWS_LENGTH], out[TB_MOST_ROWS_LENGTH];
static size_t count;

static void call_nothing(void) {}
static void call_root(void) { tb_root(leaves, 32 * count); }
static void call_path(void) { tb_path(leaves, 32 * count, count - 1, out, sizeof out); }
static void call_rows(void) { tb_rows(leaves, 32 * count, out, sizeof out); }
static void call_path_from(void) {
    tb_path_from(rows, sizeof rows, count, count - 1, out, sizeof out);
}
/* 32 siblings, the most that a path may have. */
static void call_leads(void) { tb_leads(leaves, 0, rows, 1024, leaves); }

/* RFC 8032's first signature, of no bytes: it verifies, so that all of it is worked out. */
static const uint8_t SIGNER[32] = {
    0xd7, 0x5a, 0x98, 0x01, 0x82, 0xb1, 0x0a, 0xb7, 0xd5, 0x4b, 0xfe, 0xd3, 0xc9, 0x64, 0x07, 0x3a,
    0x0e, 0xe1, 0x72, 0xf3, 0xda, 0xa6, 0x23, 0x25, 0xaf, 0x02, 0x1a, 0x68, 0xf7, 0x07, 0x51, 0x1a};
static const uint8_t SIGNATURE[64] = {
    0xe5, 0x56, 0x43, 0x00, 0xc3, 0x60, 0xac, 0x72, 0x90, 0x86, 0xe2, 0xcc, 0x80, 0x6e, 0x82, 0x8a,
    0x84, 0x87, 0x7f, 0x1e, 0xb8, 0xe5, 0xd9, 0x74, 0xd8, 0x73, 0xe0, 0x65, 0x22, 0x49, 0x01, 0x55,
    0x5f, 0xb8, 0x82, 0x15, 0x90, 0xa3, 0x3b, 0xac, 0xc6, 0x1e, 0x39, 0x70, 0x1c, 0xf9, 0xb4, 0x6b,
    0xd2, 0x5b, 0xf5, 0xf0, 0x59, 0x5b, 0xbe, 0x24, 0x65, 0x51, 0x41, 0x43, 0x8e, 0x7a, 0x10, 0x0b};
static bool verified;
static void call_verify(void) {
    verified = tb_verify_parts(SIGNER, sizeof SIGNER, leaves, 0, leaves, 0, SIGNATURE,
                               sizeof SIGNATURE);
}

/* What signs has no choice to make, and takes the same for every seed. */
static uint8_t made[64];
static void call_public_key(void) { tb_public_key(SIGNER, made); }
static void call_sign(void) { tb_sign(SIGNER, leaves, 1000, made); }
static void call_sign_parts(void) { tb_sign_parts(SIGNER, leaves, 34, leaves, 72, made); }

/* A batch of as many requests as there may be, all of which are answered. */
static uint8_t requests[TB_MOST_LEAVES * TB_REQUEST_LENGTH], signed_cert[TB_CERT_LENGTH];
static uint8_t batch_rows[TB_MOST_ROWS_LENGTH];
static uint8_t answers[TB_MOST_LEAVES * TB_ANSWER_ROOM(TB_CERT_LENGTH)];
static uint32_t lengths[TB_MOST_LEAVES], answer_lengths[TB_MOST_LEAVES];
static uint8_t srv[32];
static void lay_batch(void) {
    uint8_t pubk[32];
    tb_public_key(SIGNER, pubk);
    tb_write_cert(pubk, 0, 2000, SIGNATURE, signed_cert, sizeof signed_cert);
    tb_srv_value(SIGNER, srv);
    for (size_t i = 0; i < TB_MOST_LEAVES; i++) {
        tb_write_request(SIGNER, leaves + 32 * i, requests + i * TB_REQUEST_LENGTH,
                         TB_REQUEST_LENGTH);
        lengths[i] = TB_REQUEST_LENGTH;
    }
}

/* The forms that verify by themselves, on the report that draft 19 prints, all of whose signatures
 * are right; each tells its code, so that it is seen to have gone to its end. */
static uint8_t pile[REPORT_LENGTH], run[REPORT_LENGTH], told[2];
static uint32_t code;
static bool refused;
static void call_answers(void) {
    tb_answers(KEY, RESPONSE, sizeof RESPONSE, told);
    code = told[0] == 1 && told[1] == 1 ? 0 : 12;
}
static void call_answer_batch(void) {
    code = tb_answer_batch(requests, sizeof requests, TB_REQUEST_LENGTH, lengths, TB_MOST_LEAVES,
                           srv, signed_cert, sizeof signed_cert, SIGNER, 1000, 5, batch_rows,
                           sizeof batch_rows, answers, sizeof answers,
                           TB_ANSWER_ROOM(TB_CERT_LENGTH), answer_lengths, TB_MOST_LEAVES)
               .code;
}
static void call_check_signed(void) {
    code = tb_check_signed(KEY, pile + 96, TB_REQUEST_LENGTH, RESPONSE, sizeof RESPONSE).code;
}
static void call_judge_signed(void) { code = tb_judge_signed(pile, sizeof pile, 2).code; }
static void call_check_signed_report(void) {
    code = tb_check_signed_report(pile, sizeof pile).code;
}
static void call_cut_signed_run(void) {
    code = tb_cut_signed_run(pile, sizeof pile, run, sizeof run).code;
}

/* The same report as a text, and its three records' answers. */
static uint8_t text[TB_LONGEST_REPORT], cut[TB_LONGEST_REPORT];
static size_t text_length;
static void call_cut_text(void) {
    static const uint8_t YES[2 * DRAFTS] = {1, 1, 1, 1, 1, 1};
    code = tb_cut_text(text, text_length, YES, sizeof YES, cut, sizeof cut).code;
}
static void call_cut_signed_text(void) {
    code = tb_cut_signed_text(text, text_length, cut, sizeof cut).code;
}

static void call_write_signed_report(void) {
    code = tb_write_signed_report(pile, sizeof pile, text, sizeof text).code;
}

/* The first step of a walk whose servers are those of the draft's report. */
static struct tb_walk among_drafts;
static uint8_t drafts_walked[2 * REPORT_LENGTH];
static void start_among_drafts(void) {
    uint8_t keys[32 * DRAFTS];
    for (size_t k = 0; k < DRAFTS; k++) memcpy(keys + 32 * k, pile + k * TB_RECORD_LENGTH, 32);
    struct tb_response first = tb_read_response(RESPONSE, sizeof RESPONSE);
    tb_walk_start(&among_drafts, keys, sizeof keys, first.nonc, 0, drafts_walked,
                  sizeof drafts_walked);
}
static void call_walk_take_signed(void) {
    code = tb_walk_take_signed(&among_drafts, 0, 0, leaves, RESPONSE, sizeof RESPONSE,
                               drafts_walked, sizeof drafts_walked)
               .code;
}

/* All the rest, on the same packets and records. */
static const uint8_t ANSWERS[2 * DRAFTS] = {1, 1, 1, 1, 1, 1};
static uint8_t digest[64], packet[TB_LONGEST_PACKET];
static struct tb_running running;
static const uint8_t *const REQUEST = pile + 96;

static void call_sha512(void) { tb_sha512(leaves, sizeof leaves, digest); }
static void call_parent(void) { tb_parent(leaves, leaves + 32, digest); }
static void call_link(void) { tb_link(RESPONSE, sizeof RESPONSE, leaves, digest); }
static void call_take_piece(void) { tb_sha512_take(&running, leaves, 1000); }
static void call_finish_pieces(void) { tb_sha512_finish(&running, digest); }
static void call_read_request(void) {
    code = tb_read_request(REQUEST, TB_REQUEST_LENGTH).code;
}
static void call_read_response(void) { code = tb_read_response(RESPONSE, sizeof RESPONSE).code; }
static void call_write_request(void) {
    code = tb_write_request(KEY, leaves, packet, sizeof packet).code;
}
static void call_signed_parts(void) { code = tb_signed_parts(RESPONSE, sizeof RESPONSE).code; }
static void call_response_text(void) {
    code = tb_response_text(RESPONSE, sizeof RESPONSE, packet, sizeof packet).code;
}
static void call_check_response(void) {
    code = tb_check_response(REQUEST, TB_REQUEST_LENGTH, RESPONSE, sizeof RESPONSE, 1, 1).code;
}
static void call_write_srep(void) {
    code = tb_write_srep(leaves, 1000, 5, packet, sizeof packet).code;
}
/* The response to a request, by a server of which this is the only one, with signatures of
 * nobody. */
static struct tb_wrote respond(const uint8_t *request, uint8_t *to) {
    static uint8_t cert[TB_CERT_LENGTH];
    tb_leaf(request, TB_REQUEST_LENGTH, digest);
    tb_write_cert(KEY, 0, 2000, SIGNATURE, cert, sizeof cert);
    return tb_write_response(request, TB_REQUEST_LENGTH, 0, digest, leaves, 0, 1000, 5, cert,
                             sizeof cert, SIGNATURE, to, TB_REQUEST_LENGTH);
}
static void call_write_response(void) { code = respond(REQUEST, packet).code; }
static void call_find_server(void) {
    code = tb_find_server(leaves, sizeof leaves, leaves, sizeof leaves, leaves + 32).code;
}
static void call_judge(void) {
    code = tb_judge(pile, sizeof pile, ANSWERS, sizeof ANSWERS, 2).code;
}
static void call_check_report(void) {
    code = tb_check_report(pile, sizeof pile, ANSWERS, sizeof ANSWERS).code;
}
static void call_cut_run(void) {
    code = tb_cut_run(pile, sizeof pile, ANSWERS, sizeof ANSWERS, run, sizeof run).code;
}
static void call_pile_contradicts(void) {
    code = tb_pile_contradicts(pile, sizeof pile, ANSWERS, sizeof ANSWERS);
}
/* The text with a member before its list that nests as deep as a text may. */
static uint8_t deep[TB_LONGEST_REPORT + 64];
static size_t deep_length;
static void nest_text(void) {
    static const char START[] = "{\"a\":[[[[[[[[[[[[[[[]]]]]]]]]]]]]]],";
    memcpy(deep, START, sizeof START - 1);
    memcpy(deep + sizeof START - 1, text + 1, text_length - 1);
    deep_length = sizeof START - 1 + text_length - 1;
}
static void call_read_report(void) {
    code = tb_read_report(deep, deep_length, run, sizeof run).code;
}
static void call_write_report(void) {
    code = tb_write_report(pile, sizeof pile, ANSWERS, sizeof ANSWERS, cut, sizeof cut).code;
}
/* A walk over eight servers, before its first step and before its last. */
static uint8_t walked[16 * TB_RECORD_LENGTH], asked[TB_REQUEST_LENGTH];
static uint8_t answer[TB_REQUEST_LENGTH];
static struct tb_walk walk;
static void call_walk_start(void) {
    code = tb_walk_start(&walk, leaves, 8 * 32, leaves, 5, walked, sizeof walked);
}
static void call_walk_ask(void) { code = tb_walk_ask(&walk, asked, sizeof asked).code; }
static void take(struct tb_walk *state) {
    size_t n = TB_RESPONSE_BYTES(0, TB_CERT_LENGTH);
    code = tb_walk_take(state, 1, 1, 100, 100, leaves, answer, n, walked, sizeof walked).code;
}
static void call_walk_take(void) {
    struct tb_walk state = walk;
    take(&state);
}
static void walk_on(uint64_t steps) {
    for (;;) {
        call_walk_ask();
        respond(asked, answer);
        if (walk.step == steps || code != TB_PASSED) return;
        take(&walk);
    }
}

/* A clock with two windows of each of eight servers, all of which agree. */
static struct tb_clock clock_of_all;
static void call_clock_start(void) { code = tb_clock_start(&clock_of_all, 100); }
static void call_clock_take(void) {
    code = tb_clock_take(&clock_of_all, 7, 1000, 1006, UINT64_MAX, 5, 9);
}
static void call_clock_now(void) { code = tb_clock_now(&clock_of_all, 1000, 3).code; }
static void hear_all(void) {
    call_clock_start();
    for (uint64_t i = 0; i < 2 * TB_CLOCK_SERVERS; i++)
        tb_clock_take(&clock_of_all, i / 2, 1000, 1005 + i, UINT64_MAX, i / 2, i / 2);
}

/* A list of 64 servers with eight addresses each, a source and a place for reports, as it is written
 * here; its text and records. */
static const char ADDRESS[] = "udp [2001:db8::192.0.2.1]:65535\n", URL[] = "https://a.example/\n";
static uint8_t list_keys[32 * TB_LISTED_SERVERS], list_names[TB_LISTED_SERVERS];
static uint8_t list_lines[TB_LISTED_SERVERS * TB_LISTED_ADDRESSES * (sizeof ADDRESS - 1)];
static uint32_t list_versions[TB_LISTED_SERVERS], name_lengths[TB_LISTED_SERVERS];
static uint32_t line_lengths[TB_LISTED_SERVERS];
static uint8_t list[131072], list_part[4096];
static size_t list_length;
static void call_write_servers(void) {
    struct tb_wrote wrote =
        tb_write_servers(list_keys, sizeof list_keys, list_versions, TB_LISTED_SERVERS, list_names,
                         sizeof list_names, name_lengths, TB_LISTED_SERVERS, list_lines,
                         sizeof list_lines, line_lengths, TB_LISTED_SERVERS, (const uint8_t *)URL,
                         sizeof URL - 1, (const uint8_t *)URL, sizeof URL - 2, list, sizeof list);
    code = wrote.code;
    list_length = (size_t)wrote.length;
}
static void lay_list(void) {
    for (size_t i = 0; i < TB_LISTED_SERVERS; i++) {
        list_versions[i] = 1;
        list_names[i] = 'a';
        name_lengths[i] = 1;
        line_lengths[i] = TB_LISTED_ADDRESSES * (sizeof ADDRESS - 1);
        for (size_t j = 0; j < TB_LISTED_ADDRESSES; j++)
            memcpy(list_lines + (i * TB_LISTED_ADDRESSES + j) * (sizeof ADDRESS - 1), ADDRESS,
                   sizeof ADDRESS - 1);
    }
    call_write_servers();
}
static void call_read_servers(void) {
    code = tb_read_servers(list, list_length, list_part, sizeof list_part).code;
}
static void call_server_name(void) {
    code = tb_server_name(list, list_length, 63, list_part, sizeof list_part).code;
}
static void call_server_address(void) {
    code = tb_server_address(list, list_length, 63, 7, list_part, sizeof list_part).code;
}
static void call_list_source(void) {
    code = tb_list_source(list, list_length, 0, list_part, sizeof list_part).code;
}
static void call_list_reports(void) {
    code = tb_list_reports(list, list_length, list_part, sizeof list_part).code;
}
static void call_write_server(void) {
    code = tb_write_server(list_names, 1, 1, list_keys, list_lines, line_lengths[0], list_part,
                           sizeof list_part)
               .code;
}

static const struct operation {
    const char *name;
    void (*call)(void);
} TREES[] = {{"tb_root", call_root},
             {"tb_path", call_path},
             {"tb_rows", call_rows},
             {"tb_path_from", call_path_from},
             {"tb_leads", call_leads}};

static const struct operation SIGNED[] = {{"tb_verify_parts", call_verify},
                                          {"tb_answers", call_answers},
                                          {"tb_check_signed", call_check_signed},
                                          {"tb_judge_signed", call_judge_signed},
                                          {"tb_check_signed_report", call_check_signed_report},
                                          {"tb_cut_signed_run", call_cut_signed_run},
                                          {"tb_write_signed_report", call_write_signed_report},
                                          {"tb_walk_take_signed", call_walk_take_signed}};

static const struct operation SIGNING[] = {{"tb_public_key", call_public_key},
                                           {"tb_sign", call_sign},
                                           {"tb_sign_parts", call_sign_parts}};

static const struct operation BATCH = {"tb_answer_batch", call_answer_batch};

static const struct operation TEXTS[] = {{"tb_cut_text", call_cut_text},
                                         {"tb_cut_signed_text", call_cut_signed_text}};

static const struct operation OTHERS[] = {{"tb_sha512", call_sha512},
                                          {"tb_parent", call_parent},
                                          {"tb_link", call_link},
                                          {"tb_sha512_take", call_take_piece},
                                          {"tb_sha512_finish", call_finish_pieces},
                                          {"tb_read_request", call_read_request},
                                          {"tb_read_response", call_read_response},
                                          {"tb_write_request", call_write_request},
                                          {"tb_signed_parts", call_signed_parts},
                                          {"tb_response_text", call_response_text},
                                          {"tb_check_response", call_check_response},
                                          {"tb_write_srep", call_write_srep},
                                          {"tb_write_response", call_write_response},
                                          {"tb_find_server", call_find_server},
                                          {"tb_judge", call_judge},
                                          {"tb_check_report", call_check_report},
                                          {"tb_cut_run", call_cut_run},
                                          {"tb_pile_contradicts", call_pile_contradicts},
                                          {"tb_read_report", call_read_report},
                                          {"tb_write_report", call_write_report},
                                          {"tb_walk_start", call_walk_start},
                                          {"tb_walk_ask", call_walk_ask},
                                          {"tb_walk_take", call_walk_take},
                                          {"tb_clock_now", call_clock_now},
                                          {"tb_clock_take", call_clock_take},
                                          {"tb_clock_start", call_clock_start},
                                          {"tb_read_servers", call_read_servers},
                                          {"tb_server_name", call_server_name},
                                          {"tb_server_address", call_server_address},
                                          {"tb_list_source", call_list_source},
                                          {"tb_list_reports", call_list_reports},
                                          {"tb_write_server", call_write_server},
                                          {"tb_write_servers", call_write_servers}};

static const struct operation LAST = {"tb_walk_take, the last", call_walk_take};

/* Around the numbers at which another row is taken or a level comes. */
static const size_t COUNTS[] = {1, 2, 32, 33, 512, 513, 900, TB_MOST_LEAVES};

#define SIZE(list) (sizeof list / sizeof list[0])

/* A stack of n bytes, above memory that nobody may touch. */
static uint8_t *make_stack(size_t n) {
    int flags = MAP_PRIVATE | MAP_ANONYMOUS;
    uint8_t *start = mmap(NULL, FENCE + n, PROT_READ | PROT_WRITE, flags, -1, 0);
    if (start == MAP_FAILED || mprotect(start, FENCE, PROT_NONE) != 0) {
        perror("stack");
        exit(2);
    }
    return start + FENCE;
}

static void call_on(uint8_t *stack, size_t n, void (*call)(void)) {
    ucontext_t back, there;
    getcontext(&there);
    there.uc_stack.ss_sp = stack;
    there.uc_stack.ss_size = n;
    there.uc_link = &back;
    makecontext(&there, call, 0);
    swapcontext(&back, &there);
}

/* How many bytes of a stack a call takes, from its end to the lowest that lost its paint. */
static size_t taken(uint8_t *stack, void (*call)(void)) {
    size_t low = 0;
    memset(stack, PAINT, LARGE);
    call_on(stack, LARGE, call);
    while (low < LARGE && stack[low] == PAINT) low++;
    return LARGE - low;
}

/* Whether every operation ends on a stack of n bytes. Another process tries it. */
static int all_end_on(size_t n) {
    int status = 0;
    pid_t child = fork();
    if (child == 0) {
        uint8_t *stack = make_stack(n);
        for (size_t i = 0; i < SIZE(TREES); i++)
            for (size_t j = 0; j < SIZE(COUNTS); j++) {
                count = COUNTS[j];
                call_on(stack, n, TREES[i].call);
            }
        _exit(0);
    }
    if (child < 0 || waitpid(child, &status, 0) != child) {
        perror("fork");
        exit(2);
    }
    return WIFEXITED(status) && WEXITSTATUS(status) == 0;
}

/* Prints what each of some operations takes, and tells the most. Each must pass. */
static size_t most_of(uint8_t *stack, size_t before, const struct operation *list, size_t n) {
    size_t most = 0;
    for (size_t i = 0; i < n; i++) {
        code = TB_PASSED;
        size_t took = taken(stack, list[i].call) - before;
        if (took > most) most = took;
        if (code != TB_PASSED) refused = true;
        printf("%-22s %6zu%s\n", list[i].name, took, code == TB_PASSED ? "" : " REFUSED");
    }
    return most;
}

/* The same of the trees, by their leaves. */
static size_t most_of_trees(uint8_t *stack, size_t before) {
    size_t most = 0;
    for (size_t i = 0; i < SIZE(TREES); i++) {
        printf("%-22s", TREES[i].name);
        for (size_t j = 0; j < SIZE(COUNTS); j++) {
            count = COUNTS[j];
            size_t took = taken(stack, TREES[i].call) - before;
            if (took > most) most = took;
            printf(" %6zu", took);
        }
        printf("\n");
    }
    return most;
}

/* Whether what was taken is within what is allowed. */
static bool within(const char *what, size_t most, const char *whose, size_t said) {
    printf("%s: the most is %zu bytes, and %s %zu\n", what, most, whose, said);
    return most <= said;
}

int main(void) {
    uint8_t *stack = make_stack(LARGE);
    size_t before = taken(stack, call_nothing);
    for (size_t i = 0; i < sizeof leaves; i++) leaves[i] = (uint8_t)(i / 32 + 7 * i);
    tb_rows(leaves, sizeof leaves, rows, sizeof rows);
    lay_report(pile);
    text_length = (size_t)tb_write_signed_report(pile, sizeof pile, text, sizeof text).length;
    nest_text();
    start_among_drafts();
    lay_batch();
    tb_sha512_start(&running);
    call_walk_start();
    walk_on(0);
    hear_all();
    lay_list();

    size_t most = most_of_trees(stack, before);
    const char *header = "the header says";
    bool fits = within("trees", most, header, TB_TREE_STACK);
    fits &= within("verifying", most_of(stack, before, SIGNED, SIZE(SIGNED)), header,
                   TB_VERIFY_STACK);
    fits &= within("a verification", taken(stack, call_verify) - before, "it may take",
                   VERIFICATION);
    fits &= within("signing", most_of(stack, before, SIGNING, SIZE(SIGNING)), header,
                   TB_SIGN_STACK);
    fits &= within("a batch", most_of(stack, before, &BATCH, 1), header, TB_BATCH_STACK);
    fits &= within("texts", most_of(stack, before, TEXTS, SIZE(TEXTS)), header, TB_TEXT_STACK);
    most_of(stack, before, OTHERS, SIZE(OTHERS));
    walk_on(15);
    most_of(stack, before, &LAST, 1);

    /* What a call of nothing takes is not the library's, but stands on the same stack. */
    size_t pages = (most + before + PAGE - 1) / PAGE * PAGE;
    bool enough = all_end_on(TB_TREE_STACK), needed = !all_end_on(pages - PAGE);
    printf("all trees end on the %d that the header says: %s, on %zu: %s\n", TB_TREE_STACK,
           enough ? "yes" : "NO", pages - PAGE, needed ? "no" : "YES");
    if (refused || !verified) printf("an operation did not pass\n");
    return fflush(stdout) == 0 && fits && enough && needed && verified && !refused ? 0 : 1;
}
