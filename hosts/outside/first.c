/* A first program against the installed library: checks the first response of a report under the
 * key that stands beside it, and prints the window of the time.
 *
 *     cc -o first first.c $(pkg-config --cflags --libs trawlbeacon)
 *     cc -o first first.c $(pkg-config --cflags trawlbeacon) \
 *         $(pkg-config --variable=archive trawlbeacon)
 *     ./first malfeasance-report.json
 *
 * The first of the two links the shared library, the second the archive.
 */
#include <stdint.h>
#include <stdio.h>
#include <stdlib.h>
#include <trawlbeacon.h>

/* Where a record has its key, the lengths of its two packets and the packets. */
enum { KEY = 0, REQUEST_LENGTH = 64, RESPONSE_LENGTH = 68, REQUEST = 96, RESPONSE = 2096 };

/* A length of a record. It is at most 2,000, so that two of its four bytes are enough. */
static size_t length_at(const uint8_t *place) { return place[0] + 256u * place[1]; }

static struct tb_verdict check(const uint8_t *record) {
    return tb_check_signed(record + KEY, record + REQUEST, length_at(record + REQUEST_LENGTH),
                           record + RESPONSE, length_at(record + RESPONSE_LENGTH));
}

/* The same bytes with twice the room, or NULL where there is no more memory. */
static uint8_t *grow(uint8_t *bytes, size_t *room) {
    uint8_t *more = NULL;
    if (*room <= SIZE_MAX / 2) {
        *room *= 2;
        more = realloc(bytes, *room);
    }
    if (more == NULL) free(bytes);
    return more;
}

/* All bytes of a file, which the caller frees, or NULL where they cannot be had. A report may be
 * longer than those that the library writes: TB_LONGEST_REPORT is no limit to what is read. */
static uint8_t *read_file(const char *name, size_t *length) {
    size_t room = 1 << 16;
    FILE *file = fopen(name, "rb");
    uint8_t *bytes = file == NULL ? NULL : malloc(room);
    *length = 0;
    while (bytes != NULL) {
        *length += fread(bytes + *length, 1, room - *length, file);
        if (*length < room) break;
        bytes = grow(bytes, &room);
    }
    if (bytes != NULL && ferror(file)) {
        free(bytes);
        bytes = NULL;
    }
    if (file != NULL) fclose(file);
    return bytes;
}

static int refused(uint32_t code) {
    printf("refused with code %u: %s\n", (unsigned)code, tb_code_text(code));
    return 1;
}

int main(int argc, char **argv) {
    static uint8_t pile[TB_MOST_PILE_LENGTH];
    if (argc != 2) {
        fprintf(stderr, "usage: first REPORT\n");
        return 2;
    }
    size_t length;
    uint8_t *text = read_file(argv[1], &length);
    if (text == NULL) {
        fprintf(stderr, "first: '%s' cannot be read\n", argv[1]);
        return 2;
    }
    struct tb_records read = tb_read_report(text, length, pile, sizeof pile);
    free(text);
    if (read.code != TB_PASSED) return refused(read.code);
    struct tb_verdict verdict = check(pile);
    if (verdict.code != TB_PASSED) return refused(verdict.code);
    printf("the time is from %llu to %llu\n", (unsigned long long)verdict.low,
           (unsigned long long)verdict.high);
    return fflush(stdout) == 0 ? 0 : 2; /* what was not written was not told */
}
