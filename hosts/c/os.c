/* What the proved program asks of the system beside the C library: memory, its arguments, and errno.
 *
 * The kit has this C code compiled for x86-64 alone, and declares it in its libraries os and libc,
 * with the words that stand here. On other processors tools/native-program links this file in its
 * place. Nothing proves it. A length has 64 bits on each of them, as the kit has it; where C's own
 * has fewer, the program also reads and writes by two functions of this file. */

#include <errno.h>
#include <stdbool.h>
#include <stddef.h>
#include <stdint.h>
#include <stdlib.h>
#include <unistd.h>

/* Whether there is memory, and where: two words, whatever a pointer has on the processor. Where
 * there is none, it is the place of a byte that belongs to nobody. */
struct tried {
    uint64_t ok;
    uint64_t place;
};

struct tried rattle_alloc(uint64_t size, uint64_t align);
struct tried rattle_realloc(void *place, uint64_t kept, uint64_t size, uint64_t align);
void rattle_dealloc(void *place);
int rattle_errno(void);
void rattle_set_errno(int error);
int64_t rattle_arg(uint64_t i, uint8_t *buf, uint64_t buf_len);
int64_t rattle_read(int file, void *buf, uint64_t buf_len);
int64_t rattle_write(int file, const void *buf, uint64_t buf_len);
const void *__x86_get_cpuid_feature_leaf(unsigned leaf);

static uint8_t nothing;
static uint64_t count;
static char **words;

/* glibc hands the arguments to what runs before main, which is told of none. */
__attribute__((constructor)) static void keep(int argc, char **argv) {
    count = (uint64_t)argc;
    words = argv;
}

static struct tried tried(void *place) {
    struct tried answer = {place != NULL, (uintptr_t)(place != NULL ? place : &nothing)};
    return answer;
}

/* No size is 0 for malloc, and none is more than C can say. An alignment divides 16, which on
 * machines of 32 bits is more than malloc keeps. */
static bool fits(uint64_t size, uint64_t align) {
    return size <= SIZE_MAX && align <= 2 * sizeof(void *);
}

struct tried rattle_alloc(uint64_t size, uint64_t align) {
    return tried(fits(size, align) ? malloc((size_t)(size != 0 ? size : align)) : NULL);
}

/* What is kept is what realloc keeps. */
struct tried rattle_realloc(void *place, uint64_t kept, uint64_t size, uint64_t align) {
    (void)kept;
    return tried(fits(size, align) ? realloc(place, (size_t)(size != 0 ? size : align)) : NULL);
}

void rattle_dealloc(void *place) { free(place); }

int rattle_errno(void) { return errno; }

void rattle_set_errno(int error) { errno = error; }

/* Puts argument i at the start of buf and answers its length, -1 where there is no such argument,
 * or -2 where it does not fit, and then buf is full. The program's own name is argument 0. */
int64_t rattle_arg(uint64_t i, uint8_t *buf, uint64_t buf_len) {
    uint64_t at;
    if (i >= count || words[i] == NULL) return -1;
    for (at = 0; words[i][at] != '\0'; at++) {
        if (at == buf_len) return -2;
        buf[at] = (uint8_t)words[i][at];
    }
    return (int64_t)at;
}

/* What a pointer leads to is in memory, so that its length fits. */
int64_t rattle_read(int file, void *buf, uint64_t buf_len) {
    return read(file, buf, (size_t)buf_len);
}

int64_t rattle_write(int file, const void *buf, uint64_t buf_len) {
    return write(file, buf, (size_t)buf_len);
}

/* As it starts, the program asks what an x86-64 processor can do that not every one can. Its code
 * was compiled anew for this processor, and uses none of it, so that nothing is lacking. */
const void *__x86_get_cpuid_feature_leaf(unsigned leaf) {
    static const uint32_t all[8] = {UINT32_MAX, UINT32_MAX, UINT32_MAX, UINT32_MAX,
                                    UINT32_MAX, UINT32_MAX, UINT32_MAX, UINT32_MAX};
    (void)leaf;
    return all;
}
