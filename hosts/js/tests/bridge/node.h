/* How the C that bridge/write-c.mjs writes talks to node: what goes through the two pipes is a
 * length and so many bytes. Some processes of node are kept, and a call takes one that is free. */
#define _GNU_SOURCE
#include "trawlbeacon.h"

#include <fcntl.h>
#include <pthread.h>
#include <stdio.h>
#include <stdlib.h>
#include <string.h>
#include <unistd.h>

enum { NODES = 4, PIPE_BYTES = 1 << 20 };

struct node {
    pthread_mutex_t busy;
    int started, to, from;
    uint8_t *bytes;
    size_t length, room, taken;
};

static struct node nodes[NODES] = {
    {.busy = PTHREAD_MUTEX_INITIALIZER},
    {.busy = PTHREAD_MUTEX_INITIALIZER},
    {.busy = PTHREAD_MUTEX_INITIALIZER},
    {.busy = PTHREAD_MUTEX_INITIALIZER},
};

static void stop(const char *what, const char *which) {
    fprintf(stderr, "the bridge to WebAssembly: %s %s\n", what, which);
    abort();
}

/* TRAWLBEACON_BRIDGE is the path of bridge/answer.mjs, and TRAWLBEACON_WASM that of the module. */
static void start(struct node *node) {
    int to[2], from[2];
    const char *script = getenv("TRAWLBEACON_BRIDGE"), *wasm = getenv("TRAWLBEACON_WASM");
    if (!script || !wasm) stop("no path is set in", "TRAWLBEACON_BRIDGE or TRAWLBEACON_WASM");
    if (pipe2(to, O_CLOEXEC) || pipe2(from, O_CLOEXEC)) stop("there is no", "pipe");
    fcntl(to[1], F_SETPIPE_SZ, PIPE_BYTES);
    fcntl(from[1], F_SETPIPE_SZ, PIPE_BYTES);
    pid_t child = fork();
    if (child < 0) stop("there is no", "process");
    if (child == 0) {
        dup2(to[0], 0);
        dup2(from[1], 1);
        execlp("node", "node", script, wasm, (char *)NULL);
        _exit(127);
    }
    close(to[0]);
    close(from[1]);
    node->to = to[1];
    node->from = from[0];
    node->started = 1;
}

static void need(struct node *node, size_t room) {
    if (room <= node->room) return;
    node->room = 2 * room;
    node->bytes = realloc(node->bytes, node->room);
    if (!node->bytes) stop("there is no", "memory");
}

static void append(struct node *node, const void *bytes, size_t length) {
    need(node, node->length + length);
    if (length) memcpy(node->bytes + node->length, bytes, length);
    node->length += length;
}

static struct node *begin(uint32_t index) {
    struct node *node = nodes;
    for (size_t tried = 0; pthread_mutex_trylock(&node->busy); tried++) {
        node = &nodes[tried % NODES];
        if (tried >= NODES) usleep(20);
    }
    if (!node->started) start(node);
    uint32_t length = 0;
    node->length = 0;
    append(node, &length, 4);
    append(node, &index, 4);
    return node;
}

static void put_number(struct node *node, uint64_t number) { append(node, &number, 8); }

static void put_bytes(struct node *node, const void *bytes, uint64_t length) {
    put_number(node, length);
    append(node, bytes, length);
}

static void receive(struct node *node, size_t length) {
    need(node, length);
    for (size_t done = 0; done < length;) {
        ssize_t got = read(node->from, node->bytes + done, length - done);
        if (got <= 0) stop("node has", "ended");
        done += (size_t)got;
    }
}

/* Sends the call, and receives what came of it: whether it ended, and what it answers and wrote. */
static void call(struct node *node, const char *name) {
    uint32_t length = (uint32_t)(node->length - 4);
    memcpy(node->bytes, &length, 4);
    for (size_t done = 0; done < node->length;) {
        ssize_t put = write(node->to, node->bytes + done, node->length - done);
        if (put <= 0) stop("node takes nothing for", name);
        done += (size_t)put;
    }
    receive(node, 4);
    memcpy(&length, node->bytes, 4);
    receive(node, length);
    if (length < 1 || node->bytes[0] != 1) stop("WebAssembly broke a rule in", name);
    node->length = length;
    node->taken = 1;
}

static void get(struct node *node, void *bytes, uint64_t length) {
    if (length > node->length - node->taken) stop("too little", "was answered");
    if (length) memcpy(bytes, node->bytes + node->taken, length);
    node->taken += length;
}

static void end(struct node *node) {
    if (node->taken != node->length) stop("too much", "was answered");
    pthread_mutex_unlock(&node->busy);
}
