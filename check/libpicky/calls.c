/*
 * Makes the calls of the library that stand on its standard input, and writes what they answer, where it is seen what they touch.
 * check/c builds it; check/libpicky/memory.py writes rows.h, with a row for each call of the headers, and the calls.
 *
 *     ./c_calls [-g] < CALLS > ANSWERS
 *
 * A number is a uint64_t as the machine has it, and a string is a number and as many bytes. A call is the string of its name, how
 * many buffers it is tried with, the length of each, and what it is given: a string for b (bytes) and p (the bytes of a
 * picky_sealing), a number of strings and these for l (an array of bytes), a number for n, q and z (of 32 and 64 bits, a size). Of
 * each buffer the error, the length and all its bytes are answered.
 *
 * All that a call is given, and each buffer, is a block of exactly its length: on the heap; with -g it ends where a page begins that
 * can't be accessed, what is given can't be written, and what has no bytes is NULL. The stack has 64 KiB.
 */
#define _DEFAULT_SOURCE
#include "rows.h"

#include <pthread.h>
#include <stdio.h>
#include <stdlib.h>
#include <string.h>
#include <sys/mman.h>

enum { STACK = 64 * 1024, UNTOUCHED = 0xA5, PAGE = 4096, MOST_GIVEN = 8, MOST_ROOMS = 8 };

/* One of the things that a call is given: bytes, an array with its length, a struct, or a number. */
typedef struct {
    const void *at;
    size_t len;
    uint64_t number;
} given;

typedef struct {
    const char *name, *kinds;
    picky_answer (*call)(const given *g, void *out, size_t out_len);
} row;

#define B(i) (picky_bytes){g[i].at, g[i].len}
#define L(i) g[i].at, g[i].len
#define P(i) g[i].at
#define N(i) (uint32_t)g[i].number
#define Q(i) g[i].number
#define Z(i) (size_t)g[i].number
#define ROW(name, kinds, ...) \
    static picky_answer call_##name(const given *g, void *out, size_t out_len) { return picky_##name(__VA_ARGS__, out, out_len); }
ROWS
#undef ROW
#define ROW(name, kinds, ...) {#name, kinds, call_##name},
static const row rows[] = {ROWS};

static int guarded;

static void fail(const char *why) {
    fprintf(stderr, "c_calls: %s\n", why);
    exit(2);
}

/* ---- blocks */

typedef struct block {
    struct block *next;
    unsigned char *at;
    size_t len;
} block;

/* Those of the call that is made, the newest first. */
static block *blocks;

static size_t pages(size_t len) {
    return (len + PAGE - 1) / PAGE * PAGE;
}

static unsigned char *new_block(size_t len) {
    block *b = malloc(sizeof *b);
    if (b == NULL)
        fail("no memory");
    *b = (block){blocks, NULL, len};
    blocks = b;
    if (!guarded) {
        b->at = malloc(len);
    } else if (len > 0) {
        unsigned char *map = mmap(NULL, pages(len) + PAGE, PROT_READ | PROT_WRITE, MAP_PRIVATE | MAP_ANONYMOUS, -1, 0);
        if (map == MAP_FAILED || mprotect(map + pages(len), PAGE, PROT_NONE) != 0)
            fail("no memory");
        b->at = map + pages(len) - len;
    }
    if (b->at == NULL && len > 0)
        fail("no memory");
    return b->at;
}

static void forbid_writes(void) {
    for (const block *b = blocks; guarded && b != NULL; b = b->next)
        if (b->len > 0 && mprotect(b->at + b->len - pages(b->len), pages(b->len), PROT_READ) != 0)
            fail("no memory");
}

static void free_blocks(void) {
    while (blocks != NULL) {
        block *b = blocks;
        if (!guarded)
            free(b->at);
        else if (b->len > 0)
            munmap(b->at + b->len - pages(b->len), pages(b->len) + PAGE);
        blocks = b->next;
        free(b);
    }
}

/* ---- what stands on standard input */

static void take(void *to, size_t len) {
    if (len > 0 && fread(to, 1, len, stdin) != len)
        fail("the calls are cut");
}

static uint64_t number(void) {
    uint64_t n;
    take(&n, sizeof n);
    return n;
}

static picky_bytes string(void) {
    size_t len = (size_t)number();
    unsigned char *at = new_block(len);
    take(at, len);
    return (picky_bytes){at, len};
}

static given taken(char kind) {
    given g = {NULL, 0, 0};
    if (kind == 'b' || kind == 'p') {
        picky_bytes bytes = string();
        g = (given){bytes.at, bytes.len, 0};
    } else if (kind == 'l') {
        g.len = (size_t)number();
        picky_bytes *items = (picky_bytes *)(void *)new_block(g.len * sizeof *items);
        for (size_t i = 0; i < g.len; i++)
            items[i] = string();
        g.at = items;
    } else {
        g.number = number();
    }
    return g;
}

/* ---- a call */

static void tell(const void *at, size_t len) {
    if (len > 0 && fwrite(at, 1, len, stdout) != len)
        fail("the answers can't be written");
}

static const row *named(picky_bytes name) {
    for (size_t i = 0; i < sizeof rows / sizeof *rows; i++)
        if (strlen(rows[i].name) == name.len && memcmp(rows[i].name, name.at, name.len) == 0)
            return &rows[i];
    fail("no header declares the call");
    return NULL;
}

static void make_call(void) {
    const row *r = named(string());
    uint64_t rooms[MOST_ROOMS], count = number();
    given g[MOST_GIVEN];
    if (count > MOST_ROOMS || strlen(r->kinds) > MOST_GIVEN)
        fail("a call has too many buffers, or is given too much");
    take(rooms, (size_t)count * sizeof *rooms);
    for (size_t i = 0; r->kinds[i] != 0; i++)
        g[i] = taken(r->kinds[i]);
    forbid_writes();
    for (size_t i = 0; i < count; i++) {
        size_t room = (size_t)rooms[i];
        unsigned char *out = new_block(room);
        if (room > 0)
            memset(out, UNTOUCHED, room);
        picky_answer answer = r->call(g, out, room);
        if (picky_error_name(answer.error).text[0] == 0)
            fail("the error has no name");
        uint64_t said[] = {answer.error, answer.len};
        tell(said, sizeof said);
        tell(out, room);
    }
    free_blocks();
    /* Where a sanitizer ends the next call, it is known which one that is. */
    if (fflush(stdout) != 0)
        fail("the answers can't be written");
}

static void *make_calls(void *unused) {
    for (int c; (c = getchar()) != EOF;) {
        ungetc(c, stdin);
        make_call();
    }
    return unused;
}

int main(int argc, char **argv) {
    pthread_attr_t small;
    pthread_t thread;
    guarded = argc > 1 && strcmp(argv[1], "-g") == 0;
    if (pthread_attr_init(&small) != 0 || pthread_attr_setstacksize(&small, STACK) != 0 ||
        pthread_create(&thread, &small, make_calls, NULL) != 0 || pthread_join(thread, NULL) != 0)
        fail("no thread");
    pthread_attr_destroy(&small);
    return 0;
}
