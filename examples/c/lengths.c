/*
 * Tries each call on the bytes of a file, with a buffer of every length up to 300 and of each near the length that is needed,
 * in a thread with a stack of 64 KiB, and holds what it leaves in the buffer against picky.h.
 *
 *     make && ./lengths FILE...
 *
 * It writes a line for each file: how many calls there were, and how many of them handed out bytes. Under valgrind it shows that
 * a call reads and writes nothing else, since each buffer is a block of exactly its length.
 */
#include <picky.h>

#include <pthread.h>
#include <stdio.h>
#include <stdlib.h>
#include <string.h>

enum { CALLS = 41, SMALL = 300, STACK = 64 * 1024, UNTOUCHED = 0xA5 };

static const picky_bytes none = {"", 0};
static const picky_bytes pass = {"pass", 4};
static unsigned long calls, handed;

/*
 * One of CALLS: targets and parts, two numbers of each that name none, targets under passphrases, the fingerprint, parts of what is
 * shown, two numbers that name none, and other comments.
 */
static picky_answer call(int which, picky_bytes text, void *out, size_t out_len) {
    if (which < 9)
        return picky_convert(text, (uint32_t)which, none, none, none, out, out_len);
    if (which < 14)
        return picky_read_public(text, (uint32_t)(which - 9), out, out_len);
    if (which < 21)
        return picky_convert(text, (uint32_t)(which - 13), pass, pass, text, out, out_len);
    if (which < 22)
        return picky_fingerprint(text, out, out_len);
    if (which < 38)
        return picky_shown_public(text, (uint32_t)(which - 22), out, out_len);
    return picky_with_comment(text, which == 38 ? pass : which == 39 ? none : text, out, out_len);
}

static void fail(int which, size_t out_len, picky_answer answer, const char *why) {
    fprintf(stderr, "call %d with %zu bytes of room: %s: error %u, %zu bytes\n", which, out_len, why, (unsigned)answer.error,
            answer.len);
    exit(1);
}

/* One call with a buffer of this length, held against the answer with one of any length. */
static picky_answer attempt(int which, picky_bytes text, size_t out_len, const unsigned char *wanted, picky_answer whole) {
    unsigned char *out = (unsigned char *)malloc(out_len > 0 ? out_len : 1);
    if (out == NULL)
        exit(3);
    memset(out, UNTOUCHED, out_len);
    picky_answer answer = call(which, text, out, out_len);
    calls++;
    size_t written = 0;
    if (answer.error == PICKY_OK) {
        handed++;
        if (answer.len >= out_len || out[answer.len] != 0)
            fail(which, out_len, answer, "no zero behind the bytes");
        written = answer.len + 1;
        if (wanted != NULL && memcmp(out, wanted, answer.len) != 0)
            fail(which, out_len, answer, "other bytes");
    } else if (answer.error == PICKY_BUFFER_TOO_SMALL) {
        if (answer.len < out_len)
            fail(which, out_len, answer, "there is room");
    } else if (answer.len != 0) {
        fail(which, out_len, answer, "a length beside a refusal");
    }
    for (size_t i = written; i < out_len; i++)
        if (out[i] != UNTOUCHED)
            fail(which, out_len, answer, "a byte behind was written");
    if (wanted != NULL && (answer.len != whole.len || (answer.error == PICKY_OK) != (out_len > whole.len)))
        fail(which, out_len, answer, "another answer");
    if (wanted == NULL && whole.error != PICKY_OK && answer.error != whole.error)
        fail(which, out_len, answer, "another refusal");
    free(out);
    return answer;
}

static void try_text(picky_bytes text) {
    for (int which = 0; which < CALLS; which++) {
        picky_answer first = call(which, text, NULL, 0);
        calls++;
        if (first.error != PICKY_BUFFER_TOO_SMALL) {
            if (first.error == PICKY_OK || picky_error_name(first.error).text[0] == 0)
                fail(which, 0, first, "no name");
            for (size_t out_len = 0; out_len < 20; out_len++)
                attempt(which, text, out_len, NULL, first);
            continue;
        }
        unsigned char *wanted = (unsigned char *)malloc(first.len + 1);
        if (wanted == NULL)
            exit(3);
        picky_answer whole = call(which, text, wanted, first.len + 1);
        calls++;
        if (whole.error != PICKY_OK || whole.len != first.len)
            fail(which, first.len + 1, whole, "not what was needed");
        for (size_t out_len = 0; out_len < SMALL; out_len++)
            attempt(which, text, out_len, wanted, whole);
        for (size_t out_len = whole.len > 2 ? whole.len - 2 : 0; out_len < whole.len + 5; out_len++)
            attempt(which, text, out_len, wanted, whole);
        free(wanted);
    }
}

static void *try_file(void *given) {
    const char *path = (const char *)given;
    FILE *stream = fopen(path, "rb");
    if (stream == NULL || fseek(stream, 0, SEEK_END) != 0) {
        perror(path);
        exit(2);
    }
    size_t len = (size_t)ftell(stream);
    rewind(stream);
    char *bytes = (char *)malloc(len > 0 ? len : 1);
    if (bytes == NULL || fread(bytes, 1, len, stream) != len)
        exit(3);
    fclose(stream);
    picky_bytes text = {bytes, len}, nothing = {NULL, 0};
    try_text(text);
    if (len == 0)
        try_text(nothing);
    free(bytes);
    return NULL;
}

int main(int argc, char **argv) {
    for (int i = 1; i < argc; i++) {
        pthread_attr_t small;
        pthread_t thread;
        calls = handed = 0;
        if (pthread_attr_init(&small) != 0 || pthread_attr_setstacksize(&small, STACK) != 0 ||
            pthread_create(&thread, &small, try_file, argv[i]) != 0 || pthread_join(thread, NULL) != 0)
            return 3;
        pthread_attr_destroy(&small);
        printf("%s: %lu calls, %lu handed out bytes\n", argv[i], calls, handed);
    }
    return 0;
}
