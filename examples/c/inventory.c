/*
 * Lists which keys the files have that are named, each key once, as an inventory on standard output.
 *
 *     make && ./inventory *.pub id_* > keys
 *
 * An encrypted private key isn't opened: it is listed by the public key that it shows, under the word "sealed". Without one the lines
 * are those of `keyinventory list` over the same files. Where one is refused, a line on standard error says which and why; then
 * nothing is listed, and the status is 1.
 */
#include <picky/inventory.h>

#include <stdio.h>
#include <stdlib.h>
#include <string.h>

enum { LARGEST_FILE = 1 << 24 };

/* The file's bytes, which the caller frees; where it can't be read, or is too large, NULL. */
static char *read_file(const char *name, size_t *len) {
    FILE *stream = fopen(name, "rb");
    char *bytes = stream == NULL ? NULL : (char *)malloc(LARGEST_FILE);
    if (bytes != NULL) {
        *len = fread(bytes, 1, LARGEST_FILE, stream);
        if (ferror(stream) || !feof(stream)) {
            free(bytes);
            bytes = NULL;
        } else {
            char *fitting = (char *)realloc(bytes, *len + 1);
            bytes = fitting == NULL ? bytes : fitting;
        }
    }
    if (stream != NULL)
        fclose(stream);
    return bytes;
}

/* The inventory in a buffer that the caller frees; or what else the call answers. */
static char *list(const picky_bytes *texts, size_t count, picky_answer *answer) {
    size_t room = 1 << 12;
    for (;;) {
        char *out = (char *)malloc(room);
        if (out == NULL)
            return NULL;
        *answer = picky_inventory_list(texts, count, 1, out, room);
        if (answer->error != PICKY_BUFFER_TOO_SMALL)
            return out;
        free(out);
        room = answer->len + 1;
    }
}

int main(int argc, char **argv) {
    size_t count = argc > 1 ? (size_t)argc - 1 : 0, read = 0;
    picky_bytes *texts = (picky_bytes *)calloc(count + 1, sizeof *texts);
    picky_answer answer = {PICKY_NO_MEMORY, 0};
    char *out = NULL;
    int failed = 1;
    for (; texts != NULL && read < count; read++) {
        texts[read].at = read_file(argv[read + 1], &texts[read].len);
        if (texts[read].at == NULL)
            break;
    }
    if (texts == NULL || read < count) {
        fprintf(stderr, "%s: can't be read\n", texts == NULL ? "the files" : argv[read + 1]);
    } else {
        out = list(texts, count, &answer);
        picky_name name = picky_error_name(answer.error);
        if (out != NULL && answer.error == PICKY_OK) {
            failed = fwrite(out, 1, answer.len, stdout) < answer.len || fflush(stdout) != 0;
            if (failed)
                fputs("the inventory can't be written\n", stderr);
        } else if (out != NULL && answer.len > 0) {
            fprintf(stderr, "%s: %s\n", argv[1 + strtoul(out, NULL, 10)], name.text);
        } else {
            fprintf(stderr, "inventory: %s\n", name.text);
        }
    }
    free(out);
    while (read > 0)
        free((void *)texts[--read].at);
    free(texts);
    return failed;
}
