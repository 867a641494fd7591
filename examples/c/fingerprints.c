/*
 * Prints the fingerprint, the key type and the comment of each public key in a folder: of its files whose name ends in ".pub".
 *
 *     make && ./fingerprints ~/.ssh
 *
 * A file that is refused has a line on standard error that says why, and the status is 1 then.
 */
#define _POSIX_C_SOURCE 200809L

#include <picky.h>

#include <dirent.h>
#include <stdio.h>
#include <stdlib.h>
#include <string.h>

enum { LARGEST_FILE = 1 << 24 };

/* The bytes of a file in a folder, which the caller frees; `at` is NULL where it can't be read. */
static picky_bytes read_file(const char *folder, const char *name) {
    picky_bytes file = {NULL, 0};
    size_t room = strlen(folder) + strlen(name) + 2;
    char *path = (char *)malloc(room);
    if (path == NULL)
        return file;
    snprintf(path, room, "%s/%s", folder, name);
    FILE *stream = fopen(path, "rb");
    free(path);
    if (stream == NULL)
        return file;
    char *bytes = (char *)malloc(LARGEST_FILE);
    size_t len = bytes == NULL ? 0 : fread(bytes, 1, LARGEST_FILE, stream);
    if (bytes == NULL || ferror(stream) || !feof(stream)) {
        free(bytes);
    } else {
        file.at = bytes;
        file.len = len;
    }
    fclose(stream);
    return file;
}

/* A part of the key, which the caller frees: one call tells how long it is, and a second one hands it out. */
static char *part_of(picky_bytes text, uint32_t part) {
    char nothing[1];
    picky_answer answer = picky_read_public(text, part, nothing, 0);
    if (answer.error != PICKY_BUFFER_TOO_SMALL)
        return NULL;
    char *bytes = (char *)malloc(answer.len + 1);
    if (bytes == NULL)
        return NULL;
    answer = picky_read_public(text, part, bytes, answer.len + 1);
    if (answer.error != PICKY_OK) {
        free(bytes);
        return NULL;
    }
    return bytes;
}

/* Prints the line of a file. */
static int print_key(const char *folder, const char *name) {
    picky_bytes text = read_file(folder, name);
    if (text.at == NULL) {
        fprintf(stderr, "%s: can't be read\n", name);
        return 1;
    }
    char fingerprint[64];
    picky_answer answer = picky_fingerprint(text, fingerprint, sizeof fingerprint);
    if (answer.error != PICKY_OK) {
        fprintf(stderr, "%s: %s\n", name, picky_error_name(answer.error).text);
        free((void *)text.at);
        return 1;
    }
    char *type_name = part_of(text, PICKY_TYPE_NAME);
    char *comment = part_of(text, PICKY_COMMENT);
    int failed = type_name == NULL || comment == NULL;
    if (failed)
        fprintf(stderr, "%s: out of memory\n", name);
    else
        printf("%s %s %s\n", fingerprint, type_name, comment);
    free(type_name);
    free(comment);
    free((void *)text.at);
    return failed;
}

static int is_public_key(const struct dirent *entry) {
    size_t len = strlen(entry->d_name);
    return len > 4 && strcmp(entry->d_name + len - 4, ".pub") == 0;
}

int main(int argc, char **argv) {
    if (argc != 2) {
        fprintf(stderr, "usage: fingerprints FOLDER\n");
        return 2;
    }
    struct dirent **entries;
    int count = scandir(argv[1], &entries, is_public_key, alphasort);
    if (count < 0) {
        perror(argv[1]);
        return 2;
    }
    int failed = 0;
    for (int i = 0; i < count; i++) {
        failed |= print_key(argv[1], entries[i]->d_name);
        free(entries[i]);
    }
    free(entries);
    return failed;
}
