/*
 * Tries wipe.c: has picky convert a private key, frees all, and prints how often a secret stands in the memory of this process that may
 * be written, but for the stack. check/agentd builds it with wipe.c, where that has to be never, and without, where it isn't.
 *
 *     wiped SECRET < KEY       the secret's bytes in hex
 */
#define _GNU_SOURCE
#include <fcntl.h>
#include <picky.h>
#include <stdbool.h>
#include <stdio.h>
#include <stdlib.h>
#include <string.h>
#include <unistd.h>

enum { ROOM = 65536, LONGEST = 64 };

/* Reallocs keep what was there, and one of no bytes frees. */
static bool keeps(void) {
    static const size_t sizes[] = {1, 24, 25, 1000, 10, 100000, 99999, 300000, 8, 0};
    unsigned char *block = NULL;
    size_t had = 0;
    for (size_t i = 0; i < sizeof sizes / sizeof sizes[0]; i++) {
        block = realloc(block, sizes[i]);
        if ((block == NULL) != (sizes[i] == 0))
            return false;
        for (size_t at = 0; at < sizes[i] && at < had; at++)
            if (block[at] != at % 251)
                return false;
        for (size_t at = 0; at < sizes[i]; at++)
            block[at] = (unsigned char)(at % 251);
        had = sizes[i];
    }
    return true;
}

/* How often a secret stands between two addresses, of which the kernel is asked: no pointer leads there any more. */
static int count(int memory, unsigned long from, unsigned long to, const unsigned char *secret, size_t len) {
    static unsigned char page[4096 + LONGEST];
    int found = 0;
    for (; from < to; from += 4096) {
        ssize_t got = pread(memory, page, sizeof page, (off_t)from);
        for (ssize_t at = 0; at < 4096 && at + (ssize_t)len <= got; at++)
            found += memcmp(page + at, secret, len) == 0;
    }
    explicit_bzero(page, sizeof page);
    return found;
}

int main(int words, char **word) {
    static char key[ROOM], out[ROOM];
    unsigned char secret[LONGEST];
    size_t len = words == 2 ? strlen(word[1]) / 2 : 0, key_len = fread(key, 1, sizeof key, stdin);
    for (size_t i = 0; i < len && len <= LONGEST; i++)
        if (sscanf(word[1] + 2 * i, "%2hhx", &secret[i]) != 1)
            return 2;
    picky_bytes none = {"", 0};
    if (len == 0 || len > LONGEST || !keeps() ||
        picky_convert((picky_bytes){key, key_len}, PICKY_OPENSSH, none, none, none, out, sizeof out).error != PICKY_OK)
        return 2;
    explicit_bzero(key, sizeof key);
    explicit_bzero(out, sizeof out);
    FILE *maps = fopen("/proc/self/maps", "r");
    int memory = open("/proc/self/mem", O_RDONLY), found = 0;
    char line[512], kind[8];
    unsigned long from, to;
    if (maps == NULL || memory < 0)
        return 2;
    while (fgets(line, sizeof line, maps) != NULL)
        if (sscanf(line, "%lx-%lx %7s", &from, &to, kind) == 3 && kind[1] == 'w' && strstr(line, "[stack]") == NULL)
            found += count(memory, from, to, secret, len);
    printf("%d\n", found);
    return fclose(maps) == 0 && close(memory) == 0 ? 0 : 2;
}
