/*
 * realloc and free that wipe what they free, for a program that hands secrets to picky: the library allocates by malloc, realloc and
 * free alone, and wipes nothing. The linker turns each call of the two to those below, in the program's files and in archives:
 *
 *     cc -Wl,--wrap=realloc,--wrap=free program.c wipe.c PREFIX/lib/libpicky.a
 *
 * A shared library keeps its own calls, so take the archive. Blocks are malloc's still, of all that are linked: what libc allocated,
 * as by strdup, may be freed here, and the other way round. malloc itself stays as it is.
 */
#define _DEFAULT_SOURCE
#include <malloc.h>
#include <stdlib.h>
#include <string.h>

void __real_free(void *block);
void *__wrap_realloc(void *block, size_t size);
void __wrap_free(void *block);

/* A block is wiped as far as it may have been written, which is more than what was asked for. */
void __wrap_free(void *block) {
    if (block != NULL)
        explicit_bzero(block, malloc_usable_size(block));
    __real_free(block);
}

/* Where a block moves, it is copied and wiped; realloc itself would leave the old one as it is. Of no bytes, as of glibc, it frees. */
void *__wrap_realloc(void *block, size_t size) {
    if (block == NULL)
        return malloc(size);
    if (size == 0) {
        __wrap_free(block);
        return NULL;
    }
    size_t had = malloc_usable_size(block);
    if (size <= had && size >= had / 2) {
        explicit_bzero((char *)block + size, had - size);
        return block;
    }
    void *moved = malloc(size);
    if (moved != NULL) {
        memcpy(moved, block, size < had ? size : had);
        __wrap_free(block);
    }
    return moved;
}
