/*
 * Prints what each file shows of its key without a passphrase, as `ssh-keygen -l` does, and what it is encrypted by.
 *
 *     make && ./shown ~/.ssh/id_ed25519 key.ppk
 *
 * A file that is refused has a line on standard error that says why, and the status is 1 then.
 */
#include <picky.h>

#include <stdio.h>
#include <stdlib.h>
#include <string.h>

enum { LARGEST_FILE = 1 << 24, SEVERAL = 4096 };

static const struct {
    uint32_t part;
    const char *before, *after;
} shown[] = {
    {PICKY_SHOWN_BITS, "", " "},
    {PICKY_SHOWN_FINGERPRINT, "", " "},
    {PICKY_SHOWN_COMMENT, "", " "},
    {PICKY_SHOWN_TYPE_NAME, "(", ")"},
    {PICKY_SHOWN_CIPHER, ", cipher ", ""},
    {PICKY_SHOWN_DERIVATION, ", derivation ", ""},
    {PICKY_SHOWN_ROUNDS, " of ", " rounds"},
    {PICKY_SHOWN_MEMORY, " of ", " KiB"},
    {PICKY_SHOWN_PASSES, ", ", " passes"},
    {PICKY_SHOWN_LANES, " and ", " lanes"},
    {PICKY_SHOWN_SALT_LEN, ", salt of ", " bytes"},
};

/* Prints each part that the text has. A comment that is longer than SEVERAL bytes isn't printed. */
static int print_text(const char *name, picky_bytes text) {
    for (size_t i = 0; i < sizeof shown / sizeof *shown; i++) {
        char part[SEVERAL];
        picky_answer answer = picky_shown_public(text, shown[i].part, part, sizeof part);
        if (answer.error != PICKY_OK && answer.error != PICKY_BUFFER_TOO_SMALL) {
            fprintf(stderr, "%s: %s\n", name, picky_error_name(answer.error).text);
            return 1;
        }
        if (answer.error == PICKY_OK && (answer.len > 0 || shown[i].part == PICKY_SHOWN_COMMENT))
            printf("%s%s%s", shown[i].before, part, shown[i].after);
    }
    putchar('\n');
    return 0;
}

int main(int argc, char **argv) {
    int failed = 0;
    char *bytes = (char *)malloc(LARGEST_FILE);
    if (bytes == NULL)
        return 3;
    for (int i = 1; i < argc; i++) {
        FILE *stream = fopen(argv[i], "rb");
        size_t len = stream == NULL ? 0 : fread(bytes, 1, LARGEST_FILE, stream);
        if (stream == NULL || ferror(stream) || !feof(stream)) {
            fprintf(stderr, "%s: can't be read\n", argv[i]);
            failed = 1;
        } else {
            picky_bytes text = {bytes, len};
            failed |= print_text(argv[i], text);
        }
        if (stream != NULL)
            fclose(stream);
    }
    free(bytes);
    return failed;
}
