/*
 * Prints the fields of each file's certificate, as `ssh-keygen -L -f` does.
 *
 *     make && ./certificate id_ed25519-cert.pub
 *
 * A file that is refused has a line on standard error that says why, and the status is 1 then. No signature is verified.
 */
#include <picky/certificate.h>

#include <stdio.h>
#include <stdlib.h>
#include <string.h>
#include <time.h>

enum { LARGEST_FILE = 1 << 24, LARGEST_FIELD = 1 << 16 };

static picky_bytes text;
static char field[LARGEST_FIELD];

/* A field as a text, which the next call overwrites; NULL where it is refused or too long. */
static const char *field_at(uint32_t part, size_t place) {
    return picky_certificate_part(text, part, place, field, sizeof field).error == PICKY_OK ? field : NULL;
}

static const char *field_of(uint32_t part) { return field_at(part, 0); }

/* The field's fingerprint, behind the name of the kind of key as ssh-keygen has it. */
static void print_key(const char *before, uint32_t part, const char *behind) {
    static const char *const kinds[][2] = {{"ssh-rsa", "RSA"},   {"ecdsa-", "ECDSA"},       {"ssh-ed25519", "ED25519"},
                                           {"sk-ecdsa-", "ECDSA-SK"}, {"sk-ssh-", "ED25519-SK"}};
    char print[64], name[64];
    picky_bytes key = text;
    if (part == PICKY_CERTIFICATE_ISSUER_LINE) {
        picky_answer line = picky_certificate_part(text, part, 0, field, sizeof field);
        key.at = field;
        key.len = line.len;
    }
    if (picky_fingerprint(key, print, sizeof print).error != PICKY_OK || picky_read_public(key, PICKY_TYPE_NAME, name, sizeof name).error != PICKY_OK)
        return;
    for (size_t i = 0; i < sizeof kinds / sizeof *kinds; i++)
        if (strncmp(name, kinds[i][0], strlen(kinds[i][0])) == 0)
            printf("        %s: %s%s %s", before, kinds[i][1], behind, print);
}

/* The moment in the local time, as ssh-keygen prints it. */
static void print_moment(const char *before, uint32_t part) {
    time_t seconds = (time_t)strtoull(field_of(part), NULL, 10);
    struct tm *moment = localtime(&seconds);
    char words[32];
    if (moment != NULL && strftime(words, sizeof words, "%Y-%m-%dT%H:%M:%S", moment) > 0)
        printf("%s %s", before, words);
}

static void print_valid(void) {
    int always = strcmp(field_of(PICKY_CERTIFICATE_VALID_AFTER), "0") == 0;
    int ever = strcmp(field_of(PICKY_CERTIFICATE_VALID_BEFORE), "18446744073709551615") == 0;
    printf("        Valid: ");
    if (always && ever) {
        puts("forever");
        return;
    }
    if (!always)
        print_moment(ever ? "after" : "from", PICKY_CERTIFICATE_VALID_AFTER);
    if (!ever)
        print_moment(always ? "before" : " to", PICKY_CERTIFICATE_VALID_BEFORE);
    putchar('\n');
}

/* Each item of a list, with the text of its data where it has one: a string inside a string (RFC 4251, section 5). */
static void print_list(const char *name, uint32_t number, uint32_t item, uint32_t payload) {
    size_t count = strtoull(field_of(number), NULL, 10);
    printf("        %s: %s\n", name, count > 0 ? "" : "(none)");
    for (size_t i = 0; i < count; i++) {
        printf("                %s", field_at(item, i));
        if (payload != 0) {
            picky_answer data = picky_certificate_part(text, payload, i, field, sizeof field);
            if (data.error == PICKY_OK && data.len > 4)
                printf(" %.*s", (int)(data.len - 4), field + 4);
        }
        putchar('\n');
    }
}

static int print_certificate(const char *name) {
    picky_answer answer = picky_certificate_part(text, PICKY_CERTIFICATE_TYPE, 0, field, sizeof field);
    if (answer.error != PICKY_OK) {
        fprintf(stderr, "%s: %s\n", name, picky_error_name(answer.error).text);
        return 1;
    }
    printf("%s:\n        Type: %s", name, field);
    printf(" %s certificate\n", field_of(PICKY_CERTIFICATE_KIND));
    print_key("Public key", PICKY_CERTIFICATE_SUBJECT, "-CERT");
    putchar('\n');
    print_key("Signing CA", PICKY_CERTIFICATE_ISSUER_LINE, "");
    printf(" (using %s)\n", field_of(PICKY_CERTIFICATE_SIGNATURE_FORMAT));
    printf("        Key ID: \"%s\"\n", field_of(PICKY_CERTIFICATE_KEY_ID));
    printf("        Serial: %s\n", field_of(PICKY_CERTIFICATE_SERIAL));
    print_valid();
    print_list("Principals", PICKY_CERTIFICATE_PRINCIPALS, PICKY_CERTIFICATE_PRINCIPAL, 0);
    print_list("Critical Options", PICKY_CERTIFICATE_CRITICAL_OPTIONS, PICKY_CERTIFICATE_CRITICAL_OPTION_NAME,
               PICKY_CERTIFICATE_CRITICAL_OPTION_PAYLOAD);
    print_list("Extensions", PICKY_CERTIFICATE_EXTENSIONS, PICKY_CERTIFICATE_EXTENSION_NAME, PICKY_CERTIFICATE_EXTENSION_PAYLOAD);
    return 0;
}

int main(int argc, char **argv) {
    int failed = 0;
    char *bytes = (char *)malloc(LARGEST_FILE);
    if (bytes == NULL)
        return 3;
    for (int i = 1; i < argc; i++) {
        FILE *stream = fopen(argv[i], "rb");
        size_t len = stream == NULL ? 0 : fread(bytes, 1, LARGEST_FILE, stream);
        if (stream == NULL || ferror(stream) || !feof(stream)) {
            fprintf(stderr, "%s: can't be read\n", argv[i]);
            failed = 1;
        } else {
            text.at = bytes;
            text.len = len;
            failed |= print_certificate(argv[i]);
        }
        if (stream != NULL)
            fclose(stream);
    }
    free(bytes);
    return failed;
}
