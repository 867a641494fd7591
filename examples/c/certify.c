/*
 * Certifies a user's key, by an authority whose Ed25519 key OpenSSL has: the library asks for one signature, and OpenSSL makes it.
 *
 *     openssl genpkey -algorithm ed25519 -out authority.pem
 *     make certify && ./certify authority.pem id_ed25519.pub alice 3600 > id_ed25519-cert.pub
 *
 * The certificate is for the login name alice, and valid for 3,600 seconds from now: `ssh-keygen -L -f id_ed25519-cert.pub` shows
 * it. Standard error has the authority's public key line, for the file that TrustedUserCAKeys of sshd_config names.
 */
#include <picky/certificate.h>

#include <openssl/evp.h>
#include <openssl/pem.h>
#include <openssl/rand.h>
#include <stdio.h>
#include <stdlib.h>
#include <string.h>
#include <time.h>

enum { LARGEST_FILE = 1 << 16, LARGEST_OUT = 1 << 17, FRESH = 32, PUBLIC = 32, SIGNATURE = 64 };

static void fail(const char *why) {
    fprintf(stderr, "certify: %s\n", why);
    exit(2);
}

static void refuse(picky_answer answer) {
    fprintf(stderr, "certify: refused: %s\n", picky_error_name(answer.error).text);
    exit(1);
}

static picky_bytes bytes_of(const char *text) {
    picky_bytes bytes = {text, strlen(text)};
    return bytes;
}

/* ---- the authority */

static EVP_PKEY *authority_of(const char *name) {
    FILE *stream = fopen(name, "rb");
    EVP_PKEY *key = stream == NULL ? NULL : PEM_read_PrivateKey(stream, NULL, NULL, NULL);
    if (stream != NULL)
        fclose(stream);
    if (key == NULL || EVP_PKEY_base_id(key) != EVP_PKEY_ED25519)
        fail("the authority's file has no Ed25519 key in PEM");
    return key;
}

/* Its public key line: the type, and in base64 the blob, which is string type, string key (RFC 8709, section 4). */
static const char *line_of(EVP_PKEY *key) {
    static const char name[] = "ssh-ed25519 ", front[] = "\0\0\0\013ssh-ed25519\0\0\0\040";
    static char line[128];
    unsigned char blob[sizeof front - 1 + PUBLIC];
    size_t len = PUBLIC;
    memcpy(blob, front, sizeof front - 1);
    if (EVP_PKEY_get_raw_public_key(key, blob + sizeof front - 1, &len) != 1)
        fail("OpenSSL gives no public key");
    memcpy(line, name, sizeof name);
    EVP_EncodeBlock((unsigned char *)line + sizeof name - 1, blob, (int)sizeof blob);
    return line;
}

static void sign(EVP_PKEY *key, const unsigned char *text, size_t len, unsigned char *signature) {
    EVP_MD_CTX *context = EVP_MD_CTX_new();
    size_t made = SIGNATURE;
    if (context == NULL || EVP_DigestSignInit(context, NULL, NULL, NULL, key) != 1 ||
        EVP_DigestSign(context, signature, &made, text, len) != 1 || made != SIGNATURE)
        fail("OpenSSL doesn't sign");
    EVP_MD_CTX_free(context);
}

/* ---- the question, which is string head, string text: the head names the key and the algorithm, and the text is to be signed */

static size_t number(const unsigned char *at) {
    return (size_t)at[0] << 24 | (size_t)at[1] << 16 | (size_t)at[2] << 8 | at[3];
}

/* Puts the signature behind the question, as a string; the length of both. */
static size_t answer(EVP_PKEY *key, unsigned char *question, size_t len) {
    static const unsigned char string_len[] = {0, 0, 0, SIGNATURE};
    const unsigned char *text = question + 4 + number(question);
    memcpy(question + len, string_len, sizeof string_len);
    sign(key, text + 4, number(text), question + len + 4);
    return len + 4 + SIGNATURE;
}

/* ---- what is asked for */

/* The type of certificates for a key: "sk-ssh-ed25519@openssh.com" has "sk-ssh-ed25519-cert-v01@openssh.com". */
static void name_type(picky_bytes key, char *type, size_t room) {
    char name[64];
    picky_answer is = picky_read_public(key, PICKY_TYPE_NAME, name, sizeof name);
    if (is.error != PICKY_OK)
        refuse(is);
    name[strcspn(name, "@")] = '\0';
    snprintf(type, room, "%s-cert-v01@openssh.com", name);
}

int main(int argc, char **argv) {
    static unsigned char file[LARGEST_FILE], fresh[FRESH], out[LARGEST_OUT], answers[LARGEST_OUT + 4 + SIGNATURE];
    static char type[128], serial[32], after[32], before[32];
    unsigned char random[8];
    char *end;
    unsigned long long now = (unsigned long long)time(NULL), until = argc == 5 ? now + strtoull(argv[4], &end, 10) : 0;
    if (argc != 5 || *end != '\0' || until <= now)
        fail("usage: ./certify AUTHORITY KEY NAME SECONDS > CERTIFICATE");
    EVP_PKEY *authority = authority_of(argv[1]);
    FILE *stream = fopen(argv[2], "rb");
    size_t file_len = stream == NULL ? 0 : fread(file, 1, sizeof file, stream);
    if (stream == NULL || ferror(stream) || !feof(stream))
        fail("the key's file can't be read");
    fclose(stream);
    if (RAND_bytes(fresh, sizeof fresh) != 1 || RAND_bytes(random, sizeof random) != 1)
        fail("there are no random bytes");

    picky_bytes key = {file, file_len}, issuer = bytes_of(line_of(authority)), nonce = {fresh, sizeof fresh};
    name_type(key, type, sizeof type);
    snprintf(serial, sizeof serial, "%llu", (unsigned long long)number(random) << 32 | number(random + 4));
    snprintf(after, sizeof after, "%llu", now);
    snprintf(before, sizeof before, "%llu", until);
    const char *const words[] = {"--type", type, "--kind", "client", "--algorithm", "ed25519", "--serial", serial, "--after", after,
                                 "--before", before, "--id", argv[3], "--principal", argv[3]};
    enum { WORDS = sizeof words / sizeof *words };
    picky_bytes given[WORDS];
    for (size_t i = 0; i < WORDS; i++)
        given[i] = bytes_of(words[i]);

    picky_bytes none = {"", 0};
    picky_answer asked = picky_certify_by(given, WORDS, issuer, key, nonce, none, answers, LARGEST_OUT);
    if (asked.error != PICKY_ASKED)
        refuse(asked);
    picky_bytes table = {answers, answer(authority, answers, asked.len)};
    picky_answer line = picky_certify_by(given, WORDS, issuer, key, nonce, table, out, sizeof out);
    if (line.error != PICKY_OK)
        refuse(line);
    fprintf(stderr, "%s\n", (const char *)issuer.at);
    if (fwrite(out, 1, line.len, stdout) != line.len || fflush(stdout) != 0)
        fail("standard output fails");
    EVP_PKEY_free(authority);
    return 0;
}
