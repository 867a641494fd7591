/*
 * Applies requests to a ledger with an Ed25519 authority, which OpenSSL's libcrypto has sign: the library asks for each signature, and
 * this program answers.
 *
 *     openssl genpkey -algorithm ed25519 -out authority.pem
 *     make ledger && ./ledger certificates authority.pem < requests
 *
 * The ledger's file is replaced by the new ledger, and made where there is none; then the replies go to standard output. The request
 * lines are those of picky/ledger.h. What a run doesn't write it hasn't issued.
 */
#include <picky/ledger.h>

#include <openssl/evp.h>
#include <openssl/pem.h>
#include <openssl/rand.h>
#include <stdio.h>
#include <stdlib.h>
#include <string.h>

enum { NONCE = 32, KEY = 32, SIGNATURE = 64, SIGN = 6, ED25519 = 3 };

/* Bytes that grow. */
typedef struct {
    unsigned char *at;
    size_t len;
} buffer;

static void fail(const char *why) {
    fprintf(stderr, "ledger: %s\n", why);
    exit(2);
}

static void append(buffer *b, const void *at, size_t len) {
    b->at = (unsigned char *)realloc(b->at, b->len + len + 1);
    if (b->at == NULL)
        fail("out of memory");
    if (len > 0)
        memcpy(b->at + b->len, at, len);
    b->len += len;
}

static void append_string(buffer *b, const void *at, size_t len) {
    unsigned char size[4] = {(unsigned char)(len >> 24), (unsigned char)(len >> 16), (unsigned char)(len >> 8), (unsigned char)len};
    append(b, size, sizeof size);
    append(b, at, len);
}

static buffer all_of(FILE *stream, const char *name) {
    buffer read = {NULL, 0};
    unsigned char bytes[4096];
    size_t len;
    append(&read, "", 0);
    while ((len = fread(bytes, 1, sizeof bytes, stream)) > 0)
        append(&read, bytes, len);
    if (ferror(stream))
        fail(name);
    return read;
}

static picky_bytes bytes_of(buffer b) {
    picky_bytes bytes = {b.at, b.len};
    return bytes;
}

/* ---- the authority */

/* "ssh-ed25519", a space and the base64 of its blob (RFC 8709, section 4). */
static buffer issuer_line(EVP_PKEY *key) {
    static const char name[] = "ssh-ed25519";
    unsigned char point[KEY], text[128];
    size_t len = sizeof point;
    buffer blob = {NULL, 0}, line = {NULL, 0};
    if (EVP_PKEY_get_raw_public_key(key, point, &len) != 1 || len != sizeof point)
        fail("the authority's key isn't Ed25519");
    append_string(&blob, name, sizeof name - 1);
    append_string(&blob, point, len);
    append(&line, "ssh-ed25519 ", sizeof name);
    append(&line, text, (size_t)EVP_EncodeBlock(text, blob.at, (int)blob.len));
    free(blob.at);
    return line;
}

/* What stands at the front is taken from it. */
static buffer take(buffer *from, size_t len) {
    buffer taken = {from->at, len};
    if (len > from->len)
        fail("a question is cut");
    from->at += len;
    from->len -= len;
    return taken;
}

static buffer string(buffer *from) {
    const unsigned char *b = take(from, 4).at;
    return take(from, (size_t)b[0] << 24 | (size_t)b[1] << 16 | (size_t)b[2] << 8 | b[3]);
}

/* The question, and behind it the signature of its text. */
static void answer(EVP_PKEY *key, buffer question, buffer *answers) {
    unsigned char signature[SIGNATURE];
    size_t len = sizeof signature;
    buffer rest = question, head = string(&rest), text = string(&rest);
    EVP_MD_CTX *context = EVP_MD_CTX_new();
    if (head.len < 3 || head.at[0] != SIGN || head.at[1] != ED25519)
        fail("another question is asked than for an Ed25519 signature");
    if (context == NULL || EVP_DigestSignInit(context, NULL, NULL, NULL, key) != 1 ||
        EVP_DigestSign(context, signature, &len, text.at, text.len) != 1)
        fail("the authority can't sign");
    EVP_MD_CTX_free(context);
    append(answers, question.at, question.len);
    append_string(answers, signature, len);
}

/* ---- a run */

typedef picky_answer call(picky_bytes, picky_bytes, picky_bytes, picky_bytes, picky_bytes, void *, size_t);

/* What a call hands out, and its number; of a refusal the program says which it is, and ends. */
static buffer run(call *which, const buffer *given, uint32_t *error) {
    buffer out = {NULL, 1 << 12};
    picky_answer told;
    for (;;) {
        free(out.at);
        out.at = (unsigned char *)malloc(out.len);
        if (out.at == NULL)
            fail("out of memory");
        told = which(bytes_of(given[0]), bytes_of(given[1]), bytes_of(given[2]), bytes_of(given[3]), bytes_of(given[4]), out.at, out.len);
        if (told.error != PICKY_BUFFER_TOO_SMALL)
            break;
        out.len = told.len + 1;
    }
    *error = told.error;
    if (told.error != PICKY_OK && told.error != PICKY_ASKED) {
        picky_name name = picky_error_name(told.error);
        fprintf(stderr, "ledger: refused: %s%s%s\n", name.text, told.len > 0 ? ", line " : "", told.len > 0 ? (char *)out.at : "");
        exit(1);
    }
    out.len = told.len;
    return out;
}

/* The bytes as the file of this name, which never has a part of them. */
static void replace(const char *name, buffer bytes) {
    char other[4096];
    if ((size_t)snprintf(other, sizeof other, "%s.new", name) >= sizeof other)
        fail("the ledger's name is too long");
    FILE *stream = fopen(other, "wb");
    if (stream == NULL || fwrite(bytes.at, 1, bytes.len, stream) < bytes.len || fclose(stream) != 0 || rename(other, name) != 0)
        fail("the ledger can't be written");
}

int main(int argc, char **argv) {
    static const char empty[] = "next 1\n";
    /* The ledger, the issuer, the requests, the fresh bytes and the answers. */
    buffer given[5] = {{NULL, 0}, {NULL, 0}, {NULL, 0}, {NULL, 0}, {NULL, 0}};
    uint32_t error;
    if (argc != 3)
        fail("usage: ./ledger LEDGER AUTHORITY < REQUESTS");
    FILE *stream = fopen(argv[2], "rb");
    EVP_PKEY *key = stream == NULL ? NULL : PEM_read_PrivateKey(stream, NULL, NULL, NULL);
    if (key == NULL)
        fail("the authority's key can't be read");
    fclose(stream);
    given[1] = issuer_line(key);
    stream = fopen(argv[1], "rb");
    if (stream != NULL) {
        given[0] = all_of(stream, "the ledger can't be read");
        fclose(stream);
    } else {
        append(&given[0], empty, sizeof empty - 1);
    }
    given[2] = all_of(stdin, "the requests can't be read");
    size_t lines = 1;
    for (size_t i = 0; i < given[2].len; i++)
        lines += given[2].at[i] == '\n';
    given[3].len = NONCE * lines;
    given[3].at = (unsigned char *)malloc(given[3].len);
    if (given[3].at == NULL || RAND_bytes(given[3].at, (int)given[3].len) != 1)
        fail("there are no random bytes");
    append(&given[4], "", 0);

    buffer ledger = run(picky_ledger_apply, given, &error);
    if (error == PICKY_ASKED) {
        buffer questions = ledger;
        while (questions.len > 0)
            answer(key, string(&questions), &given[4]);
        free(ledger.at);
        ledger = run(picky_ledger_apply, given, &error);
    }
    if (error != PICKY_OK)
        fail("an answer is asked for again");
    buffer replies = run(picky_ledger_replies, given, &error);
    replace(argv[1], ledger);
    fwrite(replies.at, 1, replies.len, stdout);
    free(ledger.at);
    free(replies.at);
    for (int i = 0; i < 5; i++)
        free(given[i].at);
    EVP_PKEY_free(key);
    return fflush(stdout) != 0;
}
