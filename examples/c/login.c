/*
 * Decides whether a key or a certificate gets in by authorized keys, and prints what the decision is, line by line.
 *
 *     make login && ./login authorized_keys id_ed25519-cert.pub me
 *
 * A fourth word is the moment, in seconds since 1970; else it is now. Where the library asks whether a certificate's issuer signed
 * it, OpenSSL's Ed25519 answers, so an issuer of another kind ends the program. The status is 0 of a grant, 1 of a denial and 2 of
 * anything else. A grant is no login: the user has to sign for the session with the key of the line "key", too.
 */
#include <picky/policy.h>

#include <openssl/evp.h>
#include <stdio.h>
#include <stdlib.h>
#include <string.h>
#include <time.h>

enum { LARGEST_FILE = 1 << 24, ED25519_KEY = 32, ED25519_SIGNATURE = 64, VERIFY = 7 };

static void fail(const char *what, const char *why) {
    fprintf(stderr, "login: %s: %s\n", what, why);
    exit(2);
}

static void *room_for(size_t len) {
    void *at = malloc(len > 0 ? len : 1);
    if (at == NULL)
        fail("memory", "there is none");
    return at;
}

static picky_bytes read_file(const char *path) {
    FILE *stream = fopen(path, "rb");
    unsigned char *at = (unsigned char *)room_for(LARGEST_FILE);
    size_t len = stream == NULL ? 0 : fread(at, 1, LARGEST_FILE, stream);
    if (stream == NULL || ferror(stream) || !feof(stream))
        fail(path, "can't be read");
    fclose(stream);
    picky_bytes file = {at, len};
    return file;
}

/* ---- a question: what is taken from its front stays in it */

typedef struct {
    const unsigned char *at;
    size_t len;
} part;

static part take(part *from, size_t len) {
    if (len > from->len)
        fail("the question", "is cut");
    part taken = {from->at, len};
    from->at += len;
    from->len -= len;
    return taken;
}

/* A string of RFC 4251, section 5. */
static part string(part *from) {
    const unsigned char *b = take(from, 4).at;
    return take(from, (size_t)b[0] << 24 | (size_t)b[1] << 16 | (size_t)b[2] << 8 | b[3]);
}

/* The bytes of so many that stand behind Ed25519's name (RFC 8709, sections 4 and 6). */
static part of_ed25519(part field, size_t len) {
    part name = string(&field), bytes = {NULL, 0};
    if (name.len != strlen("ssh-ed25519") || memcmp(name.at, "ssh-ed25519", name.len) != 0)
        return bytes;
    bytes = string(&field);
    if (bytes.len != len)
        bytes.at = NULL;
    return bytes;
}

/* Whether the issuer signed the text. */
static unsigned char verdict_on(part question) {
    part head = string(&question), text = string(&question);
    if (*take(&head, 1).at != VERIFY)
        fail("the question", "isn't about a signature");
    part key = of_ed25519(string(&head), ED25519_KEY), signature = of_ed25519(string(&head), ED25519_SIGNATURE);
    if (key.at == NULL)
        fail("the issuer's key", "isn't one of Ed25519");
    if (signature.at == NULL)
        return 0;
    EVP_PKEY *issuer = EVP_PKEY_new_raw_public_key(EVP_PKEY_ED25519, NULL, key.at, key.len);
    EVP_MD_CTX *context = EVP_MD_CTX_new();
    if (issuer == NULL || context == NULL || EVP_DigestVerifyInit(context, NULL, NULL, NULL, issuer) != 1)
        fail("OpenSSL", "can't verify by Ed25519");
    int good = EVP_DigestVerify(context, signature.at, signature.len, text.at, text.len) == 1;
    EVP_MD_CTX_free(context);
    EVP_PKEY_free(issuer);
    return good ? 1 : 0;
}

/* The table of one entry: the question, and the answer as a string. */
static picky_bytes answered(part question) {
    static const unsigned char one[4] = {0, 0, 0, 1};
    unsigned char *at = (unsigned char *)room_for(question.len + sizeof one + 1);
    memcpy(at, question.at, question.len);
    memcpy(at + question.len, one, sizeof one);
    at[question.len + sizeof one] = verdict_on(question);
    picky_bytes answers = {at, question.len + sizeof one + 1};
    return answers;
}

int main(int argc, char **argv) {
    if (argc != 4 && argc != 5)
        fail("usage", "./login AUTHORIZED_KEYS OFFER USER [MOMENT]");
    picky_bytes authorized = read_file(argv[1]), offer = read_file(argv[2]), user = {argv[3], strlen(argv[3])}, answers = {"", 0};
    uint64_t moment = argc == 5 ? strtoull(argv[4], NULL, 10) : (uint64_t)time(NULL);
    unsigned char *out = (unsigned char *)room_for(1);
    size_t out_len = 1;
    picky_answer answer;
    for (;;) {
        answer = picky_decide_by(authorized, offer, user, moment, answers, out, out_len);
        if (answer.error == PICKY_BUFFER_TOO_SMALL) {
            free(out);
            out_len = answer.len + 1;
            out = (unsigned char *)room_for(out_len);
        } else if (answer.error == PICKY_ASKED) {
            part question = {out, answer.len};
            answers = answered(question);
        } else {
            break;
        }
    }
    int granted = answer.error == PICKY_OK, denied = !granted && answer.error / 100 == PICKY_DENIED / 100;
    if (!granted && !denied)
        fail("refused", picky_error_name(answer.error).text);
    fwrite(out, 1, answer.len, stdout);
    free(out);
    free((void *)offer.at);
    free((void *)authorized.at);
    if (answers.len > 0)
        free((void *)answers.at);
    return granted ? 0 : 1;
}
