/*
 * Opens a private key file, or encrypts one, with OpenSSL's AES: the library asks for what it needs, and this program answers.
 *
 *     make ask && PASS_IN=old PASS_OUT=new ./ask 7 < key.ppk > other.ppk
 *
 * The word is the number of a target, as PICKY_PPK3_FOR_PUTTY is 7. A passphrase that isn't there is none. PuTTY's files of version 2
 * take AES alone. Those of version 3 take Argon2 too, which is libargon2's, where the Makefile finds it; and OpenSSH's take
 * bcrypt-pbkdf, which this program hasn't.
 */
#include <picky.h>

#ifdef WITH_ARGON2
#include <argon2.h>
#endif
#include <openssl/crypto.h>
#include <openssl/evp.h>
#include <openssl/rand.h>
#include <stdio.h>
#include <stdlib.h>
#include <string.h>

enum { LARGEST_FILE = 1 << 20, FRESH = 64, MOST_KIB = 1 << 20 };

/* Bytes that grow. The old ones are wiped where they move, since questions and answers are secrets. */
typedef struct {
    unsigned char *at;
    size_t len;
} buffer;

static void fail(const char *why) {
    fprintf(stderr, "ask: %s\n", why);
    exit(2);
}

static void wipe(buffer *b) {
    if (b->at != NULL)
        OPENSSL_cleanse(b->at, b->len);
    free(b->at);
    b->at = NULL;
    b->len = 0;
}

static void append(buffer *b, const unsigned char *at, size_t len) {
    buffer more = {(unsigned char *)malloc(b->len + len + 1), b->len + len};
    if (more.at == NULL)
        fail("out of memory");
    if (b->len > 0)
        memcpy(more.at, b->at, b->len);
    memcpy(more.at + b->len, at, len);
    wipe(b);
    *b = more;
}

/* ---- a question: what is taken from its front stays in it */

static buffer take(buffer *from, size_t len) {
    if (len > from->len)
        fail("a question is cut");
    buffer taken = {from->at, len};
    from->at += len;
    from->len -= len;
    return taken;
}

static uint32_t number(buffer *from) {
    const unsigned char *b = take(from, 4).at;
    return (uint32_t)b[0] << 24 | (uint32_t)b[1] << 16 | (uint32_t)b[2] << 8 | b[3];
}

static buffer string(buffer *from) {
    return take(from, number(from));
}

/* Argon2 of a passphrase, 80 bytes. What takes too much memory is refused before it is spent. */
static buffer argon2(buffer head, buffer text) {
    int kind = *take(&head, 1).at;
    uint32_t memory = number(&head), passes = number(&head), lanes = number(&head);
    buffer salt = string(&head), answer = {(unsigned char *)calloc(1, 80), 80};
    if (answer.at == NULL || memory > MOST_KIB)
        fail("too much memory is asked for");
#ifdef WITH_ARGON2
    if (argon2_hash(passes, memory, lanes, text.at, text.len, salt.at, salt.len, answer.at, 80, NULL, 0, (argon2_type)kind,
                    ARGON2_VERSION_13) != ARGON2_OK)
        fail("Argon2 fails");
    return answer;
#else
    (void)kind, (void)passes, (void)lanes, (void)salt, (void)text;
    fail("Argon2 is asked for, and this program was built without it");
    return answer;
#endif
}

/* AES of a text under a key and an iv, with nothing padded. */
static buffer aes(int operation, buffer head, buffer text) {
    buffer key = string(&head), iv = string(&head), answer = {(unsigned char *)malloc(text.len + 16), text.len};
    const EVP_CIPHER *cbc = key.len == 32 ? EVP_aes_256_cbc() : EVP_aes_128_cbc();
    const EVP_CIPHER *ctr = key.len == 32 ? EVP_aes_256_ctr() : EVP_aes_128_ctr();
    EVP_CIPHER_CTX *context = EVP_CIPHER_CTX_new();
    int len = 0, rest = 0;
    if (answer.at == NULL || context == NULL || !EVP_CipherInit_ex(context, operation == 5 ? ctr : cbc, NULL, key.at, iv.at, operation != 4) ||
        !EVP_CIPHER_CTX_set_padding(context, 0) || !EVP_CipherUpdate(context, answer.at, &len, text.at, (int)text.len) ||
        !EVP_CipherFinal_ex(context, answer.at + len, &rest))
        fail("AES fails");
    EVP_CIPHER_CTX_free(context);
    return answer;
}

static buffer answer_of(buffer question) {
    buffer head = string(&question), text = string(&question);
    int operation = *take(&head, 1).at;
    if (operation == 2)
        return argon2(head, text);
    if (operation < 3 || operation > 5)
        fail("bcrypt-pbkdf is asked for, and this program hasn't it");
    return aes(operation, head, text);
}

/* ---- rounds */

static picky_bytes passphrase(const char *name) {
    const char *text = getenv(name);
    picky_bytes bytes = {text == NULL ? "" : text, text == NULL ? 0 : strlen(text)};
    return bytes;
}

int main(int argc, char **argv) {
    static unsigned char file[LARGEST_FILE], fresh[FRESH];
    if (argc != 2)
        fail("usage: PASS_IN=old PASS_OUT=new ./ask TARGET < KEY");
    picky_bytes text = {file, fread(file, 1, sizeof file, stdin)}, pass_in = passphrase("PASS_IN"), pass_out = passphrase("PASS_OUT");
    if (RAND_bytes(fresh, sizeof fresh) != 1)
        fail("there are no random bytes");
    picky_bytes fresh_bytes = {fresh, sizeof fresh};
    buffer answers = {NULL, 0}, out = {(unsigned char *)malloc(1), 1};
    picky_answer answer;
    for (;;) {
        picky_bytes table = {answers.len == 0 ? (const unsigned char *)"" : answers.at, answers.len};
        answer = picky_convert_by(text, (uint32_t)atoi(argv[1]), pass_in, pass_out, fresh_bytes, table, out.at, out.len);
        if (answer.error == PICKY_BUFFER_TOO_SMALL) {
            wipe(&out);
            out.len = answer.len + 1;
            out.at = (unsigned char *)malloc(out.len);
            if (out.at == NULL)
                fail("out of memory");
        } else if (answer.error == PICKY_ASKED) {
            buffer question = {out.at, answer.len}, given = answer_of(question);
            unsigned char len[4] = {(unsigned char)(given.len >> 24), (unsigned char)(given.len >> 16), (unsigned char)(given.len >> 8),
                                    (unsigned char)given.len};
            append(&answers, question.at, question.len);
            append(&answers, len, sizeof len);
            append(&answers, given.at, given.len);
            wipe(&given);
        } else {
            break;
        }
    }
    if (answer.error == PICKY_OK)
        fwrite(out.at, 1, answer.len, stdout);
    else
        fprintf(stderr, "ask: refused: %s\n", picky_error_name(answer.error).text);
    wipe(&answers);
    wipe(&out);
    OPENSSL_cleanse(file, sizeof file);
    return answer.error == PICKY_OK ? 0 : 1;
}
