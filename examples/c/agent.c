/*
 * An SSH agent of Ed25519 keys over standard input and output, as keyagent is one, that signs with OpenSSL: the library says what
 * has to be signed and what is replied, and this program keeps the keys. The state of the agent has public keys alone.
 *
 *     make agent && ./agent < messages > replies
 *
 * docs/COOKBOOK.md, "An agent for a CI job", has keyagent behind a socket, and this takes its place there. Keys of other kinds are
 * refused. The statuses are those of keyagent (docs/keyagent.1).
 */
#include <picky/agent.h>

#include <openssl/crypto.h>
#include <openssl/evp.h>
#include <openssl/rand.h>
#include <stdio.h>
#include <stdlib.h>
#include <string.h>

enum { LONGEST = 262144, MOST = 1024, KEY = 32, SIGNATURE = 64, SALT = 16, DIGEST = 32 };
enum { DONE, BAD_LENGTH, CUT, READ_FAULT, WRITE_FAULT };
enum { SUCCESS = 6, SIGN = 13, ADD = 17, REMOVE = 18, REMOVE_ALL = 19, LOCK = 22, UNLOCK = 23 };

/* A buffer, of which the library has written the first `len` bytes. */
typedef struct {
    unsigned char *at;
    size_t len, room;
} buffer;

static buffer state, next, bare, question, reply;

static unsigned char salt[SALT];

/* The keys of the identities, by their public keys. */
static struct {
    unsigned char key[KEY];
    EVP_PKEY *pair;
} pairs[MOST];
static size_t pair_count;

static const picky_bytes nothing = {"", 0}, failure = {"\5", 1};

static picky_bytes bytes(const void *at, size_t len) {
    picky_bytes it = {len == 0 ? "" : at, len};
    return it;
}

/* ---- the library's calls, each into a buffer of its own, which grows; 1 where the call hands out bytes, or none */

enum { QUESTION, REPLY, NEXT, BARE };

static int called(int call, picky_bytes message, picky_bytes signature, buffer *out) {
    static unsigned char no_room[1];
    picky_bytes kept = bytes(state.at, state.len);
    for (;;) {
        unsigned char *at = out->room > 0 ? out->at : no_room;
        picky_answer answer = call == QUESTION ? picky_agent_question(kept, message, at, out->room)
                              : call == REPLY  ? picky_agent_reply(kept, message, signature, at, out->room)
                              : call == NEXT   ? picky_agent_next(kept, message, at, out->room)
                                               : picky_agent_public_add(message, at, out->room);
        out->len = answer.error == PICKY_OK ? answer.len : 0;
        if (answer.error != PICKY_BUFFER_TOO_SMALL)
            return answer.error == PICKY_OK;
        unsigned char *more = (unsigned char *)realloc(out->at, answer.len + 1);
        if (more == NULL)
            return 0;
        out->at = more;
        out->room = answer.len + 1;
    }
}

/* ---- fields (RFC 4251, section 5) */

static size_t number(const unsigned char *at) {
    return (size_t)at[0] << 24 | (size_t)at[1] << 16 | (size_t)at[2] << 8 | at[3];
}

static unsigned char *put_number(unsigned char *at, size_t number) {
    for (int i = 0; i < 4; i++)
        at[i] = (unsigned char)(number >> (24 - 8 * i));
    return at + 4;
}

static unsigned char *put_string(unsigned char *at, const void *content, size_t len) {
    memcpy(put_number(at, len), content, len);
    return at + 4 + len;
}

/* The string that begins at a place of a question, behind which the place stands afterwards. */
static picky_bytes string_at(size_t *place) {
    size_t len = number(question.at + *place);
    picky_bytes it = {question.at + *place + 4, len};
    *place += 4 + len;
    return it;
}

/* ---- keys */

static EVP_PKEY *pair_of(const unsigned char *key) {
    for (size_t i = 0; i < pair_count; i++)
        if (memcmp(pairs[i].key, key, KEY) == 0)
            return pairs[i].pair;
    return NULL;
}

/* The pair of the key that a message adds; NULL where it adds none of Ed25519, or the public key isn't that of the secret. */
static EVP_PKEY *pair_in(picky_bytes message) {
    unsigned char secret[2 * KEY + 1], key[KEY];
    size_t len = sizeof key;
    EVP_PKEY *pair = NULL;
    if (picky_agent_secret(message, PICKY_AGENT_SECRET_ED_SECRET, secret, sizeof secret).error == PICKY_OK)
        pair = EVP_PKEY_new_raw_private_key(EVP_PKEY_ED25519, NULL, secret, KEY);
    if (pair != NULL && (EVP_PKEY_get_raw_public_key(pair, key, &len) != 1 || memcmp(key, secret + KEY, KEY) != 0)) {
        EVP_PKEY_free(pair);
        pair = NULL;
    }
    OPENSSL_cleanse(secret, sizeof secret);
    return pair;
}

/* Keeps the pair, if there isn't one of this key. */
static void keep(EVP_PKEY *pair) {
    unsigned char key[KEY];
    size_t len = sizeof key;
    if (pair_count < MOST && EVP_PKEY_get_raw_public_key(pair, key, &len) == 1 && pair_of(key) == NULL) {
        memcpy(pairs[pair_count].key, key, KEY);
        pairs[pair_count++].pair = pair;
    } else {
        EVP_PKEY_free(pair);
    }
}

/* Frees the pairs that no identity has any more: nothing is to be signed by these. */
static void forget(void) {
    static const char name[] = "ssh-ed25519";
    for (size_t i = pair_count; i-- > 0;) {
        unsigned char asked[128], blob[64], *end = put_string(put_string(blob, name, sizeof name - 1), pairs[i].key, KEY);
        asked[0] = SIGN;
        end = put_number(put_string(put_string(asked + 1, blob, (size_t)(end - blob)), "", 0), 0);
        if (called(QUESTION, bytes(asked, (size_t)(end - asked)), nothing, &question) && question.len == 0) {
            EVP_PKEY_free(pairs[i].pair);
            pairs[i] = pairs[--pair_count];
        }
    }
}

/* The signature that the question asks for, and its length; 0 where there is none. */
static size_t sign(unsigned char *signature) {
    size_t place = 4, len = SIGNATURE;
    picky_bytes blob = string_at(&place), algorithm = string_at(&place);
    string_at(&place);
    picky_bytes message = string_at(&place);
    if (algorithm.len != 7 || memcmp(algorithm.at, "ed25519", 7) != 0)
        return 0;
    EVP_PKEY *pair = pair_of((const unsigned char *)blob.at + blob.len - KEY);
    EVP_MD_CTX *context = EVP_MD_CTX_new();
    int signs = pair != NULL && context != NULL && EVP_DigestSignInit(context, NULL, NULL, NULL, pair) == 1 &&
                EVP_DigestSign(context, signature, &len, (const unsigned char *)message.at, message.len) == 1;
    EVP_MD_CTX_free(context);
    return signs ? len : 0;
}

/* ---- messages */

/* The lock's message with the salted digest of the passphrase in its place; no bytes where it doesn't fit. */
static picky_bytes hashed(unsigned char *message, size_t len) {
    unsigned char digest[DIGEST];
    EVP_MD_CTX *context = EVP_MD_CTX_new();
    int fits = context != NULL && len >= 5 && number(message + 1) <= len - 5 &&
               EVP_DigestInit_ex(context, EVP_sha256(), NULL) == 1 && EVP_DigestUpdate(context, salt, sizeof salt) == 1 &&
               EVP_DigestUpdate(context, message + 5, number(message + 1)) == 1 && EVP_DigestFinal_ex(context, digest, NULL) == 1;
    EVP_MD_CTX_free(context);
    return fits ? bytes(message, (size_t)(put_string(message + 1, digest, sizeof digest) - message)) : nothing;
}

/* What the library is given of the message, which has no secret; no bytes where it is refused. */
static picky_bytes without_secrets(unsigned char *message, size_t len) {
    if (message[0] == LOCK || message[0] == UNLOCK)
        return hashed(message, len);
    if (message[0] != ADD)
        return bytes(message, len);
    return called(BARE, bytes(message, len), nothing, &bare) ? bytes(bare.at, bare.len) : nothing;
}

/* One step of the agent: the reply, with a signature where one is asked for, and the next state. 0 where a call fails. */
static int stepped(picky_bytes message) {
    unsigned char signature[SIGNATURE];
    if (message.len == 0 || !called(QUESTION, message, nothing, &question))
        return 0;
    picky_bytes signed_by = bytes(signature, question.len > 0 ? sign(signature) : 0);
    if (!called(REPLY, message, signed_by, &reply) || !called(NEXT, message, nothing, &next))
        return 0;
    buffer old = state;
    state = next;
    next = old;
    return 1;
}

/* The reply to a message; the failure where a call fails, or a key is none that is kept here. */
static picky_bytes replied(unsigned char *message, size_t len) {
    int kind = message[0];
    EVP_PKEY *pair = kind == ADD ? pair_in(bytes(message, len)) : NULL;
    if ((kind == ADD && pair == NULL) || !stepped(without_secrets(message, len))) {
        EVP_PKEY_free(pair);
        return failure;
    }
    int done = reply.at[0] == SUCCESS;
    if (pair != NULL && done)
        keep(pair);
    else
        EVP_PKEY_free(pair);
    if (done && (kind == REMOVE || kind == REMOVE_ALL))
        forget();
    return bytes(reply.at, reply.len);
}

/* The status behind a message, whose reply is written; -1 where another may come. */
static int answered(unsigned char *message) {
    unsigned char length[4];
    size_t len = fread(length, 1, 4, stdin);
    if (len < 4)
        return ferror(stdin) ? READ_FAULT : len == 0 ? DONE : CUT;
    len = number(length);
    if (len < 1 || len > LONGEST)
        return BAD_LENGTH;
    if (fread(message, 1, len, stdin) < len)
        return ferror(stdin) ? READ_FAULT : CUT;
    picky_bytes told = replied(message, len);
    put_number(length, told.len);
    int wrote = fwrite(length, 1, 4, stdout) == 4 && fwrite(told.at, 1, told.len, stdout) == told.len && fflush(stdout) == 0;
    return wrote ? -1 : WRITE_FAULT;
}

int main(void) {
    static unsigned char message[LONGEST + DIGEST];
    int status = RAND_bytes(salt, sizeof salt) == 1 && setvbuf(stdin, NULL, _IONBF, 0) == 0 ? -1 : READ_FAULT;
    while (status < 0) {
        status = answered(message);
        OPENSSL_cleanse(message, sizeof message);
    }
    while (pair_count > 0)
        EVP_PKEY_free(pairs[--pair_count].pair);
    free(state.at);
    free(next.at);
    free(bare.at);
    free(question.at);
    free(reply.at);
    return status;
}
