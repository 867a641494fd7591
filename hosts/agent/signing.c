/* Signatures by OpenSSL's EVP, each verified before it is handed out. */
#include "host.h"

#include <openssl/bn.h>
#include <openssl/ec.h>
#include <openssl/err.h>

/* The algorithms of the library's questions: the kind of key, the digest and the curve of ECDSA. */
static const struct {
    const char *name, *kind, *digest, *curve;
} algorithms[] = {
    {"ed25519", "ED25519", NULL, NULL},         {"rsa-sha2-512", "RSA", "SHA2-512", NULL},
    {"rsa-sha2-256", "RSA", "SHA2-256", NULL},  {"rsa-sha1", "RSA", "SHA1", NULL},
    {"ecdsa-sha2-256", "EC", "SHA2-256", "P-256"}, {"ecdsa-sha2-384", "EC", "SHA2-384", "P-384"},
    {"ecdsa-sha2-512", "EC", "SHA2-512", "P-521"},
};
enum { ALGORITHMS = sizeof algorithms / sizeof algorithms[0] };

/* The signature as OpenSSL makes it, which it verifies. */
static bool sign(EVP_PKEY *key, const char *digest, picky_bytes message, buffer *made) {
    EVP_MD_CTX *signs = EVP_MD_CTX_new(), *verifies = EVP_MD_CTX_new();
    size_t len = (size_t)EVP_PKEY_get_size(key);
    bool good = signs != NULL && verifies != NULL && grow(made, len) &&
                EVP_DigestSignInit_ex(signs, NULL, digest, NULL, NULL, key, NULL) == 1 &&
                EVP_DigestSign(signs, made->at, &len, message.at, message.len) == 1 &&
                EVP_DigestVerifyInit_ex(verifies, NULL, digest, NULL, NULL, key, NULL) == 1 &&
                EVP_DigestVerify(verifies, made->at, len, message.at, message.len) == 1;
    made->len = good ? len : 0;
    EVP_MD_CTX_free(signs);
    EVP_MD_CTX_free(verifies);
    return good;
}

/* A number of a curve's as an mpint: with a zero byte before it where its first bit is set. */
static bool put_mpint(buffer *it, const BIGNUM *number) {
    unsigned char digits[1 + 66] = {0};
    size_t len = (size_t)BN_bn2bin(number, digits + 1), zero = digits[1] >> 7;
    return put_string(it, bytes(digits + 1 - zero, zero + len));
}

/* The two numbers of ECDSA as mpints (RFC 5656, section 3.1.2), in place of DER. */
static bool spell_numbers(buffer *signature) {
    const unsigned char *at = signature->at;
    ECDSA_SIG *numbers = d2i_ECDSA_SIG(NULL, &at, (long)signature->len);
    signature->len = 0;
    bool put_both = numbers != NULL && put_mpint(signature, ECDSA_SIG_get0_r(numbers)) &&
                    put_mpint(signature, ECDSA_SIG_get0_s(numbers));
    ECDSA_SIG_free(numbers);
    return put_both;
}

/* The signature of a message as a question wants it; false, and no bytes, where there is none. */
bool sign_by(EVP_PKEY *key, picky_bytes algorithm, picky_bytes message, buffer *signature) {
    bool made = false;
    for (size_t i = 0; i < ALGORITHMS; i++)
        if (key != NULL && same(algorithm, text(algorithms[i].name)) && EVP_PKEY_is_a(key, algorithms[i].kind))
            made = sign(key, algorithms[i].digest, message, signature) && (algorithms[i].curve == NULL || spell_numbers(signature));
    if (!made) {
        signature->len = 0;
        ERR_clear_error();
    }
    return made;
}

/* Signs once by each, since OpenSSL loads at first use what can't be loaded under the filter. SHA-1 alone may be switched off. */
bool sign_once_by_each(void) {
    buffer signature = {0};
    bool all = true;
    for (size_t i = 0; i < ALGORITHMS && all; i++) {
        const char *kind = algorithms[i].kind, *curve = algorithms[i].curve;
        EVP_PKEY *key = curve == NULL ? EVP_PKEY_Q_keygen(NULL, NULL, kind, (size_t)1024) : EVP_PKEY_Q_keygen(NULL, NULL, kind, curve);
        all = sign_by(key, text(algorithms[i].name), text("once"), &signature) || strcmp(algorithms[i].name, "rsa-sha1") == 0;
        EVP_PKEY_free(key);
    }
    drop(&signature);
    return all;
}
