/* The keys of identities: OpenSSL's, made of the parts that the library hands out of a message, and kept here alone. */
#include "host.h"

#include <openssl/bn.h>
#include <openssl/core_names.h>
#include <openssl/ec.h>
#include <openssl/err.h>
#include <openssl/param_build.h>

/* RSA's numbers: those of a message in its order, and the two exponents that are made of them. */
enum { N, E, D, IQMP, P, Q, DMP1, DMQ1, NUMBERS };

/* As OpenSSH has it: RSA keys of fewer bits aren't taken, nor numbers of more. */
enum { FEWEST_BITS = 1024, MOST_BITS = 16384 };

static BIGNUM *read_number(picky_bytes message, uint32_t part, buffer *scratch) {
    if (!ask(SECRET + part, text(""), message, scratch) || scratch->len == 0 || scratch->len > MOST_BITS / 8)
        return NULL;
    return BN_bin2bn(scratch->at, (int)scratch->len, NULL);
}

/* The key, if it holds; else it is freed. */
static EVP_PKEY *only_if(bool holds, EVP_PKEY *key) {
    if (holds)
        return key;
    EVP_PKEY_free(key);
    return NULL;
}

static EVP_PKEY *make_key(const char *kind, OSSL_PARAM_BLD *parts) {
    EVP_PKEY *key = NULL;
    OSSL_PARAM *params = OSSL_PARAM_BLD_to_param(parts);
    EVP_PKEY_CTX *context = EVP_PKEY_CTX_new_from_name(NULL, kind, NULL);
    if (params == NULL || context == NULL || EVP_PKEY_fromdata_init(context) != 1 ||
        EVP_PKEY_fromdata(context, &key, EVP_PKEY_KEYPAIR, params) != 1)
        key = NULL;
    EVP_PKEY_CTX_free(context);
    OSSL_PARAM_free(params);
    return key;
}

/* The secret exponent modulo a prime less one. */
static BIGNUM *exponent_of(const BIGNUM *d, const BIGNUM *prime) {
    BN_CTX *context = BN_CTX_new();
    BIGNUM *made = BN_new(), *less = BN_dup(prime);
    bool good = context != NULL && made != NULL && less != NULL && BN_sub_word(less, 1) == 1 && BN_mod(made, d, less, context) == 1;
    BN_clear_free(less);
    BN_CTX_free(context);
    if (good)
        return made;
    BN_clear_free(made);
    return NULL;
}

/* The key, if it signs: nobody judges primes, and a secret that isn't the public key's shows so. */
static EVP_PKEY *read_rsa(picky_bytes message, buffer *scratch) {
    static const char *const names[NUMBERS] = {
        OSSL_PKEY_PARAM_RSA_N,       OSSL_PKEY_PARAM_RSA_E,       OSSL_PKEY_PARAM_RSA_D,         OSSL_PKEY_PARAM_RSA_COEFFICIENT1,
        OSSL_PKEY_PARAM_RSA_FACTOR1, OSSL_PKEY_PARAM_RSA_FACTOR2, OSSL_PKEY_PARAM_RSA_EXPONENT1, OSSL_PKEY_PARAM_RSA_EXPONENT2};
    BIGNUM *numbers[NUMBERS] = {NULL};
    OSSL_PARAM_BLD *parts = OSSL_PARAM_BLD_new();
    bool good = parts != NULL;
    for (int i = N; i < NUMBERS && good; i++) {
        numbers[i] = i <= Q ? read_number(message, PICKY_AGENT_SECRET_RSA_N + (uint32_t)i, scratch)
                            : exponent_of(numbers[D], numbers[i == DMP1 ? P : Q]);
        good = numbers[i] != NULL && OSSL_PARAM_BLD_push_BN(parts, names[i], numbers[i]) == 1;
    }
    EVP_PKEY *key = good && BN_num_bits(numbers[N]) >= FEWEST_BITS ? make_key("RSA", parts) : NULL;
    key = only_if(sign_by(key, text("rsa-sha2-256"), text("once"), scratch), key);
    for (int i = 0; i < NUMBERS; i++)
        BN_clear_free(numbers[i]);
    OSSL_PARAM_BLD_free(parts);
    return key;
}

/* The key, if its point is on the curve and is that of the secret. */
static EVP_PKEY *read_ecdsa(picky_bytes message, const char *curve, buffer *scratch) {
    BIGNUM *secret = read_number(message, PICKY_AGENT_SECRET_EC_SECRET, scratch);
    OSSL_PARAM_BLD *parts = OSSL_PARAM_BLD_new();
    bool good = secret != NULL && parts != NULL && ask(SECRET + PICKY_AGENT_SECRET_EC_POINT, text(""), message, scratch) &&
                scratch->len > 0 && scratch->at[0] == POINT_CONVERSION_UNCOMPRESSED &&
                OSSL_PARAM_BLD_push_utf8_string(parts, OSSL_PKEY_PARAM_GROUP_NAME, curve, 0) == 1 &&
                OSSL_PARAM_BLD_push_octet_string(parts, OSSL_PKEY_PARAM_PUB_KEY, scratch->at, scratch->len) == 1 &&
                OSSL_PARAM_BLD_push_BN(parts, OSSL_PKEY_PARAM_PRIV_KEY, secret) == 1;
    EVP_PKEY *key = good ? make_key("EC", parts) : NULL;
    EVP_PKEY_CTX *context = key != NULL ? EVP_PKEY_CTX_new_from_pkey(NULL, key, NULL) : NULL;
    key = only_if(context != NULL && EVP_PKEY_check(context) == 1, key);
    EVP_PKEY_CTX_free(context);
    OSSL_PARAM_BLD_free(parts);
    BN_clear_free(secret);
    return key;
}

/* The key, if its public part is that of the secret. */
static EVP_PKEY *read_ed25519(picky_bytes message, buffer *scratch) {
    unsigned char public[32];
    size_t len = sizeof public;
    if (!ask(SECRET + PICKY_AGENT_SECRET_ED_SECRET, text(""), message, scratch) || scratch->len != 2 * sizeof public)
        return NULL;
    EVP_PKEY *key = EVP_PKEY_new_raw_private_key(EVP_PKEY_ED25519, NULL, scratch->at, sizeof public);
    return only_if(key != NULL && EVP_PKEY_get_raw_public_key(key, public, &len) == 1 &&
                       same(bytes(public, len), bytes(scratch->at + sizeof public, sizeof public)), key);
}

/* The key that a message adds, none of a security key; false where it adds none, or its numbers make no key. */
bool read_key(picky_bytes message, EVP_PKEY **key) {
    static const char *const curves[][2] = {
        {"ecdsa-sha2-nistp256", "P-256"}, {"ecdsa-sha2-nistp384", "P-384"}, {"ecdsa-sha2-nistp521", "P-521"}};
    buffer type = {0}, scratch = {0};
    *key = NULL;
    bool found = ask(SECRET + PICKY_AGENT_SECRET_KEY_TYPE, text(""), message, &type), signs = !found || memcmp(type.at, "sk-", 3) != 0;
    if (found && same(held(&type), text("ssh-rsa")))
        *key = read_rsa(message, &scratch);
    if (found && same(held(&type), text("ssh-ed25519")))
        *key = read_ed25519(message, &scratch);
    for (size_t i = 0; i < sizeof curves / sizeof curves[0] && found; i++)
        if (same(held(&type), text(curves[i][0])))
            *key = read_ecdsa(message, curves[i][1], &scratch);
    ERR_clear_error();
    drop(&type);
    drop(&scratch);
    return found && (*key != NULL || !signs);
}

/* ---- identities in their order */

void drop_identity(identity *it) {
    EVP_PKEY_free(it->key);
    drop(&it->blob);
    drop(&it->comment);
    drop(&it->plain);
    drop(&it->state);
    *it = (identity){0};
}

identity *find(ring *in, picky_bytes blob) {
    for (size_t i = 0; i < in->count; i++)
        if (same(held(&in->at[i].blob), blob))
            return &in->at[i];
    return NULL;
}

/* Moves an identity to the place of that which has its blob, or behind all, where there is room. */
void put_identity(ring *in, identity *it) {
    identity *old = find(in, held(&it->blob));
    if (old != NULL)
        drop_identity(old);
    else
        old = &in->at[in->count++];
    *old = *it;
    *it = (identity){0};
}

void remove_at(ring *in, size_t place) {
    drop_identity(&in->at[place]);
    in->count--;
    memmove(&in->at[place], &in->at[place + 1], (in->count - place) * sizeof in->at[0]);
}
