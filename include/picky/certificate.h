/*
 * Certificates from C (OpenSSH's PROTOCOL.certkeys). What a call does with `out`, and what is proved of it, says picky.h.
 */
#ifndef PICKY_CERTIFICATE_H
#define PICKY_CERTIFICATE_H

#include "../picky.h"

#ifdef __cplusplus
extern "C" {
#endif

/*
 * The fields of a certificate and of its line. Numbers are written in decimal, as "7"; a blob is the one spelling of a key
 * (RFC 4253, section 6.6), and other bytes are as they stand in the certificate.
 */
enum {
    PICKY_CERTIFICATE_TYPE = 1,                     /* the name of its type, as "ssh-ed25519-cert-v01@openssh.com" */
    PICKY_CERTIFICATE_KIND = 2,                     /* "user" or "host" */
    PICKY_CERTIFICATE_SERIAL = 3,
    PICKY_CERTIFICATE_VALID_AFTER = 4,              /* the first second at which it is valid, since 1970 */
    PICKY_CERTIFICATE_VALID_BEFORE = 5,             /* the first at which it is valid no more */
    PICKY_CERTIFICATE_KEY_ID = 6,                   /* by which the issuer logs it */
    PICKY_CERTIFICATE_COMMENT = 7,                  /* the line's, which nobody signed */
    PICKY_CERTIFICATE_NONCE = 8,
    PICKY_CERTIFICATE_SUBJECT = 9,                  /* the blob of the key that is certified */
    PICKY_CERTIFICATE_ISSUER = 10,                  /* the blob of the key that signed */
    PICKY_CERTIFICATE_ISSUER_LINE = 11,             /* its public key line, without a comment and an end */
    PICKY_CERTIFICATE_SIGNATURE_FORMAT = 12,        /* the name of the signature's format, as "rsa-sha2-256" */
    PICKY_CERTIFICATE_SIGNATURE_BLOB = 13,          /* the bytes of the signature's string */
    PICKY_CERTIFICATE_SIGNATURE = 14,               /* string format, string blob; of a security key a byte of flags and a uint32 */
    PICKY_CERTIFICATE_SIGNED = 15,                  /* what is signed: the bytes before the signature, as they stand */
    PICKY_CERTIFICATE_PRINCIPALS = 16,              /* how many names it is for; with none, for all */
    PICKY_CERTIFICATE_CRITICAL_OPTIONS = 17,        /* how many critical options it has */
    PICKY_CERTIFICATE_EXTENSIONS = 18,              /* how many extensions */
    PICKY_CERTIFICATE_PRINCIPAL = 19,               /* the name at the place */
    PICKY_CERTIFICATE_CRITICAL_OPTION_NAME = 20,    /* the name of the option at the place */
    PICKY_CERTIFICATE_CRITICAL_OPTION_PAYLOAD = 21, /* and its data, in most of which a string stands */
    PICKY_CERTIFICATE_EXTENSION_NAME = 22,
    PICKY_CERTIFICATE_EXTENSION_PAYLOAD = 23,
    PICKY_CERTIFICATE_PRINCIPAL_LIST = 24,          /* all names, each as a string (RFC 4251, section 5) */
    PICKY_CERTIFICATE_CRITICAL_OPTION_LIST = 25,    /* all options, of each a string name and a string data */
    PICKY_CERTIFICATE_EXTENSION_LIST = 26           /* and all extensions */
};

/*
 * A field of the certificate that a line says. `place` counts the items of a list from 0; where no item is asked for, it isn't
 * looked at. No signature is verified: whoever hands in the line may have made it.
 *
 * Reasons, in order: PICKY_NO_SUCH_PART; PICKY_TEXT_NOT_UTF8; PICKY_INPUT_CERT + PICKY_CERT_..; PICKY_NO_SUCH_PLACE;
 * PICKY_BUFFER_TOO_SMALL.
 */
picky_answer picky_certificate_part(picky_bytes text, uint32_t part, size_t place, void *out, size_t out_len);

/*
 * ---- Certificates that are asked for
 *
 * `words` say what is asked for: options, each before its value, in any order. A value may begin with a dash.
 *
 *   --type        the type of certificates that is for the key, as "ssh-ed25519-cert-v01@openssh.com"; none is made for NIST P-521
 *   --kind        "client" for a user's, or "host"
 *   --after       the first second at which it is valid, since 1970, as "0"; numbers are decimal and below 2^64
 *   --before      the first at which it is valid no more, as "18446744073709551615"
 *   --serial      a number; without the word it is 0
 *   --id          by which the issuer logs it; without the word it is empty
 *   --principal   a name that it is for; may be there several times, and so may these two:
 *   --critical    a critical option of a user's, NAME or NAME=TEXT: force-command, source-address or verify-required
 *   --extension   an extension of a user's, NAME or NAME=TEXT; without the word these are permit-X11-forwarding,
 *                 permit-agent-forwarding, permit-port-forwarding, permit-pty and permit-user-rc
 *   --algorithm   how the issuer signs: rsa-sha1, rsa-sha2-256, rsa-sha2-512, ecdsa-sha2-256, ecdsa-sha2-384, ecdsa-sha2-512 or
 *                 ed25519. Without the word it is by the kind of the key that is certified, and rsa-sha2-256 for RSA: so give it
 *                 where the issuer's key is of another kind or curve
 *
 * The first four have to be there. `issuer` and `key` are key texts, public or private, and read without a passphrase. Of the
 * issuer's the public key alone counts, and of the key's the public key and the comment, which goes into the line. `fresh` are 32
 * bytes or more that nobody can guess; the first 32 are the nonce.
 *
 * What is handed out has nothing secret in it, also where a text is a private key's.
 */

/*
 * What is to be signed of the certificate: its bytes before the signature (OpenSSH's PROTOCOL.certkeys).
 *
 * Reasons, in order: PICKY_WORD_NOT_UTF8, or PICKY_TOO_LONG, of the first word that is wrong; PICKY_ISSUER_NOT_UTF8;
 * PICKY_TEXT_NOT_UTF8, of the key's; PICKY_BAD_WORDS; PICKY_ISSUER_..; PICKY_INPUT_..; PICKY_COMMENT_NOT_CARRIED; PICKY_REQUEST +
 * PICKY_REQUEST_NO_KEY_TYPE, _UNSUPPORTED_CERTIFICATE_KEY_TYPE, _MISSING_CERTIFICATE_TYPE, _INVALID_TIME,
 * _HOST_CERTIFICATE_EXTENSIONS, _HOST_CERTIFICATE_CRITICAL_OPTIONS or _INCORRECT_SIGNATURE_ALGORITHM; PICKY_FRESH_TOO_SHORT;
 * PICKY_TOO_LONG; PICKY_BUFFER_TOO_SMALL.
 */
picky_answer picky_certificate_draft(const picky_bytes *words, size_t words_len, picky_bytes issuer, picky_bytes key,
                                     picky_bytes fresh, void *out, size_t out_len);

/*
 * The certificate's line, which ends in CR LF; or with PICKY_ASKED the question for its signature, as those of picky.h: string
 * head, string text. The text is what picky_certificate_draft hands out, and the head is a byte 6, a byte for the kind of the
 * issuer's key (1 RSA, 2 ECDSA, 3 Ed25519), a byte for the digest (2 SHA-1, 4 SHA-256, 5 SHA-384, 6 SHA-512; 0 of Ed25519), and
 * string blob, of the issuer's public key. The answer is the signature's bytes behind the name of its format: of RSA the number, as
 * long as n (RFC 8332, section 3); of ECDSA mpint r, mpint s (RFC 5656, section 3.1.2); of Ed25519 64 bytes (RFC 8709, section 6).
 *
 * So two calls are enough: one with no answers, and one with the question and behind it the answer as a string. The first answer to
 * the question counts, and other entries of the table aren't used. Give both calls the same words, texts and fresh bytes: under
 * others the question is another one. The answer goes into the line as it is, and nobody looks whether it is a good signature. The
 * line is read as the key's public part and its comment.
 *
 * Reasons, in order: as picky_certificate_draft, but PICKY_ANSWERS_.. of a table that is none come before PICKY_BAD_WORDS, and
 * PICKY_TOO_LONG of the line last; PICKY_BUFFER_TOO_SMALL, of a question too.
 */
picky_answer picky_certify_by(const picky_bytes *words, size_t words_len, picky_bytes issuer, picky_bytes key, picky_bytes fresh,
                              picky_bytes answers, void *out, size_t out_len);

#ifdef __cplusplus
}
#endif

#endif
