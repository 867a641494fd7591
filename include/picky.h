/*
 * picky from C: SSH keys converted, fingerprinted and taken apart; and certificates, logins, agents, ledgers and inventories. Every
 * call is proved. ./install PREFIX puts these headers and the library there, as an archive and as a shared library:
 *
 *     cc -IPREFIX/include program.c PREFIX/lib/libpicky.a
 *     cc program.c $(pkg-config --cflags --libs picky)
 *
 * A key text is UTF-8, in one of five forms, told by how it begins: an OpenSSH private key, a PuTTY private key file, a PuTTY
 * public key, a certificate's line or a public key line (docs/FORMATS.md, "Key text"). It begins with its key: one with a byte
 * order mark, an empty line or a line of a comment (#) in front is refused. What follows the first key is ignored, a second key
 * too: give each line of a file of several by itself. A call reads a text and hands out bytes, in C11:
 *
 *     char out[64];
 *     picky_answer answer = picky_fingerprint((picky_bytes){line, strlen(line)}, out, sizeof out);
 *     puts(answer.error == PICKY_OK ? out : picky_error_name(answer.error).text);
 *
 * Other calls stand in headers by subject: picky/certificate.h takes certificates apart and makes them, picky/authorized.h takes
 * authorized keys apart, picky/policy.h decides who gets in, picky/agent.h answers what an agent is asked, picky/ledger.h applies
 * requests, picky/inventory.h lists keys. picky/errors.h has all errors.
 *
 * What a call does with `out`, of `out_len` bytes:
 *
 *   PICKY_OK                 `len` bytes are handed out: they stand at the front of `out`, with a zero byte behind them. What
 *                            follows is as it was.
 *   PICKY_ASKED              the same, and the bytes are a question ("Questions and answers", below), or several; of a call that
 *                            takes answers alone.
 *   PICKY_DENIED + ..,       the same, where the call says which bytes come with such a number.
 *   PICKY_BAD_LINE, ..
 *   PICKY_BUFFER_TOO_SMALL   there are `len` bytes to hand out, of whichever number, and `out_len` is `len` or less: `out` is
 *                            as it was. Ask again with a buffer of `len` + 1 bytes; the answer is the same then, but for want of
 *                            memory.
 *   any other error          there are no bytes, for the first reason in the order that the call states: `len` is 0, and `out`
 *                            is as it was.
 *
 * What is given determines the answer, but that PICKY_NO_MEMORY may come in its place, and of this page's calls PICKY_NO_CIPHER
 * or PICKY_ASKED where something is to be encrypted or decrypted.
 *
 * The calls keep nothing, have no state and take no callback. They may run in any number of threads at once.
 *
 * ---- What is proved, and of which caller
 *
 * The contracts of the calls, in crates/picky_c/src, say the above and what stands at each call, and are proved for every text,
 * number and length: whatever the bytes, a call ends, and reads and writes nothing else. That it frees what it allocates is
 * tried by check/c, not proved. No proof sees a caller in C. It has to see to this:
 *
 *   - A pointer isn't NULL, and points to as many bytes as its length says, fewer than 2^63. They can be read, and those of
 *     `out` written. For no bytes give "" and 0. (NULL and 0 work too: check/c tries them, and no proof speaks of NULL.)
 *   - `out` overlaps nothing else that the call is given, and until the call returns nobody else reads or writes it, or writes
 *     what the call reads.
 *   - malloc, realloc and free are one allocator, which aligns as C wants it. The calls use these three and memmove, memcpy,
 *     memset and memcmp, and no other function of the C library.
 *   - The stack has room: 64 KiB were enough for all that check/c tries. A call isn't made in a signal handler, nor in a forked
 *     child of a process with threads.
 *   - This header fits the library. It is written by hand; check/header, in the gate, holds its calls, structs and numbers against
 *     the code.
 *
 * Not proved: how long a call takes and how much memory; that what is handed out is wiped from memory that was freed (it
 * isn't); and what PROVED.md lists under "What is neither proved nor tested".
 */
#ifndef PICKY_H
#define PICKY_H

#include <stddef.h>
#include <stdint.h>

#include "picky/errors.h"

/* The version of this header, which is that of the programs beside it (`keyconv --version`). CHANGELOG.md has what changed. */
#define PICKY_VERSION_MAJOR 0
#define PICKY_VERSION_MINOR 1
#define PICKY_VERSION_PATCH 0
#define PICKY_VERSION "0.1.0"

#ifdef __cplusplus
extern "C" {
#endif

/* Bytes that the caller keeps. */
typedef struct picky_bytes {
    const void *at;
    size_t len;
} picky_bytes;

/* What a call answers: 0, or the number of the reason why nothing was written; and how many bytes there are to hand out. */
typedef struct picky_answer {
    uint32_t error;
    size_t len;
} picky_answer;

/* A name, with zeros behind it. */
typedef struct picky_name {
    char text[48];
} picky_name;

/*
 * What a key text is converted to. For PuTTY and the programs around it take PICKY_PPK3_FOR_PUTTY, or PICKY_PPK2_FOR_PUTTY where
 * they are older than PuTTY 0.75; for OpenSSH take PICKY_OPENSSH.
 *
 * PICKY_PPK2 and PICKY_PPK3 write an Ed25519 secret as a number, as this library's original does: PuTTY takes about every second
 * such file for another secret. The two layouts of a file are read here as the same key, and differ for Ed25519 alone.
 */
enum {
    PICKY_OPENSSH = 1,        /* the private key and the comment as OpenSSH has them; its lines end in LF */
    PICKY_PPK2 = 2,           /* the same as a private key file of version 2 that isn't for PuTTY; lines end in CR LF */
    PICKY_PPK3 = 3,           /* the same of version 3; lines end in LF */
    PICKY_OPENSSH_PUBLIC = 4, /* the public key and the comment as one line, which ends in CR LF */
    PICKY_PUTTY_PUBLIC = 5,   /* the same as PuTTYgen saves it; lines end in CR LF */
    PICKY_PPK2_FOR_PUTTY = 6, /* the private key and the comment as PuTTY has them in version 2; lines end in CR LF */
    PICKY_PPK3_FOR_PUTTY = 7  /* the same of version 3; lines end in LF */
};

/* The parts of a public key. */
enum {
    PICKY_TYPE_NAME = 1, /* the name of its type, as "ssh-ed25519" */
    PICKY_BLOB = 2,      /* its blob, as bytes (RFC 4253, section 6.6), in the one spelling that is written; those that were read
                            may differ, as by bytes behind the last field */
    PICKY_COMMENT = 3    /* the comment beside it; it may be empty */
};

/* The parts of what a key text shows without a passphrase. Numbers are written in decimal, as "256". */
enum {
    PICKY_SHOWN_TYPE_NAME = 1,   /* PICKY_TYPE_NAME of the public key */
    PICKY_SHOWN_BLOB = 2,        /* its PICKY_BLOB */
    PICKY_SHOWN_COMMENT = 3,     /* the comment; no bytes of an encrypted OpenSSH private key, which has it encrypted, too */
    PICKY_SHOWN_LINE = 4,        /* the public key line, as of PICKY_OPENSSH_PUBLIC, with that comment */
    PICKY_SHOWN_FINGERPRINT = 5, /* the fingerprint, as of picky_fingerprint */
    PICKY_SHOWN_BITS = 6,        /* how many bits the key has, as `ssh-keygen -l` prints it: that of RSA's n, else the curve's */
    PICKY_SHOWN_ENCRYPTED = 7,   /* "1" where the text is encrypted, else "0" */
    PICKY_SHOWN_CIPHER = 8,      /* its cipher: as an OpenSSH private key names it, known here or not; "aes256-cbc" of PuTTY's
                                    files; "none" where the text isn't encrypted */
    PICKY_SHOWN_DERIVATION = 9,  /* the key derivation: as an OpenSSH private key names it; "Argon2d", "Argon2i" or "Argon2id" of
                                    PuTTY's files of version 3, and "SHA-1" of version 2; "none" where the text isn't encrypted */
    PICKY_SHOWN_ROUNDS = 10,     /* the rounds of bcrypt; no bytes of another derivation. So in what follows, but of Argon2: */
    PICKY_SHOWN_MEMORY = 11,     /* its memory in KiB */
    PICKY_SHOWN_PASSES = 12,     /* its passes */
    PICKY_SHOWN_LANES = 13,      /* its lanes */
    PICKY_SHOWN_SALT_LEN = 14    /* how many bytes its salt has */
};

/*
 * The key and the comment that a text means, as the text of a target: the one text that spells them (of a public target: the
 * public part), which means them again when it is read. Of a certificate they are the subject's key, unverified, and the comment.
 *
 * The text is read under `pass_in` and written under `pass_out`, with the fresh bytes as salt and padding; a passphrase of no
 * bytes is none. What isn't encrypted is read whatever the passphrase. An encrypted text without a passphrase is refused
 * (PICKY_PRIVATE_MISSING_PASSPHRASE, PICKY_PUTTY_ENCRYPTED). With one, and where `pass_out` asks for encryption, this call, which
 * has no cipher, answers PICKY_NO_CIPHER, if nothing is refused before: take picky_convert_by. check/c tries that; the contract
 * says that it may come.
 *
 * Reasons, in order: PICKY_NO_SUCH_TARGET; PICKY_TEXT_NOT_UTF8; PICKY_PASS_NOT_UTF8; PICKY_INPUT_..; PICKY_NO_PRIVATE_KEY;
 * PICKY_OUTPUT_PUTTY + PICKY_PUTTY_NOT_SUPPORTED; PICKY_COMMENT_NOT_CARRIED; PICKY_OUTPUT_..; PICKY_FRESH_TOO_SHORT;
 * PICKY_TOO_LONG; PICKY_TOO_MANY_LINES; PICKY_BUFFER_TOO_SMALL.
 */
picky_answer picky_convert(picky_bytes text, uint32_t target, picky_bytes pass_in, picky_bytes pass_out, picky_bytes fresh,
                           void *out, size_t out_len);

/*
 * ---- Questions and answers
 *
 * The library has no cipher and derives no key. picky_convert_by and picky_seal_by run over the answers that their caller gives,
 * a table of entries one after another, at first of no bytes. Where an answer is missing, the call hands out the question, with
 * PICKY_ASKED. Answer it with a library that you trust, put the question, and behind it the answer as a string, at the table's
 * end, and call again with all else as it was. There are four questions at most: to derive a key and to decrypt, to derive one
 * and to encrypt. So the fifth call asks nothing, and an entry has its place by its turn.
 *
 * Fields are RFC 4251's, section 5: a string is a uint32, its most significant byte first, and as many bytes. A question is a
 * string `head` and a string `text`; the first byte of the head says what is asked of the text:
 *
 *   1  bcrypt-pbkdf of OpenSSH   uint32 length, uint32 rounds, string salt; the text is the passphrase, the answer has that length
 *   2  Argon2, version 0x13      byte kind (0 Argon2d, 1 Argon2i, 2 Argon2id), uint32 memory in KiB, uint32 passes, uint32 lanes,
 *                                string salt; the text is the passphrase, the answer has 80 bytes
 *   3  AES in CBC, encrypted     string key, string iv; the answer is as long as the text, and nothing is padded
 *   4  the same, decrypted       the same
 *   5  AES in CTR                string key, string iv, the first counter; the answer is as long as the text
 *
 * Secret are the passphrase in 1 and 2, and what is derived from it; the key in 3 to 5; the private key itself in the text of 3,
 * in the answer of 4, and in either of 5. So wipe `out`, the answers and all copies of them. The library doesn't wipe the memory
 * that it frees. A caller may refuse a question, as one for too much memory: the call keeps nothing.
 *
 * Where each answer is the one of some ciphers and derivations, the text is what these give for the key text, and means the same
 * key and comment when it is read by them: so trust your cryptography for what AES is, and this library for the rest. A false
 * answer is refused by the MAC in PuTTY's files; in OpenSSH's, which have none, two check numbers and the public key have to
 * agree, and a false answer that gives these passes.
 *
 * Refused is a table that is none (PICKY_ANSWERS + PICKY_ANSWERS_ENDS_IN_ENTRY, .._LENGTH_PAST_END or .._NO_QUESTION), and one of
 * which an answer has another length than its question wants (.._WRONG_LENGTH), or another partner under the same key and iv in a
 * further entry (.._CONTRADICTION), or of which the next entry has another question than is asked (.._MISPLACED). Which question
 * is asked, and so the last of these and PICKY_ANSWERS_TOO_LONG, is compared by check/ask, and isn't proved.
 */

/*
 * picky_convert by answers, which are a cipher and a derivation: it hands out the text, or the question that the answers lack.
 * With no answers it is picky_convert, but for what is asked there, which is PICKY_NO_CIPHER.
 *
 * Reasons, in order: PICKY_NO_SUCH_TARGET; PICKY_ANSWERS_.. of a table that is none; as picky_convert; PICKY_ANSWERS_.. of an
 * answer; PICKY_BUFFER_TOO_SMALL.
 */
picky_answer picky_convert_by(picky_bytes text, uint32_t target, picky_bytes pass_in, picky_bytes pass_out, picky_bytes fresh,
                              picky_bytes answers, void *out, size_t out_len);

/*
 * A private key's text, and what it is encrypted under where there is a passphrase: bcrypt-pbkdf's rounds of PICKY_OPENSSH, 1 or
 * more; what Argon2 is run with of PICKY_PPK3 and PICKY_PPK3_FOR_PUTTY (RFC 9106, section 3.1).
 */
typedef struct picky_sealing {
    uint32_t target;   /* PICKY_OPENSSH, or one of the PICKY_PPK.. */
    uint32_t rounds;
    uint32_t flavour;  /* PICKY_ARGON2D, PICKY_ARGON2I or PICKY_ARGON2ID */
    uint32_t memory;   /* in KiB */
    uint32_t passes;
    uint32_t lanes;
    uint32_t salt_len; /* bytes of `fresh` that are the salt, of Argon2 alone; bcrypt-pbkdf has 16 */
} picky_sealing;

enum {
    PICKY_ARGON2D = 0,
    PICKY_ARGON2I = 1,
    PICKY_ARGON2ID = 2
};

/* What picky_convert takes: `picky_sealing sealing = PICKY_SEALING(PICKY_PPK3_FOR_PUTTY);` */
#define PICKY_SEALING(target) {(target), 16, PICKY_ARGON2ID, 8192, 34, 1, 16}

/*
 * The same to a private key's text, encrypted as the caller chooses where `pass_out` is one: a key file gets another passphrase,
 * other rounds or another form, or none.
 *
 * Reasons, in order: PICKY_NO_SUCH_SEALING, where `target` is no private key's, or is PuTTY's and `flavour` no kind of Argon2;
 * as picky_convert_by. Numbers out of range are refused where there is a passphrase: rounds of 0 by PICKY_OUTPUT_PRIVATE +
 * PICKY_PRIVATE_HASHING_ERROR, Argon2's by PICKY_OUTPUT_PUTTY + PICKY_PUTTY_ARGON2.
 */
picky_answer picky_seal_by(picky_bytes text, const picky_sealing *sealing, picky_bytes pass_in, picky_bytes pass_out,
                           picky_bytes fresh, picky_bytes answers, void *out, size_t out_len);

/*
 * The SHA-256 fingerprint of the key that a text means, as `ssh-keygen -l` prints it: "SHA256:" and 43 characters, of PICKY_BLOB.
 * Those by MD5 and SHA-1, which keyconv prints, too, no call gives: they are these digests of PICKY_BLOB. Of a certificate it is
 * that of the subject's key: no signature is verified.
 *
 * Reasons, in order: PICKY_TEXT_NOT_UTF8; PICKY_INPUT_..; PICKY_BUFFER_TOO_SMALL.
 */
picky_answer picky_fingerprint(picky_bytes text, void *out, size_t out_len);

/*
 * A part of the public key that a text means. Of a certificate that is the subject's key, and the comment: no signature is
 * verified, and who issued it, for whom and for how long isn't shown. So who hands in a certificate may have made it.
 *
 * Reasons, in order: PICKY_NO_SUCH_PART; PICKY_TEXT_NOT_UTF8; PICKY_INPUT_..; PICKY_BUFFER_TOO_SMALL.
 */
picky_answer picky_read_public(picky_bytes text, uint32_t part, void *out, size_t out_len);

/*
 * A part of what a key text shows without a passphrase. A text that isn't encrypted shows what it means: its parts are those of
 * picky_read_public. An encrypted one shows what stands open in it: the public key, PuTTY's comment, and by what it is encrypted.
 * That the public key is the private key's is known only when the text is opened: until then it is what the file says, and who
 * wrote the file may have put another's public key in front. Once it is read under a passphrase, its key has this public part.
 *
 * Where a text has no such part, no bytes are handed out: PICKY_OK, and `len` is 0.
 *
 * Reasons, in order: PICKY_NO_SUCH_PART; PICKY_TEXT_NOT_UTF8; PICKY_INPUT_.., which is PICKY_INPUT_PUBLIC for the public key in an
 * encrypted OpenSSH private key; of PICKY_SHOWN_LINE also PICKY_COMMENT_NOT_CARRIED and PICKY_TOO_LONG; PICKY_BUFFER_TOO_SMALL.
 */
picky_answer picky_shown_public(picky_bytes text, uint32_t part, void *out, size_t out_len);

/*
 * The key text with another comment, in its form: of an OpenSSH private key or a PuTTY private key file that isn't encrypted, of a
 * public key line or of PuTTY's public key. What is handed out means the same key, with this comment. An OpenSSH private key keeps
 * its check number, and PuTTY's file its version and how its private bytes are spelled. A line is written in its one spelling, with
 * CR LF. What follows the first key isn't handed out.
 *
 * Reasons, in order: PICKY_TEXT_NOT_UTF8; PICKY_COMMENT_NOT_UTF8; PICKY_INPUT_.., also PICKY_PRIVATE_MISSING_PASSPHRASE and
 * PICKY_PUTTY_ENCRYPTED of what is encrypted; PICKY_COMMENT_NOT_CARRIED, where this form can't hold the comment, and of each
 * certificate, whose signature is of its bytes as they stand; PICKY_TOO_LONG; PICKY_TOO_MANY_LINES; PICKY_BUFFER_TOO_SMALL.
 */
picky_answer picky_with_comment(picky_bytes text, picky_bytes comment, void *out, size_t out_len);

/*
 * The name of an error, as "BufferTooSmall" or "input.putty.MacValidation"; of a number that isn't listed here, "". A refusal
 * has the name that keyconv prints behind "refused: ". It is handed out by value: `picky_error_name(error).text` lives as long as
 * the expression that it stands in, so keep the picky_name, not a pointer into it. That holds in C11 and C++; in C99 copy it into
 * a variable first.
 */
picky_name picky_error_name(uint32_t error);

/*
 * The version of the library that runs, as PICKY_VERSION is that of the header: they differ where a program was built with another
 * header than the library's. It is handed out by value, as a name is.
 */
picky_name picky_version(void);

#ifdef __cplusplus
}
#endif

#endif
