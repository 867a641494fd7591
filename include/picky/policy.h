/*
 * Logins from C: authorized keys, an offer, a user and a moment (sshd(8), "AUTHORIZED_KEYS FILE FORMAT"; OpenSSH's
 * PROTOCOL.certkeys). What a call does with `out`, and what is proved of it, says picky.h.
 */
#ifndef PICKY_POLICY_H
#define PICKY_POLICY_H

#include "../picky.h"

#ifdef __cplusplus
extern "C" {
#endif

/*
 * ---- Who gets in
 *
 * An offer is a public key line or a certificate's line; what follows that line is ignored. A key gets in by the first line of
 * the authorized keys that has it, and hasn't the option cert-authority. A certificate gets in by the first line that has its
 * issuer's key and this option, if it breaks none of the rules PICKY_DENIED_NOT_CLIENT to PICKY_DENIED_BAD_SIGNATURE, which are
 * tried in this order (docs/FORMATS.md, "Policies"). A line that isn't read says nothing.
 *
 * The authorized keys, the offer and the user's name are UTF-8, and each is an argument of its own: a line %% in one of them cuts
 * nothing, as it does of keypolicy's input. The moment is in seconds since 1970-01-01T00:00:00Z, from 0 to 2^64 - 1.
 *
 * ---- What is handed out
 *
 * Lines, each with LF at its end; those in brackets where there is such a thing, and BASE64 of a text (RFC 4648, section 4):
 *
 *   grant NUMBER             the line that grants, counted from 1 over all lines
 *   [command BASE64]         the certificate's force-command
 *   [source BASE64]          its source-address
 *   [verify-required]        it has this option
 *   [option NAME BASE64] ..  each option of the line but cert-authority and principals, in their order, its name in lower case; one
 *                            without a value has no space and no BASE64, and one with an empty value nothing behind the space
 *   key SHA256:..            the fingerprint, as of picky_fingerprint, of the key that was judged: the one that is offered, and of
 *                            a certificate its subject's
 *
 * Of a denial the lines are "deny RULE", as "deny NotYet", and "key SHA256:..".
 *
 * ---- The question
 *
 * Whether an issuer's signature is good says the caller, since the library verifies none. It is asked only of a certificate that
 * breaks no other rule, and is the one question of a call, so the second call asks none. As in picky.h it is a string head and a
 * string text:
 *
 *   head   byte 7; string key, the issuer's blob (RFC 4253, section 6.6), in its one spelling; string signature, which is a string
 *          format, a string blob, and of a security key a byte of flags and a uint32 counter (PROTOCOL.u2f)
 *   text   what is signed: the bytes of the certificate before its signature, as they stand
 *
 * The answer is one byte: 1 where this is a good signature of the text by this key, else 0. Say 0, too, where the format isn't one
 * of the key's kind, or one that you don't take, as ssh-rsa, which is by SHA-1. A false 1 lets in whoever made the certificate.
 * Nothing of the question and the answer is secret. Answers to other questions say nothing here, and of two answers to this one
 * the first counts.
 *
 * ---- What the caller has to keep to
 *
 *   - A grant isn't a login. No question asks whether the user has the private key: verify the user's own signature over the
 *     session (RFC 4252, section 7), of a key and of a certificate, under the key whose fingerprint stands in the line "key".
 *   - Do what each line of a grant says, and refuse where one isn't known or its value is none: run the command and no other, let
 *     in from the addresses alone, and where verify-required stands look for that flag in the user's signature (PROTOCOL.u2f).
 *     Nothing here compares the line's option command with the certificate's, nor reads an address or a time.
 *   - A certificate's extensions decide nothing and aren't handed out: who has one without permit-pty gets no terminal of sshd.
 *     picky_certificate_part has them.
 *   - Revoked keys and the lengths of keys are looked at nowhere.
 */

/*
 * Whether the offer gets in by the authorized keys, as the user at the moment. With PICKY_OK `out` has the lines of the grant; with
 * PICKY_DENIED + PICKY_DENIED_.., which says the first rule that fails, the lines of the denial; and with PICKY_ASKED the question
 * whether the issuer's signature is good, where the answers have none to it: put the question, and behind it the answer as a
 * string, at the end of the answers, and call again with all else as it was. Of a key no question is asked.
 *
 * Where the answers say of signatures what some test says, the grant or denial is the decision under the signatures that this test
 * calls good.
 *
 * Reasons, in order: PICKY_AUTHORIZED_NOT_UTF8; PICKY_OFFER_NOT_UTF8; PICKY_USER_NOT_UTF8; PICKY_ANSWERS_ENDS_IN_ENTRY,
 * .._LENGTH_PAST_END or .._NO_QUESTION, each plus PICKY_ANSWERS, where the answers are no table; PICKY_TOO_LONG, where the
 * authorized keys have 2^32 bytes or more; PICKY_INPUT_PUBLIC or PICKY_INPUT_CERT, plus PICKY_PUBLIC_.. or PICKY_CERT_.., where
 * the offer is none, which is PICKY_PUBLIC_UNKNOWN_KEY_TYPE of a key text in another form; PICKY_ANSWERS + .._WRONG_LENGTH or
 * .._UNKNOWN_BYTE, where the answer to the question that is asked isn't a byte 0 or 1; PICKY_ANSWERS + .._TOO_LONG, where no
 * question says what is asked; PICKY_BUFFER_TOO_SMALL.
 */
picky_answer picky_decide_by(picky_bytes authorized, picky_bytes offer, picky_bytes user, uint64_t moment, picky_bytes answers,
                             void *out, size_t out_len);

#ifdef __cplusplus
}
#endif

#endif
