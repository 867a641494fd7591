/*
 * A ledger of certificates from C: what an authority issued, each request once (docs/FORMATS.md, "Ledgers"). What a call does
 * with `out`, and what is proved of it, says picky.h.
 */
#ifndef PICKY_LEDGER_H
#define PICKY_LEDGER_H

#include "../picky.h"

#ifdef __cplusplus
extern "C" {
#endif

/*
 * A ledger is a text of lines that end in LF alone: "next " and the next serial, in decimal; and of each certificate that was
 * issued the request's id, the request in base64 and the certificate's line, with a space between two. "next 1\n" is one in which
 * nothing was issued. In a ledger that is handed out no serial and no id stands twice, the entries that there were stay as they
 * were, and it is read back as the same ledger.
 *
 * A request is a line of six words, with one space between two. Empty lines are skipped.
 *
 *   id      characters of which none is white space; it is the certificate's key id
 *   kind    "client" or "host"
 *   names   the certificate's principals, with a comma between two; "-" for none
 *   after   the first second at which it is valid, since 1970, in decimal
 *   before  the first at which it is valid no more; 18446744073709551615 where it stays valid
 *   key     the public key line that is certified, with its comment
 *
 * A certificate has the next serial, no critical options, and of a client the five extensions that ssh-keygen gives. Each request
 * has a reply, which is a line that ends in LF:
 *
 *   issued ID SERIAL     the certificate is the ledger's last entry
 *   again ID SERIAL      the ledger has this very line, under this serial
 *   conflict ID SERIAL   the ledger has another line of this id, under this serial
 *   full ID              the next serial would be 18446744073709551615, which is never given
 *   refused ID NAME      no such certificate is made, as by "InvalidTime"; the names are those of PICKY_REQUEST_..
 *   bad                  the line is no request
 *
 * ---- Who signs
 *
 * The library signs nothing. Where the answers lack signatures, a call hands out the questions for all requests at once, with
 * PICKY_ASKED, and issues nothing. Each question is a string (a uint32, its most significant byte first, and as many bytes). In
 * it stand, as in "Questions and answers" of picky.h, a string `head` and a string `text`. The text is what is to be signed, and
 * the head has
 *
 *   6  a signature   byte kind (1 RSA, 2 ECDSA, 3 Ed25519), byte digest (4 SHA-256, 5 SHA-384, 6 SHA-512; 0 for Ed25519), string
 *                    PICKY_BLOB of the issuer
 *
 * The answer is the signature without its format's name: of RSA as many bytes as the modulus has, by PKCS #1 v1.5 (RFC 8332,
 * section 3); of ECDSA the mpints r and s (RFC 5656, section 3.1.2); of Ed25519 64 bytes (RFC 8709, section 6). For the table of
 * answers put the bytes in each string, the question, and behind them the answer as a string; their order says nothing. Then call
 * again with all else as it was. Which questions there are doesn't depend on the answers, so who answers each is asked no more:
 * two calls are enough. Nothing that stands here is a secret, but the fresh bytes until their certificate is issued.
 *
 * No answer is verified. Where each is a good signature, each certificate that is issued is well signed.
 *
 * The ledger and the replies are handed out by a call each, which both read the ledger and apply the requests. Keep the new
 * ledger where it stays before anybody gets a reply or a certificate of it: who goes on with the old one issues its serials once
 * more.
 */

/*
 * The new text of a ledger to which requests are applied, one after another, or the questions for their certificates. `issuer` is
 * the public key line of who signs; what follows its first line is ignored, and its comment too. Each request that is no empty
 * line takes 32 of the fresh bytes, in order, whatever its reply: its certificate's nonce. They have to be random.
 *
 * Reasons, in order: PICKY_LEDGER_NOT_UTF8; PICKY_ISSUER_NOT_UTF8; PICKY_REQUESTS_NOT_UTF8; PICKY_ANSWERS_.. of a table that is
 * none; PICKY_TOO_LONG, where the ledger has 2^32 bytes or more; PICKY_BAD_LINE, where it is none, with the number of its first
 * bad line, counted from 1 and written in decimal, in `out`; PICKY_ISSUER_PUBLIC + PICKY_PUBLIC_..; PICKY_FRESH_TOO_SHORT;
 * PICKY_ANSWERS + PICKY_ANSWERS_TOO_LONG, where a question has 2^32 bytes or more; PICKY_TOO_LONG of the new ledger;
 * PICKY_BUFFER_TOO_SMALL, also where questions or a line's number have no room.
 */
picky_answer picky_ledger_apply(picky_bytes ledger, picky_bytes issuer, picky_bytes requests, picky_bytes fresh,
                                picky_bytes answers, void *out, size_t out_len);

/*
 * The replies to the same requests, in their order, where picky_ledger_apply hands out the new ledger of the same bytes. Else it
 * answers as that does.
 */
picky_answer picky_ledger_replies(picky_bytes ledger, picky_bytes issuer, picky_bytes requests, picky_bytes fresh,
                                  picky_bytes answers, void *out, size_t out_len);

#ifdef __cplusplus
}
#endif

#endif
