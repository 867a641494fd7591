/*
 * An SSH agent from C, whose state is bytes (draft-miller-ssh-agent-04). The calls keep nothing: the host keeps the state, talks to
 * the clients, and asks whoever has the private keys to sign. What a call does with `out`, and what is proved of it, says picky.h.
 *
 * A message and a reply are their type, a byte, and its contents, without the uint32 length that stands before them on the wire. A
 * message has 1 to 262,144 bytes. Types that are answered are 11, the list of identities; 13, a signature; 17, an identity is
 * added; 18 and 19, one is removed, and all; 22 and 23, the agent is locked, and unlocked. To any other, and where one doesn't fit,
 * the reply is one byte, 5: the failure. (docs/FORMATS.md, "Messages of an agent", says when it comes.)
 *
 * A state is at first no bytes: an agent that has no identities and isn't locked. Else it is the messages that bring such an agent
 * there, each as a string (a uint32 length, its most significant byte first, and as many bytes): a 17 for each identity in order,
 * and a 22 where the agent is locked. Of several such streams one alone is the state, the one that picky_agent_next hands out.
 * Keep it, on a disk too, and hand it in again as it is. So a host takes one message after another (each call with a buffer for
 * what it hands out, and `call_sign` of its own):
 *
 *     question = picky_agent_question(state, message);
 *     signature = question.len > 0 ? call_sign(question) : no bytes;
 *     reply = picky_agent_reply(state, message, signature);
 *     state = picky_agent_next(state, message);          and now the reply is sent; examples/c/agent.c has all this
 *
 * Where one of these is refused the state stays, and the host sends the failure, or ends.
 *
 * The question, of no bytes where nothing is to be signed, has RFC 4251's fields: uint32 place of the identity, from 0; string blob
 * of its public key; string algorithm, one of "rsa-sha1", "rsa-sha2-256", "rsa-sha2-512", "ecdsa-sha2-256", "ecdsa-sha2-384",
 * "ecdsa-sha2-512" and "ed25519"; string format of the signature; string message, to be signed as it is. The signature is what
 * stands inside the reply's string behind the format: of Ed25519 64 bytes (RFC 8709), of RSA as many as n has (RFC 8332), of ECDSA
 * mpint r and mpint s (RFC 5656). With no bytes as signature the device has failed, and the reply is 5. A signature isn't verified.
 *
 * Secret are the message of a 17, which has a private key; a state that such messages led to; and the passphrase of a 22 or a 23,
 * which stands in the state of a locked agent. No private key needs to stand in a state: hand in picky_agent_public_add of a 17 in
 * its place, and keep what picky_agent_secret hands out where the keys belong. The replies are the same then, with the same
 * signatures: that is proved. In place of the passphrase a host may put its salted hash into a 22 and a 23, with one salt for both,
 * since bytes are compared with bytes. Wipe `out` and all copies: the library doesn't wipe the memory that it frees.
 */
#ifndef PICKY_AGENT_H
#define PICKY_AGENT_H

#include "../picky.h"

#ifdef __cplusplus
extern "C" {
#endif

/*
 * What has to be signed before an agent in this state answers the message, as a question; no bytes where nothing has. It is asked
 * where the agent isn't locked, the message is a 13, and an identity has its key and is no security key.
 *
 * Reasons, in order: PICKY_NO_MESSAGE; PICKY_MESSAGE_TOO_LONG; PICKY_STATE + PICKY_STATE_..; PICKY_TOO_LONG, where the question has
 * 2^32 bytes or more; PICKY_BUFFER_TOO_SMALL.
 */
picky_answer picky_agent_question(picky_bytes state, picky_bytes message, void *out, size_t out_len);

/*
 * The reply of an agent in this state to the message, with this signature where the question has bytes. Where it has none the
 * signature isn't heeded. A good one makes the reply of the protocol; one that isn't stands in the reply all the same.
 *
 * Reasons, in order: PICKY_SIGNATURE_TOO_LONG; PICKY_NO_MESSAGE; PICKY_MESSAGE_TOO_LONG; PICKY_STATE + PICKY_STATE_..;
 * PICKY_BUFFER_TOO_SMALL.
 */
picky_answer picky_agent_reply(picky_bytes state, picky_bytes message, picky_bytes signature, void *out, size_t out_len);

/*
 * The state of the agent behind the message, whichever signature it was answered with: the same bytes where the message asks for
 * the list or a signature, or fails. It is read again by each of these calls.
 *
 * Reasons, in order: PICKY_NO_MESSAGE; PICKY_MESSAGE_TOO_LONG; PICKY_STATE + PICKY_STATE_..; PICKY_TOO_LONG, where the next state
 * has more than 2^30 bytes; PICKY_BUFFER_TOO_SMALL.
 */
picky_answer picky_agent_next(picky_bytes state, picky_bytes message, void *out, size_t out_len);

/*
 * The message that adds the same identity, with the same comment, without its secrets: each secret number is zero, the 32 bytes of
 * an Ed25519 secret are, and the handle of a security key is empty. It is spelled as a state is, so it may be a few bytes longer
 * than the message, and too long for one. PICKY_NOT_ADD says that the message adds no identity, whatever the state.
 *
 * Reasons, in order: PICKY_NO_MESSAGE; PICKY_MESSAGE_TOO_LONG; PICKY_NOT_ADD; PICKY_BUFFER_TOO_SMALL.
 */
picky_answer picky_agent_public_add(picky_bytes message, void *out, size_t out_len);

/* The parts of an identity that a message adds. A number is its bytes, the most significant first, without zeros in front. */
enum {
    PICKY_AGENT_SECRET_KEY_TYPE = 1,        /* the name of the key's type, as "ssh-ed25519" */
    PICKY_AGENT_SECRET_COMMENT = 2,
    PICKY_AGENT_SECRET_RSA_N = 3,           /* of RSA: the modulus, */
    PICKY_AGENT_SECRET_RSA_E = 4,           /* the public exponent, */
    PICKY_AGENT_SECRET_RSA_D = 5,           /* the private exponent, */
    PICKY_AGENT_SECRET_RSA_IQMP = 6,        /* the inverse of q modulo p, */
    PICKY_AGENT_SECRET_RSA_P = 7,
    PICKY_AGENT_SECRET_RSA_Q = 8,
    PICKY_AGENT_SECRET_EC_CURVE = 9,        /* of ECDSA: the curve's identifier, as "nistp256", */
    PICKY_AGENT_SECRET_EC_POINT = 10,       /* the public point, */
    PICKY_AGENT_SECRET_EC_SECRET = 11,      /* the secret number */
    PICKY_AGENT_SECRET_ED_PUBLIC = 12,      /* of Ed25519: the public key, 32 bytes, */
    PICKY_AGENT_SECRET_ED_SECRET = 13,      /* the 32 bytes of the secret, and behind them the public key */
    PICKY_AGENT_SECRET_SK_PUBLIC = 14,      /* of a security key: the public point, or the 32 bytes of an Ed25519 key, */
    PICKY_AGENT_SECRET_SK_APPLICATION = 15, /* the application, as "ssh:", */
    PICKY_AGENT_SECRET_SK_FLAGS = 16,       /* one byte, */
    PICKY_AGENT_SECRET_SK_HANDLE = 17       /* the device's handle of the key */
};

/*
 * A part of the identity that the message adds, for a host that keeps the secrets. They are as they stand in the message: nobody
 * judges whether they are those of the public key.
 *
 * Reasons, in order: PICKY_NO_SUCH_PART, where the number names none; PICKY_NO_MESSAGE; PICKY_MESSAGE_TOO_LONG; PICKY_NOT_ADD;
 * PICKY_NO_SUCH_PART, where the key's kind has no such part; PICKY_BUFFER_TOO_SMALL.
 */
picky_answer picky_agent_secret(picky_bytes message, uint32_t part, void *out, size_t out_len);

#ifdef __cplusplus
}
#endif

#endif
