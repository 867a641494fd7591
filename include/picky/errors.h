/*
 * The errors of picky's calls; picky.h includes this page.
 */
#ifndef PICKY_ERRORS_H
#define PICKY_ERRORS_H

/*
 * Errors. A number has none of the values that an error carries in the library for Rattle: of PICKY_PUTTY_INVALID_INPUT which
 * line it is, what was expected there and what stood there; of others a name, a number or the error inside. A number of 100 or
 * more is a sum, as PICKY_INPUT_PUTTY + PICKY_PUTTY_ENCRYPTED. All stand in one enum, since C++26 doesn't add numbers of two.
 */
enum {
    PICKY_OK = 0,
    PICKY_BUFFER_TOO_SMALL = 1,     /* `out` has no room for `len` bytes and a zero */
    PICKY_NO_MEMORY = 2,            /* memory ran out */
    PICKY_TEXT_NOT_UTF8 = 3,        /* the key text isn't UTF-8 */
    PICKY_PASS_NOT_UTF8 = 4,        /* a passphrase isn't UTF-8 */
    PICKY_NO_SUCH_TARGET = 5,       /* the number names no target */
    PICKY_NO_SUCH_PART = 6,         /* the number names no part */
    PICKY_NO_CIPHER = 7,            /* to read or to write this takes a cipher */
    PICKY_NO_PRIVATE_KEY = 8,       /* the target keeps the secret, and the key is a public one */
    PICKY_COMMENT_NOT_CARRIED = 9,  /* the target can't hold the comment */
    PICKY_FRESH_TOO_SHORT = 10,     /* to encrypt takes more fresh bytes */
    PICKY_TOO_LONG = 11,            /* what is to be written has 2^32 bytes or more */
    PICKY_TOO_MANY_LINES = 12,      /* a block of PuTTY's file has 65,536 lines or more */
    PICKY_ASKED = 13,               /* `out` has a question, which the answers lack */
    PICKY_COMMENT_NOT_UTF8 = 14,    /* the comment isn't UTF-8 */
    PICKY_NO_SUCH_SEALING = 15,     /* the numbers name no private key's text, or of PuTTY's no kind of Argon2 */
    PICKY_NO_SUCH_PLACE = 16,       /* the list ends before the place */
    PICKY_NO_SUCH_OPTION = 17,      /* the key has no option at the place */
    PICKY_NO_KEY = 18,              /* the line has no key */
    PICKY_ISSUER_NOT_UTF8 = 19,     /* the issuer's text isn't UTF-8 */
    PICKY_WORD_NOT_UTF8 = 20,       /* a word isn't UTF-8 */
    PICKY_BAD_WORDS = 21,           /* the words are no options with their values, or ask for what there isn't */
    PICKY_AUTHORIZED_NOT_UTF8 = 22, /* the authorized keys aren't UTF-8 */
    PICKY_OFFER_NOT_UTF8 = 23,      /* the offer isn't UTF-8 */
    PICKY_USER_NOT_UTF8 = 24,       /* the user's name isn't UTF-8 */
    PICKY_NO_MESSAGE = 25,          /* the message has no bytes */
    PICKY_MESSAGE_TOO_LONG = 26,    /* it has more than 262,144 bytes */
    PICKY_NOT_ADD = 27,             /* the message adds no identity */
    PICKY_SIGNATURE_TOO_LONG = 28,  /* the signature has 2^32 bytes or more */
    PICKY_LEDGER_NOT_UTF8 = 29,     /* the ledger isn't UTF-8 */
    PICKY_REQUESTS_NOT_UTF8 = 30,   /* the requests aren't UTF-8 */
    PICKY_BAD_LINE = 31,            /* a line is refused; `out` has its number */
    PICKY_LEFT_NOT_UTF8 = 32,       /* the left inventory isn't UTF-8 */
    PICKY_RIGHT_NOT_UTF8 = 33,      /* the right inventory isn't UTF-8 */

    /* The hundreds of errors. A number in one of them is the sum of the hundred and of an error of its kind, below. */
    PICKY_INPUT_PRIVATE = 100,  /* read as an OpenSSH private key, the text means no key; plus PICKY_PRIVATE_.. */
    PICKY_INPUT_PUBLIC = 200,   /* read as a public key line, the text means no key; plus PICKY_PUBLIC_.. */
    PICKY_INPUT_CERT = 300,     /* read as a certificate's line, the text means no key; plus PICKY_CERT_.. */
    PICKY_INPUT_PUTTY = 400,    /* read as PuTTY's private or public key, the text means no key; plus PICKY_PUTTY_.. */
    PICKY_OUTPUT_PRIVATE = 500, /* the key can't be encrypted as an OpenSSH private key; plus PICKY_PRIVATE_.. */
    PICKY_OUTPUT_PUTTY = 600,   /* PuTTY has no such key, or it can't be encrypted as its file; plus PICKY_PUTTY_.. */
    PICKY_ANSWERS = 700,        /* the answers are none; plus PICKY_ANSWERS_.. */
    PICKY_REQUEST = 800,        /* no certificate is made so; plus PICKY_REQUEST_.. */
    PICKY_DENIED = 900,         /* the offer doesn't get in; plus PICKY_DENIED_.., and `out` has why */
    PICKY_STATE = 1000,         /* the bytes are no state of an agent; plus PICKY_STATE_.. */
    PICKY_ISSUER_PRIVATE = 1100, /* the issuer's text means no key, as of PICKY_INPUT_PRIVATE, and so in these three */
    PICKY_ISSUER_PUBLIC = 1200,
    PICKY_ISSUER_CERT = 1300,
    PICKY_ISSUER_PUTTY = 1400,

    /* Of OpenSSH private keys. */
    PICKY_PRIVATE_FROM_UTF8_ERROR = 0,           /* a string that must be UTF-8 isn't */
    PICKY_PRIVATE_IO_ERROR = 1,                  /* the bytes are cut inside a field */
    PICKY_PRIVATE_UNSUPPORTED_KEY_TYPE = 2,      /* a key type that isn't read here */
    PICKY_PRIVATE_UNSUPPORTED_CIPHER = 3,        /* a cipher that isn't read here */
    PICKY_PRIVATE_UNSUPPORTED_KDF = 4,           /* a key derivation that isn't read here */
    PICKY_PRIVATE_INVALID_AUTH_MAGIC_HEADER = 5, /* the bytes begin with none that mark a private key */
    PICKY_PRIVATE_INVALID_KEYS_AMOUNT = 6,       /* there isn't one key */
    PICKY_PRIVATE_INVALID_CHECK_NUMBERS = 7,     /* the two check numbers differ */
    PICKY_PRIVATE_INVALID_KEY_FORMAT = 8,        /* the parts of the key don't agree, or don't have the form of its kind */
    PICKY_PRIVATE_DECRYPTION_ERROR = 9,          /* what is encrypted is no multiple of 16 bytes */
    PICKY_PRIVATE_HASHING_ERROR = 10,            /* no key is derived from the passphrase */
    PICKY_PRIVATE_MISSING_PASSPHRASE = 11,       /* the key is encrypted, and there is no passphrase */
    PICKY_PRIVATE_KEY_ERROR = 12,                /* an Ed25519 public key isn't 32 bytes */
    PICKY_PRIVATE_PEM_ERROR = 13,                /* the text is no PEM */
    PICKY_PRIVATE_SUITE_FAULT = 14,              /* never: it is PICKY_NO_CIPHER */
    PICKY_PRIVATE_TOO_LONG = 15,                 /* there are 2^32 bytes or more */
    PICKY_PRIVATE_NO_MEMORY = 16,                /* never: it is PICKY_NO_MEMORY */
    PICKY_PRIVATE_PUBLIC_KEY_MISMATCH = 17,      /* the public key before the private one is another */

    /* Of public key lines. */
    PICKY_PUBLIC_IO_ERROR = 0,            /* the blob is cut inside a field */
    PICKY_PUBLIC_INVALID_UTF8 = 1,        /* a string that must be UTF-8 isn't */
    PICKY_PUBLIC_BASE64_DECODE_ERROR = 2, /* the second word is no base64 */
    PICKY_PUBLIC_UNKNOWN_KEY_TYPE = 3,    /* the first word, or the name in the blob, names no key type that is read here */
    PICKY_PUBLIC_KEY_ERROR = 4,           /* an Ed25519 key isn't 32 bytes */
    PICKY_PUBLIC_TOO_LONG = 5,            /* there are 2^32 bytes or more */
    PICKY_PUBLIC_NO_MEMORY = 6,           /* never: it is PICKY_NO_MEMORY */

    /* Of certificates' lines. */
    PICKY_CERT_CERTIFICATE_PROCESSING_ERROR = 0, /* the bytes end inside a field */
    PICKY_CERT_UNSUPPORTED_CERTIFICATE_TYPE = 1, /* a certificate for a DSS key */
    PICKY_CERT_SSH_CRITICAL_OPTION_ERROR = 2,    /* a critical option is refused */
    PICKY_CERT_SSH_EXTENSION_ERROR = 3,          /* an extension is refused */
    PICKY_CERT_INVALID_UTF8 = 4,                 /* a string that must be UTF-8 isn't */
    PICKY_CERT_BASE64_DECODE_ERROR = 5,          /* the second word is no base64 */
    PICKY_CERT_INVALID_CERTIFICATE_TYPE = 6,     /* it is neither a user's nor a host's */
    PICKY_CERT_INVALID_CERTIFICATE_KEY_TYPE = 7, /* the name names no type of certificate */
    PICKY_CERT_INVALID_PUBLIC_KEY = 8,           /* the issuer's key is refused */
    PICKY_CERT_KEY_ERROR = 9,                    /* an Ed25519 key isn't 32 bytes */
    PICKY_CERT_SUBJECT_MISMATCH = 10,            /* never: reading doesn't give it */
    PICKY_CERT_SSH_SIGNATURE_ERROR = 11,         /* the signature is refused; none is verified */
    PICKY_CERT_TOO_LONG = 12,                    /* there are 2^32 bytes or more */
    PICKY_CERT_NO_MEMORY = 13,                   /* never: it is PICKY_NO_MEMORY */

    /* Of PuTTY's files. */
    PICKY_PUTTY_END_OF_INPUT = 0,                    /* a line is missing */
    PICKY_PUTTY_INVALID_INPUT = 1,                   /* a line's key or value, a count or a block is none that is known there */
    PICKY_PUTTY_INVALID_KEY_VALUE_FORMAT = 2,        /* a line has no ": " */
    PICKY_PUTTY_AES = 3,                             /* an encrypted block is no multiple of 16 bytes */
    PICKY_PUTTY_ARGON2 = 4,                          /* Argon2 can't be run with these numbers */
    PICKY_PUTTY_MAC_VALIDATION = 5,                  /* the MAC is another than the one of the fields */
    PICKY_PUTTY_PUBLIC_AND_PRIVATE_KEY_MISMATCH = 6, /* the public blob is of another kind or curve than the algorithm */
    PICKY_PUTTY_INVALID_PRIVATE_KEY_DATA = 7,        /* an Ed25519 secret has more than 32 bytes */
    PICKY_PUTTY_INVALID_PUBLIC_KEY_DATA = 8,         /* the body of a public key is no base64 */
    PICKY_PUTTY_INVALID_PUBLIC_KEY_CONTAINER = 9,    /* the first line is not the header of a public key */
    PICKY_PUTTY_INVALID_PUBLIC_KEY_COMMENT = 10,     /* the second line is no comment line of a public key */
    PICKY_PUTTY_ALREADY_DECRYPTED = 11,              /* never: a file that isn't encrypted is read as it is */
    PICKY_PUTTY_ALREADY_ENCRYPTED = 12,              /* never: only a plain file is encrypted */
    PICKY_PUTTY_ENCRYPTED = 13,                      /* the file is encrypted, and there is no passphrase */
    PICKY_PUTTY_NOT_SUPPORTED = 14,                  /* PuTTY has no such key */
    PICKY_PUTTY_SSH_PUBLIC_KEY = 15,                 /* the blob holds no public key */
    PICKY_PUTTY_IO_ERROR = 16,                       /* a blob is cut */
    PICKY_PUTTY_SUITE_FAULT = 17,                    /* never: it is PICKY_NO_CIPHER */
    PICKY_PUTTY_TOO_LONG = 18,                       /* there are 2^32 bytes or more */
    PICKY_PUTTY_TOO_MANY_LINES = 19,                 /* a block has 65,536 lines or more: one that is read is
                                                        PICKY_PUTTY_INVALID_INPUT, one to write PICKY_TOO_MANY_LINES */
    PICKY_PUTTY_NO_MEMORY = 20,                      /* never: it is PICKY_NO_MEMORY */

    /* Of answers. */
    PICKY_ANSWERS_ENDS_IN_ENTRY = 0,   /* they end where a string of an entry should begin, or in the four bytes of its length */
    PICKY_ANSWERS_LENGTH_PAST_END = 1, /* a length says more bytes than are left */
    PICKY_ANSWERS_NO_QUESTION = 2,     /* a head is none of a known question */
    PICKY_ANSWERS_WRONG_LENGTH = 3,    /* an answer has another length than is asked */
    PICKY_ANSWERS_CONTRADICTION = 4,   /* an answer contradicts another entry */
    PICKY_ANSWERS_MISPLACED = 5,       /* the next entry answers another question than is asked */
    PICKY_ANSWERS_TOO_LONG = 6,        /* a part of what is asked has 2^32 bytes or more, so no question says it */
    PICKY_ANSWERS_UNKNOWN_BYTE = 7,    /* a verdict is one byte, and neither 0 nor 1 */

    /* Of a certificate that is asked for. */
    PICKY_REQUEST_UNSUPPORTED_CERTIFICATE_KEY_TYPE = 0,   /* the type isn't made here, or isn't for the subject's key */
    PICKY_REQUEST_INCORRECT_SIGNATURE_ALGORITHM = 1,      /* the issuer's key doesn't sign by the algorithm */
    PICKY_REQUEST_MISSING_PUBLIC_KEY = 2,                 /* never: there is a subject's key */
    PICKY_REQUEST_MISSING_CERTIFICATE_TYPE = 3,           /* it isn't said whether it is a user's or a host's */
    PICKY_REQUEST_INVALID_TIME = 4,                       /* a time is missing, or it would begin after its end */
    PICKY_REQUEST_MISSING_SIGNATURE_KEY = 5,              /* never: there is an issuer's key */
    PICKY_REQUEST_HOST_CERTIFICATE_EXTENSIONS = 6,        /* a host's certificate has no extensions */
    PICKY_REQUEST_HOST_CERTIFICATE_CRITICAL_OPTIONS = 7,  /* nor critical options */
    PICKY_REQUEST_NO_KEY_TYPE = 8,                        /* no type of certificates is given */
    PICKY_REQUEST_SIGNATURE_ERROR = 9,                    /* never: it is PICKY_ASKED */
    PICKY_REQUEST_TOO_LONG = 10,                          /* never: it is PICKY_TOO_LONG */
    PICKY_REQUEST_NO_MEMORY = 11,                         /* never: it is PICKY_NO_MEMORY */

    /* Of an offer that is denied: the first rule that fails. */
    PICKY_DENIED_NO_LINE = 0,         /* no line without cert-authority has the key */
    PICKY_DENIED_NO_AUTHORITY = 1,    /* no line with cert-authority has the issuer's key */
    PICKY_DENIED_NOT_CLIENT = 2,      /* the certificate is a host's */
    PICKY_DENIED_NOT_YET = 3,         /* the moment is before the certificate's time */
    PICKY_DENIED_EXPIRED = 4,         /* it is the certificate's end or after it */
    PICKY_DENIED_PRINCIPAL = 5,       /* the certificate isn't for the line's `principals`, or without these for the user */
    PICKY_DENIED_CRITICAL_OPTION = 6, /* a critical option occurs twice, or its payload doesn't fit */
    PICKY_DENIED_BAD_SIGNATURE = 7,   /* the signature isn't good */

    /* Of an agent's state. */
    PICKY_STATE_TOO_LONG = 0,      /* they have more than 2^30 bytes */
    PICKY_STATE_SHORT = 1,         /* they end inside a message, or in the four bytes of its length */
    PICKY_STATE_NOT_KEPT = 2,      /* a message is none that adds an identity or locks */
    PICKY_STATE_TOO_MANY = 3,      /* there are more than 1,024 identities */
    PICKY_STATE_NOT_CANONICAL = 4, /* the state has another spelling than picky_agent_next's */
    PICKY_STATE_NO_MEMORY = 5      /* never: it is PICKY_NO_MEMORY */
};

#endif
