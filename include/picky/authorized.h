/*
 * Authorized keys from C (sshd(8), "AUTHORIZED_KEYS FILE FORMAT"). What a call does with `out`, and what is proved of it, says
 * picky.h.
 */
#ifndef PICKY_AUTHORIZED_H
#define PICKY_AUTHORIZED_H

#include "../picky.h"

#ifdef __cplusplus
extern "C" {
#endif

/*
 * The fields of authorized keys. An entry is a line that is neither blank nor a comment. Numbers are written in decimal, and fields
 * of the wire are those of RFC 4251, section 5.
 */
enum {
    PICKY_AUTHORIZED_ENTRIES = 1,           /* how many entries there are */
    PICKY_AUTHORIZED_LINE_NUMBER = 2,       /* the number of the entry's line, counted from 1 over all lines */
    PICKY_AUTHORIZED_STATE = 3,             /* "key"; "bad-options"; or why its key is refused, as "KeyError" */
    PICKY_AUTHORIZED_KEY_LINE = 4,          /* its public key line, without options and an end */
    PICKY_AUTHORIZED_KEY_TYPE = 5,          /* PICKY_TYPE_NAME of its key */
    PICKY_AUTHORIZED_KEY_BLOB = 6,          /* its PICKY_BLOB */
    PICKY_AUTHORIZED_COMMENT = 7,           /* the comment beside it */
    PICKY_AUTHORIZED_OPTIONS = 8,           /* how many options stand before the key */
    PICKY_AUTHORIZED_OPTION_NAME = 9,       /* the name of one, in lower case */
    PICKY_AUTHORIZED_OPTION_VALUE = 10,     /* its value; no bytes where it has none */
    PICKY_AUTHORIZED_OPTION_HAS_VALUE = 11, /* "1" where it has one, else "0" */
    PICKY_AUTHORIZED_OPTION_LIST = 12,      /* all options: of each string name, byte 1 or 0, string value */
    PICKY_AUTHORIZED_ALL_ENTRIES = 13       /* all entries: of each uint32 line, string state, string blob, string comment; without
                                               a key the last two have no bytes */
};

/*
 * A field of authorized keys: `place` counts the entries from 0, and `option` the options of one; each is looked at where such a
 * field is asked for.
 *
 * Reasons, in order: PICKY_NO_SUCH_PART; PICKY_TEXT_NOT_UTF8; PICKY_TOO_LONG, where the text has 2^32 bytes or more, or what is
 * asked for a length of 2^32; PICKY_NO_SUCH_PLACE; PICKY_NO_KEY; PICKY_NO_SUCH_OPTION; PICKY_BUFFER_TOO_SMALL.
 */
picky_answer picky_authorized_entry(picky_bytes text, size_t place, uint32_t part, size_t option, void *out, size_t out_len);

#ifdef __cplusplus
}
#endif

#endif
