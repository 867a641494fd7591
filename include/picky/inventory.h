/*
 * Inventories of keys from C: which keys a list of texts has, each once (docs/FORMATS.md, "Inventories"). What a call does with
 * `out`, and what is proved of it, says picky.h.
 */
#ifndef PICKY_INVENTORY_H
#define PICKY_INVENTORY_H

#include "../picky.h"

#ifdef __cplusplus
extern "C" {
#endif

/*
 * An inventory has a line for each key, and is sorted by the lines' bytes; none stands twice. A line is
 *
 *   kind SP base64 SP base64 LF
 *
 *   kind          "private" of a private key, "public" of a public key or a certificate, whose subject's key it is, and "sealed" of
 *                 an encrypted private key, which nobody opened
 *   first base64  PICKY_BLOB of the public key (RFC 4648, section 4)
 *   second        the comment; no characters of an empty one. Of "sealed" it is the one that stands open, as in PuTTY's files
 *
 * So a key has one line, and two inventories are equal exactly where they list the same. No secret stands in a line. That a key
 * is the one of the secret behind "sealed" says the file alone, until it is opened: then its key has this public part.
 */

/*
 * The inventory of texts, of which there are `texts_len`: what a key text means without a passphrase (picky.h). Each text stands
 * for itself: lines "%%" cut nothing here. What follows the first key of a text is ignored; one of white space alone has no line.
 * Where `sealed` is 0, an encrypted private key is refused, and else listed by what it shows (picky_shown_public). Without
 * encrypted ones the lines are those that keyinventory lists of the same texts. For no texts give a pointer that isn't NULL, and
 * 0.
 *
 * Reasons: of the first text that is refused, with its place among them, counted from 0 and written in decimal, in `out`:
 * PICKY_TEXT_NOT_UTF8 or PICKY_INPUT_.., as of picky_read_public, or where encrypted keys are listed of picky_shown_public. Then
 * PICKY_BUFFER_TOO_SMALL, also where a place has no room.
 */
picky_answer picky_inventory_list(const picky_bytes *texts, size_t texts_len, uint32_t sealed, void *out, size_t out_len);

/*
 * Two inventories, merged: the lines of both, sorted, each once. Of the inventories of two lists it is that of the lists joined.
 * So a large list is listed in parts of any size. Lines of kind "sealed" are taken, which keyinventory refuses.
 *
 * Reasons, in order: PICKY_LEFT_NOT_UTF8; PICKY_RIGHT_NOT_UTF8; PICKY_BAD_LINE, with the line's number, counted from 1 over the
 * left and then the right one and written in decimal, in `out`: of the first line that isn't one of above, isn't greater than the
 * line before it in its inventory, or lacks its LF; PICKY_BUFFER_TOO_SMALL, also where a number has no room.
 */
picky_answer picky_inventory_merge(picky_bytes left, picky_bytes right, void *out, size_t out_len);

/*
 * Whether a piece of an inventory is in order behind the line `before`; no bytes are no line. It hands out the piece's last line
 * with its LF, which is `before` of the next piece; of an empty piece it is `before` itself. So an inventory of any size is
 * checked in pieces of any size that are cut behind LF: they are in order one after another, the first behind no bytes, exactly
 * where they are together an inventory.
 *
 * Reasons, in order: PICKY_TEXT_NOT_UTF8; PICKY_BAD_LINE, with the line's number, counted from 1 in the piece and written in
 * decimal, in `out`, as of picky_inventory_merge; PICKY_BUFFER_TOO_SMALL, also where a number has no room. `before` isn't
 * checked.
 */
picky_answer picky_inventory_check(picky_bytes piece, picky_bytes before, void *out, size_t out_len);

#ifdef __cplusplus
}
#endif

#endif
