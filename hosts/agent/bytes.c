/* Bytes that grow, fields (RFC 4251, section 5), and the library's calls into such bytes. */
#include "host.h"

picky_bytes bytes(const void *at, size_t len) {
    return (picky_bytes){len == 0 ? "" : at, len};
}

picky_bytes text(const char *it) {
    return bytes(it, strlen(it));
}

picky_bytes held(const buffer *it) {
    return bytes(it->at, it->len);
}

bool same(picky_bytes one, picky_bytes other) {
    return one.len == other.len && memcmp(one.at, other.at, one.len) == 0;
}

/* Whether there is such room now, which is made where it wasn't: twice what there was, or more. */
bool grow(buffer *it, size_t room) {
    if (room <= it->room)
        return true;
    size_t wanted = room < 2 * it->room ? 2 * it->room : room;
    unsigned char *at = realloc(it->at, wanted);
    if (at == NULL)
        return false;
    it->at = at;
    it->room = wanted;
    return true;
}

bool put(buffer *it, const void *at, size_t len) {
    if (!grow(it, it->len + len))
        return false;
    if (len > 0)
        memcpy(it->at + it->len, at, len);
    it->len += len;
    return true;
}

bool put_string(buffer *it, picky_bytes content) {
    unsigned char len[4];
    write_number(len, content.len);
    return put(it, len, sizeof len) && put(it, content.at, content.len);
}

/* The linker has free wipe. */
void drop(buffer *it) {
    free(it->at);
    *it = (buffer){0};
}

void swap(buffer *one, buffer *other) {
    buffer kept = *one;
    *one = *other;
    *other = kept;
}

uint32_t number_at(const unsigned char *at) {
    return (uint32_t)at[0] << 24 | (uint32_t)at[1] << 16 | (uint32_t)at[2] << 8 | at[3];
}

void write_number(unsigned char *at, size_t number) {
    for (int i = 0; i < 4; i++)
        at[i] = (unsigned char)(number >> (24 - 8 * i));
}

fields fields_of(picky_bytes content) {
    return (fields){content.at, content.len, false};
}

/* So many bytes; none where fewer are left, and then no field follows. */
picky_bytes take(fields *it, size_t len) {
    if (it->left < len) {
        it->cut = true;
        it->left = 0;
        return bytes("", 0);
    }
    picky_bytes taken = bytes(it->at, len);
    it->at += len;
    it->left -= len;
    return taken;
}

uint32_t take_number(fields *it) {
    picky_bytes four = take(it, 4);
    return four.len == 4 ? number_at(four.at) : 0;
}

picky_bytes take_string(fields *it) {
    return take(it, take_number(it));
}

/* ---- the library's calls: each hands out bytes, for which there may be too little room at first */

static picky_answer called(uint32_t call, picky_bytes state, picky_bytes message, picky_bytes signature, buffer *out) {
    if (!grow(out, 256))
        return (picky_answer){PICKY_NO_MEMORY, 0};
    return call == QUESTION     ? picky_agent_question(state, message, out->at, out->room)
           : call == REPLY      ? picky_agent_reply(state, message, signature, out->at, out->room)
           : call == NEXT       ? picky_agent_next(state, message, out->at, out->room)
           : call == PUBLIC_ADD ? picky_agent_public_add(message, out->at, out->room)
                                : picky_agent_secret(message, call - SECRET, out->at, out->room);
}

bool ask_signed(uint32_t call, picky_bytes state, picky_bytes message, picky_bytes signature, buffer *out) {
    picky_answer told = called(call, state, message, signature, out);
    if (told.error == PICKY_BUFFER_TOO_SMALL && grow(out, told.len + 1))
        told = called(call, state, message, signature, out);
    out->len = told.error == PICKY_OK ? told.len : 0;
    return told.error == PICKY_OK;
}

/* Any call, without a signature; of SECRET the part is added. Of messages that add, the state isn't heeded. */
bool ask(uint32_t call, picky_bytes state, picky_bytes message, buffer *out) {
    return ask_signed(call, state, message, text(""), out);
}
