/*
 * Tries picky_convert_by and picky_seal_by on the bytes of a file, with a toy in place of ciphers and derivations, in a thread with a
 * stack of 64 KiB, and holds what they leave in the buffer against picky.h. check/c_ask builds it.
 *
 *     ./c_ask [-s] FILE...
 *
 * Rounds have to end by the fifth call. What is sealed by the toy is opened by it as the key that the file has. Tables are cut, and
 * bits of them turned, at 100 places, at 8 with -s. It writes a line for each file: how many calls, questions and texts there were.
 * Each text, table and buffer is a block of exactly its length.
 */
#include <picky.h>

#include <pthread.h>
#include <stdio.h>
#include <stdlib.h>
#include <string.h>

enum { STACK = 64 * 1024, UNTOUCHED = 0xA5, MOST_CALLS = 5, ARGON2_LEN = 80 };

typedef struct {
    unsigned char *at;
    size_t len;
} block;

/* What a call is given. Where `sealing` is NULL it is picky_convert_by. */
typedef struct {
    picky_bytes text;
    uint32_t target;
    const picky_sealing *sealing;
    picky_bytes pass_in, pass_out, fresh;
} given;

static const picky_bytes none = {"", 0}, pass = {"pass", 4}, other = {"another passphrase", 18};
static const unsigned char fresh_bytes[96] = "salt and padding, as the caller draws them";
static unsigned long calls, questions, texts, refused;
static int some;

static void fail(const char *why) {
    fprintf(stderr, "c_ask: %s\n", why);
    exit(1);
}

static block new_block(size_t len) {
    block b = {malloc(len > 0 ? len : 1), len};
    if (b.at == NULL)
        exit(3);
    return b;
}

static block copy_of(const void *at, size_t len) {
    block b = new_block(len);
    if (len > 0)
        memcpy(b.at, at, len);
    return b;
}

/* ---- the toy */

static uint32_t number_at(const unsigned char *at) {
    return (uint32_t)at[0] << 24 | (uint32_t)at[1] << 16 | (uint32_t)at[2] << 8 | at[3];
}

/* The next of the bytes that a seed gives. */
static unsigned char next(uint64_t *state) {
    *state ^= *state << 13;
    *state ^= *state >> 7;
    *state ^= *state << 17;
    return (unsigned char)(*state >> 32);
}

static uint64_t seed_of(const unsigned char *at, size_t len) {
    uint64_t hash = 14695981039346656037u;
    for (size_t i = 0; i < len; i++)
        hash = (hash ^ at[i]) * 1099511628211u;
    return hash | 1;
}

/* A derivation is what the whole question gives; a cipher adds what key and iv give, takes it away, or turns the bits. */
static block answer_of(const unsigned char *question, size_t len) {
    uint32_t head_len = number_at(question);
    const unsigned char *head = question + 4, *text = head + head_len + 4;
    uint32_t text_len = number_at(text - 4);
    if (8 + (size_t)head_len + text_len != len || head_len == 0)
        fail("a question isn't two strings");
    if (*head == 1 || *head == 2) {
        block answer = new_block(*head == 1 ? number_at(head + 1) : ARGON2_LEN);
        uint64_t state = seed_of(question, len);
        for (size_t i = 0; i < answer.len; i++)
            answer.at[i] = next(&state);
        return answer;
    }
    if (*head < 3 || *head > 5)
        fail("a conversion asks something else");
    block answer = new_block(text_len);
    uint64_t state = seed_of(head + 1, head_len - 1);
    for (size_t i = 0; i < text_len; i++) {
        unsigned char by = next(&state);
        answer.at[i] = (unsigned char)(*head == 3 ? text[i] + by : *head == 4 ? text[i] - by : text[i] ^ by);
    }
    return answer;
}

/* ---- one call, in a buffer of exactly this length */

static picky_answer call(const given *g, picky_bytes table, void *out, size_t out_len) {
    calls++;
    if (g->sealing != NULL)
        return picky_seal_by(g->text, g->sealing, g->pass_in, g->pass_out, g->fresh, table, out, out_len);
    return picky_convert_by(g->text, g->target, g->pass_in, g->pass_out, g->fresh, table, out, out_len);
}

/* What it hands out, if anything. */
static picky_answer attempt(const given *g, picky_bytes table, size_t out_len, block *handed) {
    block out = new_block(out_len);
    memset(out.at, UNTOUCHED, out_len);
    picky_answer answer = call(g, table, out.at, out_len);
    size_t written = 0;
    if (answer.error == PICKY_OK || answer.error == PICKY_ASKED) {
        if (answer.len >= out_len || out.at[answer.len] != 0)
            fail("there is no zero behind the bytes");
        written = answer.len + 1;
        if (handed != NULL)
            *handed = copy_of(out.at, answer.len);
    } else if (answer.error == PICKY_BUFFER_TOO_SMALL) {
        if (answer.len < out_len)
            fail("there is room");
    } else if (answer.len != 0) {
        fail("a length beside a refusal");
    }
    for (size_t i = written; i < out_len; i++)
        if (out.at[i] != UNTOUCHED)
            fail("a byte behind was written");
    free(out.at);
    return answer;
}

/* The answer and the bytes, asked for with no room, with a byte too little, with just enough and with more. */
static picky_answer whole(const given *g, picky_bytes table, block *handed) {
    picky_answer first = attempt(g, table, 0, NULL);
    if (first.error != PICKY_BUFFER_TOO_SMALL) {
        if (picky_error_name(first.error).text[0] == 0)
            fail("no name");
        for (size_t room = 1; room < 40; room += 13)
            if (attempt(g, table, room, NULL).error != first.error)
                fail("another refusal");
        return first;
    }
    if (attempt(g, table, first.len, NULL).error != PICKY_BUFFER_TOO_SMALL)
        fail("another answer with a byte too little");
    picky_answer answer = attempt(g, table, first.len + 1, handed);
    block again;
    picky_answer more = attempt(g, table, first.len + 9, &again);
    if (answer.len != first.len || more.len != first.len || answer.error != more.error || memcmp(again.at, handed->at, first.len) != 0)
        fail("another answer with more room");
    free(again.at);
    return answer;
}

/* ---- rounds */

static block with_entry(block table, block question, block answer) {
    block more = new_block(table.len + question.len + 4 + answer.len);
    memcpy(more.at, table.at, table.len);
    memcpy(more.at + table.len, question.at, question.len);
    unsigned char *at = more.at + table.len + question.len;
    for (int i = 0; i < 4; i++)
        at[i] = (unsigned char)(answer.len >> (24 - 8 * i));
    memcpy(at + 4, answer.at, answer.len);
    free(table.at);
    return more;
}

/* The last answer, with the text where there is one, and the table that led to it. */
static picky_answer rounds(const given *g, block *text, block *table) {
    *table = new_block(0);
    for (int i = 0; i < MOST_CALLS; i++) {
        block handed = {NULL, 0};
        picky_bytes answers = {table->at, table->len};
        picky_answer answer = whole(g, answers, &handed);
        if (answer.error != PICKY_ASKED) {
            *text = handed;
            texts += answer.error == PICKY_OK;
            refused += answer.error != PICKY_OK;
            return answer;
        }
        questions++;
        block given_answer = answer_of(handed.at, handed.len);
        *table = with_entry(*table, handed, given_answer);
        free(given_answer.at);
        free(handed.at);
    }
    fail("the fifth call asks");
    return (picky_answer){0, 0};
}

/* ---- what is held of them */

/* Without answers the call is picky_convert, which has no cipher where the call asks. */
static void try_no_answers(const given *g) {
    block by = {NULL, 0};
    picky_answer answer = whole(g, none, &by);
    block out = new_block(answer.len + 1);
    picky_answer plain = picky_convert(g->text, g->target, g->pass_in, g->pass_out, g->fresh, out.at, out.len);
    if (answer.error == PICKY_ASKED ? plain.error != PICKY_NO_CIPHER
                                    : plain.error != answer.error || plain.len != answer.len || (by.len > 0 && memcmp(out.at, by.at, by.len) != 0))
        fail("picky_convert is another than picky_convert_by without answers");
    free(out.at);
    free(by.at);
}

/* What was sealed is opened again, to what picky_convert makes of the text, which isn't sealed itself. */
static void try_opened(const given *g, block sealed) {
    block text = {NULL, 0}, table;
    given back = {{sealed.at, sealed.len}, PICKY_OPENSSH, NULL, g->pass_out, none, none};
    picky_answer opened = rounds(&back, &text, &table);
    free(table.at);
    block out = new_block(opened.len + 1);
    picky_answer plain = picky_convert(g->text, PICKY_OPENSSH, none, none, none, out.at, out.len);
    if (plain.error == PICKY_OK && (opened.error != PICKY_OK || plain.len != opened.len || memcmp(out.at, text.at, text.len) != 0))
        fail("what is sealed is opened as another key");
    free(out.at);
    free(text.at);
}

/* A table that is cut, or has a bit turned: the call keeps to its buffer, and ends. */
static void try_hostile(const given *g, block table) {
    size_t step = table.len / (some ? 8 : 100) + 1;
    for (size_t at = 0; at < table.len; at += step) {
        block cut = copy_of(table.at, at), turned = copy_of(table.at, table.len);
        turned.at[at] ^= (unsigned char)(1 << at % 8);
        for (int i = 0; i < 2; i++) {
            block handed = {NULL, 0}, hostile = i == 0 ? cut : turned;
            picky_bytes answers = {hostile.at, hostile.len};
            picky_answer answer = attempt(g, answers, 0, NULL);
            if (answer.error == PICKY_BUFFER_TOO_SMALL)
                attempt(g, answers, answer.len + 1, &handed);
            free(handed.at);
        }
        free(cut.at);
        free(turned.at);
    }
}

static void try_call(const given *g) {
    block text = {NULL, 0}, table;
    picky_answer answer = rounds(g, &text, &table);
    if (answer.error == PICKY_OK && g->pass_out.len > 0 && table.len > 0)
        try_opened(g, text);
    try_hostile(g, table);
    free(text.at);
    free(table.at);
}

static void try_text(picky_bytes text) {
    picky_bytes fresh = {fresh_bytes, sizeof fresh_bytes}, few = {fresh_bytes, 15}, passes[] = {none, pass, other};
    for (uint32_t target = 0; target < 9; target++) {
        for (int i = 0; i < 6; i++) {
            given g = {text, target, NULL, passes[i % 2], passes[i % 3], i == 5 ? few : fresh};
            try_no_answers(&g);
            try_call(&g);
        }
        picky_sealing by_default = PICKY_SEALING(target);
        picky_sealing sealings[] = {by_default, {target, 1, PICKY_ARGON2D, 8, 1, 1, 8}, {target, 0, PICKY_ARGON2I, 64, 3, 4, 80}, {target, 7, 3, 0, 0, 0, 0}};
        for (int i = 0; i < 8; i++) {
            given g = {text, 0, &sealings[i / 2], i % 2 == 0 ? none : pass, i % 4 == 3 ? none : other, fresh};
            try_call(&g);
        }
    }
    /* The text as the table, too. */
    given g = {text, PICKY_OPENSSH, NULL, pass, other, text};
    block handed = {NULL, 0};
    whole(&g, text, &handed);
    free(handed.at);
}

static void *try_file(void *path) {
    FILE *stream = fopen(path, "rb");
    if (stream == NULL || fseek(stream, 0, SEEK_END) != 0) {
        perror(path);
        exit(2);
    }
    block bytes = new_block((size_t)ftell(stream));
    rewind(stream);
    if (fread(bytes.at, 1, bytes.len, stream) != bytes.len)
        exit(3);
    fclose(stream);
    try_text((picky_bytes){bytes.at, bytes.len});
    if (bytes.len == 0)
        try_text((picky_bytes){NULL, 0});
    free(bytes.at);
    return NULL;
}

int main(int argc, char **argv) {
    some = argc > 1 && strcmp(argv[1], "-s") == 0;
    for (int i = 1 + some; i < argc; i++) {
        pthread_attr_t small;
        pthread_t thread;
        calls = questions = texts = refused = 0;
        if (pthread_attr_init(&small) != 0 || pthread_attr_setstacksize(&small, STACK) != 0 ||
            pthread_create(&thread, &small, try_file, argv[i]) != 0 || pthread_join(thread, NULL) != 0)
            return 3;
        pthread_attr_destroy(&small);
        printf("%s: %lu calls, %lu questions, %lu texts, %lu refused\n", argv[i], calls, questions, texts, refused);
    }
    return 0;
}
