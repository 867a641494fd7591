/*
 * Runs picky_convert_by over tables that lie. check/fuzz --answers builds it, and writes the conversions that it tries.
 *
 *     ./ask_fuzz CONVERSIONS PLACE SECONDS SEED [NUMBER]
 *
 * A table is a true one that is changed in a few places, or what a device answers that lies now and then. No call may touch a byte
 * behind what it is given (what follows is a page that can't be read), write what it doesn't hand out, or ask what its table has or a
 * fifth question. A text that it hands out is the true one where a MAC covers all that was answered, and has the true public key and
 * parameters else. What breaks this ends the run with status 1; the number of the trial stands in the file PLACE, and as the last word
 * repeats it. It prints how many calls there were, and how many ended with each number.
 */
#define _GNU_SOURCE
#include <picky.h>

#include <fcntl.h>
#include <stdio.h>
#include <stdlib.h>
#include <string.h>
#include <sys/mman.h>
#include <time.h>
#include <unistd.h>

enum { PAGE = 4096, ROOM = 1 << 20, UNTOUCHED = 0xA5, FRONT = 64, MOST_ENTRIES = 64, MOST_ERRORS = 1000, MOST_QUESTIONS = 4 };

typedef struct {
    unsigned char *at;
    size_t len;
} block;

/* Three strings. */
typedef struct {
    block head, text, answer;
} entry;

typedef struct {
    picky_bytes text, pass_in, pass_out, fresh;
    uint32_t target;
    /* What is true: the entries, up to which of them a MAC covers what was opened, and the text, of which so many bytes in front stay. */
    entry entries[MOST_QUESTIONS];
    size_t count, covered, fixed;
    block result;
} conversion;

static conversion *conversions;
static size_t conversion_count;
static unsigned char *out_end, *table_end;
static unsigned long calls, ends[MOST_ERRORS];
static uint64_t state;

static void fail(const conversion *c, const char *why) {
    fprintf(stderr, "ask_fuzz: conversion %zu: %s\n", (size_t)(c - conversions), why);
    exit(1);
}

static uint32_t draw(uint32_t below) {
    state ^= state << 13;
    state ^= state >> 7;
    state ^= state << 17;
    return (uint32_t)(state >> 32) % below;
}

/* The end of some room, behind which is a page that nobody may touch. */
static unsigned char *guarded(void) {
    unsigned char *at = mmap(NULL, ROOM + PAGE, PROT_READ | PROT_WRITE, MAP_PRIVATE | MAP_ANONYMOUS, -1, 0);
    if (at == MAP_FAILED || mprotect(at + ROOM, PAGE, PROT_NONE) != 0)
        exit(3);
    return at + ROOM;
}

static picky_bytes kept(block b) {
    unsigned char *end = guarded();
    memcpy(end - b.len, b.at, b.len);
    return (picky_bytes){end - b.len, b.len};
}

/* ---- strings */

static size_t number_at(const unsigned char *at) {
    return (size_t)at[0] << 24 | (size_t)at[1] << 16 | (size_t)at[2] << 8 | at[3];
}

static block take(block *from) {
    if (from->len < 4 || number_at(from->at) > from->len - 4)
        exit(3);
    block taken = {from->at + 4, number_at(from->at)};
    from->at += 4 + taken.len;
    from->len -= 4 + taken.len;
    return taken;
}

static void put(block *to, block string) {
    if (to->len + string.len + 4 > ROOM)
        return;
    unsigned char *at = to->at + to->len;
    for (int i = 0; i < 4; i++)
        at[i] = (unsigned char)(string.len >> (24 - 8 * i));
    memcpy(at + 4, string.at, string.len);
    to->len += 4 + string.len;
}

static int same(block a, block b) {
    return a.len == b.len && memcmp(a.at, b.at, a.len) == 0;
}

static void read_conversions(const char *path) {
    FILE *stream = fopen(path, "rb");
    if (stream == NULL || fseek(stream, 0, SEEK_END) != 0)
        exit(3);
    block all = {malloc((size_t)ftell(stream) + 1), (size_t)ftell(stream)};
    rewind(stream);
    if (all.at == NULL || fread(all.at, 1, all.len, stream) != all.len)
        exit(3);
    fclose(stream);
    while (all.len > 0) {
        conversions = realloc(conversions, (conversion_count + 1) * sizeof *conversions);
        if (conversions == NULL)
            exit(3);
        conversion *c = &conversions[conversion_count++];
        memset(c, 0, sizeof *c);
        c->text = kept(take(&all));
        c->pass_in = kept(take(&all));
        c->pass_out = kept(take(&all));
        c->fresh = kept(take(&all));
        c->result = take(&all);
        block numbers = take(&all), table = take(&all);
        c->target = (uint32_t)number_at(numbers.at);
        c->covered = number_at(numbers.at + 4);
        c->fixed = number_at(numbers.at + 8);
        for (; table.len > 0; c->count++) {
            if (c->count == MOST_QUESTIONS)
                exit(3);
            c->entries[c->count].head = take(&table);
            c->entries[c->count].text = take(&table);
            c->entries[c->count].answer = take(&table);
        }
    }
}

/* ---- a call, and what is held of it */

static size_t entries_in(block table, entry *entries) {
    size_t count = 0;
    while (table.len > 0 && count < MOST_ENTRIES) {
        block *parts[] = {&entries[count].head, &entries[count].text, &entries[count].answer};
        for (int i = 0; i < 3; i++) {
            if (table.len < 4 || number_at(table.at) > table.len - 4)
                return count;
            *parts[i] = take(&table);
        }
        count++;
    }
    return count;
}

/* The lines from one that begins so to one that begins otherwise: of a file, its public key and the numbers of its derivation. */
static block public_lines(block text) {
    unsigned char *from = memmem(text.at, text.len, "Public-Lines: ", 14), *to = memmem(text.at, text.len, "Private-Lines: ", 15);
    return (block){from, from == NULL || to == NULL ? 0 : (size_t)(to - from)};
}

static void judge_text(const conversion *c, const entry *entries, size_t count, block text) {
    if (count < c->count)
        fail(c, "a text without all answers");
    /* Another key that the same bytes are opened by passes, since the MAC covers these alone. */
    if (c->covered > 0 && !same(entries[c->covered - 1].answer, c->entries[c->covered - 1].answer))
        fail(c, "a false answer passes a MAC");
    if (c->covered == c->count && !same(text, c->result))
        fail(c, "another text passes a MAC");
    if (text.len < c->fixed || memcmp(text.at, c->result.at, c->fixed) != 0)
        fail(c, "another front of the text");
    if (c->target != PICKY_OPENSSH && !same(public_lines(text), public_lines(c->result)))
        fail(c, "another public key");
}

static void judge_question(const conversion *c, const entry *entries, size_t count, block question) {
    block left = question;
    if (left.len < 8 || number_at(left.at) > left.len - 8)
        fail(c, "a question isn't two strings");
    block head = take(&left), text = take(&left);
    if (left.len != 0 || head.len == 0 || head.at[0] < 1 || head.at[0] > 5)
        fail(c, "a question that no conversion has");
    if (count >= MOST_QUESTIONS)
        fail(c, "a fifth question");
    for (size_t i = 0; i < count; i++)
        if (same(entries[i].head, head) && same(entries[i].text, text))
            fail(c, "the table has the question");
}

/* One call over a table, with so much room. */
static picky_answer called(const conversion *c, block table, size_t room) {
    unsigned char *out = out_end - room;
    memset(out - FRONT, UNTOUCHED, room + FRONT);
    memcpy(table_end - table.len, table.at, table.len);
    picky_bytes answers = {table_end - table.len, table.len};
    picky_answer answer = picky_convert_by(c->text, c->target, c->pass_in, c->pass_out, c->fresh, answers, out, room);
    calls++;
    size_t written = answer.error == PICKY_OK || answer.error == PICKY_ASKED ? answer.len + 1 : 0;
    if (written > room || (written > 0 && out[answer.len] != 0))
        fail(c, "more is handed out than there is room for");
    if (written == 0 && (answer.error == PICKY_BUFFER_TOO_SMALL ? answer.len < room : answer.len != 0))
        fail(c, "a length beside a refusal");
    for (size_t i = 0; i < FRONT; i++)
        if (out[-1 - (long)i] != UNTOUCHED)
            fail(c, "a byte before the buffer was written");
    for (size_t i = written; i < room; i++)
        if (out[i] != UNTOUCHED)
            fail(c, "a byte behind was written");
    return answer;
}

/* The call with room enough, and what it comes to: a question stands at the front of the room then. */
static picky_answer judged(const conversion *c, block table) {
    picky_answer first = called(c, table, draw(4) * 100), answer = first;
    size_t room = 0;
    if (first.error == PICKY_BUFFER_TOO_SMALL) {
        room = first.len + 1 + draw(3);
        if (room + FRONT > ROOM)
            fail(c, "more is wanted than there is room for");
        answer = called(c, table, room);
        if ((answer.error != PICKY_OK && answer.error != PICKY_ASKED) || answer.len != first.len)
            fail(c, "another answer with more room");
    } else if (answer.error == PICKY_OK || answer.error == PICKY_ASKED) {
        room = answer.len + 1;
        answer = called(c, table, room);
    }
    if (answer.error >= MOST_ERRORS || picky_error_name(answer.error).text[0] == 0 || answer.error == PICKY_NO_CIPHER)
        fail(c, "a number that no call of this kind answers");
    ends[answer.error]++;
    entry entries[MOST_ENTRIES];
    size_t count = entries_in(table, entries);
    block handed = {out_end - room, answer.len};
    if (answer.error == PICKY_OK)
        judge_text(c, entries, count, handed);
    if (answer.error == PICKY_ASKED) {
        judge_question(c, entries, count, handed);
        memmove(out_end - ROOM, handed.at, handed.len);
    }
    return answer;
}

/* ---- tables */

static unsigned char edge(void) {
    static const unsigned char edges[] = {0, 1, 2, 3, 4, 5, 6, 7, 8, 16, 32, 48, 80, 0x7F, 0x80, 0xFE, 0xFF};
    return draw(2) ? edges[draw(sizeof edges)] : (unsigned char)draw(256);
}

static void change_bytes(block *b, size_t most) {
    size_t at = b->len > 0 ? draw((uint32_t)b->len) : 0, count = 1 + draw(8);
    switch (draw(5)) {
    case 0:
        if (b->len > 0)
            b->at[at] ^= (unsigned char)(1 << draw(8));
        break;
    case 1:
        if (b->len > 0)
            b->at[at] = edge();
        break;
    case 2:
        count = count < b->len - at ? count : b->len - at;
        memmove(b->at + at, b->at + at + count, b->len - at - count);
        b->len -= count;
        break;
    case 3:
        if (b->len + count > most)
            break;
        memmove(b->at + at + count, b->at + at, b->len - at);
        for (size_t i = 0; i < count; i++)
            b->at[at + i] = edge();
        b->len += count;
        break;
    default:
        if (b->len >= 4)
            for (size_t i = 0, from = draw((uint32_t)b->len - 3), by = draw(2) ? 0xFF : 0; i < 4; i++)
                b->at[from + i] = (unsigned char)(draw(8) ? by : edge());
    }
}

/* Copies in which strings grow. */
static block scratch(block b) {
    static unsigned char room[16 * MOST_ENTRIES][PAGE * 2];
    static size_t turn;
    block copy = {room[turn++ % (16 * MOST_ENTRIES)], b.len < PAGE ? b.len : PAGE};
    memcpy(copy.at, b.at, copy.len);
    return copy;
}

static entry any_entry(void) {
    const conversion *c = &conversions[draw((uint32_t)conversion_count)];
    return c->entries[draw((uint32_t)c->count)];
}

/* A true table, changed in a few places. */
static void change_table(const conversion *c, block *table) {
    entry entries[MOST_ENTRIES];
    size_t count = c->count, first, second;
    memcpy(entries, c->entries, count * sizeof *entries);
    for (uint32_t changes = 1 + draw(3); changes > 0; changes--) {
        first = count > 0 ? draw((uint32_t)count) : 0, second = count > 0 ? draw((uint32_t)count) : 0;
        entry moved = entries[first];
        block *part = draw(3) == 0 ? &entries[first].head : draw(2) ? &entries[first].text : &entries[first].answer;
        switch (count == 0 ? 7 : draw(9)) {
        case 0:
            memmove(&entries[first], &entries[first + 1], (count - first - 1) * sizeof *entries);
            count--;
            break;
        case 1:
            entries[first] = entries[second];
            entries[second] = moved;
            break;
        case 2:
            entries[first].answer = entries[second].answer;
            break;
        case 3:
            entries[first].answer = scratch(entries[first].answer);
            for (size_t i = 0; i < entries[first].answer.len; i++)
                entries[first].answer.at[i] = (unsigned char)draw(256);
            break;
        case 4:
            part = &entries[first].answer;
            /* fall through */
        case 5:
            *part = scratch(*part);
            change_bytes(part, PAGE * 2);
            break;
        case 6:
            if (count < MOST_ENTRIES)
                memmove(&entries[second + 1], &entries[second], (count - second) * sizeof *entries), entries[second] = moved, count++;
            break;
        default:
            if (count < MOST_ENTRIES)
                entries[count++] = any_entry();
        }
    }
    for (size_t i = 0; i < count; i++)
        put(table, entries[i].head), put(table, entries[i].text), put(table, entries[i].answer);
    if (draw(4) == 0)
        change_bytes(table, ROOM);
    if (draw(16) == 0)
        table->len = draw((uint32_t)table->len + 1);
}

/* The rounds of a device that lies now and then: it gives what the true table has at the question's turn, changed. */
static void lie(const conversion *c, block *table) {
    for (size_t turn = 0; turn <= MOST_QUESTIONS; turn++) {
        picky_answer answer = judged(c, *table);
        if (answer.error != PICKY_ASKED)
            return;
        block left = {out_end - ROOM, answer.len}, head = take(&left), text = take(&left);
        entry e = {head, text, turn < c->count ? scratch(c->entries[turn].answer) : scratch(text)};
        int asked_truly = turn < c->count && same(head, c->entries[turn].head) && same(text, c->entries[turn].text);
        size_t wanted = head.at[0] == 1 && head.len > 4 ? number_at(head.at + 1) : head.at[0] == 2 ? 80 : text.len;
        if (!asked_truly && wanted < PAGE)
            e.answer.len = wanted;
        const entry *by = &c->entries[draw((uint32_t)c->count)];
        switch (draw(asked_truly ? 7 : 4)) {
        case 0:
            if (e.answer.len > 0)
                e.answer.at[draw((uint32_t)e.answer.len)] ^= (unsigned char)(1 << draw(8));
            break;
        case 1:
            if (draw(4) == 0)
                change_bytes(&e.answer, PAGE * 2);
            break;
        case 2:
            if (draw(4) == 0)
                for (size_t i = 0; i < e.answer.len; i++)
                    e.answer.at[i] = edge();
            break;
        case 3:
            /* a side of another pair, which may contradict it */
            if (by->text.len == e.answer.len)
                e.answer = scratch(by->text);
        }
        put(table, e.head), put(table, e.text), put(table, e.answer);
    }
    fail(c, "there is no end");
}

static void try_one(uint64_t seed, uint64_t number) {
    static unsigned char room[ROOM + 64];
    block table = {room, 0};
    state = (seed * 0x9E3779B97F4A7C15u) ^ (number * 0xD1B54A32D192ED03u) ^ 0x2545F4914F6CDD1Du;
    for (int i = 0; i < 8; i++)
        draw(2);
    /* Often one of the last two, which seal under the key and iv that they open under. */
    size_t last = conversion_count - 1 - draw(2), any = draw((uint32_t)conversion_count);
    const conversion *c = &conversions[draw(8) ? any : last];
    if (draw(2)) {
        change_table(c, &table);
        judged(c, table);
    } else {
        lie(c, &table);
    }
}

int main(int argc, char **argv) {
    if (argc < 5)
        return 3;
    read_conversions(argv[1]);
    out_end = guarded();
    table_end = guarded();
    int file = open(argv[2], O_RDWR | O_CREAT, 0600);
    uint64_t *place = ftruncate(file, 8) == 0 ? mmap(NULL, 8, PROT_READ | PROT_WRITE, MAP_SHARED, file, 0) : MAP_FAILED;
    if (place == MAP_FAILED)
        return 3;
    uint64_t seed = strtoull(argv[4], NULL, 10), number = 0;
    if (argc > 5) {
        try_one(seed, strtoull(argv[5], NULL, 10));
        return 0;
    }
    for (time_t until = time(NULL) + atol(argv[3]); number % 256 != 0 || time(NULL) < until; number++) {
        *place = number;
        try_one(seed, number);
    }
    printf("%lu %lu", (unsigned long)number, calls);
    for (int i = 0; i < MOST_ERRORS; i++)
        if (ends[i] > 0)
            printf(" %d %lu", i, ends[i]);
    printf("\n");
    return 0;
}
