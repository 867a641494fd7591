/* Runs the rounds of a conversion whose answers are known: bench/ask counts what its calls take. */
#include <picky.h>

#include <stdio.h>
#include <stdlib.h>

static const unsigned char *rest;

static size_t number(void) {
    size_t n = (size_t)rest[0] << 24 | (size_t)rest[1] << 16 | (size_t)rest[2] << 8 | rest[3];
    rest += 4;
    return n;
}

static picky_bytes string(void) {
    picky_bytes taken = {NULL, number()};
    taken.at = rest;
    rest += taken.len;
    return taken;
}

/* The text, both passphrases, the fresh bytes, the target, and the entries of the table, of which each call gets one more. */
int main(int argc, char **argv) {
    FILE *stream = argc == 2 ? fopen(argv[1], "rb") : NULL;
    if (stream == NULL || fseek(stream, 0, SEEK_END) != 0)
        return 2;
    size_t len = (size_t)ftell(stream), room = 2 * len + 65536;
    rewind(stream);
    unsigned char *file = malloc(len + 1), *out = malloc(room);
    if (file == NULL || out == NULL || fread(file, 1, len, stream) != len)
        return 2;
    rest = file;
    picky_bytes text = string(), pass_in = string(), pass_out = string(), fresh = string();
    uint32_t target = (uint32_t)number();
    picky_bytes answers = {rest, 0};
    for (;;) {
        picky_answer answer = picky_convert_by(text, target, pass_in, pass_out, fresh, answers, out, room);
        if (answer.error != PICKY_ASKED) {
            printf("%u %zu\n", (unsigned)answer.error, answer.len);
            return answer.error != PICKY_OK;
        }
        if (rest == file + len)
            return 1;
        for (int i = 0; i < 3; i++)
            string();
        answers.len = (size_t)(rest - (const unsigned char *)answers.at);
    }
}
