/* Runs each call on files, for tests/library: prints a line for each answer. It is C and C++ alike. */
#include <stdio.h>
#include <stdlib.h>
#include <string.h>
#include <wcanon.h>

struct bytes {
    uint8_t *at;
    size_t length;
};

static struct bytes bytes_of(const char *path)
{
    struct bytes read = {(uint8_t *)malloc(1 << 20), 0};
    FILE *file = fopen(path, "rb");
    if (file == NULL || read.at == NULL) exit(3);
    read.length = fread(read.at, 1, 1 << 20, file);
    fclose(file);
    return read;
}

static void print(const uint8_t *at, size_t length)
{
    size_t i;
    for (i = 0; i < length; i++) printf("%02x", at[i]);
}

/* One of the two calls that write an answer. */
typedef uint32_t answering(const uint8_t *input, size_t length, uint8_t *out, size_t room, size_t *needed);

/* With this much room, and behind it nothing that may be touched: the memory is of exactly this length. Tells the room
 * that the answer needs. */
static size_t answer(const char *word, answering *call, struct bytes input, size_t room)
{
    size_t needed = 77, i;
    uint8_t *out = (uint8_t *)malloc(room ? room : 1);
    uint32_t status;
    if (out == NULL) exit(3);
    memset(out, 0xee, room ? room : 1);
    status = call(input.at, input.length, out, room, &needed);
    for (i = status == WCANON_DONE ? needed : 0; i < room; i++)
        if (out[i] != 0xee) exit(4);
    printf("%s %zu %u %zu ", word, room, (unsigned)status, needed);
    if (status == WCANON_DONE) print(out, needed);
    printf("\n");
    free(out);
    return needed;
}

/* With no room, with one byte less than the answer needs, with just enough, and with more. */
static void answers(const char *word, answering *call, struct bytes input)
{
    size_t needed = answer(word, call, input, 0);
    if (needed > 0) answer(word, call, input, needed - 1);
    answer(word, call, input, needed);
    answer(word, call, input, needed + 5);
}

static void check(struct bytes input, size_t room)
{
    size_t needed = 77;
    uint8_t *text = (uint8_t *)malloc(room ? room : 1);
    uint32_t status = wcanon_check(input.at, input.length, text, room, &needed);
    printf("check %zu %u %zu ", room, (unsigned)status, needed);
    if (needed <= room) printf("%.*s", (int)needed, (char *)text);
    printf("\n");
    free(text);
}

int main(int count, char **words)
{
    struct bytes a, b;
    uint8_t version[16];
    size_t needed = 0;
    if (count != 3) return 2;
    a = bytes_of(words[1]);
    b = bytes_of(words[2]);
    answer("normalise", wcanon_normalise, a, a.length);
    answers("normalise", wcanon_normalise, a);
    answers("to_text", wcanon_to_text, a);
    check(a, 100);
    check(a, 3);
    printf("compare %u\n", (unsigned)wcanon_compare(a.at, a.length, b.at, b.length));
    wcanon_version(version, sizeof version, &needed);
    printf("version %.*s\n", (int)needed, (char *)version);
    free(a.at);
    free(b.at);
    return 0;
}
