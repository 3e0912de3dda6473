/* Times calls of the library on one file, beside processes of the program:
 *
 *   tools/library && cc -O2 -Iout/include bench/call.c out/lib/libwcanon.a -o /tmp/call
 *   /tmp/call FILE [ROUNDS]
 *
 * The least and the median of the rounds, each of 1,000 calls, in microseconds a call by the clock. */
#include <stdio.h>
#include <stdlib.h>
#include <time.h>
#include <wcanon.h>

enum { CALLS = 1000, MOST = 1 << 24 };

static uint8_t input[MOST], out[MOST];

static double now(void)
{
    struct timespec at;
    clock_gettime(CLOCK_MONOTONIC, &at);
    return at.tv_sec * 1e6 + at.tv_nsec / 1e3;
}

static int ascending(const void *a, const void *b)
{
    double x = *(const double *)a, y = *(const double *)b;
    return (x > y) - (x < y);
}

static void call(int normalises, size_t length)
{
    size_t needed;
    uint32_t status = normalises ? wcanon_normalise(input, length, out, MOST, &needed)
                                 : wcanon_check(input, length, out, MOST, &needed);
    if (status != WCANON_DONE) exit(1);
}

static void timed(const char *name, int normalises, size_t length, int rounds)
{
    double *took = (double *)calloc(rounds, sizeof *took);
    for (int round = 0; round < rounds; round++) {
        double start = now();
        for (int i = 0; i < CALLS; i++) call(normalises, length);
        took[round] = (now() - start) / CALLS;
    }
    qsort(took, rounds, sizeof *took, ascending);
    printf("%s: %zu bytes, best %.2f, median %.2f microseconds a call\n", name, length, took[0], took[rounds / 2]);
    free(took);
}

int main(int count, char **words)
{
    int rounds = count > 2 ? atoi(words[2]) : 20;
    FILE *file = count > 1 ? fopen(words[1], "rb") : NULL;
    if (file == NULL || rounds < 1) return 2;
    size_t length = fread(input, 1, MOST, file);
    fclose(file);
    timed("wcanon_normalise", 1, length, rounds);
    timed("wcanon_check", 0, length, rounds);
    return 0;
}
