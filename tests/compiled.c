// A module of ordinary C for tests/same_text: tables of functions, a switch, 64 bits, memory, data, loops.
#include <stdarg.h>
#include <stddef.h>
#include <stdint.h>

__attribute__((import_module("host"), import_name("put"))) void put(const char *text, int length);

static const char *const WORDS[] = {"block", "loop", "if", "else", "end", "\xc3\xa9\n\"\\"};
static uint32_t table[256];
volatile int64_t wide = -0x7fffffffffffffff;

static int up(const void *a, const void *b) { return *(const int *)a - *(const int *)b; }
static int down(const void *a, const void *b) { return -up(a, b); }
static int (*const ORDERS[])(const void *, const void *) = {up, down};

static size_t length_of(const char *text) {
    size_t n = 0;
    while (text[n]) n++;
    return n;
}

static void sort(int *items, int count, int (*order)(const void *, const void *)) {
    for (int i = 1; i < count; i++)
        for (int j = i; j > 0 && order(&items[j - 1], &items[j]) > 0; j--) {
            int item = items[j];
            items[j] = items[j - 1];
            items[j - 1] = item;
        }
}

uint32_t checksum(const uint8_t *bytes, size_t count) {
    uint32_t sum = ~0u;
    if (!table[1])
        for (uint32_t n = 0; n < 256; n++) {
            uint32_t c = n;
            for (int k = 0; k < 8; k++) c = c & 1 ? 0xedb88320u ^ (c >> 1) : c >> 1;
            table[n] = c;
        }
    while (count--) sum = table[(sum ^ *bytes++) & 0xff] ^ (sum >> 8);
    return ~sum;
}

int64_t reckon(int how, int64_t a, int64_t b) {
    switch (how) {
    case 0: return a + b;
    case 1: return a - b;
    case 2: return a * b;
    case 3: return b ? a / b : 0;
    case 4: return b ? (int64_t)((uint64_t)a % (uint64_t)b) : wide;
    case 5: return a << (b & 63);
    case 6: return (int8_t)a + (int16_t)b;
    case 7: return __builtin_clzll(a | 1) + __builtin_popcountll(b) + __builtin_ctz((int)b | 1);
    default: return how < 0 ? reckon(-how, b, a) : (a < b) - (uint64_t)(a > b);
    }
}

static int sum_of(int count, ...) {
    va_list rest;
    va_start(rest, count);
    int sum = 0;
    while (count-- > 0) sum += va_arg(rest, int);
    va_end(rest);
    return sum;
}

int run(int count, int which) {
    int items[16];
    for (int i = 0; i < 16; i++) items[i] = (int)(reckon(i, wide, i * count) >> 7);
    sort(items, 16, ORDERS[which & 1]);
    for (size_t i = 0; i < sizeof WORDS / sizeof *WORDS; i++) put(WORDS[i], (int)length_of(WORDS[i]));
    return sum_of(3, items[0], items[15], (int)checksum((const uint8_t *)items, sizeof items));
}
