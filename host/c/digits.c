/* Number printing and reading alone, through libdigits.a, against the host's own: 0 to 70,000, the 64 numbers around each power of ten and of two,
   random ones, signed ones too; and random bytes against a reader of its own. Says what differs; its status is 1 then.
   cc -O2 host/c/digits.c target/staticlib/libdigits.a -o digits && ./digits [random numbers] */
#include <inttypes.h>
#include <stdint.h>
#include <stdio.h>
#include <stdlib.h>
#include <string.h>

size_t digits_print_unsigned(uint8_t *out, size_t out_len, uint32_t n);
size_t digits_print_signed(uint8_t *out, size_t out_len, int32_t n);
uint64_t digits_read(const uint8_t *f, size_t f_len);

static const uint64_t none = UINT64_C(4294967296);
static unsigned long differing, tried;

static void differ(const char *what, const char *text) {
    if (differing++ < 10) printf("%s: %s\n", what, text);
}

/* Random words, from a seed that stays. */
static uint64_t state = 20261116;
static uint32_t word(void) {
    state = state * UINT64_C(6364136223846793005) + UINT64_C(1442695040888963407);
    return (uint32_t)(state >> 32);
}

/* Decimal, 0 to 4294967295, without leading zeros or sign. */
static uint64_t read_by_document(const uint8_t *f, size_t n) {
    uint64_t v = 0;
    if (n == 0 || n > 10 || (n > 1 && f[0] == '0')) return none;
    for (size_t i = 0; i < n; i++) {
        if (f[i] < '0' || f[i] > '9') return none;
        v = 10 * v + (uint64_t)(f[i] - '0');
    }
    return v < none ? v : none;
}

static void unsigned_one(uint32_t n) {
    char expected[16];
    uint8_t out[18];
    memset(out, 7, sizeof out);
    size_t length = (size_t)sprintf(expected, "%" PRIu32, n);
    size_t given = digits_print_unsigned(out + 1, 16, n);
    if (given != length || memcmp(out + 1, expected, length) || out[0] != 7 || out[1 + length] != 7) differ("printed otherwise", expected);
    if (digits_read(out + 1, length) != n) differ("not read back", expected);
    tried++;
}

static void signed_one(int32_t n) {
    char expected[16];
    uint8_t out[18];
    memset(out, 7, sizeof out);
    size_t length = (size_t)sprintf(expected, "%" PRId32, n);
    size_t given = digits_print_signed(out + 1, 16, n);
    if (given != length || memcmp(out + 1, expected, length) || out[0] != 7 || out[1 + length] != 7) differ("printed otherwise, signed", expected);
    tried++;
}

static void around(uint64_t n) {
    for (int64_t d = -32; d <= 32; d++) {
        int64_t m = (int64_t)n + d;
        if (m >= 0 && m < (int64_t)none) unsigned_one((uint32_t)m);
        if (m >= INT32_MIN && m <= INT32_MAX) signed_one((int32_t)m);
        if (-m >= INT32_MIN && -m <= INT32_MAX) signed_one((int32_t)-m);
    }
}

int main(int argc, char **argv) {
    long rounds = argc > 1 ? atol(argv[1]) : 1000000;
    for (uint32_t n = 0; n <= 70000; n++) unsigned_one(n), signed_one((int32_t)n), signed_one(-(int32_t)n);
    for (uint64_t n = 1; n <= none; n *= 10) around(n);
    for (uint64_t n = 1; n <= none; n *= 2) around(n);
    for (long i = 0; i < rounds; i++) unsigned_one(word()), signed_one((int32_t)word());
    for (long i = 0; i < rounds; i++) {
        uint8_t f[12];
        size_t n = word() % 13;
        for (size_t j = 0; j < n; j++) f[j] = (uint8_t)(word() % 8 ? '0' + word() % 10 : word() % 256);
        if (digits_read(f, n) != read_by_document(f, n)) differ("read otherwise", "random bytes");
        tried++;
    }
    if (!differing) printf("%lu numbers and texts, none differs\n", tried);
    return differing != 0;
}
