/* Bytes per second of the proved reader against the plain one, on the same buffers, in turns. */
#include "plain.h"
#include "../measure.h"

/* The proved reader: crate line_bench. A slice is a pointer and a length. */
unsigned long line_bench_chunks(unsigned char h1, unsigned char h2, _Bool checking, const unsigned char *s, unsigned long n, unsigned long chunk);
unsigned long line_bench_single(unsigned char h1, unsigned char h2, _Bool checking, const unsigned char *s, unsigned long n);

enum { SIZE = 1 << 19, CHUNK = 4096 };
static unsigned char buffer[SIZE];

/* The same work: reports are asked for after each byte, and the same sum is made of them. */
static __attribute__((noinline)) unsigned long plain_run(const unsigned char *s, unsigned long n) {
    plain_reader r;
    plain_report p;
    unsigned long sum = 0;
    plain_new(&r, 0x5A, 0xA5, 1);
    for (unsigned long i = 0; i < n; i++) {
        plain_byte(&r, s[i]);
        while (plain_waits(&r)) {
            p.data[0] = 0;
            if (plain_ask(&r, &p) == GOOD)
                sum += 65536 + p.command + p.len + p.data[0];
            else
                sum += p.command;
        }
    }
    return sum;
}

/* Good frames end to end, header 5A A5, checking on, any command, `least` to `most` data bytes, all drawn; the last may be cut. */
static void frames(unsigned int least, unsigned int most) {
    unsigned char f[258];
    unsigned long at = 0;
    while (at < SIZE) {
        unsigned int n = least + draw(most - least + 1);
        f[0] = 0x5A;
        f[1] = 0xA5;
        f[2] = n + 3;
        for (unsigned int i = 0; i <= n; i++) f[3 + i] = draw(256);
        unsigned short v = plain_check(f + 3, n + 1);
        f[4 + n] = v & 255;
        f[5 + n] = v >> 8;
        for (unsigned int i = 0; i < n + 6 && at < SIZE; i++) buffer[at++] = f[i];
    }
}

static void noise(void) {
    for (unsigned long at = 0; at < SIZE; at++) buffer[at] = draw(256);
}

/* Noise with a header pair after every 0 to 7 bytes. */
static void pairs(void) {
    unsigned long at = 0;
    while (at < SIZE) {
        for (unsigned int k = draw(8); k && at < SIZE; k--) buffer[at++] = draw(256);
        if (at < SIZE) buffer[at++] = 0x5A;
        if (at < SIZE) buffer[at++] = 0xA5;
    }
}

static volatile unsigned long kept;

static double chunks(void) {
    double t = now();
    kept = line_bench_chunks(0x5A, 0xA5, 1, buffer, SIZE, CHUNK);
    return now() - t;
}

static double single(void) {
    double t = now();
    kept = line_bench_single(0x5A, 0xA5, 1, buffer, SIZE);
    return now() - t;
}

static double plain(void) {
    double t = now();
    kept = plain_run(buffer, SIZE);
    return now() - t;
}

/* The fastest of some turns, the three readers one after the other in each. */
static int measure(const char *mix) {
    double by_bytes = 1e9, by_byte = 1e9, by_plain = 1e9, began = now();
    for (int turns = 0; goes_on(turns, began); turns++) {
        keep_least(&by_plain, plain());
        unsigned long a = kept;
        keep_least(&by_bytes, chunks());
        unsigned long b = kept;
        keep_least(&by_byte, single());
        if (a != b || a != kept) {
            printf("line: %s: the readers differ: %lu %lu %lu\n", mix, a, b, kept);
            return 1;
        }
    }
    printf("line: %s, give_bytes", mix);
    tell_speeds(SIZE, by_plain, by_bytes);
    printf("line: %s, give_byte", mix);
    tell_speeds(SIZE, by_plain, by_byte);
    return 0;
}

int main(void) {
    int bad = 0;
    frames(0, 252);
    bad |= measure("good frames");
    noise();
    bad |= measure("noise");
    pairs();
    bad |= measure("header pairs");
    frames(0, 16);
    bad |= measure("short frames");
    return bad;
}
