/* Writes (82) and reads (83) of 100 words, and curve frames (84) of 120 numbers, through the proved panel and through a plain C one of the same
   rules, in turns, on the same stream: frames end to end, header 5A A5, checking on, addresses, words and numbers drawn with a fixed seed before
   the first turn. A stream of curve frames is so long that its channels, empty at its start, are full for nearly all of it. */
#include "../line/plain.h"
#include "../measure.h"

unsigned long panel_bench_stream(const unsigned char *s, unsigned long n, unsigned short *words, unsigned long count, unsigned short *curves,
                                 unsigned long area, unsigned char *room, unsigned long size);

enum { SIZE = 1 << 18, CURVE_SIZE = 1 << 20, WORDS = 28672, CHANNELS = 8, CHANNEL = 1024, CURVES = CHANNELS * CHANNEL, ROOM = 265 };
static unsigned char buffer[CURVE_SIZE], room[ROOM];
static unsigned short words[WORDS], curves[CURVES];
static unsigned long counts[CHANNELS], used;

/* Adds the numbers at one place of the rounds to a channel, which moves down once where it is too full for them. */
static void plain_add(unsigned channel, const unsigned char *numbers, unsigned long rounds, unsigned long size) {
    unsigned short *part = curves + channel * CHANNEL;
    unsigned long has = counts[channel], gone = has + rounds > CHANNEL ? has + rounds - CHANNEL : 0;
    memmove(part, part + gone, (has - gone) * sizeof *part);
    part += has - gone;
    for (unsigned long i = 0; i < rounds; i++, numbers += 2 * size) part[i] = (unsigned short)(numbers[0] * 256 + numbers[1]);
    counts[channel] = has - gone + rounds;
}

static void plain_curves(const plain_report *p) {
    unsigned long size = 0, place = 0;
    if (p->len < 1) return;
    for (unsigned channel = 0; channel < CHANNELS; channel++) size += p->data[0] >> channel & 1;
    if (!size || p->len == 1 || (p->len - 1) % (2 * size)) return;
    for (unsigned channel = 0; channel < CHANNELS; channel++)
        if (p->data[0] >> channel & 1) plain_add(channel, p->data + 1 + 2 * place++, (p->len - 1) / (2 * size), size);
}

/* What a command of the three does; the answer is how long a reply was written. */
static unsigned long plain_command(const plain_report *p, unsigned char *out) {
    if (p->command == 0x82) {
        if (p->len < 4 || p->len % 2) return 0;
        unsigned long at = p->data[0] * 256ul + p->data[1], n = (p->len - 2) / 2;
        if (at + n > WORDS) return 0;
        for (unsigned long i = 0; i < n; i++) words[at + i] = (unsigned short)(p->data[2 + 2 * i] * 256 + p->data[3 + 2 * i]);
        return 0;
    }
    if (p->command == 0x83) {
        if (p->len != 3) return 0;
        unsigned long at = p->data[0] * 256ul + p->data[1], n = p->data[2];
        if (at + n > WORDS || 1 + 3 + 2 * n + 2 > 255) return 0;
        out[0] = 0x5A;
        out[1] = 0xA5;
        out[2] = (unsigned char)(6 + 2 * n);
        out[3] = 0x83;
        out[4] = p->data[0];
        out[5] = p->data[1];
        out[6] = p->data[2];
        for (unsigned long i = 0; i < n; i++) {
            out[7 + 2 * i] = words[at + i] >> 8;
            out[8 + 2 * i] = words[at + i] & 255;
        }
        unsigned short v = plain_check(out + 3, 4 + 2 * n);
        out[7 + 2 * n] = v & 255;
        out[8 + 2 * n] = v >> 8;
        return 9 + 2 * n;
    }
    if (p->command == 0x84) plain_curves(p);
    return 0;
}

static __attribute__((noinline)) unsigned long plain_run(void) {
    plain_reader r;
    plain_report p;
    unsigned long sum = 0;
    plain_new(&r, 0x5A, 0xA5, 1);
    for (unsigned channel = 0; channel < CHANNELS; channel++) counts[channel] = 0;
    for (unsigned long i = 0; i < used; i++) {
        plain_byte(&r, buffer[i]);
        while (plain_waits(&r)) {
            if (plain_ask(&r, &p) == GOOD)
                sum += p.command + p.len + plain_command(&p, room);
            else
                sum += p.command;
        }
    }
    return sum;
}

/* A frame around the data that stands at f + 4, n bytes, goes behind the stream. */
static void append(unsigned char *f, unsigned char command, unsigned int n) {
    f[0] = 0x5A;
    f[1] = 0xA5;
    f[2] = n + 3;
    f[3] = command;
    unsigned short v = plain_check(f + 3, n + 1);
    f[4 + n] = v & 255;
    f[5 + n] = v >> 8;
    for (unsigned int i = 0; i < n + 6; i++) buffer[used++] = f[i];
}

/* Frames of one command on words, whole ones only. */
static void stream_words(unsigned char command) {
    unsigned char f[258];
    unsigned int n = command == 0x82 ? 202 : 3;
    used = 0;
    while (used + n + 6 <= SIZE) {
        unsigned int at = draw(WORDS - 100);
        f[4] = at >> 8;
        f[5] = at & 255;
        f[6] = 100;
        if (command == 0x82)
            for (unsigned int i = 2; i < n; i++) f[4 + i] = draw(256);
        append(f, command, n);
    }
}

/* Curve frames of one mode and 120 numbers, whole ones only. */
static void stream_curves(unsigned char mode) {
    unsigned char f[258];
    unsigned int n = 1 + 2 * 120;
    used = 0;
    while (used + n + 6 <= CURVE_SIZE) {
        f[4] = mode;
        for (unsigned int i = 1; i < n; i++) f[4 + i] = draw(256);
        append(f, 0x84, n);
    }
}

static unsigned long digest(void) {
    unsigned long sum = plain_check(room, ROOM);
    for (unsigned long i = 0; i < WORDS; i++) sum = sum * 31 + words[i];
    for (unsigned long i = 0; i < CURVES; i++) sum = sum * 31 + curves[i];
    return sum;
}

/* Both panels, in turns, on the stream that stands. */
static int measure(const char *name) {
    double proved = 1e9, plain = 1e9, began = now();
    for (int turns = 0; goes_on(turns, began); turns++) {
        double a = now();
        unsigned long x = panel_bench_stream(buffer, used, words, WORDS, curves, CURVES, room, ROOM);
        double b = now();
        unsigned long left = digest();
        double c = now();
        unsigned long y = plain_run();
        double d = now();
        if (x != y || left != digest()) {
            printf("panel: %s: the panels differ: %lu %lu\n", name, x, y);
            return 1;
        }
        keep_least(&proved, b - a);
        keep_least(&plain, d - c);
    }
    printf("panel: %s", name);
    tell_speeds(used, plain, proved);
    return 0;
}

int main(void) {
    int differs = 0;
    stream_words(0x82);
    differs |= measure("writes of 100 words");
    stream_words(0x83);
    differs |= measure("reads of 100 words");
    stream_curves(0x01);
    differs |= measure("120 numbers, one curve");
    stream_curves(0xFF);
    differs |= measure("120 numbers, 8 curves");
    return differs;
}
