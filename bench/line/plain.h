/* A plain reader of the same definition (01, "Reading the line"), a byte at a time, as one would write it in C: it changes its state in
   place, keeps the verdict on the front so that each frame is judged once, and moves what is left once. */
#include "../plain_check.h"

enum { PASS, WAIT, BAD, GOOD };

typedef struct {
    unsigned char h1, h2;
    int checking, closed, head;
    unsigned long len;
    unsigned char held[258];
} plain_reader;

typedef struct {
    unsigned char command;
    unsigned long len;
    unsigned char data[254];
} plain_report;

void *memmove(void *, const void *, unsigned long);

static inline __attribute__((always_inline)) int look(const plain_reader *r, int closed, const unsigned char *s, unsigned long n) {
    int cut = closed ? PASS : WAIT;
    if (n < 1) return cut;
    if (s[0] != r->h1) return PASS;
    if (n < 2) return cut;
    if (s[1] != r->h2) return PASS;
    if (n < 3) return cut;
    unsigned long l = s[2];
    if (l < (r->checking ? 3u : 1u)) return PASS;
    if (n - 3 < l) return cut;
    if (!r->checking) return GOOD;
    unsigned short v = plain_check(s + 3, l - 2);
    return s[l + 1] == (v & 255) && s[l + 2] == v >> 8 ? GOOD : BAD;
}

static inline __attribute__((always_inline)) void settle(plain_reader *r, int closed, unsigned long from) {
    int v = WAIT;
    while (from < r->len && (v = look(r, closed, r->held + from, r->len - from)) == PASS) from++;
    r->len -= from;
    if (from && r->len) memmove(r->held, r->held + from, r->len);
    r->closed = closed && r->len;
    r->head = r->len ? v : WAIT;
}

static void plain_new(plain_reader *r, unsigned char h1, unsigned char h2, int checking) {
    r->h1 = h1;
    r->h2 = h2;
    r->checking = checking;
    r->len = 0;
    r->closed = 0;
    r->head = WAIT;
}

static int plain_waits(const plain_reader *r) { return r->head == BAD || r->head == GOOD; }

static int plain_byte(plain_reader *r, unsigned char b) {
    if (plain_waits(r)) return 1;
    r->held[r->len++] = b;
    settle(r, 0, 0);
    return 0;
}

static inline int plain_mark(plain_reader *r) {
    if (plain_waits(r)) return 1;
    settle(r, 1, 0);
    return 0;
}

static int plain_ask(plain_reader *r, plain_report *out) {
    int head = r->head;
    if (!plain_waits(r)) return WAIT;
    out->command = r->held[3];
    out->len = 0;
    unsigned long from = 1;
    if (head == GOOD) {
        unsigned long l = r->held[2];
        out->len = l - (r->checking ? 3 : 1);
        memmove(out->data, r->held + 4, out->len);
        from = 3 + l;
    }
    settle(r, r->closed, from);
    return head;
}
