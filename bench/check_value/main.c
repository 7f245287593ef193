/* The proved check value over 1 MiB, filled once before the first turn, and beside it plain C: by the same formula, a byte and two bytes a turn,
   and by the two nibble tables that the manuals print. Each is run against the proved one turn and turn about. */
#include "../plain_check.h"
#include "../plain_formula.h"
#include "../measure.h"

/* Crate check_bench. A slice is a pointer and a length. */
unsigned short panel_check_value(const unsigned char *, unsigned long);

enum { SIZE = 1 << 20 };
static unsigned char buffer[SIZE];

typedef unsigned short form(const unsigned char *, unsigned long);

/* Called like the proved one, not laid into the loop of the turns. */
static __attribute__((noinline)) unsigned short by_byte(const unsigned char *s, unsigned long n) { return plain_formula(s, n); }
static __attribute__((noinline)) unsigned short by_two(const unsigned char *s, unsigned long n) { return plain_formula_by_two(s, n); }
static __attribute__((noinline)) unsigned short by_tables(const unsigned char *s, unsigned long n) { return plain_check(s, n); }

static int compare(const char *with, form *plain_value) {
    double proved = 1e9, plain = 1e9, began = now();
    for (int turns = 0; goes_on(turns, began); turns++) {
        double a = now();
        unsigned short x = panel_check_value(buffer, SIZE);
        double b = now();
        unsigned short y = plain_value(buffer, SIZE);
        double c = now();
        if (x != y) {
            printf("check value, %s: the values differ: %u %u\n", with, x, y);
            return 1;
        }
        keep_least(&proved, b - a);
        keep_least(&plain, c - b);
    }
    printf("check value, to %s", with);
    tell_speeds(SIZE, plain, proved);
    return 0;
}

int main(void) {
    for (int i = 0; i < SIZE; i++) buffer[i] = draw(256);
    return compare("the formula", by_byte) || compare("it by two bytes", by_two) || compare("nibble tables", by_tables);
}
