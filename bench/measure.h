/* What the measurements share: the clock, how long turns go on, the line that is printed, and numbers drawn with a fixed seed. No headers:
   the kit's clang has none. */
int printf(const char *, ...);
struct timespec { long sec, nsec; };
int clock_gettime(int, struct timespec *);

/* What the processor has spent on this program, so that waiting for others does not count. */
static double now(void) {
    struct timespec t;
    clock_gettime(2, &t);
    return t.sec + t.nsec * 1e-9;
}

static void keep_least(double *least, double t) {
    if (t < *least) *least = t;
}

/* Turns go on for some time, so that the best is one of many. */
static int goes_on(int turns, double began) { return turns < 2 || now() - began < 0.4; }

/* Ends a line for bench/table.py, which begins with what was measured: the unit, plain C's figure and that of the proved code. */
static void tell_speeds(unsigned long bytes, double plain, double proved) {
    printf("\tMB/s\t%.6g\t%.6g\n", bytes / plain / 1e6, bytes / proved / 1e6);
}

static unsigned int seed = 1;
static unsigned int draw(unsigned int below) {
    seed ^= seed << 13;
    seed ^= seed >> 17;
    seed ^= seed << 5;
    return (seed >> 8) % below;
}
