/* The check value in plain C, by the formula of the proved code: a byte a turn, and two bytes a turn, as the proved code goes. */
static unsigned short plain_byte(unsigned short v, unsigned char b) {
    unsigned x = (v ^ b) & 255;
    return (unsigned short)(v >> 8 ^ x << 6 ^ x << 7 ^ __builtin_parity(x) * 0xC001);
}

static unsigned short plain_formula(const unsigned char *s, unsigned long n) {
    unsigned short v = 0xFFFF;
    for (unsigned long i = 0; i < n; i++) v = plain_byte(v, s[i]);
    return v;
}

static unsigned short plain_formula_by_two(const unsigned char *s, unsigned long n) {
    unsigned short v = 0xFFFF;
    unsigned long i = 0;
    for (; i + 1 < n; i += 2) {
        unsigned short x = (unsigned short)(v ^ (s[i + 1] << 8 | s[i])), high = x >> 2, low = (unsigned short)(x << 14);
        v = (unsigned short)(high ^ high << 1 ^ low ^ low >> 2 ^ __builtin_parity(x) * 0xC001);
    }
    return i < n ? plain_byte(v, s[i]) : v;
}
