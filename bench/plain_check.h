/* The check value in plain C, by the two printed nibble tables. */
static const unsigned short LOW[16] = {0x0000, 0xC0C1, 0xC181, 0x0140, 0xC301, 0x03C0, 0x0280, 0xC241,
                                       0xC601, 0x06C0, 0x0780, 0xC741, 0x0500, 0xC5C1, 0xC481, 0x0440};
static const unsigned short HIGH[16] = {0x0000, 0xCC01, 0xD801, 0x1400, 0xF001, 0x3C00, 0x2800, 0xE401,
                                        0xA001, 0x6C00, 0x7800, 0xB401, 0x5000, 0x9C01, 0x8801, 0x4400};

static unsigned short plain_check(const unsigned char *s, unsigned long n) {
    unsigned short v = 0xFFFF;
    for (unsigned long i = 0; i < n; i++) {
        unsigned short x = v ^ s[i];
        v = (x >> 8) ^ LOW[x & 15] ^ HIGH[(x >> 4) & 15];
    }
    return v;
}
