/* The trace program of 01, with the trend curves, the scale sheets and the clock of 02, as one would write it in plain C: state in place, a lookup for
   hex, reads and writes of 64 KiB. It prints what the proved program prints, and is what bench/trace/run measures that against. The reader of the line
   is bench/line/plain.h. No headers: the kit's clang has none. */
#include "../line/plain.h"

typedef unsigned char u8;
typedef unsigned short u16;

long read(int, void *, unsigned long);
long write(int, const void *, unsigned long);
void *memcpy(void *, const void *, unsigned long);
int memcmp(const void *, const void *, unsigned long);

enum { WORDS = 28672, CHANNELS = 8, CHANNEL = 1024, RECORD = 32, MOST_RECORDS = 128, CHUNK = 1 << 16 };
enum { KEY = 0xFE05, STEP = 0xFE02, SLIDER = 0xFE03 };
enum { BACKLIGHT = 1, BUZZER = 2, PAGE = 3, FLAG = 5, STATUS = 6, PLACE = 7, ENABLE = 0x0B, CLOCK = 0x1F, CLEAR = 0xEB };
enum { YEAR = CLOCK + 1, MONTH, DAY, WEEKDAY, HOUR, MINUTE, SECOND, CLOCK_END };

static struct { u8 h1, h2, flags; unsigned pages, width, height; } setup;
static int checking, acknowledging, revised, has_setup, has_started, has_caught;
static u8 table[(MOST_RECORDS + 1) * RECORD], caught[RECORD], registers[256];
static unsigned long records;
static u16 words[WORDS];
u16 curves[CHANNELS * CHANNEL]; /* not static: no line shows it, and yet it is kept */
static unsigned counts[CHANNELS];
static plain_reader reader;

static unsigned word_at(const u8 *b, unsigned at) { return b[at] * 256u + b[at + 1]; }
static int signed_at(const u8 *b, unsigned at) { return (short)word_at(b, at); }

/* ---- Printing */

static u8 out[CHUNK];
static unsigned long used;

static void flush(void) {
    unsigned long at = 0;
    while (at < used) {
        long n = write(1, out + at, used - at);
        if (n <= 0) break;
        at += n;
    }
    used = 0;
}

static void put(u8 c) { out[used++] = c; }

static void put_hex(u8 b) {
    put("0123456789ABCDEF"[b >> 4]);
    put("0123456789ABCDEF"[b & 15]);
}

static void put_number(unsigned long n) {
    if (n >= 10) put_number(n / 10);
    put('0' + n % 10);
}

/* Room for a line, which has at most 2 + 3 * 258 bytes. */
static void begin_line(u8 letter) {
    if (used + 1024 > CHUNK) flush();
    put(letter);
    put(' ');
}

static void put_frame(const u8 *f, unsigned long n) {
    begin_line('O');
    for (unsigned long i = 0; i < n; i++) {
        if (i) put(' ');
        put_hex(f[i]);
    }
    put('\n');
}

static void put_touched(unsigned number) {
    begin_line('T');
    put_number(number);
    put('\n');
}

/* ---- Frames */

/* Encloses the content that stands at f + 3, command and data, n bytes; the answer is the frame's length. */
static unsigned long enclose(u8 *f, unsigned long n) {
    f[0] = setup.h1;
    f[1] = setup.h2;
    f[2] = (u8)(n + (checking ? 2 : 0));
    if (!checking) return 3 + n;
    u16 v = plain_check(f + 3, n);
    f[3 + n] = v & 255;
    f[4 + n] = v >> 8;
    return 5 + n;
}

static void acknowledge(u8 command, u8 verdict) {
    u8 f[8];
    unsigned long n;
    if (!checking || !acknowledging) return;
    f[3] = command;
    f[4] = verdict;
    n = enclose(f, 2);
    f[2] = 2;
    put_frame(f, n);
}

/* ---- Clock: the registers are all that is kept of it */

static unsigned number_of(u8 digits) { return (digits >> 4) * 10u + (digits & 15); }
static int is_number(u8 digits, unsigned least, unsigned greatest) {
    return digits >> 4 <= 9 && (digits & 15) <= 9 && number_of(digits) >= least && number_of(digits) <= greatest;
}

/* The year's two digits are enough: of 2000 to 2099 every fourth is a leap year. */
static unsigned days_of(u8 year, u8 month) {
    static const u8 DAYS[12] = {31, 28, 31, 30, 31, 30, 31, 31, 30, 31, 30, 31};
    return DAYS[number_of(month) - 1] + (month == 0x02 && number_of(year) % 4 == 0);
}

/* Sakamoto's rule, Sunday 0. */
static u8 weekday_of(unsigned year, unsigned month, unsigned day) {
    static const u8 MOVED[12] = {0, 3, 2, 5, 0, 3, 5, 1, 4, 6, 2, 4};
    if (month < 3) year--;
    return (u8)((year + year / 4 - year / 100 + year / 400 + MOVED[month - 1] + day) % 7);
}

static unsigned judge_setting(const u8 *data) {
    u8 year = data[YEAR - CLOCK], month = data[MONTH - CLOCK];
    if (data[0] != 0x5A || !is_number(year, 0, 99) || !is_number(month, 1, 12) || !is_number(data[DAY - CLOCK], 1, days_of(year, month))) return 6;
    return is_number(data[HOUR - CLOCK], 0, 23) && is_number(data[MINUTE - CLOCK], 0, 59) && is_number(data[SECOND - CLOCK], 0, 59) ? 0 : 6;
}

static void set_clock(void) {
    registers[CLOCK] = 0;
    registers[WEEKDAY] = weekday_of(2000 + number_of(registers[YEAR]), number_of(registers[MONTH]), number_of(registers[DAY]));
}

/* One more, and 1 where that was past the greatest and is the least again. */
static int carried(unsigned field, unsigned least, unsigned greatest) {
    unsigned n = number_of(registers[field]) + 1, over = n > greatest;
    if (over) n = least;
    registers[field] = (u8)(n / 10 << 4 | n % 10);
    return over;
}

static void second(void) {
    unsigned days = days_of(registers[YEAR], registers[MONTH]);
    if (!carried(SECOND, 0, 59) || !carried(MINUTE, 0, 59) || !carried(HOUR, 0, 23)) return;
    if (carried(DAY, 1, days) && carried(MONTH, 1, 12)) carried(YEAR, 0, 99);
    set_clock();
}

/* ---- Commands */

static int is_writable(unsigned r) { return (r >= BACKLIGHT && r <= FLAG) || r == ENABLE || r == CLEAR || (r >= CLOCK && r < CLOCK_END); }

static unsigned judge_register_write(unsigned address, const u8 *data, unsigned n) {
    int high = address <= PAGE && PAGE < address + n, low = address <= PAGE + 1 && PAGE + 1 < address + n;
    for (unsigned i = 0; i < n; i++)
        if (!is_writable(address + i)) return 5;
    if (high != low) return 5;
    if (address < CLOCK_END && address + n > CLOCK) return address != CLOCK || n != CLOCK_END - CLOCK ? 5 : judge_setting(data);
    if (address <= BACKLIGHT && BACKLIGHT < address + n && data[BACKLIGHT - address] > 0x3F) return 6;
    if (high && word_at(data, PAGE - address) >= setup.pages) return 6;
    if (address <= CLEAR && CLEAR < address + n && (data[CLEAR - address] < 0x55 || data[CLEAR - address] > 0x5D)) return 6;
    return 0;
}

static unsigned named_by(u8 mode) {
    unsigned size = 0;
    for (unsigned channel = 0; channel < CHANNELS; channel++) size += mode >> channel & 1;
    return size;
}

static unsigned judge_rounds(const u8 *data, unsigned n) {
    unsigned size = n ? named_by(data[0]) : 0;
    return !size || n == 1 || (n - 1) % (2 * size) ? 3 : 0;
}

static unsigned judge_command(u8 command, const u8 *data, unsigned n) {
    unsigned address, count, item = command & 2 ? 2 : 1, over = checking ? 3 : 1;
    if (command < 0x80 || command > 0x84) return 2;
    if (command == 0x84) return judge_rounds(data, n);
    if (command == 0x80 ? n < 2 : command == 0x81 ? n != 2 : command == 0x82 ? n < 4 || n % 2 : n != 3) return 3;
    address = item == 1 ? data[0] : word_at(data, 0);
    count = command & 1 ? data[n - 1] : (n - item) / item;
    if (address + count > (item == 1 ? 256u : WORDS)) return 4;
    if (command == 0x80) return judge_register_write(address, data + 1, count);
    if (command & 1 && over + n + count * item > 255) return 7;
    return 0;
}

static void write_registers(const u8 *data, unsigned n) {
    memcpy(registers + data[0], data + 1, n - 1);
    if (data[0] == CLOCK) set_clock();
    if (data[0] <= PAGE && PAGE < data[0] + n - 1) has_caught = 0;
    if (data[0] > CLEAR || CLEAR >= data[0] + n - 1) return;
    for (unsigned channel = 0; channel < CHANNELS; channel++)
        if (registers[CLEAR] == 0x55 || registers[CLEAR] == 0x56 + channel) counts[channel] = 0;
    registers[CLEAR] = 0;
}

static void write_words(const u8 *data, unsigned n) {
    u16 *to = words + word_at(data, 0);
    for (unsigned i = 2; i < n; i += 2) *to++ = (u16)word_at(data, i);
}

/* Adds the numbers at one place of the rounds to a channel, which moves down once where it is too full for them. */
static void add_numbers(unsigned channel, const u8 *numbers, unsigned rounds, unsigned size) {
    u16 *part = curves + channel * CHANNEL;
    unsigned has = counts[channel], gone = has + rounds > CHANNEL ? has + rounds - CHANNEL : 0;
    memmove(part, part + gone, (has - gone) * sizeof *part);
    part += has - gone;
    for (unsigned i = 0; i < rounds; i++) part[i] = (u16)word_at(numbers, 2 * size * i);
    counts[channel] = has - gone + rounds;
}

static void add_rounds(const u8 *data, unsigned n) {
    unsigned size = named_by(data[0]), place = 0;
    for (unsigned channel = 0; channel < CHANNELS; channel++)
        if (data[0] >> channel & 1) add_numbers(channel, data + 1 + 2 * place++, (n - 1) / (2 * size), size);
}

static void reply(u8 command, const u8 *data, unsigned n) {
    u8 f[260];
    unsigned long length = 1 + n;
    f[3] = command;
    memcpy(f + 4, data, n);
    if (command == 0x81) {
        memcpy(f + 3 + length, registers + data[0], data[1]);
        length += data[1];
    } else {
        const u16 *from = words + word_at(data, 0);
        for (unsigned i = 0; i < data[2]; i++) {
            f[3 + length++] = from[i] >> 8;
            f[3 + length++] = from[i] & 255;
        }
    }
    put_frame(f, enclose(f, length));
}

static void accepted(const plain_report *p) {
    unsigned number = judge_command(p->command, p->data, p->len);
    begin_line('F');
    put_hex(p->command);
    put(' ');
    put_number(number);
    put('\n');
    acknowledge(p->command, 0xFF);
    if (number) return;
    if (p->command == 0x80)
        write_registers(p->data, p->len);
    else if (p->command == 0x82)
        write_words(p->data, p->len);
    else if (p->command == 0x84)
        add_rounds(p->data, p->len);
    else
        reply(p->command, p->data, p->len);
}

static void ask_all(void) {
    plain_report p;
    while (plain_waits(&reader)) {
        if (plain_ask(&reader, &p) == GOOD) {
            accepted(&p);
        } else {
            begin_line('B');
            put_hex(p.command);
            put('\n');
            acknowledge(p.command, 0x00);
        }
    }
}

/* ---- Touch records */

static int holds(const u8 *b, unsigned x, unsigned y) { return word_at(b, 2) <= x && x <= word_at(b, 6) && word_at(b, 4) <= y && y <= word_at(b, 8); }
static int has_next(const u8 *b) { return b[0x0A] != 0xFF; }
static int is_byte(const u8 *b, unsigned at) { return b[at] == 0; }

static int is_good_step(const u8 *b) {
    if (b[0x13] > 2 || !word_at(b, 0x16) || word_at(b, 0x16) > 32767 || b[0x1C] != 1) return 0;
    if (b[0x13] && !(is_byte(b, 0x18) && is_byte(b, 0x1A))) return 0;
    return signed_at(b, 0x18) <= signed_at(b, 0x1A);
}

static int is_good_slider(const u8 *b) {
    u8 part = b[0x13] >> 4, axis = b[0x13] & 15;
    if (part > 2 || axis > 1 || has_next(b) || memcmp(b + 0x14, b + 2, 8)) return 0;
    if (part && !(is_byte(b, 0x1C) && is_byte(b, 0x1E))) return 0;
    return axis ? word_at(b, 8) > word_at(b, 4) : word_at(b, 6) > word_at(b, 2);
}

static int is_good_record(const u8 *b) {
    unsigned code = word_at(b, 0x0E);
    if (word_at(b, 0) >= setup.pages || (has_next(b) && word_at(b, 0x0A) >= setup.pages)) return 0;
    if (word_at(b, 2) > word_at(b, 6) || word_at(b, 6) >= setup.width || word_at(b, 4) > word_at(b, 8) || word_at(b, 8) >= setup.height) return 0;
    if (b[0x10] != 0xFE || word_at(b, 0x11) >= WORDS) return 0;
    return code == KEY ? b[0x13] <= 2 : code == STEP ? is_good_step(b) : code == SLIDER ? is_good_slider(b) : 0;
}

static int stepped(const u8 *b, int value) {
    int up = b[0x14] != 0, around = b[0x15] != 0, step = word_at(b, 0x16), least = signed_at(b, 0x18), greatest = signed_at(b, 0x1A);
    int t = up ? value + step : value - step;
    if (t < least) return around && !up ? greatest : least;
    if (t > greatest) return around && up ? least : greatest;
    return t;
}

static int slid(const u8 *b, unsigned x, unsigned y) {
    unsigned axis = b[0x13] & 15, first = word_at(b, axis ? 4 : 2), last = word_at(b, axis ? 8 : 6), at = axis ? y : x;
    int begin = signed_at(b, 0x1C), end = signed_at(b, 0x1E);
    unsigned d = at < first ? 0 : (at > last ? last : at) - first, far = end >= begin ? end - begin : begin - end;
    unsigned w = last - first;
    int moved = (int)(revised ? (2ul * far * d + w) / (2 * w) : (unsigned long)far * d / w);
    return end >= begin ? begin + moved : begin - moved;
}

static void act(const u8 *b, unsigned x, unsigned y) {
    unsigned code = word_at(b, 0x0E), part = code == SLIDER ? b[0x13] >> 4 : b[0x13];
    u16 *w = words + word_at(b, 0x11), old = *w;
    int value = part == 0 ? (short)old : part == 1 ? old >> 8 : old & 255;
    int n = code == KEY ? (int)word_at(b, 0x14) : code == STEP ? stepped(b, value) : slid(b, x, y);
    *w = (u16)(part == 0 ? n : part == 1 ? (n & 255) << 8 | (old & 255) : (old & 0xFF00) | (n & 255));
}

/* ---- Contact and lift */

static void touched(u8 status, unsigned x, unsigned y) {
    registers[STATUS] = status;
    if (registers[FLAG] == 0x5A) return;
    registers[FLAG] = 0x5A;
    registers[PLACE] = x >> 8;
    registers[PLACE + 1] = x & 255;
    registers[PLACE + 2] = y >> 8;
    registers[PLACE + 3] = y & 255;
}

static void press(unsigned x, unsigned y) {
    for (unsigned long i = 0; i < records; i++) {
        const u8 *b = table + i * RECORD;
        if (word_at(b, 0) == 0xFFFF) return;
        if (word_at(b, 0) != word_at(registers, PAGE) || !holds(b, x, y)) continue;
        act(b, x, y);
        if (word_at(b, 0x0E) == SLIDER) {
            has_caught = 1;
            memcpy(caught, b, RECORD);
        }
        if (has_next(b)) memcpy(registers + PAGE, b + 0x0A, 2);
        return;
    }
}

static int is_down(void) { return registers[STATUS] == 1 || registers[STATUS] == 3; }

static unsigned contact(unsigned x, unsigned y) {
    if (!registers[ENABLE]) return 9;
    if (x >= setup.width || y >= setup.height) return 8;
    if (is_down()) {
        touched(3, x, y);
        if (has_caught) act(caught, x, y);
    } else {
        touched(1, x, y);
        press(x, y);
    }
    return 0;
}

static unsigned lift(void) {
    if (!is_down()) return 10;
    registers[STATUS] = 2;
    has_caught = 0;
    return 0;
}

/* ---- The trace. A function that ends it answers 0. */

static int fail(unsigned number) {
    begin_line('X');
    put_number(number);
    put('\n');
    return 0;
}

static int fail_record(unsigned long record) {
    begin_line('X');
    put_number(13);
    put(' ');
    put_number(record);
    put('\n');
    return 0;
}

static void set_registers(void) {
    registers[0x00] = 0x10;
    registers[BACKLIGHT] = 0x3F;
    registers[ENABLE] = 0xFF;
    registers[0x12] = checking ? 0x10 : 0;
    registers[0x13] = setup.h1;
    registers[0x1A] = setup.h2;
    registers[0x1C] = acknowledging ? 0x08 : 0;
    registers[MONTH] = registers[DAY] = 1;
    registers[WEEKDAY] = 6;
}

static int start(void) {
    if (has_started) return 1;
    if (setup.flags > 7 || setup.pages - 1 >= 65280 || setup.width - 1 >= 1024 || setup.height - 1 >= 768) return fail(11);
    if (records > MOST_RECORDS) return fail(12);
    for (unsigned long i = 0; i < records && word_at(table, i * RECORD) != 0xFFFF; i++)
        if (!is_good_record(table + i * RECORD)) return fail_record(i);
    set_registers();
    plain_new(&reader, setup.h1, setup.h2, checking);
    return has_started = 1;
}

static void take_setup(const u8 *body) {
    setup.h1 = body[0];
    setup.h2 = body[1];
    setup.flags = body[2];
    setup.pages = word_at(body, 3);
    setup.width = word_at(body, 5);
    setup.height = word_at(body, 7);
    checking = setup.flags & 1;
    acknowledging = setup.flags >> 1 & 1;
    revised = setup.flags >> 2 & 1;
    has_setup = 1;
}

static void take_record(const u8 *body) {
    if (records <= MOST_RECORDS) memcpy(table + records++ * RECORD, body, RECORD);
}

static int take(u8 kind, const u8 *body) {
    if (kind == 0) return take_setup(body), 1;
    if (kind == 5) return take_record(body), 1;
    if (!start()) return 0;
    if (kind == 1) plain_byte(&reader, body[0]);
    if (kind == 2) plain_mark(&reader);
    if (kind == 3) put_touched(contact(word_at(body, 0), word_at(body, 2)));
    if (kind == 4) put_touched(lift());
    if (kind == 6) second();
    ask_all();
    return 1;
}

static const u8 BODIES[7] = {9, 1, 0, 4, 0, 32, 0};

static int run(void) {
    static u8 in[CHUNK], body[RECORD];
    int kind = -1;
    unsigned have = 0;
    long n;
    while ((n = read(0, in, CHUNK)) > 0) {
        for (long i = 0; i < n; i++) {
            if (kind < 0) {
                if (in[i] > 6 || has_setup != (in[i] != 0) || (in[i] == 5 && has_started)) return fail(15);
                kind = in[i];
                have = 0;
            } else {
                body[have++] = in[i];
            }
            if (have < BODIES[kind]) continue;
            if (!take(kind, body)) return 0;
            kind = -1;
        }
        flush();
    }
    if (kind >= 0 || !has_setup) return fail(15);
    if (!start()) return 0;
    begin_line('E');
    put_hex(registers[PAGE]);
    put_hex(registers[PAGE + 1]);
    put('\n');
    return 1;
}

int main(void) {
    run();
    flush();
    return 0;
}
