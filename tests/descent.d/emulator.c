// emulator ROPE SCRIPT LIMIT [memory]: runs a rope with a script up to a cycle and prints what `agc ROPE SCRIPT --limit LIMIT
// --log` prints. With `memory` a line with the registers follows, then one for each of the erasable cells. It was written from
// docs/SPECIFICATION.md alone and shares no code with agc.
//
// It takes the classic form of a rope, and ends with status 3 at a faulty line of a script.
#include <stdarg.h>
#include <stdint.h>
#include <stdio.h>
#include <stdlib.h>
#include <string.h>

typedef uint16_t word; // 15 bits if it is narrow, 16 if it is wide

enum { A, L, Q, EB, FB, Z, BB };
enum { ZRUPT = 015, BRUPT = 017, CYR = 020, SR, CYL, EDOP, TIME2 = 024, TIME1, TIME3, TIME4, TIME5, TIME6, INLINK = 045 };
enum { T6RUPT = 1, T5RUPT, T3RUPT, T4RUPT, KEYRUPT1, UPRUPT = 7 };
enum { BANKS = 044, CELLS = 2048 };

static word fixed[BANKS][1024], cells[CELLS], channels[01000];
static word a, l, q, eb, fb, z, in_hand;
static int is_extra, is_inhibited, is_serving, is_held; // is_held: the last order was EXTEND or INDEX
static unsigned requested;                              // interrupts, by their numbers
static uint64_t cycle, begun;                           // begun: the cycle at which the boundary began
static uint64_t periods;                                // of TIME6: those that count as taken
static const char *stopped;

static void end(const char *form, ...) {
    va_list words;
    va_start(words, form);
    vfprintf(stderr, form, words);
    va_end(words);
    fputc('\n', stderr);
    exit(3);
}

// Words

static word wide(word narrow) { return narrow | (narrow & 040000) << 1; }
static word corrected(word wide) { return (wide & 0100000) >> 1 | (wide & 037777); }
static word negated(word wide) { return ~wide; }
static int is_minus(word wide) { return wide >> 15; }
static int is_zero(word wide) { return wide == 0 || wide == 0177777; }
static int value(word wide) { return is_minus(wide) ? -(int)negated(wide) : wide; }
static word of_value(int value) { return value < 0 ? negated(-value) : value; }
// 1 or -1 for an overflow, or 0
static int overflow(word wide) { return wide >> 14 == 1 ? 1 : wide >> 14 == 2 ? -1 : 0; }

static word sum(word one, word other) {
    uint32_t both = (uint32_t)one + other;
    return both > 0177777 ? both - 0177777 : both;
}

// One step towards zero for a number that is not a zero
static word nearer_zero(word wide) {
    return abs(value(wide)) == 1 ? 0177777 : sum(wide, of_value(is_minus(wide) ? 1 : -1));
}

// A narrow word of a magnitude and a sign
static word with_sign(long magnitude, int minus) { return minus ? ~magnitude & 077777 : magnitude; }

// Memory

// The place of an erasable address among all cells
static int place(int address) { return address < 01400 ? address : (eb & 03400) | (address & 0377); }
static int is_erasable(int address) { return address < 02000; }
static int is_wide(int address) { return is_erasable(address) && (place(address) == A || place(address) == Q); }
static int edits(int address) { return is_erasable(address) && place(address) >= CYR && place(address) <= EDOP; }

static word fixed_word(int address) {
    int bank = address < 04000 ? fb >> 10 : address < 06000 ? 2 : 3;
    if (address < 04000 && bank >= 030 && channels[7] & 0100) bank += 010;
    return bank < BANKS ? wide(fixed[bank][address & 01777]) : 0;
}

static word get(int address) {
    if (!is_erasable(address)) return fixed_word(address);
    switch (place(address)) {
    case A: return a;
    case L: return wide(l);
    case Q: return q;
    case EB: return wide(eb);
    case FB: return wide(fb);
    case Z: return wide(z);
    case BB: return wide(fb | eb >> 8);
    case 7: return 0;
    }
    return wide(cells[place(address)]);
}

static word edited(int cell, word narrow) {
    switch (cell) {
    case CYR: return narrow >> 1 | (narrow & 1) << 14;
    case SR: return narrow >> 1 | (narrow & 040000);
    case CYL: return (narrow << 1 & 077777) | narrow >> 14;
    case EDOP: return narrow >> 7 & 0177;
    }
    return narrow;
}

static void put(int address, word wide) {
    if (!is_erasable(address)) return;
    word narrow = corrected(wide);
    switch (place(address)) {
    case A: a = wide; return;
    case L: l = narrow; return;
    case Q: q = wide; return;
    case EB: eb = narrow & 03400; return;
    case FB: fb = narrow & 076000; return;
    case Z: z = narrow & 07777; return;
    case BB: fb = narrow & 076000, eb = (narrow & 7) << 8; return;
    case 7: return;
    }
    cells[place(address)] = edited(place(address), narrow);
}

// Reads, and edits once more what is read from an editing register.
static word get_again(int address) {
    word found = get(address);
    if (edits(address)) put(address, found);
    return found;
}

static void exchange(int address, word *wide_register) {
    word mine = *wide_register;
    *wide_register = get(address);
    put(address, mine);
}

static void exchange_l(int address) {
    word found = get(address);
    put(address, wide(l));
    l = corrected(found);
}

static void fetch(void) {
    in_hand = corrected(get(z));
    z = (z + 1) & 07777;
}

static void skip(int words) { z = (z + words) & 07777; }

// Channels, the display and the log

static struct write {
    uint64_t cycle;
    int channel, word;
} *writes;
static size_t count, room;
static word rows[16], lamps;

static word channel(int number) {
    switch (number) {
    case 1: return wide(l);
    case 2: return q;
    case 3: return 12 * begun / 320 >> 14 & 037777;
    case 4: return 12 * begun / 320 & 037777;
    }
    return wide(channels[number]);
}

// Gives a channel from 5 on its word. If that turns TIME6's switch on, the periods that had ended by then are over.
static void keep(int number, word narrow) {
    if (number == 013 && narrow & ~channels[013] & 040000) periods = 12 * begun / 640;
    channels[number] = number == 7 ? narrow & 0160 : narrow;
}

static void set_channel(int number, word wide) {
    word narrow = corrected(wide);
    if (number == 1) l = narrow;
    if (number == 2) q = wide;
    if (number < 5) return;
    keep(number, narrow);
    if (number == 010) rows[narrow >> 11] = narrow & 03777;
    if (number == 011) lamps = narrow;
    if (count == room) writes = realloc(writes, (room = 2 * room + 4096) * sizeof *writes);
    if (!writes) end("out of memory");
    writes[count++] = (struct write){begun, number, channels[number]};
}

// Orders. Each begins with the cycles that it takes.

static void double_add(int lower, int upper) {
    cycle += 3;
    word low = sum(wide(l), get(lower));
    put(lower, wide(corrected(low)));
    word high = sum(sum(a, get(upper)), overflow(low) ? of_value(overflow(low)) : 0);
    if (lower == 1) {
        a = high;
        return;
    }
    put(upper, wide(corrected(high)));
    l = 0;
    a = of_value(overflow(high));
}

static void double_exchange(int lower, int upper) {
    cycle += 3;
    exchange_l(lower);
    exchange(upper, &a);
}

static void load_double(int lower, int upper, word flip) {
    cycle += 3;
    l = corrected(get_again(lower) ^ flip);
    a = get_again(upper) ^ flip;
}

static void store(int address) {
    cycle += 2;
    word mine = a;
    int over = overflow(a);
    if (over) skip(1);
    if (is_erasable(address) && place(address) == A) return;
    if (over) a = of_value(over);
    put(address, mine);
}

static void count_compare(int address) {
    cycle += 2;
    word found = get_again(address);
    int magnitude = abs(value(found));
    skip(found == 0 ? 1 : found == 0177777 ? 3 : is_minus(found) ? 2 : 0);
    a = magnitude ? magnitude - 1 : 0;
}

static void mask(int address) {
    cycle += 2;
    word found = get(address);
    a = is_wide(address) ? a & found : wide(corrected(a) & corrected(found));
}

static void jump_with_return(int address) {
    cycle += 1;
    word found = corrected(get(address));
    q = wide(z);
    z = (address + 1) & 07777;
    in_hand = found;
}

static void jump(int address) {
    cycle += 1;
    z = address;
}

static void jump_if(int holds, int address) {
    if (holds) jump(address);
    else cycle += 2;
}

static void index_next(int address) {
    cycle += 2;
    word found = get_again(address);
    in_hand = corrected(sum(get(z), found));
    skip(1);
    is_held = 1;
}

static void resume(void) {
    cycle += 2;
    is_serving = 0;
    z = cells[ZRUPT] & 07777;
    in_hand = cells[BRUPT];
}

static void multiply(int address) {
    cycle += 3;
    word first = wide(corrected(a)), second = wide(corrected(get(address)));
    long product = (long)abs(value(first)) * abs(value(second));
    int minus = is_minus(first) != is_minus(second);
    a = is_zero(second) ? 0 : wide(with_sign(product >> 14, minus));
    l = is_zero(second) ? 0 : with_sign(product & 037777, minus);
}

static void divide(int address) {
    word upper = wide(corrected(a)), divisor = wide(corrected(get(address)));
    long dividend = 16384L * value(upper) + value(wide(l)), magnitude = labs(dividend), by = abs(value(divisor));
    if (!by || magnitude > 16384 * by) {
        stopped = "DivisionUndefined";
        return;
    }
    cycle += 6;
    int minus = is_zero(upper) ? l >> 14 : is_minus(upper), is_equal = magnitude == 16384 * by;
    a = wide(with_sign(is_equal ? 037777 : magnitude / by, minus != is_minus(divisor)));
    l = with_sign(is_equal ? by : magnitude % by, minus);
}

static void subtract_angle(int address) {
    cycle += 2;
    int difference = (corrected(a) - corrected(get_again(address))) & 077777;
    a = of_value(difference < 16384 ? difference : difference - 32768);
}

static void augment(int address) {
    cycle += 2;
    word found = get(address);
    put(address, sum(found, of_value(is_minus(found) ? -1 : 1)));
}

static void diminish(int address) {
    cycle += 2;
    word found = get(address);
    if (is_zero(found)) return;
    put(address, nearer_zero(found));
}

static void input_output(int kind, int number) {
    cycle += 2;
    word mine = number == 2 ? a : wide(corrected(a)), found = channel(number);
    switch (kind) {
    case 0: a = found; return;
    case 1: set_channel(number, a); return;
    case 2: case 3: a = mine & found; break;
    case 4: case 5: a = mine | found; break;
    case 6: a = mine ^ found; break;
    case 7: stopped = "Edrupt", cycle -= 2; return;
    }
    if (kind % 2) set_channel(number, a);
}

static void erasable_order(int code, int quarter, int k) {
    int upper = (k - 1) & 01777;
    if (code == 2) switch (quarter) {
        case 0: double_add(k, upper); return;
        case 1: cycle += 2, exchange_l(k); return;
        case 2: cycle += 2, put(k, sum(get(k), 1)); return;
        case 3: cycle += 2, a = sum(a, get(k)), put(k, a); return;
    }
    switch (quarter) {
    case 1: double_exchange(k, upper); return;
    case 2: store(k); return;
    case 3: cycle += 2, exchange(k, &a); return;
    }
}

static void basic(word order) {
    int code = order >> 12, quarter = order >> 10 & 3, k = order & 07777, short_k = order & 01777;
    if (order == 3 || order == 4 || order == 6) {
        cycle += 1;
        if (order == 6) is_extra = is_held = 1;
        else is_inhibited = order == 4;
    } else switch (code) {
        case 0: jump_with_return(k); return;
        case 1: if (quarter) jump(k); else count_compare(short_k); break;
        case 3: cycle += 2, a = get_again(k); break;
        case 4: cycle += 2, a = negated(get_again(k)); break;
        case 6: cycle += 2, a = sum(a, get_again(k)); break;
        case 7: mask(k); break;
        default:
            if (order == 050017) { resume(); return; }
            if (code == 5 && !quarter) { index_next(short_k); return; }
            erasable_order(code, quarter, short_k);
        }
    fetch();
}

static void extra(word order) {
    int code = order >> 12, quarter = order >> 10 & 3, k = order & 07777, short_k = order & 01777;
    switch (code) {
    case 0: input_output(order >> 9 & 7, order & 0777); break;
    case 1: if (quarter) jump_if(is_zero(a), k); else divide(short_k); break;
    case 2:
        if (quarter == 0) subtract_angle(short_k);
        if (quarter == 1) cycle += 2, exchange(short_k, &q);
        if (quarter == 2) augment(short_k);
        if (quarter == 3) diminish(short_k);
        break;
    case 3: load_double(k, (k - 1) & 07777, 0); break;
    case 4: load_double(k, (k - 1) & 07777, 0177777); break;
    case 5: index_next(k), is_extra = 1; return;
    case 6: if (quarter) jump_if(is_minus(a) || a == 0, k); else cycle += 2, a = sum(a, negated(get_again(short_k))); break;
    case 7: multiply(k); break;
    }
    if (!stopped) fetch();
}

static void run_order(void) {
    int extracode = is_extra;
    is_extra = is_held = 0;
    if (extracode) extra(in_hand);
    else basic(in_hand);
}

// Timers, interrupts and the boundary

static struct timer { int cell, interrupt; uint64_t due; } timers[] = {
    {TIME1, 0, 10240}, {TIME3, T3RUPT, 10240}, {TIME4, T4RUPT, 7680}, {TIME5, T5RUPT, 5120},
};

// Adds one to a counter and returns whether it carries. It costs a cycle.
static int count_up(int cell) {
    word more = sum(wide(cells[cell]), 1);
    cells[cell] = corrected(more);
    cycle += 1;
    return overflow(more) > 0;
}

// TIME6 counts down to a zero, which the next step finds.
static void step_time6(void) {
    word now = wide(cells[TIME6]);
    cycle += 1;
    periods += 1;
    if (is_zero(now)) requested |= 1u << T6RUPT, channels[013] &= 037777;
    else cells[TIME6] = corrected(nearer_zero(now));
}

static int step_timer(void) {
    for (struct timer *timer = timers; timer < timers + 4; timer++) {
        if (12 * cycle < timer->due) continue;
        timer->due += 10240;
        if (count_up(timer->cell)) {
            if (timer->interrupt) requested |= 1u << timer->interrupt;
            else count_up(TIME2);
        }
        return 1;
    }
    if (!(channels[013] & 040000) || 12 * cycle / 640 <= periods) return 0;
    step_time6();
    return 1;
}

static int interrupt(void) {
    if (!requested || is_serving || is_inhibited || is_held || overflow(a)) return 0;
    int number = 1;
    while (!(requested >> number & 1)) number++;
    requested &= ~(1u << number);
    cells[ZRUPT] = z;
    cells[BRUPT] = in_hand;
    z = 04000 + 4 * number;
    is_serving = 1;
    cycle += 3;
    fetch();
    return 1;
}

// Events

static struct event { uint64_t cycle; size_t line; char text[64]; } *events;
static size_t known, space, next;

static int octal(const char *text) { return strtol(text, NULL, 8); }

static int code_of(const char *key) {
    static const char *names[] = {"VERB", "RSET", "KEYREL", "+", "-", "ENTR", "CLR", "NOUN"};
    static const int codes[] = {021, 022, 031, 032, 033, 034, 036, 037};
    if (key[0] == '0' && !key[1]) return 020;
    if (key[0] >= '1' && key[0] <= '9' && !key[1]) return key[0] - '0';
    for (int i = 0; i < 8; i++)
        if (!strcmp(names[i], key)) return codes[i];
    end("no key: %s", key);
    return 0;
}

static void shift(int cell, int digit) {
    int carries = cells[cell] >> 14;
    cells[cell] = (cells[cell] << 1 & 077777) | digit;
    if (carries && cell == INLINK) requested |= 1u << UPRUPT;
}

static void pulse(int cell, const char *kind) {
    word now = cells[cell];
    if (!strcmp(kind, "pinc")) cells[cell] = corrected(sum(wide(now), 1));
    else if (!strcmp(kind, "minc")) cells[cell] = corrected(sum(wide(now), of_value(-1)));
    else if (!strcmp(kind, "pcdu")) cells[cell] = (now + 1) & 077777;
    else if (!strcmp(kind, "mcdu")) cells[cell] = (now - 1) & 077777;
    else if (!strcmp(kind, "shinc")) shift(cell, 0);
    else if (!strcmp(kind, "shanc")) shift(cell, 1);
    else end("no pulse: %s", kind);
    cycle += 1;
}

static void happen(const char *text) {
    char does[16] = "", one[16] = "", two[16] = "", three[16] = "";
    sscanf(text, "%15s %15s %15s %15s", does, one, two, three);
    if (!strcmp(does, "key")) channels[015] = code_of(one), requested |= 1u << KEYRUPT1;
    else if (!strcmp(does, "pro")) channels[032] = (channels[032] & ~020000) | (strcmp(one, "up") ? 0 : 020000);
    else if (!strcmp(does, "input")) keep(octal(one), octal(two));
    else if (!strcmp(does, "pulse")) pulse(octal(one), two);
    else if (!strcmp(does, "raise")) requested |= 1u << atoi(one);
    else if (!strcmp(does, "poke")) cells[octal(one) << 8 | octal(two)] = octal(three);
    else end("no event: %s", text);
}

static int by_cycle(const void *one, const void *other) {
    const struct event *mine = one, *yours = other;
    if (mine->cycle != yours->cycle) return mine->cycle < yours->cycle ? -1 : 1;
    return mine->line < yours->line ? -1 : mine->line > yours->line;
}

static void read_script(const char *name) {
    FILE *file = fopen(name, "r");
    char line[128], text[64];
    unsigned long each, from, to;
    if (!file) end("cannot read %s", name);
    for (size_t number = 0; fgets(line, sizeof line, file); number++) {
        if (line[0] == '#' || line[0] == '\n') continue;
        if (sscanf(line, "every %lu %lu %lu %63[^\n]", &each, &from, &to, text) != 4) {
            if (sscanf(line, "%lu %63[^\n]", &from, text) != 2) end("no event: %s", line);
            each = 1, to = from;
        }
        for (unsigned long at = from; at <= to; at += each) {
            if (known == space) events = realloc(events, (space = 2 * space + 4096) * sizeof *events);
            if (!events) end("out of memory");
            events[known] = (struct event){at, number, ""};
            strcpy(events[known++].text, text);
        }
    }
    fclose(file);
    if (known) qsort(events, known, sizeof *events, by_cycle);
}

static void run(uint64_t limit) {
    while (!stopped) {
        begun = cycle;
        if (cycle >= limit) stopped = "Limit";
        else if (next < known && cycle >= events[next].cycle) happen(events[next++].text);
        else if (!step_timer() && !interrupt()) run_order();
    }
}

// Beginning and end

static void read_rope(const char *name) {
    static const int first[] = {2, 3, 0, 1};
    FILE *file = fopen(name, "rb");
    if (!file) end("cannot read %s", name);
    for (int n = 0, high, low; n < BANKS * 1024 && (high = getc(file)) != EOF && (low = getc(file)) != EOF; n++)
        fixed[n < 4096 ? first[n / 1024] : n / 1024][n % 1024] = (high << 8 | low) >> 1;
    fclose(file);
    channels[030] = 037777;
    channels[031] = channels[032] = channels[033] = 077777;
    in_hand = fixed[2][0];
    z = 04001;
}

static char digit(int code) {
    static const int codes[] = {0, 025, 3, 031, 033, 017, 036, 034, 023, 035, 037};
    for (int i = 0; i < 11; i++)
        if (codes[i] == (code & 037)) return "_0123456789"[i];
    return '?';
}

static char left(int row) { return digit(rows[row] >> 5); }
static char right(int row) { return digit(rows[row]); }
static char sign(int plus, int minus) { return rows[plus] & 02000 ? '+' : rows[minus] & 02000 ? '-' : '_'; }

static void print_panel(void) {
    static const struct { const char *name; int row, bit; } all[] = {
        {"COMP ACTY", 0, 2}, {"UPLINK ACTY", 0, 3}, {"NO ATT", 12, 4}, {"TEMP", 0, 4}, {"GIMBAL LOCK", 12, 6}, {"PROG", 12, 9},
        {"KEY REL", 0, 5}, {"OPR ERR", 0, 7}, {"TRACKER", 12, 8}, {"ALT", 12, 5}, {"VEL", 12, 3}, {"ISS", 0, 1},
    };
    printf("PROG %c%c\nVERB %c%c\nNOUN %c%c\n", left(11), right(11), left(10), right(10), left(9), right(9));
    printf("R1 %c%c%c%c%c%c\n", sign(7, 6), right(8), left(7), right(7), left(6), right(6));
    printf("R2 %c%c%c%c%c%c\n", sign(5, 4), left(5), right(5), left(4), right(4), left(3));
    printf("R3 %c%c%c%c%c%c\n", sign(2, 1), right(3), left(2), right(2), left(1), right(1));
    printf("FLASH %s\nLAMPS", lamps & 040 ? "on" : "off");
    const char *before = " ";
    for (int i = 0; i < 12; i++) {
        if (!((all[i].row ? rows[12] : lamps) >> (all[i].bit - 1) & 1)) continue;
        printf("%s%s", before, all[i].name);
        before = ", ";
    }
    puts(*before == ' ' ? " none" : "");
}

static void print_memory(void) {
    printf("A %06o L %05o Q %06o Z %04o EB %o FB %02o BB %05o\n", a, l, q, z, eb >> 8, fb >> 10, fb | eb >> 8);
    for (int cell = 0; cell < CELLS; cell++)
        printf("%05o\n", cell < 010 ? corrected(get(cell)) : cells[cell]);
}

int main(int words, char **word_of) {
    if (words != 4 && (words != 5 || strcmp(word_of[4], "memory"))) end("emulator ROPE SCRIPT LIMIT [memory]");
    read_rope(word_of[1]);
    read_script(word_of[2]);
    run(strtoull(word_of[3], NULL, 10));
    print_panel();
    printf("STOP %s CYCLE %lu WRITES %zu\n", stopped, (unsigned long)cycle, count);
    for (size_t i = 0; i < count; i++)
        printf("%lu %03o %05o\n", (unsigned long)writes[i].cycle, writes[i].channel, writes[i].word);
    if (words == 5) print_memory();
    return 0;
}
