/*
 * How texts are changed: by lines and fields of frames, with the figures at which the rules turn, and by bytes.
 * libFuzzer calls LLVMFuzzerCustomMutator with a text and a seed.
 */
#include <stdbool.h>
#include <stddef.h>
#include <stdint.h>
#include <string.h>

int64_t plain_margin(const uint8_t *text, size_t text_length, uint8_t *answer, size_t answer_length);
size_t LLVMFuzzerMutate(uint8_t *data, size_t size, size_t max_size);
size_t LLVMFuzzerCustomMutator(uint8_t *data, size_t size, size_t max_size, unsigned seed);

enum { ROOM = 1 << 17, LINES = ROOM / 2, MOST_FIELDS = 5, LONGEST = 96, WHOLE = 100000 };

/* A kind of frame: the widths of its fields in bytes, and for each the figures at which an answer may turn. */
struct Field {
    int width;
    int count;
    uint32_t edges[12];
};

struct Kind {
    uint8_t byte;
    int fields;
    struct Field field[MOST_FIELDS];
};

#define CLASS {1, 6, {0, 1, 2, 63, 64, 255}}
#define RATE {3, 8, {0, 1, 2, 5, 99999, 100000, 100001, 0xFFFFFF}}
#define CHOICE {1, 4, {1, 2, 0, 3}}
#define AMOUNT {8, 3, {0, 1, 0xFFFFFFFF}}

static const struct Kind kinds[] = {
    {'C', 5, {CLASS, CHOICE, RATE, RATE, RATE}},
    {'S', 5, {{1, 4, {0, 1, 2, 255}}, CLASS,
              {4, 9, {0, 1, 2, 10000, 999999, 1000000, 299999999, 300000000, 300000001}},
              {3, 8, {0, 1, 2, 9999, 10000, 199999, 200000, 200001}},
              {4, 11, {0, 1, 499999, 500000, 500001, 999999, 1000000, 1000001, 29999999, 30000000, 30000001}}}},
    {'P', 3, {CLASS, CLASS, RATE}},
    {'B', 3, {{1, 4, {0, 1, 2, 255}}, CHOICE,
              {4, 10, {0, 1, 2, 99999999, 100000000, 100000001, 199999999, 200000000, 200000001, 0xFFFFFFFF}}}},
    {'D', 5, {CLASS, AMOUNT, AMOUNT, AMOUNT, AMOUNT}},
    {'T', 4, {CLASS, {2, 3, {0, 1, 256}}, CLASS, AMOUNT}},
    {'F', 4, {{1, 3, {2, 30, 37}}, CLASS, {4, 2, {0, 1}}, {2, 2, {0, 255}}}},
};
enum { KINDS = sizeof kinds / sizeof kinds[0] };

static uint64_t state;

static uint64_t below(uint64_t n) {
    state ^= state >> 12;
    state ^= state << 25;
    state ^= state >> 27;
    return (state * 0x2545F4914F6CDD1Du >> 16) % n;
}

static bool one_in(uint64_t n) {
    return below(n) == 0;
}

/* The text at work, and where its lines begin; line `count` begins at its end. */
static uint8_t text[ROOM];
static size_t length, limit;
static size_t start[LINES + 1];
static size_t count;

/* What its rows and bookings say, as far as they are of their kind's length. */
static struct {
    bool class_row[256], security_row[256];
    uint8_t kind[256], class_of[256];
    uint32_t y[256], price[256], rate[256];
    int64_t net[256];
    size_t first_booking; /* a line, or `count` */
} seen;

static int digit(uint8_t c) {
    return c >= '0' && c <= '9' ? c - '0' : c >= 'A' && c <= 'F' ? c - 'A' + 10 : 0;
}

static uint32_t field_at(size_t at, int width) {
    uint32_t value = 0;
    for (int i = 0; i < 2 * width; i++) {
        value = value << 4 | (uint32_t)digit(text[at + (size_t)i]);
    }
    return value;
}

static size_t put(uint8_t *to, uint64_t value, int width) {
    for (int i = 2 * width - 1; i >= 0; i--) {
        *to++ = (uint8_t)"0123456789ABCDEF"[i < 16 ? value >> (4 * i) & 15 : 0];
    }
    return (size_t)(2 * width);
}

static size_t digits_of(const struct Kind *kind) {
    size_t digits = 2;
    for (int i = 0; i < kind->fields; i++) {
        digits += (size_t)(2 * kind->field[i].width);
    }
    return digits;
}

static size_t line_length(size_t line) {
    size_t end = start[line + 1];
    return end - start[line] - (end > start[line] && text[end - 1] == '\n');
}

/* The kind of a line that has its kind's length, or NULL. */
static const struct Kind *kind_of(size_t line) {
    for (int i = 0; i < KINDS; i++) {
        if (line_length(line) == digits_of(&kinds[i]) && field_at(start[line], 1) == kinds[i].byte) {
            return &kinds[i];
        }
    }
    return NULL;
}

static void look(void) {
    count = 0;
    for (size_t at = 0; at < length && count < LINES;) {
        start[count++] = at;
        const uint8_t *feed = memchr(text + at, '\n', length - at);
        at = feed == NULL ? length : (size_t)(feed - text) + 1;
    }
    start[count] = length;
    memset(&seen, 0, sizeof seen);
    seen.first_booking = count;
    for (size_t line = 0; line < count; line++) {
        const struct Kind *kind = kind_of(line);
        size_t at = start[line];
        if (kind == NULL) {
            continue;
        }
        uint32_t first = field_at(at + 2, 1), second = field_at(at + 4, 1);
        switch (kind->byte) {
        case 'C':
            seen.class_row[first] = true;
            seen.kind[first] = (uint8_t)second;
            seen.y[first] = field_at(at + 6, 3);
            break;
        case 'S':
            seen.security_row[first] = true;
            seen.class_of[first] = (uint8_t)second;
            seen.price[first] = field_at(at + 6, 4);
            seen.rate[first] = field_at(at + 14, 3);
            break;
        case 'B':
            seen.net[first] += (second == 1 ? 1 : -1) * (int64_t)field_at(at + 6, 4);
            if (seen.first_booking == count) {
                seen.first_booking = line;
            }
            break;
        }
    }
}

/* Puts `n` bytes in the place of `gone` bytes at `at`, where the text does not get too long. */
static void splice(size_t at, size_t gone, const uint8_t *bytes, size_t n) {
    if (length - gone + n > limit) {
        return;
    }
    memmove(text + at + n, text + at + gone, length - at - gone);
    if (n > 0) {
        memcpy(text + at, bytes, n);
    }
    length += n - gone;
}

/* A number up to a limit: often at an edge, often small. */
static uint32_t up_to(uint32_t most) {
    switch (below(6)) {
    case 0:
        return most;
    case 1:
        return (uint32_t)below(3) % (most + 1);
    case 2:
        return most - (uint32_t)below(3) % (most + 1);
    case 3:
        return (uint32_t)below(most < 1000 ? most + 1 : 1001);
    default:
        return (uint32_t)below((uint64_t)most + 1);
    }
}

/* One of the numbers of which `rows` has a row, or any below `most`. */
static uint32_t with_row(const bool *rows, uint32_t most) {
    uint32_t at = (uint32_t)below(most);
    for (uint32_t step = 0; step < most; step++) {
        if (rows[(at + step) % most]) {
            return (at + step) % most;
        }
    }
    return at;
}

static uint32_t without_row(const bool *rows, uint32_t most) {
    uint32_t at = one_in(2) ? 0 : (uint32_t)below(most);
    for (uint32_t step = 0; step < most; step++) {
        if (!rows[(at + step) % most]) {
            return (at + step) % most;
        }
    }
    return at;
}

/* A quantity that takes a net, or the amount of a position, to its limit or near it. */
static uint32_t telling_quantity(uint32_t security, bool bought) {
    int64_t net = seen.net[security], goal = 100000000;
    uint64_t each = (uint64_t)seen.price[security] * seen.rate[security];
    switch (below(4)) {
    case 0:
        goal = 0;
        break;
    case 1:
        if (each != 0 && 1000000000000000000u / each < 100000000) {
            goal = (int64_t)(1000000000000000000u / each);
        }
        break;
    }
    goal += (int64_t)below(3) - 1;
    int64_t units = bought ? goal - net : goal + net;
    return units > 0 && units <= 200000000 ? (uint32_t)units : up_to(200000000);
}

/* A frame that is lawful after the rows that were seen. */
static size_t lawful(uint8_t byte, uint8_t *to) {
    size_t n = put(to, byte, 1);
    switch (byte) {
    case 'C': {
        uint32_t kind = 1 + (uint32_t)below(2);
        n += put(to + n, without_row(seen.class_row, 64), 1);
        n += put(to + n, kind, 1);
        n += put(to + n, up_to(WHOLE), 3);
        n += put(to + n, up_to(WHOLE), 3);
        n += put(to + n, kind == 1 ? 0 : up_to(WHOLE), 3);
        break;
    }
    case 'S': {
        uint32_t class = with_row(seen.class_row, 64);
        n += put(to + n, without_row(seen.security_row, 256), 1);
        n += put(to + n, class, 1);
        n += put(to + n, 1 + up_to(one_in(3) ? 299999999 : 2999999), 4);
        n += put(to + n, one_in(2) ? 10000 : 1 + up_to(199999), 3);
        n += put(to + n, seen.kind[class] == 1 ? 1000000 : up_to(30000000), 4);
        break;
    }
    case 'P': {
        uint32_t first = with_row(seen.class_row, 64), second = first;
        for (int i = 0; i < 8 && (second == first || seen.kind[second] != seen.kind[first]); i++) {
            second = with_row(seen.class_row, 64);
        }
        uint32_t most = seen.y[first] < seen.y[second] ? seen.y[first] : seen.y[second];
        n += put(to + n, first, 1);
        n += put(to + n, second, 1);
        n += put(to + n, up_to(most) + one_in(16), 3);
        break;
    }
    default: {
        uint32_t security = with_row(seen.security_row, 256);
        bool bought = one_in(2);
        n += put(to + n, security, 1);
        n += put(to + n, bought ? 1 : 2, 1);
        n += put(to + n, one_in(3) ? telling_quantity(security, bought) : 1 + up_to(499999), 4);
    }
    }
    to[n++] = '\n';
    return n;
}

/* A line for a row of its kind: before the first booking. */
static size_t place_for(uint8_t byte) {
    size_t line = seen.first_booking;
    if (byte == 'B') {
        line += (size_t)below(count - line + 1);
    } else if (one_in(4)) {
        line = (size_t)below(count + 1);
    }
    return start[line];
}

static void insert_lawful(void) {
    uint8_t frame[LONGEST];
    uint8_t byte = (uint8_t)"CSPBBS"[below(6)];
    if (length > 0 && text[length - 1] != '\n' && length < limit) {
        text[length++] = '\n';
        look();
    }
    size_t n = lawful(byte, frame);
    splice(place_for(byte), 0, frame, n);
}

/* Some classes, securities, pairs and bookings at once. */
static void insert_many(void) {
    static const char bytes[] = "CCCSSSPPBBBB";
    size_t each = 1 + (size_t)below(one_in(8) ? 24 : 4);
    for (size_t i = 0; bytes[i] != 0; i++) {
        for (size_t k = 0; k < each; k++) {
            uint8_t frame[LONGEST];
            look();
            size_t n = lawful((uint8_t)bytes[i], frame);
            splice(start[bytes[i] == 'B' ? count : seen.first_booking], 0, frame, n);
        }
    }
}

/* A frame of any kind with figures of any kind. */
static void insert_any(void) {
    uint8_t frame[LONGEST];
    const struct Kind *kind = &kinds[below(KINDS)];
    size_t n = put(frame, kind->byte, 1);
    for (int i = 0; i < kind->fields; i++) {
        const struct Field *field = &kind->field[i];
        n += put(frame + n, one_in(4) ? below(1u << 31) : field->edges[below((uint64_t)field->count)], field->width);
    }
    frame[n++] = '\n';
    splice(start[below(count + 1)], 0, frame, n);
}

static void change_field(size_t line) {
    const struct Kind *kind = kind_of(line);
    if (kind == NULL) {
        return;
    }
    size_t which = (size_t)below((uint64_t)kind->fields), at = start[line] + 2;
    for (size_t i = 0; i < which; i++) {
        at += (size_t)(2 * kind->field[i].width);
    }
    const struct Field *field = &kind->field[which];
    uint32_t value = field_at(at, field->width);
    switch (below(5)) {
    case 0:
        value += one_in(2) ? 1 : -1u;
        break;
    case 1:
        value = (uint32_t)below(1u << 31) >> below(31);
        break;
    case 2:
        if (kind->byte == 'B' && which == 2) {
            value = telling_quantity(field_at(start[line] + 2, 1), field_at(start[line] + 4, 1) == 1);
        } else if (kind->byte == 'P' && which == 2) {
            value = seen.y[field_at(start[line] + 2 + 2 * below(2), 1)] + (uint32_t)below(2);
        }
        break;
    default:
        value = field->edges[below((uint64_t)field->count)];
    }
    put(text + at, value, field->width);
}

static void drop(size_t line) {
    splice(start[line], start[line + 1] - start[line], NULL, 0);
}

/* Puts a copy of a line somewhere, seldom many. */
static void repeat(size_t line) {
    uint8_t copy[LONGEST];
    size_t n = start[line + 1] - start[line];
    if (n > sizeof copy) {
        return;
    }
    memcpy(copy, text + start[line], n);
    size_t at = start[one_in(2) ? line : below(count + 1)];
    uint64_t times = !one_in(30) ? 1 : !one_in(8) ? below(40) : 4000 + below(400);
    for (; times > 0 && length + n <= limit; times--) {
        splice(at, 0, copy, n);
    }
}

static void swap(size_t one, size_t other) {
    uint8_t copy[LONGEST];
    size_t n = start[one + 1] - start[one];
    if (one >= other || n > sizeof copy) {
        return;
    }
    size_t at = start[other + 1] - n;
    memcpy(copy, text + start[one], n);
    splice(start[one], n, NULL, 0);
    splice(at, 0, copy, n);
}

/* Damages one byte, or takes it away, or puts one in. */
static void damage(void) {
    uint8_t byte = one_in(4) ? (uint8_t)below(256) : (uint8_t)"0123456789ABCDEF0123\nag@G/:\r \t"[below(30)];
    size_t at = (size_t)below(length + 1);
    switch (below(3)) {
    case 0:
        splice(at, 0, &byte, 1);
        break;
    case 1:
        splice(at, at < length, NULL, 0);
        break;
    default:
        splice(at, at < length, &byte, 1);
    }
}

/* Ends the text somewhere, or makes it about as long as a text may be. */
static void change_length(void) {
    if (!one_in(12)) {
        length = (size_t)below(length + 1);
        return;
    }
    size_t goal = 65536 + (size_t)below(5) - 2;
    size_t n = length;
    if (n == 0 || goal > limit || n > goal) {
        return;
    }
    for (; length < goal; length++) {
        text[length] = text[length - n];
    }
}

/* Drops what is refused, a line or the bookings of a security, so that more texts come to a deposit. */
static void mend(void) {
    static uint8_t answer[5500];
    for (int i = 0; i < 24; i++) {
        if (plain_margin(text, length, answer, sizeof answer) != 19) {
            return;
        }
        look();
        uint32_t line = 0, place = 0;
        for (size_t k = 6; k < 18; k++) {
            if (k < 14) {
                line = line << 4 | (uint32_t)digit(answer[k]);
            } else {
                place = place << 4 | (uint32_t)digit(answer[k]);
            }
        }
        if (line > 0) {
            drop(line - 1);
            continue;
        }
        for (size_t at = count; at > 0; at--) {
            if (field_at(start[at - 1], 1) == 'B' && field_at(start[at - 1] + 2, 1) == place) {
                drop(at - 1);
            }
        }
    }
}

/* Writes a line anew with other lawful figures; the number of a row and its class or kind stay. */
static void renew(size_t line) {
    uint8_t frame[LONGEST];
    const struct Kind *kind = kind_of(line);
    if (kind == NULL || kind - kinds > 3) {
        return;
    }
    size_t at = start[line], n = lawful(kind->byte, frame) - 1;
    if (kind->byte == 'C') {
        memcpy(frame + 2, text + at + 2, 4);
        if (seen.kind[field_at(at + 2, 1)] == 1) {
            memset(frame + 18, '0', 6);
        }
    } else if (kind->byte == 'S') {
        memcpy(frame + 2, text + at + 2, 4);
        put(frame + 20, seen.kind[field_at(at + 4, 1)] == 1 ? 1000000 : up_to(30000000), 4);
    }
    memcpy(text + at, frame, n);
}

static void mutate_line(size_t line) {
    uint8_t copy[2 * LONGEST];
    size_t n = line_length(line);
    if (n > LONGEST) {
        return;
    }
    memcpy(copy, text + start[line], n);
    splice(start[line], n, copy, LLVMFuzzerMutate(copy, n, sizeof copy));
}

size_t LLVMFuzzerCustomMutator(uint8_t *data, size_t size, size_t max_size, unsigned seed) {
    state = (seed + 1u) * 0x9E3779B97F4A7C15u | 1;
    limit = max_size < ROOM - 1 ? max_size : ROOM - 1;
    length = size < limit ? size : limit;
    memcpy(text, data, length);
    for (uint64_t times = 1 + one_in(4); times > 0; times--) {
        look();
        size_t line = count == 0 ? 0 : (size_t)below(count);
        uint64_t way = below(28);
        if (count == 0 || way < 5) {
            insert_lawful();
        } else if (way < 11) {
            change_field(line);
        } else if (way < 12) {
            insert_any();
        } else if (way < 13) {
            insert_many();
        } else if (way < 15) {
            drop(line);
        } else if (way < 17) {
            repeat(line);
        } else if (way < 18) {
            swap(line, (size_t)below(count));
        } else if (way < 20) {
            damage();
        } else if (way < 21) {
            change_length();
        } else if (way < 22) {
            mutate_line(line);
        } else if (way < 23) {
            length = LLVMFuzzerMutate(text, length, limit);
        } else if (way < 27) {
            renew(line);
        } else {
            /* a field of every line of one kind */
            const struct Kind *kind = kind_of(line);
            for (size_t i = 0; i < count && kind != NULL; i++) {
                if (kind_of(i) == kind && one_in(2)) {
                    change_field(i);
                }
            }
        }
    }
    if (one_in(2)) {
        mend();
    }
    memcpy(data, text, length);
    return length;
}
