/*
 * A libFuzzer target for the margin call. bench/fuzz/run builds and runs it.
 *
 * An input is a text. Three calls answer it: the one of the archive, as clients link it; the same module built with
 * AddressSanitizer and with counters of coverage (COVERED); and the second implementation in plain Rust. They must agree, and
 * the answer must be of the form that docs/intake.md and docs/frames.md say.
 * The archive's code is machine code that no sanitizer watches. Its text and its answer memory lie against pages that may not
 * be touched, and its text in pages that may not be written.
 */
#define _GNU_SOURCE
#include "dolzhivar.h"

#include <stdarg.h>
#include <stdbool.h>
#include <stdio.h>
#include <stdlib.h>
#include <string.h>
#include <sys/mman.h>
#include <unistd.h>

int64_t plain_margin(const uint8_t *text, size_t text_length, uint8_t *answer, size_t answer_length);
#ifdef COVERED
int64_t covered_margin(const uint8_t *text, size_t text_length, uint8_t *answer, size_t answer_length);
#endif

enum { PAGE = 4096, TEXT_ROOM = 17 * PAGE, ANSWER_ROOM = 3 * PAGE };

/* What an answer says, so that libFuzzer keeps a text that is answered in a new way. */
enum { SAID = 4096 };
__attribute__((section("__libfuzzer_extra_counters"))) static uint8_t counters[SAID];

/* How often each refusal was told; 0 stands for a deposit. */
static uint64_t told[64];
static uint64_t most_classes;

static const uint8_t *now_text;
static size_t now_length;

__attribute__((noreturn, format(printf, 1, 2))) static void finding(const char *words, ...) {
    va_list rest;
    va_start(rest, words);
    fprintf(stderr, "finding: ");
    vfprintf(stderr, words, rest);
    va_end(rest);
    fprintf(stderr, "\nthe text, %zu bytes:\n", now_length);
    fwrite(now_text, 1, now_length < 2000 ? now_length : 2000, stderr);
    fprintf(stderr, "\n");
    abort();
}

/* Memory between two pages that may not be touched. `views` are the ways in which it is mapped. */
static void lend(size_t size, int count, const int *protections, uint8_t **views) {
    int file = memfd_create("lent", 0);
    if (file < 0 || ftruncate(file, (off_t)size) != 0) {
        perror("memory");
        exit(2);
    }
    for (int i = 0; i < count; i++) {
        uint8_t *all = mmap(NULL, size + 2 * PAGE, PROT_NONE, MAP_PRIVATE | MAP_ANONYMOUS, -1, 0);
        if (all == MAP_FAILED || mmap(all + PAGE, size, protections[i], MAP_SHARED | MAP_FIXED, file, 0) == MAP_FAILED) {
            perror("memory");
            exit(2);
        }
        views[i] = all + PAGE;
    }
    close(file);
}

static uint8_t *text_written, *text_read, *answer_room;
static uint8_t patterns[2][ANSWER_ROOM];

static void say_what_was_told(void) {
    fprintf(stderr, "answered with a deposit: %llu (at most %llu classes); refusals met:", (unsigned long long)told[0],
            (unsigned long long)most_classes);
    for (int i = 1; i < 64; i++) {
        if (told[i] != 0) {
            fprintf(stderr, " %d (%llu)", i, (unsigned long long)told[i]);
        }
    }
    fprintf(stderr, "\n");
}

int LLVMFuzzerInitialize(int *argc, char ***argv) {
    (void)argc;
    (void)argv;
    const int both[2] = {PROT_READ | PROT_WRITE, PROT_READ};
    uint8_t *views[2];
    lend(TEXT_ROOM, 2, both, views);
    text_written = views[0];
    text_read = views[1];
    lend(ANSWER_ROOM, 1, both, &answer_room);
    for (size_t i = 0; i < ANSWER_ROOM; i++) {
        patterns[0][i] = (uint8_t)(i * 7 + i / 251 + 3);
        patterns[1][i] = (uint8_t)~patterns[0][i];
    }
    atexit(say_what_was_told);
    return 0;
}

/* The archive's call, or a wrong one that the checks must find: bench/fuzz/wrong builds each. */
static int64_t call(const uint8_t *text, size_t text_length, uint8_t *answer, size_t answer_length) {
    int64_t count = dolzhivar_margin(text, text_length, answer, answer_length);
#if WRONG == 1 /* tells one byte more than it wrote */
    return count < 0 ? count : count + 1;
#elif WRONG == 2 /* writes a byte behind the answer */
    if (count >= 0) {
        answer[count] = 0;
    }
#elif WRONG == 3 /* writes a byte behind the memory */
    if (count >= 0) {
        ((volatile uint8_t *)answer)[answer_length] = 0;
    }
#elif WRONG == 4 /* reads a byte behind the text */
    if (count >= 0) {
        (void)((volatile const uint8_t *)text)[text_length];
    }
#elif WRONG == 5 /* writes the text */
    if (text_length > 0) {
        ((volatile uint8_t *)text)[0] = text[0];
    }
#elif WRONG == 6 /* keeps something from one call to the next */
    static uint8_t calls;
    if (count > 1000 && ++calls == 0) {
        answer[7] ^= 1;
    }
#elif WRONG == 7 /* tells 4 and not 2 where the quantity is 200,000,001 */
    if (count == 19 && memcmp(answer, "4602", 4) == 0 && memmem(text, text_length, "0BEBC201", 8) != NULL) {
        memcpy(answer + 2, "04", 2);
    }
#elif WRONG == 8 /* tells 4 held pairs where there are 5 */
    if (count > 27 && memcmp(answer + count - 19, "05", 2) == 0) {
        answer[count - 18] = '4';
    }
#elif WRONG == 9 /* refuses with no byte of the memory as it was */
    if (count == DOLZHIVAR_TEXT_TOO_LONG) {
        memset(answer, '0', answer_length);
    }
#endif
    return count;
}

#ifdef COVERED
static int64_t call_covered(const uint8_t *text, size_t text_length, uint8_t *answer, size_t answer_length) {
#if WRONG == 10 /* tells the instrumented call one byte more than its text has */
    text_length++;
#endif
    return covered_margin(text, text_length, answer, answer_length);
}
#endif

static void mark(size_t base, size_t at) {
    counters[base + at] = 1;
}

static size_t bits(uint64_t n) {
    size_t count = 0;
    while (n != 0) {
        count++;
        n >>= 1;
    }
    return count;
}

/* The number in so many digits at the front; a finding where one is none. */
static uint64_t number(const uint8_t *digits, size_t count) {
    uint64_t value = 0;
    for (size_t i = 0; i < count; i++) {
        uint8_t c = digits[i];
        if ((c < '0' || c > '9') && (c < 'A' || c > 'F')) {
            finding("the answer has a byte %d where a digit is due", c);
        }
        value = value << 4 | (uint64_t)(c <= '9' ? c - '0' : c - 'A' + 10);
    }
    return value;
}

static size_t lines_of(const uint8_t *text, size_t length) {
    size_t count = 0;
    for (size_t i = 0; i < length; i++) {
        count += text[i] == '\n';
    }
    return count + (length > 0 && text[length - 1] != '\n');
}

/* Where the line of this number, from 1, begins, and its length without its feed. */
static const uint8_t *line_at(const uint8_t *text, size_t length, uint64_t line, size_t *line_length) {
    const uint8_t *end = text + length;
    for (; line > 1; line--) {
        text = (const uint8_t *)memchr(text, '\n', (size_t)(end - text)) + 1;
    }
    const uint8_t *feed = text < end ? memchr(text, '\n', (size_t)(end - text)) : NULL;
    *line_length = (size_t)((feed ? feed : end) - text);
    return text;
}

/* A refusal that a text can meet: its layer, the kind of line that meets it (0 for any), and the places that it can tell. */
struct Refusal {
    uint8_t number, layer;
    char kind;
    uint8_t least, most;
};

static const struct Refusal refusals[] = {
    {2, 3, 'B', 0, 255},  {3, 3, 'B', 0, 255},  {4, 3, 'B', 0, 255},  {10, 2, 'C', 64, 255}, {11, 2, 'C', 0, 63},
    {12, 2, 'C', 0, 63},  {13, 2, 'S', 0, 255}, {14, 2, 'S', 0, 255}, {15, 2, 'S', 0, 255},  {16, 2, 'P', 0, 255},
    {17, 2, 'P', 0, 63},  {18, 2, 'P', 0, 63},  {21, 5, 0, 0, 255},   {22, 5, 0, 0, 255},    {30, 1, 0, 0, 0},
    {31, 1, 0, 0, 0},     {32, 1, 0, 0, 0},     {33, 1, 0, 0, 0},     {35, 8, 0, 0, 0},
};

static void check_fault(const uint8_t *text, size_t length, const uint8_t *answer, size_t count) {
    if (count != 19 || answer[18] != '\n') {
        finding("an F line does not stand alone, with its feed");
    }
    uint64_t refusal = number(answer + 2, 2), layer = number(answer + 4, 2);
    uint64_t line = number(answer + 6, 8), place = number(answer + 14, 4);
    const struct Refusal *known = NULL;
    for (size_t i = 0; i < sizeof refusals / sizeof refusals[0]; i++) {
        if (refusals[i].number == refusal) {
            known = &refusals[i];
        }
    }
    if (known == NULL) {
        finding("no text can meet the refusal %d", (int)refusal);
    }
    if (layer != known->layer || place < known->least || place > known->most) {
        finding("the refusal %d tells the layer %d and the place %d", (int)refusal, (int)layer, (int)place);
    }
    if (layer == 5 ? line != 0 : line < 1 || line > lines_of(text, length)) {
        finding("the refusal %d tells the line %llu", (int)refusal, (unsigned long long)line);
    }
    if (known->kind != 0) {
        size_t line_length;
        const uint8_t *at = line_at(text, length, line, &line_length);
        if (line_length < 4 || number(at, 2) != (uint64_t)known->kind || number(at + 2, 2) != place) {
            finding("the refusal %d tells a line of another kind or place", (int)refusal);
        }
    }
    told[refusal]++;
    mark(0, refusal);
    mark(64 + 32 * refusal, bits(line));
    mark(2112 + 16 * refusal, place / 16);
}

static void check_deposit(size_t length, const uint8_t *answer, size_t count) {
    size_t at = 0;
    uint64_t classes = 0, sum = 0;
    int last = -1;
    while (at + 85 <= count && answer[at] == '4' && answer[at + 1] == '4') {
        const uint8_t *line = answer + at;
        uint64_t class = number(line + 2, 2);
        uint64_t drr = number(line + 4, 16), drs = number(line + 20, 16), dswk = number(line + 36, 16);
        uint64_t kspk = number(line + 52, 16), dolr = number(line + 68, 16);
        uint64_t highest = drr | drs | dswk | kspk | dolr;
        if (line[84] != '\n') {
            finding("a D line does not end after its 84 digits");
        }
        if ((int)class <= last || class > 63) {
            finding("the class %d follows %d", (int)class, last);
        }
        if (highest >> 60 != 0 || kspk > drr + drs + dswk || dolr != drr + drs + dswk - kspk) {
            finding("DOLR of class %d is not the sum of its parts", (int)class);
        }
        last = (int)class;
        classes++;
        sum += dolr;
        at += 85;
        mark(3136, (drr > 0) + 2 * (drs > 0) + 4 * (dswk > 0) + 8 * (kspk > 0) + 16 * (dolr > 0));
        mark(3200, bits(drr));
        mark(3264, bits(drs));
        mark(3328, bits(dswk));
        mark(3392, bits(kspk));
        mark(3456, bits(dolr));
    }
    if (count - at != 27 || answer[at] != '5' || answer[at + 1] != '4' || answer[at + 26] != '\n') {
        finding("%zu bytes stand where one T line is due", count - at);
    }
    uint64_t c = number(answer + at + 2, 2), n = number(answer + at + 4, 4), r = number(answer + at + 8, 2);
    uint64_t dspan = number(answer + at + 10, 16);
    if (c != classes || dspan != sum) {
        finding("the T line tells %d classes of %d, and DSPAN is %s", (int)c, (int)classes, dspan == sum ? "the sum" : "not the sum");
    }
    if (n < c || n > 256 || (c == 0 && n != 0) || r > 32 || (c < 2 && r != 0)) {
        finding("the T line tells %d classes, %d securities and %d pairs", (int)c, (int)n, (int)r);
    }
    told[0]++;
    most_classes = classes > most_classes ? classes : most_classes;
    mark(0, 0);
    mark(3520, classes);
    mark(3600, bits(n));
    mark(3620, r);
    mark(3660, bits(dspan));
    mark(3730, bits(length));
}

/* One answer in memory that was filled with a pattern: the bytes behind it, or all where it is refused, are as they were. */
static void check_rest(int64_t count, const uint8_t *pattern, const uint8_t *memory, size_t length, const char *which) {
    if (count > DOLZHIVAR_ANSWER_MEMORY || count > (int64_t)length) {
        finding("%s tells %lld bytes, in a memory of %zu", which, (long long)count, length);
    }
    size_t kept = count < 0 ? 0 : (size_t)count;
    if (memcmp(memory + kept, pattern + kept, length - kept) != 0) {
        finding("%s changed bytes behind the answer, of %lld bytes, or before it", which, (long long)count);
    }
}

typedef int64_t Call(const uint8_t *text, size_t text_length, uint8_t *answer, size_t answer_length);

/* A call in memory of exactly the lengths, so that AddressSanitizer sees what is read or written beside it. */
static void call_watched(Call *other, const char *which, const uint8_t *text, size_t length, size_t memory_length, size_t skew,
                         int64_t expected, const uint8_t *answer) {
    /* a text and a memory may begin anywhere, and a length of 0 points to the end of some memory */
    size_t lead = skew + (length == 0 || memory_length == 0);
    uint8_t *text_block = malloc(lead + length), *block = malloc(lead + memory_length);
    if (text_block == NULL || block == NULL) {
        perror("memory");
        exit(2);
    }
    memset(text_block, '0', lead);
    memcpy(text_block + lead, text, length);
    memcpy(block, patterns[0] + PAGE - lead, lead + memory_length);
    int64_t count = other(text_block + lead, length, block + lead, memory_length);
    if (count != expected) {
        finding("%s tells %lld, the archive %lld", which, (long long)count, (long long)expected);
    }
    check_rest(count, patterns[0] + PAGE, block + lead, memory_length, which);
    if (memcmp(block, patterns[0] + PAGE - lead, lead) != 0) {
        finding("%s changed bytes before the memory", which);
    }
    if (count > 0 && memcmp(block + lead, answer, (size_t)count) != 0) {
        finding("%s answers otherwise than the archive: %.*s", which, (int)count, (const char *)block + lead);
    }
    if (memcmp(text_block + lead, text, length) != 0) {
        finding("%s changed the text", which);
    }
    free(text_block);
    free(block);
}

/* The archive's call, with text and memory at the end of their pages or at the front. */
static int64_t call_archive(const uint8_t *text, size_t length, size_t memory_length, bool at_end, uint8_t *answer) {
    size_t text_at = at_end ? TEXT_ROOM - length : 0, memory_at = at_end ? ANSWER_ROOM - memory_length : 0;
    const uint8_t *pattern = patterns[at_end];
    memcpy(text_written + text_at, text, length);
    memcpy(answer_room, pattern, ANSWER_ROOM);
    int64_t count = call(text_read + text_at, length, answer_room + memory_at, memory_length);
    check_rest(count, pattern + memory_at, answer_room + memory_at, memory_length, "the archive");
    size_t behind = memory_at + memory_length;
    if (memcmp(answer_room, pattern, memory_at) != 0 || memcmp(answer_room + behind, pattern + behind, ANSWER_ROOM - behind) != 0) {
        finding("bytes beside the memory were changed");
    }
    if (memcmp(text_read + text_at, text, length) != 0) {
        finding("the text was changed");
    }
    if (count > 0) {
        memcpy(answer, answer_room + memory_at, (size_t)count);
    }
    return count;
}

int LLVMFuzzerTestOneInput(const uint8_t *text, size_t length) {
    static uint8_t answer[DOLZHIVAR_ANSWER_MEMORY], again[DOLZHIVAR_ANSWER_MEMORY];
    if (length > TEXT_ROOM) {
        return -1;
    }
    now_text = text;
    now_length = length;

    /* the length of the memory comes of the text, so that an input is one text alone */
    uint64_t hash = 0xCBF29CE484222325u;
    for (size_t i = 0; i < length; i++) {
        hash = (hash ^ text[i]) * 0x100000001B3u;
    }
    hash ^= hash >> 29;
    size_t memory_length = DOLZHIVAR_ANSWER_MEMORY;
    switch (hash % 32) {
    case 0:
        memory_length = hash >> 8 & 1 ? DOLZHIVAR_ANSWER_MEMORY - 1 : (hash >> 9) % DOLZHIVAR_ANSWER_MEMORY;
        break;
    case 1:
    case 2:
    case 3:
        memory_length += 1 + (hash >> 9) % (hash >> 8 & 1 ? 8 : 2000);
        break;
    }

    int64_t count = call_archive(text, length, memory_length, true, answer);
    if (call_archive(text, length, memory_length, false, again) != count
        || (count > 0 && memcmp(answer, again, (size_t)count) != 0)) {
        finding("a second call answers otherwise");
    }
    size_t skew = hash >> 40 & 15;
    call_watched(plain_margin, "the plain Rust", text, length, memory_length, skew, count, answer);
#ifdef COVERED
    call_watched(call_covered, "the instrumented call", text, length, memory_length, skew, count, answer);
#endif

    int64_t refused = memory_length < DOLZHIVAR_ANSWER_MEMORY ? DOLZHIVAR_ANSWER_MEMORY_TOO_SHORT
                      : length > DOLZHIVAR_TEXT_LIMIT         ? DOLZHIVAR_TEXT_TOO_LONG
                                                              : 0;
    if (refused != 0) {
        if (count != refused) {
            finding("a memory of %zu bytes is answered with %lld", memory_length, (long long)count);
        }
        told[-refused]++;
        return 0;
    }
    if (count < 19) {
        finding("the call tells %lld", (long long)count);
    }
    if (answer[0] == '4' && answer[1] == '6') {
        check_fault(text, length, answer, (size_t)count);
    } else {
        check_deposit(length, answer, (size_t)count);
    }
    return 0;
}
