/*
 * Judges and notes the lines of days as a host does, through include/boanhetri.h. It reads a file of days from standard
 * input and writes what came of them to standard output; docs/CASES.md has the form of both. What is lent to be written to
 * has guards on both sides. Where one is touched, or the input is no such file, the exit status is 1.
 */
#include "boanhetri.h"

/* Declared here, so that the program builds also with a compiler that has no C library's headers. */
long read(int file, void *to, size_t n);
long write(int file, const void *from, size_t n);
void exit(int status);
int memcmp(const void *a, const void *b, size_t n);
void *memcpy(void *to, const void *from, size_t n);
void *memset(void *to, int byte, size_t n);
size_t strlen(const char *s);

_Static_assert(sizeof(struct boanhetri_record) == 604, "a record is 20 bytes and 146 counters");
_Static_assert(_Alignof(struct boanhetri_record) == 4, "a record is aligned as its counters");
_Static_assert(sizeof(struct boanhetri_noted) == 2, "two bytes say where a line went");

enum { LEI, CTY, CCY, VEN, INS, LISTS };

/* The kinds of what stands in a file, behind the five lists. */
enum { BEGIN = 6, CALL = 7, END = 8 };

#define LONGEST_LINE 4200
#define LONGEST_LIST 16384
#define LONGEST_REGISTER 65536
#define MOST_FINDINGS 200
#define MOST_RECORDS 300

/* What guards hold, and how many bytes of them stand in front of and behind a register. */
#define GUARD 0xC3
#define GUARDS 64

/* What a findings buffer holds before a call. */
#define FILLER 0xA5

static void fail(const char *what) {
    write(2, "days: ", 6);
    write(2, what, strlen(what));
    write(2, "\n", 1);
    exit(1);
}

/* ---- standard input */

static uint8_t input[65536];
static size_t input_at;
static size_t input_end;

/* Whether there is another byte. */
static bool more(void) {
    if (input_at == input_end) {
        long got = read(0, input, sizeof input);
        if (got < 0) {
            fail("the input cannot be read");
        }
        input_at = 0;
        input_end = (size_t)got;
    }
    return input_at < input_end;
}

static void take(void *to, size_t n) {
    uint8_t *at = to;
    while (n > 0) {
        if (!more()) {
            fail("the file of days ends in the middle of a record");
        }
        size_t part = input_end - input_at < n ? input_end - input_at : n;
        memcpy(at, input + input_at, part);
        input_at += part;
        at += part;
        n -= part;
    }
}

static uint64_t number(size_t width) {
    uint8_t bytes[8];
    uint64_t value = 0;
    take(bytes, width);
    for (size_t i = 0; i < width; i++) {
        value |= (uint64_t)bytes[i] << (8 * i);
    }
    return value;
}

static size_t length(size_t most) {
    size_t n = (size_t)number(4);
    if (n > most) {
        fail("a length that is greater than any");
    }
    return n;
}

/* Passes over what is expected. */
static void skip(size_t n) {
    static uint8_t unread[4096];
    while (n > 0) {
        size_t part = n < sizeof unread ? n : sizeof unread;
        take(unread, part);
        n -= part;
    }
}

static struct boanhetri_verdict take_verdict(void) {
    struct boanhetri_verdict verdict;
    verdict.answer = (uint16_t)number(2);
    verdict.count = (uint16_t)number(2);
    for (size_t i = 0; i < 3; i++) {
        verdict.words[i] = number(8);
    }
    return verdict;
}

/* ---- standard output */

static uint8_t output[65536];
static size_t output_len;

static void flush(void) {
    for (size_t at = 0; at < output_len;) {
        long put = write(1, output + at, output_len - at);
        if (put <= 0) {
            fail("the output cannot be written");
        }
        at += (size_t)put;
    }
    output_len = 0;
}

static void put(const void *from, size_t n) {
    const uint8_t *at = from;
    while (n > 0) {
        size_t part = sizeof output - output_len < n ? sizeof output - output_len : n;
        memcpy(output + output_len, at, part);
        output_len += part;
        at += part;
        n -= part;
        if (output_len == sizeof output) {
            flush();
        }
    }
}

static void put_verdict(struct boanhetri_verdict verdict) {
    put(&verdict.answer, 2);
    put(&verdict.count, 2);
    put(verdict.words, sizeof verdict.words);
}

/* ---- what a day has */

struct bytes {
    uint8_t at[LONGEST_LIST];
    size_t len;
};

static struct bytes list[LISTS];
static uint8_t line[LONGEST_LINE];

/* Guards stand in front of what is lent and behind it, up to the end. */
static uint8_t reg[GUARDS + LONGEST_REGISTER + GUARDS];
static size_t reg_len;
static struct boanhetri_record table[1 + MOST_RECORDS + 1];
static size_t records;
static struct boanhetri_record common[3];
static uint16_t findings[1 + MOST_FINDINGS + 1];

static bool holds(const void *from, size_t n, uint8_t byte) {
    const uint8_t *at = from;
    for (size_t i = 0; i < n; i++) {
        if (at[i] != byte) {
            return false;
        }
    }
    return true;
}

/* The bytes next to what was lent are as they were. */
static void look_at_guards(size_t entries) {
    if (!holds(reg, GUARDS, GUARD) || !holds(reg + GUARDS + reg_len, GUARDS, GUARD)) {
        fail("a byte beside the register was written");
    }
    if (!holds(table, sizeof table[0], GUARD) || !holds(table + 1 + records, sizeof table[0], GUARD)) {
        fail("a byte beside the records was written");
    }
    if (!holds(common, sizeof common[0], GUARD) || !holds(common + 2, sizeof common[0], GUARD)) {
        fail("a byte beside the common record was written");
    }
    if (!holds(findings, sizeof findings[0], FILLER) || !holds(findings + 1 + entries, sizeof findings[0], FILLER)) {
        fail("a byte beside the findings was written");
    }
}

static void begin(void) {
    memset(reg, GUARD, sizeof reg);
    memset(table, GUARD, sizeof table);
    memset(common, GUARD, sizeof common);
    records = length(MOST_RECORDS);
    reg_len = length(LONGEST_REGISTER);
    take(table + 1, records * sizeof table[0]);
    take(common + 1, sizeof common[1]);
    take(reg + GUARDS, reg_len);
}

static void call(void) {
    size_t line_len = length(LONGEST_LINE);
    take(line, line_len);
    size_t lent = length(reg_len);
    uint32_t day = (uint32_t)number(4);
    uint64_t micro = number(8);
    uint32_t polish = (uint32_t)number(4);
    size_t entries = length(MOST_FINDINGS);
    bool with_another = number(4) != 0;
    struct boanhetri_verdict another = take_verdict();
    skip(28 + 2 * entries + 2);

    memset(findings, FILLER, sizeof findings);
    struct boanhetri_verdict verdict = boanhetri_judge(
        line, line_len,
        list[LEI].at, list[LEI].len,
        list[CTY].at, list[CTY].len,
        list[CCY].at, list[CCY].len,
        list[VEN].at, list[VEN].len,
        list[INS].at, list[INS].len,
        reg + GUARDS, lent, day, micro, polish, findings + 1, entries);
    struct boanhetri_noted noted =
        boanhetri_note(table + 1, records, common + 1, line, line_len, with_another ? another : verdict);
    look_at_guards(entries);

    put_verdict(verdict);
    put(findings + 1, 2 * entries);
    uint8_t said[2] = {noted.common, noted.stuck};
    put(said, sizeof said);
}

static void end(void) {
    skip((records + 1) * sizeof table[0] + reg_len);
    put(table + 1, records * sizeof table[0]);
    put(common + 1, sizeof common[1]);
    put(reg + GUARDS, reg_len);
    if (!holds(table + 1 + records, (MOST_RECORDS + 1 - records) * sizeof table[0], GUARD)) {
        fail("a byte behind the records was written");
    }
    if (!holds(reg + GUARDS + reg_len, sizeof reg - GUARDS - reg_len, GUARD)) {
        fail("a byte behind the register was written");
    }
}

int main(void) {
    uint8_t mark[4];
    take(mark, sizeof mark);
    if (memcmp(mark, "DAYS", sizeof mark) != 0 || number(4) != 1) {
        fail("not a file of days");
    }
    skip(4);
    while (more()) {
        uint32_t kind = (uint32_t)number(4);
        if (kind >= 1 && kind <= LISTS) {
            struct bytes *replaced = &list[kind - 1];
            replaced->len = length(LONGEST_LIST);
            take(replaced->at, replaced->len);
        } else if (kind == BEGIN) {
            begin();
        } else if (kind == CALL) {
            call();
        } else if (kind == END) {
            end();
        } else {
            fail("a record of no kind");
        }
    }
    flush();
    return 0;
}
