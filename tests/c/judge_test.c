/*
 * Calls the library as a host does, through include/boanhetri.h: what is answered, and every byte that is lent, before and
 * after. A line a group, and `ok`; the exit status is 1 where something is not as it must be.
 */
#include "boanhetri.h"

/* Declared here, so that the test builds also with a compiler that has no C library's headers. */
int printf(const char *format, ...);
int memcmp(const void *a, const void *b, size_t n);
void *memcpy(void *to, const void *from, size_t n);
void *memset(void *to, int byte, size_t n);
size_t strlen(const char *s);

_Static_assert(sizeof(struct boanhetri_verdict) == 32, "a verdict is two 16-bit numbers and three 64-bit words");
_Static_assert(sizeof(struct boanhetri_record) == 604, "a record is 20 bytes and 146 counters of 32 bits");
_Static_assert(sizeof(struct boanhetri_noted) == 2, "what noting says is two bytes");

/* LEIs with right check digits; the last is in the list only where it is said. */
#define ENTITY "00000000000000000098"
#define OTHER "00000000000000000195"
#define LATE "00000000000000000A68"

/* The day of submission where nothing else is said, and the next. */
#define TODAY 20250322
#define TOMORROW 20250323

enum { LEI, CTY, CCY, VEN, INS, LISTS };

static const char *const marks[LISTS] = {"LEI", "CTY", "CCY", "VEN", "INS"};

/* ---- what a call gets */

struct bytes {
    uint8_t at[5000];
    size_t len;
};

struct call {
    struct bytes line;
    struct bytes list[LISTS];
    struct bytes reg;
    uint32_t day;
    uint64_t micro;
    uint32_t polish;
    uint16_t findings[BOANHETRI_CODES + 3];
    size_t room;
};

/* A code, and its place among the bits of the three words. */
struct finding {
    uint16_t code;
    uint16_t bit;
};

static void add(struct bytes *b, const void *part, size_t n) {
    memcpy(b->at + b->len, part, n);
    b->len += n;
}

static void add_text(struct bytes *b, const char *text) { add(b, text, strlen(text)); }

static void add_number(struct bytes *b, uint64_t number, size_t width) {
    for (size_t i = 0; i < width; i++) {
        b->at[b->len++] = (uint8_t)(number >> (8 * i));
    }
}

/* A head with row count 0; bytes past the length are set too, so that a test can lengthen by one. */
static void begin(struct bytes *b, const char *mark) {
    memset(b->at, 0xA5, sizeof b->at);
    b->len = 0;
    add_text(b, mark);
    add_number(b, 1, 2);
    add_number(b, 0, 4);
}

static void days_from(struct bytes *list, uint32_t first) {
    add_number(list, first, 4);
    add_number(list, 99991231, 4);
    list->at[5]++;
}

static void days(struct bytes *list) { days_from(list, 20180103); }

static void lei_row(struct bytes *list, const char *key, uint32_t registered) {
    add_text(list, key);
    add_number(list, 1, 1);
    add_number(list, 1, 1);
    days_from(list, registered);
}

static void lists(struct call *c) {
    for (size_t i = 0; i < LISTS; i++) {
        begin(&c->list[i], marks[i]);
    }
    lei_row(&c->list[LEI], ENTITY, 20180103);
    lei_row(&c->list[LEI], OTHER, 20180103);
    add_text(&c->list[CTY], "DE");
    days(&c->list[CTY]);
    add_text(&c->list[CCY], "EUR\1");
    days(&c->list[CCY]);
    add_text(&c->list[VEN], "XAAA\1");
    days(&c->list[VEN]);
    add_text(&c->list[INS], "AA0000000006ESVUFR");
    days(&c->list[INS]);
}

/* `cells[f]` is cell f; those that are not given are blank. */
static void line_of(struct call *c, const char *const cells[66]) {
    c->line.len = 0;
    for (size_t f = 1; f <= 65; f++) {
        if (f > 1) {
            add_text(&c->line, "|");
        }
        if (cells[f]) {
            add_text(&c->line, cells[f]);
        }
    }
}

/* The cells of a NEW line that is accepted. */
static void good_cells(const char *cells[66], const char *reference) {
    const char *const good[66] = {
        [1] = "NEW", [2] = reference, [4] = ENTITY, [5] = "TRUE", [6] = ENTITY, [7] = "LEI:" ENTITY, [16] = "LEI:" OTHER,
        [25] = "FALSE", [28] = "2025-03-21T09:30:00.5Z", [29] = "DEAL", [30] = "UNT:100", [33] = "MV:10.5", [34] = "EUR",
        [36] = "XAAA", [37] = "DE", [41] = "AA0000000006", [57] = "NIDN:DE123", [59] = "NORE", [65] = "FALSE",
    };
    memcpy(cells, good, sizeof good);
}

static void new_line(struct call *c, const char *reference) {
    const char *cells[66];
    good_cells(cells, reference);
    line_of(c, cells);
}

static void cxl_line(struct call *c, const char *reference) {
    const char *const cells[66] = {[1] = "CXL", [2] = reference, [4] = ENTITY, [6] = ENTITY};
    line_of(c, cells);
}

static void first_cell(struct call *c, const char *cell) {
    const char *const cells[66] = {[1] = cell};
    line_of(c, cells);
}

/* The bytes of a row: version 2 has the day behind the state. */
static size_t row_width(const struct bytes *reg) { return reg->at[3] == 2 ? 78 : 74; }

/* A register with that many rows, none used, of which the bytes are arbitrary. */
static void empty_register(struct bytes *reg, uint8_t version, size_t rows) {
    begin(reg, "TRN");
    reg->at[3] = version;
    reg->len += row_width(reg) * rows;
}

/* What the register must hold after the state of a row is set on a day, or after one more row. */
static void expect_state(struct bytes *reg, size_t row, uint8_t state, uint32_t day) {
    uint8_t *at = reg->at + 9 + row_width(reg) * row + 73;
    at[0] = state;
    for (size_t i = 1; i <= row_width(reg) - 74; i++) {
        at[i] = (uint8_t)(day >> (8 * (i - 1)));
    }
}

static void expect_row(struct bytes *reg, const char *reference) {
    uint8_t *row = reg->at + 9 + row_width(reg) * reg->at[5];
    memset(row, 0, 73);
    memcpy(row, ENTITY, 20);
    row[20] = (uint8_t)strlen(reference);
    memcpy(row + 21, reference, strlen(reference));
    expect_state(reg, reg->at[5], 1, TODAY);
    reg->at[5]++;
}

/* A call whose line is accepted. */
static struct call good_call(void) {
    struct call c;
    lists(&c);
    empty_register(&c.reg, 1, 2);
    new_line(&c, "R1");
    c.day = TODAY;
    c.micro = 43200000000;
    c.polish = 0;
    memset(c.findings, 0x5A, sizeof c.findings);
    c.room = BOANHETRI_CODES + 3;
    return c;
}

/* ---- what it must leave */

static int failures;

static void must(int holds, const char *group, const char *what) {
    if (!holds) {
        printf("FAILED %s: %s\n", group, what);
        failures++;
    }
}

static struct boanhetri_verdict judge(struct call *c) {
    return boanhetri_judge(
        c->line.at, c->line.len,
        c->list[LEI].at, c->list[LEI].len,
        c->list[CTY].at, c->list[CTY].len,
        c->list[CCY].at, c->list[CCY].len,
        c->list[VEN].at, c->list[VEN].len,
        c->list[INS].at, c->list[INS].len,
        c->reg.at, c->reg.len,
        c->day,
        c->micro,
        c->polish,
        c->findings, c->room);
}

static int same_bytes(const struct bytes *a, const struct bytes *b) {
    return a->len == b->len && memcmp(a->at, b->at, sizeof a->at) == 0;
}

/* What no call changes. */
static void must_keep_inputs(const struct call *before, const struct call *after, const char *group) {
    must(same_bytes(&before->line, &after->line), group, "the line stays");
    for (size_t i = 0; i < LISTS; i++) {
        must(same_bytes(&before->list[i], &after->list[i]), group, "the lists stay");
    }
}

/* Judges: the answer, the codes found, and the register, to the last byte, must be these. */
static void must_leave(
    struct call *c, uint16_t answer, const struct finding *codes, uint16_t count, const struct bytes *reg, const char *group) {
    struct call before = *c;
    uint64_t words[3] = {0, 0, 0};
    for (size_t i = 0; i < count; i++) {
        before.findings[i] = codes[i].code;
        words[codes[i].bit / 64] |= (uint64_t)1 << (codes[i].bit % 64);
    }
    struct boanhetri_verdict v = judge(c);
    if (v.answer != answer || v.count != count) {
        printf("%s: answer %u, count %u; wanted %u, %u\n", group, v.answer, v.count, answer, count);
    }
    must(v.answer == answer, group, "answer");
    must(v.count == count, group, "count");
    must(memcmp(v.words, words, sizeof words) == 0, group, "words");
    must(memcmp(c->findings, before.findings, sizeof before.findings) == 0, group, "findings");
    must(same_bytes(&c->reg, reg), group, "register");
    must_keep_inputs(&before, c, group);
}

static void must_refuse(struct call c, uint16_t number, const char *group) {
    struct bytes reg = c.reg;
    must_leave(&c, number, 0, 0, &reg, group);
}

static void must_accept(struct call *c, const struct bytes *reg, const char *group) { must_leave(c, 0, 0, 0, reg, group); }

static void must_find(struct call *c, const struct finding *codes, uint16_t count, const char *group) {
    struct bytes reg = c->reg;
    must_leave(c, 0, codes, count, &reg, group);
}

/* ---- the groups */

static void a_pair_lives(uint8_t version) {
    const char *group = "NEW, NEW again, CXL, CXL again, NEW in the same row, each on another day";
    static const struct finding live[1] = {{23, 0}};
    static const struct finding cancelled[1] = {{25, 2}};
    struct call c = good_call();
    empty_register(&c.reg, version, 2);
    struct bytes reg = c.reg;
    expect_row(&reg, "R1");
    must_accept(&c, &reg, group);
    c.day = TOMORROW;
    must_find(&c, live, 1, group);
    cxl_line(&c, "R1");
    expect_state(&reg, 0, 2, TOMORROW);
    must_accept(&c, &reg, group);
    c.day = TODAY;
    must_find(&c, cancelled, 1, group);
    new_line(&c, "R1");
    expect_state(&reg, 0, 1, TODAY);
    must_accept(&c, &reg, group);
    printf("%s, version %u\n", group, version);
}

static void a_register_fills(uint8_t version) {
    const char *group = "a full register: 11, and its own pairs go on";
    struct call c = good_call();
    empty_register(&c.reg, version, 2);
    struct bytes reg = c.reg;
    expect_row(&reg, "R1");
    must_accept(&c, &reg, group);
    new_line(&c, "R2");
    expect_row(&reg, "R2");
    must_accept(&c, &reg, group);
    new_line(&c, "R3");
    must_refuse(c, 11, group);
    cxl_line(&c, "R2");
    expect_state(&reg, 1, 2, TODAY);
    must_accept(&c, &reg, group);
    new_line(&c, "R3");
    must_refuse(c, 11, group);
    new_line(&c, "R2");
    expect_state(&reg, 1, 1, TODAY);
    must_accept(&c, &reg, group);
    empty_register(&c.reg, version, 1);
    c.reg.len--;
    must_refuse(c, 11, group);
    printf("%s, version %u\n", group, version);
}

static void findings_are_listed(void) {
    const char *group = "findings: bits, codes, later entries, register";
    static const struct finding absent[1] = {{24, 1}};
    static const struct finding absent_and_entity[2] = {{24, 1}, {60, 6}};
    static const struct finding first[1] = {{1001, 73}};
    struct call c = good_call();
    cxl_line(&c, "R1");
    must_find(&c, absent, 1, group);
    begin(&c.list[LEI], "LEI");
    must_find(&c, absent_and_entity, 2, group);
    first_cell(&c, "x");
    must_find(&c, first, 1, group);
    /* every cell but the first is wrong, so the last bits and entries are in use */
    struct finding most[65];
    uint16_t count = 0;
    const char *cells[66] = {[1] = "NEW"};
    for (uint16_t f = 2; f <= 65; f++) {
        cells[f] = "\x80";
        most[count].code = (uint16_t)(1000 + f);
        most[count++].bit = (uint16_t)(72 + f);
    }
    line_of(&c, cells);
    must_find(&c, most, count, group);
    /* a basket that is well formed, but for the check digit of its ISIN */
    struct finding isin[65] = {{470, 52}};
    count = 1;
    for (uint16_t i = 0; i < 64; i++) {
        if (most[i].code != 1047) {
            isin[count++] = most[i];
        }
    }
    cells[47] = "OTHR:{0:DE0005557507}";
    line_of(&c, cells);
    must_find(&c, isin, count, group);
    printf("%s\n", group);
}

static void lists_are_framed(void) {
    const char *group = "refusals 1 to 5: a byte too few, a byte too many, mark, version, count, under 9 bytes";
    for (uint16_t i = 0; i < LISTS; i++) {
        struct call c = good_call();
        size_t len = c.list[i].len;
        size_t short_of[] = {0, 1, 8, 9, len - 1, len + 1};
        for (size_t k = 0; k < sizeof short_of / sizeof short_of[0]; k++) {
            c.list[i].len = short_of[k];
            must_refuse(c, i + 1, group);
        }
        c.list[i].len = len;
        for (size_t at = 0; at < 9; at++) {
            c.list[i].at[at]++;
            must_refuse(c, i + 1, group);
            c.list[i].at[at] -= 2;
            must_refuse(c, i + 1, group);
            c.list[i].at[at]++;
        }
        begin(&c.list[i], marks[i]);
        c.list[i].len = 8;
        must_refuse(c, i + 1, group);
        c.list[i].len = 10;
        must_refuse(c, i + 1, group);
        c.list[i].len = 9;
        c.room = BOANHETRI_BASE_CODES - 1;
        must_refuse(c, 8, group);
    }
    printf("%s\n", group);
}

static void register_is_framed(uint8_t version) {
    const char *group = "refusal 6: a byte too few, mark, version, rows used; a byte too many is none";
    static const uint8_t unknown[] = {0, 3, 4, 255};
    struct call c = good_call();
    empty_register(&c.reg, version, 2);
    struct bytes reg = c.reg;
    expect_row(&reg, "R1");
    for (size_t at = 0; at < 3; at++) {
        struct call d = c;
        d.reg.at[at]++;
        must_refuse(d, 6, group);
        d.reg.at[at] -= 2;
        must_refuse(d, 6, group);
    }
    for (size_t i = 0; i < sizeof unknown; i++) {
        struct call d = c;
        d.reg.at[3] = unknown[i];
        must_refuse(d, 6, group);
    }
    for (uint8_t high = 1; high; high = (uint8_t)(high << 1)) {
        struct call d = c;
        d.reg.at[4] = high;
        must_refuse(d, 6, group);
    }
    for (size_t len = 0; len < 9; len++) {
        c.reg.len = len;
        must_refuse(c, 6, group);
    }
    c.reg.len = reg.len;
    c.reg.at[5] = 3;
    must_refuse(c, 6, group);
    c.reg.at[5] = 2;
    c.reg.len--;
    must_refuse(c, 6, group);
    c.reg.at[5] = 0;
    c.reg.at[8] = 1;
    c.reg.len++;
    must_refuse(c, 6, group);
    c.reg.at[8] = 0;
    c.reg.len++;
    reg.len++;
    must_accept(&c, &reg, group);
    printf("%s, version %u\n", group, version);
}

/* Converts: the answer and the whole target must be these, and the source stays. */
static void must_convert(const struct bytes *from, const struct bytes *to, uint16_t answer, const struct bytes *left, const char *group) {
    struct bytes source = *from;
    struct bytes target = *to;
    uint16_t no = boanhetri_convert(source.at, source.len, target.at, target.len);
    if (no != answer) {
        printf("%s: answer %u; wanted %u\n", group, no, answer);
    }
    must(no == answer, group, "answer");
    must(same_bytes(&target, left), group, "target");
    must(same_bytes(&source, from), group, "source");
}

static void a_register_is_converted(void) {
    const char *group = "a conversion: 6, then 12, then the used rows with day 0, over which the next lines are judged";
    struct call c = good_call();
    empty_register(&c.reg, 1, 3);
    struct bytes reg = c.reg;
    expect_row(&reg, "R1");
    must_accept(&c, &reg, group);
    new_line(&c, "R2");
    expect_row(&reg, "R2");
    must_accept(&c, &reg, group);
    cxl_line(&c, "R1");
    expect_state(&reg, 0, 2, TODAY);
    must_accept(&c, &reg, group);

    struct bytes to;
    memset(&to.at, 0x3C, sizeof to.at);
    to.len = 9 + 2 * 78 - 1;
    must_convert(&c.reg, &to, 12, &to, group);
    to.len = 0;
    must_convert(&c.reg, &to, 12, &to, group);
    struct bytes bad = c.reg;
    bad.at[5] = 4;
    must_convert(&bad, &to, 6, &to, group);
    empty_register(&bad, 2, 1);
    must_convert(&bad, &to, 6, &to, group);
    empty_register(&bad, 1, 1);
    bad.len = 8;
    must_convert(&bad, &to, 6, &to, group);

    to.len = 9 + 3 * 78;
    struct bytes left = to;
    memcpy(left.at, c.reg.at, 9);
    left.at[3] = 2;
    for (size_t row = 0; row < 2; row++) {
        memcpy(left.at + 9 + 78 * row, c.reg.at + 9 + 74 * row, 74);
        memset(left.at + 9 + 78 * row + 74, 0, 4);
    }
    must_convert(&c.reg, &to, 0, &left, group);
    to.len = 9 + 2 * 78;
    left.len = to.len;
    must_convert(&c.reg, &to, 0, &left, group);

    left.len = 9 + 3 * 78;
    c.reg = left;
    c.day = TOMORROW;
    new_line(&c, "R1");
    expect_state(&left, 0, 1, TOMORROW);
    must_accept(&c, &left, group);
    printf("%s\n", group);
}

static void moment_is_real(void) {
    const char *group = "refusal 7: the first and last days and microseconds, and those beside them";
    static const uint32_t unreal[] = {0, 18991231, 19000100, 19000229, 20250229, 20250431, 20251301, 20250022, 99991232, 100000101, 4294967295};
    static const uint32_t real[] = {19000101, 20000229, 20250322, 99991231};
    for (size_t i = 0; i < sizeof unreal / sizeof unreal[0]; i++) {
        struct call c = good_call();
        c.day = unreal[i];
        must_refuse(c, 7, group);
    }
    for (size_t i = 0; i < sizeof real / sizeof real[0]; i++) {
        struct call c = good_call();
        c.day = real[i];
        c.micro = 86399999999;
        c.room = BOANHETRI_BASE_CODES - 1;
        must_refuse(c, 8, group);
        c.micro = 86400000000;
        must_refuse(c, 7, group);
        c.micro = ~(uint64_t)0;
        must_refuse(c, 7, group);
    }
    printf("%s\n", group);
}

static void buffer_has_room(void) {
    const char *group = "refusal 8: an entry too few; 138 are enough, or 141 with Polish identifiers";
    for (uint32_t polish = 0; polish < 2; polish++) {
        struct call c = good_call();
        struct bytes reg = c.reg;
        expect_row(&reg, "R1");
        c.polish = polish;
        c.room = 0;
        must_refuse(c, 8, group);
        c.room = polish ? 140 : 137;
        must_refuse(c, 8, group);
        c.room++;
        must_accept(&c, &reg, group);
    }
    printf("%s\n", group);
}

/* A call with numbers in 57 and 59, whose country no rule looks for. */
static struct call polish_call(uint32_t polish, const char *investor, const char *executor) {
    struct call c = good_call();
    const char *cells[66];
    good_cells(cells, "R1");
    cells[57] = investor;
    cells[59] = executor;
    line_of(&c, cells);
    c.polish = polish;
    return c;
}

/* A buyer who is born on another day than 11 says. PL is in no list here, which is 071. */
static struct call born_call(uint32_t polish) {
    struct call c = good_call();
    const char *cells[66];
    good_cells(cells, "R1");
    cells[7] = "NIDN:PL44051401359";
    cells[11] = "1944-05-15";
    cells[29] = "AOTC";
    line_of(&c, cells);
    c.polish = polish;
    return c;
}

static void polish_identifiers(void) {
    const char *group = "Polish identifiers: bits 138 to 140, for every number but 0";
    static const uint32_t asking[] = {1, 2, 256, 65536, 2147483648, 4294967295};
    static const struct finding numbers[2] = {{3307, 138}, {3308, 139}};
    static const struct finding birth[2] = {{71, 8}, {3309, 140}};
    struct call c = polish_call(0, "NIDN:PL44051401358", "NIDN:PL123456789");
    struct bytes reg = c.reg;
    expect_row(&reg, "R1");
    must_accept(&c, &reg, group);
    c = born_call(0);
    must_find(&c, birth, 1, group);
    for (size_t i = 0; i < sizeof asking / sizeof asking[0]; i++) {
        c = polish_call(asking[i], "NIDN:PL44051401359", "NIDN:PL1234563218");
        must_accept(&c, &reg, group);
        c = polish_call(asking[i], "NIDN:PL44051401358", "NIDN:PL123456789");
        must_find(&c, numbers, 2, group);
        c = born_call(asking[i]);
        must_find(&c, birth, 2, group);
    }
    printf("%s\n", group);
}

/* A firm registered on 2018-07-05 that is all four parties and transmits for the buyer. */
static struct call july_call(const char *traded, uint32_t day) {
    struct call c = good_call();
    const char *cells[66];
    lei_row(&c.list[LEI], LATE, 20180705);
    good_cells(cells, "R1");
    cells[7] = cells[12] = cells[16] = cells[21] = "LEI:" LATE;
    cells[26] = LATE;
    cells[28] = traded;
    cells[29] = "AOTC";
    line_of(&c, cells);
    c.day = day;
    return c;
}

static void parties_by_the_trading_day(void) {
    const char *group = "parties: registered on any day until 2 July 2018, by the trading day from 3 July on";
    static const uint32_t submitted[] = {20180703, 20180706, 20230702};
    static const struct finding others[1] = {{260, 32}};
    static const struct finding all[5] = {{70, 7}, {120, 14}, {160, 19}, {210, 26}, {260, 32}};
    for (size_t i = 0; i < sizeof submitted / sizeof submitted[0]; i++) {
        struct call c = july_call("2018-07-02T23:59:59.999999Z", submitted[i]);
        must_find(&c, others, 1, group);
        c = july_call("2018-07-03T00:00:00Z", submitted[i]);
        must_find(&c, all, 5, group);
    }
    struct call c = july_call("2018-07-05T00:00:00Z", 20180706);
    struct bytes reg = c.reg;
    expect_row(&reg, "R1");
    must_accept(&c, &reg, group);
    printf("%s\n", group);
}

static void line_is_short(void) {
    const char *group = "refusal 9: 4,097 bytes; 4,096 are read";
    static const struct finding first[1] = {{1001, 73}};
    struct call c = good_call();
    first_cell(&c, "x");
    while (c.line.len < 4096) {
        add_text(&c.line, "x");
    }
    must_find(&c, first, 1, group);
    add_text(&c.line, "x");
    must_refuse(c, 9, group);
    c.line.len = sizeof c.line.at;
    must_refuse(c, 9, group);
    printf("%s\n", group);
}

static void cells_are_65(void) {
    const char *group = "refusal 10: a bar too few, a bar too many, an empty line";
    struct call c = good_call();
    add_text(&c.line, "|");
    must_refuse(c, 10, group);
    first_cell(&c, "");
    c.line.len--;
    must_refuse(c, 10, group);
    c.line.len = 0;
    must_refuse(c, 10, group);
    printf("%s\n", group);
}

/* Everything is wrong at first, then one thing after the other is mended. */
static void refusals_have_an_order(void) {
    const char *group = "refusals 1 to 11 in their order";
    struct call good = good_call();
    struct call c = good;
    for (size_t i = 0; i < LISTS; i++) {
        c.list[i].len--;
    }
    c.reg.len = 8;
    c.day = 20250229;
    c.room = BOANHETRI_BASE_CODES - 1;
    memset(c.line.at, 'x', sizeof c.line.at);
    c.line.len = 4097;
    for (uint16_t i = 0; i < LISTS; i++) {
        must_refuse(c, i + 1, group);
        c.list[i] = good.list[i];
    }
    must_refuse(c, 6, group);
    empty_register(&c.reg, 1, 0);
    must_refuse(c, 7, group);
    c.day = good.day;
    must_refuse(c, 8, group);
    c.room = good.room;
    must_refuse(c, 9, group);
    c.line.len = 4096;
    must_refuse(c, 10, group);
    c.line = good.line;
    must_refuse(c, 11, group);
    c.reg = good.reg;
    expect_row(&good.reg, "R1");
    must_accept(&c, &good.reg, group);
    printf("%s\n", group);
}

static void nothing_is_kept(void) {
    const char *group = "nothing is kept between calls";
    for (size_t i = 0; i < 2; i++) {
        struct call c = good_call();
        struct bytes reg = c.reg;
        expect_row(&reg, "R1");
        must_accept(&c, &reg, group);
    }
    printf("%s\n", group);
}

/* ---- the day's summary */

/* A table with two records more than are used, and what it must hold. */
struct table {
    struct boanhetri_record records[BOANHETRI_RECORDS + 2];
    struct boanhetri_record common;
};

static struct table table;
static struct table wanted;

/* Free records may hold anything behind their first byte. */
static void empty_table(void) {
    memset(&table, 0xA5, sizeof table);
    memset(&table.common, 0, sizeof table.common);
    for (size_t i = 0; i < BOANHETRI_RECORDS + 2; i++) {
        table.records[i].entity[0] = 0;
    }
    wanted = table;
}

static void expect_entity(size_t row, const char *entity) {
    memset(&wanted.records[row], 0, sizeof wanted.records[row]);
    memcpy(wanted.records[row].entity, entity, 20);
}

/* Notes: what is said and the whole table, to the last byte, must be as wanted. */
static void must_note(const struct bytes *line, struct boanhetri_verdict v, size_t count, bool common, bool stuck, const char *group) {
    struct boanhetri_noted n = boanhetri_note(table.records, count, &table.common, line->at, line->len, v);
    must(n.common == common, group, "where it went");
    must(n.stuck == stuck, group, "a counter at its top");
    must(memcmp(&table, &wanted, sizeof table) == 0, group, "records");
}

static void lines_are_noted(void) {
    const char *group = "lines noted: each under its heading, with its codes, for its entity or in the common record";
    struct call c = good_call();
    empty_register(&c.reg, 2, 1);
    empty_table();
    expect_entity(0, ENTITY);
    wanted.records[0].accepted = 1;
    must_note(&c.line, judge(&c), 3, false, false, group);
    new_line(&c, "R2");
    wanted.records[0].full = 1;
    must_note(&c.line, judge(&c), 3, false, false, group);
    cxl_line(&c, "R1");
    wanted.records[0].cancelled = 1;
    must_note(&c.line, judge(&c), 3, false, false, group);
    cxl_line(&c, "R3");
    wanted.records[0].found = 1;
    wanted.records[0].codes[1] = 1;
    must_note(&c.line, judge(&c), 3, false, false, group);
    /* another entity's, which takes the next record */
    const char *cells[66];
    good_cells(cells, "R4");
    cells[4] = OTHER;
    line_of(&c, cells);
    expect_entity(1, OTHER);
    wanted.records[1].full = 1;
    must_note(&c.line, judge(&c), 3, false, false, group);
    /* 1004, 1001, and a refusal: in the common record */
    cells[4] = "x";
    line_of(&c, cells);
    wanted.common.found = 1;
    wanted.common.codes[76] = 1;
    must_note(&c.line, judge(&c), 3, true, false, group);
    first_cell(&c, "x");
    wanted.common.found = 2;
    wanted.common.codes[73] = 1;
    must_note(&c.line, judge(&c), 3, true, false, group);
    new_line(&c, "R5");
    c.room = BOANHETRI_BASE_CODES - 1;
    wanted.common.refused = 1;
    must_note(&c.line, judge(&c), 3, true, false, group);
    printf("%s\n", group);
}

/* The name of the i-th entity, of 20 bytes. */
static void name_entity(char name[21], size_t i) {
    memset(name, '0', 20);
    name[17] = (char)('0' + i / 100);
    name[18] = (char)('0' + i / 10 % 10);
    name[19] = (char)('0' + i % 10);
    name[20] = 0;
}

static void records_run_out(void) {
    const char *group = "256 records are used, and the others never";
    const struct boanhetri_verdict v = {0, 2, {1, 0, (uint64_t)1 << 12}};
    struct call c = good_call();
    const char *cells[66] = {[1] = "NEW"};
    char name[21];
    empty_table();
    for (size_t i = 0; i < BOANHETRI_RECORDS + 2; i++) {
        name_entity(name, i);
        cells[4] = name;
        line_of(&c, cells);
        bool common = i >= BOANHETRI_RECORDS;
        if (!common) {
            expect_entity(i, name);
        }
        struct boanhetri_record *record = common ? &wanted.common : &wanted.records[i];
        record->found++;
        record->codes[0]++;
        record->codes[BOANHETRI_CODES - 1]++;
        must_note(&c.line, v, BOANHETRI_RECORDS + 2, common, false, group);
    }
    /* room for none */
    wanted.common.found++;
    wanted.common.codes[0]++;
    wanted.common.codes[BOANHETRI_CODES - 1]++;
    must_note(&c.line, v, 0, true, false, group);
    printf("%s\n", group);
}

static void counters_stay(void) {
    const char *group = "a counter at its top stays, and the others rise";
    const struct boanhetri_verdict v = {0, 1, {1, 0, 0}};
    struct call c = good_call();
    empty_table();
    expect_entity(0, ENTITY);
    wanted.records[0].found = 1;
    wanted.records[0].codes[0] = 1;
    must_note(&c.line, v, 1, false, false, group);
    table.records[0].found = wanted.records[0].found = UINT32_MAX - 1;
    wanted.records[0].found++;
    wanted.records[0].codes[0]++;
    must_note(&c.line, v, 1, false, false, group);
    wanted.records[0].codes[0]++;
    must_note(&c.line, v, 1, false, true, group);
    table.records[0].found = wanted.records[0].found = 7;
    table.records[0].codes[0] = wanted.records[0].codes[0] = UINT32_MAX;
    wanted.records[0].found++;
    must_note(&c.line, v, 1, false, true, group);
    printf("%s\n", group);
}

int main(void) {
    for (uint8_t version = 1; version <= 2; version++) {
        a_pair_lives(version);
        a_register_fills(version);
        register_is_framed(version);
    }
    a_register_is_converted();
    findings_are_listed();
    lists_are_framed();
    moment_is_real();
    buffer_has_room();
    polish_identifiers();
    parties_by_the_trading_day();
    line_is_short();
    cells_are_65();
    refusals_have_an_order();
    nothing_is_kept();
    lines_are_noted();
    records_run_out();
    counters_stay();
    if (failures) {
        printf("%d failed\n", failures);
        return 1;
    }
    printf("ok\n");
    return 0;
}
