/*
 * Boanhetri: one transaction report line of MiFIR Article 26, judged; a judged line, noted in the day's summary by firm; and a
 * register of version 1, converted to version 2.
 *
 * Link with libcapi.a, for x86-64 Linux. Of the C library it uses memcpy and memset alone.
 *
 * What the functions do is proved of their source, for every input that keeps the duties below. Nothing proves this header:
 * it is written by hand, and tests/c holds it to the library.
 */
#ifndef BOANHETRI_H
#define BOANHETRI_H

#include <stdbool.h>
#include <stddef.h>
#include <stdint.h>

#ifdef __cplusplus
extern "C" {
#endif

/* 73 rules and 65 forms of cells, and with the 3 rules for Polish identifiers all codes: the entries that a findings buffer
   must have where `polish` is 0, and where it is not. */
#define BOANHETRI_BASE_CODES 138
#define BOANHETRI_CODES 141

/* `answer`: why a call was refused, or that the line was judged. They are checked in this order, and the first that
   applies is the answer. */
enum boanhetri_answer {
    BOANHETRI_JUDGED = 0,
    /* A list is under 9 bytes, has another mark or version, or is not 9 bytes and its count of whole rows long. */
    BOANHETRI_LEI_LIST = 1,
    BOANHETRI_CTY_LIST = 2,
    BOANHETRI_CCY_LIST = 3,
    BOANHETRI_VEN_LIST = 4,
    BOANHETRI_INS_LIST = 5,
    /* The register is under 9 bytes, has another mark, a version other than 1 and 2, or says that more rows are used than
       fit in it. Of a conversion: so is the source, or it is not of version 1. */
    BOANHETRI_REGISTER = 6,
    /* `day` is no real date in 1900 to 9999, or `micro` is over 86399999999. */
    BOANHETRI_MOMENT = 7,
    /* The findings buffer has under 138 entries, or under 141 where `polish` is not 0. */
    BOANHETRI_FINDINGS = 8,
    /* The line is over 4096 bytes long. */
    BOANHETRI_LINE_LENGTH = 9,
    /* The line has not exactly 65 cells, which is 64 bars. */
    BOANHETRI_CELLS = 10,
    /* The line is a NEW one with no finding, its pair is not in the register, and every row that fits is used. With a
       larger register the same call is answered 0. */
    BOANHETRI_REGISTER_FULL = 11,
    /* Of a conversion alone: the target is too short. */
    BOANHETRI_TARGET = 12
};

struct boanhetri_verdict {
    /* One of the above but the last. Where it is not 0, `count` and `words` are 0, and no byte of the register or the findings buffer
       has changed. */
    uint16_t answer;
    /* How many findings the line has. 0 with answer 0: the line is accepted. */
    uint16_t count;
    /* One bit for each of the 141 codes in rising order, from the lowest bit of words[0] on: 023 is the lowest bit of
       words[0], 1065 is bit 9 and 3309 bit 12 of words[2]. `count` is how many are set. */
    uint64_t words[3];
};

/*
 * Judges one line.
 *
 * Each run of bytes is a pointer and, after it, its length: in bytes, but for `findings`, where it is in entries.
 *
 *   line      the line, without its line end
 *   lei       the list of legal entities:  mark LEI, rows of 30 bytes
 *   cty       the list of countries:       mark CTY, rows of 10
 *   ccy       the list of currencies:      mark CCY, rows of 12
 *   ven       the list of venues:          mark VEN, rows of 13
 *   ins       the list of instruments:     mark INS, rows of 26
 *             Each list: 3 bytes of mark, 16 bits of version (1), 32 bits of row count, rows. Numbers are little-endian.
 *   reg       the register of pairs:       mark TRN, rows of 74 in version 1 and of 78 in version 2
 *             3 bytes of mark, 16 bits of version (1 or 2), 32 bits of rows used, rows. As many rows fit as are whole behind
 *             the 9 bytes of head. To begin with, set the head with 0 rows used; the bytes behind it may hold anything. A row
 *             of version 2 has, in its last 4 bytes, the day of submission of its pair's last accepted line.
 *   day       the day of submission, as the number yyyymmdd
 *   micro     the microsecond of that day, 0 to 86399999999
 *   polish    whether Polish identifiers are judged, 3307 to 3309: 0 if not, and any other number if they are. Nothing else
 *             that is found of a line depends on it.
 *   findings  room for at least 138 codes, or 141 where `polish` is not 0
 *
 * What a call leaves, with answer 0:
 *   findings  the first `count` entries are the codes found, rising, each once; later entries stay as they were.
 *   reg       where `count` is 0, a NEW line has its pair live, in its old row or the next one, and a CXL line has it
 *             cancelled, and both write `day` where the version is 2; no other byte changes, and the version stays. Where
 *             `count` is over 0, no byte changes.
 *
 * What the caller owes:
 *   - Every pointer is good for its length until the call returns: to read, and for `reg` and `findings` also to write.
 *     `findings` is aligned for uint16_t.
 *   - Neither `reg` nor `findings` overlaps the other or anything else that is passed. What is only read may overlap.
 *   - Nothing else writes to any of it, and nothing else reads `reg` or `findings`, until the call returns.
 *   - A length of 0 is allowed everywhere, and nothing is then read or written through that pointer, which can be any but
 *     NULL.
 *   The bytes themselves are free: whatever they hold, the call returns, and within these lengths.
 *
 * Nothing is kept between calls, nothing is allocated, and neither a file nor a clock is read: the same input has the same
 * result. The function is reentrant; calls with different registers and findings buffers may run at the same time, also
 * with the same line and lists.
 */
struct boanhetri_verdict boanhetri_judge(
    const uint8_t *line, size_t line_len,
    const uint8_t *lei, size_t lei_len,
    const uint8_t *cty, size_t cty_len,
    const uint8_t *ccy, size_t ccy_len,
    const uint8_t *ven, size_t ven_len,
    const uint8_t *ins, size_t ins_len,
    uint8_t *reg, size_t reg_len,
    uint32_t day,
    uint64_t micro,
    uint32_t polish,
    uint16_t *findings, size_t findings_len);

/* No record behind this many is used. */
#define BOANHETRI_RECORDS 256

/* What is counted of an executing entity's lines, or in the common record. A line counts under one of the five headings, and
   beside that under each code that it has. A counter at 4294967295 stays there. */
struct boanhetri_record {
    /* Cell 4 of its lines. A record is free while the first byte is 0; its other bytes may then hold anything. */
    uint8_t entity[20];
    /* Lines accepted as NEW, and as CXL. */
    uint32_t accepted;
    uint32_t cancelled;
    /* Lines judged with findings. */
    uint32_t found;
    /* Lines refused by 11, the register being full. */
    uint32_t full;
    /* Lines refused by 1 to 10: in the common record alone. */
    uint32_t refused;
    /* Lines with each code, in the order of the bits of a verdict. */
    uint32_t codes[BOANHETRI_CODES];
};

struct boanhetri_noted {
    /* The common record took the line. */
    bool common;
    /* A counter that the line should have raised was at its top, and stayed. The others rose. */
    bool stuck;
};

/*
 * Notes one line in the day's summary, with the verdict that it got.
 *
 *   records   the table: a record for each executing entity, by first appearance
 *   count     how many records there are; those from BOANHETRI_RECORDS on are not looked at
 *   common    the common record
 *   line      the line as it was judged
 *   verdict   what `boanhetri_judge` answered
 *
 * The line counts in the record of its entity, cell 4; a new entity takes the first free record, and its counters begin at 0.
 * The common record takes a line that was refused by 1 to 10, one with 1001 or 1004 found, whose entity is not known, and one of a
 * new entity where no record is free. No other byte changes; of the common record the entity stays as it is.
 *
 * To begin a day, set the common record and the first byte of each record to 0. From then on, if only this function writes them,
 * and for fewer than 4294967295 lines, each number is the count of such lines, and the five counts of all records that are taken
 * and of the common record add up to the lines noted.
 *
 * What the caller owes: `records` is good for `count` records and `common` for one, to read and to write, aligned for uint32_t;
 * `line` for its length, to read; neither `records` nor `common` overlaps the other or `line`; nothing else writes to any of it
 * or reads the records until the call returns. A count or a length of 0 is allowed, as above. The bytes are free: whatever
 * records, line and verdict hold, the call returns, and within these lengths. Nothing is kept between calls.
 */
struct boanhetri_noted boanhetri_note(
    struct boanhetri_record *records, size_t count,
    struct boanhetri_record *common,
    const uint8_t *line, size_t line_len,
    struct boanhetri_verdict verdict);

/*
 * Writes a register of version 1 into another buffer as version 2.
 *
 *   from      the source, which is only read
 *   to        the target, of at least 9 bytes and 78 for each row used
 *
 * The answer is BOANHETRI_REGISTER where the source cannot be read as version 1, else BOANHETRI_TARGET where the target is too
 * short, and no byte has changed; else 0. Then the target begins with a head of version 2 and the same number of rows used,
 * and the rows stand in their places, each with its pair and state as they are and 0 for its day. What the target held is not
 * looked at, and its bytes behind the rows stay. It then has room for the rows that fit in it.
 *
 * What the caller owes: both pointers are good for their lengths until the call returns, `from` to read and `to` to write; they
 * do not overlap; nothing else writes to either or reads `to` until then. A length of 0 is allowed, as above.
 */
uint16_t boanhetri_convert(const uint8_t *from, size_t from_len, uint8_t *to, size_t to_len);

#ifdef __cplusplus
}
#endif

#endif
