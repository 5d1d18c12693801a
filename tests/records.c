#include "records.h"

#include <string.h>

enum { BYTES = VUZGARI_RECORD_BYTES, FIELDS = VUZGARI_RECORD_FIELDS, FIELDS_BYTES = FIELDS * sizeof(uint64_t) };

/* Where the fields of the noise call's answer stand in it, each of 4 bytes. */
enum { NUMBER, SIGMA, MILLI, BAND_0, BAND_1, BAND_2, BAND_3, RAIL, ROUNDS, PASSES, ANSWER_FIELDS };

/* What a record is written from. */
struct shot {
    uint32_t shot;
    size_t w, h;
    uint32_t answer[ANSWER_FIELDS];
};

struct named {
    const char *what;
    struct shot shot;
};

/* 297 x 4 windows, all of which the first pass looks at, and its bytes. */
static const struct shot good = {0x01020304, 300, 7, {0, 0x40490FDB, 3142, 600, 300, 200, 80, 8, 4, 1}};
static const uint8_t good_bytes[BYTES] = {
    0x4E, 0x46, 0x04, 0x03, 0x02, 0x01, 0x2C, 0x01, 0x07, 0x00, 0x00, 0xDB, 0x0F, 0x49, 0x40, 0x58, 0x02, 0x00,
    0x00, 0x2C, 0x01, 0x00, 0x00, 0xC8, 0x00, 0x00, 0x00, 0x50, 0x00, 0x00, 0x00, 0x08, 0x00, 0x00, 0x00,
};

/* The same with sides that break the rule, one too low and one too high. */
static const struct shot bad = {0x01020304, 3, 16385, {0, 0x40490FDB, 3142, 600, 300, 200, 80, 8, 4, 1}};

/* 26 by 26 has 529 windows in either pass, 91 by 91 has 44 x 44 and 88 x 88. 16,384 by 4 has one row of 16,381 places:
   the first pass looks at every third, the second at every other one. */
static const struct named taken[] = {
    {"4 by 4", {1, 4, 4, {5, [RAIL] = 1}}},
    {"16,384 columns, first pass", {1, 16384, 4, {5, [RAIL] = 5461}}},
    {"16,384 columns, second pass", {1, 16384, 4, {5, [RAIL] = 8191}}},
    {"16,384 rows, first pass", {1, 4, 16384, {5, [RAIL] = 1820}}},
    {"16,384 rows, second pass", {1, 4, 16384, {5, [RAIL] = 4096}}},
    {"a figure of the first pass", {1, 91, 91, {0, 0x3F800000, [BAND_3] = 1936}}},
    {"a figure of the second pass", {1, 91, 91, {0, 0x3F800000, [BAND_3] = 7744}}},
    {"no figure after the first pass", {1, 91, 91, {7, [BAND_3] = 1936}}},
    {"no figure after the second pass", {1, 91, 91, {7, [BAND_3] = 7744}}},
    {"sigma 0", {1, 26, 26, {0, [BAND_0] = 529}}},
    {"the least sigma above 0", {1, 26, 26, {0, 1, [BAND_0] = 529}}},
    {"sigma 1,000", {1, 26, 26, {0, 0x447A0000, [BAND_0] = 529}}},
    {"512 kept", {1, 26, 26, {0, 0x3F800000, [BAND_1] = 512, [RAIL] = 17}}},
    {"512 kept in four bands", {1, 26, 26, {0, 0x3F800000, 0, 127, 128, 128, 129, 17}}},
    {"number 5 with 512 kept", {1, 26, 26, {5, [BAND_2] = 512, [RAIL] = 17}}},
    {"number 6 with 511 kept", {1, 26, 26, {6, [BAND_2] = 511, [RAIL] = 18}}},
    {"number 7 with none kept", {1, 26, 26, {7, [RAIL] = 529}}},
    {"shot 0", {0, 26, 26, {0, [BAND_0] = 529}}},
    {"the last shot", {UINT32_MAX, 26, 26, {0, [BAND_0] = 529}}},
    {"any milli, rounds and passes", {1, 26, 26, {6, 0, UINT32_MAX, 529, 0, 0, 0, 0, UINT32_MAX, UINT32_MAX}}},
    {"another milli, rounds and passes", {1, 26, 26, {0, 0x3F800000, 0x80000000, 529, 0, 0, 0, 0, 0x100, 0}}},
};

/* Each but the answer of zeros breaks one part of the rule. A side of 3 has no window; of 16,385 it would have those of
   16,384; 65,540 and 2^32 + 4 would be 4 if they were cut, and 4 by 1,024 has 1,021. */
static const struct named broken[] = {
    {"3 columns", {1, 3, 4, {5}}},
    {"3 rows", {1, 4, 3, {5}}},
    {"no columns", {1, 0, 4, {5}}},
    {"no rows", {1, 4, 0, {5}}},
    {"16,385 columns", {1, 16385, 4, {5, [RAIL] = 5461}}},
    {"16,385 rows", {1, 4, 16385, {5, [RAIL] = 1820}}},
    {"65,540 columns", {1, 65540, 1024, {5, [RAIL] = 1021}}},
    {"65,540 rows", {1, 1024, 65540, {5, [RAIL] = 1021}}},
    {"2^32 + 4 columns", {1, (size_t)UINT32_MAX + 5, 1024, {5, [RAIL] = 1021}}},
    {"2^32 + 4 rows", {1, 1024, (size_t)UINT32_MAX + 5, {5, [RAIL] = 1021}}},
    {"2^64 - 1 columns and rows", {1, SIZE_MAX, SIZE_MAX, {5, [RAIL] = 1}}},
    {"sigma above 1,000", {1, 26, 26, {0, 0x447A0001, [BAND_0] = 529}}},
    {"sigma infinite", {1, 26, 26, {0, 0x7F800000, [BAND_0] = 529}}},
    {"sigma a NaN", {1, 26, 26, {0, 0x7FC00000, [BAND_0] = 529}}},
    {"sigma minus 0", {1, 26, 26, {0, 0x80000000, [BAND_0] = 529}}},
    {"sigma minus 1", {1, 26, 26, {0, 0xBF800000, [BAND_0] = 529}}},
    {"sigma a NaN with a minus sign", {1, 26, 26, {0, UINT32_MAX, [BAND_0] = 529}}},
    {"number 5 with a sigma", {1, 26, 26, {5, 1, [RAIL] = 529}}},
    {"number 6 with a sigma", {1, 26, 26, {6, 0x3F800000, [BAND_0] = 529}}},
    {"number 7 with minus 0", {1, 26, 26, {7, 0x80000000, [BAND_0] = 529}}},
    {"511 kept", {1, 26, 26, {0, 0x3F800000, [BAND_1] = 511, [RAIL] = 18}}},
    {"none kept", {1, 26, 26, {0, 0x3F800000, [RAIL] = 529}}},
    {"an answer of zeros", {1, 26, 26, {0}}},
    {"a window short", {1, 26, 26, {0, 0x3F800000, [BAND_1] = 528}}},
    {"a window too many", {1, 26, 26, {0, 0x3F800000, [BAND_1] = 530}}},
    {"a window short of the first pass", {1, 91, 91, {5, [RAIL] = 1935}}},
    {"a window past the first pass", {1, 91, 91, {5, [RAIL] = 1937}}},
    {"a window short of the second pass", {1, 91, 91, {5, [RAIL] = 7743}}},
    {"a window past the second pass", {1, 91, 91, {5, [RAIL] = 7745}}},
    {"both passes", {1, 91, 91, {5, [BAND_0] = 1936, [RAIL] = 7744}}},
    {"2^32 + 529 kept", {1, 26, 26, {0, 0x3F800000, [BAND_0] = UINT32_MAX, [BAND_3] = 530}}},
    {"530 kept, with the rail 2^32 + 529", {1, 26, 26, {5, 0, 0, 529, 1, 0, 0, UINT32_MAX}}},
    {"2^34 + 529 in all", {1, 26, 26, {0, 0x3F800000, 0, UINT32_MAX, UINT32_MAX, UINT32_MAX, UINT32_MAX, 533}}},
};

/* ---- What is expected. */

static void fields_of(const struct shot *shot, uint64_t *fields)
{
    const uint32_t *answer = shot->answer;
    const uint64_t all[FIELDS] = {
        shot->shot,     shot->w,        shot->h,        answer[NUMBER], answer[SIGMA],
        answer[BAND_0], answer[BAND_1], answer[BAND_2], answer[BAND_3], answer[RAIL],
    };
    memcpy(fields, all, sizeof all);
}

static size_t put(uint8_t *bytes, size_t at, size_t count, uint64_t value)
{
    for (size_t k = 0; k < count; k++) {
        bytes[at + k] = (uint8_t)(value >> 8 * k);
    }
    return at + count;
}

static const size_t field_bytes[FIELDS] = {4, 2, 2, 1, 4, 4, 4, 4, 4, 4};

static void bytes_of(const struct shot *shot, uint8_t *bytes)
{
    uint64_t fields[FIELDS];
    fields_of(shot, fields);
    size_t at = put(bytes, 0, 2, 0x464E);
    for (size_t k = 0; k < FIELDS; k++) {
        at = put(bytes, at, field_bytes[k], fields[k]);
    }
}

/* Whether the sides and the answer fit their bytes: else no bytes are those of the record. */
static bool fits(const struct shot *shot)
{
    return shot->w <= UINT16_MAX && shot->h <= UINT16_MAX && shot->answer[NUMBER] <= UINT8_MAX;
}

/* ---- Calls. */

static struct room open_answer(const struct shot *shot, size_t bytes)
{
    uint8_t whole[VUZGARI_ANSWER_BYTES];
    for (size_t k = 0; k < ANSWER_FIELDS; k++) {
        put(whole, 4 * k, 4, shot->answer[k]);
    }
    struct room answer = open_filled(bytes);
    memcpy(answer.at, whole, bytes < sizeof whole ? bytes : sizeof whole);
    make_read_only(&answer);
    return answer;
}

/* The first bytes of a record, and what fills the room past it. */
static struct room open_record(const uint8_t *record, size_t bytes)
{
    struct room room = open_filled(bytes);
    memcpy(room.at, record, bytes < BYTES ? bytes : BYTES);
    make_read_only(&room);
    return room;
}

static uint32_t call_write(const struct shot *shot, const struct room *answer, struct room *out)
{
    calls++;
    return vuzgari_record_write(shot->shot, shot->w, shot->h, answer->at, answer->bytes, out->at, out->bytes);
}

static uint32_t call_read(const struct room *bytes, struct room *fields)
{
    calls++;
    return vuzgari_record_read(bytes->at, bytes->bytes,
                               (uint64_t *)(void *)fields->at, fields->bytes / sizeof(uint64_t));
}

/* Reads a record that is taken, into `count` fields or more. */
static void reads(const struct room *bytes, const struct shot *shot, size_t count)
{
    uint64_t expected[FIELDS];
    fields_of(shot, expected);
    struct room fields = open_filled(count * sizeof(uint64_t));
    hold(call_read(bytes, &fields) == VUZGARI_GIVEN, "not read");
    hold(memcmp(fields.at, expected, sizeof expected) == 0, "other fields");
    hold(filled_from(&fields, FIELDS_BYTES), "fields beyond changed");
    close_room(&fields);
}

/* Writes a record that is taken, and reads it back from where it stands. */
static void writes(const struct shot *shot, const struct room *answer, size_t out_bytes)
{
    uint8_t expected[BYTES];
    bytes_of(shot, expected);
    struct room out = open_filled(out_bytes);
    hold(call_write(shot, answer, &out) == VUZGARI_GIVEN, "not written");
    hold(memcmp(out.at, expected, sizeof expected) == 0, "another record");
    hold(filled_from(&out, BYTES), "bytes beyond changed");
    make_read_only(&out);
    reads(&out, shot, FIELDS);
    reads(&out, shot, FIELDS + 1);
    reads(&out, shot, whole_pages(FIELDS_BYTES) / sizeof(uint64_t));
    close_room(&out);
}

/* A write that is refused, everything lent read-only. */
static void write_refused(const struct shot *shot, size_t answer_bytes, size_t out_bytes, uint32_t number)
{
    struct room answer = open_answer(shot, answer_bytes);
    struct room out = open_filled(out_bytes);
    make_read_only(&out);
    hold(call_write(shot, &answer, &out) == number, "another number of writing");
    close_room(&answer);
    close_room(&out);
}

/* A reading that is refused, everything lent read-only. */
static void read_refused(const uint8_t *record, size_t bytes, size_t count, uint32_t number)
{
    struct room lent = open_record(record, bytes);
    struct room fields = open_filled(count * sizeof(uint64_t));
    make_read_only(&fields);
    hold(call_read(&lent, &fields) == number, "another number of reading");
    close_room(&lent);
    close_room(&fields);
}

/* ---- The rule. */

static void take(const struct shot *shot)
{
    struct room answer = open_answer(shot, VUZGARI_ANSWER_BYTES);
    writes(shot, &answer, BYTES);
    writes(shot, &answer, BYTES + 5);
    writes(shot, &answer, whole_pages(BYTES));
    close_room(&answer);
}

/* A record that breaks the rule: 19, after 4 and before 18 in writing, after 4 and 18 in reading. */
static void refuse(const struct shot *shot)
{
    write_refused(shot, VUZGARI_ANSWER_BYTES, BYTES, VUZGARI_BROKEN_RULE);
    write_refused(shot, VUZGARI_ANSWER_BYTES, BYTES - 1, VUZGARI_BROKEN_RULE);
    write_refused(shot, VUZGARI_ANSWER_BYTES - 1, BYTES - 1, VUZGARI_SHORT_SLICE);
    if (fits(shot)) {
        uint8_t bytes[BYTES];
        bytes_of(shot, bytes);
        read_refused(bytes, BYTES, FIELDS, VUZGARI_BROKEN_RULE);
        read_refused(bytes, BYTES - 1, FIELDS, VUZGARI_SHORT_RECORD);
        read_refused(bytes, BYTES - 1, FIELDS - 1, VUZGARI_SHORT_SLICE);
    }
}

static void limits(void)
{
    for (size_t k = 0; k < sizeof taken / sizeof *taken; k++) {
        begin("record", taken[k].what);
        take(&taken[k].shot);
    }
    for (size_t k = 0; k < sizeof broken / sizeof *broken; k++) {
        begin("broken record", broken[k].what);
        refuse(&broken[k].shot);
    }
}

static bool is_stored(uint32_t number)
{
    return number == VUZGARI_GIVEN || number == VUZGARI_FEW || number == VUZGARI_NONE || number == VUZGARI_THIN;
}

/* Every answer of one byte; and those that would be one of 0, 5, 6 and 7 if they were cut. */
static void answers(void)
{
    struct shot shot = {1, 26, 26, {0, [BAND_0] = 529}};
    for (uint32_t number = 0; number < 2 * 256; number++) {
        char what[16];
        snprintf(what, sizeof what, "answer %u", (unsigned)number);
        begin("record", what);
        shot.answer[NUMBER] = number;
        if (is_stored(number)) {
            take(&shot);
        } else {
            refuse(&shot);
        }
    }
    begin("record", "answer 2^16, 2^31 + 5, 2^32 - 1");
    static const uint32_t larger[] = {65536, (uint32_t)INT32_MAX + 6, UINT32_MAX};
    for (size_t k = 0; k < sizeof larger / sizeof *larger; k++) {
        shot.answer[NUMBER] = larger[k];
        refuse(&shot);
    }
}

/* Every byte in the place of either byte of the mark: 17, also where the rule is broken. */
static void marks(void)
{
    begin("record", "another mark");
    for (size_t at = 0; at < 2; at++) {
        for (unsigned byte = 0; byte < 256; byte++) {
            uint8_t bytes[BYTES];
            if (byte == good_bytes[at]) {
                continue;
            }
            memcpy(bytes, good_bytes, BYTES);
            bytes[at] = (uint8_t)byte;
            read_refused(bytes, BYTES, FIELDS, VUZGARI_OTHER_MARK);
            bytes_of(&bad, bytes);
            bytes[at] = (uint8_t)byte;
            read_refused(bytes, BYTES, FIELDS, VUZGARI_OTHER_MARK);
        }
    }
    uint8_t bytes[BYTES];
    memcpy(bytes, good_bytes, BYTES);
    put(bytes, 0, 2, 0x4E46);
    read_refused(bytes, BYTES, FIELDS, VUZGARI_OTHER_MARK);
}

/* ---- Lengths and orders. */

enum { LONGEST = 40 };

/* 4 before 19 before 18, at every length of both slices. */
static void write_lengths(void)
{
    begin("record", "write, every length of the answer");
    for (size_t bytes = 0; bytes < VUZGARI_ANSWER_BYTES; bytes++) {
        write_refused(&good, bytes, BYTES, VUZGARI_SHORT_SLICE);
        write_refused(&good, bytes, 0, VUZGARI_SHORT_SLICE);
        write_refused(&bad, bytes, BYTES, VUZGARI_SHORT_SLICE);
        write_refused(&bad, bytes, BYTES - 1, VUZGARI_SHORT_SLICE);
    }
    for (size_t bytes = VUZGARI_ANSWER_BYTES; bytes < VUZGARI_ANSWER_BYTES + 5; bytes++) {
        struct room answer = open_answer(&good, bytes);
        writes(&good, &answer, BYTES);
        close_room(&answer);
    }
    begin("record", "write, every length of the record");
    struct room answer = open_answer(&good, VUZGARI_ANSWER_BYTES);
    for (size_t bytes = 0; bytes <= LONGEST; bytes++) {
        write_refused(&bad, VUZGARI_ANSWER_BYTES, bytes, VUZGARI_BROKEN_RULE);
        if (bytes < BYTES) {
            write_refused(&good, VUZGARI_ANSWER_BYTES, bytes, VUZGARI_SHORT_RECORD);
        } else {
            writes(&good, &answer, bytes);
        }
    }
    close_room(&answer);
}

/* 4 before 18 before 17 before 19, at every length of both slices. */
static void read_lengths(void)
{
    uint8_t unmarked[BYTES], broken_bytes[BYTES];
    bytes_of(&bad, broken_bytes);
    memcpy(unmarked, broken_bytes, BYTES);
    unmarked[1] = 0x47;
    begin("record", "read, every length");
    for (size_t bytes = 0; bytes <= LONGEST; bytes++) {
        for (size_t count = 0; count < FIELDS; count++) {
            read_refused(good_bytes, bytes, count, VUZGARI_SHORT_SLICE);
            read_refused(unmarked, bytes, count, VUZGARI_SHORT_SLICE);
            read_refused(broken_bytes, bytes, count, VUZGARI_SHORT_SLICE);
        }
        bool is_short = bytes < BYTES;
        read_refused(unmarked, bytes, FIELDS, is_short ? VUZGARI_SHORT_RECORD : VUZGARI_OTHER_MARK);
        read_refused(broken_bytes, bytes, FIELDS, is_short ? VUZGARI_SHORT_RECORD : VUZGARI_BROKEN_RULE);
        if (is_short) {
            read_refused(good_bytes, bytes, FIELDS, VUZGARI_SHORT_RECORD);
        } else {
            struct room lent = open_record(good_bytes, bytes);
            reads(&lent, &good, FIELDS);
            close_room(&lent);
        }
    }
}

/* Slices said to be longer than the memory that is there: no call touches what is past its bytes or fields. */
static void beyond(void)
{
    begin("record", "nothing past 40 bytes, 35 and 10 fields");
    struct room answer = open_answer(&good, VUZGARI_ANSWER_BYTES);
    struct room out = open_filled(BYTES);
    struct room fields = open_filled(FIELDS_BYTES);
    answer.bytes = out.bytes = fields.bytes = 8 * VUZGARI_ANSWER_BYTES;
    hold(call_write(&good, &answer, &out) == VUZGARI_GIVEN, "not written");
    hold(memcmp(out.at, good_bytes, BYTES) == 0, "another record");
    hold(call_read(&out, &fields) == VUZGARI_GIVEN, "not read");
    close_room(&answer);
    close_room(&out);
    close_room(&fields);
}

/* Null pointers, with lengths of 0. */
static void nulls(void)
{
    begin("record", "null pointers");
    struct room answer = open_answer(&good, VUZGARI_ANSWER_BYTES);
    struct room bytes = open_record(good_bytes, BYTES);
    struct room fields = open_filled(FIELDS_BYTES);
    make_read_only(&fields);
    struct room none = {0};
    hold(call_write(&good, &none, &none) == VUZGARI_SHORT_SLICE, "no answer, no record");
    hold(call_write(&good, &answer, &none) == VUZGARI_SHORT_RECORD, "no record");
    hold(call_read(&none, &none) == VUZGARI_SHORT_SLICE, "no bytes, no fields");
    hold(call_read(&bytes, &none) == VUZGARI_SHORT_SLICE, "no fields");
    hold(call_read(&none, &fields) == VUZGARI_SHORT_RECORD, "no bytes");
    close_room(&answer);
    close_room(&bytes);
    close_room(&fields);
}

/* The bytes that the other tests expect are those written by hand. */
static void layout(void)
{
    begin("record", "its bytes by hand");
    uint8_t bytes[BYTES];
    bytes_of(&good, bytes);
    hold(memcmp(bytes, good_bytes, BYTES) == 0, "the test lays out another record");
    take(&good);
}

void records(void)
{
    layout();
    limits();
    answers();
    marks();
    write_lengths();
    read_lengths();
    beyond();
    nulls();
}

void measured_record(const struct image *image, const struct room *answer, const struct vuzgari_answer *stored)
{
    struct shot shot = {.shot = 17, .w = image->w, .h = image->h};
    memcpy(shot.answer, stored, sizeof shot.answer);
    writes(&shot, answer, BYTES);
    writes(&shot, answer, BYTES + 1);
}
