#define _POSIX_C_SOURCE 200809L

#include "pgm.h"

#include "rooms.h"

#include <regex.h>
#include <stdlib.h>
#include <string.h>

enum { HEADER = VUZGARI_PGM_HEADER_BYTES, FIELDS = VUZGARI_PGM_FIELDS, FIELDS_BYTES = FIELDS * sizeof(uint64_t) };

/* A header and what stands in it: width, height, maximum, its length; none where the first is 0. */
struct header {
    const char *text;
    uint64_t fields[FIELDS];
};

static const struct header longest = {"P5 12345 67890 13579 ", {12345, 67890, 13579, HEADER}};

/* In the subset. */
static const struct header taken[] = {
    {"P5 26 26 255 ", {26, 26, 255, 13}},
    {"P5\n26\n26\n255\n", {26, 26, 255, 13}},
    {"P5\t26\t26\t255\t", {26, 26, 255, 13}},
    {"P5\r26\r26\r255\r", {26, 26, 255, 13}},
    {"P5\n30 24\n255\n", {30, 24, 255, 13}},
    {"P5\r1\n2\t3 ", {1, 2, 3, 9}},
    {"P5 9 10 99\n", {9, 10, 99, 11}},
    {"P5 99999 99999 99999 ", {99999, 99999, 99999, 21}},
    {"P5 10000 90000 65535\n", {10000, 90000, 65535, 21}},
    {"P5 65536 65536 255\n", {65536, 65536, 255, 19}},
    {"P5 26 26 256\n", {26, 26, 256, 13}},
    {"P5 26 26 255\r\n", {26, 26, 255, 13}},
    {"P5 26 26 255\n\n", {26, 26, 255, 13}},
    {"P5 26 26 255 255 ", {26, 26, 255, 13}},
    {"P5 26 26 255\n# box 7\n", {26, 26, 255, 13}},
};

/* Beyond it. */
static const struct header broken[] = {
    {.text = ""},
    {.text = "P"},
    {.text = "P5"},
    {.text = "P2 26 26 255 "},
    {.text = "P6 26 26 255 "},
    {.text = "p5 26 26 255 "},
    {.text = " P5 26 26 255 "},
    {.text = "P526 26 255 "},
    {.text = "P5  26 26 255 "},
    {.text = "P5\r\n26 26 255 "},
    {.text = "P5 26  26 255 "},
    {.text = "P5 26 26\r\n255 "},
    {.text = "P5\v26 26 255 "},
    {.text = "P5 26\f26 255 "},
    {.text = "P5 26 26 255"},
    {.text = "P5 26 26 100"},
    {.text = "P5 26 26 "},
    {.text = "P5 26 26"},
    {.text = "P5 0 26 255 "},
    {.text = "P5 26 0 255 "},
    {.text = "P5 26 26 0 "},
    {.text = "P5 026 26 255 "},
    {.text = "P5 26 026 255 "},
    {.text = "P5 26 26 0255 "},
    {.text = "P5 123456 26 255 "},
    {.text = "P5 26 123456 255 "},
    {.text = "P5 26 26 123456 "},
    {.text = "P5 99999 99999 999999 "},
    {.text = "P5 -26 26 255 "},
    {.text = "P5 26 +26 255 "},
    {.text = "P5 26 26 255. "},
    {.text = "P5\n# box 7\n26 26\n255\n"},
    {.text = "P5\n26 26\n# box 7\n255\n"},
    {.text = "P5\n26 26 255#\n"},
};

/* ---- What is expected. */

#define BLANK "[ \t\r\n]"
#define NUMBER "([1-9][0-9]{0,4})"

/* The subset as a regular expression: what stands at the front of these bytes, of which there are at most 63. */
static struct header header_of(const uint8_t *bytes, size_t count)
{
    static regex_t subset;
    static bool compiled;
    if (!compiled) {
        hold(regcomp(&subset, "^P5" BLANK NUMBER BLANK NUMBER BLANK NUMBER BLANK, REG_EXTENDED) == 0, "regcomp");
        compiled = true;
    }
    char text[64] = {0}; /* a byte 0 ends it, as it ends a header */
    struct header header = {0};
    regmatch_t part[FIELDS];
    memcpy(text, bytes, count);
    if (regexec(&subset, text, FIELDS, part, 0) == 0) {
        for (size_t k = 0; k + 1 < FIELDS; k++) {
            header.fields[k] = strtoull(text + part[k + 1].rm_so, NULL, 10);
        }
        header.fields[FIELDS - 1] = (uint64_t)part[0].rm_eo;
    }
    return header;
}

static bool is_header(const struct header *header)
{
    return header->fields[0] != 0;
}

static uint32_t judgement(const struct header *header, size_t file_len)
{
    const uint64_t *fields = header->fields;
    if (!is_header(header)) {
        return VUZGARI_PGM_HEADER;
    }
    if (fields[2] != 255) {
        return VUZGARI_PGM_MAXIMUM;
    }
    return file_len - fields[3] == fields[0] * fields[1] ? VUZGARI_GIVEN : VUZGARI_PGM_RASTER;
}

/* ---- Calls. */

/* Says what follows, with _ for whitespace. */
static void begin_header(const char *what, const char *text)
{
    char line[64];
    snprintf(line, sizeof line, "%s", text);
    for (size_t k = 0; line[k] != '\0'; k++) {
        line[k] = strchr(" \t\r\n\v\f", line[k]) != NULL ? '_' : line[k];
    }
    begin(what, line);
}

/* The text, and what fills the room past it: no byte of a header. */
static struct room open_front(const char *text, size_t bytes)
{
    struct room front = open_room(bytes);
    size_t length = strlen(text);
    memset(front.at, 0x80, bytes);
    memcpy(front.at, text, bytes < length ? bytes : length);
    make_read_only(&front);
    return front;
}

static uint32_t call_header(const struct room *front, struct room *fields)
{
    calls++;
    return vuzgari_pgm_header(front->at, front->bytes,
                              (uint64_t *)(void *)fields->at, fields->bytes / sizeof(uint64_t));
}

static uint32_t call_judge(const struct room *front, size_t file_len)
{
    calls++;
    return vuzgari_pgm_judge(front->at, front->bytes, file_len);
}

/* Reads a header that is there, into `count` fields or more. */
static void reads(const struct room *front, const struct header *header, size_t count)
{
    struct room fields = open_filled(count * sizeof(uint64_t));
    hold(call_header(front, &fields) == VUZGARI_GIVEN, "not read");
    hold(memcmp(fields.at, header->fields, FIELDS_BYTES) == 0, "other fields");
    hold(filled_from(&fields, FIELDS_BYTES), "fields beyond changed");
    close_room(&fields);
}

/* A reading that is refused, everything lent read-only. */
static void read_refused(const struct room *front, size_t count, uint32_t number)
{
    struct room fields = open_filled(count * sizeof(uint64_t));
    make_read_only(&fields);
    hold(call_header(front, &fields) == number, "another number of reading");
    close_room(&fields);
}

/* 4 before all else; then the header, or 20. */
static void read_front(const struct room *front, const struct header *header)
{
    for (size_t count = 0; count < FIELDS; count++) {
        read_refused(front, count, VUZGARI_SHORT_SLICE);
    }
    for (size_t count = FIELDS; count <= FIELDS + 2; count++) {
        if (is_header(header)) {
            reads(front, header, count);
        } else {
            read_refused(front, count, VUZGARI_PGM_HEADER);
        }
    }
}

/* ---- The subset. */

/* A file that begins so, read and judged by its first bytes. */
static void try_file(const struct header *header, size_t file_len, size_t bytes)
{
    struct room front = open_front(header->text, bytes);
    read_front(&front, header);
    hold(call_judge(&front, file_len) == judgement(header, file_len), "another judgement");
    close_room(&front);
}

/* Files that begin so, by all their bytes and by their first 21. */
static void try_header(const struct header *header)
{
    static const size_t rasters[] = {0, 1, 2, 675, 676, 677, 720};
    size_t length = strlen(header->text);
    for (size_t k = 0; k < sizeof rasters / sizeof *rasters; k++) {
        size_t file_len = length + rasters[k];
        try_file(header, file_len, file_len);
        try_file(header, file_len, file_len < HEADER ? file_len : HEADER);
    }
}

static void same(const struct header *by_hand)
{
    struct header header = header_of((const uint8_t *)by_hand->text, strlen(by_hand->text));
    hold(memcmp(header.fields, by_hand->fields, FIELDS_BYTES) == 0, "the test reads another header");
}

static void edges(void)
{
    for (size_t k = 0; k < sizeof taken / sizeof *taken; k++) {
        begin_header("grey file", taken[k].text);
        same(&taken[k]);
        try_header(&taken[k]);
    }
    for (size_t k = 0; k < sizeof broken / sizeof *broken; k++) {
        begin_header("broken grey file", broken[k].text);
        same(&broken[k]);
        try_header(&broken[k]);
    }
}

/* A front that is cut at each byte, as of a file that ends there. */
static void cuts(void)
{
    for (size_t k = 0; k < sizeof taken / sizeof *taken; k++) {
        begin_header("cut grey file", taken[k].text);
        for (size_t bytes = 0; bytes <= strlen(taken[k].text); bytes++) {
            struct header header = bytes < taken[k].fields[3] ? (struct header){0} : taken[k];
            header.text = taken[k].text;
            try_file(&header, bytes, bytes);
        }
    }
}

/* A front of 21 bytes, rewritten for each of many readings. */
static void try_front(struct room *front, struct room *fields, const uint8_t *bytes)
{
    struct header header = header_of(bytes, HEADER);
    size_t file_len = is_header(&header) ? header.fields[3] + header.fields[0] * header.fields[1] : HEADER;
    memcpy(front->at, bytes, HEADER);
    memset(fields->at, 0xA5, fields->bytes);
    uint32_t number = call_header(front, fields);
    if (is_header(&header)) {
        hold(number == VUZGARI_GIVEN, "not read");
        hold(memcmp(fields->at, header.fields, FIELDS_BYTES) == 0, "other fields");
    } else {
        hold(number == VUZGARI_PGM_HEADER, "read");
    }
    for (size_t k = is_header(&header) ? FIELDS_BYTES : 0; k < fields->bytes; k++) {
        hold(fields->at[k] == 0xA5, "fields beyond changed");
    }
    if (file_len >= HEADER) {
        hold(call_judge(front, file_len) == judgement(&header, file_len), "another judgement");
        hold(call_judge(front, file_len + 1) == judgement(&header, file_len + 1), "another judgement of a longer file");
    }
}

/* Each byte of some headers replaced by every other one. */
static void bytes_of_headers(struct room *front, struct room *fields)
{
    begin("grey file", "every byte in each place");
    for (size_t k = 0; k < sizeof taken / sizeof *taken; k++) {
        for (size_t at = 0; at < HEADER; at++) {
            for (unsigned byte = 0; byte < 256; byte++) {
                uint8_t bytes[HEADER];
                memset(bytes, 0x80, HEADER);
                memcpy(bytes, taken[k].text, strlen(taken[k].text) < HEADER ? strlen(taken[k].text) : HEADER);
                bytes[at] = (uint8_t)byte;
                try_front(front, fields, bytes);
            }
        }
    }
}

static uint32_t draw(uint32_t below)
{
    static uint32_t state = 1;
    state = state * 1664525u + 1013904223u;
    return (state >> 16) % below;
}

/* Draws `count` of the letters. */
static size_t put_drawn(uint8_t *bytes, const char *letters, uint32_t count)
{
    for (uint32_t k = 0; k < count; k++) {
        bytes[k] = (uint8_t)letters[draw((uint32_t)strlen(letters))];
    }
    return count;
}

/* Whitespace and numbers, rarely too many or too few letters of them, or another byte; every other maximum is 255. */
static void draw_front(uint8_t bytes[64])
{
    size_t at = 2;
    memcpy(bytes, "P5", 2);
    for (size_t part = 0; part < 4; part++) {
        at += put_drawn(bytes + at, " \t\r\n", draw(20) == 0 ? draw(3) : 1);
        if (part == 2 && draw(2) == 0) {
            memcpy(bytes + at, "255", 3);
            at += 3;
        } else {
            at += put_drawn(bytes + at, "0123456789", draw(20) == 0 ? draw(7) : 1 + draw(5));
        }
    }
    if (draw(4) == 0) {
        bytes[draw(HEADER)] = (uint8_t)draw(256);
    }
}

static void drawn_headers(struct room *front, struct room *fields)
{
    enum { TURNS = 50000 };
    unsigned headers = 0;
    begin("grey file", "drawn headers");
    for (unsigned turn = 0; turn < TURNS; turn++) {
        uint8_t bytes[64] = {0};
        draw_front(bytes);
        struct header header = header_of(bytes, HEADER);
        headers += is_header(&header);
        try_front(front, fields, bytes);
    }
    hold(headers > TURNS / 4 && headers < 3 * (TURNS / 4), "nearly all that is drawn is a header, or nearly none");
}

static void many_headers(void)
{
    struct room front = open_room(HEADER);
    struct room fields = open_room(FIELDS_BYTES + sizeof(uint64_t));
    bytes_of_headers(&front, &fields);
    drawn_headers(&front, &fields);
    close_room(&front);
    close_room(&fields);
}

/* ---- Lengths. */

/* Every length of a small file, and the lengths where a product or a sum in 32 or 64 bits would be another. */
static void file_lengths(void)
{
    begin("grey file", "every length");
    struct room front = open_front("P5\n26 26\n255\n", HEADER);
    for (size_t file_len = HEADER; file_len < 1000; file_len++) {
        uint32_t number = file_len == 13 + 26 * 26 ? VUZGARI_GIVEN : VUZGARI_PGM_RASTER;
        hold(call_judge(&front, file_len) == number, "another judgement");
    }
    static const size_t longer[] = {(size_t)UINT32_MAX + 1 + 689, SIZE_MAX, SIZE_MAX - 12, (size_t)1 << 63};
    for (size_t k = 0; k < sizeof longer / sizeof *longer; k++) {
        hold(call_judge(&front, longer[k]) == VUZGARI_PGM_RASTER, "another judgement of a longer file");
    }
    close_room(&front);

    static const struct header large[] = {
        {"P5 65536 65536 255 ", {65536, 65536, 255, 19}},
        {"P5 99999 99999 255 ", {99999, 99999, 255, 19}},
        {"P5 99072 86704 255 ", {99072, 86704, 255, 19}}, /* 2^33 + 4,096 pixels */
    };
    for (size_t k = 0; k < sizeof large / sizeof *large; k++) {
        begin("grey file", large[k].text);
        size_t pixels = (size_t)(large[k].fields[0] * large[k].fields[1]);
        front = open_front(large[k].text, HEADER);
        hold(call_judge(&front, 19 + pixels) == VUZGARI_GIVEN, "not taken");
        hold(call_judge(&front, 18 + pixels) == VUZGARI_PGM_RASTER, "a byte short is taken");
        hold(call_judge(&front, 20 + pixels) == VUZGARI_PGM_RASTER, "a byte too many is taken");
        hold(call_judge(&front, 19 + (pixels & UINT32_MAX)) == VUZGARI_PGM_RASTER, "a product of 32 bits is taken");
        close_room(&front);
    }
}

/* Slices said to be longer than the memory that is there: neither call touches what is past 21 bytes or 4 fields. */
static void beyond(void)
{
    begin("grey file", "nothing past 21 bytes and 4 fields");
    struct room front = open_front(longest.text, HEADER);
    struct room fields = open_filled(FIELDS_BYTES);
    front.bytes = fields.bytes = whole_pages(HEADER) + 2 * sizeof(uint64_t); /* the last of them is unreadable */
    hold(call_header(&front, &fields) == VUZGARI_GIVEN, "not read");
    hold(memcmp(fields.at, longest.fields, FIELDS_BYTES) == 0, "other fields");
    hold(call_judge(&front, front.bytes) == VUZGARI_PGM_MAXIMUM, "another judgement");
    close_room(&front);
    close_room(&fields);
}

/* Null pointers, with lengths of 0. */
static void nulls(void)
{
    begin("grey file", "null pointers");
    struct room front = open_front(taken[0].text, HEADER);
    struct room fields = open_filled(FIELDS_BYTES);
    make_read_only(&fields);
    struct room none = {0};
    hold(call_header(&none, &none) == VUZGARI_SHORT_SLICE, "no front, no fields");
    hold(call_header(&front, &none) == VUZGARI_SHORT_SLICE, "no fields");
    hold(call_header(&none, &fields) == VUZGARI_PGM_HEADER, "no front");
    hold(call_judge(&none, 0) == VUZGARI_PGM_HEADER, "an empty file");
    close_room(&front);
    close_room(&fields);
}

void grey_files(void)
{
    edges();
    cuts();
    many_headers();
    file_lengths();
    beyond();
    nulls();
}

/* ---- Whole files. */

/* The noise of the pixels that stand where the header says, with the sides that it says. */
static void measure(const struct room *file, const uint64_t *fields, const struct vuzgari_answer *stored)
{
    size_t w = (size_t)fields[0], h = (size_t)fields[1], place = (size_t)fields[3];
    uint64_t windows = vuzgari_noise_windows(w, h);
    size_t m = vuzgari_number_of(windows) == VUZGARI_GIVEN ? (size_t)windows : 0;
    int32_t *ints = calloc(3 * m + 1, sizeof *ints);
    float *floats = calloc(2 * m + 2, sizeof *floats);
    uint8_t answer[VUZGARI_ANSWER_BYTES] = {0};
    hold(ints != NULL && floats != NULL, "no memory");
    calls += 2;
    uint32_t number = vuzgari_noise(file->at + place, file->bytes - place, w, h, ints, 3 * m, floats, 2 * m + 2, answer,
                                    sizeof answer);
    struct vuzgari_answer measured = vuzgari_answer_from(answer);
    measured.number = number;
    hold(memcmp(&measured, stored, sizeof measured) == 0, "another answer");
    free(ints);
    free(floats);
}

void measured_file(const struct image *image, const struct vuzgari_answer *stored)
{
    if (image->w == 0 || image->h == 0) {
        return;
    }
    begin(image->name, "grey file");
    char header[64];
    size_t place = (size_t)snprintf(header, sizeof header, "P5\n%zu %zu\n255\n", image->w, image->h);
    size_t lid = lid_bytes(image);
    size_t raster = lid < 4 ? 0 : lid - 4;
    struct room file = open_room(place + raster);
    struct room fields = open_filled(FIELDS_BYTES);
    memcpy(file.at, header, place);
    paint(image, file.at + place, raster);
    make_read_only(&file);
    const uint64_t expected[FIELDS] = {image->w, image->h, 255, place};
    hold(call_header(&file, &fields) == VUZGARI_GIVEN, "not read");
    hold(memcmp(fields.at, expected, FIELDS_BYTES) == 0, "other fields");
    if (image->more == 0) {
        hold(call_judge(&file, file.bytes) == VUZGARI_GIVEN, "not taken");
        measure(&file, expected, stored);
    } else {
        hold(call_judge(&file, file.bytes) == VUZGARI_PGM_RASTER, "another judgement");
    }
    close_room(&file);
    close_room(&fields);
}
