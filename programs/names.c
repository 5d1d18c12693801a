#include "names.h"

#include <stdbool.h>
#include <stdint.h>

/* How many bytes a UTF-8 character takes that begins with this one; 0 where none does. */
static size_t bytes_by_first(unsigned char first)
{
    if (first < 0x80) {
        return 1;
    }
    if (first >= 0xC2 && first < 0xE0) {
        return 2;
    }
    if (first >= 0xE0 && first < 0xF0) {
        return 3;
    }
    return first >= 0xF0 && first < 0xF5 ? 4 : 0;
}

/* The bits that the first of so many bytes adds to a character. */
static uint32_t first_bits(unsigned char first, size_t bytes)
{
    return bytes == 1 ? first : first & (0xFFu >> (bytes + 1));
}

/* Whether a character of so many bytes is one of UTF-8: in its shortest form, no surrogate, not past the last. */
static bool in_range(uint32_t character, size_t bytes)
{
    static const uint32_t least[] = {0, 0, 0x80, 0x800, 0x10000};
    return character >= least[bytes] && character <= 0x10FFFF && (character < 0xD800 || character > 0xDFFF);
}

static bool is_control(uint32_t character)
{
    return character < 0x20 || (character >= 0x7F && character < 0xA0);
}

/* How many bytes the character at the front of a text takes where it can be shown, else 0. */
static size_t bytes_to_show(const char *text)
{
    const unsigned char *at = (const unsigned char *)text;
    size_t bytes = bytes_by_first(at[0]);
    uint32_t character = first_bits(at[0], bytes);
    for (size_t k = 1; k < bytes; k++) {
        if ((at[k] & 0xC0) != 0x80) {
            return 0; /* the end of the text too */
        }
        character = character << 6 | (at[k] & 0x3Fu);
    }
    return bytes > 0 && in_range(character, bytes) && !is_control(character) ? bytes : 0;
}

/* A control character of two bytes is one character all the same. */
static size_t bytes_to_skip(const char *text)
{
    const unsigned char *at = (const unsigned char *)text;
    return at[0] == 0xC2 && (at[1] & 0xC0) == 0x80 ? 2 : 1;
}

/* Moves past one character. */
static const char *after_character(const char *text)
{
    size_t bytes = bytes_to_show(text);
    return text + (bytes > 0 ? bytes : bytes_to_skip(text));
}

void put_name(FILE *out, const char *name)
{
    for (; *name != '\0'; name = after_character(name)) {
        size_t bytes = bytes_to_show(name);
        if (bytes > 0) {
            fwrite(name, 1, bytes, out);
        } else {
            fputc('?', out);
        }
    }
}

size_t shown_length(const char *name)
{
    size_t length = 0;
    for (; *name != '\0'; name = after_character(name)) {
        length++;
    }
    return length;
}

void put_escaped(FILE *out, const char *name)
{
    for (; *name != '\0'; name++) {
        switch (*name) {
        case '\t':
            fputs("\\t", out);
            break;
        case '\n':
            fputs("\\n", out);
            break;
        case '\r':
            fputs("\\r", out);
            break;
        case '\\':
            fputs("\\\\", out);
            break;
        default:
            fputc(*name, out);
        }
    }
}
