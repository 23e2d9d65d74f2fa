/* SRCI payloads of compiled shaders: the C entry points of libsrci.
 *
 * Each function is proved, in Rattle, to do what its contract says (crates/srci/src/lib.rt): it ends on every input,
 * reads and stores inside the lent buffers alone, and takes no memory. What is left to the caller is what a prototype
 * cannot say:
 * - a pointer is valid for its length, which is in elements, and aligned for them; with length 0 it may be NULL;
 * - second is valid for one number, and not NULL;
 * - a buffer that a call may change does not overlap any other that is lent to the same call;
 * - no other thread changes a lent buffer during the call.
 *
 * Every function returns 0 for an accepted call, and stores in *second how many rows or bytes it stored; what follows
 * these keeps its values. Otherwise it returns the number of a refusal (enum srci_refusal), stores the refusal's second
 * number in *second, and changes nothing else. So a call with NULL and 0 for the rows or the output tells what is
 * needed: the rows by SRCI_NO_ROWS, the bytes by SRCI_NO_ROOM.
 */
#ifndef SRCI_H
#define SRCI_H

#include <stddef.h>
#include <stdint.h>

#ifdef __cplusplus
extern "C" {
#endif

/* C89 has no word for it. */
#if defined __cplusplus || (defined __STDC_VERSION__ && __STDC_VERSION__ >= 199901L)
#define SRCI_INLINE static inline
#else
#define SRCI_INLINE static __inline
#endif

/* [tables: version] */
#define SRCI_VERSION "0.2.0"
#define SRCI_VERSION_MAJOR 0
#define SRCI_VERSION_MINOR 2
#define SRCI_VERSION_PATCH 0
/* [tables: end] */

/* Bytes of the longest payload. */
#define SRCI_LIMIT 26214400

/* Numbers of a row. A payload of n bytes has at most (n - 8) / 2 rows. */
#define SRCI_ROW_WIDTH 7

/* Why a call is refused. The second number is 0 where nothing else is said. [tables: refusals] */
enum srci_refusal {
    /* The payload has more than 26,214,400 bytes. */
    SRCI_OVERSIZE = 1,
    /* The payload has fewer than 8 bytes, or a length that is no multiple of 4. */
    SRCI_RAGGED = 2,
    /* The main header tells another length than the payload's, or its flags are set. */
    SRCI_MAIN_HEADER = 3,
    /* A section's size is missing, under 8, no multiple of 4, or past the end of the payload. */
    SRCI_FRAME = 4,
    /* Flags of a section, of its body or of an entry are set. */
    SRCI_FLAG = 5,
    /* The header of a section's body or of an entry does not fit. */
    SRCI_SHORT = 6,
    /* A section's size is not what its headers and stored bytes make it. */
    SRCI_BODY_SIZE = 7,
    /* A padding byte is not zero. */
    SRCI_PADDING = 8,
    /* An entry's text has size 0, its aligned size is wrong, or it runs past its section's bytes. */
    SRCI_ENTRY_SIZE = 9,
    /* The NUL that ends a text is missing. */
    SRCI_OPEN_TEXT = 10,
    /* A text is not UTF-8 as RFC 3629 defines it. */
    SRCI_NOT_UTF8 = 11,
    /* A text has a NUL inside. */
    SRCI_INNER_NUL = 12,
    /* Bytes are left after the last section or entry that is counted. */
    SRCI_LEFTOVER = 13,
    /* The compression of contents is neither 0 (plain) nor 1 (packed). */
    SRCI_COMPRESSION = 14,
    /* Plain contents tell an uncompressed size that is not that of their stored bytes. */
    SRCI_UNEQUAL = 15,
    /* The table of rows is too short. The second number: rows needed. */
    SRCI_NO_ROWS = 16,
    /* A row breaks a rule of rows, or the table has a part of a row. */
    SRCI_BAD_ROW = 17,
    /* There would be over 65,535 sections, 65,535 bytes of names in one, or 26,214,400 bytes. */
    SRCI_WONT_FIT = 18,
    /* The output is too short. The second number: bytes needed. */
    SRCI_NO_ROOM = 19,
    /* A line of a sheet is malformed or misplaced. The second number: line. */
    SRCI_BAD_LINE = 20
};
/* [tables: end] */

/* What a refusal is called, and a sentence that says what it means; NULL for a number that is none.
 * [tables: names of refusals] */
SRCI_INLINE const char *srci_refusal_name(uint32_t number)
{
    static const char *const texts[] = {
        "oversize",
        "ragged",
        "main header",
        "frame",
        "flag",
        "short",
        "body size",
        "padding",
        "entry size",
        "open text",
        "not UTF-8",
        "inner NUL",
        "leftover",
        "compression",
        "unequal",
        "no rows",
        "bad row",
        "won't fit",
        "no room",
        "bad line"
    };
    return number - 1 < sizeof texts / sizeof *texts ? texts[number - 1] : NULL;
}
/* [tables: end] */

/* [tables: meanings of refusals] */
SRCI_INLINE const char *srci_refusal_meaning(uint32_t number)
{
    static const char *const texts[] = {
        "The payload has more than 26,214,400 bytes.",
        "The payload has fewer than 8 bytes, or a length that is no multiple of 4.",
        "The main header tells another length than the payload's, or its flags are set.",
        "A section's size is missing, under 8, no multiple of 4, or past the end of the payload.",
        "Flags of a section, of its body or of an entry are set.",
        "The header of a section's body or of an entry does not fit.",
        "A section's size is not what its headers and stored bytes make it.",
        "A padding byte is not zero.",
        "An entry's text has size 0, its aligned size is wrong, or it runs past its section's bytes.",
        "The NUL that ends a text is missing.",
        "A text is not UTF-8 as RFC 3629 defines it.",
        "A text has a NUL inside.",
        "Bytes are left after the last section or entry that is counted.",
        "The compression of contents is neither 0 (plain) nor 1 (packed).",
        "Plain contents tell an uncompressed size that is not that of their stored bytes.",
        "The table of rows is too short.",
        "A row breaks a rule of rows, or the table has a part of a row.",
        "There would be over 65,535 sections, 65,535 bytes of names in one, or 26,214,400 bytes.",
        "The output is too short.",
        "A line of a sheet is malformed or misplaced."
    };
    return number - 1 < sizeof texts / sizeof *texts ? texts[number - 1] : NULL;
}
/* [tables: end] */

/* What a row is: its number at SRCI_TAG. Contents, names and pairs follow their section. [tables: tags] */
enum srci_tag {
    SRCI_TAG_PLAIN_CONTENTS = 0,
    SRCI_TAG_PACKED_CONTENTS = 1,
    SRCI_TAG_NAMES = 2,
    SRCI_TAG_ARGUMENTS = 3,
    SRCI_TAG_UNKNOWN = 4,
    SRCI_TAG_CONTENT = 5,
    SRCI_TAG_NAME = 6,
    SRCI_TAG_PAIR = 7
};
/* [tables: end] */

/* Where a row's texts and bytes are: its number at SRCI_SIDE. */
enum srci_side {
    SRCI_SIDE_PAYLOAD = 0,
    SRCI_SIDE_EDIT = 1
};

/* Where each number of a row stands in it, by the row's tag; those without a name are 0. Starts and lengths are in
 * bytes of the row's side, and a text's length leaves its terminator out. [tables: numbers] */
enum srci_number {
    SRCI_TAG = 0,
    SRCI_SIDE = 1,

    SRCI_PLAIN_HEADER_FIELD = 2,

    SRCI_PACKED_HEADER_FIELD = 2,
    SRCI_PACKED_START = 3,
    SRCI_PACKED_LENGTH = 4,
    SRCI_PACKED_COUNT = 5,
    SRCI_PACKED_UNCOMPRESSED = 6,

    SRCI_UNKNOWN_KIND = 2,
    SRCI_UNKNOWN_START = 3,
    SRCI_UNKNOWN_LENGTH = 4,

    SRCI_CONTENT_START = 2,
    SRCI_CONTENT_LENGTH = 3,

    SRCI_NAME_START = 2,
    SRCI_NAME_LENGTH = 3,
    SRCI_NAME_CONTENT_SIZE = 4,

    SRCI_PAIR_NAME_START = 2,
    SRCI_PAIR_NAME_LENGTH = 3,
    SRCI_PAIR_VALUE_START = 4,
    SRCI_PAIR_VALUE_LENGTH = 5
};
/* [tables: end] */

/* Reads a payload into rows. rows_length is in numbers, not in rows; numbers past the last whole row are not
 * used. Refusals: 1 to 15, then 16. */
uint32_t srci_read(const uint8_t *payload, size_t payload_length, uint32_t *rows, size_t rows_length,
                   uint32_t *second);

/* Writes rows, whose texts and bytes lie in the payload and in the edit text, as a payload. The payload need not be one
 * that is accepted. Refusals: 17, 11 and 12 by the first row at fault, then 18, then 19. */
uint32_t srci_write(const uint8_t *payload, size_t payload_length, const uint8_t *edit, size_t edit_length,
                    const uint32_t *rows, size_t rows_length, uint8_t *output, size_t output_length,
                    uint32_t *second);

/* Lists a payload: lines of ASCII, with no NUL at the end. It tells packed sizes and unknown sections; a card does not.
 * Refusals: 1 to 15, then 19. */
uint32_t srci_list(const uint8_t *payload, size_t payload_length, uint8_t *output, size_t output_length,
                   uint32_t *second);

/* Makes the public copy of a payload: a payload with the same public facts, from which nothing else can be learnt. It
 * is never longer than the payload. Refusals: 1 to 15, then 19. */
uint32_t srci_public_copy(const uint8_t *payload, size_t payload_length, uint8_t *output, size_t output_length,
                          uint32_t *second);

/* Makes the card of a payload: the listing of its public copy. It has a line for each known section, of which a payload
 * may have 65,535, and so some 4 MB. Refusals: 1 to 15, then 19. */
uint32_t srci_card(const uint8_t *payload, size_t payload_length, uint8_t *output, size_t output_length,
                   uint32_t *second);

/* Makes the sheet of a payload, for a text editor: lines of UTF-8, with no NUL at the end, that show everything in the
 * payload, packed and unknown bytes too: secrecy, which covers the public copy and the card, does not cover it. A line
 * has a word and these fields, parted by tabs:
 *   contents   header field
 *   content    text
 *   packed     header field, count, uncompressed bytes, bytes
 *   names
 *   name       content size, text
 *   arguments
 *   pair       name, value
 *   unknown    kind, bytes
 * Numbers are decimal, bytes are pairs of hexadecimal digits, and in a text a backslash, a tab and a newline are a
 * backslash followed by a backslash, t or n. A sheet is at most three and a half times as long as the payload; that of
 * a payload without sections is empty, and accepted with an output of length 0. Refusals: 1 to 15, then 19. */
uint32_t srci_to_sheet(const uint8_t *payload, size_t payload_length, uint8_t *output, size_t output_length,
                       uint32_t *second);

/* Makes the payload of a sheet, whose lines are those of srci_to_sheet: that call on the payload gives this sheet back,
 * byte for byte. Each line is closed by a newline, the last one too, and nothing is passed over: neither an empty line
 * nor a carriage return. A sheet may be of any length, and an empty one makes the payload without sections. Refusals:
 * 20, with the line's number from 1, 11 and 12 by the first line at fault, then 18, then 19. */
uint32_t srci_from_sheet(const uint8_t *sheet, size_t sheet_length, uint8_t *output, size_t output_length,
                         uint32_t *second);

#ifdef __cplusplus
}
#endif

#endif
