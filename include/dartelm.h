/* Dartelm: the IEEE 1451.4 data sheet (TEDS) in a sender's memory chip, from its image to a reading. For C99 and C++.
 *
 *     #include <stdio.h>
 *     #include "dartelm.h"
 *
 *     int main(void)
 *     {
 *         uint8_t image[DARTELM_LONGEST_IMAGE];
 *         size_t length = fread(image, 1, sizeof image, stdin);
 *         uint8_t kind = dartelm_kind_of(length);
 *         dartelm_reading_answer reading = dartelm_reading(kind, image, length, 1000000, DARTELM_DASH_SMALL);
 *         if (reading.number != DARTELM_ACCEPTED)
 *             return reading.number;
 *         printf("%.3f\n", reading.figure);
 *         return 0;
 *     }
 *
 * It takes a reading at 1,000,000 nV/V: `cc -Iinclude use.c portable/c/dartelm.c -o use`, then `./use < samples/load-cell.kind1`
 * prints 2502.000 (N). docs/FIRMWARE.md says how the library is compiled and what it costs, docs/REFUSALS.md what to do about each
 * refusal, and docs/WORDS.md what the words mean.
 *
 * Answers. Every call but dartelm_version and dartelm_kind_of returns one struct by value.
 *   - number is DARTELM_ACCEPTED, or the refusal: DARTELM_WRONG_IMAGE to DARTELM_WRONG_TICKS.
 *   - place is the refusal's place. The comment of the refusal says what it counts.
 *   - Every other member of a refused answer is 0, and so is place if the call is accepted. A float is then +0.0.
 *   - A Single that is returned is finite.
 *   - dartelm_page is never refused, and its answer has no number.
 *
 * Memory. A build, a change and a commit write to their image, dartelm_index to its buffer. Nothing else is written, and a refused
 * call writes nothing. There is no heap, and nothing is kept between calls: any number of them may run at once, in interrupts too.
 * From outside the library takes memcpy and memset, and on a processor without double hardware the compiler's routines for doubles.
 *
 * The caller's duties, which no call can test:
 *   - A pointer is valid for the length after it, and is not NULL, not even if that length is 0.
 *   - What is passed to one call does not overlap, and nothing else writes to it until the call returns.
 *   - The processor rounds to nearest and keeps subnormal numbers (the default).
 * There are no others: any kind, number, length, byte and float may be passed. A call then returns, and does nothing undefined.
 *
 * Flags. A flag is a uint8_t: 0 means no, any other byte yes. (A C bool with a byte other than 0 or 1 would be undefined.) A flag
 * that is returned is 0 or 1.
 *
 * Padding. No call reads it, and in an answer it may hold any bytes: compare members, not whole structs.
 */
#ifndef DARTELM_H
#define DARTELM_H

#include <stddef.h>
#include <stdint.h>

#ifdef __cplusplus
extern "C" {
#endif

/* This header's number, which rises when a call or a struct changes. dartelm_version() returns the library's. */
#define DARTELM_VERSION 8

/* ---- numbers ---- */

/* Why a call is refused, and what its place counts. A bit is a bit of the stream, from 0. docs/REFUSALS.md has a section for each
 * number. */
enum {
    DARTELM_ACCEPTED = 0,
    DARTELM_WRONG_IMAGE = 1,      /* Kind not 0 to 2, or a wrong image length. Place: 0. */
    DARTELM_WRONG_SUM = 2,        /* A page does not add up. Place: the page, from 0. */
    DARTELM_PAST_END = 3,         /* The stream ends before the sheet does. Place: the first bit of what is cut off. */
    DARTELM_WRONG_BLOCK = 4,      /* A block that is not known here; a reading from template 32. Place: its selector's bit. */
    DARTELM_OUTSIDE_TABLE = 5,    /* Code not in the field's table; in a fetch also an entry that the field cannot have. Place: its
                                   * first bit. */
    DARTELM_NOT_FINITE = 6,       /* A Single that is infinite, or a NaN. Place: its first bit. */
    DARTELM_NOT_RISING = 7,       /* Calibration points that do not rise. Place: the later one's bit; in a build its index. */
    DARTELM_NO_SUCH = 8,          /* No such field, calibration point, segment, term or character. Place: the number given. */
    DARTELM_WRONG_SORT = 9,       /* Wrong sort of value, missing where it may not be, text with end bit 0, text of a wrong
                                   * length. Place: the field (for the closing text the number behind the last field's). */
    DARTELM_OUT_OF_RANGE = 10,    /* A value, text or code that the field cannot hold. Place: the field, or the index of a point,
                                   * a segment or a term. */
    DARTELM_TOO_LONG = 11,        /* More than the chip holds. Place: the bits needed, 65,535 if they are more than that. */
    DARTELM_CHANGED_ALONE = 12,   /* Field 9 cannot be changed alone. Place: 9. */
    DARTELM_NO_SPAN = 13,         /* A reading needs fields 7, 8, 10 and 11, and 10 below 11. Place: the first that is missing,
                                   * else 11. */
    DARTELM_OUTSIDE_SPAN = 14,    /* A reading's input is too far outside the span. Place: 0. */
    /* 15 is not returned. */
    DARTELM_WRONG_LIST = 16,      /* A list of points that is odd or longer than 254. Place: its length. */
    DARTELM_BLANK_CHIP = 17,      /* Every page is blank: nothing has been written to this chip. Place: 0. */
    DARTELM_SHORT_INDEX = 18,     /* A buffer too short for an index, or an index too short to be one. Place: the bytes needed. */
    DARTELM_OTHER_CODE = 19,      /* A commit: another code stands in the field than the present one. Place: the field. */
    DARTELM_LEVEL_TOO_LOW = 20,   /* A writer of this level may not write the field. Place: the field. */
    DARTELM_END_OUTSIDE = 21,     /* A reading at precision 2: a Single outside -2 to 2 V/V. Place: the first of fields 10 and 11
                                   * that is. */
    DARTELM_SUMS_NOT_RISING = 22, /* Domain 1: calibration points plus deviations that do not rise. Place: as in 7. */
    DARTELM_TOO_MANY_POINTS = 23, /* A reading on the small dash: more than 32 calibration points. Place: how many. */
    DARTELM_WRONG_CURVE = 24,     /* A segment count, a start, a term count or an exponent that breaks the rules of a curve.
                                   * Place: its bit; in a build the segment count, or the segment's or the term's index. */
    DARTELM_TOO_MANY_TERMS = 25,  /* A curve of more than 30 terms. Place: how many up to the segment that passes them. */
    DARTELM_WRONG_TICKS = 26      /* Two recordings: a list of odd length, or fast ticks that are not six times the slow ones.
                                   * Place: the whole ticks of the fast list. */
};

/* The template of a sheet's first block, as a check returns it. The fields depend on it. */
enum {
    DARTELM_TEMPLATE_RESISTANCE = 32, /* resistance senders: fields 1 to 19 */
    DARTELM_TEMPLATE_BRIDGE = 33      /* bridge senders: fields 1 to 21 */
};

/* The fields of template 33, with the range or the unit of a value. Fields 1 to 9 are template 32's too. A value is a whole number
 * where no Single is named. */
enum {
    DARTELM_FIELD_MANUFACTURER_ID = 1,     /* 17 to 16381 */
    DARTELM_FIELD_MODEL_NUMBER = 2,        /* 0 to 32767 */
    DARTELM_FIELD_VERSION_LETTER = 3,      /* 1 to 26, A to Z: see dartelm_text and dartelm_code */
    DARTELM_FIELD_VERSION_NUMBER = 4,      /* 0 to 63 */
    DARTELM_FIELD_SERIAL_NUMBER = 5,       /* 0 to 16777215 */
    DARTELM_FIELD_MEASURAND = 6,           /* 0 to 45: sets the unit of 7, 8 and of a reading's figure */
    DARTELM_FIELD_MIN_PHYS_VAL = 7,        /* a Single, in the measurand's unit; or missing */
    DARTELM_FIELD_MAX_PHYS_VAL = 8,        /* a Single, in the measurand's unit; or missing */
    DARTELM_FIELD_PRECISION = 9,           /* 0, 1 or 2, of template 32 also 3: how 10 and 11 are stored */
    DARTELM_FIELD_MIN_ELEC_VAL = 10,       /* in nV/V at precision 0 and 1; a Single in V/V at precision 2; or missing */
    DARTELM_FIELD_MAX_ELEC_VAL = 11,       /* in nV/V at precision 0 and 1; a Single in V/V at precision 2; or missing */
    DARTELM_FIELD_BRIDGE_TYPE = 12,        /* 0 quarter, 1 half, 2 full */
    DARTELM_FIELD_IMPEDANCE = 13,          /* in 0.1 ohm; or missing */
    DARTELM_FIELD_RESPONSE_TIME = 14,      /* in 10 ns; or missing */
    DARTELM_FIELD_EXCITATION_NOMINAL = 15, /* in 0.1 V; or missing */
    DARTELM_FIELD_EXCITATION_MIN = 16,     /* in 0.1 V; or missing */
    DARTELM_FIELD_EXCITATION_MAX = 17,     /* in 0.1 V; or missing */
    DARTELM_FIELD_CAL_DATE = 18,           /* days since 1 January 1998: see dartelm_text and dartelm_code; or missing */
    DARTELM_FIELD_CAL_INITIALS = 19,       /* three letters: see dartelm_text and dartelm_code */
    DARTELM_FIELD_CAL_PERIOD = 20,         /* in days */
    DARTELM_FIELD_LOCATION_ID = 21,        /* 0 to 2047 */
    DARTELM_FIELDS = 21                    /* how many there are */
};

/* Fields 10 to 19 of template 32, with the range or the unit of a value. */
enum {
    DARTELM_RESISTANCE_MIN_ELEC_VAL = 10,    /* in ohm, at precision 3 a Single; or missing */
    DARTELM_RESISTANCE_MAX_ELEC_VAL = 11,    /* in ohm, at precision 3 a Single; or missing */
    DARTELM_RESISTANCE_MAPPING_METHOD = 12,  /* 0 linear, 1 inverse m/(x+b), 2 inverse b+m/x, 3 inverse 1/(b+m/x) */
    DARTELM_RESISTANCE_RESPONSE_TIME = 13,   /* in 10 ns; or missing */
    DARTELM_RESISTANCE_CURRENT_NOMINAL = 14, /* in 0.1 nA; or missing */
    DARTELM_RESISTANCE_CURRENT_MAX = 15,     /* in 0.1 nA; or missing */
    DARTELM_RESISTANCE_CAL_DATE = 16,        /* days since 1 January 1998; or missing. For its text pass field 18 */
    DARTELM_RESISTANCE_CAL_INITIALS = 17,    /* three letters. For their text pass field 19 */
    DARTELM_RESISTANCE_CAL_PERIOD = 18,      /* in days */
    DARTELM_RESISTANCE_LOCATION_ID = 19,     /* 0 to 2047 */
    DARTELM_RESISTANCE_FIELDS = 19           /* how many there are */
};

/* A writer's level, which a change, a proposal and a commit take, and the fields that it may write. It is no access control: the
 * caller passes it. Reads take none, and a build tests none. Any other byte is the owner's. */
enum {
    DARTELM_LEVEL_OWNER = 0,            /* field 21; of template 32 field 19 */
    DARTELM_LEVEL_CALIBRATION_ROOM = 1, /* also 7, 8, 10, 11, 18, 19 and 20; of template 32 7, 8, 10, 11, 14, 16, 17 and 18 */
    DARTELM_LEVEL_MAKER = 2             /* every field that can be changed alone */
};

/* What calibration deviations are listed against. Any other byte that is passed is taken as 1. */
enum {
    DARTELM_DOMAIN_ELECTRICAL = 0, /* the input's position in the span: a reading adds the deviation at that position */
    DARTELM_DOMAIN_PHYSICAL = 1,   /* the fraction: a reading returns the least fraction that, with its own deviation, is at least
                                    * the input's position */
    DARTELM_NO_DOMAIN = 255        /* returned if there are no calibration points, so with a curve too */
};

/* The dash that a reading is taken on. Any other byte is taken as 1. */
enum {
    DARTELM_DASH_LARGE = 0, /* takes every calibration point that a chip holds: 99 at most */
    DARTELM_DASH_SMALL = 1  /* takes 32 at most */
};

/* The most that a curve holds, and its greatest exponent. */
enum {
    DARTELM_CURVE_SEGMENTS = 20,
    DARTELM_CURVE_TERMS = 30,   /* in all segments */
    DARTELM_SEGMENT_TERMS = 6,  /* in one segment, which has at least one */
    DARTELM_GREATEST_EXPONENT = 5
};

/* The ticks of a fast recording for one tick of a slow one. */
#define DARTELM_FAST_TICKS 6

/* What dartelm_kind_of returns for a length that no kind of chip has. Every call refuses this kind with DARTELM_WRONG_IMAGE. */
#define DARTELM_NO_KIND 255

/* The length of the longest image, in bytes. */
#define DARTELM_LONGEST_IMAGE 512

/* The length in bytes of a row, which a chip writes at once, and the most writes that an image takes. */
#define DARTELM_ROW_LENGTH 8
#define DARTELM_MOST_WRITES 68

/* The length in bytes of the index of an image with so many calibration points (with template 32 it is 8 less), and of the longest
 * index. */
#define DARTELM_INDEX_LENGTH(points) (4 * (DARTELM_FIELDS + (points)))
#define DARTELM_LONGEST_INDEX 480

/* ---- structs ---- */

/* In each answer number is DARTELM_ACCEPTED or a refusal, and place is the refusal's. The span is from field 10 to
 * field 11. */

/* A field's value: missing if is_missing is yes, else the Single if is_single is yes, else the whole number. The members that a
 * value does not need are returned as 0, so that it may be passed again. */
typedef struct dartelm_value {
    int64_t whole;      /* in the field's unit */
    float single;       /* in the field's unit */
    uint8_t is_single;  /* a flag */
    uint8_t is_missing; /* a flag */
} dartelm_value;

/* A sheet's fields: field f is values[f - 1]. A build does not read the values after the template's last field, and they are
 * returned as zeros. The level is not stored: a build does not read it, and it is returned as 0. */
typedef struct dartelm_fields {
    dartelm_value values[DARTELM_FIELDS];
    uint8_t end_bit;       /* a flag: a closing text follows */
    uint8_t level;         /* not read, and returned as 0 */
    uint8_t unused;        /* not read, and returned as 0 */
    uint8_t is_resistance; /* a flag: 0 is template 33, anything else 32 */
} dartelm_fields;

/* What a check returns: the sizes of the sheet. */
typedef struct dartelm_check_answer {
    uint8_t number;
    uint64_t place;
    uint64_t bits;       /* bits of the stream up to the end, with the zero that ends a text */
    uint64_t points;     /* calibration points, 0 to 99 */
    uint64_t characters; /* characters of the closing text */
    uint8_t end_bit;     /* a flag: a closing text follows */
    uint8_t template_id; /* DARTELM_TEMPLATE_BRIDGE or DARTELM_TEMPLATE_RESISTANCE */
    uint8_t domain;      /* of the calibration points, DARTELM_DOMAIN_ELECTRICAL to DARTELM_NO_DOMAIN */
    uint64_t segments;   /* segments of a curve, 0 to 20 */
    uint64_t terms;      /* terms of all its segments, 0 to 30 */
} dartelm_check_answer;

/* One field. */
typedef struct dartelm_field_answer {
    uint8_t number;
    uint64_t place;
    dartelm_value value;
} dartelm_field_answer;

/* What a check returns, and all fields. */
typedef struct dartelm_sheet_answer {
    uint8_t number;
    uint64_t place;
    uint64_t bits;        /* bits of the stream up to the end, with the zero that ends a text */
    uint64_t points;      /* calibration points, 0 to 99 */
    uint64_t characters;  /* characters of the closing text */
    uint64_t field_count; /* fields of the sheet: 21, or 19 of template 32 */
    dartelm_fields fields;
    uint8_t domain;    /* of the calibration points, DARTELM_DOMAIN_ELECTRICAL to DARTELM_NO_DOMAIN */
    uint64_t segments; /* segments of a curve, 0 to 20 */
    uint64_t terms;    /* terms of all its segments, 0 to 30 */
} dartelm_sheet_answer;

/* A calibration point and its deviation. */
typedef struct dartelm_pair_answer {
    uint8_t number;
    uint64_t place;
    int64_t point;     /* billionths of the span */
    int64_t deviation; /* billionths of the span */
} dartelm_pair_answer;

/* A segment of a curve. */
typedef struct dartelm_segment_answer {
    uint8_t number;
    uint64_t place;
    int64_t start;  /* billionths of the span */
    uint64_t terms; /* terms of this segment, 1 to 6 */
} dartelm_segment_answer;

/* A term of a curve. */
typedef struct dartelm_term_answer {
    uint8_t number;
    uint64_t place;
    int64_t exponent;  /* 0 to 5: the power of the position in per cent of the span */
    float coefficient; /* per cent of the span */
} dartelm_term_answer;

/* A curve for a build: its segments, and the terms of one segment after those of the one before. A build reads count segments and
 * their terms, and nothing after them. */
typedef struct dartelm_curve_segment {
    int64_t start;  /* billionths of the span; the first is 0 */
    uint64_t terms; /* terms of this segment, 1 to 6 */
} dartelm_curve_segment;

typedef struct dartelm_curve_term {
    int64_t exponent;  /* 0 to 5: the power of the position in per cent of the span */
    float coefficient; /* per cent of the span */
} dartelm_curve_term;

typedef struct dartelm_curve {
    uint64_t count; /* segments, 1 to 20 */
    dartelm_curve_segment segments[DARTELM_CURVE_SEGMENTS];
    dartelm_curve_term terms[DARTELM_CURVE_TERMS];
} dartelm_curve;

/* A character of the closing text. */
typedef struct dartelm_character_answer {
    uint8_t number;
    uint64_t place;
    char character; /* ASCII, 1 to 127 */
} dartelm_character_answer;

/* What a build, a change, a commit or the making of an index returns. */
typedef struct dartelm_write_answer {
    uint8_t number;
    uint64_t place;
} dartelm_write_answer;

/* What a field would become. Its codes may be passed to dartelm_commit. */
typedef struct dartelm_proposal_answer {
    uint8_t number;
    uint64_t place;
    uint64_t present_code; /* the code in the field */
    uint64_t new_code;     /* the code that a change would store */
    dartelm_value value;   /* the value that new_code reads back as */
} dartelm_proposal_answer;

/* A reading. */
typedef struct dartelm_reading_answer {
    uint8_t number;
    uint64_t place;
    int64_t fraction; /* billionths of the span */
    double figure;    /* in the measurand's unit */
} dartelm_reading_answer;

/* The comparison of two recordings. */
typedef struct dartelm_compared_answer {
    uint8_t number;
    uint64_t place;
    uint8_t agrees; /* a flag: they agree */
    uint64_t tick;  /* the first fast tick that fails, from 0; 0 if they agree */
} dartelm_compared_answer;

/* The certificate distance of a list of points. */
typedef struct dartelm_distance_answer {
    uint8_t number;
    uint64_t place;
    uint64_t slope; /* K: the steepest slope of the deviations between neighbours, in thousandths, rounded up */
    uint64_t bound; /* B, in 2000ths of a billionth of the span */
} dartelm_distance_answer;

/* The conformity of an image with a list of points. */
typedef struct dartelm_conformity_answer {
    uint8_t number;
    uint64_t place;
    uint64_t slope;      /* K of the points, in thousandths, as in a distance */
    uint64_t bound;      /* B, in 2000ths of a billionth of the span */
    uint8_t is_straight; /* a flag: the sheet has no curve and no table of domain 1; else K and B are 0 */
} dartelm_conformity_answer;

/* The next row of an image that is written to a chip. */
typedef struct dartelm_row_answer {
    uint8_t number;
    uint64_t place;
    uint8_t is_done;                   /* a flag: the chip holds the wanted image */
    uint64_t offset;                   /* the row's first byte in the image, from 0 */
    uint8_t bytes[DARTELM_ROW_LENGTH]; /* what to write there */
} dartelm_row_answer;

/* A text. */
typedef struct dartelm_text_answer {
    uint8_t number;
    uint64_t place;
    uint64_t length;     /* characters: 1, 3 or 10 */
    char characters[11]; /* the text, then zeros: a C string */
} dartelm_text_answer;

/* A code. */
typedef struct dartelm_code_answer {
    uint8_t number;
    uint64_t place;
    uint64_t code; /* as it is stored in the field */
} dartelm_code_answer;

/* The stream bytes of a page. */
typedef struct dartelm_page_answer {
    uint64_t count;    /* bytes: 31, or 0 for a wrong kind, image length or page */
    uint8_t bytes[31]; /* zeros if count is 0 */
} dartelm_page_answer;

/* ---- calls ---- */

/* The parameters that many calls have:
 *   - kind: 0, 1 or 2, a chip of 40, 128 or 512 bytes (DS2430A, DS2431, DS2433). Any other byte is refused.
 *   - image: the bytes of a chip, register first; image_length: in bytes.
 *   - field: a number from 1. DARTELM_FIELD_.. are those of template 33, DARTELM_RESISTANCE_.. those of template 32.
 *   - index of a point, a segment, a term or a character: its number from 0.
 *   - level: DARTELM_LEVEL_OWNER to DARTELM_LEVEL_MAKER.
 *   - domain: DARTELM_DOMAIN_ELECTRICAL or DARTELM_DOMAIN_PHYSICAL.
 *   - dash: DARTELM_DASH_LARGE or DARTELM_DASH_SMALL.
 *   - points: calibration point and deviation in turn, in billionths of the span; points_length: how many numbers, two a point.
 *   - text: characters of one byte, without a zero at the end; text_length: in characters.
 * Refusals are named without DARTELM_, in the order of the tests. */

/* The library's number: compare it with DARTELM_VERSION. */
uint32_t dartelm_version(void);

/* The kind of a chip by the length of its image in bytes: 0 (40), 1 (128), 2 (512), else DARTELM_NO_KIND. */
uint8_t dartelm_kind_of(size_t bytes);

/* Checks an image. Refusals: WRONG_IMAGE, BLANK_CHIP, WRONG_SUM, then in the order of the stream PAST_END, WRONG_BLOCK,
 * OUTSIDE_TABLE, NOT_FINITE, NOT_RISING, SUMS_NOT_RISING, WRONG_CURVE, TOO_MANY_TERMS. */
dartelm_check_answer dartelm_check(uint8_t kind, const uint8_t *image, size_t image_length);

/* Reads a field: 1 to 21, of template 32 1 to 19. Refusals: those of a check, NO_SUCH. */
dartelm_field_answer dartelm_field(uint8_t kind, const uint8_t *image, size_t image_length, uint64_t field);

/* Makes the index of an image in a buffer of buffer_length bytes. For each field in order, then for each calibration point, it has
 * the first bit in the stream and the number of bits, 16 bits each, low byte first. DARTELM_INDEX_LENGTH is its length in bytes;
 * the bytes after it stay as they are. An index stays right when a field is changed. Refusals: those of a check, SHORT_INDEX. */
dartelm_write_answer dartelm_index(uint8_t kind, const uint8_t *image, size_t image_length, uint8_t *buffer,
                                   size_t buffer_length);

/* Reads one field at the position that an index of index_length bytes gives. With the image's own index it returns what
 * dartelm_field returns, and is faster. It tests the page sums, the first template's number (any but 32 is taken as 33) and this
 * field alone. With another image's index it may accept an image that dartelm_check refuses. Any bytes may be passed as an index.
 * Refusals: WRONG_IMAGE, BLANK_CHIP, WRONG_SUM; NO_SUCH if the template has no such field; SHORT_INDEX below 84 bytes, with
 * template 32 below 76. Then OUTSIDE_TABLE if the entry has a length that the field cannot have, or ends past the stream;
 * OUTSIDE_TABLE and NOT_FINITE for the field's own bits. */
dartelm_field_answer dartelm_fetch(uint8_t kind, const uint8_t *image, size_t image_length, const uint8_t *index,
                                   size_t index_length, uint64_t field);

/* Reads all fields with one check. Each is what dartelm_field returns. Refusals: those of a check. */
dartelm_sheet_answer dartelm_sheet(uint8_t kind, const uint8_t *image, size_t image_length);

/* Reads a calibration point, by its index. Refusals: those of a check, NO_SUCH past the last. */
dartelm_pair_answer dartelm_pair(uint8_t kind, const uint8_t *image, size_t image_length, uint64_t index);

/* Reads a segment of a curve, by its index. Refusals: those of a check, NO_SUCH past the last. */
dartelm_segment_answer dartelm_segment(uint8_t kind, const uint8_t *image, size_t image_length, uint64_t index);

/* Reads a term of a curve, by its index over all segments. Refusals: those of a check, NO_SUCH past the last. */
dartelm_term_answer dartelm_term(uint8_t kind, const uint8_t *image, size_t image_length, uint64_t index);

/* Reads a character of the closing text, by its index. Refusals: those of a check, NO_SUCH past the last. */
dartelm_character_answer dartelm_character(uint8_t kind, const uint8_t *image, size_t image_length, uint64_t index);

/* Builds an image from fields, a closing text of characters 1 to 127, and calibration points of a domain. Without points the domain
 * is not read. Refusals: WRONG_IMAGE, WRONG_LIST, WRONG_SORT, OUT_OF_RANGE, NOT_RISING, SUMS_NOT_RISING, TOO_LONG. */
dartelm_write_answer dartelm_build(uint8_t kind, uint8_t *image, size_t image_length, dartelm_fields fields,
                                   const char *text, size_t text_length, uint8_t domain, const int64_t *points,
                                   size_t points_length);

/* Builds an image with a curve in place of points. Refusals: WRONG_IMAGE, WRONG_SORT, OUT_OF_RANGE, then in the order of the stream
 * WRONG_CURVE, OUT_OF_RANGE and TOO_MANY_TERMS, last TOO_LONG. */
dartelm_write_answer dartelm_build_curve(uint8_t kind, uint8_t *image, size_t image_length, dartelm_fields fields,
                                         const char *text, size_t text_length, dartelm_curve curve);

/* Changes one field of an image, and the check bytes of its pages, as a writer of a level. The value is in the field's unit.
 * Refusals: those of a check, NO_SUCH, CHANGED_ALONE, LEVEL_TOO_LOW, WRONG_SORT, OUT_OF_RANGE. */
dartelm_write_answer dartelm_change(uint8_t kind, uint8_t *image, size_t image_length, uint8_t level, uint64_t field,
                                    dartelm_value value);

/* Returns what a field would become by a change, and writes nothing. Refusals: those of the change. */
dartelm_proposal_answer dartelm_propose(uint8_t kind, const uint8_t *image, size_t image_length, uint8_t level,
                                        uint64_t field, dartelm_value value);

/* Stores new_code in a field of an image, and rewrites the check bytes of its pages, as a writer of a level. Pass the codes of a
 * proposal: the two calls leave the bytes that the change would. Refusals: those of a check, NO_SUCH, CHANGED_ALONE, LEVEL_TOO_LOW,
 * OTHER_CODE if the field's code is not present_code, OUT_OF_RANGE if the field cannot hold new_code. */
dartelm_write_answer dartelm_commit(uint8_t kind, uint8_t *image, size_t image_length, uint8_t level, uint64_t field,
                                    uint64_t present_code, uint64_t new_code);

/* Takes a reading at an input in nV/V, on a dash. At precision 2 the Singles of fields 10 and 11 are rounded to the nearest nV/V,
 * halves upward. With a curve the fraction is the input's position in the span, and the figure is computed from the curve. Both
 * dashes return the same, but for TOO_MANY_POINTS. Refusals: those of a check; WRONG_BLOCK for a sheet of template 32;
 * TOO_MANY_POINTS on the small dash; NO_SPAN for a missing end; END_OUTSIDE; NO_SPAN for ends that do not rise; OUTSIDE_SPAN. */
dartelm_reading_answer dartelm_reading(uint8_t kind, const uint8_t *image, size_t image_length, int64_t input,
                                       uint8_t dash);

/* Compares a recording of ten refreshes a second with one of sixty, and both with the image. A recording has the input in nV/V and
 * the fraction in billionths of the span in turn; slow_length and fast_length are how many numbers, two a tick. Tick t of the slow
 * one pairs with tick 6t of the fast one. They agree if paired inputs and fractions are equal, and every fraction is what
 * dartelm_reading returns for its input on the large dash. A fast tick whose reading is refused fails. Two empty lists agree. The
 * image is checked once. Refusals: those of a check, WRONG_TICKS. */
dartelm_compared_answer dartelm_compare(uint8_t kind, const uint8_t *image, size_t image_length, const int64_t *slow,
                                        size_t slow_length, const int64_t *fast, size_t fast_length);

/* Returns how far a reading can be from a certificate, before a chip is written. For a chip built from these points in domain 0, no
 * fraction of a reading is more than bound / 2000 billionths of the span from the exact line through them. This holds at any input,
 * and after any changes and commits. Refusals: WRONG_LIST, OUT_OF_RANGE, NOT_RISING, as in a build. */
dartelm_distance_answer dartelm_distance(const int64_t *points, size_t points_length);

/* Returns how far a reading of this image can be from the line through these points, whoever wrote the image. No fraction of a
 * reading is more than bound / 2000 billionths of the span from it, at any input. Refusals: those of a check, WRONG_BLOCK for a
 * sheet of template 32, then those of a distance. */
dartelm_conformity_answer dartelm_conformity(uint8_t kind, const uint8_t *image, size_t image_length, const int64_t *points,
                                             size_t points_length);

/* Returns the next row to write to a chip that holds present, so that it will hold wanted; the lengths are in bytes. present is
 * what the chip holds now, any bytes. A row that is returned differs from the chip's. DARTELM_MOST_WRITES are enough for each kind.
 *
 *     for (int writes = 0; writes <= DARTELM_MOST_WRITES; writes++) {
 *         read_chip(present, length);
 *         dartelm_row_answer row = dartelm_next_row(kind, present, length, wanted, length);
 *         if (row.number != DARTELM_ACCEPTED || row.is_done) {
 *             return row.number;
 *         }
 *         write_chip((size_t)row.offset, row.bytes);
 *     }
 *     return CHIP_DOES_NOT_TAKE_WRITES;
 *
 * A chip that is pulled between two writes, or loses power in one, holds what it held at first, or wanted, or what a check refuses
 * with WRONG_SUM or BLANK_CHIP. (With kind 0 this is so for rows that are written whole.) The same loop then goes on from there.
 * Refusals: those of a check of wanted, then WRONG_IMAGE for the length of present. */
dartelm_row_answer dartelm_next_row(uint8_t kind, const uint8_t *present, size_t present_length, const uint8_t *wanted,
                                    size_t wanted_length);

/* The text of a code of field 3, 18 or 19 of template 33: a letter, a date such as 2018-01-02, three letters. Refusals: NO_SUCH,
 * OUT_OF_RANGE. */
dartelm_text_answer dartelm_text(uint64_t field, uint64_t code);

/* The code of a text of field 3, 18 or 19 of template 33. Refusals: NO_SUCH, WRONG_SORT, OUT_OF_RANGE. */
dartelm_code_answer dartelm_code(uint64_t field, const char *text, size_t text_length);

/* The 31 stream bytes of a page, by its number from 0; none for a wrong kind, image length or page. The image is not checked. */
dartelm_page_answer dartelm_page(uint8_t kind, const uint8_t *image, size_t image_length, uint64_t page);

/* ---- the layout of the structs, with pointers of 32 and of 64 bits, wherever a 64-bit integer is aligned to 8 bytes ---- */

#if defined(__cplusplus) && __cplusplus >= 201103L
#define DARTELM_IS(name, fact) static_assert(fact, #name)
#elif defined(__STDC_VERSION__) && __STDC_VERSION__ >= 201112L
#define DARTELM_IS(name, fact) _Static_assert(fact, #name)
#else
#define DARTELM_IS(name, fact) typedef char dartelm_is_##name[(fact) ? 1 : -1]
#endif
#define DARTELM_SIZE(type, bytes) DARTELM_IS(type##_size, sizeof(type) == (bytes))
#define DARTELM_AT(type, member, offset) DARTELM_IS(type##_##member, offsetof(type, member) == (offset))
#define DARTELM_ANSWER(type, bytes) \
    DARTELM_SIZE(type, bytes);      \
    DARTELM_AT(type, number, 0);    \
    DARTELM_AT(type, place, 8)

struct dartelm_alignment {
    char first;
    int64_t second;
};
DARTELM_IS(int64_t_is_not_aligned_to_8_bytes_here, offsetof(struct dartelm_alignment, second) == 8);
DARTELM_IS(floats, sizeof(float) == 4 && sizeof(double) == 8);
DARTELM_SIZE(dartelm_value, 16);
DARTELM_AT(dartelm_value, whole, 0);
DARTELM_AT(dartelm_value, single, 8);
DARTELM_AT(dartelm_value, is_single, 12);
DARTELM_AT(dartelm_value, is_missing, 13);
DARTELM_SIZE(dartelm_fields, 344);
DARTELM_AT(dartelm_fields, values, 0);
DARTELM_AT(dartelm_fields, end_bit, 336);
DARTELM_AT(dartelm_fields, level, 337);
DARTELM_AT(dartelm_fields, unused, 338);
DARTELM_AT(dartelm_fields, is_resistance, 339);
DARTELM_ANSWER(dartelm_check_answer, 64);
DARTELM_AT(dartelm_check_answer, bits, 16);
DARTELM_AT(dartelm_check_answer, points, 24);
DARTELM_AT(dartelm_check_answer, characters, 32);
DARTELM_AT(dartelm_check_answer, end_bit, 40);
DARTELM_AT(dartelm_check_answer, template_id, 41);
DARTELM_AT(dartelm_check_answer, domain, 42);
DARTELM_AT(dartelm_check_answer, segments, 48);
DARTELM_AT(dartelm_check_answer, terms, 56);
DARTELM_ANSWER(dartelm_field_answer, 32);
DARTELM_AT(dartelm_field_answer, value, 16);
DARTELM_ANSWER(dartelm_sheet_answer, 416);
DARTELM_AT(dartelm_sheet_answer, bits, 16);
DARTELM_AT(dartelm_sheet_answer, points, 24);
DARTELM_AT(dartelm_sheet_answer, characters, 32);
DARTELM_AT(dartelm_sheet_answer, field_count, 40);
DARTELM_AT(dartelm_sheet_answer, fields, 48);
DARTELM_AT(dartelm_sheet_answer, domain, 392);
DARTELM_AT(dartelm_sheet_answer, segments, 400);
DARTELM_AT(dartelm_sheet_answer, terms, 408);
DARTELM_ANSWER(dartelm_pair_answer, 32);
DARTELM_AT(dartelm_pair_answer, point, 16);
DARTELM_AT(dartelm_pair_answer, deviation, 24);
DARTELM_ANSWER(dartelm_segment_answer, 32);
DARTELM_AT(dartelm_segment_answer, start, 16);
DARTELM_AT(dartelm_segment_answer, terms, 24);
DARTELM_ANSWER(dartelm_term_answer, 32);
DARTELM_AT(dartelm_term_answer, exponent, 16);
DARTELM_AT(dartelm_term_answer, coefficient, 24);
DARTELM_SIZE(dartelm_curve_segment, 16);
DARTELM_AT(dartelm_curve_segment, start, 0);
DARTELM_AT(dartelm_curve_segment, terms, 8);
DARTELM_SIZE(dartelm_curve_term, 16);
DARTELM_AT(dartelm_curve_term, exponent, 0);
DARTELM_AT(dartelm_curve_term, coefficient, 8);
DARTELM_SIZE(dartelm_curve, 808);
DARTELM_AT(dartelm_curve, count, 0);
DARTELM_AT(dartelm_curve, segments, 8);
DARTELM_AT(dartelm_curve, terms, 328);
DARTELM_ANSWER(dartelm_character_answer, 24);
DARTELM_AT(dartelm_character_answer, character, 16);
DARTELM_ANSWER(dartelm_write_answer, 16);
DARTELM_ANSWER(dartelm_proposal_answer, 48);
DARTELM_AT(dartelm_proposal_answer, present_code, 16);
DARTELM_AT(dartelm_proposal_answer, new_code, 24);
DARTELM_AT(dartelm_proposal_answer, value, 32);
DARTELM_ANSWER(dartelm_reading_answer, 32);
DARTELM_AT(dartelm_reading_answer, fraction, 16);
DARTELM_AT(dartelm_reading_answer, figure, 24);
DARTELM_ANSWER(dartelm_compared_answer, 32);
DARTELM_AT(dartelm_compared_answer, agrees, 16);
DARTELM_AT(dartelm_compared_answer, tick, 24);
DARTELM_ANSWER(dartelm_distance_answer, 32);
DARTELM_AT(dartelm_distance_answer, slope, 16);
DARTELM_AT(dartelm_distance_answer, bound, 24);
DARTELM_ANSWER(dartelm_conformity_answer, 40);
DARTELM_AT(dartelm_conformity_answer, slope, 16);
DARTELM_AT(dartelm_conformity_answer, bound, 24);
DARTELM_AT(dartelm_conformity_answer, is_straight, 32);
DARTELM_ANSWER(dartelm_row_answer, 40);
DARTELM_AT(dartelm_row_answer, is_done, 16);
DARTELM_AT(dartelm_row_answer, offset, 24);
DARTELM_AT(dartelm_row_answer, bytes, 32);
DARTELM_ANSWER(dartelm_text_answer, 40);
DARTELM_AT(dartelm_text_answer, length, 16);
DARTELM_AT(dartelm_text_answer, characters, 24);
DARTELM_ANSWER(dartelm_code_answer, 24);
DARTELM_AT(dartelm_code_answer, code, 16);
DARTELM_SIZE(dartelm_page_answer, 40);
DARTELM_AT(dartelm_page_answer, count, 0);
DARTELM_AT(dartelm_page_answer, bytes, 8);

#undef DARTELM_ANSWER
#undef DARTELM_AT
#undef DARTELM_SIZE
#undef DARTELM_IS

#ifdef __cplusplus
}
#endif

#endif
