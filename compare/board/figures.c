/* What each call takes on a bare board: its stack, by painting what is below it, and its instructions, by SysTick under QEMU's
 * -icount shift=0, in which every instruction takes the same time. A line a call and image: image, call, number, bytes, instructions. */
#include <string.h>

#include "board.h"
#include "dartelm.h"

#define INCLUDED(name, file)      \
    __asm__(".section .rodata\n"  \
            ".global " #name "\n" \
            #name ": .incbin \"samples/" file "\"\n" \
            ".global " #name "_end\n" \
            #name "_end:\n"       \
            ".text\n");           \
    extern const uint8_t name[], name##_end[]

INCLUDED(oil_pressure, "oil-pressure.kind0");
INCLUDED(load_cell, "load-cell.kind1");
INCLUDED(many_points, "many-points.kind2");
INCLUDED(torque, "torque.kind1");
INCLUDED(brake_pressure, "brake-pressure.kind1");
INCLUDED(exhaust_pressure, "exhaust-pressure.kind1");
INCLUDED(temperature, "temperature.kind1");

#define SAMPLE(name) { #name, name, name##_end }

static const struct {
    const char *name;
    const uint8_t *bytes, *end;
} samples[] = { SAMPLE(oil_pressure),   SAMPLE(load_cell),        SAMPLE(many_points), SAMPLE(torque),
                SAMPLE(brake_pressure), SAMPLE(exhaust_pressure), SAMPLE(temperature) };

/* The image at hand, what a build of it is handed, and a recording of it. */
static uint8_t kind, image[DARTELM_LONGEST_IMAGE], built[DARTELM_LONGEST_IMAGE], entries[DARTELM_LONGEST_INDEX];
static size_t length, points_length, text_length;
static dartelm_sheet_answer sheet;
static int64_t points[254], slow[2], fast[2 * DARTELM_FAST_TICKS];
static char text[DARTELM_LONGEST_IMAGE];
static dartelm_curve curve;
static uint64_t date, location;
static dartelm_value noted;

/* ---- the calls ---- */

static union {
    uint8_t number;
    dartelm_check_answer check;
    dartelm_field_answer field;
    dartelm_sheet_answer sheet;
    dartelm_pair_answer pair;
    dartelm_segment_answer segment;
    dartelm_term_answer term;
    dartelm_character_answer character;
    dartelm_write_answer write;
    dartelm_proposal_answer proposal;
    dartelm_reading_answer reading;
    dartelm_compared_answer compared;
    dartelm_distance_answer distance;
    dartelm_text_answer text;
    dartelm_code_answer code;
} answer;
static dartelm_page_answer page;
static volatile uintptr_t before;

/* Each notes where its own stack ends, makes one call, and keeps the compiler from making less of it. */
#define CALL(name, made)                                         \
    static void __attribute__((noinline)) call_##name(void)      \
    {                                                            \
        uintptr_t here;                                          \
        __asm__ volatile("mov %0, sp" : "=r"(here) : : "memory"); \
        before = here;                                           \
        made;                                                    \
        __asm__ volatile("" : : : "memory");                     \
    }

CALL(nothing, )
CALL(check, answer.check = dartelm_check(kind, image, length))
CALL(field, answer.field = dartelm_field(kind, image, length, 15))
CALL(sheet, answer.sheet = dartelm_sheet(kind, image, length))
CALL(index, answer.write = dartelm_index(kind, image, length, entries, sizeof entries))
CALL(fetch, answer.field = dartelm_fetch(kind, image, length, entries, sizeof entries, 15))
CALL(pair, answer.pair = dartelm_pair(kind, image, length, 0))
CALL(segment, answer.segment = dartelm_segment(kind, image, length, 0))
CALL(term, answer.term = dartelm_term(kind, image, length, 0))
CALL(character, answer.character = dartelm_character(kind, image, length, 0))
CALL(build, answer.write = dartelm_build(kind, built, length, sheet.fields, text, text_length, sheet.domain, points, points_length))
CALL(build_curve, answer.write = dartelm_build_curve(kind, built, length, sheet.fields, text, text_length, curve))
CALL(change, answer.write = dartelm_change(kind, image, length, DARTELM_LEVEL_MAKER, date, noted))
CALL(propose, answer.proposal = dartelm_propose(kind, image, length, DARTELM_LEVEL_MAKER, date, noted))
CALL(commit, answer.write = dartelm_commit(kind, image, length, DARTELM_LEVEL_MAKER, location, 12, 12))
CALL(reading, answer.reading = dartelm_reading(kind, image, length, 1000000, DARTELM_DASH_LARGE))
CALL(compare, answer.compared = dartelm_compare(kind, image, length, slow, 2, fast, 2 * DARTELM_FAST_TICKS))
CALL(distance, answer.distance = dartelm_distance(points, points_length))
CALL(text, answer.text = dartelm_text(DARTELM_FIELD_CAL_DATE, 10000))
CALL(code, answer.code = dartelm_code(DARTELM_FIELD_CAL_DATE, "2018-01-02", 10))
CALL(page, page = dartelm_page(kind, image, length, 0))

#define ROW(name) { #name, call_##name }

static const struct {
    const char *name;
    void (*call)(void);
} calls[] = { ROW(check),   ROW(field), ROW(sheet),       ROW(index),  ROW(fetch),   ROW(pair),   ROW(segment),
              ROW(term),    ROW(character), ROW(build),   ROW(build_curve), ROW(change), ROW(propose), ROW(commit),
              ROW(reading), ROW(compare),   ROW(distance), ROW(text),  ROW(code),    ROW(page) };

/* ---- measuring ---- */

enum { PAINTED = 24 * 1024, PAINT = 0xA5, CALLS = 100 };

static uint32_t __attribute__((noinline)) stack_of(void (*call)(void))
{
    uintptr_t here;
    __asm__ volatile("mov %0, sp" : "=r"(here));
    volatile unsigned char *low = (volatile unsigned char *)(here - 128 - PAINTED);
    for (uint32_t i = 0; i < PAINTED; i++)
        low[i] = PAINT;
    call();
    uint32_t untouched = 0;
    while (untouched < PAINTED && low[untouched] == PAINT)
        untouched++;
    return (uint32_t)(before - (uintptr_t)low) - untouched;
}

#define SYSTICK ((volatile uint32_t *)0xE000E010)
enum { CONTROL, RELOAD, CURRENT, LONGEST = 0xFFFFFF };

static uint32_t ticks_of(void (*call)(void), uint32_t count)
{
    uint32_t began = SYSTICK[CURRENT];
    for (uint32_t i = 0; i < count; i++)
        call();
    return (began - SYSTICK[CURRENT]) & LONGEST;
}

/* Two instructions a round. */
static void __attribute__((noinline)) two_million(void)
{
    uint32_t rounds = 1000000;
    __asm__ volatile(".syntax unified\n1: subs %0, %0, #1\n bne 1b" : "+l"(rounds) : : "cc");
}

static uint32_t instructions_of(void (*call)(void))
{
    static uint32_t calibrated;
    if (calibrated == 0)
        calibrated = ticks_of(two_million, 1);
    uint32_t ticks = ticks_of(call, CALLS) - ticks_of(call_nothing, CALLS);
    return (uint32_t)(((uint64_t)ticks * 2000000 + calibrated * (CALLS / 2)) / ((uint64_t)calibrated * CALLS));
}

/* ---- the run ---- */

static void say_number(uint32_t number)
{
    char digits[11];
    char *at = digits + sizeof digits - 1;
    *at = '\0';
    do {
        *--at = (char)('0' + number % 10);
        number /= 10;
    } while (number > 0);
    say(" ");
    say(at);
}

static void take_apart(void)
{
    sheet = dartelm_sheet(kind, image, length);
    date = sheet.field_count - 3;
    location = sheet.field_count;
    noted.whole = 10000;
    points_length = text_length = 0;
    for (uint64_t i = 0; i < sheet.points; i++) {
        dartelm_pair_answer pair = dartelm_pair(kind, image, length, i);
        points[points_length++] = pair.point;
        points[points_length++] = pair.deviation;
    }
    for (uint64_t i = 0; i < sheet.characters; i++)
        text[text_length++] = dartelm_character(kind, image, length, i).character;
    memset(&curve, 0, sizeof curve);
    curve.count = sheet.segments;
    for (uint64_t i = 0; i < sheet.segments; i++) {
        dartelm_segment_answer segment = dartelm_segment(kind, image, length, i);
        curve.segments[i].start = segment.start;
        curve.segments[i].terms = segment.terms;
    }
    for (uint64_t i = 0; i < sheet.terms; i++) {
        dartelm_term_answer term = dartelm_term(kind, image, length, i);
        curve.terms[i].exponent = term.exponent;
        curve.terms[i].coefficient = term.coefficient;
    }
    dartelm_reading_answer reading = dartelm_reading(kind, image, length, 1000000, DARTELM_DASH_LARGE);
    for (int i = 0; i < DARTELM_FAST_TICKS; i++) {
        fast[2 * i] = 1000000;
        fast[2 * i + 1] = reading.fraction;
    }
    memcpy(slow, fast, sizeof slow);
    dartelm_index(kind, image, length, entries, sizeof entries);
}

int main(void)
{
    SYSTICK[RELOAD] = LONGEST;
    SYSTICK[CURRENT] = 0;
    SYSTICK[CONTROL] = 5;
    for (size_t i = 0; i < sizeof samples / sizeof *samples; i++) {
        length = (size_t)(samples[i].end - samples[i].bytes);
        kind = dartelm_kind_of(length);
        memcpy(image, samples[i].bytes, length);
        take_apart();
        for (size_t j = 0; j < sizeof calls / sizeof *calls; j++) {
            answer.number = 0;
            uint32_t bytes = stack_of(calls[j].call);
            say(samples[i].name);
            say(" ");
            say(calls[j].name);
            say_number(answer.number);
            say_number(bytes);
            say_number(instructions_of(calls[j].call));
            say("\n");
        }
    }
    return 0;
}
