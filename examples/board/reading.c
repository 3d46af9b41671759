/* A dash without a system: at power-up it checks the chip's image, then shows readings of it.
 *
 * The image is linked in here, where a dash would read it from the chip. bash examples/board/run compiles this for a Cortex-M4F with the
 * portable C and runs it under QEMU.
 */
#include <stdint.h>

#include "board.h"
#include "dartelm.h"

__asm__(".section .rodata\n"
        ".global image\n"
        "image: .incbin \"samples/load-cell.kind1\"\n"
        ".global image_end\n"
        "image_end:\n"
        ".text\n");
extern const uint8_t image[], image_end[];

static void say_number(uint64_t number)
{
    char digits[21];
    char *at = digits + sizeof digits - 1;
    *at = '\0';
    do {
        *--at = (char)('0' + number % 10);
        number /= 10;
    } while (number > 0);
    say(at);
}

static void say_signed(int64_t number)
{
    if (number < 0)
        say("-");
    say_number(number < 0 ? 0 - (uint64_t)number : (uint64_t)number);
}

static int refused(uint8_t number, uint64_t place)
{
    say("refused ");
    say_number(number);
    say(" at ");
    say_number(place);
    say("\n");
    return 1;
}

/* The figure to the thousandth, as a display shows it. */
static void say_figure(double figure)
{
    int64_t thousandths = (int64_t)(figure * 1000.0 + (figure < 0 ? -0.5 : 0.5));
    if (thousandths < 0) {
        say("-");
        thousandths = -thousandths;
    }
    say_number((uint64_t)thousandths / 1000);
    say(thousandths % 1000 < 10 ? ".00" : thousandths % 1000 < 100 ? ".0" : ".");
    say_number((uint64_t)thousandths % 1000);
}

int main(void)
{
    /* At power-up. */
    size_t length = (size_t)(image_end - image);
    uint8_t kind = dartelm_kind_of(length);
    if (dartelm_version() != DARTELM_VERSION)
        return 2;
    dartelm_check_answer check = dartelm_check(kind, image, length);
    if (check.number != DARTELM_ACCEPTED)
        return refused(check.number, check.place);
    say("points ");
    say_number(check.points);
    say("\n");

    /* At each refresh, with an input in nV/V. */
    static const int64_t inputs[] = { -200000, 0, 1000000, 2000000, 2200001 };
    for (size_t i = 0; i < sizeof inputs / sizeof *inputs; i++) {
        dartelm_reading_answer reading = dartelm_reading(kind, image, length, inputs[i], DARTELM_DASH_SMALL);
        say("input ");
        say_signed(inputs[i]);
        say(": ");
        if (reading.number != DARTELM_ACCEPTED) {
            refused(reading.number, reading.place);
            continue;
        }
        say("fraction ");
        say_signed(reading.fraction);
        say(", figure ");
        say_figure(reading.figure);
        say("\n");
    }
    return 0;
}
