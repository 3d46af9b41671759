/* Start-up of a bare Cortex-M board: the vector table, memory as C expects it, the FPU switched on if there is one, then main. */
#include <stdint.h>
#include <string.h>

#include "board.h"

extern unsigned char stack_top[], data_stored[], data_low[], data_high[], bss_low[], bss_high[];

int main(void);
void reset(void);

enum { SYS_OPEN = 0x01, SYS_WRITE0 = 0x04, SYS_WRITE = 0x05, SYS_READ = 0x06, SYS_EXIT_EXTENDED = 0x20 };
enum { READ_BYTES = 1, WRITE_BYTES = 5, APPLICATION_EXIT = 0x20026, STATUS_OF_A_FAULT = 99 };

static void fault(void)
{
    quit(STATUS_OF_A_FAULT);
}

typedef void handler(void);

static const struct {
    unsigned char *stack;
    handler *handlers[15];
} vectors __attribute__((section(".vectors"), used)) = { stack_top, { reset, fault, fault, fault, fault, fault } };

void reset(void)
{
    memcpy(data_low, data_stored, (size_t)(data_high - data_low));
    memset(bss_low, 0, (size_t)(bss_high - bss_low));
#if defined(__ARM_FP)
    /* Coprocessors 10 and 11 in CPACR; FPSCR keeps its reset value: round to nearest, subnormal numbers kept. */
    *(volatile uint32_t *)0xE000ED88 |= 0xFu << 20;
    __asm__ volatile("dsb\n isb");
#endif
    quit(main());
}

static uintptr_t semihosting(uintptr_t operation, const void *argument)
{
    register uintptr_t r0 __asm__("r0") = operation;
    register const void *r1 __asm__("r1") = argument;
    __asm__ volatile("bkpt 0xab" : "+r"(r0) : "r"(r1) : "memory");
    return r0;
}

void say(const char *text)
{
    semihosting(SYS_WRITE0, text);
}

static int open_file(const char *name, uintptr_t mode)
{
    const uintptr_t block[3] = { (uintptr_t)name, mode, strlen(name) };
    return (int)semihosting(SYS_OPEN, block);
}

int open_to_read(const char *name)
{
    return open_file(name, READ_BYTES);
}

int open_to_write(const char *name)
{
    return open_file(name, WRITE_BYTES);
}

size_t read_some(int file, void *bytes, size_t count)
{
    const uintptr_t block[3] = { (uintptr_t)file, (uintptr_t)bytes, count };
    return count - semihosting(SYS_READ, block);
}

size_t write_some(int file, const void *bytes, size_t count)
{
    const uintptr_t block[3] = { (uintptr_t)file, (uintptr_t)bytes, count };
    return count - semihosting(SYS_WRITE, block);
}

void quit(int status)
{
    const uintptr_t block[2] = { APPLICATION_EXIT, (uintptr_t)status };
    semihosting(SYS_EXIT_EXTENDED, block);
    for (;;) {
    }
}
