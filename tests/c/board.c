/* The vectors of the emulated Cortex-M4 board: the first stack, the start, and for every fault a halt, which ends the emulator. */
#include <stdint.h>

/* The C library's start. */
extern void _start(void);

/* The register that lets a program use the processor's floating point, and the bits that do so. */
#define ACCESS_CONTROL ((volatile uint32_t *)0xe000ed88u)
#define FLOATING_POINT (0xfu << 20)

/* Floating point, which the C library of hard float uses, then the C library. */
static void start(void)
{
    *ACCESS_CONTROL |= FLOATING_POINT;
    __asm__ volatile("dsb\n\tisb");
    _start();
}

/* A fault of the processor: a breakpoint that nobody answers. */
static void halt(void)
{
    for (;;)
        __asm__ volatile("bkpt 0");
}

enum { VECTORS = 16, FIRST_STACK = 0x22000000 };

__attribute__((section(".vectors"), used)) static void (*const vectors[VECTORS])(void)
    = { (void (*)(void))FIRST_STACK, start, halt, halt, halt, halt, halt };
