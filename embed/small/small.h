/* What the programs of this folder have in place of a C library: start.c, for 32-bit Arm (Thumb), 32-bit RISC-V and x86-64 under
   Linux's system calls, which the emulators qemu-arm, qemu-riscv32 and qemu-x86_64 answer. */
#ifndef SMALL_H
#define SMALL_H

#include <stddef.h>
#include <stdint.h>

/* The program: its answer is the exit status. It runs on a stack of its own, of 64 kB. */
int run(void);

/* Text and numbers to standard output. */
void say(const char *text);
void say_number(uint32_t number);

/* Fills a room from standard input and says how many bytes there were. */
size_t read_all(uint8_t *room, size_t length);

/* paint writes a known byte to the whole stack below its caller; reached says how many bytes below its caller the stack has been
   written since. */
void paint(void);
uint32_t reached(void);

#endif
