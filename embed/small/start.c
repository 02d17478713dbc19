/* Start, output, input and the stack of a program with no C library, and the few functions of the compiler's run-time library
   that the proved library and these programs call. */
#include "small.h"

#define STACK 65536
#define PAINT 0xa5

/* How far below its frame address the frame of paint reaches, at most. */
#define OWN 64

static uint8_t stack[STACK] __attribute__((aligned(16)));

#if defined(__thumb__)
enum { EXIT = 1, READ = 3, WRITE = 4 };

static long call(long number, long a, const void *b, size_t c) {
    register long r7 __asm__("r7") = number;
    register long r0 __asm__("r0") = a;
    register const void *r1 __asm__("r1") = b;
    register size_t r2 __asm__("r2") = c;
    __asm__ volatile("svc 0" : "+r"(r0) : "r"(r7), "r"(r1), "r"(r2) : "memory");
    return r0;
}

#define CONTINUE_ON(top) __asm__ volatile("mov sp, %0\n\tbl begin" : : "r"(top) : "memory")
#elif defined(__riscv) && __riscv_xlen == 32
enum { EXIT = 93, READ = 63, WRITE = 64 };

static long call(long number, long a, const void *b, size_t c) {
    register long a7 __asm__("a7") = number;
    register long a0 __asm__("a0") = a;
    register const void *a1 __asm__("a1") = b;
    register size_t a2 __asm__("a2") = c;
    __asm__ volatile("ecall" : "+r"(a0) : "r"(a7), "r"(a1), "r"(a2) : "memory");
    return a0;
}

#define CONTINUE_ON(top) __asm__ volatile("mv sp, %0\n\tcall begin" : : "r"(top) : "memory")
#elif defined(__x86_64__)
enum { EXIT = 60, READ = 0, WRITE = 1 };

static long call(long number, long a, const void *b, size_t c) {
    long answer;
    __asm__ volatile("syscall" : "=a"(answer) : "a"(number), "D"(a), "S"(b), "d"(c) : "rcx", "r11", "memory");
    return answer;
}

#define CONTINUE_ON(top) __asm__ volatile("mov %0, %%rsp\n\tcall begin" : : "r"(top) : "memory")
#else
#error "32-bit Arm (Thumb), 32-bit RISC-V or x86-64"
#endif

__attribute__((noreturn, used)) void begin(void) {
    call(EXIT, run(), NULL, 0);
    __builtin_trap();
}

__attribute__((noreturn)) void _start(void) {
    CONTINUE_ON(stack + STACK);
    __builtin_unreachable();
}

void say(const char *text) {
    size_t length = 0;
    while (text[length] != 0) length++;
    call(WRITE, 1, text, length);
}

void say_number(uint32_t number) {
    char digits[11];
    size_t at = sizeof digits - 1;
    digits[at] = 0;
    do {
        digits[--at] = (char)('0' + number % 10);
        number /= 10;
    } while (number != 0);
    say(digits + at);
}

size_t read_all(uint8_t *room, size_t length) {
    size_t had = 0;
    while (had < length) {
        long got = call(READ, 0, room + had, length - had);
        if (got <= 0) break;
        had += (size_t)got;
    }
    return had;
}

__attribute__((noinline)) void paint(void) {
    uint8_t *end = (uint8_t *)__builtin_frame_address(0) - OWN;
    for (volatile uint8_t *at = stack; at < end; at++) *at = PAINT;
}

__attribute__((noinline)) uint32_t reached(void) {
    const volatile uint8_t *at = stack;
    while (*at == PAINT) at++;
    return (uint32_t)((const volatile uint8_t *)__builtin_frame_address(0) - at);
}

/* The run-time library. */

void *memset(void *room, int byte, size_t length) {
    for (size_t i = 0; i < length; i++) ((uint8_t *)room)[i] = (uint8_t)byte;
    return room;
}

void *memcpy(void *to, const void *from, size_t length) {
    for (size_t i = 0; i < length; i++) ((uint8_t *)to)[i] = ((const uint8_t *)from)[i];
    return to;
}

void *memmove(void *to, const void *from, size_t length) {
    if ((uintptr_t)to <= (uintptr_t)from) return memcpy(to, from, length);
    for (size_t i = length; i > 0; i--) ((uint8_t *)to)[i - 1] = ((const uint8_t *)from)[i - 1];
    return to;
}

/* Division bit by bit. */
__attribute__((used)) uint64_t divide(uint64_t number, uint64_t by, uint64_t *rest) {
    uint64_t quotient = 0, left = 0;
    for (int bit = 63; bit >= 0; bit--) {
        left = left << 1 | (number >> bit & 1);
        if (left >= by) {
            left -= by;
            quotient |= (uint64_t)1 << bit;
        }
    }
    *rest = left;
    return quotient;
}

#if defined(__thumb__)
void __aeabi_memclr(void *room, size_t length) { memset(room, 0, length); }
void __aeabi_memclr4(void *room, size_t length) { memset(room, 0, length); }
void __aeabi_memclr8(void *room, size_t length) { memset(room, 0, length); }
void __aeabi_memset(void *room, size_t length, int byte) { memset(room, byte, length); }
void __aeabi_memset4(void *room, size_t length, int byte) { memset(room, byte, length); }
void __aeabi_memset8(void *room, size_t length, int byte) { memset(room, byte, length); }
void __aeabi_memcpy(void *to, const void *from, size_t length) { memcpy(to, from, length); }
void __aeabi_memcpy4(void *to, const void *from, size_t length) { memcpy(to, from, length); }
void __aeabi_memcpy8(void *to, const void *from, size_t length) { memcpy(to, from, length); }
void __aeabi_memmove(void *to, const void *from, size_t length) { memmove(to, from, length); }
void __aeabi_memmove4(void *to, const void *from, size_t length) { memmove(to, from, length); }
void __aeabi_memmove8(void *to, const void *from, size_t length) { memmove(to, from, length); }

/* The quotient in r0 and r1, the rest in r2 and r3. */
__attribute__((naked)) void __aeabi_uldivmod(void) {
    __asm__("push {r4, lr}\n\t"
            "sub sp, #16\n\t"
            "add r4, sp, #8\n\t"
            "str r4, [sp]\n\t"
            "bl divide\n\t"
            "ldr r2, [sp, #8]\n\t"
            "ldr r3, [sp, #12]\n\t"
            "add sp, #16\n\t"
            "pop {r4, pc}");
}
#else
uint64_t __udivdi3(uint64_t number, uint64_t by) {
    uint64_t rest;
    return divide(number, by, &rest);
}

uint64_t __umoddi3(uint64_t number, uint64_t by) {
    uint64_t rest;
    divide(number, by, &rest);
    return rest;
}
#endif
