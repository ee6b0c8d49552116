/* Prints what this machine's processor answers to the rows of crates/ia32_arithmetic_tests: the value, and CF, PF, AF, ZF, SF and OF as a
 * word of EFLAGS. Build and run: gcc -O1 -o /tmp/arithmetic_rows tests/outside/arithmetic_rows.c && /tmp/arithmetic_rows
 * Flags that Intel leaves undefined (AF of logic and shifts, OF of shifts by another count than 1) are printed as this processor has them. */
#include <stdint.h>
#include <stdio.h>

#define SHOW(text, value) printf("%-34s %08x %03x\n", text, (unsigned)(value), (unsigned)(after & 0x8d5))
#define TWO(op, type, a, b, before) { type x = (type)(a), y = (type)(b); uint64_t after; \
    asm volatile("push %2; popfq; " op " %3,%0; pushfq; pop %1" : "+r"(x), "=r"(after) : "r"((uint64_t)(before) | 2), "r"(y) : "cc"); \
    SHOW(op " " #a " " #b " flags " #before, x); }
#define ONE(op, type, a, before) { type x = (type)(a); uint64_t after; \
    asm volatile("push %2; popfq; " op " %0; pushfq; pop %1" : "+r"(x), "=r"(after) : "r"((uint64_t)(before) | 2) : "cc"); \
    SHOW(op " " #a " flags " #before, x); }
#define SHIFT(op, type, a, count, before) { type x = (type)(a); uint64_t after; \
    asm volatile("push %2; popfq; " op " %%cl,%0; pushfq; pop %1" : "+r"(x), "=r"(after) : "r"((uint64_t)(before) | 2), "c"(count) : "cc"); \
    SHOW(op " " #a " by " #count " flags " #before, x); }
#define DOUBLE(op, type, a, b, count) { type x = (type)(a), y = (type)(b); uint64_t after; \
    asm volatile("push %2; popfq; " op " %%cl,%3,%0; pushfq; pop %1" : "+r"(x), "=r"(after) : "r"((uint64_t)2), "r"(y), "c"(count) : "cc"); \
    SHOW(op " " #a " " #b " by " #count, x); }
#define MULTIPLY(op, a, b) { uint32_t low = (a), high, by = (b); uint64_t after; \
    asm volatile(op " %3; pushfq; pop %2" : "+a"(low), "=d"(high), "=r"(after) : "r"(by) : "cc"); \
    printf("%-34s %08x:%08x %03x\n", op " " #a " " #b, high, low, (unsigned)(after & 0x801)); }
#define DIVIDE(op, h, l, b) { uint32_t low = (l), high = (h), by = (b); \
    asm volatile(op " %2" : "+a"(low), "+d"(high) : "r"(by) : "cc"); \
    printf("%-34s %08x rest %08x\n", op " " #h ":" #l " by " #b, low, high); }

int main(void) {
    TWO("adcb", uint8_t, 0, 0xff, 1)
    TWO("addl", uint32_t, 0x7fffffff, 1, 0)
    TWO("addw", uint16_t, 0x8000, 0x8000, 0)
    TWO("subl", uint32_t, 0, 1, 0)
    TWO("sbbb", uint8_t, 0x80, 0, 1)
    TWO("sbbw", uint16_t, 0, 0xffff, 1)
    TWO("andl", uint32_t, 0xf0f0f0f0, 0x8000000f, 0x801)
    TWO("orb", uint8_t, 0x81, 3, 0x801)
    TWO("xorw", uint16_t, 0xffff, 0xffff, 0x801)
    ONE("incb", uint8_t, 0x7f, 1)
    ONE("incl", uint32_t, 0xffffffff, 0)
    ONE("decw", uint16_t, 0x8000, 1)
    ONE("negb", uint8_t, 0, 1)
    ONE("negl", uint32_t, 0x80000000, 0)
    ONE("notw", uint16_t, 0xff, 0x8d5)
    SHIFT("shlb", uint8_t, 0x81, 1, 0)
    SHIFT("shlw", uint16_t, 0x8001, 33, 0)
    SHIFT("shll", uint32_t, 5, 32, 0x8d5)
    SHIFT("shrl", uint32_t, 0xffffffff, 31, 0x800)
    SHIFT("shrb", uint8_t, 0xff, 8, 1)
    SHIFT("sarb", uint8_t, 0x81, 20, 0x800)
    SHIFT("rolb", uint8_t, 0x81, 8, 0)
    SHIFT("roll", uint32_t, 0x80000000, 1, 0x40)
    SHIFT("rorw", uint16_t, 1, 1, 0)
    SHIFT("rclb", uint8_t, 0x81, 9, 1)
    SHIFT("rcll", uint32_t, 0xffffffff, 31, 0)
    SHIFT("rcrb", uint8_t, 1, 1, 1)
    DOUBLE("shldl", uint32_t, 0x80000001, 0xc0000000, 1)
    DOUBLE("shrdw", uint16_t, 0x1234, 0xabcd, 4)
    DOUBLE("shldw", uint16_t, 0x1234, 0xabcd, 16)
    MULTIPLY("mull", 0xffffffff, 0xffffffff)
    MULTIPLY("imull", 0xffffffff, 0xffffffff)
    DIVIDE("divl", 1, 0, 0x10)
    DIVIDE("divl", 0xfffffffe, 0xffffffff, 0xffffffff)
    DIVIDE("idivl", 0xffffffff, 0xfffffff9, 2)
    return 0;
}
