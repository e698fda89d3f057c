/* memset, memcpy, memmove and memcmp, which compilers call by themselves. They go by doublewords where
   both ends lie alike: the machine faults on an access that isn't aligned. */
#include "zkw.h"

/* Else a loop below would be compiled to a call of the function in which it stands. */
#pragma GCC optimize("no-tree-loop-distribute-patterns")

typedef u64 __attribute__((may_alias)) word;

static int is_aligned(const void *at) { return (u64)at % 8 == 0; }

static int lie_alike(const void *a, const void *b) { return ((u64)a ^ (u64)b) % 8 == 0; }

void *memset(void *to, int value, u64 length)
{
    u8 *at = to, *end = at + length;
    u64 bytes = (u8)value * 0x0101010101010101UL;
    for (; at < end && !is_aligned(at); at++)
        *at = (u8)value;
    for (; end - at >= 8; at += 8)
        *(word *)at = bytes;
    for (; at < end; at++)
        *at = (u8)value;
    return to;
}

void *memcpy(void *restrict to, const void *restrict from, u64 length)
{
    u8 *at = to, *end = at + length;
    const u8 *source = from;
    if (lie_alike(at, source)) {
        for (; at < end && !is_aligned(at); at++, source++)
            *at = *source;
        for (; end - at >= 8; at += 8, source += 8)
            *(word *)at = *(const word *)source;
    }
    for (; at < end; at++, source++)
        *at = *source;
    return to;
}

void *memmove(void *to, const void *from, u64 length)
{
    u8 *start = to, *at = start + length;
    const u8 *source = (const u8 *)from + length;
    /* Forwards unless that would write over bytes that are still to be read. */
    if ((u64)to - (u64)from >= length)
        return memcpy(to, from, length);
    if (lie_alike(at, source)) {
        for (; at > start && !is_aligned(at);)
            *--at = *--source;
        for (; at - start >= 8;)
            at -= 8, source -= 8, *(word *)at = *(const word *)source;
    }
    for (; at > start;)
        *--at = *--source;
    return to;
}

int memcmp(const void *left, const void *right, u64 length)
{
    const u8 *a = left, *b = right, *end = a + length;
    if (lie_alike(a, b)) {
        for (; a < end && !is_aligned(a); a++, b++)
            if (*a != *b)
                return *a - *b;
        for (; end - a >= 8 && *(const word *)a == *(const word *)b;)
            a += 8, b += 8;
    }
    for (; a < end; a++, b++)
        if (*a != *b)
            return *a - *b;
    return 0;
}
