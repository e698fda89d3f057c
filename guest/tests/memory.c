/* Tests lib/memory.c against loops over bytes, at all alignments and short lengths, also where the two
   ends overlap. The exit code is the number of the first test that fails, or 0; word 0 counts the tests. */
#include "zkw.h"

void *memset(void *to, int value, u64 length);
void *memcpy(void *restrict to, const void *restrict from, u64 length);
void *memmove(void *to, const void *from, u64 length);
int memcmp(const void *left, const void *right, u64 length);

#define ROOM 96
#define MOST 34

static u8 given[ROOM], wanted[ROOM], found[ROOM];
static u64 tests;

static void fill(void)
{
    for (u64 i = 0; i < ROOM; i++)
        wanted[i] = found[i] = given[i] = (u8)(i * 37 + 11);
}

/* Ends the run where what was found isn't what was wanted. */
static void compare(void)
{
    tests++;
    for (u64 i = 0; i < ROOM; i++)
        if (*(volatile u8 *)&wanted[i] != *(volatile u8 *)&found[i])
            zkw_exit(tests);
}

static int sign(int n) { return (n > 0) - (n < 0); }

static void order(u64 from, u64 to, u64 length)
{
    int difference = 0;
    for (u64 i = 0; i < length && difference == 0; i++)
        difference = found[from + i] - found[to + i];
    tests++;
    if (sign(memcmp(found + from, found + to, length)) != sign(difference))
        zkw_exit(tests);
}

static void at(u64 from, u64 to, u64 length)
{
    fill();
    for (u64 i = 0; i < length; i++)
        *(volatile u8 *)&wanted[to + i] = given[from + i];
    memmove(found + to, found + from, length);
    compare();
    fill();
    for (u64 i = 0; i < length; i++)
        *(volatile u8 *)&wanted[to + i] = given[from + i];
    memcpy(found + to, given + from, length);
    compare();
    order(from, to, length);
    /* both ends alike but for the last byte, or altogether */
    memcpy(found + 48 + to % 8, found + from % 8, length);
    order(from % 8, 48 + to % 8, length);
    if (length > 0)
        found[48 + to % 8 + length - 1] ^= 0x80;
    order(from % 8, 48 + to % 8, length);
}

u64 main(void)
{
    for (u64 length = 0; length < MOST; length++)
        for (u64 to = 0; to < 16; to++) {
            fill();
            for (u64 i = 0; i < length; i++)
                *(volatile u8 *)&wanted[to + i] = 0xa5;
            memset(found + to, 0x7a5, length);
            compare();
            for (u64 from = 0; from < 16; from++)
                at(from, to, length);
        }
    zkw_output_word(0, tests);
    return 0;
}
