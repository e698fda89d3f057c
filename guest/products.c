/* The 128-bit products of pairs of 64-bit numbers from the input, added up modulo 2^128: unsigned by
   unsigned, signed by signed, and signed by unsigned; then quotient and remainder of the last pair. */
#include "zkw.h"

typedef unsigned __int128 u128;
typedef __int128 i128;

u64 main(void)
{
    const u64 *pairs = (const u64 *)zkw_input();
    u64 count = zkw_input_length() / 16;
    u128 plain = 0, both = 0, mixed = 0;
    u64 a = 0, b = 0;
    for (u64 i = 0; i < count; i++) {
        a = pairs[2 * i], b = pairs[2 * i + 1];
        plain += (u128)a * b;
        both += (u128)((i128)(long)a * (long)b);
        mixed += (u128)(i128)(long)a * b;
    }
    zkw_output_word(0, (u64)plain), zkw_output_word(1, (u64)(plain >> 64));
    zkw_output_word(2, (u64)both), zkw_output_word(3, (u64)(both >> 64));
    zkw_output_word(4, (u64)mixed), zkw_output_word(5, (u64)(mixed >> 64));
    zkw_output_word(6, a / b), zkw_output_word(7, a % b);
    zkw_output_word(8, (u64)((long)a / (long)b)), zkw_output_word(9, (u64)((long)a % (long)b));
    return 0;
}
