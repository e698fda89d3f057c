/* Of the numbers in the input, decimal with blanks between them, the one with the longest Collatz chain
   (halve an even number, else triple it and add 1, until it is 1): the number and its steps are doublewords
   0 and 1 of the output. The exit code is how many numbers there are. */
#include "zkw.h"

static u64 chain(u64 n)
{
    u64 steps = 0;
    for (; n > 1; steps++)
        n = n % 2 == 0 ? n / 2 : 3 * n + 1;
    return steps;
}

static int is_digit(u8 c) { return c >= '0' && c <= '9'; }

u64 main(void)
{
    const u8 *at = zkw_input(), *end = at + zkw_input_length();
    u64 count = 0, longest = 0;
    while (at < end) {
        if (!is_digit(*at)) {
            at++;
            continue;
        }
        u64 n = 0;
        for (; at < end && is_digit(*at); at++)
            n = 10 * n + (*at - '0');
        u64 steps = chain(n);
        count++;
        if (count == 1 || steps > longest) {
            longest = steps;
            zkw_output_word(0, n);
            zkw_output_word(1, steps);
        }
    }
    return count;
}
