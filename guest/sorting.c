/* Sorts the signed 64-bit numbers of the input by heap sort, and puts out the least sixteen and the
   greatest sixteen. The exit code is how many there are, of which at most 4,096 are taken. */
#include "zkw.h"

#define MOST 4096

static long numbers[MOST];

static void sift(u64 root, u64 end)
{
    for (u64 child; (child = 2 * root + 1) < end; root = child) {
        child += child + 1 < end && numbers[child] < numbers[child + 1];
        if (numbers[root] >= numbers[child])
            return;
        long held = numbers[root];
        numbers[root] = numbers[child], numbers[child] = held;
    }
}

u64 main(void)
{
    u64 count = zkw_input_length() / 8;
    if (count > MOST)
        count = MOST;
    for (u64 i = 0; i < count; i++)
        numbers[i] = ((const long *)zkw_input())[i];
    for (u64 i = count / 2; i-- > 0;)
        sift(i, count);
    for (u64 end = count; end > 1; end--) {
        long held = numbers[0];
        numbers[0] = numbers[end - 1], numbers[end - 1] = held;
        sift(0, end - 1);
    }
    for (u64 i = 0; i < 16 && i < count; i++) {
        zkw_output_word(i, (u64)numbers[i]);
        zkw_output_word(31 - i, (u64)numbers[count - 1 - i]);
    }
    return count;
}
