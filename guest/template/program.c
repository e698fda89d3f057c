/* What this program computes. Copy this file, and build it by

       guest/cc.sh program.elf program.c

   Then `./zkw run program.elf INPUT STEPS` runs it on the bytes of the file INPUT. */
#include "zkw.h"

/* Here: the sum of the input's bytes, as doubleword 0 of the public output. The exit code is 1 where
   there is no input. */
u64 main(void)
{
    const u8 *bytes = zkw_input();
    u64 length = zkw_input_length();
    u64 sum = 0;
    for (u64 i = 0; i < length; i++)
        sum += bytes[i];
    zkw_output_word(0, sum);
    return length == 0;
}
