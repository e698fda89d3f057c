/* Counts the lines, words and bytes of the input, as `wc` does. */
#include "zkw.h"

static int is_blank(u8 c) { return c == ' ' || (c >= '\t' && c <= '\r'); }

u64 main(void)
{
    const u8 *text = zkw_input();
    u64 length = zkw_input_length();
    u64 lines = 0, words = 0;
    int inside = 0;
    for (u64 i = 0; i < length; i++) {
        lines += text[i] == '\n';
        int blank = is_blank(text[i]);
        words += !blank && !inside;
        inside = !blank;
    }
    zkw_output_word(0, lines);
    zkw_output_word(1, words);
    zkw_output_word(2, length);
    return 0;
}
