/*
 * A park: the unit executes HLT and waits, 20 states a step, until the timer wakes it. IE is set and
 * TM is 1FC, so that two shifts lead to 1FF; the timer's vector at FFFA leads to 1234. HLT, five
 * steps that wait and the timer's entry are seven steps. It prints
 *
 *   0 7 109 00 00 0000 0000 0000 0001 1234 1FF 008 109 109 109
 *
 *   cc -I include examples/park.c crates/lh5801/out/liblh5801.a -o park && ./park
 */
#include "line.h"
#include "lh5801.h"

static uint8_t page0[65536] = {0xFD, 0xB1}; /* HLT */
static struct lh5801_settings settings;     /* All zero: nothing is asked for. */

int main(void)
{
    uint8_t nothing; /* Page 1 is empty: any pointer that is not null. */
    uint64_t words[LH5801_WORDS] = {0};

    page0[0xFFFA] = 0x12;
    page0[0xFFFB] = 0x34;
    words[LH5801_T] = 0x02; /* IE */
    words[LH5801_S] = 0x0004;
    words[LH5801_TM] = 0x1FC;
    words[LH5801_FLAGS] = LH5801_BF;
    settings.limit = 7;
    settings.idle = 20;
    lh5801_run_with(words, page0, sizeof page0, &nothing, 0, &settings);
    print_line(words);
    return words[LH5801_NUMBER] == LH5801_ALL_STEPS && words[LH5801_P] == 0x1234 ? 0 : 1;
}
