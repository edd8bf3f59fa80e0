/*
 * A stop address: the README's column routine, stopped before LDA (Y) at 0001 in each turn of its
 * loop. To go on, one step is done without the address. Document 01's line is printed at each stop,
 * and at the end, where the unit has halted. It prints
 *
 *   12 1 4 00 00 0016 0019 0002 0000 0001 000 008 4 0 4
 *   12 4 37 03 11 0015 0018 0001 0000 0001 000 008 47 47 47
 *   12 4 37 00 15 0014 0017 0000 0000 0001 000 008 90 90 90
 *   7 10 89 03 11 0013 0016 0000 0000 0014 000 009 185 185 185
 *
 *   cc -I include examples/stepping.c crates/lh5801/out/liblh5801.a -o stepping && ./stepping
 */
#include "line.h"
#include "lh5801.h"

/* The routine and the two columns of examples/column.campaign. */
static uint8_t page0[26] = {0xF9, 0x15, 0x8C, 0x43, 0x56, 0x88, 0x06, 0xA5, 0x00,
                            0x14, 0x28, 0xA5, 0x00, 0x15, 0x2A, 0xA5, 0x00, 0x16,
                            0xFD, 0xB1, 0x01, 0x23, 0x45, 0x98, 0x76, 0x58};
static struct lh5801_settings settings;

int main(void)
{
    uint8_t nothing; /* Page 1 is empty: any pointer that is not null. */
    uint64_t words[LH5801_WORDS] = {0};
    int stops = 0;

    words[LH5801_X] = 0x0016;
    words[LH5801_Y] = 0x0019;
    words[LH5801_U] = 0x0002;
    words[LH5801_FLAGS] = LH5801_BF;
    settings.limit = 100;
    settings.stop_given = 1;
    settings.stop_address = 0x0001;
    for (;;) {
        lh5801_run_with(words, page0, sizeof page0, &nothing, 0, &settings);
        print_line(words);
        if (words[LH5801_NUMBER] != LH5801_AT_STOP_ADDRESS)
            break;
        stops++;
        lh5801_run(words, page0, sizeof page0, &nothing, 0, 0, 1);
    }
    return stops == 3 && words[LH5801_NUMBER] == LH5801_STOPPED_HALTED ? 0 : 1;
}
