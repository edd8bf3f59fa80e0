/*
 * A read-only part: four bytes of calibration at 000C to 000F, and a routine whose stack runs into
 * them. Its two pushes are dropped, and are writes of the log all the same; S moves; the write below
 * the part is stored. The writes are printed, then the bytes from 000A on, and document 01's line.
 * The last byte of the code, 31, is unlisted. It prints
 *
 *   W 000F 75
 *   W 000E 75
 *   W 000A 75
 *   75 00 12 34 56 78
 *   5 4 40 75 00 0000 0000 0000 000D 0009 000 008 40 0 40
 *
 *   cc -I include examples/calibration.c crates/lh5801/out/liblh5801.a -o calibration && ./calibration
 */
#include <string.h>

#include "line.h"
#include "lh5801.h"

/* LDI A 75; PSH A; PSH A; STA (000A); the unlisted byte 31. From 000C on the calibration. */
static uint8_t page0[16] = {0xB5, 0x75, 0xFD, 0xC8, 0xFD, 0xC8, 0xAE, 0x00,
                            0x0A, 0x31, 0x00, 0x00, 0x12, 0x34, 0x56, 0x78};
static const uint8_t calibration[4] = {0x12, 0x34, 0x56, 0x78};
static uint32_t entries[64];
static struct lh5801_settings settings;

int main(void)
{
    uint8_t nothing; /* Page 1 is empty: any pointer that is not null. */
    uint64_t words[LH5801_WORDS] = {0};
    size_t i;

    words[LH5801_S] = 0x000F;
    words[LH5801_FLAGS] = LH5801_BF;
    settings.limit = 10;
    settings.log = entries;
    settings.log_length = sizeof entries / sizeof entries[0];
    settings.read_only_first = 0x000C;
    settings.read_only_end = 0x0010; /* The first address that can be written again. */
    lh5801_run_with(words, page0, sizeof page0, &nothing, 0, &settings);
    for (i = 0; i < settings.log_used; i++)
        if (entries[i] & LH5801_LOG_WRITE)
            printf("W %04X %02X\n", (unsigned)(entries[i] >> 8 & 0x1FFFF),
                   (unsigned)(entries[i] & 0xFF));
    for (i = 0x000A; i < sizeof page0; i++)
        printf("%02X%c", page0[i], i + 1 < sizeof page0 ? ' ' : '\n');
    print_line(words);
    return memcmp(page0 + 0x000C, calibration, sizeof calibration) == 0 && page0[0x000A] == 0x75
               ? 0
               : 1;
}
