/*
 * The bus log: a routine is run, every access of its completed steps is printed, one a line, R or W
 * with the address and the byte, and then document 01's line. The last byte, 31, is unlisted: its
 * step stops with 5, and its read is no entry. It prints
 *
 *   R 0000 B5
 *   R 0001 15
 *   R 0002 8C
 *   R 000A 27
 *   R 0003 AE
 *   R 0004 00
 *   R 0005 0B
 *   W 000B 42
 *   R 0006 FD
 *   R 0007 C8
 *   W 000F 42
 *   5 4 44 42 18 000A 0000 0000 000E 0008 000 008 44 44 44
 *
 *   cc -I include examples/log.c crates/lh5801/out/liblh5801.a -o log && ./log
 */
#include "line.h"
#include "lh5801.h"

/* LDI A 15; DCA (X); STA (000B); PSH A; the unlisted byte 31. X points to the byte 27 at 000A. */
static uint8_t page0[16] = {0xB5, 0x15, 0x8C, 0xAE, 0x00, 0x0B, 0xFD, 0xC8, 0x31, 0x00, 0x27};
static uint32_t entries[64]; /* Before each step seven have to be free, or it ends with 11. */
static struct lh5801_settings settings;

int main(void)
{
    uint8_t nothing; /* Page 1 is empty: any pointer that is not null. */
    uint64_t words[LH5801_WORDS] = {0};
    size_t i;

    words[LH5801_X] = 0x000A;
    words[LH5801_S] = 0x000F;
    words[LH5801_FLAGS] = LH5801_BF;
    settings.limit = 10;
    settings.log = entries;
    settings.log_length = sizeof entries / sizeof entries[0];
    lh5801_run_with(words, page0, sizeof page0, &nothing, 0, &settings);
    for (i = 0; i < settings.log_used; i++)
        printf("%c %04X %02X\n", entries[i] & LH5801_LOG_WRITE ? 'W' : 'R',
               (unsigned)(entries[i] >> 8 & 0x1FFFF), (unsigned)(entries[i] & 0xFF));
    print_line(words);
    return words[LH5801_NUMBER] == LH5801_UNLISTED && settings.log_used == 11 ? 0 : 1;
}
