/*
 * The line that IE does not mask: while the README's column routine runs, with IE clear, the host
 * asks for IR0, as the supply drops. The vector at FFFC leads to 0100, where a routine sets bit 0 of
 * the byte at 0200 and returns; the column goes on. Document 01's line is printed before the entry,
 * after it, and at the end, and then the byte at 0200 and the total at 0014. It prints
 *
 *   0 10 79 00 15 0014 0017 0001 03FF 0005 000 008 79 47 79
 *   0 1 0 00 15 0014 0017 0001 03FC 0100 000 008 79 47 79
 *   7 14 139 03 11 0013 0016 0000 03FF 0014 000 009 218 192 218
 *   01 00 00 03
 *
 *   cc -I include examples/undervoltage.c crates/lh5801/out/liblh5801.a -o undervoltage && ./undervoltage
 */
#include <stdio.h>
#include <string.h>

#include "line.h"
#include "lh5801.h"

/* The routine and the two columns of examples/column.campaign. */
static const uint8_t column[26] = {0xF9, 0x15, 0x8C, 0x43, 0x56, 0x88, 0x06, 0xA5, 0x00,
                                   0x14, 0x28, 0xA5, 0x00, 0x15, 0x2A, 0xA5, 0x00, 0x16,
                                   0xFD, 0xB1, 0x01, 0x23, 0x45, 0x98, 0x76, 0x58};
static const uint8_t routine[5] = {0xEB, 0x02, 0x00, 0x01, 0x8A}; /* ORI (0200), 01; RTI */
static uint8_t page0[65536];

int main(void)
{
    uint8_t nothing; /* Page 1 is empty: any pointer that is not null. */
    uint64_t words[LH5801_WORDS] = {0};

    memcpy(page0, column, sizeof column);
    memcpy(page0 + 0x0100, routine, sizeof routine);
    page0[0xFFFC] = 0x01; /* 0100 */
    words[LH5801_X] = 0x0016;
    words[LH5801_Y] = 0x0019;
    words[LH5801_U] = 0x0002;
    words[LH5801_S] = 0x03FF;
    words[LH5801_FLAGS] = LH5801_BF;
    lh5801_run(words, page0, sizeof page0, &nothing, 0, 0, 10);
    print_line(words);
    words[LH5801_FLAGS] |= LH5801_IR0;
    lh5801_run(words, page0, sizeof page0, &nothing, 0, 0, 1);
    print_line(words);
    lh5801_run(words, page0, sizeof page0, &nothing, 0, 0, 100);
    print_line(words);
    printf("%02X %02X %02X %02X\n", page0[0x0200], page0[0x0014], page0[0x0015], page0[0x0016]);
    return words[LH5801_NUMBER] == LH5801_STOPPED_HALTED && page0[0x0200] == 1 ? 0 : 1;
}
