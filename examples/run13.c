/*
 * Document 01's worked run (marked case 13) through the library's entry. It prints
 *
 *   5 3 25 42 18 0005 0000 0000 0000 0004 000 008 25 0 25
 *
 *   cc -I include examples/run13.c crates/lh5801/out/liblh5801.a -o run13 && ./run13
 */
#include "line.h"
#include "lh5801.h"

int main(void)
{
    /* LDI A 15; REC; DCA (X); then the unlisted byte 31. X points to the byte 27. */
    uint8_t page0[] = {0xB5, 0x15, 0xF9, 0x8C, 0x31, 0x27};
    uint8_t nothing; /* Page 1 is empty: any pointer that is not null. */
    uint64_t words[LH5801_WORDS] = {0};

    words[LH5801_X] = 5;
    words[LH5801_FLAGS] = LH5801_BF;
    lh5801_run(words, page0, sizeof page0, &nothing, 0, 0x00, 10);
    print_line(words);
    return words[LH5801_NUMBER] == LH5801_UNLISTED && words[LH5801_BYTE] == 0x31 ? 0 : 1;
}
