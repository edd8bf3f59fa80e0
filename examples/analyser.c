/*
 * Our log against the analyser: a routine is run with a log, and the log is compared with what an
 * analyser on the bus has caught, which are the writes alone. First come the writes of the log by their
 * places, then what the comparison says of four lists. It prints
 *
 *   0: 000B 42
 *   1: 000F 42
 *   all caught: equal
 *   another byte: they differ at 1
 *   one missed: the analyser's list ended at 1
 *   one more: our log ended at 2
 *
 *   cc -I include examples/analyser.c crates/lh5801/out/liblh5801.a -o analyser && ./analyser
 */
#include <stdio.h>

#include "lh5801.h"

/* LDI A 15; DCA (X); STA (000B); PSH A; the unlisted byte 31. X points to the byte 27 at 000A. */
static uint8_t page0[16] = {0xB5, 0x15, 0x8C, 0xAE, 0x00, 0x0B, 0xFD, 0xC8, 0x31, 0x00, 0x27};
static uint32_t entries[64];
static struct lh5801_settings settings;

static void run(void)
{
    uint8_t nothing; /* Page 1 is empty: any pointer that is not null. */
    uint64_t words[LH5801_WORDS] = {0};

    words[LH5801_X] = 0x000A;
    words[LH5801_S] = 0x000F;
    words[LH5801_FLAGS] = LH5801_BF;
    settings.limit = 10;
    settings.log = entries;
    settings.log_length = sizeof entries / sizeof entries[0];
    lh5801_run_with(words, page0, sizeof page0, &nothing, 0, &settings);
}

static void print_writes(void)
{
    size_t i, place = 0;

    for (i = 0; i < settings.log_used; i++)
        if (entries[i] & LH5801_LOG_WRITE)
            printf("%u: %04X %02X\n", (unsigned)place++, (unsigned)(entries[i] >> 8 & 0x1FFFF),
                   (unsigned)(entries[i] & 0xFF));
}

/* Compares the log with this list, prints what is said of it, and returns the number. */
static int compare(const char *name, const uint32_t *analyser, size_t length)
{
    static const char *const says[] = {"equal", "they differ", "our log ended",
                                       "the analyser's list ended"};
    struct lh5801_comparison said =
        lh5801_compare(entries, settings.log_used, analyser, length);

    printf("%s: %s", name, says[said.number]);
    if (said.number != LH5801_EQUAL)
        printf(" at %u", (unsigned)said.place);
    printf("\n");
    return said.number;
}

int main(void)
{
    /* An analyser's entry is laid out as ours; of its bits above 24 none is looked at. */
    const uint32_t caught[3] = {0x000B42, LH5801_LOG_WRITE | 0x000F42, 0x000E00};
    const uint32_t other[2] = {0x000B42, 0x000F43};
    int equal, differ, analyser_ended, log_ended;

    run();
    print_writes();
    equal = compare("all caught", caught, 2);
    differ = compare("another byte", other, 2);
    analyser_ended = compare("one missed", caught, 1);
    log_ended = compare("one more", caught, 3);
    return equal == LH5801_EQUAL && differ == LH5801_DIFFER
                   && analyser_ended == LH5801_ANALYSER_ENDED && log_ended == LH5801_LOG_ENDED
               ? 0
               : 1;
}
