/*
 * lh5801.h: the static library liblh5801.a, the instruction unit of the LH5801: its run call, and the
 * comparison of its bus log with an analyser's list.
 *
 * "Document 01" is the requirement that the unit is proved against; the numbers below are its own,
 * but for 11 and 12, which are document 02's. "F-1" to "F-6" are requests of document 02, which came
 * after it.
 * `rt lib` in crates/lh5801 writes crates/lh5801/out/liblh5801.a for x86-64.
 * Usable from C (C99 and later) and C++.
 *
 *   cc -I include program.c crates/lh5801/out/liblh5801.a
 *
 * The run call
 *
 * lh5801_run does document 01's run and nothing else. lh5801_run_with takes the same and the requests
 * of document 02 in a struct of settings. Both are inline functions over lh5801_call, which the archive
 * exports: it has a parameter for each setting, and later requests add to it. From another language
 * than C and C++ call lh5801_call. The archive's other function is lh5801_compare; see "The comparison".
 *
 * The record
 *
 * The record passes in sixteen words of 64 bits. Words 0 to 11 go in and come back, words 12 to 15
 * only come back: what they hold before the call is not looked at.
 *
 *   word  0  LH5801_A          accumulator, 8 bits
 *         1  LH5801_T          status, 8 bits: C 01, IE 02, Z 04, V 08, H 10
 *         2  LH5801_X          16 bits
 *         3  LH5801_Y          16 bits
 *         4  LH5801_U          16 bits
 *         5  LH5801_S          stack pointer, 16 bits
 *         6  LH5801_P          program counter, 16 bits
 *         7  LH5801_TM         timer value, 0 to 511; a larger one is answered with 3
 *         8  LH5801_FLAGS      9 bits, LH5801_HALTED to LH5801_TIMER_REACHED below
 *         9  LH5801_TIMER      timer states, 64 bits
 *        10  LH5801_PREVIOUS   timer states at the timer's last shift, or where CDV (FD 8E) set it
 *                              since, 64 bits
 *        11  LH5801_TICKS      ticks, 64 bits
 *        12  LH5801_NUMBER     why the call ended, 0 to 7, 11 or 12
 *        13  LH5801_BYTE       the unlisted byte where the number is 5 or 6, else 0
 *        14  LH5801_STEPS      completed steps
 *        15  LH5801_STATES     the sum of their states
 *
 * A word above its field's width counts modulo the width: A and T modulo 256, X, Y, U, S and P
 * modulo 65,536; of the flags the nine lowest bits count. A TM above 65,535 counts as 65,535, so it
 * is too large, and is answered with 3. What comes back is never above the width: TM has 16 bits
 * there, the byte 8, the steps 32, the states 64.
 *
 * The pages
 *
 * Page 0 is addressed 0 to FFFF, page 1 (ME1) 10000 to 1FFFF. Each passes as a pointer to its first
 * byte and its length. A page may be shorter than 65,536 bytes, or empty: an address past its end
 * reads FF, and a write there is dropped. For an empty page pass the length 0 and any pointer that
 * is not null; nothing is read or written through it. A page longer than 65,536 bytes is answered
 * with 1 or 2, and is not touched.
 *
 * The interrupts
 *
 * A caller asks for an interrupt by a flag of the record, LH5801_IR0, LH5801_IR1 or LH5801_IR2. Timer
 * reached asks for IR1, which it becomes in each step with BF set that is completed. With BF set the
 * first of these that a step finds is accepted: IR0, whether IE is set or not (F-6); IR1, with IE set;
 * IR2, with IE set. The step is then its entry: T is pushed as it is, IE and the interrupt's own flag
 * are cleared, P is pushed, low byte first, P is read at FFFC for IR0, FFFA for IR1 or FFF8 for IR2,
 * high byte first, halted is cleared, no states are added, and the timer part is done. The vector is
 * read after the pushes, so what they stored may be the vector. The other two stay asked for. With BF
 * clear nothing is accepted, and all flags stay.
 *
 * A call under way cannot be told: a flag counts from the next call on, so a host cuts a run into
 * calls as short as the delay that it allows. A flag that is set is one entry, which clears it, and
 * no step sets IR0: where it comes back set, no step was done, or BF was clear. Nothing masks IR0: a
 * host that sets it again while its routine runs enters it again, three bytes further down the stack.
 *
 * The settings
 *
 *   limit      the greatest number of steps, 1 to 1,000,000
 *   keyboard   the byte that ITA (FD BA) reads
 *   idle       F-1, the idle figure, 0 to 255. With 0 a halted step stops with 7. With 1 to 255 it
 *              waits, and is a completed step: timer reached moves to IR1 as in any step with BF set,
 *              so many states are added to the timer states and the ticks, and the timer part is
 *              done, with one shift at most. It reads and writes nothing. With IE set and TM not 0
 *              the timer wakes the unit so.
 *
 *   log        F-2, the bus log: a list of entries, or null where no log is wanted. Each access of a
 *              completed step is appended to it, in order, as an entry: bit 25 is set for a write,
 *              bits 24 to 8 are the address (17 bits, page 1 from 10000 on), bits 7 to 0 the byte,
 *              the rest zero. A read's byte is the one that was answered, FF past a page's end; a
 *              write that is dropped is an entry too. A step that stops has no entries. Entries that
 *              are not appended keep what they held. A step has at most seven accesses.
 *   log_length how many entries the list has
 *   log_used   how many of them are used. It goes in and comes back: the first entry is appended at
 *              this place, and it is raised by one for each. So a run may be cut into calls that
 *              hand on the struct, and the log is the same as that of one call.
 *
 *   read_only_first, read_only_end
 *              F-4, a part of page 0 that no routine can write: from the first address up to, not
 *              including, the end. A write to it is dropped as one past the page's end is: the byte
 *              stays, and the write is an entry of the log. S moves on a dropped push, and nothing
 *              else of a step changes; what reads the byte later gets the old one, a vector after
 *              its own pushes too. With the end at or below the first nothing is read-only. Both
 *              may be 65,536 or more; page 1 has no such part, whatever they are.
 *
 *   stop_given, stop_address
 *              F-5, a stop address, where stop_given is not 0. A call ends with 12 before the
 *              instruction at this address: that instruction is due, P is the address, and its opcode
 *              is not read. It is looked for before every step, the call's first too, so a run may be
 *              cut anywhere, and a call that begins there ends there with no step done. An accepted
 *              interrupt is entered first. What is no instruction does not stop: a halted step waits
 *              or stops with 7, and with BF clear a step is done as ever, whatever P is. To go on
 *              from the address, do one step without it.
 *
 * A setting of zero asks for nothing: a struct with its limit and keyboard byte set and zeros
 * elsewhere gives what lh5801_run gives. lh5801_run_with changes nothing in the struct but log_used.
 * A list of length 0 that is not null is a log, and it is full.
 *
 * What the caller has to see to
 *
 * - No pointer is null, but for the settings' `log`. `words` is aligned as uint64_t is, and a log as
 *   uint32_t is; the pages need no alignment.
 * - Each page has at least its length in bytes, and a log in entries, all of them initialised.
 * - The sixteen words, the two pages, the log and the settings do not overlap, and nobody else
 *   touches them during the call.
 *
 * There is no other condition: every record, every length, every limit and every page is answered,
 * and every call ends.
 *
 * What is returned
 *
 *   number  condition, looked for in this order
 *     1     page 0 is longer than 65,536 bytes
 *     2     page 1 is longer than 65,536 bytes
 *     3     TM is above 511
 *     4     the limit is 0 or above 1,000,000
 *   then in each step
 *     11    there is a log, and fewer than seven of its entries are free, or its used count is
 *           beyond it; whatever the step would have been
 *     7     after interrupts: BF is set, the unit is halted, no interrupt is accepted, and the idle
 *           figure is 0
 *     12    an instruction is due (BF is set, no interrupt is accepted, not halted), a stop address
 *           is given, and P is that address
 *     5     the opcode read is unlisted
 *     6     the byte after FD is unlisted
 *   and
 *     0     all the steps asked for were done
 *
 * With 1 to 4 the record comes back as given (each word taken as above), steps and states are 0, and
 * the pages, the log and its used count are untouched. With 5, 6, 7, 11 and 12 the record and the
 * pages are as they were before the step that stopped, and steps, states and the log are those of the
 * completed steps. FD 00 stops with 6 and the byte 0, so a byte of 0 does not mean that there was none.
 *
 * The library has no global data, allocates nothing, calls nothing outside itself and keeps nothing
 * between calls. Calls on different words and pages may run at the same time on different threads.
 * A run may be cut into calls: pass the words that came back, and the used count.
 *
 * The comparison
 *
 * F-3: lh5801_compare says whether a bus log and the list of an analyser that catches writes alone tell
 * of the same writes, and where they part. It takes the log's used entries, those before log_used, and
 * the analyser's entries; it writes to neither, and takes lists of any length, empty ones too.
 *
 * - An entry of the log is a write where bit 25 is set; others are reads, and never matter. Bits above
 *   25 are not looked at. Every entry of the analyser's is a write; its bits above 24 are not looked at.
 * - Writes are the same where their addresses and bytes are: bits 24 to 0 of the entries.
 *
 * The answer is a number and a place. The place is how many writes both have in common from the
 * beginning, so it counts writes, from 0, and not the log's entries; where they are equal it is 0.
 *
 *   number                      what it says
 *     0  LH5801_EQUAL           both have the same writes in the same order
 *     1  LH5801_DIFFER          the writes at the place are not the same
 *     2  LH5801_LOG_ENDED       at the place the log has no write left, and the analyser's list has
 *     3  LH5801_ANALYSER_ENDED  at the place the analyser's list has ended, and the log has a write
 *
 * The pointers are not null and aligned as uint32_t is; for an empty list pass the length 0 and any
 * such pointer. Each list has at least so many entries, all of them initialised, and nobody writes to
 * them during the call; they may overlap. A used count that is beyond its list, which the run call
 * answers with 11, is not one to pass: that log has no used entries to compare.
 */
#ifndef LH5801_H
#define LH5801_H

#include <stdbool.h>
#include <stddef.h>
#include <stdint.h>

#ifdef __cplusplus
extern "C" {
#endif

/* Places of the words. */
enum {
    LH5801_A,
    LH5801_T,
    LH5801_X,
    LH5801_Y,
    LH5801_U,
    LH5801_S,
    LH5801_P,
    LH5801_TM,
    LH5801_FLAGS,
    LH5801_TIMER,
    LH5801_PREVIOUS,
    LH5801_TICKS,
    LH5801_NUMBER,
    LH5801_BYTE,
    LH5801_STEPS,
    LH5801_STATES,
    LH5801_WORDS
};

/* Bits of LH5801_FLAGS. */
enum {
    LH5801_HALTED = 1,
    LH5801_PU = 2,
    LH5801_PV = 4,
    LH5801_BF = 8,
    LH5801_DISP = 16,
    LH5801_IR0 = 32,
    LH5801_IR1 = 64,
    LH5801_IR2 = 128,
    LH5801_TIMER_REACHED = 256
};

/* Values of LH5801_NUMBER. */
enum {
    LH5801_ALL_STEPS = 0,
    LH5801_PAGE0_TOO_LONG = 1,
    LH5801_PAGE1_TOO_LONG = 2,
    LH5801_TIMER_VALUE = 3,
    LH5801_LIMIT = 4,
    LH5801_UNLISTED = 5,
    LH5801_UNLISTED_AFTER_FD = 6,
    LH5801_STOPPED_HALTED = 7,
    LH5801_LOG_FULL = 11,
    LH5801_AT_STOP_ADDRESS = 12
};

/* Of an entry of the log: the bit of a write, and how many free entries a step asks for. */
enum {
    LH5801_LOG_WRITE = 0x2000000,
    LH5801_LOG_FREE = 7
};

/* Values of a comparison's number. */
enum {
    LH5801_EQUAL = 0,
    LH5801_DIFFER = 1,
    LH5801_LOG_ENDED = 2,
    LH5801_ANALYSER_ENDED = 3
};

/* What a run call is given besides the record and the pages; see "The settings" above. */
struct lh5801_settings {
    uint32_t limit;
    uint8_t keyboard;
    uint8_t idle;
    uint32_t *log;
    size_t log_length;
    size_t log_used;
    uint32_t read_only_first;
    uint32_t read_only_end;
    uint8_t stop_given;
    uint16_t stop_address;
};

/*
 * The run call, with a parameter for each setting. `logged` says whether `log` is lent; if not, pass
 * the length 0 and any aligned pointer that is not null, and the list is not touched. `stop_given` says
 * whether there is a stop address; if not, `stop_address` is not looked at. The used count after the
 * call is returned: as given, where there is no log.
 */
size_t lh5801_call(uint64_t words[16], uint8_t *page0, size_t length0, uint8_t *page1,
                   size_t length1, uint32_t limit, uint8_t keyboard, uint8_t idle, bool logged,
                   uint32_t *log, size_t log_length, size_t log_used, uint32_t read_only_first,
                   uint32_t read_only_end, bool stop_given, uint16_t stop_address);

/*
 * Runs the unit for at most `settings->limit` steps from the record in `words`, over the two pages,
 * with these settings.
 */
static inline void lh5801_run_with(uint64_t words[16], uint8_t *page0, size_t length0,
                                   uint8_t *page1, size_t length1,
                                   struct lh5801_settings *settings)
{
    uint32_t none = 0;
    bool logged = settings->log != NULL;

    settings->log_used =
        lh5801_call(words, page0, length0, page1, length1, settings->limit, settings->keyboard,
                    settings->idle, logged, logged ? settings->log : &none,
                    logged ? settings->log_length : 0, settings->log_used,
                    settings->read_only_first, settings->read_only_end,
                    settings->stop_given != 0, settings->stop_address);
}

/*
 * Runs the unit for at most `limit` steps (1 to 1,000,000) from the record in `words`, over the two
 * pages. `keyboard` is the byte that ITA (FD BA) reads.
 */
static inline void lh5801_run(uint64_t words[16], uint8_t *page0, size_t length0, uint8_t *page1,
                              size_t length1, uint8_t keyboard, uint32_t limit)
{
    uint32_t none = 0;

    lh5801_call(words, page0, length0, page1, length1, limit, keyboard, 0, false, &none, 0, 0, 0, 0,
                false, 0);
}

/* What lh5801_compare says; see "The comparison" above. */
struct lh5801_comparison {
    size_t place;
    uint8_t number;
};

/*
 * Compares the writes of the first `log_used` entries of a bus log with the `analyser_length` entries
 * of an analyser's list.
 */
struct lh5801_comparison lh5801_compare(const uint32_t *log, size_t log_used,
                                        const uint32_t *analyser, size_t analyser_length);

#ifdef __cplusplus
}
#endif

#endif
