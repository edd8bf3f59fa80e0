#!/usr/bin/env python3
"""steps.py count|time [ARCHIVE]: what a step costs, with the archive crates/lh5801/out/liblh5801.a or another. Run at the repository's top.

count: machine instructions a step, by callgrind: lop, dca and mixed of ../shared/bench without a log and with one (calls of 10,000 steps), and with a
stop address that P never equals; a call of one step of LOP with the loop that makes it; a step with BF clear; a waiting step with idle figure 2 and
255. What else the machine does moves no count.
time: nanoseconds a step of lop, dca and mixed without a log, the least of 15 runs of 1,000,000 steps, at each of the four places that the linker may
give a function of 16 bytes' alignment within 64 bytes: the same code is a fifth faster at one than at another.
"""
import os
import re
import statistics
import subprocess
import sys
import tempfile
from concurrent.futures import ThreadPoolExecutor

BENCH = os.path.join("..", "shared", "bench")
FILES = ("lop", "dca", "mixed")
HEAD = """#include "lh5801.h"
static uint8_t page0[] = {%s}, page1[] = {%s};
enum { LENGTH0 = %d, LENGTH1 = %d };
static uint64_t words[LH5801_WORDS] = {%s};
static struct lh5801_settings settings = {.limit = %d, .keyboard = %d, .idle = %d};
"""
LENT = "static uint32_t entries[80000];\n"
# What is counted; the last call has to end with 0.
COUNTED = """__attribute__((noinline)) void measured(void) { %s }
int main(void) { %s measured(); return words[LH5801_NUMBER] != LH5801_ALL_STEPS; }
"""
# The same, timed: nanoseconds of the fastest of several runs from the same record and pages are printed.
TIMED = """#include <stdio.h>
#include <string.h>
#include <time.h>
int main(void)
{
    static uint8_t given0[sizeof page0], given1[sizeof page1];
    uint64_t given[LH5801_WORDS];
    long least = 0;
    memcpy(given0, page0, sizeof page0);
    memcpy(given1, page1, sizeof page1);
    memcpy(given, words, sizeof words);
    for (int i = 0; i < 15; i++) {
        struct timespec begin, end;
        memcpy(page0, given0, sizeof page0);
        memcpy(page1, given1, sizeof page1);
        memcpy(words, given, sizeof words);
        clock_gettime(CLOCK_MONOTONIC, &begin);
        %s
        clock_gettime(CLOCK_MONOTONIC, &end);
        long took = (end.tv_sec - begin.tv_sec) * 1000000000 + end.tv_nsec - begin.tv_nsec;
        if (i == 0 || took < least)
            least = took;
    }
    printf("%%ld\\n", least);
    return words[LH5801_NUMBER] != LH5801_ALL_STEPS;
}
"""
RUN = "lh5801_run_with(words, page0, LENGTH0, page1, LENGTH1, &settings);"


def campaign(data):
    """The fourteen numbers and the two pages of a campaign file."""
    at = 0

    def number():
        nonlocal at
        value = shift = 0
        while True:
            byte = data[at]
            at += 1
            value |= (byte & 127) << shift
            shift += 7
            if byte < 128:
                return value

    numbers, pages = [number() for _ in range(14)], []
    for _ in range(2):
        length = number()
        pages.append(data[at : at + length])
        at += length
    return numbers, pages


def head(pages, words, limit, keyboard, idle):
    """The record, the pages and the settings. C has no empty array: an empty page has a byte that is not lent."""
    listed = [",".join(map(str, page)) or "0" for page in pages]
    return HEAD % (*listed, *map(len, pages), ",".join(f"{it}ull" for it in words), limit, keyboard, idle)


def program(pages, words, limit, keyboard, idle, lent, work, before=""):
    """A program that does the work once, to be counted."""
    return head(pages, words, limit, keyboard, idle) + LENT * lent + COUNTED % (work, before)


def bench(name):
    with open(f"{BENCH}/{name}.bin", "rb") as it:
        return campaign(it.read())


def programs():
    """Each program with how many steps are counted in it."""
    made = {}
    for name in FILES:
        numbers, pages = bench(name)
        made[name] = (program(pages, numbers[:12], 1_000_000, numbers[12], 0, False, RUN), 1_000_000)
        ten = f"for (int i = 0; i < 10; i++) {{ settings.log_used = 0; {RUN} }}"
        lent = "settings.log = entries; settings.log_length = 80000;"
        made[f"{name} logged"] = (program(pages, numbers[:12], 10_000, numbers[12], 0, True, ten, lent), 100_000)
        stop = "settings.stop_given = 1; settings.stop_address = 0xFFFF;"
        made[f"{name} stopping"] = (program(pages, numbers[:12], 100_000, numbers[12], 0, False, RUN, stop), 100_000)
    lop = [b"\x88\x02" + bytes(14), b""]
    one = "for (int i = 0; i < 10000; i++) { words[LH5801_U] = 255; lh5801_run(words, page0, LENGTH0, page1, LENGTH1, 0, 1); }"

    def record(flags):
        return [0] * 8 + [flags] + [0] * 3

    made["one"] = (program(lop, record(8), 1, 0, 0, False, one), 10_000)
    made["off"] = (program(lop, record(0), 100_000, 0, 0, False, RUN), 100_000)
    for idle in (2, 255):
        made[f"waiting {idle}"] = (program(lop, record(9), 100_000, 0, idle, False, RUN), 100_000)
    return made


def counted(room, archive, name, text, steps):
    file = f"{room}/{name.replace(' ', '-')}"
    with open(f"{file}.c", "w", encoding="utf-8") as it:
        it.write(text)
    subprocess.check_call(["cc", "-O2", "-I", "include", f"{file}.c", archive, "-o", file])
    words = ["valgrind", "--tool=callgrind", f"--callgrind-out-file={file}.out", "--toggle-collect=measured", file]
    ran = subprocess.run(words, capture_output=True, text=True)
    if ran.returncode:
        sys.exit(f"{name}: the run did not end with 0\n{ran.stderr[-500:]}")
    collected = int(re.search(r"Collected : (\d+)", ran.stderr).group(1))
    return f"{collected / steps:.1f}"


def count(archive):
    with tempfile.TemporaryDirectory() as room, ThreadPoolExecutor(os.cpu_count()) as jobs:
        told = {name: jobs.submit(counted, room, archive, name, *it) for name, it in programs().items()}
        told = {name: it.result() for name, it in told.items()}
    print("lop, dca, mixed:", ", ".join(told[it] for it in FILES))
    print("with a log:", ", ".join(told[f"{it} logged"] for it in FILES))
    print("with a stop address:", ", ".join(told[f"{it} stopping"] for it in FILES))
    print(f"a call of one step: {told['one']}; BF clear: {told['off']}; waiting, idle figure 2 and 255: {told['waiting 2']}, {told['waiting 255']}")


def timed(room, archive, name, pad):
    """With so many bytes before the archive's functions."""
    with open(f"{room}/pad.s", "w", encoding="utf-8") as it:
        it.write(f'.section .text.lh5801_pad,"ax",@progbits\n.p2align 6\n.fill {pad}, 1, 0x90\n.section .note.GNU-stack,"",@progbits\n')
    numbers, pages = bench(name)
    with open(f"{room}/timed.c", "w", encoding="utf-8") as it:
        it.write(head(pages, numbers[:12], 1_000_000, numbers[12], 0) + TIMED % RUN)
    subprocess.check_call(["cc", "-O2", "-I", "include", f"{room}/timed.c", f"{room}/pad.s", archive, "-o", f"{room}/timed"])
    return int(subprocess.check_output([f"{room}/timed"], text=True)) / 1_000_000


def time(archive):
    with tempfile.TemporaryDirectory() as room:
        for name in FILES:
            told = [timed(room, archive, name, pad) for pad in (0, 16, 32, 48)]
            print(f"{name}: {', '.join(f'{it:.2f}' for it in told)} ns a step, median {statistics.median(told):.2f}")


def main():
    work = {"count": count, "time": time}.get(sys.argv[1] if len(sys.argv) > 1 else "")
    if not work:
        sys.exit(__doc__)
    work(sys.argv[2] if len(sys.argv) > 2 else "crates/lh5801/out/liblh5801.a")


main()
