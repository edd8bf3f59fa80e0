//! What the commands say about themselves.

#![forbid(unsafe_code)]

pub const HELP: &str = "\
The oracle runs the original lh5801.rs, included unchanged but for one name, over a flat memory.

oracle run [FILE]          a campaign file's line, and with --trace its accesses
oracle compare N           N random calls, the original against the model or the port
oracle differential        100 million steps, the original against the port
oracle rerun N             N runs through the port, cut into lists of calls on differing pages
oracle park [N]            long parks: N waiting steps, the original against port and model
oracle analyser N          N pairs of lists, a log and an analyser's, through the port's comparison
oracle campaign N          N campaign files through the port's library or program
oracle replay              the list of crates/replay through the port's libraries
oracle items N             makes that list: the original's answers, as bytes
oracle speed               the speed of the original and of the port
oracle once WAY FILE       one run of a campaign file, for an instruction count
oracle symbols             the functions of the port's archive
oracle list N              a fixed list of the original's answers, as text
oracle list --check FILE   such a list, checked
oracle arithmetic          the arithmetic over all inputs, against libprobe.a
oracle COMMAND --help      more about a command

Status: 0 where all is well, 1 for a difference, 2 for a fault in the command or its files.
";

/// How an oracle with the port is built.
pub const PORT_HELP: &str = "\
To build it with the port:

  rt lib                                 (in crates/lh5801)
  cargo build --release --features port  (in oracle/)

The environment variables PORT_LIB_DIR and PORT_LIB_NAME, at building, name another archive than
../crates/lh5801/out and lh5801.
";

pub const RUN_HELP: &str = "\
oracle run [FILE] [--side original|model|port] [--trace] [--stop ADDRESS]

Reads a campaign file (document 01, \"Campaign file\") from FILE, or from standard input without
FILE or with -, at most 33,000 bytes of it, and prints document 01's line. A file has no idle figure,
no log, no read-only part and no stop address: the figure is 0.

--side NAME     the side that runs it; without it the original, and with --trace the port. port wants
                the feature `port`
--trace         before the line, the accesses of the completed steps, one a line, such as `R 0004 27`
                and `W 7FFF 12`; page 1 has five digits, `R 10004 FF`. They are the side's bus log; the
                original's vector reads are put in document 01's order, so that the three are alike. The
                entry of IR0 is the model's where the original runs the file
--stop ADDRESS  the run ends with 12 before an instruction at this address, of one to four hexadecimal
                digits; without it there is no stop address
";

pub const COMPARE_HELP: &str = "\
oracle compare N [--seed S] [--side model|port]

Runs N random calls on the original and on another side and compares number, byte, steps, states,
end record, both pages and the bus log, every entry and the used count; of the model also the
accesses. The original's vector reads are put in document 01's order. Half of the calls have the
idle figure 0, the others any; six of ten are lent a log, often with few free entries, an empty
list, or a used count beyond the list; half have a read-only part of page 0, at every edge too, and
half a stop address. Directed calls come first: a halted unit with every idle figure and every
state of the flags that decide about a step; then logs, with every listed opcode, entries, the
stack over the vectors, ends of pages, lists of every length from 0 to 30, and 11 beside every
other end; then read-only parts, with their edges around every write, pushes, entries and vectors
under the stack, ends above page 0 and empty parts; then stop addresses, with every opcode at them
and before them, every kind of step there, entries and what they come to; then IR0, with every state
of a step, the stack around its vector, and IR1 and IR2 behind it. Beside each call with a stop
address the call without it is made, which has to be the same up to the stop. A first step with BF
and IR0 set is the model's, and the original goes on from it. Prints what was reached. At a
difference it prints the smallest failing input it finds and ends with status 1, and so it does where,
in 5,000 calls or more, read-only parts, stop addresses or IR0 did not do all that they can.

--seed S      the seed, a decimal number; 1 without it
--side NAME   the other side, model or port; model without it. port wants the feature `port`
";

pub const DIFFERENTIAL_HELP: &str = "\
oracle differential [--steps N] [--seed S] [--threads T]

Runs at least N steps of random programs on the original and on the port, and compares number, byte,
steps, states, end record and both pages after every call. In three of eight starts the port is lent a
log, which is handed on from call to call and emptied where it is full, and the log has to equal the
original's accesses and the model's log. In half of the starts a part of page 0 is read-only, and half
of them have a stop address, which often changes after a stop. IR0 is set in a tenth of the starts and
in six of a hundred cases between two calls; with BF set too the first step is the model's, and the
original goes on from it. Calls with a log or a read-only part, or with such a first step, run on the
original through its own panics, and on the model too. Idle figures are 0 in about half of the
sessions' starts, else any. Prints what was reached; an opcode that was executed less than 10,000
times (N / 10,000 times where that is less), an idle figure of 1 to 255 with less than 100 waiting
steps (N / 1,000,000), less than N / 10 steps with an access and a log, or, with N from 1,000,000 on,
read-only parts, stop addresses or IR0 that did not do all they can end with status 1. At a difference
it prints the smallest failing input it finds and ends with status 1. It wants the feature `port`.

--steps N     steps that execute an instruction or accept an interrupt; 100,000,000 without it
--seed S      the seed, a decimal number; 1 without it
--threads T   2 without it; seed and T together fix the calls that are made
";

pub const RERUN_HELP: &str = "\
oracle rerun N [--seed S]

Runs N random runs through the port, each twice: cut into a list of calls on the given pages, and cut
into another list on pages where every byte has another value that the run does not read before it has
stored a write there. Compares the final stop and its byte, the end record, the sums of steps and
states, and both pages: a written byte is what was last written, every other byte its own. What is
read first and what is written comes from the original's log. Both lists have the same idle figure
and, in half of the runs, the same read-only part: what is dropped there leaves its byte unwritten,
and after every call each side's bytes in it have to be what they were. In half of the runs both have
the same stop address, and the run is made without it too. Where a run begins with BF and IR0 set, its
first step is the model's. In half of the runs both are lent a bus log, with equally many free entries
and otherwise different, and hand on its used count: the lists and counts at the end are compared. At a
difference it prints the smallest failing input it finds and ends with status 1, and so it does where,
in 2,000 runs or more, read-only parts, stop addresses or IR0 did not do all that they can. It wants
the feature `port`.

--seed S   the seed, a decimal number; 1 without it
";

pub const PARK_HELP: &str = "\
oracle park [N]

Runs two long parks on the original (without its log), the port and the model, and compares number,
byte, steps, states, end record and both pages after every call. In one IE is clear, and nothing
wakes the unit. In the other IE is set: the timer wakes it again and again, a routine at FFFA counts
that, loads the timer and returns, and the unit executes HLT again. Each has N waiting steps,
10,000,000 without N: half of them spread over all idle figures from 1 to 255, the rest in calls of
up to 1,000,000 steps at the figures 1, 2, 41, 42, 43, 84 and 255 in turn; each call goes on from the
last one. Prints waiting steps and wakes. At a difference it prints the smallest failing input it
finds and ends with status 1. It wants the feature `port`.
";

pub const ANALYSER_HELP: &str = "\
oracle analyser N [--seed S]

Compares N pairs of lists by the port's lh5801_compare and by the oracle's own comparison, which is
written from document 02, F-3: our log, and the list of an analyser that catches writes alone. Then
all reads are taken out of our log, and one read is put in at its beginning, at its end and somewhere
within, and each time the answer has to stay. Neither list may be changed. Directed pairs come first:
each of the 32 bits of each entry turned, lists of 0 to 8 writes with every common beginning, the
same write again and again, and each entry doubled, dropped, exchanged or changed. Then come random
ones; one of 16 is what the port logs in a random call, beside the writes that the original makes in
it, as they are or with one write changed, dropped or added, so that the answer is known. Prints the
pairs by answer, by kind, by the bit that is turned and by what their lists have; where N is 10,000
or more and one of these was never met it ends with status 1. At a difference it prints the smallest
failing pair it finds and ends with status 1. It wants the feature `port`.

--seed S   the seed, a decimal number; 1 without it
";

pub const CAMPAIGN_HELP: &str = "\
oracle campaign N [--seed S] [--program PATH]

Gives campaign files to the port and compares its line, byte by byte, with the line of the oracle's
own reader and the original. The port is the function of its library that makes the line
(probe_report of libprobe.a), on two threads; with --program, or where the oracle was built without
the feature `probe`, it is the port's program, which is run once for each file. First come some
directed files (every prefix of two files, every number at its edges, the edges of the pages), then
N random ones: valid, cut, damaged and without form. At a difference it prints the smallest failing
file it finds and ends with status 1.

--seed S         the seed, a decimal number; 1 without it
--program PATH   the program, which reads standard input; without the feature `probe` it is
                 ../crates/campaign/out/campaign where none is named
";

pub const REPLAY_HELP: &str = "\
oracle replay [DIR]

Replays the list that the port's program `replay` holds, from the files answers0.bin and on of DIR,
or of ../crates/replay/data: every call through lh5801_call with the idle figure 0, the item's
read-only part, and a log of 64 entries and a stop address where the item says so, with the line
and two sums over both pages, all entries and the used count compared; every file that is turned
down through probe_report, with its line compared. A difference ends with status 1. It wants the
features `port` and `probe`.

Each page, the words, each file, the line's buffer and, where EXACT_LISTS is set, each log's list are
blocks of the heap that are exactly as long as they have to be, so that an access past an end is seen
by valgrind; see ../memcheck.
";

pub const ITEMS_HELP: &str = "\
oracle items N [--seed S] --out DIR

Makes the list that the port's program `replay` holds, and writes it to answers0.bin and on in DIR,
each of at most 65,536 bytes; the head of ../crates/replay/src/main.rt has an item's form. The list in
the repository, which a test compares with what is made, is that of

  oracle items 1500 --seed 7 --out ../crates/replay/data

Its items are the calls of `oracle list N`, every third random one with a log, then directed calls
with a log, then directed calls with a read-only part, with a stop address and with IR0 set, half of
them with a log, each with the original's answer (its vector reads in document 01's order; stops 1 to
4, 7, 11 and 12 are the oracle's own, and IR0's entry is the model's), then files that are turned
down, with the oracle's own line. A log has 64 entries and a used count from 0 to 57, with room for a
step, or of 58, 63, 64, 65 or 1,000. Prints how many items there are, by the number of their line, and
what the read-only parts, the stop addresses and the calls with IR0 set did.

--seed S    the seed, a decimal number; 1 without it
--out DIR   the folder, which has to be there, and may not hold a file of a longer list
";

pub const SPEED_HELP: &str = "\
oracle speed [--rounds N] [--bench DIR] [--least PERCENT]

Checks that lh5801_call and lh5801_compare are the only functions of the archive besides those of a
log, as `oracle symbols` does (status 1 where they are not), and measures three ways to do the same
work, in interleaved rounds: the original's bare step_cpu loop, the original under a run call with
its stop checks, and the port. The work is that of campaign files with the idle figure 0, whole and
cut into calls, and then waiting steps; all of it without a log and without a stop address, and
nothing is read-only. Then come the same files with a stop address that is never met, which the
port alone is given, and then with a log lent to the port, beside the original's bare steps over a
memory that records the same entries. Last comes lh5801_compare on the logs of these files and on
random ones, beside two plain walks over the same lists. Prints the median with the least and the
greatest, and the ratios of the medians, with those of the least costs behind them; above 1 the
port is faster. It wants the feature `port`.

--rounds N        rounds that count; 15 without it
--bench DIR       the folder of lop.bin, dca.bin and mixed.bin; ../../shared/bench without it
--least PERCENT   status 1 where the port's ratio to the bare original is below it on a whole run
";

pub const ONCE_HELP: &str = "\
oracle once (original|bare|port) FILE [--log]

Runs a campaign file exactly once, with the idle figure 0, and prints document 01's line: under a run
call of the original, as bare steps of the original (no stop is looked for), or by the port, which
wants the feature `port`; with --log the port is lent a log with room for every step. A file that
begins with BF and IR0 set is the port's alone. For counts of instructions from outside:

  valgrind --tool=callgrind --toggle-collect=lh5801_call oracle once port FILE
  valgrind --tool=callgrind '--toggle-collect=*bare_steps*' oracle once bare FILE
  valgrind --tool=callgrind '--toggle-collect=*original_run*' oracle once original FILE
";

pub const SYMBOLS_HELP: &str = "\
oracle symbols [ARCHIVE]

Runs nm on the port's archive and checks that it exports lh5801_call and lh5801_compare, and that they
are its only functions, exported or not, besides those of the crate bus, which only a call with a log
takes. Without ARCHIVE it is the one that this oracle was built for.
";

pub const LIST_HELP: &str = "\
oracle list N [--seed S] [--out FILE]
oracle list --check FILE [--side original|model|port]

Writes a list of the original's answers: the directed calls, then N random ones, one call a line;
the file's head tells the format. Their idle figure is 0, and they have no log, no read-only part and
no stop address. A first step with BF and IR0 set is the model's.
Or reads such a list and compares every answer with a side's; a difference ends with status 1.

--seed S       the seed, a decimal number; 1 without it
--out FILE     where to write; standard output without it
--check FILE   the list to check
--side NAME    check against this side; the original without it. Without a log the port does not
               tell its writes, so that its pages are compared instead. port wants the feature
               `port`
";

/// How an oracle with the probe is built.
pub const PROBE_HELP: &str = "\
To build it with the probe:

  rt lib                                       (in crates/lh5801, and in crates/probe)
  cargo build --release --features port,probe  (in oracle/)

The environment variable PROBE_LIB_DIR names another folder of libprobe.a than ../crates/probe/out.
";

pub const ARITHMETIC_HELP: &str = "\
oracle arithmetic

Compares the original's private arithmetic methods with the port's static library libprobe.a over
all inputs, one line a function; a difference ends with status 1. It wants the feature `probe`.
";
