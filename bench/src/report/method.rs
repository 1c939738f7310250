//! What was compared and how, in words.

use crate::figures::Figures;
use crate::measure::{MOST_COPIES, SAMPLE_BYTES};
use crate::quietest::PASSES;
use crate::starts::KEPT;
use crate::words::whole;
use crate::Rounds;

/// What the two are.
const COMPARED: &str = "\
The nine calls of include/saltbalance.h, twice, on the same tables:

- **proved**: the archive that `tools/archive` writes;
- **C**: bench/plain.c and what stands in bench/plain.

C makes the same check of all tables in front of each call but build, and then the same step: what is decided is the same, and how is what \
was found quickest. Passes have no branches, so that the compiler turns them into vector code, quarters are read four at a time as words, and \
marks stand in one flat array. Both are compiled for any x86-64 processor. In both functions begin at multiples of 64 bytes, so that no figure \
hangs on where the linker puts a loop: the archive is linked from a copy in which only that differs. Go on is measured by the step that it \
makes.
";

/// How many calls were compared, and that all were alike.
fn agreement(all: &[Figures]) -> String {
    let sum = |of: fn(&Figures) -> usize| whole(all.iter().map(of).sum());
    format!(
        "**Same work.** Before anything is measured each makes the same histories of calls on tables of its own. After each of the {} calls \
         the replies and all tables are compared. Then {} calls are made on tables into which something was written, on tables of a wrong \
         length or with another shape, and compared likewise; {} of them are refused because the tables are no valid state. The run ends at \
         the first difference.\n",
        sum(|figures| figures.compared),
        sum(|figures| figures.spoilt.calls),
        sum(|figures| figures.spoilt.refused)
    )
}

/// From which states, and how a figure is made.
fn figures(rounds: usize) -> String {
    format!(
        "**States.** In that history eight threads fill the pool with smallest blocks, give half of them back here and there, and then take \
         and give blocks of all sizes. The tree is well divided, the lists are long and in no order, several threads hold blocks, and some \
         calls are open. Each call is measured from up to {KEPT} states, taken evenly from those on which the history made it.\n\n\
         **Figures.** A sample is the same call on each of some copies of the tables, timed as a whole: as many copies as fill {} bytes, at \
         least one and at most {MOST_COPIES}. What the call changed is put back after each sample, outside the timed part. In each of {} rounds \
         all have their turn, and so has a call that does nothing. A time is the median of the rounds less that of the call that does \
         nothing. {PASSES} such passes are made over all shapes and calls, and the quietest counts: that in which all times together are least. A \
         figure is the mean of the times from its states.\n",
        whole(SAMPLE_BYTES),
        whole(rounds)
    )
}

/// How the script program is measured.
fn programs(rounds: usize) -> String {
    format!(
        "**Scripts.** The script program reads a script of up to 65,536 bytes, and so does a plain C runner (bench/runner.c), which makes the \
         steps of bench/plain on tables of its own and never checks them as a whole; both print through a buffer of their own. First their \
         listings are compared. Then whole processes are timed, {} times each, in turn, with the script, with the first half of its records and \
         with an empty script; what is printed goes to /dev/null. The figures are medians, from the quietest of {PASSES} passes. The time for a \
         record is that of the records in the second half: the time with the script less that with its first half. So what a program does at \
         its start is left out. It is counted in the last two columns: the time with the script less the plain C runner's with an empty \
         script, which is what any process takes, divided by the number of all records.\n",
        whole(rounds)
    )
}

/// The whole section.
pub fn method(all: &[Figures], rounds: Rounds) -> String {
    let parts = [COMPARED.to_string(), agreement(all), figures(rounds.calls), programs(rounds.scripts)];
    format!("## What was compared, and how\n\n{}\n", parts.join("\n"))
}
