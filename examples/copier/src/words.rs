//! What the program writes.

use crate::card::{Piece, PIECE};
use crate::files::Job;
use crate::light::Shown;
use crate::seen::Seen;
use crate::station::{Progress, SHAPE};
use crate::task::NAMES;
use saltbalance::Keeper;
use std::io::{self, Write};

/// The last line of a run whose light did not go green.
pub const OFF: &str = "LIGHT: off. Do not pull the drive.";

/// The last line of a run whose light went green.
const GREEN: &str = "LIGHT: GREEN. The copy is on the drive, pull it.";

/// The last line of a run.
pub fn light(ended: &Result<Shown, String>) -> &'static str {
    match ended {
        Ok(Shown::Green) => GREEN,
        Ok(Shown::Off) | Err(_) => OFF,
    }
}

/// Writes a text and ends its line. Where nobody reads the output any more, the copy goes on without it.
pub fn say(text: impl AsRef<str>) {
    let _ = writeln!(io::stdout(), "{}", text.as_ref());
}

/// A number with a comma between thousands.
pub fn number(n: u64) -> String {
    let digits = n.to_string();
    let thousands: Vec<_> = digits.as_bytes().rchunks(3).rev().map(String::from_utf8_lossy).collect();
    thousands.join(",")
}

/// What is about to happen.
pub fn beginning(job: &Job) -> String {
    let sizes: Vec<String> = (0..SHAPE.levels).map(|level| number(SHAPE.size(level) as u64)).collect();
    format!(
        "Copying {} files, {} bytes\n  from {}\n  to   {}\n\
         Card reader, writer, verifier and light take their buffers from one pool of {} bytes\n\
         (blocks of {} bytes; a file is copied in pieces of up to {}).\n",
        job.card.files.len(),
        number(job.card.bytes()),
        job.from.display(),
        job.to.display(),
        number(SHAPE.bytes() as u64),
        sizes.join(", "),
        number(PIECE as u64),
    )
}

/// The light's line while the copy runs.
pub fn progress(done: &Progress, job: &Job) -> String {
    let total = number(job.card.bytes());
    format!(
        "  light off  copied {:>width$} of {total} bytes, verified {:>width$}, {} of {} files",
        number(done.copied_bytes),
        number(done.verified_bytes),
        done.verified_files,
        job.card.files.len(),
        width = total.len(),
    )
}

/// The two rules beside each other, with what each of them looks at.
pub fn rules(seen: &Seen) -> String {
    let held = counted(seen.held, "block is", "blocks are");
    let calls = counted(seen.open_calls, "call is", "calls are");
    let old = if seen.old_rule() { "would say yes: GREEN" } else { "would say no: off" };
    let ours = if seen.green() { "says whole: GREEN" } else { "says not whole: off" };
    format!(
        "Has every buffer come home?\n\
         \x20 the old pool's count:  {:<36}  -> {old}\n\
         \x20 this pool's whole:     {:<36}  -> {ours}{}",
        format!("{held} marked held"),
        format!("{held} held, {calls} open"),
        seen.keeper.map(keeper).unwrap_or_default(),
    )
}

/// Who keeps the pool from being whole, as a line behind the two rules.
fn keeper(keeper: Keeper) -> String {
    let (thread, why) = match keeper {
        Keeper::Call { thread } => (thread, "has a call open".to_string()),
        Keeper::Block { id, thread } => (thread, format!("holds the block {id}")),
        _ => return String::new(),
    };
    format!("\n  who keeps it so:       the {} {why}", NAMES[thread])
}

/// A number with its word.
fn counted(n: usize, one: &str, more: &str) -> String {
    format!("{n} {}", if n == 1 { one } else { more })
}

/// Where the writer stopped.
pub fn stopped(piece: Piece, level: usize, job: &Job) -> String {
    format!(
        "\nThe writer has stopped halfway through taking its last buffer, for the end of {}:\n\
         it asked for {} bytes, the pool looked and found a free block at level {level}, and there it stopped.\n\
         It holds nothing, and the last {} bytes of the file are not on the drive.\n",
        job.path(piece).display(),
        number(piece.length as u64),
        number(piece.length as u64),
    )
}

/// How often the pool was used.
pub fn use_of_pool(done: &Progress) -> String {
    format!("The pool granted {} buffers; {} times a task waited for one.", number(done.buffers_granted as u64), number(done.waits as u64))
}

#[cfg(test)]
mod tests {
    use super::number;

    #[test]
    fn thousands_have_a_comma() {
        assert_eq!([0, 999, 1_000, 65_536, 1_234_567].map(number), ["0", "999", "1,000", "65,536", "1,234,567"]);
    }
}
