//! The figures of the calls, shape by shape, and how they grow.

use super::markdown::table;
use crate::figures::{Figures, Row};
use crate::kind::Kind;
use crate::words::{many, nanos, ratio, whole};

/// A shape as a heading.
fn heading(figures: &Figures) -> String {
    let shape = figures.shape;
    format!("### {}: {}, {}\n\n", many(shape.blocks(), "block"), many(shape.levels, "level"), many(shape.tops, "top block"))
}

/// A row of a shape's table: the times, the ratios of the first to the others, and where asked the times for a block.
fn row(row: &Row, blocks: Option<usize>) -> Vec<String> {
    let mut cells = vec![row.kind.name().to_string()];
    cells.extend(row.times.iter().map(|&time| nanos(time)));
    cells.extend(row.times[1..].iter().map(|time| ratio(row.times[0] / time)));
    if let Some(blocks) = blocks {
        cells.extend(row.times.iter().map(|time| ratio(time / blocks as f64)));
    }
    cells
}

/// The table of one shape. That of the largest shape has the times for a block too.
fn shape(names: &[&str], figures: &Figures, largest: bool) -> String {
    let blocks = largest.then(|| figures.shape.blocks());
    let mut header = vec!["call".to_string()];
    header.extend(names.iter().map(|name| name.to_string()));
    header.extend(names[1..].iter().map(|name| format!("{} / {name}", names[0])));
    if largest {
        header.extend(names.iter().map(|name| format!("{name}, for a block")));
    }
    let rows: Vec<Vec<String>> = figures.rows().iter().map(|each| row(each, blocks)).collect();
    heading(figures) + &table(&header, &rows)
}

/// The tables of all shapes.
pub fn shapes(names: &[&str], all: &[Figures]) -> String {
    let last = all.len() - 1;
    let tables = all.iter().enumerate().map(|(n, figures)| shape(names, figures, n == last));
    format!("## Calls\n\nNanoseconds for a call.\n\n{}", tables.collect::<String>())
}

/// How many times longer a call takes at the next shape.
fn grown(pair: &[Figures], kind: Kind) -> String {
    match (pair[0].row(kind), pair[1].row(kind)) {
        (Some(small), Some(large)) => ratio(large.times[0] / small.times[0]),
        _ => "-".to_string(),
    }
}

/// The growth from shape to shape of the first pool's calls, beside that of the number of blocks.
pub fn growth(name: &str, all: &[Figures]) -> String {
    let pairs = || all.windows(2);
    let from_to = |pair: &[Figures]| format!("{} to {}", whole(pair[0].shape.blocks()), whole(pair[1].shape.blocks()));
    let blocks = |pair: &[Figures]| ratio(pair[1].shape.blocks() as f64 / pair[0].shape.blocks() as f64);
    let line = |first: &str, cells: Vec<String>| [vec![first.to_string()], cells].concat();
    let mut rows = vec![line("*blocks*", pairs().map(blocks).collect())];
    rows.extend(Kind::ALL.iter().map(|&kind| line(kind.name(), pairs().map(|pair| grown(pair, kind)).collect())));
    let header = line("call", pairs().map(from_to).collect());
    format!("## Growth\n\nHow many times longer a {name} call takes from one shape to the next.\n\n{}", table(&header, &rows))
}
