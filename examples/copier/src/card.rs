//! The card: the files and folders to copy, and the pieces they are copied in.

use std::fs;
use std::io;
use std::path::{Path, PathBuf};
use std::time::SystemTime;

/// The longest piece, and so the largest buffer that a task asks for.
pub const PIECE: usize = 16_384;

/// A file of the card, as it was when it was listed.
#[derive(PartialEq, Eq)]
pub struct CardFile {
    /// Its path below the card's folder.
    pub path: PathBuf,
    pub length: u64,
    /// When it was last written to.
    pub modified: SystemTime,
}

/// What is to be copied.
#[derive(PartialEq, Eq)]
pub struct Card {
    pub folders: Vec<PathBuf>,
    pub files: Vec<CardFile>,
}

/// A part of a file that fits one buffer.
#[derive(Clone, Copy, Debug)]
pub struct Piece {
    /// The number of the file in the card's list.
    pub file: usize,
    pub offset: u64,
    pub length: usize,
    /// Whether it is the file's end.
    pub last: bool,
}

impl Card {
    /// Lists a folder. What is neither file nor folder is an error: a copy without it would not be complete.
    pub fn list(root: &Path) -> Result<Card, String> {
        let mut card = Card { folders: Vec::new(), files: Vec::new() };
        card.add(root, Path::new(""))?;
        Ok(card)
    }

    /// Adds what stands in a folder, in the order of names.
    fn add(&mut self, root: &Path, folder: &Path) -> Result<(), String> {
        let full = root.join(folder);
        let unreadable = |error: io::Error| format!("cannot read the folder {}: {error}", full.display());
        let entries = fs::read_dir(&full).and_then(|entries| entries.collect::<io::Result<Vec<_>>>());
        let mut names: Vec<_> = entries.map_err(unreadable)?.into_iter().map(|entry| entry.file_name()).collect();
        names.sort();
        for name in names {
            let path = folder.join(name);
            let about = fs::symlink_metadata(root.join(&path)).map_err(unreadable)?;
            if about.is_dir() {
                self.folders.push(path.clone());
                self.add(root, &path)?;
            } else if about.is_file() {
                let modified = about.modified().map_err(unreadable)?;
                self.files.push(CardFile { path, length: about.len(), modified });
            } else {
                return Err(format!("{} is neither a file nor a folder, so a copy would not be complete", root.join(&path).display()));
            }
        }
        Ok(())
    }

    /// The bytes of all files.
    pub fn bytes(&self) -> u64 {
        self.files.iter().map(|file| file.length).sum()
    }

    /// The pieces of all files, in order. An empty file has one piece of no bytes, so that it is made on the drive too.
    pub fn pieces(&self) -> impl Iterator<Item = Piece> + '_ {
        self.files.iter().enumerate().flat_map(|(number, file)| pieces_of(number, file.length))
    }
}

/// The pieces of one file.
fn pieces_of(file: usize, length: u64) -> impl Iterator<Item = Piece> {
    let size = PIECE as u64;
    let count = length.div_ceil(size).max(1);
    (0..count).map(move |number| {
        let offset = number * size;
        Piece { file, offset, length: size.min(length - offset) as usize, last: number + 1 == count }
    })
}

#[cfg(test)]
mod tests {
    use super::{pieces_of, PIECE};

    /// The length of each piece of a file, and whether it is its end.
    fn lengths(length: usize) -> Vec<(usize, bool)> {
        pieces_of(0, length as u64).map(|piece| (piece.length, piece.last)).collect()
    }

    #[test]
    fn pieces_on_either_side_of_their_size() {
        assert_eq!(lengths(0), [(0, true)]);
        assert_eq!(lengths(1), [(1, true)]);
        assert_eq!(lengths(PIECE), [(PIECE, true)]);
        assert_eq!(lengths(PIECE + 1), [(PIECE, false), (1, true)]);
    }
}
