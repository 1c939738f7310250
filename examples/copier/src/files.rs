//! Pieces of files, read from and written to a folder.

use crate::card::{Card, Piece};
use std::fs::{self, File, OpenOptions};
use std::io::{Read, Seek, SeekFrom, Write};
use std::path::{Path, PathBuf};

/// The two folders and the list of what is copied from one to the other.
pub struct Job {
    pub card: Card,
    pub from: PathBuf,
    pub to: PathBuf,
    /// The folders above `to` in which a folder is made for it: none where `to` is there already.
    pub above: Vec<PathBuf>,
}

impl Job {
    /// Makes the folders of the card on the drive.
    pub fn make_folders(&self) -> Result<(), String> {
        for folder in self.drive_folders() {
            fs::create_dir_all(&folder).map_err(|error| format!("cannot make the folder {}: {error}", folder.display()))?;
        }
        Ok(())
    }

    /// The folders on the drive.
    pub fn drive_folders(&self) -> Vec<PathBuf> {
        let below = self.card.folders.iter().map(|folder| self.to.join(folder));
        [self.to.clone()].into_iter().chain(below).collect()
    }

    /// Reads a piece of the card into a buffer.
    pub fn read_card(&self, piece: Piece, buffer: &mut [u8]) -> Result<(), String> {
        read(&self.from.join(self.path(piece)), piece, buffer)
    }

    /// Reads a piece of the drive into a buffer.
    pub fn read_drive(&self, piece: Piece, buffer: &mut [u8]) -> Result<(), String> {
        read(&self.to.join(self.path(piece)), piece, buffer)
    }

    /// Writes a piece to the drive. With a file's last piece, the system is asked to bring the whole file to the drive.
    pub fn write_drive(&self, piece: Piece, buffer: &[u8]) -> Result<(), String> {
        let path = self.to.join(self.path(piece));
        let written = || {
            let mut file = OpenOptions::new().create(true).write(true).truncate(piece.offset == 0).open(&path)?;
            file.seek(SeekFrom::Start(piece.offset))?;
            file.write_all(buffer)?;
            if piece.last {
                file.sync_all()
            } else {
                Ok(())
            }
        };
        written().map_err(|error| format!("cannot write {}: {error}", path.display()))
    }

    /// The path of a piece's file below either folder.
    pub fn path(&self, piece: Piece) -> &Path {
        &self.card.files[piece.file].path
    }
}

/// Reads a piece of a file into a buffer, which it fills.
fn read(path: &Path, piece: Piece, buffer: &mut [u8]) -> Result<(), String> {
    let mut filled = || {
        let mut file = File::open(path)?;
        file.seek(SeekFrom::Start(piece.offset))?;
        file.read_exact(buffer)
    };
    filled().map_err(|error| format!("cannot read {}: {error}", path.display()))
}
