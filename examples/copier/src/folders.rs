//! The two folders: looked at before anything is copied, so that a mistake is told at once.

use crate::card::Card;
use crate::files::Job;
use std::fs;
use std::path::{Path, PathBuf};

/// The job of copying one folder into another, with the folders on the drive made.
pub fn job(from: PathBuf, to: PathBuf) -> Result<Job, String> {
    if !from.is_dir() {
        return Err(format!("there is no folder {}", from.display()));
    }
    if to.exists() && !is_empty_folder(&to) {
        return Err(format!("{} must be new or an empty folder: nothing is written over", to.display()));
    }
    if is_inside(&to, &from)? {
        return Err(format!("{} lies inside {}", to.display(), from.display()));
    }
    let card = Card::list(&from)?;
    if card.files.is_empty() {
        return Err(format!("there is no file to copy in {}", from.display()));
    }
    let above = above(&to)?;
    let job = Job { card, from, to, above };
    job.make_folders()?;
    Ok(job)
}

/// The folders in which a folder must be made so that a path is there.
fn above(path: &Path) -> Result<Vec<PathBuf>, String> {
    let path = absolute(path)?;
    let missing = path.ancestors().take_while(|ancestor| !ancestor.exists());
    Ok(missing.filter_map(Path::parent).map(Path::to_path_buf).collect())
}

fn is_empty_folder(path: &Path) -> bool {
    fs::read_dir(path).is_ok_and(|mut entries| entries.next().is_none())
}

/// Whether a path, which need not exist yet, lies inside a folder.
fn is_inside(path: &Path, folder: &Path) -> Result<bool, String> {
    let unknown = |error| format!("cannot find {}: {error}", path.display());
    let path = absolute(path)?;
    let known = path.ancestors().find(|ancestor| ancestor.exists()).unwrap_or(&path);
    let known = known.canonicalize().map_err(unknown)?;
    let folder = folder.canonicalize().map_err(|error| format!("cannot find {}: {error}", folder.display()))?;
    Ok(known.starts_with(folder))
}

fn absolute(path: &Path) -> Result<PathBuf, String> {
    std::path::absolute(path).map_err(|error| format!("cannot find {}: {error}", path.display()))
}
