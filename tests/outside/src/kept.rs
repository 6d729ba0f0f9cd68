//! The folder of cases that once failed, or that show a slip. They are tried in every run, before anything else.

use crate::case::Case;
use std::fs;
use std::io;
use std::path::{Path, PathBuf};

/// The cases of the folder with their files, in the order of the names. A file of no known ending is an error.
pub fn kept_cases(folder: &Path) -> io::Result<Vec<(PathBuf, Case)>> {
    let mut paths = fs::read_dir(folder)?.map(|entry| Ok(entry?.path())).collect::<io::Result<Vec<PathBuf>>>()?;
    paths.sort();
    paths.retain(|path| path.file_name().map_or(false, |name| name != "README.md"));
    paths.into_iter().map(|path| Ok((path.clone(), case_in(&path)?))).collect()
}

/// The case in a file.
pub fn case_in(path: &Path) -> io::Result<Case> {
    let bytes = fs::read(path)?;
    let no_case = || io::Error::new(io::ErrorKind::InvalidData, format!("{} is no case", path.display()));
    let case = match path.extension().and_then(|ending| ending.to_str()) {
        Some("words") => Case::Words(bytes),
        Some("txt") => return Ok(Case::Text(bytes)),
        _ => return Err(no_case()),
    };
    case.schedule().map(|_| case).ok_or_else(no_case)
}

/// Keeps a case under this name; gives its file.
pub fn keep(folder: &Path, name: &str, case: &Case) -> io::Result<PathBuf> {
    fs::create_dir_all(folder)?;
    let path = folder.join(format!("{name}.{}", case.ending()));
    fs::write(&path, case.bytes())?;
    Ok(path)
}
