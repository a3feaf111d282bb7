//! Reading a file, and replacing one so that a cut of power leaves it as it was
//! or whole and new.

use std::fs::{self, File, OpenOptions};
use std::io::{self, Read, Write};
use std::path::{Path, PathBuf};

use crate::MOST_OCTETS;

/// How many new names are tried: one stays behind where power was cut.
const NAMES: u32 = 100;

pub fn read(path: &Path) -> io::Result<Vec<u8>> {
    read_all(File::open(path)?)
}

/// All of an input that is not too long.
pub fn read_all(input: impl Read) -> io::Result<Vec<u8>> {
    let mut octets = Vec::new();
    input
        .take(MOST_OCTETS as u64 + 1)
        .read_to_end(&mut octets)?;
    if octets.len() > MOST_OCTETS {
        return Err(io::Error::other(format!("over {MOST_OCTETS} octets")));
    }
    Ok(octets)
}

/// Makes `path` a file of these octets.
pub fn replace(path: &Path, octets: &[u8]) -> io::Result<()> {
    replace_by(path, |file| file.write_all(octets))
}

/// Makes `path` a file that `write` writes: under a new name in the same folder,
/// which gets its own name once it is whole and synced. On failure up to there
/// the new name is gone, and what was there stays. The folder is synced last;
/// where only that fails, the error says that the new file stands. A link at
/// `path` is replaced, not followed.
fn replace_by(path: &Path, write: impl FnOnce(&mut File) -> io::Result<()>) -> io::Result<()> {
    let folder = File::open(folder_of(path))?;
    let (new, mut file) = create_beside(path)?;
    let done = keep_permissions(path, &file)
        .and_then(|()| write(&mut file))
        .and_then(|()| file.sync_all())
        .and_then(|()| fs::rename(&new, path));
    if done.is_err() {
        // What is reported is why it failed.
        let _ = fs::remove_file(&new);
    }
    done?;
    folder.sync_all().map_err(|error| {
        let said = format!("the new file stands, but its folder is not synced: {error}");
        io::Error::new(error.kind(), said)
    })
}

/// A file under a name that was free.
fn create_beside(path: &Path) -> io::Result<(PathBuf, File)> {
    let name = path.file_name().ok_or(io::ErrorKind::InvalidInput)?;
    let mut taken = io::ErrorKind::AlreadyExists.into();
    for number in 0..NAMES {
        let mut new = name.to_owned();
        new.push(format!(".new{number}"));
        let new = path.with_file_name(new);
        match OpenOptions::new().write(true).create_new(true).open(&new) {
            Ok(file) => return Ok((new, file)),
            Err(error) if error.kind() == io::ErrorKind::AlreadyExists => taken = error,
            Err(error) => return Err(error),
        }
    }
    Err(taken)
}

/// Gives a new file the permissions of the one that it replaces, if there is one.
fn keep_permissions(path: &Path, file: &File) -> io::Result<()> {
    match fs::metadata(path) {
        Ok(old) => file.set_permissions(old.permissions()),
        Err(error) if error.kind() == io::ErrorKind::NotFound => Ok(()),
        Err(error) => Err(error),
    }
}

fn folder_of(path: &Path) -> &Path {
    match path.parent() {
        Some(folder) if folder != Path::new("") => folder,
        _ => Path::new("."),
    }
}

#[cfg(test)]
mod tests {
    use super::*;

    /// A temporary folder with an old file, for a test.
    fn with_old(test: &str, run: impl FnOnce(&Path, &dyn Fn() -> Vec<String>)) {
        let name = format!("ffn-image-files-{test}-{}", std::process::id());
        let folder = std::env::temp_dir().join(name);
        fs::create_dir(&folder).unwrap();
        let path = folder.join("node.image");
        fs::write(&path, b"old").unwrap();
        run(&path, &|| {
            let entries = fs::read_dir(&folder).unwrap();
            let names = entries.map(|entry| entry.unwrap().file_name().into_string().unwrap());
            names.collect()
        });
        fs::remove_dir_all(&folder).unwrap();
    }

    #[test]
    fn the_old_file_stands_until_the_new_one_is_whole() {
        with_old("whole", |path, names| {
            replace_by(path, |file| {
                file.write_all(b"new")?;
                assert_eq!(fs::read(path)?, b"old");
                assert_eq!(names().len(), 2);
                Ok(())
            })
            .unwrap();
            assert_eq!(fs::read(path).unwrap(), b"new");
            assert_eq!(names(), ["node.image"]);
        });
    }

    #[test]
    fn a_failed_write_leaves_the_old_file_alone() {
        with_old("failed", |path, names| {
            let error = replace_by(path, |file| {
                file.write_all(b"ne")?;
                Err(io::ErrorKind::StorageFull.into())
            })
            .unwrap_err();
            assert_eq!(error.kind(), io::ErrorKind::StorageFull);
            assert_eq!(fs::read(path).unwrap(), b"old");
            assert_eq!(names(), ["node.image"]);
        });
    }

    #[test]
    fn a_replaced_file_keeps_its_permissions() {
        use std::os::unix::fs::PermissionsExt;
        with_old("permissions", |path, _| {
            fs::set_permissions(path, fs::Permissions::from_mode(0o600)).unwrap();
            replace(path, b"new").unwrap();
            let mode = fs::metadata(path).unwrap().permissions().mode();
            assert_eq!(mode & 0o777, 0o600);
        });
    }

    #[test]
    fn names_that_are_taken_run_out() {
        with_old("taken", |path, names| {
            for number in 0..NAMES {
                fs::write(format!("{}.new{number}", path.display()), b"").unwrap();
            }
            let error = replace(path, b"new").unwrap_err();
            assert_eq!(error.kind(), io::ErrorKind::AlreadyExists);
            assert_eq!(fs::read(path).unwrap(), b"old");
            assert_eq!(names().len(), 1 + NAMES as usize);
        });
    }

    #[test]
    fn a_bare_name_is_in_this_folder() {
        assert_eq!(folder_of(Path::new("node.image")), Path::new("."));
        assert_eq!(folder_of(Path::new("/node.image")), Path::new("/"));
        assert_eq!(folder_of(Path::new("a/node.image")), Path::new("a"));
    }
}
