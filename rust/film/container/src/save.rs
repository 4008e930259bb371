//! Files that are whole or not there.

use std::ffi::{OsStr, OsString};
use std::fs::{self, File, Metadata, OpenOptions, Permissions};
use std::io::{self, Read};
use std::os::unix::fs::{MetadataExt, OpenOptionsExt, PermissionsExt};
use std::path::{Path, PathBuf};
use std::process::{self, Command, Stdio};

/// The bits of a mode that say who may do what, and those that a program runs with.
const MODE: u32 = 0o7777;
const RIGHTS: u32 = 0o777;

/// The mode of a file into which its owner alone may look.
const PRIVATE: u32 = 0o600;

/// Writes a file under a temporary name beside it, and renames it when all of it is on the disk: under `path` stands
/// either what stood there before or the whole new file, also where the program is killed. A file that is replaced hands
/// on its mode, and its owner and group as far as whoever runs this may give files to them. Symbolic links are
/// followed, and a device or a pipe is written to as it stands.
pub fn save(path: &Path, bytes: &[u8]) -> io::Result<()> {
    save_from(path, &mut &bytes[..])
}

/// [`save`] for bytes that are read from somewhere.
pub fn save_from(path: &Path, from: &mut impl Read) -> io::Result<()> {
    match replaced(path)? {
        Some(file) => replace(&file, from),
        None => io::copy(from, &mut stream(path)?).map(|_| ()),
    }
}

/// Opens a device or a pipe to write to as it stands.
pub fn stream(path: &Path) -> io::Result<File> {
    OpenOptions::new().write(true).open(path)
}

/// A file without a name, to be written and read, on the same disk as the file that [`save`] would make: nobody else can look
/// into it, and nothing is left of it when the program ends, in whatever way. None where the name stands for something else than a file. That there is one
/// says that the file can be saved, as far as that can be known before.
pub fn nameless(path: &Path) -> io::Result<Option<File>> {
    let file = match replaced(path)? {
        Some(file) => file,
        None => return Ok(None),
    };
    let partial = partial_name(&file)?;
    let mut options = OpenOptions::new();
    let opened = options.read(true).write(true).create(true).truncate(true).mode(PRIVATE).open(&partial)?;
    fs::remove_file(&partial)?;
    Ok(Some(opened))
}

/// The file that [`save`] replaces or makes for a name, as its folder's full name and its own; none where the name stands
/// for something else than a file, such as a device.
pub fn replaced(path: &Path) -> io::Result<Option<PathBuf>> {
    match fs::metadata(path) {
        Ok(found) if found.is_file() => fs::canonicalize(path).map(Some),
        Ok(_) => Ok(None),
        Err(error) if error.kind() == io::ErrorKind::NotFound => new_file(path).map(Some),
        Err(error) => Err(error),
    }
}

/// Where a file is made for a name under which there is none yet: past symbolic links that lead nowhere.
fn new_file(path: &Path) -> io::Result<PathBuf> {
    let mut path = path.to_path_buf();
    while let Ok(link) = fs::read_link(&path) {
        path.set_file_name(link);
    }
    let folder = path.parent().filter(|folder| !folder.as_os_str().is_empty()).unwrap_or_else(|| Path::new("."));
    Ok(fs::canonicalize(folder)?.join(file_name(&path)?))
}

fn replace(path: &Path, from: &mut impl Read) -> io::Result<()> {
    let partial = partial_name(path)?;
    let before = fs::metadata(path).ok();
    let saved = write_whole(&partial, before.as_ref(), from).and_then(|()| fs::rename(&partial, path));
    if saved.is_err() {
        // The first error is the one to report.
        let _ = fs::remove_file(&partial);
    }
    saved
}

fn file_name(path: &Path) -> io::Result<&OsStr> {
    path.file_name().ok_or_else(|| io::Error::new(io::ErrorKind::InvalidInput, "this names no file"))
}

/// The name with `.partial-` and the number of this process at its end.
fn partial_name(path: &Path) -> io::Result<PathBuf> {
    let mut partial = OsString::from(file_name(path)?);
    partial.push(format!(".partial-{}", process::id()));
    Ok(path.with_file_name(partial))
}

fn write_whole(path: &Path, before: Option<&Metadata>, from: &mut impl Read) -> io::Result<()> {
    let mut options = OpenOptions::new();
    options.write(true).create(true).truncate(true);
    // Until it has the mode and the owner of the file that it replaces nobody else may look into it.
    if before.is_some() {
        options.mode(PRIVATE);
    }
    let mut file = options.open(path)?;
    if let Some(before) = before {
        hand_on(before, path, &file)?;
    }
    io::copy(from, &mut file)?;
    file.sync_all()
}

/// Gives a new file the mode of the one that it replaces, and its owner and group where that is allowed. The bits that a
/// program runs with another's rights by are handed on with the owner and the group alone.
fn hand_on(before: &Metadata, path: &Path, file: &File) -> io::Result<()> {
    let is_given = |now: &Metadata| (now.uid(), now.gid()) == (before.uid(), before.gid());
    // Who may not give a file away may still give it to one of their groups.
    let given = is_given(&file.metadata()?)
        || give(path, &format!("{}:{}", before.uid(), before.gid()))
        || give(path, &format!(":{}", before.gid())) && is_given(&file.metadata()?);
    // Where a disk has no modes, or other ones, the file is saved all the same.
    let _ = file.set_permissions(Permissions::from_mode(before.mode() & if given { MODE } else { RIGHTS }));
    Ok(())
}

/// Gives a file to an owner and a group, by number; answers whether that could be done. The oldest Rust that this is for
/// has no safe call for it, so the command does it.
fn give(path: &Path, to: &str) -> bool {
    let mut command = Command::new("chown");
    command.arg("--").arg(to).arg(path).stdin(Stdio::null()).stdout(Stdio::null()).stderr(Stdio::null());
    command.status().map_or(false, |status| status.success())
}

#[cfg(test)]
mod tests {
    use super::*;
    use std::io::{Seek, Write};
    use std::os::unix::fs::{symlink, FileTypeExt};
    use std::thread;

    fn folder(name: &str) -> PathBuf {
        let folder = std::env::temp_dir().join(format!("dairyhour-save-{name}-{}", process::id()));
        fs::create_dir_all(&folder).unwrap();
        folder
    }

    #[test]
    fn a_file_is_replaced_and_nothing_else_is_left() {
        let folder = folder("replaced");
        let path = folder.join("film.rsm");
        save(&path, b"first").unwrap();
        save(&path, b"second").unwrap();
        assert_eq!(fs::read(&path).unwrap(), b"second");
        assert_eq!(fs::read_dir(&folder).unwrap().count(), 1);
        fs::remove_dir_all(&folder).unwrap();
    }

    /// A file that is replaced keeps its mode, whatever the new one would get, and its owner and group where it may: only
    /// root may give a file away.
    #[test]
    fn mode_and_owner_stay() {
        let folder = folder("owner");
        let path = folder.join("film.rsm");
        for mode in [0o600, 0o640, 0o444, 0o666, 0o751] {
            fs::write(&path, b"first").unwrap();
            fs::set_permissions(&path, Permissions::from_mode(mode)).unwrap();
            save(&path, b"second").unwrap();
            assert_eq!(fs::read(&path).unwrap(), b"second");
            assert_eq!(fs::metadata(&path).unwrap().mode() & MODE, mode, "{mode:o}");
            fs::remove_file(&path).unwrap();
        }
        save(&path, b"first").unwrap();
        let own = fs::metadata(&path).unwrap();
        let given = give(&path, &format!("{}:{}", own.uid() + 12, own.gid() + 34));
        assert_eq!(given, own.uid() == 0);
        save(&path, b"second").unwrap();
        let now = fs::metadata(&path).unwrap();
        let (more, group) = if given { (12, 34) } else { (0, 0) };
        assert_eq!((now.uid(), now.gid()), (own.uid() + more, own.gid() + group));
        fs::remove_dir_all(&folder).unwrap();
    }

    /// A link stays, whether it leads to a file or not yet, and what it leads to is written.
    #[test]
    fn links_are_followed() {
        let folder = folder("links");
        fs::create_dir(folder.join("far")).unwrap();
        symlink("far/film.rsm", folder.join("near")).unwrap();
        symlink("near", folder.join("link")).unwrap();
        for bytes in [b"first", b"again"] {
            save(&folder.join("link"), bytes).unwrap();
            assert_eq!(fs::read(folder.join("far/film.rsm")).unwrap(), bytes);
            assert_eq!(fs::read_link(folder.join("link")).unwrap(), Path::new("near"));
            assert_eq!(fs::read_link(folder.join("near")).unwrap(), Path::new("far/film.rsm"));
        }
        symlink("circle", folder.join("circle")).unwrap();
        assert!(save(&folder.join("circle"), b"bytes").is_err());
        fs::remove_dir_all(&folder).unwrap();
    }

    /// What is no file is written to and stays what it is.
    #[test]
    fn devices_and_pipes_stay() {
        let folder = folder("pipes");
        let pipe = folder.join("pipe");
        assert!(Command::new("mkfifo").arg(&pipe).status().unwrap().success());
        let reader = thread::spawn({
            let pipe = pipe.clone();
            move || fs::read(pipe).unwrap()
        });
        save(&pipe, b"bytes").unwrap();
        assert_eq!(reader.join().unwrap(), b"bytes");
        assert!(fs::metadata(&pipe).unwrap().file_type().is_fifo());

        symlink("/dev/null", folder.join("null")).unwrap();
        assert_eq!(replaced(&folder.join("null")).unwrap(), None);
        save(&folder.join("null"), b"bytes").unwrap();
        assert!(fs::metadata("/dev/null").unwrap().file_type().is_char_device());
        assert_eq!(fs::read_dir(&folder).unwrap().count(), 2);
        fs::remove_dir_all(&folder).unwrap();
    }

    #[test]
    fn a_nameless_file_leaves_nothing() {
        let folder = folder("nameless");
        let mut file = nameless(&folder.join("film.rsm")).unwrap().unwrap();
        assert_eq!(fs::read_dir(&folder).unwrap().count(), 0);
        assert_eq!(file.metadata().unwrap().mode() & MODE, PRIVATE);
        file.write_all(b"bytes").unwrap();
        file.rewind().unwrap();
        save_from(&folder.join("film.rsm"), &mut file).unwrap();
        assert_eq!(fs::read(folder.join("film.rsm")).unwrap(), b"bytes");
        assert!(nameless(Path::new("/dev/null")).unwrap().is_none());
        assert!(nameless(&folder.join("none/film.rsm")).is_err());
        assert!(nameless(&folder.join("n".repeat(250))).is_err(), "too long with the ending of the temporary name");
        fs::remove_dir_all(&folder).unwrap();
    }

    #[test]
    fn where_it_cannot_be_saved_nothing_is_left() {
        let folder = folder("left");
        let path = folder.join("film.rsm");
        fs::create_dir(&path).unwrap();
        assert!(save(&path, b"bytes").is_err());
        assert_eq!(fs::read_dir(&folder).unwrap().count(), 1);
        assert!(save(Path::new("/"), b"bytes").is_err());
        assert!(save(&folder.join("none/film.rsm"), b"bytes").is_err());
        fs::remove_dir_all(&folder).unwrap();
    }
}
