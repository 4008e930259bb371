//! Input and output by name, `-` for standard input and output, which the system's own names for them stand for too.

use std::io::{self, Read, Write};
use std::path::{Path, PathBuf};

use crate::trouble::{Result, Trouble};

/// Other names of standard input and output.
const INPUTS: [&str; 3] = ["/dev/stdin", "/dev/fd/0", "/proc/self/fd/0"];
const OUTPUTS: [&str; 3] = ["/dev/stdout", "/dev/fd/1", "/proc/self/fd/1"];

/// Is this standard input?
pub fn is_input(path: &Path) -> bool {
    is_one_of(path, INPUTS)
}

/// Is this standard output? A report then goes elsewhere.
pub fn is_output(path: &Path) -> bool {
    is_one_of(path, OUTPUTS)
}

fn is_one_of(path: &Path, names: [&str; 3]) -> bool {
    path.as_os_str() == "-" || names.iter().any(|name| path == Path::new(name))
}

/// How an input is called in what is said about it.
pub fn name(path: &Path) -> String {
    if is_input(path) {
        String::from("standard input")
    } else {
        path.display().to_string()
    }
}

/// Standard input can be read once only.
pub fn once(paths: &[&Path]) -> Result<()> {
    match paths.iter().filter(|path| is_input(path)).count() {
        0 | 1 => Ok(()),
        _ => Err(Trouble::new("only one of the files can be standard input")),
    }
}

/// No output may be an input, which it would replace, or another output, and a file is made for each to see that it can be.
/// Devices and pipes may stand for several.
pub fn apart(inputs: &[&Path], outputs: &[&Path]) -> Result<()> {
    let named = inputs.iter().filter(|path| !is_input(path));
    let read: Vec<PathBuf> = named.filter_map(|path| container::replaced(path).ok()?).collect();
    let mut written = Vec::new();
    for path in outputs {
        let trouble = |what: &str| Trouble::with(path.display(), what);
        let refused = |error| Trouble::with(path.display(), error);
        match file(path).map_err(refused)? {
            Some(file) if read.contains(&file) => return Err(trouble("an output cannot replace an input")),
            Some(file) if written.contains(&file) => return Err(trouble("two outputs cannot go to the same file")),
            Some(file) => written.push(file),
            None => {}
        }
        if !is_output(path) {
            container::nameless(path).map_err(refused)?;
        }
    }
    Ok(())
}

/// Where what a run that was cut short has of an output is written: beside its name. None where that stands for no file.
pub fn unfinished(path: &Path) -> Option<PathBuf> {
    let is_file = !is_output(path) && matches!(container::replaced(path), Ok(Some(_)));
    let mut name = path.as_os_str().to_os_string();
    name.push(".unfinished");
    is_file.then(|| PathBuf::from(name))
}

/// The file that an output stands for, if it is one; standard output counts as one.
fn file(path: &Path) -> io::Result<Option<PathBuf>> {
    if is_output(path) {
        return Ok(Some(PathBuf::from("-")));
    }
    container::replaced(path)
}

/// All bytes of a file.
pub fn read(path: &Path) -> Result<Vec<u8>> {
    let mut bytes = Vec::new();
    let done = if is_input(path) {
        io::stdin().lock().read_to_end(&mut bytes).map(|_| ())
    } else {
        std::fs::read(path).map(|found| bytes = found)
    };
    done.map_err(|error| Trouble::with(name(path), error))?;
    Ok(bytes)
}

/// Writes a whole file, or leaves what stood under its name.
pub fn write(path: &Path, bytes: &[u8]) -> Result<()> {
    if is_output(path) {
        return out(bytes);
    }
    container::save(path, bytes).map_err(|error| Trouble::with(path.display(), error))
}

/// Writes to standard output.
fn out(bytes: &[u8]) -> Result<()> {
    let mut out = io::stdout().lock();
    out.write_all(bytes).and_then(|()| out.flush()).map_err(|error| Trouble::with("standard output", error))
}

/// Writes a report: to standard output, or to standard error where standard output carries a file. A reader that has seen
/// enough and closed the pipe is no trouble.
pub fn say(text: &str, output: Option<&Path>) -> Result<()> {
    let done = match output {
        Some(path) if is_output(path) => io::stderr().lock().write_all(text.as_bytes()),
        _ => {
            let mut out = io::stdout().lock();
            out.write_all(text.as_bytes()).and_then(|()| out.flush())
        }
    };
    match done {
        Err(error) if error.kind() != io::ErrorKind::BrokenPipe => Err(Trouble::with("the report", error)),
        _ => Ok(()),
    }
}

/// Says what is wrong, as far as somebody listens.
pub fn complain(what: &str) {
    let _ = writeln!(io::stderr().lock(), "{what}");
}
