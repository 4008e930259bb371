//! What a run was made on.

use std::path::Path;
use std::{fs, io, thread};

use bench::results::{Fact, Store};

/// The part behind a name's colon in a file of lines `name : value`.
fn value(path: &str, name: &str) -> Option<String> {
    let text = fs::read_to_string(path).ok()?;
    let line = text.lines().find(|line| line.starts_with(name))?;
    line.split_once(':').map(|(_, value)| value.trim().to_string())
}

/// The first words of a file.
fn words(path: &str, count: usize) -> Option<String> {
    let text = fs::read_to_string(path).ok()?;
    Some(text.split_whitespace().take(count).collect::<Vec<&str>>().join(" "))
}

/// Writes what this machine is, as far as it says.
pub fn store(folder: &Path) -> io::Result<()> {
    let mut store = Store::new::<Fact>(folder)?;
    let cores = thread::available_parallelism().ok().map(|cores| cores.to_string());
    let facts = [
        ("processor", value("/proc/cpuinfo", "model name")),
        ("cores", cores),
        ("memory", value("/proc/meminfo", "MemTotal")),
        ("system", words("/proc/version", 3)),
        ("load before the run (1, 5, 15 minutes)", words("/proc/loadavg", 3)),
    ];
    for (name, value) in facts {
        if let Some(value) = value {
            store.add(&Fact { name: name.into(), value })?;
        }
    }
    Ok(())
}
