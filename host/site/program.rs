//! The program that is run for commands, found and judged at the start.

use crate::system::is_executable;
use std::fs::{self, File};
use std::path::PathBuf;
use std::time::Duration;

pub struct Program {
    /// As it was named.
    pub name: String,
    pub path: PathBuf,
    pub limit: Duration,
    /// The file that is locked while it runs, and that all that it runs have open: a program of the next start waits for it.
    pub lock: Option<PathBuf>,
}

impl Program {
    /// The one of this name, by its path or as PATH has it. The lock stands beside the state; without one it is the program's own file.
    pub fn find(name: &str, limit: Duration, state: Option<&str>) -> Result<Program, String> {
        let path = found(name)?;
        let lock = match state {
            Some(state) => {
                let lock = PathBuf::from(format!("{}.command", state));
                File::create(&lock).map_err(|error| format!("{}: {}", lock.display(), error))?;
                lock
            }
            None => path.clone(),
        };
        // One that may be run and not be read has no lock.
        let lock = Some(lock).filter(|lock| File::open(lock).is_ok());
        Ok(Program { name: name.to_string(), path, limit, lock })
    }

    /// The lock's file, opened anew: what a former program left behind has another. For reading: a program that is open for writing is not run.
    pub fn lock(&self) -> Result<Option<File>, String> {
        let told = |error: std::io::Error| format!("is not run, its lock cannot be opened: {}", error);
        self.lock.as_ref().map(|path| File::open(path).map_err(told)).transpose()
    }
}

/// Where the program of a name is; refused is what cannot be run.
pub fn found(name: &str) -> Result<PathBuf, String> {
    if name.contains('/') {
        return judged(PathBuf::from(name)).map_err(|why| format!("{}: {}", name, why));
    }
    let path = std::env::var_os("PATH").unwrap_or_default();
    let mut places = std::env::split_paths(&path).map(|place| place.join(name));
    places.find_map(|place| judged(place).ok()).ok_or_else(|| format!("{}: no such program in PATH", name))
}

fn judged(path: PathBuf) -> Result<PathBuf, String> {
    let about = fs::metadata(&path).map_err(|error| error.to_string())?;
    if !about.is_file() {
        return Err("is no program: it is no file".to_string());
    }
    is_executable(&path.to_string_lossy()).map_err(|error| format!("is no program: it cannot be run: {}", error))?;
    Ok(path)
}

#[cfg(test)]
mod tests {
    use super::*;

    #[test]
    fn programs() {
        assert!(found("sh").unwrap().is_absolute() && found("/bin/sh").is_ok());
        for (name, wanted) in [
            ("/nowhere/at/all", "No such file"),
            ("/etc", "it is no file"),
            ("/etc/passwd", "it cannot be run"),
            ("no-such-program", "no such program in PATH"),
        ] {
            let said = found(name).unwrap_err();
            assert!(said.contains(wanted), "{}", said);
        }
    }
}
