//! Stored sessions: a directory with `names.txt`, which lists the sessions one to
//! a line, and for each NAME the files `NAME.rec` and `NAME.out`.

use std::path::Path;

/// A session: its records, and the replies that they must get.
pub struct Session {
    pub name: String,
    pub records: Vec<u8>,
    pub replies: Vec<u8>,
}

/// Every session that `names.txt` lists. A list of none would compare nothing
/// and still look well, so there is at least one.
pub fn sessions(directory: &Path) -> Result<Vec<Session>, String> {
    let names = read(&directory.join("names.txt"))?;
    let names = String::from_utf8_lossy(&names);
    let names = names.lines().map(str::trim).filter(|n| !n.is_empty());
    let sessions: Result<Vec<Session>, String> = names.map(|n| session(directory, n)).collect();
    match sessions {
        Ok(none) if none.is_empty() => Err("names.txt lists no session".to_string()),
        told => told,
    }
}

fn session(directory: &Path, name: &str) -> Result<Session, String> {
    Ok(Session {
        name: name.to_string(),
        records: read(&directory.join(format!("{name}.rec")))?,
        replies: read(&directory.join(format!("{name}.out")))?,
    })
}

fn read(path: &Path) -> Result<Vec<u8>, String> {
    std::fs::read(path).map_err(|error| format!("{}: {error}", path.display()))
}
