//! An order to a site that runs: `rsmp-site --send PATH ORDER..`.

use crate::orders::line_of;
use std::io::{BufRead, BufReader, ErrorKind, Write};
use std::net::Shutdown;
use std::os::unix::net::UnixStream;
use std::time::Duration;

/// A site that waits for its disk answers late.
const REPLY_WAIT: Duration = Duration::from_secs(60);

/// What is to be printed of the reply, and whether the order was done. Lines that follow a reply are printed without it.
pub fn send(path: &str, words: &[String]) -> Result<(String, bool), String> {
    let line = line_of(words)?;
    let told = |error: std::io::Error| match error.kind() {
        ErrorKind::WouldBlock | ErrorKind::TimedOut => format!("{}: no reply for {} s", path, REPLY_WAIT.as_secs()),
        _ => format!("{}: {}", path, error),
    };
    let mut stream = UnixStream::connect(path).map_err(told)?;
    stream.set_read_timeout(Some(REPLY_WAIT)).map_err(told)?;
    // One that takes no more connections says so without reading, and is gone when we write.
    let given = writeln!(stream, "{}", line).and_then(|()| stream.shutdown(Shutdown::Write));
    // A line of `records` keeps its CR.
    let line = |bytes: Result<Vec<u8>, _>| bytes.map(|bytes| String::from_utf8_lossy(&bytes).into_owned());
    let lines = BufReader::new(stream).split(b'\n').map(line).collect::<Result<Vec<_>, _>>().map_err(told)?;
    match (lines.split_first(), given) {
        (Some((reply, more)), _) => told_of(reply, more).ok_or_else(|| format!("{}: the reply breaks off: {}", path, reply)),
        (None, Err(error)) => Err(told(error)),
        (None, Ok(())) => Err(format!("{}: the site has not replied", path)),
    }
}

/// None where lines are missing.
fn told_of(reply: &str, more: &[String]) -> Option<(String, bool)> {
    let done = reply.starts_with("done");
    match following(reply) {
        None => Some((format!("{}\n", reply), done)),
        Some(count) if count == more.len() => Some((more.join("\n") + "\n", done)),
        Some(_) => None,
    }
}

/// A reply with lines that follow it.
pub fn followed(lines: &[String]) -> String {
    let count = if lines.len() == 1 { "1 line".to_string() } else { format!("{} lines", lines.len()) };
    format!("done, {} follow\n{}", count, lines.join("\n"))
}

/// How many lines a reply says will follow.
fn following(reply: &str) -> Option<usize> {
    let (count, what) = reply.strip_prefix("done, ")?.split_once(' ')?;
    count.parse().ok().filter(|_| what == "line follow" || what == "lines follow")
}

#[cfg(test)]
mod tests {
    use super::*;

    #[test]
    fn replies() {
        let lines = |count: usize| vec!["x".to_string(); count];
        for count in [1, 2, 17] {
            let reply = followed(&lines(count)).lines().next().unwrap().to_string();
            assert_eq!(told_of(&reply, &lines(count)), Some(("x\n".repeat(count), true)));
            assert_eq!((told_of(&reply, &lines(count + 1)), told_of(&reply, &lines(count - 1))), (None, None));
        }
        assert_eq!(told_of("done, not stored", &[]), Some(("done, not stored\n".to_string(), true)));
        assert_eq!(told_of("refused: what", &[]), Some(("refused: what\n".to_string(), false)));
    }
}
