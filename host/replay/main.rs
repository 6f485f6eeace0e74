//! Plays a script of calls on a site, or on the two of a box, one line each, and prints one line per call, or a picture of the whole.

mod checked;
mod day;
mod issued;
mod moment;
mod picture;
mod script;

use checked::{Player, Violation};
use day::Day;
use issued::Issued;
use script::Line;
use std::fs::File;
use std::io::{self, BufRead, BufReader, Write};
use std::process::ExitCode;

const USAGE: &str = "rsmp-replay: plays a script of calls on a site, or on the two of a box

  rsmp-replay <SCRIPT                plays it and prints one line per call
  rsmp-replay --picture [SCRIPT]     plays it and prints a picture of it (SVG): phases, records issued, sent, answered, held and lost,
                                     commands handed over, alarms active
  rsmp-replay --stream [south] LINK [SCRIPT]   plays it and writes what the link's supervisor was sent, as rsmp-week reads it
  rsmp-replay --records [SCRIPT]     plays it and writes every record that it issued as CSV (as rsmp-csv does), in the order of the calls
  rsmp-replay --version | --help

Lines, - standing for empty bytes or no primary. Each but restore may begin with north or south: two sites share a box and its pool, and the
line is for the one that it names, as a call, counts and readings are. Without a name it is for north, and start makes a site that is alone:
south is none until its own start.
";

const ANSWERS: &str = "
Printed: the number alone where a call is refused, else `0 CLOSED HINT OUTHEX`: the closed links as a bit mask (link 0 is bit 0), the
clock hint in milliseconds or -, the written bytes or -. A packet that hands commands over has a word more, NUMBER=VALUE,NUMBER=VALUE..
with their numbers in the table, in their order. `counts` prints HELD/LOST for each link, `readings` for each link
PHASE/VERSION/RECORD,RECORD.. (phase 0 Down, 1 Greeting, 2 Beating, 3 Up; the held records oldest first).

After each call the site and all bytes that may not change are compared with those before it.
Status: 0, 1 after a line `VIOLATION ..`, 2 at a line that cannot be read, or that is for a site which is not started.
";

enum End {
    Violation,
    BadLine(usize, String),
    Broken(io::Error),
    Words(String),
    /// The help has said it.
    NoWords,
}

impl From<io::Error> for End {
    fn from(error: io::Error) -> End {
        End::Broken(error)
    }
}

impl End {
    fn told(self) -> ExitCode {
        match self {
            End::Violation => return ExitCode::from(1),
            End::BadLine(number, message) => complain(&format!("line {}: {}", number, message)),
            End::Broken(error) => complain(&error.to_string()),
            End::Words(message) => complain(&message),
            End::NoWords => {}
        }
        ExitCode::from(2)
    }
}

/// Also where nobody listens.
fn complain(text: &str) {
    let _ = writeln!(io::stderr(), "rsmp-replay: {}", text);
}

fn print(text: &str) -> Result<(), End> {
    let mut output = io::stdout().lock();
    output.write_all(text.as_bytes())?;
    Ok(output.flush()?)
}

/// Plays each line, and hands on the line with its answer and the site after it.
fn play(input: impl BufRead, mut each: impl FnMut(&Line, &str, &Player) -> io::Result<()>) -> Result<(), End> {
    let mut player = Player::new();
    for (place, line) in input.split(b'\n').enumerate() {
        let number = place + 1;
        let line = String::from_utf8(line?).map_err(|_| End::BadLine(number, "not UTF-8".to_string()))?;
        let (whose, line) = script::read(&line).map_err(|message| End::BadLine(number, message))?;
        match player.play(whose, &line).map_err(|message| End::BadLine(number, message))? {
            Ok(answer) => each(&line, &answer, &player)?,
            Err(Violation(what)) => {
                print(&format!("VIOLATION line {}: {}\n", number, what))?;
                return Err(End::Violation);
            }
        }
    }
    Ok(())
}

fn answers(input: impl BufRead) -> Result<(), End> {
    let mut output = io::stdout().lock();
    play(input, |_, answer, _| writeln!(output, "{}", answer))
}

/// What could be played is drawn, also of a script that breaks off.
fn picture(input: impl BufRead) -> Result<(), End> {
    let mut day = Day::default();
    let played = play(input, |line, answer, player| {
        day.note(line, answer.starts_with("0 "), player);
        Ok(())
    });
    if let Err(End::Violation) = played {
        return played;
    }
    day.end();
    print(&picture::draw(&day))?;
    played
}

/// What was sent on a link, to the first line that cannot be played.
fn stream(input: impl BufRead, site: usize, wanted: u32) -> Result<(), End> {
    let mut output = io::stdout().lock();
    play(input, |line, _, player| match line {
        Line::Packet { link, .. } | Line::Pump { link, .. } if (player.at(), *link) == (site, wanted) => output.write_all(player.written()),
        _ => Ok(()),
    })?;
    Ok(output.flush()?)
}

/// Every record that was issued, to the first line that cannot be played.
fn records(input: impl BufRead) -> Result<(), End> {
    let (mut output, mut issued) = (io::stdout().lock(), Issued::default());
    output.write_all(&rsmp_csv::header())?;
    play(input, |line, answer, player| issued.write(line, answer.starts_with("0 "), player, &mut output))?;
    Ok(output.flush()?)
}

fn stream_of(site: usize, link: &str, input: Result<impl BufRead, io::Error>) -> Result<(), End> {
    match link.parse() {
        Ok(link) if link < rsmp_site::LINKS => stream(input?, site, link),
        _ => Err(End::Words(format!("--stream: wanted a link's number, 0 to {}, not '{}'", rsmp_site::LINKS - 1, link.escape_default()))),
    }
}

fn help() -> String {
    format!("{}{}{}", USAGE, script::help(), ANSWERS)
}

fn main() -> ExitCode {
    let words: Vec<String> = std::env::args_os().skip(1).map(|word| word.to_string_lossy().into_owned()).collect();
    let words: Vec<&str> = words.iter().map(String::as_str).collect();
    let done = match words[..] {
        [] => answers(io::stdin().lock()),
        ["--picture"] => picture(io::stdin().lock()),
        ["--picture", name] => File::open(name).map_err(End::Broken).and_then(|file| picture(BufReader::new(file))),
        ["--stream", "south", link] => stream_of(1, link, Ok(io::stdin().lock())),
        ["--stream", "south", link, name] => stream_of(1, link, File::open(name).map(BufReader::new)),
        ["--stream", link] => stream_of(0, link, Ok(io::stdin().lock())),
        ["--stream", link, name] => stream_of(0, link, File::open(name).map(BufReader::new)),
        ["--records"] => records(io::stdin().lock()),
        ["--records", name] => File::open(name).map_err(End::Broken).and_then(|file| records(BufReader::new(file))),
        ["--version" | "-V"] => print(concat!("rsmp-replay ", env!("RSMP_VERSION"), "\n")),
        ["--help" | "-h"] => print(&help()),
        _ => print(&help()).and(Err(End::NoWords)),
    };
    done.map_or_else(End::told, |()| ExitCode::SUCCESS)
}
