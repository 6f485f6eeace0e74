//! The site as a process, or two that share a cabinet: TCP to the supervisors, orders from the cabinet, a log.

mod access;
mod calls;
mod check;
mod clock;
mod commands;
mod control;
mod counted;
mod drain;
mod form;
mod framing;
mod host;
mod image;
mod journal;
mod json;
mod memory;
mod metrics;
mod notify;
mod obey;
mod options;
mod orders;
mod outlet;
mod pace;
mod pauses;
mod program;
mod random;
mod readable;
mod record;
mod repeated;
mod send;
mod show;
mod signals;
mod slots;
mod state;
mod system;
mod wires;

use access::Access;
use calls::{Calls, Kit};
use clock::Clock;
use commands::Commands;
use form::Form;
use host::Host;
use journal::{Journal, Level};
use memory::{place_of, NAMES};
use metrics::Metrics;
use notify::Notifier;
use options::{OfSite, Options, Wanted};
use outlet::Outlet;
use pace::Pace;
use pauses::Pauses;
use program::Program;
use random::Random;
use record::Record;
use rsmp_site::Start;
use rsmp_table::{bits, text, Table};
use state::{Found, Store};
use std::fs;
use std::io::{self, Write};
use std::process::ExitCode;
use std::sync::mpsc::{sync_channel, RecvTimeoutError, SyncSender};
use std::time::{Duration, Instant};
use wires::Event;

const VERSION: &str = match option_env!("RSMP_VERSION") {
    Some(version) => version,
    None => "without a version",
};
/// The exit status of a table that is none: nothing to be tried again.
const WRONG_TABLE: u8 = 3;
const TICK: Duration = Duration::from_millis(250);
/// The log gets so long for its last lines.
const LAST_LINES: Duration = Duration::from_secs(2);
/// And the whole end, behind the wait for answers, so long.
const AFTER_DRAIN: Duration = Duration::from_secs(15);
/// So many events wait at most; then reading stands still, and with it the supervisor.
const EVENTS: usize = 64;

enum NoTable {
    Unreadable(String),
    /// Another start would not read it either.
    Wrong(String),
}

impl From<NoTable> for String {
    fn from(no_table: NoTable) -> String {
        match no_table {
            NoTable::Unreadable(message) | NoTable::Wrong(message) => message,
        }
    }
}

fn table_of(name: &str) -> Result<Table, NoTable> {
    let bytes = fs::read(name).map_err(|error| NoTable::Unreadable(format!("{}: {}", name, error)))?;
    if bits::looks_like_bits(&bytes) {
        return bits::read(&bytes).map_err(|fault| NoTable::Wrong(format!("{}: byte {}: {}", name, fault.byte, fault.message)));
    }
    let line = |fault: text::LineError| format!("{}:{}: {}", name, fault.line, fault.message);
    let lines = |faults: Vec<text::LineError>| NoTable::Wrong(faults.into_iter().map(line).collect::<Vec<_>>().join("\n"));
    text::read(&String::from_utf8_lossy(&bytes)).map_err(lines)
}

fn tables_of(options: &Options) -> Result<Vec<Table>, NoTable> {
    options.sites.iter().map(|site| table_of(&site.table)).collect()
}

/// What is done with the commands of a site. A program must be one that can be run. Each site runs its own, and has its own lock.
fn commands_of(options: &Options, number: usize, table: &Table) -> Result<Commands, String> {
    let beside = |state: &String| if number == 0 { state.clone() } else { format!("{}.{}", state, NAMES[number]) };
    let state = options.state.as_ref().map(beside);
    let found = |name: &String| Program::find(name, options.command_limit, state.as_deref());
    let program = options.sites[number].on_command.as_ref().map(found).transpose()?;
    Commands::new(table, program).map_err(|error| error.to_string())
}

/// Each site's table, and what it is started with.
fn starts_of(options: &Options, tables: &[Table]) -> Vec<(Vec<u8>, Start)> {
    let start =
        |of: &OfSite| Start { links: of.supervisors.len() as u32, primary: of.primary, period: of.period, first: of.first, time: 0 };
    tables.iter().zip(&options.sites).map(|(table, site)| (bits::write(table), start(site))).collect()
}

/// Prints what a start would do; false where it would not go on with all that it had.
fn check(options: Options) -> Result<bool, String> {
    let tables = tables_of(&options)?;
    for site in &options.sites {
        site.on_command.as_deref().map(program::found).transpose()?;
    }
    let (lines, good) = check::check(&options, &tables, &starts_of(&options, &tables));
    print(&(lines.join("\n") + "\n"));
    Ok(good)
}

/// The log, and in which form.
fn journal_of(options: &Options, replies: &Outlet) -> Result<Journal, String> {
    let (outlet, form) = match &options.log {
        Some(name) => (Outlet::file(name.into(), options.log_size).map_err(|error| format!("{}: {}", name, error))?, Form::Text),
        None => (replies.clone(), Form::of_standard_output()),
    };
    let form = if options.json { Form::Json } else { form };
    if form == Form::Json {
        outlet.lines_are_json();
    }
    Ok(Journal { level: options.level, outlet, form, repeated: Default::default() })
}

/// The calls, and what is to be said of the state that was found.
fn calls_of(
    options: &Options,
    starts: Vec<(Vec<u8>, Start)>,
    events: SyncSender<Event>,
) -> Result<(Calls, Option<(Level, String)>), String> {
    let named = |name: &str, error: io::Error| format!("{}: {}", name, error);
    let (mut store, mut stored, mut said) = (None, None, None);
    if let Some(path) = &options.state {
        let (opened, found) = Store::open(path, options.state_interval, state::setup(&starts), events)?;
        store = Some(opened);
        match found {
            Found::Nothing => {}
            Found::Site(site) => {
                let text = format!("goes on from {}, stored {}", path, journal::moment(site.time));
                said = Some((Level::Info, text));
                stored = Some(site);
            }
            Found::Aside(why) => {
                let text = format!("the state is not taken, a new site starts: {}", why);
                said = Some((Level::Error, text));
            }
        }
    }
    let clock = match &options.clock {
        Some(path) => Clock::fed(path.into()),
        None => Clock::machine(),
    };
    let random = Random::open(&options.random).map_err(|error| named(&options.random, error))?;
    let (mut record, mut cut) = (None, 0);
    if let Some(name) = &options.record {
        let opened = match Record::open(name, options.record_size) {
            // It is tried again, and told of then.
            Err(error) if system::may_pass(&error) => (Record::closed(name, options.record_size), 0),
            opened => opened.map_err(|error| named(name, error))?,
        };
        (record, cut) = (Some(opened.0), opened.1);
    }
    let kit = Kit { clock, random, record, store, notifier: Notifier::of_environment() };
    let mut calls = Calls::start(starts, kit, stored).map_err(|refusal| refusal.to_string())?;
    calls.say_what_was_cut(cut);
    Ok((calls, said))
}

fn run(options: Options, tables: Vec<Table>) -> Result<(), String> {
    let commands = |(number, table)| commands_of(&options, number, table);
    let commands = tables.iter().enumerate().map(commands).collect::<Result<Vec<_>, _>>()?;
    let (sender, events) = sync_channel(EVENTS);
    let (calls, said) = calls_of(&options, starts_of(&options, &tables), sender.clone())?;
    let replies = Outlet::standard_output();
    let journal = journal_of(&options, &replies)?;
    let log = journal.outlet.clone();
    let socket = match &options.control {
        Some(path) => {
            let (listener, socket) = control::listen(path, &Access::of(&options)?)?;
            control::from_socket(listener, sender.clone());
            Some(socket)
        }
        None => {
            control::from_standard_input(replies.clone(), sender.clone());
            None
        }
    };
    signals::listen();
    let mut host = Host::new(calls, tables.into_iter().zip(commands).collect(), journal, &options);
    let mut metrics = options.metrics.as_ref().map(|path| Metrics::begin(path, sender.clone()));
    host.say_beginning(VERSION, said);
    for (site, of_site) in options.sites.iter().enumerate() {
        for (number, address) in of_site.supervisors.iter().enumerate() {
            let pauses = Pauses::new(options.reconnect, options.reconnect_limit);
            wires::keep(place_of(site, number as u32), address.clone(), pauses, Pace::new(options.link_rate), sender.clone());
        }
    }
    host.calls.notifier.tell("READY=1");
    let mut next_tick = Instant::now() + TICK;
    while !host.is_over(signals::ending()) {
        match events.recv_timeout(next_tick.saturating_duration_since(Instant::now())) {
            Ok(event) => host.take(event),
            Err(RecvTimeoutError::Timeout) => {}
            Err(RecvTimeoutError::Disconnected) => break,
        }
        if Instant::now() >= next_tick {
            host.tick();
            next_tick = Instant::now() + TICK;
        }
        host.pump();
        host.go_on();
        if let Some(metrics) = &mut metrics {
            metrics.write_where_due(|| host.metrics());
        }
        if signals::take_reopening() {
            host.reopen();
        }
        if let Some(left) = host.drain.left() {
            host.calls.notifier.ends_within(left + AFTER_DRAIN);
        }
        host.calls.notifier.alive();
    }
    host.calls.notifier.tell("STOPPING=1");
    host.goodbye();
    if let Some(metrics) = metrics {
        metrics.end();
    }
    if let Some(socket) = socket {
        socket.remove();
    }
    let until = Instant::now() + LAST_LINES;
    log.drain(until);
    replies.drain(until);
    Ok(())
}

/// Also where nobody listens.
fn print(text: &str) {
    let _ = io::stdout().write_all(text.as_bytes());
}

fn complain(text: &str) {
    let _ = writeln!(io::stderr(), "rsmp-site: {}", text);
}

/// 1 where it was not done, or not well.
fn status(done: Result<bool, String>) -> ExitCode {
    if let Err(message) = &done {
        complain(message);
    }
    ExitCode::from(u8::from(done != Ok(true)))
}

fn main() -> ExitCode {
    match options::read(std::env::args_os().skip(1)) {
        Ok(Wanted::Help) => print(options::HELP),
        Ok(Wanted::Version) => print(&format!("rsmp-site {}\n", VERSION)),
        Ok(Wanted::Run(options)) => match tables_of(&options) {
            Ok(tables) => return status(run(options, tables).map(|()| true)),
            Err(NoTable::Unreadable(message)) => return status(Err(message)),
            Err(NoTable::Wrong(message)) => {
                complain(&message);
                return ExitCode::from(WRONG_TABLE);
            }
        },
        Ok(Wanted::Check(options)) => return status(check(options)),
        Ok(Wanted::Send(path, order)) => {
            let sent = send::send(&path, &order);
            return status(sent.map(|(reply, done)| {
                print(&reply);
                done
            }));
        }
        Err(message) => {
            complain(&format!("{}\nrsmp-site --help says more", message));
            return ExitCode::from(2);
        }
    }
    ExitCode::SUCCESS
}
