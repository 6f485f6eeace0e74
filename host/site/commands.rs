//! What supervisors command: a line of the log each, and a program that is run for each, one after the other in the order in which they came over
//! all links. The site does not wait for it. Commands that find no room are not taken, so what is acknowledged is run or told of.

use crate::counted::{Counted, Ran};
use crate::journal::Level;
use crate::program::Program;
use crate::system::{bind_to_us, kill_group, lock, unlock};
use rsmp_site::Command as Handed;
use rsmp_table::Table;
use std::collections::VecDeque;
use std::fs::File;
use std::io;
use std::process::{Child, Command, ExitStatus, Stdio};
use std::sync::{Arc, Condvar, Mutex, MutexGuard};
use std::thread;
use std::time::{Duration, Instant};

/// So many wait at most, beside the one that runs.
pub const MOST_WAITING: usize = 256;
/// How often it is looked whether a program has ended.
const LOOK: Duration = Duration::from_millis(5);

/// A command as people and programs are told of it.
struct Named {
    component: String,
    code: String,
    name: String,
}

/// A command that came on a link.
struct Order {
    link: u32,
    number: u32,
    words: [String; 4],
}

impl Order {
    /// As the log has it.
    fn said(&self) -> String {
        let [component, code, name, value] = &self.words;
        format!("command {}: {} {} \"{}\" {}", self.number, component, code, name, value)
    }
}

/// A line for the log.
pub struct Said {
    pub level: Level,
    pub link: u32,
    pub text: String,
}

#[derive(Default)]
struct Shared {
    waiting: VecDeque<Order>,
    runs: bool,
    done: u64,
    failed: u64,
    said: Vec<Said>,
    /// From when on nothing is run any more.
    until: Option<Instant>,
}

impl Shared {
    fn is_over(&self) -> bool {
        self.until.map_or(false, |until| Instant::now() >= until)
    }
}

type Queue = Arc<(Mutex<Shared>, Condvar)>;

fn locked(queue: &Queue) -> MutexGuard<'_, Shared> {
    queue.0.lock().unwrap_or_else(|poisoned| poisoned.into_inner())
}

pub struct Commands {
    table: Vec<Named>,
    queue: Queue,
    runs_a_program: bool,
    runner: Option<thread::JoinHandle<()>>,
    handed: u64,
    not_taken: u64,
}

impl Commands {
    /// Without a program commands are told of in the log alone.
    pub fn new(table: &Table, program: Option<Program>) -> io::Result<Commands> {
        let named = |command: &rsmp_table::Command| Named {
            component: table.components[command.component].clone(),
            code: command.code.clone(),
            name: command.name.clone(),
        };
        let (queue, runs_a_program) = (Queue::default(), program.is_some());
        let runner = match program {
            None => None,
            Some(program) => {
                let queue = queue.clone();
                Some(thread::Builder::new().spawn(move || run_all(&queue, &program))?)
            }
        };
        let table = table.commands.iter().map(named).collect();
        Ok(Commands { table, queue, runs_a_program, runner, handed: 0, not_taken: 0 })
    }

    /// How many more can wait.
    pub fn room(&self) -> usize {
        match self.runs_a_program {
            true => MOST_WAITING - locked(&self.queue).waiting.len().min(MOST_WAITING),
            false => usize::MAX,
        }
    }

    /// Takes those of a packet, for which there is room.
    pub fn take(&mut self, link: u32, handed: &[Handed]) {
        for command in handed {
            self.handed += 1;
            let order = self.order(link, *command);
            let mut shared = locked(&self.queue);
            shared.said.push(Said { level: Level::Info, link, text: order.said() });
            if self.runs_a_program {
                shared.waiting.push_back(order);
                self.queue.1.notify_all();
            }
        }
    }

    fn order(&self, link: u32, command: Handed) -> Order {
        let value = command.value.to_string();
        let words = match self.table.get(command.number as usize) {
            Some(Named { component, code, name }) => [component.clone(), code.clone(), name.clone(), value],
            None => [String::new(), String::new(), String::new(), value],
        };
        Order { link, number: command.number, words }
    }

    /// So many found no room, and their packet was not taken.
    pub fn not_taken(&mut self, count: usize) {
        self.not_taken += count as u64;
    }

    pub fn take_said(&mut self) -> Vec<Said> {
        std::mem::take(&mut locked(&self.queue).said)
    }

    /// How it stands, where the table has commands.
    pub fn counts(&self) -> Option<String> {
        self.counted().map(|counted| counted.said())
    }

    pub fn counted(&self) -> Option<Counted> {
        if self.table.is_empty() {
            return None;
        }
        let shared = locked(&self.queue);
        let ran = Ran { done: shared.done, failed: shared.failed, runs: shared.runs, waiting: shared.waiting.len() as u64 };
        Some(Counted { handed: self.handed, not_taken: self.not_taken, ran: Some(ran).filter(|_| self.runs_a_program) })
    }

    /// What waits is still run until then; what runs then is ended. What was not run is told of.
    pub fn end(&mut self, until: Instant) {
        if let Some(runner) = self.runner.take() {
            locked(&self.queue).until = Some(until);
            self.queue.1.notify_all();
            let _ = runner.join();
            let mut shared = locked(&self.queue);
            while let Some(order) = shared.waiting.pop_front() {
                let text = format!("not carried out, we end: {}", order.said());
                shared.failed += 1;
                shared.said.push(Said { level: Level::Error, link: order.link, text });
            }
        }
    }
}

/// The runner: ends when it is told to and nothing waits, or when its time is over.
fn run_all(queue: &Queue, program: &Program) {
    let mut shared = locked(queue);
    loop {
        if shared.is_over() {
            return;
        }
        let order = match shared.waiting.pop_front() {
            Some(order) => order,
            None if shared.until.is_some() => return,
            None => {
                shared = queue.1.wait(shared).unwrap_or_else(|poisoned| poisoned.into_inner());
                continue;
            }
        };
        shared.runs = true;
        drop(shared);
        let began = Instant::now();
        let ended = run_alone(queue, program, &order);
        shared = locked(queue);
        shared.runs = false;
        let (level, text) = match ended {
            Ok(()) => {
                shared.done += 1;
                (Level::Info, format!("carried out in {:.1} s: {}", began.elapsed().as_secs_f64(), order.said()))
            }
            Err(why) => {
                shared.failed += 1;
                (Level::Error, format!("{}: {}: {}", program.name, why, order.said()))
            }
        };
        shared.said.push(Said { level, link: order.link, text });
    }
}

/// Runs the program for one command when no other runs, also none of a former start.
fn run_alone(queue: &Queue, program: &Program, order: &Order) -> Result<(), String> {
    let lock = match program.lock()? {
        Some(file) => Some(locked_file(queue, file, order, Instant::now() + program.limit)?),
        None => None,
    };
    let ended = run(queue, program, order, lock.as_ref());
    // What a program leaves behind has the file from us: the lock ends with the program.
    if let Some(lock) = &lock {
        unlock(lock);
    }
    ended
}

/// Waits for the lock, so long at most. Where the file system has no locks, none is asked for.
fn locked_file(queue: &Queue, file: File, order: &Order, until: Instant) -> Result<File, String> {
    let mut told = false;
    loop {
        match lock(&file) {
            Err(error) if error.kind() == io::ErrorKind::WouldBlock => {}
            _ => return Ok(file),
        }
        let mut shared = locked(queue);
        if shared.is_over() || Instant::now() >= until {
            return Err("is not run, a program of a former start still runs".to_string());
        }
        if !std::mem::replace(&mut told, true) {
            let text = format!("waits, a program of a former start still runs: {}", order.said());
            shared.said.push(Said { level: Level::Warning, link: order.link, text });
        }
        drop(shared);
        thread::sleep(LOOK);
    }
}

/// Runs the program until it ends or its time is over.
fn run(queue: &Queue, program: &Program, order: &Order, lock: Option<&File>) -> Result<(), String> {
    let until = Instant::now() + program.limit;
    let mut command = Command::new(&program.path);
    command.args(&order.words).stdin(Stdio::null()).stdout(Stdio::null());
    bind_to_us(&mut command, lock);
    let mut child = command.spawn().map_err(|error| format!("cannot be run: {}", error))?;
    loop {
        match child.try_wait() {
            Ok(Some(status)) => return judged(status),
            Ok(None) if Instant::now() >= until => return Err(killed(&mut child, "runs for too long and is ended")),
            Ok(None) if locked(queue).is_over() => return Err(killed(&mut child, "still runs and is ended, we end")),
            Ok(None) => thread::sleep(LOOK),
            Err(error) => return Err(killed(&mut child, &error.to_string())),
        }
    }
}

/// With all that it has started, so that nothing of it runs beside the next.
fn killed(child: &mut Child, why: &str) -> String {
    kill_group(child);
    let _ = child.wait();
    why.to_string()
}

fn judged(status: ExitStatus) -> Result<(), String> {
    if status.success() {
        Ok(())
    } else {
        Err(format!("ends with {}", status))
    }
}

#[cfg(test)]
mod tests {
    use super::*;
    use rsmp_table::text;

    const TABLE: &str = "site S\nsxl 1\ncomponent C\ncomponent \"a D\"\ncommand C M n 0 9\ncommand \"a D\" M n -9 9\n";
    const SOON: Duration = Duration::from_secs(20);

    fn commands(program_of: Option<&str>, limit: Duration) -> Commands {
        let table = text::read(TABLE).unwrap();
        let program = |name: &str| Program {
            name: name.to_string(),
            path: name.into(),
            limit,
            lock: Some(name.into()).filter(|_| name.contains("tmp")),
        };
        Commands::new(&table, program_of.map(program)).unwrap()
    }

    fn handed(number: u32, value: i32) -> Handed {
        Handed { number, value }
    }

    /// A program that is being written cannot be run, and a test that runs one holds open for a moment what another writes.
    static ALONE: Mutex<()> = Mutex::new(());

    /// A program, and the file that it writes to.
    fn script(name: &str, text: &str) -> (String, String) {
        let path = std::env::temp_dir().join(format!("rsmp-site-{}-{}", name, std::process::id())).display().to_string();
        let out = format!("{}.out", path);
        std::fs::write(&path, format!("#!/bin/sh\nout={}\n{}\n", out, text)).unwrap();
        let _ = std::fs::remove_file(&out);
        let _ = Command::new("chmod").args(["+x", &path]).status();
        (path, out)
    }

    fn texts(commands: &mut Commands) -> Vec<String> {
        commands.take_said().into_iter().map(|said| format!("{} {:?} {}", said.link, said.level, said.text)).collect()
    }

    #[test]
    fn without_a_program() {
        let mut commands = commands(None, SOON);
        commands.take(1, &[handed(1, -9), handed(0, 5)]);
        assert_eq!(texts(&mut commands), ["1 Info command 1: a D M \"n\" -9", "1 Info command 0: C M \"n\" 5"]);
        assert_eq!((commands.room(), commands.counts().as_deref()), (usize::MAX, Some("2 handed over")));
        commands.end(Instant::now());
        assert!(texts(&mut commands).is_empty());
    }

    #[test]
    fn one_after_the_other() {
        let _alone = ALONE.lock();
        let (program, out) = script("order", "[ $4 = 1 ] && sleep 0.3\necho \"$# $1 $2 $3 $4\" >>$out\n[ $4 != 3 ]");
        let mut commands = commands(Some(&program), SOON);
        commands.take(0, &[handed(0, 1), handed(1, -2)]);
        commands.take(1, &[handed(0, 3)]);
        commands.take(0, &[handed(0, 4)]);
        assert!(commands.room() >= MOST_WAITING - 4);
        commands.end(Instant::now() + SOON);
        assert_eq!(std::fs::read_to_string(&out).unwrap(), "4 C M n 1\n4 a D M n -2\n4 C M n 3\n4 C M n 4\n");
        assert_eq!(commands.counts().as_deref(), Some("4 handed over: 3 done, 1 failed, none runs, 0 wait; 0 not taken"));
        let said = texts(&mut commands).join("\n");
        assert!(said.contains("1 Error") && said.contains("ends with exit status: 1: command 0: C M \"n\" 3"), "{}", said);
        assert_eq!(said.matches("carried out in").count(), 3);
        let _ = (std::fs::remove_file(&program), std::fs::remove_file(&out));
    }

    #[test]
    fn too_long_and_at_the_end() {
        let _alone = ALONE.lock();
        let (program, out) = script("long", "echo $4 >>$out\nsleep 60\necho late >>$out");
        let mut commands = commands(Some(&program), Duration::from_millis(1000));
        commands.take(0, &[handed(0, 1), handed(0, 2), handed(0, 3), handed(0, 4)]);
        commands.end(Instant::now() + Duration::from_millis(1600));
        assert_eq!(std::fs::read_to_string(&out).unwrap(), "1\n2\n");
        let said = texts(&mut commands).join("\n");
        for wanted in [
            "runs for too long and is ended: command 0: C M \"n\" 1",
            "we end: command 0: C M \"n\" 2",
            "not carried out, we end: command 0: C M \"n\" 3",
        ] {
            assert!(said.contains(wanted), "{}", said);
        }
        let _ = (std::fs::remove_file(&program), std::fs::remove_file(&out));
    }

    #[test]
    fn no_program() {
        let _alone = ALONE.lock();
        let mut commands = commands(Some("/nowhere/at/all"), SOON);
        commands.take(0, &[handed(0, 1)]);
        commands.end(Instant::now() + SOON);
        let said = texts(&mut commands).join("\n");
        assert!(said.contains("/nowhere/at/all: cannot be run: "), "{}", said);
    }
}
