//! What a site, or two, would do with the words, the tables and the state: `--check-config`. Nothing is changed and nothing is started.

use crate::access::Access;
use crate::journal::moment;
use crate::memory::NAMES;
use crate::options::{OfSite, Options};
use crate::state::{looked_at, setup, Look, Stored};
use rsmp_site::{Site, Start};
use rsmp_table::Table;
use std::path::Path;

/// The lines so far, and what would keep it from starting, or from going on with all that it had.
#[derive(Default)]
struct Checked {
    lines: Vec<String>,
    bad: Vec<String>,
}

/// The lines, and whether it would start and go on with all that it had.
pub fn check(options: &Options, tables: &[Table], starts: &[(Vec<u8>, Start)]) -> (Vec<String>, bool) {
    let mut checked = Checked::default();
    for (number, (of_site, table)) in options.sites.iter().zip(tables).enumerate() {
        if number > 0 {
            checked.say("beside", format!("the site {}", NAMES[number]));
        }
        checked.table(of_site, table, &starts[number]);
        checked.links(of_site);
        checked.commands(options, of_site, table);
    }
    checked.state(options, starts);
    checked.orders(options);
    for (name, file) in [("record", &options.record), ("log", &options.log), ("metrics", &options.metrics)] {
        checked.file(name, file.as_deref());
    }
    let last = match checked.bad.is_empty() {
        true => "ok".to_string(),
        false => format!("not ok: {}", checked.bad.join("; ")),
    };
    checked.say("", last);
    (checked.lines, checked.bad.is_empty())
}

impl Checked {
    fn say(&mut self, name: &str, text: impl AsRef<str>) {
        self.lines.push(format!("{:<9} {}", name, text.as_ref()).trim_start().to_string());
    }

    fn table(&mut self, options: &OfSite, table: &Table, (bits, start): &(Vec<u8>, Start)) {
        let (site, sxl) = (&table.site, &table.sxl);
        let counts = [
            (table.components.len(), "components"),
            (table.alarms.len(), "alarms"),
            (table.statuses.len(), "statuses"),
            (table.commands.len(), "commands"),
        ];
        let counts: Vec<String> = counts.iter().map(|(count, what)| format!("{} {}", count, what)).collect();
        self.say("table", format!("{}: site {}, SXL {}, {}", options.table, site, sxl, counts.join(", ")));
        if let Err(refusal) = Site::start(bits, start) {
            self.bad.push(format!("the site does not start: {}", refusal));
        }
    }

    fn links(&mut self, options: &OfSite) {
        for (number, address) in options.supervisors.iter().enumerate() {
            let whose = if options.primary == Some(number as u32) { ", the primary" } else { "" };
            self.say(&format!("link {}", number), format!("{}{}", address, whose));
        }
    }

    fn commands(&mut self, options: &Options, of_site: &OfSite, table: &Table) {
        let said = match (&of_site.on_command, table.commands.is_empty()) {
            (_, true) => "the table has none".to_string(),
            (None, false) => "are told of in the log alone".to_string(),
            (Some(program), false) => format!("run {}, each {} s at most", program, options.command_limit.as_secs_f64()),
        };
        self.say("commands", said);
    }

    fn state(&mut self, options: &Options, starts: &[(Vec<u8>, Start)]) {
        let path = match &options.state {
            None => return self.say("state", "is not kept: what is held is lost at the end"),
            Some(path) => path,
        };
        let interval = match options.state_interval.as_secs_f64() {
            seconds if seconds == 0.0 => "before anything that depends on it is sent".to_string(),
            seconds => format!("every {} s at most", seconds),
        };
        let found = match looked_at(path, &setup(starts)) {
            Look::Nothing => "is not there: a new site starts".to_string(),
            Look::Site(stored) => format!("goes on from {}: {}", moment(stored.time), held_in(&stored)),
            Look::Not(why) => {
                self.bad.push("what is held would be lost".to_string());
                format!("would NOT be taken, put aside, and a new site would start: {}", why)
            }
        };
        self.say("state", format!("{}: {}; written {}", path, found, interval));
        self.folder_of(path);
    }

    fn orders(&mut self, options: &Options) {
        let path = match &options.control {
            None => return self.say("orders", "on standard input"),
            Some(path) => path,
        };
        let group = options.control_group.as_ref().map_or(String::new(), |group| format!(", group {}", group));
        self.say("orders", format!("{}, mode {:o}{}", path, options.control_mode, group));
        self.bad.extend(Access::of(options).err());
        self.folder_of(path);
    }

    fn file(&mut self, name: &str, file: Option<&str>) {
        if let Some(file) = file {
            self.say(name, file);
            self.folder_of(file);
        }
    }

    /// A file is made where it is not there, a folder is not.
    fn folder_of(&mut self, file: &str) {
        let folder = Path::new(file).parent().filter(|folder| !folder.as_os_str().is_empty());
        if let Some(folder) = folder.filter(|folder| !folder.is_dir()) {
            self.bad.push(format!("there is no folder {}", folder.display()));
        }
    }
}

/// The records held and lost of each link.
fn held_in(stored: &Stored) -> String {
    let of_site = |number: usize| {
        let (site, named) = (stored.memory.site(number), stored.memory.named(number));
        let each = (0..site.links()).map(|link| format!("{}link {} holds {}, lost {}", named, link, site.held(link), site.lost(link)));
        each.collect::<Vec<_>>()
    };
    (0..stored.memory.sites()).flat_map(of_site).collect::<Vec<_>>().join("; ")
}
