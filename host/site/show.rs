//! How a site stands: as lines, as JSON, and for Prometheus.

use crate::counted::Counted;
use crate::host::Host;
use crate::journal::moment;
use crate::json::{self, list, or_null, quoted};
use crate::memory::NAMES;
use rsmp_site::{AlarmState, Phase, Subscription};
use rsmp_table::Table;
use std::fmt::Write;
use std::time::Instant;

/// What is known of the site beside its bytes.
pub struct About {
    pub table: Table,
    pub primary: Option<u32>,
    pub began: Instant,
}

/// A link and its counters since the start.
pub struct OfLink {
    pub address: String,
    pub phase: Phase,
    pub version: Option<(u32, u32, u32)>,
    pub held: u64,
    pub lost: u64,
    pub connections: u64,
    pub sent: u64,
    pub received: u64,
    pub unanswered: u64,
}

pub struct OfAlarm {
    component: String,
    code: String,
    state: AlarmState,
}

pub struct OfStatus {
    component: String,
    code: String,
    name: String,
    value: Option<i32>,
    /// With the links that have them.
    subscriptions: Vec<(u32, Subscription)>,
}

pub struct Shown {
    /// Which of two it is.
    place: Option<&'static str>,
    site: String,
    time: u64,
    up_seconds: u64,
    primary: Option<u32>,
    aggregated: u8,
    links: Vec<OfLink>,
    alarms: Vec<OfAlarm>,
    statuses: Vec<OfStatus>,
    commands: Option<Counted>,
}

impl Host {
    /// All sites, in Prometheus' text form.
    pub fn metrics(&mut self) -> String {
        let all: Vec<Shown> = (0..self.sites.len()).map(|site| self.shown(site)).collect();
        metrics(&all)
    }

    pub fn shown(&mut self, number: usize) -> Shown {
        let time = self.calls.now();
        let (site, of_site) = (self.calls.site(number), &self.sites[number]);
        let table = &of_site.about.table;
        let links = of_site.links.iter().enumerate().map(|(number, link)| link.shown(&site, number as u32)).collect();
        let alarm = |(number, row): (usize, &rsmp_table::Alarm)| {
            let (component, code) = (table.components[row.component].clone(), row.code.clone());
            site.alarm_state(number as u32).map(|state| OfAlarm { component, code, state })
        };
        let status = |(number, row): (usize, &rsmp_table::Status)| OfStatus {
            component: table.components[row.component].clone(),
            code: row.code.clone(),
            name: row.name.clone(),
            value: site.status_value(number as u32),
            subscriptions: (0..site.links()).filter_map(|link| Some((link, site.subscription(link, number as u32)?))).collect(),
        };
        Shown {
            place: Some(NAMES[number]).filter(|_| self.sites.len() > 1),
            site: table.site.clone(),
            time,
            up_seconds: of_site.about.began.elapsed().as_secs(),
            primary: of_site.about.primary,
            aggregated: site.aggregated_value(),
            links,
            alarms: table.alarms.iter().enumerate().filter_map(alarm).collect(),
            statuses: table.statuses.iter().enumerate().map(status).collect(),
            commands: of_site.commands.counted(),
        }
    }
}

fn dotted((major, minor, patch): (u32, u32, u32)) -> String {
    format!("{}.{}.{}", major, minor, patch)
}

fn yes(word: &str, is: bool) -> String {
    format!("{}{}", if is { "" } else { "not " }, word)
}

impl OfLink {
    fn version(&self) -> Option<String> {
        self.version.filter(|_| self.phase == Phase::Up).map(dotted)
    }

    fn line(&self, number: usize, primary: bool) -> String {
        let version = self.version().map_or(String::new(), |version| format!(", RSMP {}", version));
        format!(
            "link {} {}{}: {:?}{}; holds {}, lost {}; since the start {} connections, {} messages sent, {} received, {} of them not answered",
            number,
            self.address,
            if primary { ", primary" } else { "" },
            self.phase,
            version,
            self.held,
            self.lost,
            self.connections,
            self.sent,
            self.received,
            self.unanswered
        )
    }

    fn json(&self, number: usize) -> String {
        format!(
            "{{\"link\":{},\"address\":{},\"phase\":{},\"version\":{},\"held\":{},\"lost\":{},\"connections\":{},\"sent\":{},\"received\":{},\
             \"unanswered\":{}}}",
            number,
            quoted(&self.address),
            quoted(&format!("{:?}", self.phase)),
            or_null(self.version().as_deref().map(quoted)),
            self.held,
            self.lost,
            self.connections,
            self.sent,
            self.received,
            self.unanswered
        )
    }
}

impl OfAlarm {
    fn line(&self, number: usize) -> String {
        let AlarmState { active, acknowledged, suspended, time } = self.state;
        let states = [yes("active", active), yes("acknowledged", acknowledged), yes("suspended", suspended)].join(", ");
        format!("alarm {} {} {}: {}, since {}", number, self.component, self.code, states, moment(time))
    }

    fn json(&self, number: usize) -> String {
        let AlarmState { active, acknowledged, suspended, time } = self.state;
        format!(
            "{{\"alarm\":{},\"component\":{},\"code\":{},\"active\":{},\"acknowledged\":{},\"suspended\":{},\"since\":{}}}",
            number,
            quoted(&self.component),
            quoted(&self.code),
            active,
            acknowledged,
            suspended,
            json::time(time)
        )
    }
}

impl OfStatus {
    fn line(&self, number: usize) -> String {
        let value = self.value.map_or("no value".to_string(), |value| value.to_string());
        let mut line = format!("status {} {} {} \"{}\": {}", number, self.component, self.code, self.name, value);
        for (link, Subscription { seconds, on_change }) in &self.subscriptions {
            let _ = match (*seconds, *on_change) {
                (0, _) => write!(line, "; link {} gets changes", link),
                (seconds, true) => write!(line, "; link {} gets changes and every {} s", link, seconds),
                (seconds, false) => write!(line, "; link {} gets it every {} s", link, seconds),
            };
        }
        line
    }

    fn json(&self, number: usize) -> String {
        let subscription =
            |(link, of): &(u32, Subscription)| format!("{{\"link\":{},\"seconds\":{},\"on_change\":{}}}", link, of.seconds, of.on_change);
        format!(
            "{{\"status\":{},\"component\":{},\"code\":{},\"name\":{},\"value\":{},\"subscriptions\":{}}}",
            number,
            quoted(&self.component),
            quoted(&self.code),
            quoted(&self.name),
            or_null(self.value),
            list(self.subscriptions.iter().map(subscription))
        )
    }
}

impl Shown {
    pub fn lines(&self) -> Vec<String> {
        let mut lines = vec![
            format!("site {}, rsmp-site {}, runs for {} s, its time is {}", self.site, crate::VERSION, self.up_seconds, moment(self.time)),
            format!("aggregated {}", self.aggregated),
        ];
        let primary = |number: usize| self.primary == Some(number as u32);
        lines.extend(self.links.iter().enumerate().map(|(number, link)| link.line(number, primary(number))));
        lines.extend(self.alarms.iter().enumerate().map(|(number, alarm)| alarm.line(number)));
        lines.extend(self.statuses.iter().enumerate().map(|(number, status)| status.line(number)));
        lines.extend(self.commands.as_ref().map(|counted| format!("commands {}", counted.said())));
        lines
    }

    /// All of it on one line.
    pub fn json(&self) -> String {
        format!(
            "{{\"site\":{},\"version\":{},\"time\":{},\"up_seconds\":{},\"primary\":{},\"aggregated\":{},\"links\":{},\"alarms\":{},\
             \"statuses\":{},\"commands\":{}}}",
            quoted(&self.site),
            quoted(crate::VERSION),
            json::time(self.time),
            self.up_seconds,
            or_null(self.primary),
            self.aggregated,
            list(self.links.iter().enumerate().map(|(number, link)| link.json(number))),
            list(self.alarms.iter().enumerate().map(|(number, alarm)| alarm.json(number))),
            list(self.statuses.iter().enumerate().map(|(number, status)| status.json(number))),
            or_null(self.commands.as_ref().map(Counted::json))
        )
    }

    /// A site of two has its place among its labels.
    fn labelled<'a>(&self, labels: &[(&'a str, &'a str)]) -> Vec<(&'a str, &'a str)> {
        self.place.map(|place| ("place", place)).into_iter().chain(labels.iter().copied()).collect()
    }
}

fn metrics(sites: &[Shown]) -> String {
    let mut page = Page::default();
    page.family("info", "gauge", "The version that runs, and its site.");
    for shown in sites {
        page.value("info", &shown.labelled(&[("version", crate::VERSION), ("site", &shown.site)]), 1);
    }
    page.each(sites, "up_seconds", "gauge", "How long the process has run.", |shown| Some(shown.up_seconds));
    page.each(sites, "aggregated", "gauge", "The eight booleans of the aggregated status, the first being 128.", |shown| {
        Some(u64::from(shown.aggregated))
    });
    let of_links: [(&str, &str, &str, fn(&OfLink) -> u64); 7] = [
        ("link_up", "gauge", "1 where a link is greeted and reports flow.", |link| u64::from(link.phase == Phase::Up)),
        ("held", "gauge", "Records that wait for a link's answer.", |link| link.held),
        ("lost_total", "counter", "Records pushed out of the pool; kept over a restart with --state.", |link| link.lost),
        ("connections_total", "counter", "Connections since the process began.", |link| link.connections),
        ("sent_total", "counter", "Messages sent since the process began.", |link| link.sent),
        ("received_total", "counter", "Messages received since the process began.", |link| link.received),
        ("unanswered_total", "counter", "Of them those that were not answered.", |link| link.unanswered),
    ];
    for (name, kind, help, value) in of_links {
        page.family(name, kind, help);
        for shown in sites {
            for (number, link) in shown.links.iter().enumerate() {
                page.value(name, &shown.labelled(&[("link", &number.to_string()), ("supervisor", &link.address)]), value(link));
            }
        }
    }
    let of_alarms: [(&str, &str, fn(&AlarmState) -> bool); 3] = [
        ("alarm_active", "1 where an alarm is active.", |state| state.active),
        ("alarm_acknowledged", "1 where it is acknowledged.", |state| state.acknowledged),
        ("alarm_suspended", "1 where it is suspended.", |state| state.suspended),
    ];
    for (name, help, value) in of_alarms {
        page.family(name, "gauge", help);
        for shown in sites {
            for OfAlarm { component, code, state } in &shown.alarms {
                page.value(name, &shown.labelled(&[("component", component), ("code", code)]), u8::from(value(state)));
            }
        }
    }
    page.family("status", "gauge", "The last value of a status, where one was set.");
    for shown in sites {
        for OfStatus { component, code, name, value, .. } in &shown.statuses {
            if let Some(value) = value {
                page.value("status", &shown.labelled(&[("component", component), ("code", code), ("name", name)]), value);
            }
        }
    }
    let counted = |shown: &Shown| shown.commands.as_ref().map_or(Vec::new(), Counted::each);
    let names = sites.iter().map(counted).max_by_key(Vec::len).unwrap_or_default();
    for (name, kind, help, _) in names {
        let of_site = |shown: &Shown| counted(shown).into_iter().find(|(other, ..)| *other == name).map(|(.., value)| value);
        page.each(sites, &format!("commands_{}", name), kind, help, of_site);
    }
    page.text
}

/// Prometheus' text form. Names begin with `rsmp_site_`.
#[derive(Default)]
struct Page {
    text: String,
}

impl Page {
    fn family(&mut self, name: &str, kind: &str, help: &str) {
        let _ = write!(self.text, "# HELP rsmp_site_{} {}\n# TYPE rsmp_site_{} {}\n", name, help, name, kind);
    }

    /// Labels have the escapes of JSON's strings, of which only those of quotes and backslashes can be needed.
    fn value(&mut self, name: &str, labels: &[(&str, &str)], value: impl std::fmt::Display) {
        let labels: Vec<String> = labels.iter().map(|(label, value)| format!("{}={}", label, quoted(value))).collect();
        let labels = if labels.is_empty() { String::new() } else { format!("{{{}}}", labels.join(",")) };
        let _ = writeln!(self.text, "rsmp_site_{}{} {}", name, labels, value);
    }

    /// One value a site.
    fn each(&mut self, sites: &[Shown], name: &str, kind: &str, help: &str, value: impl Fn(&Shown) -> Option<u64>) {
        self.family(name, kind, help);
        for shown in sites {
            if let Some(value) = value(shown) {
                self.value(name, &shown.labelled(&[]), value);
            }
        }
    }
}
