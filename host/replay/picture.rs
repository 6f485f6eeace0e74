//! A day as one SVG page: for each site a row for each alarm that was active, and a panel for each link, with its phases, the records it held and lost, and those issued,
//! sent and answered.

use crate::day::{Active, Day, Link, OfSite, Stay, PHASES};
use crate::moment::{clock, day, span};
use std::fmt::Write;

const LEFT: u64 = 92;
const PLOT: u64 = 1080;
const RIGHT: u64 = 28;
const HEAD: u64 = 96;
const FOOT: u64 = 46;

const TITLE: u64 = 44;
const STRIP: u64 = 14;
const HELD: u64 = 84;
const FLOW: u64 = 64;
const GAP: u64 = 10;
const ROW: u64 = 11;
const BETWEEN_ROWS: u64 = 4;
const PANEL: u64 = TITLE + STRIP + GAP + HELD + GAP + FLOW + 30;

/// A record that is held for longer has waited.
const WAITED: u64 = 60_000;
const MOST_HELD: u64 = 64;

const PHASE_COLOURS: [&str; 4] = ["#c4c4c4", "#e69f00", "#f0e442", "#2f9e78"];
const INK: &str = "#1d2733";
const SOFT: &str = "#66717d";
const RULE: &str = "#e3e7eb";
const HELD_COLOUR: &str = "#d8c3e3";
const WAITED_COLOUR: &str = "#7a3b8f";
const ISSUED_COLOUR: &str = "#0072b2";
const SENT_COLOUR: &str = "#b6bfc8";
const ANSWERED_COLOUR: &str = "#3fa9e0";
const LOST_COLOUR: &str = "#d5400e";
const COMMAND_COLOUR: &str = "#1d2733";
const ALARM_COLOUR: &str = "#a3123a";

const STEPS: [u64; 27] = [
    1, 2, 5, 10, 20, 50, 100, 200, 500, 1_000, 2_000, 5_000, 10_000, 20_000, 30_000, 60_000, 120_000, 300_000, 600_000, 1_200_000,
    1_800_000, 3_600_000, 7_200_000, 10_800_000, 21_600_000, 43_200_000, 86_400_000,
];

/// The time axis.
struct Scale {
    first: u64,
    length: u64,
}

impl Scale {
    fn of(day: &Day) -> Scale {
        Scale { first: day.first, length: (day.last - day.first).max(1) }
    }

    fn last(&self) -> u64 {
        self.first + self.length
    }

    fn x(&self, time: u64) -> f64 {
        LEFT as f64 + time.saturating_sub(self.first) as f64 * PLOT as f64 / self.length as f64
    }

    /// Where a column of a point's width begins.
    fn column(&self, place: u64) -> u64 {
        self.first + (u128::from(self.length) * u128::from(place) / u128::from(PLOT)) as u64
    }

    /// The shortest round step of which at most so many make up the axis.
    fn step(&self, most: u64) -> u64 {
        let whole_days = || (self.length / most / 86_400_000 + 1) * 86_400_000;
        STEPS.iter().copied().find(|step| self.length / step < most).unwrap_or_else(whole_days)
    }

    /// A time as it is said on this page: with its day where there are several.
    fn said(&self, time: u64) -> String {
        let one_day = day(self.first) == day(self.last()) && day(time) == day(self.first);
        let days = if one_day { String::new() } else { format!("{} ", day(time)) };
        format!("{}{}", days, clock(time, 1_000))
    }

    fn ticks(&self, step: u64) -> impl Iterator<Item = u64> {
        let (from, to) = ((self.first + step - 1) / step, self.last() / step);
        (from..=to).map(move |number| number * step)
    }
}

pub fn draw(day_: &Day) -> String {
    let scale = Scale::of(day_);
    let sites: Vec<Drawn> = day_.seen().map(|(number, site)| Drawn::of(day_, number, site)).collect();
    let bottom = HEAD + sites.iter().map(|drawn| drawn.height(day_)).sum::<u64>();
    let (width, height) = (LEFT + PLOT + RIGHT, bottom + FOOT);
    let mut page = String::new();
    let _ = writeln!(
        page,
        "<svg xmlns=\"http://www.w3.org/2000/svg\" viewBox=\"0 0 {} {}\" width=\"{}\" height=\"{}\" \
         font-family=\"Helvetica, Arial, 'DejaVu Sans', sans-serif\" font-size=\"12\" fill=\"{}\">",
        width, height, width, height, INK
    );
    let _ = writeln!(page, "<title>{}</title>", escaped(&title(day_)));
    let _ = writeln!(page, "<rect width=\"{}\" height=\"{}\" fill=\"#ffffff\"/>", width, height);
    head(&mut page, day_);
    let mut top = HEAD;
    for drawn in &sites {
        if day_.calls > 0 {
            alarms(&mut page, drawn, &scale, top as f64);
        }
        for (number, link) in drawn.site.links.iter().enumerate() {
            let panels = top + drawn.height_of_alarms(day_);
            panel(&mut page, drawn, &scale, number, link, panels + PANEL * number as u64);
        }
        top += drawn.height(day_);
    }
    axis(&mut page, &scale, bottom);
    page.push_str("</svg>\n");
    page
}

/// A site as it is drawn, beside another or by itself.
struct Drawn<'a> {
    site: &'a OfSite,
    /// What the names of its groups begin with, and what its titles do.
    group: &'static str,
    title: &'static str,
}

impl Drawn<'_> {
    fn of<'a>(day_: &Day, number: usize, site: &'a OfSite) -> Drawn<'a> {
        let group = ["", "south-"][number];
        let title = if day_.seen().count() > 1 { ["North: ", "South: "][number] } else { "" };
        Drawn { site, group, title }
    }

    fn height_of_alarms(&self, day_: &Day) -> u64 {
        match day_.calls {
            0 => 0,
            _ => TITLE + GAP + (ROW + BETWEEN_ROWS) * rows(self.site).len() as u64,
        }
    }

    fn height(&self, day_: &Day) -> u64 {
        self.height_of_alarms(day_) + PANEL * self.site.links.len() as u64
    }
}

fn title(day_: &Day) -> String {
    if day_.calls == 0 {
        return "No site was started".to_string();
    }
    let (from, to) = (day(day_.first), day(day_.last));
    let days = if from == to { from } else { format!("{} to {}", from, to) };
    let named = |site: &OfSite| if site.name.is_empty() { "of a stored state".to_string() } else { site.name.clone() };
    let names: Vec<String> = day_.seen().map(|(_, site)| named(site)).collect();
    format!("Site{} {}, {}", if names.len() > 1 { "s" } else { "" }, names.join(" and "), days)
}

fn text(page: &mut String, x: f64, y: f64, more: &str, words: &str) {
    let _ = writeln!(page, "<text x=\"{:.1}\" y=\"{:.1}\" {}>{}</text>", x, y, more, escaped(words));
}

fn bar(page: &mut String, (x, y): (f64, f64), (width, height): (f64, f64), colour: &str, said: &str) {
    let _ = write!(page, "<rect x=\"{:.1}\" y=\"{:.1}\" width=\"{:.1}\" height=\"{:.1}\" fill=\"{}\"", x, y, width, height, colour);
    let _ = if said.is_empty() { writeln!(page, "/>") } else { writeln!(page, "><title>{}</title></rect>", escaped(said)) };
}

fn line(page: &mut String, from: (f64, f64), to: (f64, f64), more: &str) {
    let _ = writeln!(page, "<line x1=\"{:.1}\" y1=\"{:.1}\" x2=\"{:.1}\" y2=\"{:.1}\" {}/>", from.0, from.1, to.0, to.1, more);
}

fn escaped(words: &str) -> String {
    words.replace('&', "&amp;").replace('<', "&lt;").replace('>', "&gt;").replace('"', "&quot;")
}

/// What is written, and what the colours mean.
fn head(page: &mut String, day_: &Day) {
    text(page, LEFT as f64, 30.0, "font-size=\"19\" font-weight=\"bold\"", &title(day_));
    let lost: usize = day_.links().map(|link| link.lost.len() + link.dropped.len()).sum();
    let longest = day_.links().filter_map(longest).map(Stay::length).max().unwrap_or(0);
    let lost = if lost == 0 { "no record was lost".to_string() } else { format!("{} lost", plural(lost, "record")) };
    let from = format!("{} {}", day(day_.first), clock(day_.first, 1_000));
    let (calls, to) = (plural(day_.calls, "call"), format!("{} {}", day(day_.last), clock(day_.last, 1_000)));
    let said = format!("{} from {} to {} UTC; {}; the longest wait was {}", calls, from, to, lost, span(longest));
    text(page, LEFT as f64, 50.0, &format!("fill=\"{}\"", SOFT), &said);
    let mut x = LEFT as f64;
    let swatches = PHASES.iter().zip(PHASE_COLOURS).map(|(name, colour)| (*name, colour)).chain([
        ("held", HELD_COLOUR),
        ("held for more than a minute", WAITED_COLOUR),
        ("issued", ISSUED_COLOUR),
        ("sent", SENT_COLOUR),
        ("answered", ANSWERED_COLOUR),
        ("lost", LOST_COLOUR),
    ]);
    let swatches = swatches.chain(Some(("commands", COMMAND_COLOUR)).filter(|_| day_.links().any(|link| !link.commands.is_empty())));
    let swatches = swatches.chain(Some(("alarm active", ALARM_COLOUR)).filter(|_| day_.sites.iter().any(|site| !site.alarms.is_empty())));
    for (name, colour) in swatches {
        bar(page, (x, 66.0), (12.0, 12.0), colour, "");
        text(page, x + 17.0, 76.5, "", name);
        x += 34.0 + 6.4 * name.len() as f64;
    }
}

fn plural(count: usize, what: &str) -> String {
    format!("{} {}{}", count, what, if count == 1 { "" } else { "s" })
}

/// Those that were ever active, by their numbers.
fn rows(site: &OfSite) -> Vec<usize> {
    let mut numbers: Vec<usize> = site.alarms.iter().map(|active| active.number).collect();
    numbers.sort_unstable();
    numbers.dedup();
    numbers
}

/// A row for each alarm that was active, with a bar while it was.
fn alarms(page: &mut String, drawn: &Drawn, scale: &Scale, top: f64) {
    let site = drawn.site;
    let (rows, still) = (rows(site), site.still_active());
    let _ = writeln!(page, "<g id=\"{}alarms\" data-raised=\"{}\" data-active=\"{}\">", drawn.group, site.alarms.len(), still);
    text(page, LEFT as f64, top + 20.0, "font-size=\"15\" font-weight=\"bold\"", &format!("{}Alarms", drawn.title));
    let said = match rows.len() {
        0 => "no alarm was active".to_string(),
        count => format!("{} active, {} in all, {} still at the end", plural(count, "alarm"), plural(site.alarms.len(), "time"), still),
    };
    text(page, LEFT as f64, top + 37.0, &format!("fill=\"{}\"", SOFT), &said);
    for (place, number) in rows.into_iter().enumerate() {
        let y = top + (TITLE + (ROW + BETWEEN_ROWS) * place as u64) as f64;
        let spans: Vec<&Active> = site.alarms.iter().filter(|active| active.number == number).collect();
        let code = spans[0].name.split(' ').next().unwrap_or("");
        text(page, 10.0, y + 9.0, &format!("font-size=\"10\" fill=\"{}\"", SOFT), &format!("{} {}", number, code));
        for Active { name, from, to, .. } in spans {
            let (left, right) = (scale.x(*from), scale.x(*to));
            let said =
                format!("alarm {} {} active for {}, from {} to {}", number, name, span(to - from), scale.said(*from), scale.said(*to));
            bar(page, (left, y), ((right - left).max(1.5), ROW as f64), ALARM_COLOUR, &said);
        }
    }
    page.push_str("</g>\n");
}

/// The stay in the pool that lasted longest, those that have not ended counted up to the last call.
fn longest(link: &Link) -> Option<&Stay> {
    link.gone.iter().chain(&link.held).max_by_key(|stay| stay.length())
}

fn panel(page: &mut String, drawn: &Drawn, scale: &Scale, number: usize, link: &Link, top: u64) {
    let counts = [
        ("issued", &link.issued),
        ("sent", &link.sent),
        ("answered", &link.answered),
        ("lost", &link.lost),
        ("dropped", &link.dropped),
        ("commands", &link.commands),
    ];
    let said: String = counts.iter().map(|(name, times)| format!(" data-{}=\"{}\"", name, times.len())).collect();
    let phase = link.phases.last().map_or("", |(_, phase)| PHASES[*phase as usize]);
    let _ = writeln!(
        page,
        "<g id=\"{}link{}\"{} data-held=\"{}\" data-brought=\"{}\" data-phase=\"{}\">",
        drawn.group,
        number,
        said,
        link.held.len(),
        link.brought,
        phase
    );
    let role = match drawn.site.primary {
        Some(primary) if primary == number as u32 => ", primary",
        Some(_) => ", secondary",
        None => "",
    };
    text(page, LEFT as f64, top as f64 + 20.0, "font-size=\"15\" font-weight=\"bold\"", &format!("{}Link {}{}", drawn.title, number, role));
    summary(page, scale, link, top as f64 + 37.0);

    let strip = (top + TITLE) as f64;
    let held = strip + (STRIP + GAP) as f64;
    let flow = held + (HELD + GAP) as f64;
    for time in scale.ticks(scale.step(13)) {
        line(page, (scale.x(time), strip), (scale.x(time), flow + FLOW as f64), &format!("stroke=\"{}\"", RULE));
    }
    phases(page, scale, link, strip);
    commanding(page, scale, link, strip);
    holding(page, scale, link, held);
    flowing(page, scale, link, flow);
    for start in drawn.site.starts.iter().skip(1) {
        let x = scale.x(*start);
        line(page, (x, strip - 4.0), (x, flow + FLOW as f64), &format!("stroke=\"{}\" stroke-dasharray=\"4 3\"", INK));
        text(page, x + 3.0, strip - 1.0, "font-size=\"10\"", "new site");
    }
    page.push_str("</g>\n");
}

fn summary(page: &mut String, scale: &Scale, link: &Link, y: f64) {
    let sent = match link.sent.len() {
        1 => "once".to_string(),
        times => format!("{} times", times),
    };
    let (issued, answered, held) = (plural(link.issued.len(), "record"), link.answered.len(), link.held.len());
    let lost = format!("{} lost", link.lost.len());
    let lost = if link.lost.is_empty() { lost } else { format!("<tspan fill=\"{}\" font-weight=\"bold\">{}</tspan>", LOST_COLOUR, lost) };
    let _ = write!(page, "<text x=\"{}\" y=\"{:.1}\" fill=\"{}\">", LEFT, y, SOFT);
    let _ = write!(page, "{} issued, sent {}, {} answered, {} held at the end, {}", issued, sent, answered, held, lost);
    if link.brought > 0 {
        let _ = write!(page, ", {} held already at the beginning", link.brought);
    }
    if !link.dropped.is_empty() {
        let _ = write!(page, ", {} left behind by a new start", link.dropped.len());
    }
    if !link.commands.is_empty() {
        let _ = write!(page, ", {} handed over", plural(link.commands.len(), "command"));
    }
    if let Some(stay) = longest(link).filter(|stay| stay.length() > 0) {
        let (from, to) = (scale.said(stay.from), scale.said(stay.to));
        let _ = write!(page, "; the longest wait: {}, from {} to {}", span(stay.length()), from, to);
    }
    page.push_str("</text>\n");
}

/// The share of each phase in each column; columns of one phase alone are drawn together.
fn phases(page: &mut String, scale: &Scale, link: &Link, top: f64) {
    label(page, top + 10.5, "phase");
    for (place, (from, phase)) in link.phases.iter().enumerate() {
        let to = link.phases.get(place + 1).map_or(scale.last(), |(next, _)| *next).max(*from);
        let (left, right) = (scale.x(*from), scale.x(to));
        if right - left >= 1.0 {
            let said = format!("{} for {}, from {} to {}", PHASES[*phase as usize], span(to - from), scale.said(*from), scale.said(to));
            bar(page, (left, top), (right - left, STRIP as f64), PHASE_COLOURS[*phase as usize], &said);
        }
    }
    for (column, shares) in short_phases(scale, link) {
        let mut y = top;
        let total: u64 = shares.iter().sum();
        for (phase, share) in shares.iter().enumerate().rev().filter(|(_, share)| **share > 0) {
            let height = STRIP as f64 * *share as f64 / total as f64;
            bar(page, ((LEFT + column) as f64, y), (1.0, height), PHASE_COLOURS[phase], "");
            y += height;
        }
    }
}

/// A mark on the phases where commands were handed over.
fn commanding(page: &mut String, scale: &Scale, link: &Link, top: f64) {
    for (from, count) in grouped(&link.commands, scale.step(180)) {
        let x = scale.x(from.max(scale.first).min(scale.last()));
        let said = format!("{} handed over from {} on", plural(count, "command"), scale.said(from));
        let _ = writeln!(
            page,
            "<path d=\"M{:.1} {:.1}l4 4l-4 4l-4 -4z\" fill=\"{}\"><title>{}</title></path>",
            x,
            top + 3.0,
            COMMAND_COLOUR,
            escaped(&said)
        );
    }
}

/// For each column in which a phase lasted less than a column: how long each phase was there.
fn short_phases(scale: &Scale, link: &Link) -> Vec<(u64, [u64; 4])> {
    let column_of =
        |time: u64| (u128::from(time - scale.first) * u128::from(PLOT) / u128::from(scale.length)).min(u128::from(PLOT) - 1) as u64;
    let lasts = |place: usize| {
        let (from, phase) = link.phases[place];
        (from, link.phases.get(place + 1).map_or(scale.last(), |(next, _)| *next).max(from), phase)
    };
    let mut columns: Vec<(u64, [u64; 4])> = Vec::new();
    for place in 0..link.phases.len() {
        let (from, to, _) = lasts(place);
        let column = column_of(from);
        if scale.x(to) - scale.x(from) < 1.0 && columns.last().map(|(last, _)| *last) != Some(column) {
            columns.push((column, [0; 4]));
        }
    }
    let mut at = 0;
    for (column, shares) in &mut columns {
        let (begin, end) = (scale.column(*column), scale.column(*column + 1).max(scale.column(*column) + 1));
        while at > 0 && lasts(at).0 > begin {
            at -= 1;
        }
        while at < link.phases.len() && lasts(at).0 < end {
            let (from, to, phase) = lasts(at);
            shares[phase as usize] += to.min(end).saturating_sub(from.max(begin));
            at += 1;
        }
        at = at.saturating_sub(1);
    }
    columns.retain(|(_, shares)| shares.iter().sum::<u64>() > 0);
    columns
}

/// The most records held in each column, and of them those that have waited.
fn holding(page: &mut String, scale: &Scale, link: &Link, top: f64) {
    let stays = || link.gone.iter().chain(&link.held);
    let all = most_at_once(scale, stays().map(|stay| (stay.from, stay.to)));
    let waited = most_at_once(scale, stays().filter(|stay| stay.length() > WAITED).map(|stay| (stay.from + WAITED, stay.to)));
    let most = all.iter().copied().max().unwrap_or(0);
    let full = [4, 8, 16, 32, MOST_HELD].into_iter().find(|full| most <= *full).unwrap_or(MOST_HELD);
    label(page, top + 11.0, "records");
    label(page, top + 24.0, "held");
    let bottom = top + HELD as f64;
    for (number, part) in [(full, 0.0), (full / 2, 0.5), (0, 1.0)] {
        let y = top + HELD as f64 * part;
        line(page, (LEFT as f64, y), ((LEFT + PLOT) as f64, y), &format!("stroke=\"{}\"", RULE));
        text(page, LEFT as f64 - 6.0, y + 4.0, &format!("font-size=\"10\" fill=\"{}\" text-anchor=\"end\"", SOFT), &number.to_string());
    }
    area(page, &all, full, bottom, HELD_COLOUR);
    area(page, &waited, full, bottom, WAITED_COLOUR);
    if full == MOST_HELD {
        line(page, (LEFT as f64, top), ((LEFT + PLOT) as f64, top), &format!("stroke=\"{}\" stroke-dasharray=\"2 3\"", LOST_COLOUR));
    }
    for (from, count) in grouped(&link.lost, scale.step(180)) {
        let x = scale.x(from.max(scale.first).min(scale.last()));
        let said = format!("{} lost from {} on", plural(count, "record"), scale.said(from));
        let _ = writeln!(
            page,
            "<path d=\"M{:.1} {:.1}l-4 -8h8z\" fill=\"{}\"><title>{}</title></path>",
            x,
            top + 8.0,
            LOST_COLOUR,
            escaped(&said)
        );
    }
}

/// How many of the spans lie over one another at most, in each column.
fn most_at_once(scale: &Scale, spans: impl Iterator<Item = (u64, u64)>) -> Vec<u64> {
    // At one time what was there goes first, then comes what is new, then goes what stayed for no time at all.
    let of_span = |(from, to): (u64, u64)| [(from, 1, 1), (to, if to > from { 0 } else { 2 }, -1)];
    let mut changes: Vec<(u64, u8, i64)> = spans.flat_map(of_span).collect();
    changes.sort_unstable();
    let mut changes = changes.into_iter().peekable();
    let mut now = 0;
    (0..PLOT)
        .map(|place| {
            let mut most = now;
            let last_column = place + 1 == PLOT;
            while let Some((_, _, change)) = changes.next_if(|(time, _, _)| last_column || *time < scale.column(place + 1)) {
                now += change;
                most = most.max(now);
            }
            most as u64
        })
        .collect()
}

fn area(page: &mut String, counts: &[u64], full: u64, bottom: f64, colour: &str) {
    if counts.iter().all(|count| *count == 0) {
        return;
    }
    let mut path = format!("M{} {:.1}", LEFT, bottom);
    let mut before = 0;
    for (place, count) in counts.iter().enumerate() {
        if *count != before {
            let _ = write!(path, "H{}V{:.1}", LEFT as usize + place, bottom - HELD as f64 * *count as f64 / full as f64);
            before = *count;
        }
    }
    let _ = writeln!(page, "<path d=\"{}H{}V{:.1}z\" fill=\"{}\"/>", path, LEFT + PLOT, bottom, colour);
}

/// Times by the spans of a step in which they lie.
fn grouped(times: &[u64], step: u64) -> Vec<(u64, usize)> {
    let mut groups: Vec<(u64, usize)> = Vec::new();
    for time in times {
        let from = time / step * step;
        match groups.iter_mut().rev().find(|(group, _)| *group == from) {
            Some((_, count)) => *count += 1,
            None => groups.push((from, 1)),
        }
    }
    groups
}

/// Upwards what was issued, downwards what was sent and, before it, what was answered; by their roots, so that a few are seen beside many.
fn flowing(page: &mut String, scale: &Scale, link: &Link, top: f64) {
    let step = scale.step(180);
    let groups = [&link.issued, &link.sent, &link.answered].map(|times| grouped(times, step));
    let most = |groups: &[(u64, usize)]| groups.iter().map(|(_, count)| *count).max().unwrap_or(0);
    let (up, down) = (most(&groups[0]).max(1), most(&groups[1]).max(most(&groups[2])).max(1));
    let (half, middle) = (FLOW as f64 / 2.0, top + FLOW as f64 / 2.0);
    label(page, top + 11.0, "issued");
    label(page, top + FLOW as f64 - 14.0, "sent and");
    label(page, top + FLOW as f64 - 2.0, "answered");
    let quarters = [(middle - half / 2.0, up / 4), (middle + half / 2.0, down / 4)];
    let quarters = quarters.into_iter().filter(|(_, number)| *number > 0);
    for (y, number) in [(top, up), (top + FLOW as f64, down)].into_iter().chain(quarters) {
        line(page, (LEFT as f64, y), ((LEFT + PLOT) as f64, y), &format!("stroke=\"{}\"", RULE));
        text(page, (LEFT + PLOT) as f64 + 4.0, y + 4.0, &format!("font-size=\"10\" fill=\"{}\"", SOFT), &number.to_string());
    }
    let drawn = [("issued", ISSUED_COLOUR, 0.8, true), ("sent", SENT_COLOUR, 0.8, false), ("answered", ANSWERED_COLOUR, 0.45, false)];
    for ((what, colour, share, upwards), groups) in drawn.into_iter().zip(&groups) {
        for (from, count) in groups {
            let (left, right) = (scale.x((*from).max(scale.first)), scale.x((from + step).min(scale.last())));
            let width = ((right - left) * share).max(1.0);
            let height = half * (*count as f64 / if upwards { up } else { down } as f64).sqrt();
            let said = format!("{} {} in the {} from {}", count, what, span(step), scale.said(*from));
            bar(page, ((left + right - width) / 2.0, if upwards { middle - height } else { middle }), (width, height), colour, &said);
        }
    }
    line(page, (LEFT as f64, middle), ((LEFT + PLOT) as f64, middle), &format!("stroke=\"{}\"", SOFT));
    let each = format!("a bar: {}; a bar of half the height: a quarter as many", span(step));
    text(page, (LEFT + PLOT) as f64, top + FLOW as f64 + 13.0, &format!("font-size=\"10\" fill=\"{}\" text-anchor=\"end\"", SOFT), &each);
}

fn label(page: &mut String, y: f64, words: &str) {
    text(page, 10.0, y, &format!("font-size=\"11\" fill=\"{}\"", SOFT), words);
}

fn axis(page: &mut String, scale: &Scale, top: u64) {
    let y = top as f64;
    let step = scale.step(13);
    line(page, (LEFT as f64, y), ((LEFT + PLOT) as f64, y), &format!("stroke=\"{}\"", SOFT));
    let mut dated = String::new();
    for time in scale.ticks(step) {
        let x = scale.x(time);
        line(page, (x, y), (x, y + 5.0), &format!("stroke=\"{}\"", SOFT));
        text(page, x, y + 18.0, "text-anchor=\"middle\"", &clock(time, step));
        if day(time) != dated {
            dated = day(time);
            text(page, x, y + 33.0, &format!("text-anchor=\"middle\" font-size=\"10\" fill=\"{}\"", SOFT), &dated);
        }
    }
    text(page, 10.0, y + 18.0, &format!("font-size=\"11\" fill=\"{}\"", SOFT), "UTC");
}
