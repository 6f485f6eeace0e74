//! Times and spans as people read them, in UTC.

const DAY: u64 = 86_400_000;

/// Year, month and day of a day counted from 1970.
fn date(days: u64) -> (u64, u64, u64) {
    // Years that begin in March: the leap day is the last of its year.
    let days = days + 719_468;
    let (era, day) = (days / 146_097, days % 146_097);
    let year = (day - day / 1_460 + day / 36_524 - day / 146_096) / 365;
    let of_year = day - (365 * year + year / 4 - year / 100);
    let march = (5 * of_year + 2) / 153;
    let month = if march < 10 { march + 3 } else { march - 9 };
    (era * 400 + year + u64::from(month <= 2), month, of_year - (153 * march + 2) / 5 + 1)
}

pub fn day(time: u64) -> String {
    let (year, month, day) = date(time / DAY);
    format!("{:04}-{:02}-{:02}", year, month, day)
}

/// Hours and minutes, with seconds and thousandths where they are asked for.
pub fn clock(time: u64, step: u64) -> String {
    let of_day = time % DAY;
    let (hour, minute) = (of_day / 3_600_000, of_day / 60_000 % 60);
    let (second, thousandth) = (of_day / 1_000 % 60, of_day % 1_000);
    if step % 60_000 == 0 {
        format!("{:02}:{:02}", hour, minute)
    } else if step % 1_000 == 0 {
        format!("{:02}:{:02}:{:02}", hour, minute, second)
    } else {
        format!("{:02}:{:02}:{:02}.{:03}", hour, minute, second, thousandth)
    }
}

/// As messages write it.
pub fn full(time: u64) -> String {
    format!("{}T{}Z", day(time), clock(time, 1))
}

/// A span in its two largest units, the smaller left out where there is none of it.
pub fn span(milliseconds: u64) -> String {
    const UNITS: [(u64, &str); 5] = [(DAY, "d"), (3_600_000, "h"), (60_000, "min"), (1_000, "s"), (1, "ms")];
    let place = UNITS.iter().position(|(unit, _)| milliseconds >= *unit).unwrap_or(4);
    let (unit, name) = UNITS[place];
    let whole = format!("{} {}", milliseconds / unit, name);
    match UNITS.get(place + 1).map(|(smaller, name)| (milliseconds % unit / smaller, name)) {
        Some((rest, name)) if rest > 0 => format!("{} {} {}", whole, rest, name),
        _ => whole,
    }
}
