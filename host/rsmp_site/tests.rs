//! The safe crate over the library, run on x86-64: sizes on this side of the calling convention, typed refusals, clones.

use rsmp_site::{ffi, AlarmState, Cabinet, Command, NotStored, Phase, Refusal, Report, Site, Start, Subscription};
use rsmp_site::{BOX_BYTES, BOX_STORED_BYTES, LAST_TIME, OUTPUT_BYTES, SITE_BYTES, STORED_BYTES};
use std::mem::{align_of, size_of};

const TABLE: &[u8] = include_bytes!("../../examples/barrier.bits");
const COMMANDS: &[u8] = include_bytes!("../../examples/commands.bits");
const NOON: u64 = 1_254_398_371_571;
const GOOD: Start = Start { links: 2, primary: Some(0), period: 60, first: 0, time: NOON };

fn site() -> Site {
    Site::start(TABLE, &GOOD).expect("the example table is good")
}

#[test]
fn sizes() {
    assert_eq!((size_of::<ffi::Block>(), align_of::<ffi::Block>(), SITE_BYTES), (15_600, 8, 15_594));
    assert_eq!((size_of::<ffi::BoxBlock>(), align_of::<ffi::BoxBlock>(), BOX_BYTES), (27_032, 8, 27_028));
    assert_eq!((size_of::<ffi::Outcome>(), align_of::<ffi::Outcome>()), (32, 8));
    assert_eq!((size_of::<ffi::Id>(), size_of::<ffi::Version>(), size_of::<ffi::Reading>()), (16, 12, 17));
}

/// Where fields stand in a struct.
macro_rules! places {
    ($of:expr, $($field:ident)*) => {{
        let (of, start) = (&$of, &$of as *const _ as usize);
        [$(&of.$field as *const _ as usize - start),*]
    }};
}

#[test]
fn offsets() {
    let block: ffi::Block = Site::NONE.into();
    assert_eq!(places!(block, pool words table), [0, 4160, 9416]);
    let two: ffi::BoxBlock = Cabinet::EMPTY.into();
    assert_eq!(places!(two, pool words table), [0, 4160, 14672]);
    let outcome = ffi::Outcome { hint: 0, number: 0, written: 0, closed: 0, hinted: 0, commands: 0 };
    assert_eq!(places!(outcome, hint number written closed hinted commands), [0, 8, 12, 16, 20, 24]);
    let version = ffi::Version { major: 0, minor: 0, patch: 0 };
    assert_eq!(places!(version, major minor patch), [0, 4, 8]);
    let reading = ffi::Reading { found: 0, bytes: [0; 16] };
    assert_eq!(places!(reading, found bytes), [0, 1]);
}

#[test]
fn starts_are_judged() {
    let refused = |start: Start| Site::start(TABLE, &start).err();
    for start in [
        Start { links: 0, ..GOOD },
        Start { links: 5, ..GOOD },
        Start { primary: Some(2), ..GOOD },
        Start { primary: Some(u32::MAX), ..GOOD },
        Start { period: 0, ..GOOD },
        Start { period: 3601, ..GOOD },
        Start { first: 1 << 31, ..GOOD },
        Start { time: LAST_TIME + 1, ..GOOD },
    ] {
        assert_eq!(refused(start), Some(Refusal::NotAccepted), "{:?}", start);
    }
    assert_eq!(Site::start(&[], &GOOD).err(), Some(Refusal::NotAccepted));
    assert_eq!(Site::start(&TABLE[..TABLE.len() - 1], &GOOD).err(), Some(Refusal::NotAccepted));
    assert!(refused(Start { primary: None, first: (1 << 31) - 1, time: LAST_TIME, ..GOOD }).is_none());
}

#[test]
fn refusals_are_typed() {
    let mut site = site();
    let mut output = [0; OUTPUT_BYTES];
    assert_eq!(site.connect(2, NOON), Err(Refusal::NoLink));
    assert_eq!(site.connect(0, NOON - 1), Err(Refusal::BadTime));
    assert_eq!(site.disconnect(0, NOON), Err(Refusal::WrongPhase));
    assert_eq!(site.alarm(6, true, NOON), Err(Refusal::NoItem));
    assert_eq!(site.status(7, 1, NOON), Err(Refusal::NoItem));
    assert_eq!(site.pump(0, NOON, [0; 16], &mut output[..OUTPUT_BYTES - 1]), Err(Refusal::ShortOutput));
    assert_eq!(site.pump(0, NOON, [0; 16], &mut output), Err(Refusal::WrongPhase));
    assert!(site.connect(0, NOON).is_ok());
    let written = site.pump(0, NOON, [0; 16], &mut output).expect("our Version is due").written;
    assert!(output[..written].starts_with(b"{\"mType\":\"rSMsg\",\"type\":\"Version\",\"mId\":\"00000000-0000-4000-8000-000000000000\""));
    assert_eq!(output[written - 1], 0x0C);
    assert_eq!(site.pump(0, NOON, [1; 16], &mut output), Err(Refusal::NothingDue));
    assert_eq!(Refusal::NothingDue.number(), 7);
    assert!(Refusal::BadTime.to_string().contains("(number 5)"));
}

#[test]
fn clones_do_not_know_of_each_other() {
    let mut one = site();
    let mut two = one.clone();
    assert!(one.connect(0, NOON).is_ok() && one.alarm(0, true, NOON).is_ok());
    assert_eq!((one.phase(0), one.held(0)), (Phase::Greeting, 1));
    assert_eq!((two.phase(0), two.held(0)), (Phase::Down, 0));
    assert!(two.connect(0, NOON).is_ok());
    let closed = one.disconnect(0, NOON).expect("it is connected").closed;
    assert_eq!((closed.mask(), closed.contains(0), closed.iter().collect::<Vec<_>>()), (1, true, vec![0]));
    assert_eq!((one.phase(0), two.phase(0)), (Phase::Down, Phase::Greeting));
}

#[test]
fn readings() {
    let mut site = site();
    assert!(site.alarm(3, true, NOON).is_ok());
    assert!(site.aggregated(5, NOON).is_ok());
    assert_eq!((site.held(0), site.held(1), site.held(2), site.lost(0)), (2, 1, 0, 0));
    let records: Vec<[u8; 16]> = site.records(0).collect();
    assert_eq!(records.len(), 2);
    assert_eq!(records[0][..2], [0x00, 0x62]);
    assert_eq!((site.version(0), site.phase(9), site.records(1).count()), (None, Phase::Down, 1));
}

#[test]
fn a_refused_start_leaves_the_site() {
    let mut site = site();
    assert!(site.alarm(0, true, NOON).is_ok());
    let before = site.clone();
    assert_eq!(site.begin(&[], &GOOD), Err(Refusal::NotAccepted));
    assert_eq!(site.begin(TABLE, &Start { period: 0, ..GOOD }), Err(Refusal::NotAccepted));
    assert!(site == before);
    assert!(site.begin(TABLE, &GOOD).is_ok() && site == self::site());
}

#[test]
fn links_are_those_of_the_start() {
    assert_eq!(Site::NONE.links(), 0);
    for links in 1..=4 {
        let mut site = Site::start(TABLE, &Start { links, ..GOOD }).expect("a good start");
        assert_eq!(site.links(), links);
        assert!((0..links).all(|link| site.connect(link, NOON).is_ok()));
        assert_eq!(site.connect(links, NOON), Err(Refusal::NoLink));
    }
}

#[test]
fn every_content_is_a_site() {
    let mut output = [0; OUTPUT_BYTES];
    for byte in [0, 1, 2, 0x55, 0x7F, 0x80, 0xFF] {
        let bytes = [byte; SITE_BYTES];
        let mut site = Site::from_bytes(&bytes);
        assert!(site.as_bytes() == &bytes && site.links() <= 4);
        for link in 0..5 {
            let _ = (site.phase(link), site.version(link), site.lost(link), site.records(link).count() as u64 <= site.held(link));
            let _ = (site.connect(link, NOON), site.pump(link, NOON, [byte; 16], &mut output), site.disconnect(link, NOON));
            let _ = site.packet(link, NOON, [byte; 16], b"{}", &mut output);
        }
        let _ = (site.alarm(0, true, NOON), site.status(0, 1, NOON), site.aggregated(1, NOON), site.tick(NOON));
        assert!(site.begin(TABLE, &GOOD).is_ok() && site == self::site());
    }
}

#[test]
fn bytes_and_back() {
    let mut site = site();
    assert!(site.connect(1, NOON).is_ok() && site.alarm(2, true, NOON).is_ok());
    assert!(Site::from_bytes(site.as_bytes()) == site);
    let stored = site.to_stored();
    assert!(Site::from_stored(&stored).as_ref() == Ok(&site));
    assert_eq!((stored.len(), stored[8]), (STORED_BYTES, 4));
    let fault = |change: &dyn Fn(&mut Vec<u8>)| {
        let mut bytes = stored.to_vec();
        change(&mut bytes);
        Site::from_stored(&bytes).err()
    };
    let as_error: &dyn std::error::Error = &NotStored::Damaged;
    assert!(as_error.to_string().contains("check sum"));
    assert_eq!(fault(&|bytes| bytes[16] ^= 1), Some(NotStored::Damaged));
    assert_eq!(fault(&|bytes| bytes[STORED_BYTES - 1] ^= 1), Some(NotStored::Damaged));
    assert_eq!(fault(&|bytes| bytes[8] = 1), Some(NotStored::Edition(1)));
    assert_eq!(fault(&|bytes| bytes[0] = 0), Some(NotStored::Foreign));
    assert_eq!(fault(&|bytes| bytes[12] ^= 8), Some(NotStored::Length));
    assert_eq!((fault(&|bytes| bytes.truncate(23)), fault(&|bytes| bytes.push(0))), (Some(NotStored::Length), Some(NotStored::Length)));
}

/// A cabinet whose second site begins with another number, and each has an alarm.
fn cabinet() -> Cabinet {
    let mut cabinet = Cabinet::EMPTY;
    for (number, start) in [(0, GOOD), (1, Start { links: 1, first: 7, ..GOOD })] {
        let mut site = cabinet.site_mut(number).expect("there are two");
        assert!(site.begin(TABLE, &start).is_ok() && site.alarm(2, true, NOON).is_ok());
    }
    cabinet
}

#[test]
fn two_sites_share_a_pool() {
    let mut cabinet = cabinet();
    assert!(cabinet.site(2).is_none() && cabinet.site_mut(2).is_none() && cabinet.site(u32::MAX).is_none());
    let of = |cabinet: &Cabinet, number: u32| {
        let site = cabinet.site(number).unwrap();
        (
            site.links(),
            site.held(0),
            site.lost(0),
            site.next_number(),
            site.records(0).map(|record| (record[0] >> 5, record[15])).collect::<Vec<_>>(),
        )
    };
    assert_eq!((of(&cabinet, 0), of(&cabinet, 1)), ((2, 1, 0, 1, vec![(0, 0)]), (1, 1, 0, 8, vec![(4, 7)])));
    // 64 of each, then the second's own go first, then those of link 1 push out the fuller's.
    for number in [0, 1] {
        for value in 1..=80 {
            assert!(cabinet.site_mut(number).unwrap().aggregated(value, NOON).is_ok());
        }
    }
    let held = |cabinet: &Cabinet| [0, 1].map(|number| cabinet.site(number).unwrap().held(0));
    let lost = |cabinet: &Cabinet| [0, 1].map(|number| cabinet.site(number).unwrap().lost(0));
    assert_eq!(held(&cabinet).iter().sum::<u64>() + cabinet.site(0).unwrap().held(1), 128);
    assert!(lost(&cabinet).iter().all(|lost| *lost > 0));
    // A refused start leaves all, a done one the other's share.
    let before = cabinet.clone();
    assert!(cabinet.site_mut(1).unwrap().begin(TABLE, &Start { links: 5, ..GOOD }).is_err() && cabinet == before);
    let north = (held(&cabinet)[0], lost(&cabinet)[0]);
    assert!(cabinet.site_mut(1).unwrap().begin(TABLE, &GOOD).is_ok());
    assert_eq!((held(&cabinet), lost(&cabinet)), ([north.0, 0], [north.1, 0]));
}

#[test]
fn a_cabinet_stored_and_back() {
    let cabinet = cabinet();
    assert!(Cabinet::from_bytes(cabinet.as_bytes()) == cabinet);
    let stored = cabinet.to_stored();
    assert!(Cabinet::from_stored(&stored).map_or(false, |back| back == cabinet));
    assert_eq!((stored.len(), stored[8]), (BOX_STORED_BYTES, 4));
    assert_eq!(Site::from_stored(&stored).err(), Some(NotStored::Length));
    assert_eq!(Cabinet::from_stored(&site().to_stored()).err(), Some(NotStored::Length));
    let mut damaged = stored;
    damaged[20_000] ^= 1;
    assert_eq!(Cabinet::from_stored(&damaged).err(), Some(NotStored::Damaged));
}

const THEIRS: &str = "6f968141-4de5-42ff-8032-45f8093762c5";

/// A supervisor's message, `more` being what stands behind its identity.
fn told(site: &mut Site, kind: &str, more: &str) -> Report {
    told_at(site, NOON, kind, more)
}

fn told_at(site: &mut Site, time: u64, kind: &str, more: &str) -> Report {
    let packet = format!("{{\"mType\":\"rSMsg\",\"type\":\"{}\",\"mId\":\"{}\",{}}}", kind, THEIRS, more);
    site.packet(0, time, [9; 16], packet.as_bytes(), &mut [0; OUTPUT_BYTES]).expect("it is taken")
}

/// A site whose link 0 is Up.
fn up(table: &[u8]) -> Site {
    let mut site = Site::start(table, &GOOD).expect("the example table is good");
    let mut output = [0; OUTPUT_BYTES];
    assert!(site.connect(0, NOON).is_ok());
    for (byte, theirs) in [
        (1, "\"type\":\"Version\",\"RSMP\":[{\"vers\":\"3.2\"}],\"siteId\":[{\"sId\":\"O+14439=481BA001\"}],\"SXL\":\"1.0.13\""),
        (2, "\"type\":\"Watchdog\",\"wTs\":\"2009-10-01T11:59:31.571Z\""),
    ] {
        site.pump(0, NOON, [byte; 16], &mut output).expect("ours is due");
        let ack = format!(
            "{{\"mType\":\"rSMsg\",\"type\":\"MessageAck\",\"oMId\":\"{0}{0}{0}{0}-{0}{0}-4{1}{0}-8{1}{0}-{0}{0}{0}{0}{0}{0}\"}}",
            format_args!("0{}", byte),
            byte
        );
        site.packet(0, NOON, [7; 16], ack.as_bytes(), &mut output).expect("ours is acknowledged");
        let theirs = format!("{{\"mType\":\"rSMsg\",\"mId\":\"{}\",{}}}", THEIRS, theirs);
        site.packet(0, NOON, [7; 16], theirs.as_bytes(), &mut output).expect("theirs is taken");
    }
    assert_eq!(site.phase(0), Phase::Up);
    site
}

#[test]
fn commands_are_handed_over() {
    let mut site = up(COMMANDS);
    let asked = |entries: &str| format!("\"cId\":\"O+14439=481BR001\",\"arg\":[{}]", entries);
    let entry = |code: &str, name: &str, value: &str| {
        format!("{{\"cCI\":\"{}\",\"n\":\"{}\",\"cO\":\"setValue\",\"v\":\"{}\"}}", code, name, value)
    };
    let (raise, limit) = (entry("M0101", "boom", "1"), entry("M0102", "release limit", "250"));
    let before = site.clone();
    let report = told(&mut site, "CommandRequest", &asked(&format!("{},{},{}", limit, raise, limit)));
    let handed = [Command { number: 2, value: 250 }, Command { number: 1, value: 1 }, Command { number: 2, value: 250 }];
    assert_eq!(report.commands[..], handed);
    assert_eq!((report.commands.len(), report.commands.iter().count(), report.hint), (3, 3, None));
    assert_eq!(format!("{:?}", report.commands), format!("{:?}", handed));
    assert!(site != before);
    for entries in
        [entry("M0101", "boom", "2"), entry("M0103", "boom", "1"), format!("{},{}", raise, entry("M0102", "release limit", "99"))]
    {
        assert!(told(&mut site, "CommandRequest", &asked(&entries)).commands.is_empty(), "{}", entries);
    }
    let heater = asked(&entry("M0001", "heater offset", "-20")).replace("481BR001", "481BA001");
    assert_eq!(told(&mut up(COMMANDS), "CommandRequest", &heater).commands[..], [Command { number: 0, value: -20 }]);
    let unknown = asked(&raise).replace("481BR001", "481BR009");
    assert!(told(&mut up(COMMANDS), "CommandRequest", &unknown).commands.is_empty());
    assert!(told(&mut up(TABLE), "CommandRequest", &asked(&raise)).commands.is_empty());
    // With one message, which nobody answers: the site awaits nothing more.
    let (mut site, mut output) = (up(COMMANDS), [0; OUTPUT_BYTES]);
    let before = site.clone();
    let packet = format!("{{\"mType\":\"rSMsg\",\"type\":\"CommandRequestAckIncluded\",\"mId\":\"{}\",{}}}", THEIRS, asked(&raise));
    let report = site.packet(0, NOON, [9; 16], packet.as_bytes(), &mut output).expect("it is taken");
    let written = std::str::from_utf8(&output[..report.written]).expect("it is text");
    let begins = format!("{{\"mType\":\"rSMsg\",\"type\":\"CommandResponseAckIncluded\",\"oMId\":\"{}\",", THEIRS);
    assert!(written.starts_with(&begins) && written.matches('\u{c}').count() == 1, "{}", written);
    assert!(report.commands[..] == [Command { number: 1, value: 1 }] && site == before);
}

#[test]
fn what_stands_inside() {
    let mut site = up(TABLE);
    let quiet = AlarmState { active: false, acknowledged: true, suspended: false, time: NOON };
    assert_eq!((site.alarm_state(5), site.alarm_state(32)), (Some(quiet), None));
    let before = site.next_number();
    assert!(site.alarm(2, true, NOON + 1).is_ok() && site.aggregated(0x81, NOON + 1).is_ok());
    assert_eq!(site.next_number(), before + 1 + u64::from(site.links()), "one for the alarm, one a link for the aggregated status");
    let wanted = AlarmState { active: true, acknowledged: false, suspended: false, time: NOON + 1 };
    assert_eq!((site.alarm_state(2), site.aggregated_value()), (Some(wanted), 0x81));
    let suspend = "\"cId\":\"O+14439=481BR001\",\"aCId\":\"A0101\",\"xACId\":\"\",\"xNACId\":\"\",\"aSp\":\"Suspend\"";
    told_at(&mut site, NOON + 2, "Alarm", suspend);
    assert_eq!(site.alarm_state(2), Some(AlarmState { suspended: true, time: NOON + 2, ..wanted }));
    assert_eq!((site.status_value(1), site.subscription(0, 1)), (None, None));
    assert!(site.status(1, -190, NOON + 2).is_ok());
    assert_eq!((site.status_value(1), site.status_value(0), site.status_value(32)), (Some(-190), None, None));
    let entries = "{\"sCI\":\"S0101\",\"n\":\"release\",\"uRt\":\"60\",\"sOc\":true},{\"sCI\":\"S0101\",\"n\":\"release limit\",\"uRt\":\"5\",\"sOc\":false}";
    told_at(&mut site, NOON + 2, "StatusSubscribe", &format!("\"cId\":\"O+14439=481BR001\",\"sS\":[{}]", entries));
    assert_eq!(site.subscription(0, 1), Some(Subscription { seconds: 60, on_change: true }));
    assert_eq!(site.subscription(0, 2), Some(Subscription { seconds: 5, on_change: false }));
    assert_eq!((site.subscription(1, 1), site.subscription(4, 1), site.subscription(0, 32)), (None, None, None));
}
