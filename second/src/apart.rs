//! Pairs of good tables that say the same but for one thing: a field, an
//! object, whether a position is used, or how long a list is. Whoever shows
//! tables must show the two of a pair differently.
//!
//! Which fields and objects there are is asked of the reads, and which of
//! their values are lawful is tried, so that none is left out here.

use crate::answer::{CONTROL_KIND, HEADER_KIND};
use crate::changes::{changes, Line};
use crate::compact::sites;
use crate::discovery::Discovery;
use crate::form::{form, put_checksum, HOST_START};
use crate::frame::Frame;
use crate::generate::{object, random_host, random_interface, random_security, random_subsystem};
use crate::generate::{random_origin, text};
use crate::host::Host;
use crate::identity::{Client, Identity, DHCP_ORIGIN};
use crate::interface::{Addition, Info, Interface};
use crate::meaning::{check, meaning, Entry, Meaning, Origin};
use crate::pairs::with_object;
use crate::random::Random;
use crate::read::{field_length, has_object, Reading, LONGEST_RECORD};
use crate::record::Record;
use crate::security::{Policy, Security};
use crate::subsystem::{Extended, Subsystem};
use crate::wire::{put_reference, u16_at, u32_at};
use std::collections::BTreeSet;

/// Two tables, and what they say differently: `ssns-24-nsid-byte-2`. Where
/// one thing cannot differ alone the name has the others behind `with`.
#[derive(Clone, Debug, PartialEq, Eq)]
pub struct Pair {
    pub name: String,
    pub first: Vec<u8>,
    pub second: Vec<u8>,
}

/// Kinds by their numbers. There is no kind 8.
const KINDS: [&str; 11] = [
    "header",
    "control",
    "host",
    "hfi",
    "ssns",
    "security",
    "discovery",
    "info",
    "",
    "extended",
    "hfi-extended",
];

/// What fields and references are called, by kind.
const NAMES: [(u8, &[(u32, &str)]); 10] = [
    (
        HEADER_KIND,
        &[
            (10, "oem-id"),
            (16, "oem-table-id"),
            (24, "oem-revision"),
            (28, "creator-id"),
            (32, "creator-revision"),
            (44, "driver-signature"),
        ],
    ),
    (
        CONTROL_KIND,
        &[
            (87, "hfis"),
            (95, "ssns"),
            (103, "security"),
            (111, "discovery"),
        ],
    ),
    (Host::ID, &[(1, "flags"), (2, "id"), (18, "nqn")]),
    (Interface::ID, &[(2, "flags"), (16, "info")]),
    (
        Subsystem::ID,
        &[
            (3, "flags"),
            (6, "transport-flags"),
            (8, "discovery"),
            (10, "traddr"),
            (16, "trsvcid"),
            (22, "port"),
            (24, "nsid"),
            (28, "nid-type"),
            (29, "nid"),
            (45, "security"),
            (46, "primary-hfi"),
            (48, "secondary-hfis"),
            (54, "nqn"),
            (60, "extended"),
        ],
    ),
    (
        Security::ID,
        &[
            (2, "flags"),
            (4, "secret-type-flags"),
            (6, "algorithms"),
            (12, "protocols"),
            (18, "ciphers"),
            (24, "groups"),
            (30, "hashes"),
            (36, "keypath"),
        ],
    ),
    (
        Discovery::ID,
        &[
            (1, "flags"),
            (3, "hfi"),
            (4, "security"),
            (6, "uri"),
            (12, "nqn"),
        ],
    ),
    (
        Info::ID,
        &[
            (3, "version"),
            (6, "flags"),
            (7, "pci"),
            (11, "mac"),
            (17, "vlan"),
            (19, "ip-origin"),
            (20, "ip"),
            (36, "prefix"),
            (37, "gateway"),
            (54, "metric"),
            (56, "primary-dns"),
            (72, "secondary-dns"),
            (88, "dhcp-server"),
            (104, "host-name"),
            (110, "extended"),
        ],
    ),
    (
        Extended::ID,
        &[
            (4, "flags"),
            (8, "controller"),
            (10, "asqsz"),
            (12, "root-path"),
        ],
    ),
    (Identity::ID, &[(4, "flags"), (8, "iaid"), (14, "duid")]),
];

/// The name of fields that say the same in every good table: IDs, versions,
/// types and indexes.
const UNNAMED: &str = "unnamed";

fn name(kind: u8, offset: u32) -> &'static str {
    let names = NAMES.iter().find(|(of, _)| *of == kind);
    let mut names = names.map_or(&[][..], |(_, names)| names).iter();
    let found = names.find(|(at, _)| *at == offset);
    found.map_or(UNNAMED, |(_, name)| name)
}

/// Where a form has a record whose fields and objects are read.
#[derive(Clone, Copy, Debug, PartialEq, Eq)]
pub struct Seat {
    pub kind: u8,
    pub position: u16,
    pub start: usize,
}

/// The header, the host, all used records of lists and all heap records.
pub fn seats(form: &[u8]) -> Vec<Seat> {
    let seat = |kind, position, start| Seat {
        kind,
        position,
        start,
    };
    let mut seats = vec![seat(HEADER_KIND, 0, 0), seat(Host::ID, 0, HOST_START)];
    let frame = Frame::read(form).expect("a form is good");
    for list in frame.lists() {
        for (place, position) in (1..=u16::from(list.count)).enumerate() {
            let start = list.offset as usize + place * usize::from(list.record_length);
            // An unused record is all zero in a form.
            if form[start] != 0 {
                seats.push(seat(form[start], position, start));
            }
        }
    }
    let all = sites(form).expect("a form is good").into_iter();
    for site in all.filter(|site| site.is_heap_record) {
        let kind = form[site.start];
        let owner_at = if kind == Info::ID { 4 } else { 2 };
        let owner = u16_at(form, site.start + owner_at);
        seats.push(seat(kind, owner, site.start));
    }
    seats
}

/// All pairs. The same seed gives the same ones, and every seed gives as
/// many with the same names.
pub fn all(random: &mut Random) -> Vec<Pair> {
    let mut told = full(random);
    let mut finder = Finder::default();
    finder.lists(&told);
    let plain = form(&told);
    for seat in seats(&plain) {
        finder.fields(random, &plain, seat);
        finder.objects(&plain, seat);
        finder.absent_heap_records(&plain, seat);
    }
    // There is but one host. From 0 single bits lead to 1 and 2, which are
    // told apart by a pair of their own.
    told.host.primary = 1;
    let plain = form(&told);
    let host = seats(&plain)
        .into_iter()
        .filter(|seat| seat.kind == Host::ID);
    host.for_each(|seat| finder.fields(random, &plain, seat));
    finder.found
}

/// What was found, and the names of it without what must go with it.
#[derive(Default)]
struct Finder {
    found: Vec<Pair>,
    names: BTreeSet<String>,
}

/// What a line speaks of, but neither where nor how.
fn subject(line: &Line) -> String {
    let kind = |kind: u8| KINDS[usize::from(kind)];
    match line {
        Line::Field { place, offset, .. } | Line::Object { place, offset, .. } => {
            format!("{}-{offset}", kind(place.kind))
        }
        Line::Only(place, _) => format!("{}-there", kind(place.kind)),
        Line::Used(place, _) => format!("{}-used", kind(place.kind)),
    }
}

impl Finder {
    fn has(&self, own: &str, how: &str) -> bool {
        self.names.contains(&format!("{own}{how}"))
    }

    /// Takes two tables for a pair, if both are good and they differ in this
    /// subject. Says whether there is a pair of that name now.
    fn take(&mut self, own: &str, how: &str, first: &[u8], second: &[u8]) -> bool {
        let key = format!("{own}{how}");
        if self.has(own, how) {
            return true;
        }
        if !check(first).is_done() || !check(second).is_done() {
            return false;
        }
        let (one, other) = (meaning(first), meaning(second));
        let mut subjects: Vec<String> = changes(&one, &other).iter().map(subject).collect();
        let Some(place) = subjects.iter().position(|subject| is_part(subject, own)) else {
            return false;
        };
        subjects.remove(place);
        let name = match subjects.is_empty() {
            true => key.clone(),
            false => format!("{key}-with-{}", subjects.join("-and-")),
        };
        self.names.insert(key);
        let [first, second] = [one, other].map(|told| form(&told));
        self.found.push(Pair {
            name,
            first,
            second,
        });
        true
    }

    /// As many positions as can be told apart at the end of a list, and a
    /// position that is used or is not.
    fn lists(&mut self, told: &Meaning) {
        let plain = form(told);
        let mut longer = [(); 4].map(|_| told.clone());
        longer[0].interfaces.push(Entry::Unused);
        longer[1].subsystems.push(Entry::Unused);
        longer[2].securities.push(Entry::Unused);
        longer[3].discoveries.push(Entry::Unused);
        for (longer, offset) in longer.iter().zip([87, 95, 103, 111]) {
            self.take(&subject_of(CONTROL_KIND, offset), "", &plain, &form(longer));
        }
        let mut less = [(); 4].map(|_| told.clone());
        less[0].interfaces[SPARE] = Entry::Unused;
        less[1].subsystems[SPARE] = Entry::Unused;
        less[2].securities[SPARE] = Entry::Unused;
        less[3].discoveries[SPARE] = Entry::Unused;
        for (less, kind) in less.iter().zip(&KINDS[3..]) {
            self.take(&format!("{kind}-used"), "", &plain, &form(less));
        }
    }

    fn fields(&mut self, random: &mut Random, plain: &[u8], seat: Seat) {
        for offset in 0..LONGEST_RECORD as u32 {
            let Some(width) = field_length(seat.kind, offset) else {
                continue;
            };
            let own = subject_of(seat.kind, offset);
            let at = seat.start + offset as usize;
            if own.ends_with(UNNAMED) {
                continue;
            }
            if own.ends_with("flags") {
                self.flags(plain, &own, at, 8 * width);
                continue;
            }
            for byte in 0..width {
                let how = match width {
                    1 => String::new(),
                    _ => format!("-byte-{byte}"),
                };
                self.byte(random, plain, &own, &how, at + byte);
            }
        }
    }

    /// The first other value of a byte that makes a pair and lets all else
    /// be what it was.
    fn byte(&mut self, random: &mut Random, plain: &[u8], own: &str, how: &str, at: usize) {
        let start = random.byte();
        if self.has(own, how) {
            return;
        }
        for step in 0..=u8::MAX {
            let mut table = plain.to_vec();
            table[at] = start.wrapping_add(step);
            put_checksum(&mut table);
            let alone =
                check(&table).is_done() && changes(&meaning(plain), &meaning(&table)).len() == 1;
            if alone && self.take(own, how, plain, &table) {
                return;
            }
        }
    }

    /// Every bit, and the values 1 and 2 of two bits that cannot be 3.
    fn flags(&mut self, plain: &[u8], own: &str, at: usize, bits: usize) {
        let turned = |these: &[usize]| {
            let mut table = plain.to_vec();
            for bit in these {
                table[at + bit / 8] ^= 1 << (bit % 8);
            }
            put_checksum(&mut table);
            table
        };
        for low in 0..bits {
            self.take(own, &format!("-bit-{low}"), plain, &turned(&[low]));
            let high = low + 1;
            let is_one = |bit: usize| plain[at + bit / 8] >> (bit % 8) & 1 == 1;
            let to_two = is_one(low) && high < bits && !is_one(high);
            if to_two && !check(&turned(&[high])).is_done() {
                let how = format!("-bits-{low}-{high}");
                self.take(own, &how, plain, &turned(&[low, high]));
            }
        }
    }

    fn objects(&mut self, plain: &[u8], seat: Seat) {
        for offset in 0..LONGEST_RECORD as u32 {
            let at = seat.start + offset as usize;
            if !has_object(seat.kind, offset) || u32_at(plain, at) == 0 {
                continue;
            }
            let own = subject_of(seat.kind, offset);
            let start = u32_at(plain, at) as usize;
            let old = &plain[start..start + usize::from(u16_at(plain, at + 4))];
            for (how, candidates) in others(old) {
                if self.has(&own, how) {
                    continue;
                }
                let mut tables = candidates.iter().map(|new| with_object(plain, at, new));
                tables.any(|table| self.take(&own, how, plain, &table));
            }
            let absent = with_object(plain, at, &[]);
            self.take(&own, "-absent", plain, &absent);
            let empty = with_object(plain, at, &[0]);
            if is_empty_text(&empty, seat, offset) {
                self.take(&own, "-empty", plain, &empty);
                self.take(&own, "-empty-or-absent", &empty, &absent);
            }
        }
    }

    /// A record may do without some of its heap records.
    fn absent_heap_records(&mut self, plain: &[u8], seat: Seat) {
        for site in sites(plain).expect("a form is good") {
            let is_own = (seat.start..seat.start + LONGEST_RECORD).contains(&site.at);
            if site.is_heap_record && is_own {
                let kind = KINDS[usize::from(plain[site.start])];
                let mut table = plain.to_vec();
                put_reference(&mut table, site.at, 0, 0);
                put_checksum(&mut table);
                self.take(&format!("{kind}-there"), "", plain, &table);
            }
        }
    }
}

fn subject_of(kind: u8, offset: u32) -> String {
    let word = KINDS[usize::from(kind)];
    format!("{word}-{offset}-{}", name(kind, offset))
}

/// Whether a named subject is the one of a line, which has no names.
fn is_part(subject: &str, named: &str) -> bool {
    let rest = named.strip_prefix(subject);
    rest.is_some_and(|rest| rest.is_empty() || rest.starts_with('-'))
}

/// A text is shown by its words, of which there may be none.
fn is_empty_text(table: &[u8], seat: Seat, offset: u32) -> bool {
    let (_, part) = Reading::of(table).object(seat.kind, seat.position, offset);
    part.is_some_and(|part| part.is_empty())
}

/// Ways in which an object can be another, and for each of them such objects.
/// The last byte of a text must stay, so the one before it is tried as well.
fn others(old: &[u8]) -> [(&'static str, Vec<Vec<u8>>); 4] {
    let last = old.len() - 1;
    let exchanged = |place: usize| {
        let another = move |byte| {
            let mut new = old.to_vec();
            new[place] = byte;
            new
        };
        (0..=u8::MAX).map(another)
    };
    let inserted = |place: usize| {
        let another = move |byte| [&old[..place], &[byte], &old[place..]].concat();
        (0..=u8::MAX).map(another)
    };
    let before = last.saturating_sub(1);
    let removed = |place: usize| [&old[..place], &old[place + 1..]].concat();
    [
        ("-first-byte", exchanged(0).collect()),
        (
            "-last-byte",
            exchanged(last).chain(exchanged(before)).collect(),
        ),
        (
            "-longer",
            inserted(old.len()).chain(inserted(last)).collect(),
        ),
        ("-shorter", vec![removed(last), removed(before)]),
    ]
}

/// The place of the record in each list that no other names.
const SPARE: usize = 4;

/// A meaning with everything in it: each object is there in some record, and
/// each flag that something hangs on is set in one and clear in another.
fn full(random: &mut Random) -> Meaning<'static> {
    let mut interfaces: Vec<Interface> = (0..5).map(|_| full_interface(random)).collect();
    lessen_interfaces(random, &mut interfaces);
    let mut subsystems: Vec<Subsystem> = (0..5).map(|_| full_subsystem(random)).collect();
    subsystems[1].availability = 1;
    subsystems[1].address = b"10.0.0.1".to_vec().into();
    subsystems[2].security = None;
    subsystems[2].extended = None;
    let securities = (0..5).map(|place| full_security(random, place % 2));
    let securities = securities.map(Entry::Used).collect();
    let discoveries = (0..5).map(|_| full_discovery(random));
    let discoveries = discoveries.map(Entry::Used).collect();
    Meaning {
        origin: Origin::read(&random.bytes(64)),
        driver_signature: Some(longer_object(random)),
        host: Host {
            primary: 0,
            ..random_host(random)
        },
        interfaces: interfaces.into_iter().map(Entry::Used).collect(),
        subsystems: subsystems.into_iter().map(Entry::Used).collect(),
        securities,
        discoveries,
    }
}

/// At least two bytes, so that one can be taken away.
fn longer_object(random: &mut Random) -> std::borrow::Cow<'static, [u8]> {
    let mut bytes = object(random);
    bytes.to_mut().push(random.byte());
    bytes
}

fn full_interface(random: &mut Random) -> Interface<'static> {
    let mut interface = random_interface(random);
    let client = Some(Client {
        iaid: longer_object(random),
        duid: longer_object(random),
    });
    let info = &mut interface.info;
    info.ip_origin = DHCP_ORIGIN;
    info.dhcp_server = Some(random.array());
    info.host_name = Some(text(random));
    info.addition = Some(Addition {
        autoconfigured: false,
        identity: Some(Identity { client }),
    });
    interface
}

/// One of version 2 that has no more to say than one of version 1, and one
/// of that version.
fn lessen_interfaces(random: &mut Random, interfaces: &mut [Interface]) {
    let info = &mut interfaces[1].info;
    info.ip_origin = 0;
    info.dhcp_server = None;
    let addition = info.addition.as_mut().expect("it is full");
    addition.identity = None;
    let info = &mut interfaces[2].info;
    info.addition = None;
    info.ip_origin = random_origin(random, &None);
}

/// Of an identifier of type 1 nvme-cli shows half.
fn full_subsystem(random: &mut Random) -> Subsystem<'static> {
    let mut subsystem = random_subsystem(random, &[1, 2, 3, 4], 2, 2);
    subsystem.availability = 0;
    subsystem.identifier_type = 1;
    subsystem.address = random.bytes(16).into();
    subsystem.service = b"4420\0".to_vec().into();
    subsystem.primary_interface = 1;
    subsystem.secondary_interfaces = Some(vec![3, 2].into());
    subsystem.extended = Some(Extended {
        queue_size_configured: random.flag(),
        controller: random.word() as u16,
        queue_size: random.word() as u16,
        root_path: Some(text(random)),
    });
    subsystem
}

/// The values of its two-bit fields, or the others.
fn full_security(random: &mut Random, value: u8) -> Security<'static> {
    let mut security = random_security(random);
    let mut list = || Some(longer_object(random));
    let policy = |origin, list: Option<_>| list.map(|list| Policy { origin, list });
    security.authentication = value;
    security.channel = value;
    security.algorithms = policy(1 + value, list());
    security.protocols = policy(2 - value, list());
    security.ciphers = list();
    security.groups = list();
    security.hashes = list();
    security.keypath = list();
    security
}

fn full_discovery(random: &mut Random) -> Discovery<'static> {
    Discovery {
        interface: 2,
        security: 3,
        address: Some(text(random)),
        name: Some(text(random)),
    }
}
