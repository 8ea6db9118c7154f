//! `show [--all] FILE`: everything that a table says, by name. What is shown, and how, stands in the rows below:
//! columns of the tables, then lines for each record, of which those that say nothing are left out unless all are asked
//! for. It prints what `nbft_show` prints, as long as no value has a thousand characters.

use nbft::table::{Discovery, Header, Hfi, HfiExtended, Host, Info, Security, Ssns, SsnsExtended};
use nbft::{flags, Kind, Refusal, Table};
use std::net::{Ipv4Addr, Ipv6Addr};
use std::process::ExitCode;

// ---- values: what is printed, and whether it says something

struct Value {
    text: String,
    says_something: bool,
}

impl From<String> for Value {
    fn from(text: String) -> Value {
        let says_something = !text.is_empty();
        Value { text, says_something }
    }
}

fn nothing() -> Value {
    Value::from(String::new())
}

fn none() -> Value {
    Value { text: "none".into(), says_something: false }
}

fn number(number: impl Into<u64>) -> Value {
    let number = number.into();
    Value { text: number.to_string(), says_something: number != 0 }
}

fn index(index: u8) -> Value {
    if index == 0 {
        none()
    } else {
        number(index)
    }
}

fn if_there(told: Option<impl Into<u64>>) -> Value {
    told.map_or_else(none, number)
}

fn flag(bit: impl Into<u64>) -> Value {
    let set = bit.into() != 0;
    Value { text: if set { "yes" } else { "no" }.into(), says_something: set }
}

const PRIMARY: [&str; 3] = ["not indicated", "unselected", "selected"];
const AVAILABILITY: [&str; 3] = ["not indicated", "available", "unavailable"];
const WANTED: [&str; 3] = ["not supported", "not required", "required"];
const CHOSEN_BY: [&str; 3] = ["nobody", "driver", "administrator"];

fn choice(words: [&str; 3], bits: impl Into<u64>) -> Value {
    let bits = bits.into();
    Value { text: words[bits as usize].into(), says_something: bits != 0 }
}

fn hexes(bytes: &[u8], between: &str) -> String {
    bytes.iter().map(|byte| format!("{byte:02x}")).collect::<Vec<_>>().join(between)
}

/// What is no printable ASCII is shown by its number.
fn escaped(bytes: &[u8]) -> String {
    let character = |byte: &u8| match byte {
        b'\\' => r"\x5c".to_string(),
        b' '..=b'~' => char::from(*byte).to_string(),
        _ => format!("\\x{byte:02x}"),
    };
    bytes.iter().map(character).collect()
}

fn name(bytes: &[u8]) -> Value {
    escaped(bytes).into()
}

/// A text that is there and empty must not look like one that is absent.
fn text(object: Option<&[u8]>) -> Value {
    match object {
        Some(b"") => "\"\"".to_string().into(),
        _ => escaped(object.unwrap_or_default()).into(),
    }
}

fn bytes(object: Option<&[u8]>) -> Value {
    hexes(object.unwrap_or_default(), "").into()
}

fn transport(kind: u8) -> Value {
    if kind == 3 {
        "tcp".to_string().into()
    } else {
        number(kind)
    }
}

fn uuid(bytes: [u8; 16]) -> Value {
    [0..4, 4..6, 6..8, 8..10, 10..16].map(|part| hexes(&bytes[part], "")).join("-").into()
}

/// Segment, bus, device and function.
fn pci(id: u32) -> Value {
    format!("{:04x}:{:02x}:{:02x}.{:x}", id >> 16, id >> 8 & 0xFF, id >> 3 & 0x1F, id & 7).into()
}

/// As `inet_ntop` prints it, and a dotted quad where IPv4 is mapped.
fn address(bytes: [u8; 16]) -> Value {
    let address = Ipv6Addr::from(bytes);
    let [.., a, b, c, d] = bytes;
    let quad = Ipv4Addr::new(a, b, c, d);
    let text = match address.segments() {
        [0, 0, 0, 0, 0, 0xFFFF, ..] => quad.to_string(),
        [0, 0, 0, 0, 0, 0, seventh, _] if seventh != 0 => format!("::{quad}"),
        _ => address.to_string(),
    };
    Value { text, says_something: !address.is_unspecified() }
}

fn server(info: &Info) -> Value {
    if info.flags() & flags::info::DHCP_OVERRIDE == 0 {
        nothing()
    } else {
        address(info.dhcp_server())
    }
}

/// What is long enough for an address is one.
fn reached(object: Option<&[u8]>) -> Value {
    let object = object.unwrap_or_default();
    object.first_chunk().map_or_else(|| name(object), |bytes| address(*bytes))
}

/// Without the zero that stands last.
fn service(object: Option<&[u8]>) -> Value {
    let object = object.unwrap_or_default();
    name(object.strip_suffix(&[0]).unwrap_or(object))
}

fn nid_type(kind: u8) -> Value {
    match kind {
        1 => "eui64".to_string().into(),
        2 => "nguid".to_string().into(),
        3 => "uuid".to_string().into(),
        _ => number(kind),
    }
}

/// As its type has it; nothing where that has no name.
fn nid(ssns: &Ssns) -> Value {
    match ssns.nid_type() {
        1 => hexes(&ssns.nid()[..8], "").into(),
        2 => hexes(&ssns.nid(), "").into(),
        3 => uuid(ssns.nid()),
        _ => nothing(),
    }
}

fn queue_size(extended: Option<&SsnsExtended>) -> Value {
    let set = extended.filter(|extended| extended.flags() & flags::ssns_extended::QUEUE_SIZE_SET != 0);
    number(set.map_or(0, |extended| extended.admin_queue_size()))
}

/// The positions of a list, behind one that leads, where there is one, and without it.
fn positions(leads: Option<u8>, list: Option<&[u8]>) -> Value {
    let others = list.unwrap_or_default().iter().copied().filter(|position| Some(*position) != leads);
    leads.into_iter().chain(others).map(|position| position.to_string()).collect::<Vec<_>>().join(",").into()
}

// ---- records with those in the heap that belong to them

struct Interface<'a> {
    record: Hfi<'a>,
    info: Info<'a>,
    extended: Option<HfiExtended<'a>>,
}

struct Subsystem<'a> {
    record: Ssns<'a>,
    extended: Option<SsnsExtended<'a>>,
}

// ---- what is shown of each record

#[derive(Clone, Copy, PartialEq)]
enum Shown {
    Always,
    WithAll,
}
use Shown::{Always, WithAll};

type Columns<R> = [(&'static str, fn(&R) -> Value)];
type Lines<R> = [(&'static str, Shown, fn(&R) -> Value)];

const HEADER_COLUMNS: &Columns<Header> = &[
    ("OEM ID", |header| name(&header.oem_id())),
    ("OEM Table ID", |header| name(&header.oem_table_id())),
    ("OEM Revision", |header| number(header.oem_revision())),
    ("Creator ID", |header| name(&header.creator_id())),
    ("Creator Revision", |header| number(header.creator_revision())),
    ("Driver Signature", |header| text(header.driver_signature())),
];

const HOST_COLUMNS: &Columns<Host> = &[("Host ID", |host| uuid(host.id())), ("NQN", |host| text(host.nqn()))];

const HOST_LINES: &Lines<Host> = &[
    ("host ID configured", Always, |host| flag(host.flags() & flags::host::ID_CONFIGURED)),
    ("host NQN configured", Always, |host| flag(host.flags() & flags::host::NQN_CONFIGURED)),
    ("flags", WithAll, |host| number(host.flags())),
    ("primary administrative host", Always, |host| {
        choice(PRIMARY, (host.flags() & flags::host::PRIMARY_MASK) >> flags::host::PRIMARY_SHIFT)
    }),
];

const SUBSYSTEM_COLUMNS: &Columns<Subsystem> = &[
    ("Idx", |at| number(at.record.position())),
    ("NQN", |at| text(at.record.nqn())),
    ("Trsp", |at| transport(at.record.transport_type())),
    ("Address", |at| reached(at.record.address())),
    ("SvcId", |at| service(at.record.service())),
    ("HFIs", |at| positions(Some(at.record.primary_hfi_index()), at.record.secondary_hfi_indexes())),
];

const SUBSYSTEM_LINES: &Lines<Subsystem> = &[
    ("port ID", Always, |at| number(at.record.port_id())),
    ("NID type", Always, |at| nid_type(at.record.nid_type())),
    ("NID", Always, |at| nid(&at.record)),
    ("controller ID", Always, |at| number(at.extended.map_or(0, |extended| extended.controller_id()))),
    ("admin queue size", Always, |at| queue_size(at.extended.as_ref())),
    ("DHCP root path", Always, |at| text(at.extended.and_then(|extended| extended.root_path()))),
    ("header digest", Always, |at| flag(at.record.transport_flags() & flags::ssns_transport::HEADER_DIGEST)),
    ("data digest", Always, |at| flag(at.record.transport_flags() & flags::ssns_transport::DATA_DIGEST)),
    ("discovered", Always, |at| flag(at.record.flags() & flags::ssns::DISCOVERED)),
    ("flags", WithAll, |at| number(at.record.flags())),
    ("transport flags", WithAll, |at| number(at.record.transport_flags())),
    ("not bootable", Always, |at| flag(at.record.flags() & flags::ssns::NOT_BOOTABLE)),
    ("root path used", Always, |at| flag(at.record.flags() & flags::ssns::ROOT_PATH)),
    ("separate discovery", Always, |at| flag(at.record.flags() & flags::ssns::SEPARATE_DISCOVERY)),
    ("availability", Always, |at| {
        choice(AVAILABILITY, (at.record.flags() & flags::ssns::AVAILABILITY_MASK) >> flags::ssns::AVAILABILITY_SHIFT)
    }),
    ("transport flags used", Always, |at| flag(at.record.transport_flags() & flags::ssns_transport::IN_USE)),
    ("discovery", Always, |at| index(at.record.discovery_index())),
    ("security", Always, |at| index(at.record.security_index())),
    ("primary HFI", WithAll, |at| number(at.record.primary_hfi_index())),
    ("secondary HFIs", WithAll, |at| positions(None, at.record.secondary_hfi_indexes())),
    ("address bytes", WithAll, |at| bytes(at.record.address())),
    ("service bytes", WithAll, |at| bytes(at.record.service())),
    ("NSID", Always, |at| number(at.record.nsid())),
    ("NID type number", WithAll, |at| number(at.record.nid_type())),
    ("NID bytes", WithAll, |at| hexes(&at.record.nid(), "").into()),
    ("extended info flags", WithAll, |at| if_there(at.extended.map(|extended| extended.flags()))),
    ("extended controller ID", WithAll, |at| if_there(at.extended.map(|extended| extended.controller_id()))),
    ("extended admin queue size", WithAll, |at| if_there(at.extended.map(|extended| extended.admin_queue_size()))),
];

const HFI_COLUMNS: &Columns<Interface> = &[
    ("Idx", |at| number(at.record.position())),
    ("Trsp", |at| transport(at.record.transport_type())),
    ("PCI Addr", |at| pci(at.info.pci_routing_id())),
    ("MAC Addr", |at| hexes(&at.info.mac(), ":").into()),
    ("DHCP", |at| flag(at.info.flags() & flags::info::DHCP_OVERRIDE)),
    ("IP Addr", |at| address(at.info.ip_address())),
    ("Mask", |at| number(at.info.prefix())),
    ("Gateway", |at| address(at.info.gateway())),
    ("DNS", |at| address(at.info.primary_dns())),
];

const HFI_LINES: &Lines<Interface> = &[
    ("VLAN", Always, |at| number(at.info.vlan())),
    ("IP origin", Always, |at| number(at.info.ip_origin())),
    ("route metric", Always, |at| number(at.info.route_metric())),
    ("secondary DNS", Always, |at| address(at.info.secondary_dns())),
    ("DHCP server", Always, |at| server(&at.info)),
    ("host name", Always, |at| text(at.info.host_name())),
    ("default route", Always, |at| flag(at.info.flags() & flags::info::GLOBAL_ROUTE)),
    ("info version", WithAll, |at| number(at.info.info_version())),
    ("flags", WithAll, |at| number(at.info.flags())),
    ("autoconfigured", Always, |at| flag(at.info.flags() & flags::info::AUTOCONFIGURED)),
    ("record flags", WithAll, |at| number(at.record.flags())),
    ("extended info flags", WithAll, |at| if_there(at.extended.map(|extended| extended.flags()))),
    ("IAID", Always, |at| bytes(at.extended.and_then(|extended| extended.iaid()))),
    ("DUID", Always, |at| bytes(at.extended.and_then(|extended| extended.duid()))),
];

const DISCOVERY_COLUMNS: &Columns<Discovery> = &[
    ("Idx", |discovery| number(discovery.position())),
    ("URI", |discovery| text(discovery.address())),
    ("NQN", |discovery| text(discovery.nqn())),
];

const DISCOVERY_LINES: &Lines<Discovery> = &[
    ("security", Always, |discovery| index(discovery.security_index())),
    ("HFI", Always, |discovery| number(discovery.hfi_index())),
    ("flags", WithAll, |discovery| number(discovery.flags())),
];

const SECURITY_COLUMNS: &Columns<Security> = &[
    ("Idx", |security| number(security.position())),
    ("Flags", |security| number(security.flags())),
    ("Channels", |security| bytes(security.algorithms())),
    ("Auths", |security| bytes(security.protocols())),
    ("Ciphers", |security| bytes(security.cipher_suites())),
    ("Groups", |security| bytes(security.dh_groups())),
    ("Hashes", |security| bytes(security.hash_functions())),
    ("Keypath", |security| text(security.keypath())),
];

const SECURITY_LINES: &Lines<Security> = &[
    ("secret type", Always, |security| number(security.secret_type())),
    ("authentication", Always, |security| {
        choice(WANTED, (security.flags() & flags::security::IN_BAND_MASK) >> flags::security::IN_BAND_SHIFT)
    }),
    ("secure channel", Always, |security| {
        choice(WANTED, (security.flags() & flags::security::CHANNEL_MASK) >> flags::security::CHANNEL_SHIFT)
    }),
    ("protocols chosen by", Always, |security| {
        choice(CHOSEN_BY, (security.flags() & flags::security::PROTOCOLS_MASK) >> flags::security::PROTOCOLS_SHIFT)
    }),
    ("algorithms chosen by", Always, |security| {
        choice(CHOSEN_BY, (security.flags() & flags::security::ALGORITHMS_MASK) >> flags::security::ALGORITHMS_SHIFT)
    }),
];

// ---- how it is printed

/// The records of one part, each with its position and none where it is unused.
type Records<R> = Vec<(u16, Option<R>)>;

/// A part of the table: what stands above its records and above the lines of one, and the rows.
struct Part<'r, R> {
    heading: &'static str,
    name: &'static str,
    columns: &'r Columns<R>,
    lines: &'r Lines<R>,
    records: Records<R>,
}

/// What a part prints, whatever its records are.
trait Printed {
    fn table(&self) -> String;
    fn lines(&self, all: bool) -> String;
}

impl<R> Printed for Part<'_, R> {
    /// Columns are as wide as the widest of their title and their cells. A heading above no records would say nothing.
    fn table(&self) -> String {
        if self.records.is_empty() {
            return String::new();
        }
        let cells = |record: &R| self.columns.iter().map(|(_, value)| value(record).text).collect::<Vec<_>>();
        let rows: Vec<_> = self.records.iter().map(|(at, record)| (at, record.as_ref().map(cells))).collect();
        let titles: Vec<_> = self.columns.iter().map(|(title, _)| title.to_string()).collect();
        let widest = |at: usize, title: &String| {
            let used = rows.iter().filter_map(|(_, cells)| Some(cells.as_ref()?[at].len()));
            used.chain([title.len()]).max().unwrap_or_default()
        };
        let widths: Vec<usize> = titles.iter().enumerate().map(|(at, title)| widest(at, title)).collect();
        let rules = widths.iter().map(|width| "-".repeat(*width)).collect();
        let mut text = format!("{}:\n\n{}{}", self.heading, line(titles, &widths, "|"), line(rules, &widths, "+"));
        for (position, cells) in rows {
            text += &match cells {
                Some(cells) => line(cells, &widths, "|"),
                None => format!("{position:<width$}|unused\n", width = widths[0]),
            };
        }
        text
    }

    /// The name of a record stands above its first line.
    fn lines(&self, all: bool) -> String {
        let used = self.records.iter().filter_map(|(position, record)| Some((position, record.as_ref()?)));
        let block = |(position, record): (&u16, &R)| {
            let said = self.lines.iter().filter_map(|(title, shown, value)| {
                let value = value(record);
                let counts = all || (*shown == Always && value.says_something);
                counts.then(|| format!("  {title}: {}\n", value.text))
            });
            let said: String = said.collect();
            let place = if *position == 0 { String::new() } else { format!(" {position}") };
            if said.is_empty() {
                said
            } else {
                format!("\n{}{place}:\n{said}", self.name)
            }
        };
        used.map(block).collect()
    }
}

fn line(cells: Vec<String>, widths: &[usize], between: &str) -> String {
    let padded = cells.iter().zip(widths).map(|(cell, width)| format!("{cell:<width$}"));
    padded.collect::<Vec<_>>().join(between) + "\n"
}

fn interfaces<'a>(table: &Table<'a>) -> Records<Interface<'a>> {
    let whole = |record: Hfi<'a>| Some(Interface { record, info: record.info()?, extended: record.extended() });
    table.hfis().map(|record| (record.position(), whole(record))).collect()
}

fn subsystems<'a>(table: &Table<'a>) -> Records<Subsystem<'a>> {
    let whole = |record: Ssns<'a>| record.used().then(|| Subsystem { record, extended: record.extended() });
    table.subsystems().map(|record| (record.position(), whole(record))).collect()
}

fn shown(table: Table<'static>, all: bool) -> String {
    let discoveries = table.discovery_records().map(|record| (record.position(), record.used().then_some(record)));
    let securities = table.security_records().map(|record| (record.position(), record.used().then_some(record)));
    let (header, host) = (vec![(0, Some(table.header()))], vec![(0, Some(table.host()))]);
    let (subsystems, interfaces) = (subsystems(&table), interfaces(&table));
    let (discoveries, securities) = (discoveries.collect(), securities.collect());
    let parts: [&dyn Printed; 6] = [
        &part("NBFT Header", "header", HEADER_COLUMNS, &[], header),
        &part("NBFT Host", "host", HOST_COLUMNS, HOST_LINES, host),
        &part("NBFT Subsystems", "subsystem", SUBSYSTEM_COLUMNS, SUBSYSTEM_LINES, subsystems),
        &part("NBFT HFIs", "hfi", HFI_COLUMNS, HFI_LINES, interfaces),
        &part("NBFT Discovery Controllers", "discovery", DISCOVERY_COLUMNS, DISCOVERY_LINES, discoveries),
        &part("NBFT Security", "security", SECURITY_COLUMNS, SECURITY_LINES, securities),
    ];
    let tables: Vec<_> = parts.iter().map(|part| part.table()).filter(|table| !table.is_empty()).collect();
    let lines: String = parts.iter().map(|part| part.lines(all)).collect();
    tables.join("\n") + &lines
}

fn part<'r, R>(
    heading: &'static str,
    name: &'static str,
    columns: &'r Columns<R>,
    lines: &'r Lines<R>,
    records: Records<R>,
) -> Part<'r, R> {
    Part { heading, name, columns, lines, records }
}

/// Number, kind and position for programs, and below them the words. A fault outside records is the header's.
fn refused(refusal: Refusal) -> String {
    let Refusal { number, kind, position } = refusal;
    let place = if kind == Kind::Header { ": header" } else { "" };
    format!("{} {} {position}\n{refusal}{place}\n", number as u8, kind as u8)
}

fn main() -> ExitCode {
    let words: Vec<_> = std::env::args_os().skip(1).collect();
    let all = words.first().is_some_and(|word| word == "--all");
    let bytes = match &words[usize::from(all)..] {
        [name] => std::fs::read(name).unwrap_or_default(),
        _ => Vec::new(),
    };
    if bytes.is_empty() {
        eprintln!("usage: show [--all] FILE, which has bytes to read");
        return ExitCode::from(2);
    }
    // It is read until the program ends, so that the rows above need no lifetimes.
    match Table::new(bytes.leak()) {
        Ok(table) => print!("{}", shown(table, all)),
        Err(refusal) => {
            print!("{}", refused(refusal));
            return ExitCode::from(1);
        }
    }
    ExitCode::SUCCESS
}
