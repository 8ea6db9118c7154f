//! The tables that are timed.

use second::compact::sites;
use second::damage::put_checksum_within_length;
use second::discovery::Discovery;
use second::frame::{DRIVER_SIGNATURE_AT, GREATEST_LENGTH};
use second::identity::{Client, Identity};
use second::interface::{Addition, Interface};
use second::record::Record;
use second::secondary;
use second::security::{Policy, Security};
use second::text::Text;
use second::wire::{put_reference, u16_at, u32_at};
use second::{form, samples, Entry, Meaning};

/// Bytes of the machine's table without a driver signature.
const UNSIGNED: usize = 1_302;

/// The machine with each of its lists this many times over.
fn grown_meaning(times: usize) -> Meaning<'static> {
    let mut whole = samples::machine();
    for _ in 1..times {
        let again = samples::machine();
        whole.interfaces.extend(again.interfaces);
        whole.subsystems.extend(again.subsystems);
        whole.securities.extend(again.securities);
        whole.discoveries.extend(again.discoveries);
    }
    whole
}

/// Its table.
pub fn grown(times: usize) -> Vec<u8> {
    form(&grown_meaning(times))
}

/// The machine's table with a driver signature so long that it has this many bytes.
pub fn long_heap(bytes: usize) -> Vec<u8> {
    let mut whole: Meaning = samples::machine();
    whole.driver_signature = Some(vec![b'x'; bytes - UNSIGNED].into());
    let table = form(&whole);
    assert_eq!(table.len(), bytes);
    table
}

/// References of the host and of a subsystem's record to their NQNs.
const HOST_NAME: usize = 128 + 18;
const SUBSYSTEM_NAME: usize = 54;

/// The machine's table with its lists this many times over, and with one NQN
/// of this many letters, in one place, for the host and every subsystem.
pub fn shared_text(times: usize, letters: usize) -> Vec<u8> {
    let mut whole = grown_meaning(times);
    whole.host.name = Text::of(vec![b'n'; letters]);
    let (interfaces, subsystems) = (whole.interfaces.len(), whole.subsystems.len());
    let mut table = form(&whole);
    let first = 160 + 32 * interfaces + SUBSYSTEM_NAME;
    for name in (0..subsystems).map(|position| first + 128 * position) {
        table.copy_within(HOST_NAME..HOST_NAME + 6, name);
    }
    put_checksum_within_length(&mut table);
    table
}

/// The table with a driver signature that begins one byte later. That is the first object of a form, so that every heap
/// byte but the first, which nothing names any more, moves when the heap is closed up.
pub fn with_a_hole(table: &[u8]) -> Vec<u8> {
    let mut table = table.to_vec();
    let (start, length) = (u32_at(&table, DRIVER_SIGNATURE_AT), u16_at(&table, DRIVER_SIGNATURE_AT + 4));
    put_reference(&mut table, DRIVER_SIGNATURE_AT, start + 1, length - 1);
    put_checksum_within_length(&mut table);
    table
}

/// The table that we know to take the most looks at records: 255 HFIs, 255 SSNSs that each name all of these, and in
/// the room that is left 255 discovery records, which each name a security record, and 187 of those. So it takes as
/// many looks as its counts allow. There must be an info for each HFI, since it has the HFI's index, but infos may lie
/// over each other; and the SSNSs have one list.
pub fn most_looks() -> Vec<u8> {
    let table = secondary::most_looks();
    assert_eq!(table.len(), GREATEST_LENGTH);
    table
}

/// An HFI with both of its heap records, and the objects of these as short as they can be.
fn brief_interface() -> Interface<'static> {
    let mut interface = samples::dhcp().interfaces[0].used().expect("the sample uses it").clone();
    let client = Some(Client { iaid: b"x".into(), duid: b"x".into() });
    let identity = Some(Identity { client });
    interface.info.host_name = Some(Text::of(""));
    interface.info.addition = Some(Addition { autoconfigured: false, identity });
    interface
}

/// A security record with all of its six objects, as short as they can be.
fn brief_security() -> Security<'static> {
    let policy = || Some(Policy { origin: 1, list: b"x".into() });
    Security {
        authentication: 1,
        channel: 1,
        algorithms: policy(),
        protocols: policy(),
        ciphers: Some(b"x".into()),
        groups: Some(b"x".into()),
        hashes: Some(b"x".into()),
        keypath: Some(b"x".into()),
    }
}

/// As many HFIs as there can be, each with two heap records, as many security records, each with six objects, and
/// discovery records in the room that is left. Every object is the heap's last byte, which is zero, and so a text too:
/// each heap record is held to each site, and for nearly all of these the whole map is counted. We know of no table that
/// takes longer to close up.
pub fn most_sites() -> Vec<u8> {
    let mut whole = samples::host_only();
    whole.interfaces = vec![Entry::Used(brief_interface()); 255];
    whole.securities = vec![Entry::Used(brief_security()); 255];
    let brief = Discovery { interface: 1, security: 0, address: Some(Text::of("")), name: Some(Text::of("")) };
    let room = GREATEST_LENGTH - form(&whole).len();
    whole.discoveries = vec![Entry::Used(brief); room / (Discovery::SIZE + 2)];
    let mut table = form(&whole);
    let last = u32_at(&table, 36) + u32_at(&table, 40) - 1;
    for site in sites(&table).expect("a form is good") {
        if !site.is_heap_record {
            put_reference(&mut table, site.at, last, 1);
        }
    }
    put_checksum_within_length(&mut table);
    table
}
