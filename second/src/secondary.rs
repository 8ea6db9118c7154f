//! Tables about the secondary lists of subsystems: ones that are taken, ones
//! that are refused for them or for something else, and those whose check
//! takes the most looks.

use crate::answer::{number, Answer};
use crate::discovery::Discovery;
use crate::form::{form, put_checksum, record_start, records_end, seal, HOST_START};
use crate::interface::{Info, Interface};
use crate::meaning::{Entry, Meaning};
use crate::record::Record;
use crate::samples::{host_only, plain_interface, plain_security, plain_subsystem, Sample};
use crate::subsystem::Subsystem;
use crate::text::Text;
use crate::wire::{put, put_reference};

/// Reference fields of a subsystem's record.
const ADDRESS: usize = 10;
const SERVICE: usize = 16;
const SECONDARY: usize = 48;
const NAME: usize = 54;
/// Its indexes that are in no list.
const DISCOVERY_INDEX: usize = 8;
const PRIMARY_INDEX: usize = 46;

/// One subsystem with this secondary list, whose primary interface is the
/// first, behind interfaces that are used or not.
pub fn listing(used: &[bool], list: &[u8]) -> Meaning<'static> {
    let interface = |used: &bool| match used {
        true => Entry::Used(plain_interface()),
        false => Entry::Unused,
    };
    let subsystem = Subsystem {
        secondary_interfaces: (!list.is_empty()).then(|| list.to_vec().into()),
        ..plain_subsystem()
    };
    Meaning {
        interfaces: used.iter().map(interface).collect(),
        subsystems: vec![Entry::Used(subsystem)],
        ..host_only()
    }
}

/// The interfaces of most tables here: the third position is not used.
const TWO_OF_THREE: [bool; 3] = [true, true, false];
const BOTH: [bool; 2] = [true, true];

fn sample(name: &str, table: Vec<u8>, number: u8) -> Sample {
    let answer = match number {
        number::DONE => Answer::DONE,
        _ => Answer::at(number, Subsystem::ID, 1),
    };
    Sample {
        name: format!("secondary-{name}"),
        table,
        answer,
    }
}

/// What a list alone decides, or an index in it.
fn plain_lists() -> Vec<Sample> {
    use number::{DONE, INDEX, SECONDARY};
    let lists: [(&str, &[bool], &[u8], u8); 20] = [
        ("none", &TWO_OF_THREE, &[], DONE),
        ("one", &TWO_OF_THREE, &[2], DONE),
        ("as-many-as-positions", &BOTH, &[2, 1], DONE),
        ("the-primary-too", &TWO_OF_THREE, &[2, 1], DONE),
        ("the-primary-alone", &TWO_OF_THREE, &[1], DONE),
        // As many as there are positions, but more than are used.
        ("more-than-used", &TWO_OF_THREE, &[1, 2, 3], INDEX),
        ("more-than-used-and-zero", &TWO_OF_THREE, &[0, 2, 1], INDEX),
        ("unused", &TWO_OF_THREE, &[3], INDEX),
        ("past-the-list", &TWO_OF_THREE, &[2, 4], INDEX),
        ("one-too-many", &BOTH, &[1, 2, 3], SECONDARY),
        ("one-too-many-and-twice", &BOTH, &[1, 2, 1], SECONDARY),
        ("twice-at-once", &TWO_OF_THREE, &[1, 1], SECONDARY),
        ("first-twice", &TWO_OF_THREE, &[1, 1, 2], SECONDARY),
        ("last-twice", &TWO_OF_THREE, &[1, 2, 2], SECONDARY),
        ("last-as-first", &TWO_OF_THREE, &[2, 1, 2], SECONDARY),
        ("zero-twice", &TWO_OF_THREE, &[0, 0], SECONDARY),
        ("unused-twice", &TWO_OF_THREE, &[3, 3], SECONDARY),
        ("255-twice", &TWO_OF_THREE, &[255, 1, 255], SECONDARY),
        ("no-index-and-twice", &TWO_OF_THREE, &[9, 1, 1], SECONDARY),
        ("of-no-interfaces", &[], &[1], SECONDARY),
    ];
    let sample = |(name, used, list, number): (&str, &[bool], &[u8], u8)| {
        sample(name, form(&listing(used, list)), number)
    };
    lists.map(sample).into()
}

/// A name, a list that is wrong, another fault of its record, by an offset and
/// the bytes to put there, and the number that counts.
type JointFault<'a> = (&'a str, &'a [u8], usize, &'a [u8], u8);

/// A list that is wrong beside another fault of its record.
fn joint_faults() -> Vec<Sample> {
    use number::{RECORD, REFERENCE, SECONDARY as LIST};
    let [twice, too_long] = [&[1, 1][..], &[1, 2, 3, 4]];
    let faults: [JointFault; 9] = [
        ("behind-type", twice, 5, &[4], RECORD),
        ("behind-service", twice, SERVICE, &[0; 6], REFERENCE),
        ("behind-its-offset", twice, SECONDARY, &[0; 4], REFERENCE),
        (
            "behind-its-length",
            too_long,
            SECONDARY + 4,
            &[0; 2],
            REFERENCE,
        ),
        ("before-name", twice, NAME, &[0; 6], LIST),
        ("before-name-too-long", too_long, NAME, &[0; 4], LIST),
        ("before-unended-name", twice, NAME + 4, &[1, 0], LIST),
        ("before-discovery", twice, DISCOVERY_INDEX, &[1], LIST),
        ("before-primary", too_long, PRIMARY_INDEX, &[3], LIST),
    ];
    let sample = |(name, list, offset, bytes, number): JointFault| {
        let meaning = listing(&TWO_OF_THREE, list);
        let start = record_start::<Subsystem>(meaning.counts(), 1);
        let mut table = form(&meaning);
        put(&mut table, start + offset, bytes);
        put_checksum(&mut table);
        sample(name, table, number)
    };
    faults.map(sample).into()
}

/// A short table that is refused for its list.
pub fn named_twice() -> Sample {
    let table = form(&listing(&[true, false], &[1, 1]));
    sample("named-twice", table, number::SECONDARY)
}

/// One index as often as a long table has room for.
pub fn many_times_one(times: usize) -> Sample {
    let table = form(&listing(&BOTH, &vec![1; times]));
    let name = format!("{times}-times-one");
    sample(&name, table, number::SECONDARY)
}

/// Every sort of list, with the answer that its table must get.
pub fn lists() -> Vec<Sample> {
    let mut all = plain_lists();
    all.extend(joint_faults());
    all.extend([named_twice(), many_times_one(60_000)]);
    all
}

/// Every index there can be: each subsystem names a discovery record, a
/// security record and all interfaces, and each discovery record names a
/// security record. So a check looks as often as it can with these counts,
/// none of which may be 0.
pub fn all_indexes(counts: [u8; 4]) -> Meaning<'static> {
    let [interfaces, subsystems, securities, discoveries] = counts.map(usize::from);
    let every: Vec<u8> = (1..=counts[0]).collect();
    let empty = || Text::of("");
    let subsystem = Subsystem {
        discovery: counts[3],
        security: Some(counts[2]),
        primary_interface: counts[0],
        secondary_interfaces: Some(every.into()),
        address: b"\0".into(),
        service: b"\0".into(),
        name: empty(),
        ..plain_subsystem()
    };
    let discovery = Discovery {
        interface: counts[0],
        security: counts[2],
        address: None,
        name: None,
    };
    let mut meaning = host_only();
    meaning.driver_signature = None;
    meaning.host.name = empty();
    Meaning {
        interfaces: vec![Entry::Used(plain_interface()); interfaces],
        subsystems: vec![Entry::Used(subsystem); subsystems],
        securities: vec![Entry::Used(plain_security()); securities],
        discoveries: vec![Entry::Used(discovery); discoveries],
        ..meaning
    }
}

/// As many records as there is room for where all objects share their bytes:
/// the table has 65,536. We know of none that takes more looks.
pub const MOST: [u8; 4] = [255, 255, 187, 255];

/// So far apart are infos that lie over each other. What an info must say
/// stands in its first seven bytes, which are parts of addresses in the infos
/// before it; and its host name is absent, since the reference, at 104, lies
/// behind such bytes of another.
const APART: usize = 16;

/// One info for each position of a full list, as near to each other as they
/// can be.
fn overlapping_infos() -> Vec<u8> {
    let mut infos = vec![0; 254 * APART + Info::SIZE];
    for position in 1..=255 {
        let info = &mut infos[usize::from(position - 1) * APART..];
        Info::stamp(info, position);
        info[Info::VERSION_AT] = 1;
    }
    infos
}

/// A table with the most looks: 67,253. Its heap has the infos, one secondary
/// list for all subsystems, and a zero byte, which is every text and every
/// other object.
pub fn most_looks() -> Vec<u8> {
    let mut table = form(&all_indexes(MOST));
    let infos = records_end(MOST);
    table.truncate(infos);
    table.extend(overlapping_infos());
    let list = table.len() as u32;
    table.extend(1..=255);
    let last = table.len() as u32;
    table.push(0);
    put_reference(&mut table, HOST_START + 18, last, 1);
    for position in 1..=255 {
        let info = infos + usize::from(position - 1) * APART;
        let owner = record_start::<Interface>(MOST, position);
        put_reference(&mut table, owner + 16, info as u32, Info::SIZE as u16);
        let subsystem = record_start::<Subsystem>(MOST, position);
        for field in [ADDRESS, SERVICE, NAME] {
            put_reference(&mut table, subsystem + field, last, 1);
        }
        put_reference(&mut table, subsystem + SECONDARY, list, 255);
    }
    let heap_length = table.len() - infos;
    seal(&mut table, heap_length, 0);
    table
}
