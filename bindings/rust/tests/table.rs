//! Tables read by name, and by whole records.

mod common;

use common::{bytes, image, layout, summed, DHCP, LAYOUTS, MACHINE, MIXED, SAMPLES, SMALLEST};
use nbft::table::{Hfi, Record, Ssns};
use nbft::{c_text, check, field, flags, object, object_place, offsets, places, record, records};
use nbft::{Builder, Counts, Entry, Host, Kind, Number, Refusal, Table};
use std::ops::Range;

/// A field's bytes in table order.
trait Told {
    fn told(self) -> Vec<u8>;
}

macro_rules! told_numbers {
    ($($number:ty)*) => { $(impl Told for $number { fn told(self) -> Vec<u8> { self.to_le_bytes().to_vec() } })* };
}
told_numbers!(u8 u16 u32);

impl<const N: usize> Told for [u8; N] {
    fn told(self) -> Vec<u8> {
        self.to_vec()
    }
}

type Fields = Vec<(u32, Vec<u8>)>;
type Objects<'a> = Vec<(u32, u8, Option<&'a [u8]>)>;

/// What the getters of a record say: of fields by their offsets, of objects by offset and place.
macro_rules! by_name {
    ($record:expr, $names:ident, [$($field:ident $offset:ident)*], [$($object:ident $place:ident)*]) => {{
        let fields: Fields = vec![$((offsets::$names::$offset, $record.$field().told())),*];
        let objects: Objects = vec![$((offsets::$names::$place, places::$names::$place, $record.$object())),*];
        (*$record.entry(), fields, objects)
    }};
}

fn subsystem<'a>(ssns: &Ssns<'a>) -> (Entry, Fields, Objects<'a>) {
    by_name!(ssns, ssns, [structure_id STRUCTURE_ID index INDEX flags FLAGS transport_type TRANSPORT_TYPE
        transport_flags TRANSPORT_FLAGS discovery_index DISCOVERY_INDEX port_id PORT_ID nsid NSID nid_type NID_TYPE
        nid NID security_index SECURITY_INDEX primary_hfi_index PRIMARY_HFI_INDEX],
        [address ADDRESS service SERVICE secondary_hfi_indexes SECONDARY_HFI_INDEXES nqn NQN])
}

fn hfi<'a>(hfi: &Hfi<'a>) -> Vec<(Entry, Fields, Objects<'a>)> {
    let mut all = vec![by_name!(hfi, hfi, [structure_id STRUCTURE_ID index INDEX flags FLAGS
        transport_type TRANSPORT_TYPE], [])];
    all.extend(hfi.info().map(|info| {
        by_name!(info, info, [structure_id STRUCTURE_ID version VERSION transport_type TRANSPORT_TYPE
            info_version INFO_VERSION hfi_index HFI_INDEX flags FLAGS pci_routing_id PCI_ROUTING_ID mac MAC vlan VLAN
            ip_origin IP_ORIGIN ip_address IP_ADDRESS prefix PREFIX gateway GATEWAY route_metric ROUTE_METRIC
            primary_dns PRIMARY_DNS secondary_dns SECONDARY_DNS dhcp_server DHCP_SERVER], [host_name HOST_NAME])
    }));
    all.extend(hfi.extended().map(|extended| {
        by_name!(extended, hfi_extended, [structure_id STRUCTURE_ID version VERSION hfi_index HFI_INDEX flags FLAGS],
            [iaid IAID duid DUID])
    }));
    all
}

/// All records of a table but the counts.
fn all_records<'a>(table: &Table<'a>) -> Vec<(Entry, Fields, Objects<'a>)> {
    let header = by_name!(table.header(), header, [oem_id OEM_ID oem_table_id OEM_TABLE_ID oem_revision OEM_REVISION
        creator_id CREATOR_ID creator_revision CREATOR_REVISION], [driver_signature DRIVER_SIGNATURE]);
    let host = by_name!(table.host(), host, [structure_id STRUCTURE_ID flags FLAGS id ID], [nqn NQN]);
    let mut all = vec![header, host];
    all.extend(table.hfis().flat_map(|record| hfi(&record)));
    all.extend(table.subsystems().map(|record| subsystem(&record)));
    all.extend(table.subsystems().filter_map(|ssns| ssns.extended()).map(|extended| {
        by_name!(extended, ssns_extended, [structure_id STRUCTURE_ID version VERSION ssns_index SSNS_INDEX flags FLAGS
            controller_id CONTROLLER_ID admin_queue_size ADMIN_QUEUE_SIZE], [root_path ROOT_PATH])
    }));
    all.extend(table.security_records().map(|security| {
        by_name!(security, security, [structure_id STRUCTURE_ID index INDEX flags FLAGS secret_type SECRET_TYPE],
            [algorithms ALGORITHMS protocols PROTOCOLS cipher_suites CIPHER_SUITES dh_groups DH_GROUPS
             hash_functions HASH_FUNCTIONS keypath KEYPATH])
    }));
    all.extend(table.discovery_records().map(|discovery| {
        by_name!(discovery, discovery, [structure_id STRUCTURE_ID flags FLAGS index INDEX hfi_index HFI_INDEX
            security_index SECURITY_INDEX], [address ADDRESS nqn NQN])
    }));
    all
}

/// Every field and object that the layouts have, as [`field`], [`object`] and [`object_place`] read it.
#[test]
fn names_say_what_reads_say() {
    let mut kinds = Vec::new();
    for bytes in SAMPLES {
        let table = Table::new(bytes).unwrap();
        for (entry, fields, objects) in all_records(&table) {
            let (kind, position) = (entry.kind(), entry.position());
            kinds.push(kind);
            let offsets: Vec<u32> = fields.iter().map(|(offset, _)| *offset).collect();
            assert_eq!(offsets, layout(kind).fields.iter().map(|(offset, _)| *offset).collect::<Vec<_>>(), "{kind:?}");
            for (offset, told) in fields {
                let read = field(bytes, kind, position, offset).unwrap();
                assert_eq!((read.bytes(), read.used()), (&told[..], entry.used()), "{kind:?} {position} {offset}");
            }
            assert_eq!(objects.iter().map(|(offset, ..)| *offset).collect::<Vec<_>>(), layout(kind).objects);
            for (offset, place, told) in objects {
                assert_eq!(object(bytes, kind, position, offset).unwrap(), told, "{kind:?} {position} {offset}");
                assert_eq!(object_place(bytes, kind, position, offset).unwrap(), entry.place(place));
                assert_eq!(entry.place(place).map(|place| &bytes[place]), told);
            }
        }
        let counts = table.counts();
        assert_eq!([counts.hfi, counts.ssns, counts.security, counts.discovery], common::counts(bytes));
    }
    assert!(LAYOUTS.iter().all(|layout| layout.kind == Kind::Control || kinds.contains(&layout.kind)));
}

/// The machine and a table with identities: each text once without its zero byte, once with it.
#[test]
fn a_text_comes_with_and_without_its_terminator() {
    let table = Table::new(MACHINE).unwrap();
    let (ssns, discovery) = (table.subsystem(1).unwrap(), table.discovery(1).unwrap());
    let (info, extended) = (table.info(1).unwrap(), ssns.extended().unwrap());
    let texts = [
        (Kind::Host, 0, offsets::host::NQN, table.host().nqn(), table.host().nqn_c()),
        (Kind::Ssns, 1, offsets::ssns::NQN, ssns.nqn(), ssns.nqn_c()),
        (Kind::Discovery, 1, offsets::discovery::ADDRESS, discovery.address(), discovery.address_c()),
        (Kind::Discovery, 1, offsets::discovery::NQN, discovery.nqn(), discovery.nqn_c()),
        (Kind::HfiInfo, 1, offsets::info::HOST_NAME, info.host_name(), info.host_name_c()),
        (Kind::SsnsExtended, 1, offsets::ssns_extended::ROOT_PATH, extended.root_path(), extended.root_path_c()),
    ];
    for (kind, position, offset, text, c) in texts {
        assert_eq!(c_text(MACHINE, kind, position, offset), Ok(c));
        assert_eq!(text, c.map(|c| c.to_bytes()));
        assert_eq!(text, Some(bytes(MACHINE, kind, position, offset)));
    }
    let mut empty = SMALLEST.to_vec();
    (empty[146], empty[150]) = (161, 1);
    let host = Table::new(&empty).unwrap().host();
    assert_eq!((host.nqn(), host.nqn_c()), (Some(&b""[..]), Some(c"")));
    assert_eq!(object_place(&empty, Kind::Host, 0, offsets::host::NQN), Ok(Some(161..161)));
}

/// Also of unused records and of owners without heap records, and in the order of kinds.
#[test]
fn entries_are_the_fields_and_objects_of_their_records() {
    for bytes in SAMPLES {
        let mut room = [Entry::EMPTY; Entry::MOST];
        let read = records(bytes, Kind::Header, 0, Kind::HfiExtended, &mut room).unwrap();
        assert_eq!(read.all, read.entries.len());
        let [h, s, c, d] = common::counts(bytes).map(usize::from);
        assert_eq!(read.all, 3 + 3 * h + 2 * s + c + d);
        let places: Vec<_> = read.entries.iter().map(|entry| (entry.kind() as u8, entry.position())).collect();
        assert!(places.windows(2).all(|pair| pair[0] < pair[1]));
        for entry in read.entries {
            let (kind, position) = (entry.kind(), entry.position());
            let alone = record(bytes, kind, position);
            assert_eq!(alone.ok(), entry.is_there().then_some(*entry), "{kind:?} {position}");
            let probe = field(bytes, kind, position, layout(kind).fields[0].0);
            assert_eq!(probe.is_ok(), entry.is_there());
            assert_eq!(probe.is_ok_and(|field| field.used()), entry.used());
            assert_eq!(&entry.bytes()[4..8], [0; 4]);
            if entry.is_there() {
                assert_eq!(entry.bytes()[8..136], image::<128>(bytes, kind, position), "{kind:?} {position}");
            } else {
                assert_eq!((entry.image().len(), &entry.bytes()[2..]), (0, &[0; 182][..]));
            }
            assert!((layout(kind).objects.len() as u8..=255).all(|place| entry.place(place).is_none()));
            assert!(entry.bytes()[136..].chunks(8).all(place_holds), "{kind:?} {position}");
        }
    }
}

/// Present, 1 or 0, and a zero byte; all of it zero where the object is absent.
fn place_holds(place: &[u8]) -> bool {
    (place[6] == 1 && place[7] == 0) || place == [0; 8]
}

/// From each record on, with room for one less than there are.
#[test]
fn records_are_read_from_any_position_on_as_far_as_there_is_room() {
    let mut room = [Entry::EMPTY; Entry::MOST];
    let whole = records(DHCP, Kind::Header, 0, Kind::HfiExtended, &mut room).unwrap().entries.to_vec();
    for (at, first) in whole.iter().enumerate() {
        let mut some = vec![Entry::EMPTY; whole.len() - at];
        let left = some.len() - 1;
        let read = records(DHCP, first.kind(), first.position(), Kind::HfiExtended, &mut some[..left]).unwrap();
        assert_eq!((read.entries, read.all), (&whole[at..][..left], left + 1));
        assert_eq!(some[left], Entry::EMPTY);
        let alone = records(DHCP, first.kind(), first.position(), Kind::Header, &mut []).unwrap();
        let same = whole[at..].iter().filter(|entry| entry.kind() == first.kind()).count();
        assert_eq!((alone.entries.len(), alone.all), (0, same));
    }
}

fn plain(number: Number) -> Refusal {
    Refusal { number, kind: Kind::Header, position: 0 }
}

#[test]
fn what_is_not_there_is_none() {
    let table = Table::new(MIXED).unwrap();
    let unused = table.subsystem(1).unwrap();
    assert!(!unused.used());
    assert_eq!((unused.nsid(), unused.nqn(), unused.nqn_c(), unused.service()), (0, None, None, None));
    assert!(unused.primary_hfi().is_none() && unused.extended().is_none() && unused.security().is_none());
    assert!(table.info(2).is_none() && table.hfi(2).unwrap().info().is_none());
    assert!(table.hfi(0).is_none() && table.hfi(4).is_none() && table.hfi(u16::MAX).is_none());
    assert!(table.subsystem(3).is_none() && table.security(2).is_none() && table.discovery(2).is_none());
    assert!(table.hfi_extended(1).is_none() && table.ssns_extended(2).is_none());
    assert_eq!(table.header().driver_signature(), None);
    let used: Vec<_> = table.hfis().map(|hfi| (hfi.position(), hfi.used(), hfi.info().is_some())).collect();
    assert_eq!(used, [(1, true, true), (2, false, false), (3, true, true)]);
    let smallest = Table::new(SMALLEST).unwrap();
    assert_eq!(smallest.counts(), Counts::default());
    assert_eq!((smallest.hfis().len(), smallest.subsystems().count()), (0, 0));
    assert!(smallest.hfi(1).is_none() && smallest.discovery_records().next().is_none());
}

#[test]
fn positions_are_those_of_the_lists() {
    let none = Err(plain(Number::NoSuchField));
    for (kind, position) in [(Kind::Host, 1), (Kind::Ssns, 0), (Kind::Ssns, 3), (Kind::SsnsExtended, 2)] {
        assert_eq!(record(MACHINE, kind, position), none, "{kind:?} {position}");
    }
    let mut room = [Entry::EMPTY; 2];
    for (kind, position) in [(Kind::Header, 1), (Kind::Ssns, 0), (Kind::Ssns, 3), (Kind::HfiInfo, 3)] {
        let refusal = records(MACHINE, kind, position, kind, &mut room).unwrap_err();
        assert_eq!(Err(refusal), none, "{kind:?} {position}");
    }
    assert_eq!(room, [Entry::EMPTY; 2]);
    // The second SSNS has no extended info: its position counts all the same.
    let read = records(MACHINE, Kind::SsnsExtended, 2, Kind::SsnsExtended, &mut room).unwrap();
    assert_eq!((read.all, read.entries[0].is_there(), read.entries[0].position()), (1, false, 2));
    let table = Table::new(MACHINE).unwrap();
    assert!(table.view(&read.entries[0]).is_none());
    assert_eq!(object_place(MACHINE, Kind::Host, 0, 19), Err(plain(Number::NoSuchField)));
    assert_eq!(object_place(MIXED, Kind::Header, 0, offsets::header::DRIVER_SIGNATURE), Ok(None));
}

/// With the answer of the check, and without a change of what is lent.
#[test]
fn a_refused_table_is_refused_by_every_read() {
    for place in 0..MACHINE.len() {
        let mut changed = MACHINE.to_vec();
        changed[place] ^= 0x41;
        let changed = if place % 2 == 0 { changed } else { summed(changed) };
        let Err(refusal) = check(&changed) else { continue };
        assert_eq!(Table::new(&changed), Err(refusal), "{place}");
        assert_eq!(record(&changed, Kind::Hfi, 9), Err(refusal), "{place}");
        assert_eq!(object_place(&changed, Kind::Hfi, 9, 1), Err(refusal), "{place}");
        let mut room = [Entry::EMPTY; 3];
        assert_eq!(records(&changed, Kind::Hfi, 9, Kind::Hfi, &mut room), Err(refusal), "{place}");
        assert_eq!(room, [Entry::EMPTY; 3]);
    }
    assert_eq!(Table::new(&[]), Err(plain(Number::TooFewBytes)));
}

/// More records than are read at a time.
#[test]
fn a_long_list_is_handed_out_whole_and_in_order() {
    let mut buffer = vec![0; 20_000];
    for count in [1, 7, 8, 9, 16, 17, 255] {
        let mut builder = Builder::new(&mut buffer);
        builder.begin(&[0; 26], Counts { security: count, ..Counts::default() }, b"").unwrap();
        builder.host(&Host { record: &[0; 32], nqn: b"n" }).unwrap();
        for position in 1..=count {
            let told = nbft::Security {
                record: &[0; 64],
                algorithms: b"",
                protocols: b"",
                ciphers: b"",
                groups: b"",
                hashes: b"",
                keypath: b"",
            };
            if position % 3 == 0 { builder.leave() } else { builder.security(&told) }.unwrap();
        }
        let table = Table::new(builder.finish().unwrap()).unwrap();
        let mut list = table.security_records();
        for position in 1..=u16::from(count) {
            assert_eq!(list.len(), usize::from(count) - usize::from(position) + 1);
            let record = list.next().unwrap();
            assert_eq!((record.position(), record.used()), (position, position % 3 != 0));
            assert_eq!(u16::from(record.index()), if record.used() { position } else { 0 });
        }
        assert!(list.next().is_none() && list.next().is_none());
    }
}

#[test]
fn records_name_each_other() {
    let table = Table::new(MACHINE).unwrap();
    let second = table.subsystem(2).unwrap();
    assert_eq!(second.primary_hfi().unwrap().position(), 2);
    assert_eq!(second.secondary_hfi_indexes(), Some(&[1][..]));
    assert_eq!(second.discovery().unwrap().hfi().unwrap().position(), 1);
    assert_eq!(table.subsystem(1).unwrap().security().unwrap().keypath().map(<[u8]>::len), Some(36));
    assert_eq!(table.discovery(1).unwrap().security().unwrap().position(), 1);
    assert_ne!(table.info(1).unwrap().flags() & flags::info::DHCP_OVERRIDE, 0);
    let identity = Table::new(DHCP).unwrap().hfi(1).unwrap().info().unwrap().extended().unwrap();
    assert_eq!(identity.flags() & flags::hfi_extended::CLIENT_ID, flags::hfi_extended::CLIENT_ID);
    assert_eq!(identity.iaid(), Some(&[0x00, 0xA1, 0xB2, 0x01][..]));
    assert!(format!("{second:?}").contains("nsid: 1,"));
}

/// An entry of another table may name a place that this one does not have; it is then absent.
#[test]
fn an_entry_is_seen_in_the_table_that_is_named() {
    let host = record(MACHINE, Kind::Host, 0).unwrap();
    let place: Range<usize> = host.place(places::host::NQN).unwrap();
    assert!(place.end > SMALLEST.len());
    let table = Table::new(SMALLEST).unwrap();
    let Some(Record::Host(host)) = table.view(&host) else { panic!("a host") };
    assert_eq!((host.nqn(), host.nqn_c()), (None, None));
}
