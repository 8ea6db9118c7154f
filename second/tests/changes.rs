//! What differs between two tables, line by line.

use second::changes::{changes, report, Line};
use second::generate::random_meaning;
use second::identity::{Client, Identity};
use second::interface::{Addition, Info};
use second::layout::{lay_out_freely, with_tail, Style};
use second::random::Random;
use second::samples::{crowded, host_only, known, machine, small};
use second::security::Policy;
use second::subsystem::{Extended, Subsystem};
use second::{check, form, Entry, Meaning, Text};

/// The known sample of this number.
fn sample(number: u8) -> Vec<u8> {
    let name = format!("known-{number}");
    let found = known().into_iter().find(|sample| sample.name == name);
    found.expect("there is such a sample").table
}

/// What is printed of the forms of two good meanings.
fn printed(one: &Meaning, other: &Meaning) -> String {
    let tables = [one, other].map(form);
    assert!(tables.iter().all(|table| check(table).is_done()));
    report(&tables[0], &tables[1])
}

/// What is printed of a meaning and the same with something changed.
fn printed_change<'a>(one: &Meaning<'a>, change: impl Fn(&mut Meaning<'a>)) -> String {
    let mut other = one.clone();
    change(&mut other);
    printed(one, &other)
}

fn used<R>(entry: &mut Entry<R>) -> &mut R {
    match entry {
        Entry::Used(record) => record,
        Entry::Unused => panic!("an unused record cannot be changed"),
    }
}

fn first_info<'m, 'a>(meaning: &'m mut Meaning<'a>) -> &'m mut Info<'a> {
    &mut used(&mut meaning.interfaces[0]).info
}

fn first_subsystem<'m, 'a>(meaning: &'m mut Meaning<'a>) -> &'m mut Subsystem<'a> {
    used(&mut meaning.subsystems[0])
}

#[test]
fn known_samples_are_told_apart_by_the_host_name_alone() {
    assert_eq!(report(&sample(1), &sample(7)), "2 0 18 2 1 0\n");
    assert_eq!(report(&sample(7), &sample(1)), "2 0 18 1 2 0\n");
    for same in [1, 2, 9] {
        assert_eq!(report(&sample(1), &sample(same)), "");
    }
}

#[test]
fn one_meaning_in_two_layouts_prints_nothing() {
    let mut random = Random::seeded(31);
    for _ in 0..300 {
        let told = random_meaning(&mut random);
        let [one, other] =
            [Style::SEPARATE, Style::SHARED].map(|style| lay_out_freely(&mut random, &told, style));
        assert_ne!(one, other);
        assert_eq!(report(&one, &with_tail(&mut random, other)), "");
        assert_eq!(report(&form(&told), &one), "");
    }
}

/// Up to four bytes are a number with its lowest byte first, more are bytes.
#[test]
fn fields_of_the_header_have_a_line_each() {
    let lines = printed_change(&host_only(), |told| {
        told.origin.oem = *b"\x00\x0A\xFFabc";
        told.origin.oem_table = *b"table id";
        told.origin.oem_revision = 0x8000_0000;
        told.origin.creator = *b"\x01\x02\x00\x00";
        told.origin.creator_revision = 0x0102_0305;
    });
    let expected = [
        "0 0 10 4f454d494420 000aff616263",
        "0 0 16 5441424c45204944 7461626c65206964",
        "0 0 24 1 2147483648",
        "0 0 28 1162559821 513",
        "0 0 32 16909060 16909061",
    ];
    assert_eq!(lines.lines().collect::<Vec<_>>(), expected);
}

/// The first byte that differs, or where the shorter one ends.
#[test]
fn objects_are_told_by_their_lengths_and_first_difference() {
    let signature = |object: &'static [u8]| {
        printed_change(&host_only(), |told| {
            told.driver_signature = (!object.is_empty()).then(|| object.into())
        })
    };
    assert_eq!(signature(b"sig"), "");
    assert_eq!(signature(b"Sig"), "0 0 44 3 3 0\n");
    assert_eq!(signature(b"siG"), "0 0 44 3 3 2\n");
    assert_eq!(signature(b"sIgn"), "0 0 44 3 4 1\n");
    assert_eq!(signature(b"sig\0"), "0 0 44 3 4 3\n");
    assert_eq!(signature(b"si"), "0 0 44 3 2 2\n");
    assert_eq!(signature(b""), "0 0 44 3 0 0\n");
}

/// The zero byte that ends a text counts, and can be what differs.
#[test]
fn a_text_differs_from_its_beginning_where_it_ends() {
    let host =
        |name: &'static str| printed_change(&host_only(), |told| told.host.name = Text::of(name));
    assert_eq!(host("nqn.h"), "");
    assert_eq!(host("nqn.host"), "2 0 18 6 9 5\n");
    assert_eq!(host("nqn"), "2 0 18 6 4 3\n");
    let mut plain = small(3, 1);
    first_info(&mut plain).host_name = None;
    let info = |name: &'static str| {
        printed_change(&plain, |told| {
            first_info(told).host_name = Some(Text::of(name))
        })
    };
    assert_eq!(info("name"), "7 1 104 0 5 0\n");
    // One that is there and empty has its zero byte, one that is absent none.
    assert_eq!(info(""), "7 1 104 0 1 0\n");
}

#[test]
fn a_position_that_one_side_lacks_is_told_whether_it_is_used_or_not() {
    let expected = "1 0 87 2 0\n1 0 95 1 0\n1 0 103 1 0\n1 0 111 2 0\n\
        3 1 only 1\n3 2 only 1\n4 1 only 1\n5 1 only 1\n6 1 only 1\n6 2 only 1\n";
    assert_eq!(printed(&small(4, 1), &host_only()), expected);
    let swapped = "1 0 87 0 2\n1 0 95 0 1\n1 0 103 0 1\n1 0 111 0 2\n\
        3 1 only 2\n3 2 only 2\n4 1 only 2\n5 1 only 2\n6 1 only 2\n6 2 only 2\n";
    assert_eq!(printed(&host_only(), &small(4, 1)), swapped);
    let more = printed_change(&small(5, 1), |told| told.securities.push(Entry::Unused));
    assert_eq!(more, "1 0 103 1 2\n5 2 only 2\n");
}

#[test]
fn a_position_that_one_side_uses_has_no_other_line() {
    let kinds = [(3, 3), (4, 4), (5, 5), (6, 6), (7, 3), (10, 3)];
    for (kind, list) in kinds {
        let one = small(kind, 1);
        let lines = printed_change(&one, |told| match list {
            3 => told.interfaces[0] = Entry::Unused,
            4 => told.subsystems[0] = Entry::Unused,
            5 => told.securities[0] = Entry::Unused,
            _ => told.discoveries[0] = Entry::Unused,
        });
        assert_eq!(lines, format!("{list} 1 used 1\n"));
    }
    // At position 2 instead of 1, behind one that is unused.
    let moved = printed(&small(5, 1), &small(5, 2));
    assert_eq!(moved, "1 0 103 1 2\n5 1 used 1\n5 2 only 2\n");
}

#[test]
fn what_both_leave_unused_is_not_told() {
    assert_eq!(printed(&crowded(3), &crowded(3)), "");
    assert_eq!(printed(&crowded(3), &crowded(4)), "2 0 18 4 5 3\n");
    let unused = |told: &mut Meaning| told.discoveries.push(Entry::Unused);
    let mut one = small(6, 2);
    unused(&mut one);
    assert_eq!(printed_change(&one, unused), "1 0 111 3 4\n6 4 only 2\n");
}

/// The flag that an extended info hangs on has its line first.
#[test]
fn an_extended_info_of_one_side_stands_where_its_reference_does() {
    let without = |told: &mut Meaning| first_subsystem(told).extended = None;
    let one = small(4, 1);
    assert_eq!(printed_change(&one, without), "4 1 3 221 205\n9 1 only 1\n");
    let mut other = one.clone();
    without(&mut other);
    assert_eq!(printed(&other, &one), "4 1 3 205 221\n9 1 only 2\n");
    let behind = printed_change(&small(4, 2), |told| {
        used(&mut told.subsystems[1]).extended = None
    });
    assert_eq!(behind, "4 2 3 221 205\n9 2 only 1\n");
}

#[test]
fn a_clients_record_of_one_side_stands_where_its_reference_does() {
    let one = small(10, 1);
    let absent = printed_change(&one, |told| {
        let addition = first_info(told).addition.as_mut();
        addition.expect("it has version 2").identity = None;
    });
    assert_eq!(absent, "10 1 only 1\n");
    let version_1 = printed_change(&one, |told| {
        first_info(told).addition = None;
        first_info(told).host_name = None;
    });
    assert_eq!(version_1, "7 1 3 2 1\n7 1 104 5 0 0\n10 1 only 1\n");
    // Neither version 1 nor version 2 without one has anything at 110.
    let mut plain = small(3, 1);
    first_info(&mut plain).dhcp_server = None;
    let version_2 = printed_change(&plain, |told| {
        let (autoconfigured, identity) = (false, None);
        first_info(told).addition = Some(Addition {
            autoconfigured,
            identity,
        });
    });
    assert_eq!(version_2, "7 1 3 1 2\n");
}

/// Without the flag that brings them both objects are absent.
#[test]
fn a_client_of_one_side_is_told_by_its_flag_and_objects() {
    let lines = printed_change(&small(10, 2), |told| {
        let addition = used(&mut told.interfaces[1]).info.addition.as_mut();
        let identity = Some(Identity { client: None });
        addition.expect("it has version 2").identity = identity;
    });
    assert_eq!(lines, "10 2 4 3 1\n10 2 8 4 0 0\n10 2 14 13 0 0\n");
    let other = printed_change(&small(10, 1), |told| {
        let addition = first_info(told).addition.as_mut();
        let (iaid, duid) = (b"\0\x06\x1A\xF0".into(), b"\x01\x01\x05".into());
        let client = Some(Client { iaid, duid });
        let identity = Some(Identity { client });
        addition.expect("it has version 2").identity = identity;
    });
    assert_eq!(other, "10 1 14 13 3 2\n");
}

/// A field that is ignored is zero, whatever stands in the table.
#[test]
fn ignored_fields_are_told_as_zero() {
    let server = printed_change(&small(3, 1), |told| first_info(told).dhcp_server = None);
    let zeros = "0".repeat(32);
    let address = "00000000000000000000ffff0a000005";
    let expected = format!("7 1 6 7 3\n7 1 88 {address} {zeros}\n");
    assert_eq!(server, expected);
    let security = printed_change(&small(4, 1), |told| first_subsystem(told).security = None);
    assert_eq!(security, "4 1 3 221 217\n4 1 45 1 0\n");
}

#[test]
fn refused_files_are_told_instead_of_differences() {
    let [good, other] = [sample(1), sample(7)];
    assert_eq!(report(&sample(3), &other), "3 0 0\n");
    assert_eq!(report(&good, &sample(5)), "11 2 0\n");
    assert_eq!(report(&sample(12), &good), "13 4 1\n");
    assert_eq!(report(&sample(8), &sample(12)), "8 1 0\n13 4 1\n");
    assert_eq!(report(&sample(12), &sample(8)), "13 4 1\n8 1 0\n");
    // The same refused table twice is no equal meaning.
    assert_eq!(report(&sample(4), &sample(4)), "1 0 0\n1 0 0\n");
    assert_eq!(report(&[], &[]), "1 0 0\n1 0 0\n");
}

/// The info of the machine's first interface with nearly all of it changed.
fn change_info(info: &mut Info) {
    info.pci_routing = 0x0100_1C00;
    info.mac_address[5] = 0xFE;
    info.vlan = 4095;
    info.ip_address[15] = 31;
    info.prefix_length = 16;
    info.gateway = [0; 16];
    info.route_metric = 0x0102;
    info.primary_dns[0] = 0xFD;
    info.secondary_dns[15] = 1;
    info.dhcp_server = None;
    info.host_name = Some(Text::of("server-18.example.net"));
    info.addition = Some(Addition {
        autoconfigured: false,
        identity: Some(Identity { client: None }),
    });
}

fn change_subsystem(subsystem: &mut Subsystem) {
    subsystem.header_digest = false;
    subsystem.discovery = 0;
    subsystem.address = b"192.168.101.4".into();
    subsystem.service = b"4421\0".into();
    subsystem.port = 0x1234;
    subsystem.namespace = u32::MAX;
    subsystem.identifier_type = 2;
    subsystem.identifier[15] = 0;
    subsystem.security = None;
    subsystem.primary_interface = 2;
    subsystem.secondary_interfaces = None;
    subsystem.name = Text::of([subsystem.name.words(), b"0"].concat());
    subsystem.extended = Some(Extended {
        queue_size_configured: false,
        controller: 0x0700,
        queue_size: 33,
        root_path: None,
    });
}

/// The machine with something of every record changed: one interface more,
/// the second subsystem unused, and no discovery record.
fn changed_machine() -> Meaning<'static> {
    let mut told = machine();
    told.origin.oem = *b"VENDOS";
    told.origin.creator_revision = 0x0100_0014;
    told.driver_signature = None;
    told.host.primary = 1;
    told.host.id[0] = 0x53;
    told.host.name = Text::of("nqn.2014-08.org");
    change_info(first_info(&mut told));
    told.interfaces.push(Entry::Unused);
    change_subsystem(first_subsystem(&mut told));
    told.subsystems[1] = Entry::Unused;
    let security = used(&mut told.securities[0]);
    security.algorithms = None;
    security.protocols = Some(Policy {
        origin: 1,
        list: b"\x01\x03".into(),
    });
    security.groups = Some(b"\x01\x02".into());
    security.hashes = None;
    security.keypath = None;
    told.discoveries.clear();
    told
}

const MACHINE_LINES: &str = "\
1 0 87 2 3
1 0 111 1 0
0 0 10 56454e444f52 56454e444f53
0 0 32 16777235 16777236
0 0 44 49 0 0
2 0 1 23 15
2 0 2 3c1e7a529d404b6f8a115e0d2f7c9b34 531e7a529d404b6f8a115e0d2f7c9b34
2 0 18 69 16 15
7 1 3 1 2
7 1 6 7 3
7 1 7 7168 16784384
7 1 11 525400a1b201 525400a1b2fe
7 1 17 0 4095
7 1 20 00000000000000000000ffffc0a8651e 00000000000000000000ffffc0a8651f
7 1 36 24 16
7 1 37 00000000000000000000ffffc0a86501 00000000000000000000000000000000
7 1 54 500 258
7 1 56 00000000000000000000ffffc0a86502 fd000000000000000000ffffc0a86502
7 1 72 00000000000000000000000000000000 00000000000000000000000000000001
7 1 88 00000000000000000000ffffc0a86502 00000000000000000000000000000000
7 1 104 22 22 8
10 1 only 2
3 3 only 2
4 1 3 221 217
4 1 6 3 1
4 1 8 1 0
4 1 10 16 13 0
4 1 16 5 5 3
4 1 22 1 4660
4 1 24 1 4294967295
4 1 28 3 2
4 1 29 8f2b60c417de4a05b3c96a7714e0d582 8f2b60c417de4a05b3c96a7714e0d500
4 1 45 1 0
4 1 46 1 2
4 1 48 1 0 0
4 1 54 69 70 68
9 1 4 3 1
9 1 8 0 1792
9 1 10 32 33
9 1 12 43 0 0
4 2 used 1
5 1 2 3765 1581
5 1 4 1 0
5 1 6 1 0 0
5 1 12 2 2 1
5 1 24 3 2 2
5 1 30 1 0 0
5 1 36 36 0 0
6 1 only 1
";

#[test]
fn the_lines_of_two_machines_stand_in_order() {
    assert_eq!(printed(&machine(), &changed_machine()), MACHINE_LINES);
    let told = changes(&machine(), &changed_machine());
    let lines: Vec<String> = told.iter().map(Line::to_string).collect();
    assert_eq!(lines.join("\n") + "\n", MACHINE_LINES);
}
