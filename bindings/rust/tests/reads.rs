//! Checks and reads.

mod common;

use common::{bytes, layout, number, summed, DHCP, LAYOUTS, MACHINE, MIXED, SAMPLES, SMALLEST};
use nbft::{check, check_looks, field, object, Kind, Number, Refusal};

fn plain(number: Number) -> Refusal {
    Refusal { number, kind: Kind::Header, position: 0 }
}

#[test]
fn samples_are_good() {
    assert_eq!(SMALLEST.len(), 162);
    assert!(SAMPLES.iter().all(|table| check(table) == Ok(())));
}

#[test]
fn bytes_behind_the_table_do_not_count_and_bytes_that_lack_do() {
    assert_eq!(check(&[SMALLEST, &[7]].concat()), Ok(()));
    assert_eq!(check(&SMALLEST[..161]), Err(plain(Number::Length)));
    assert_eq!(check(&SMALLEST[..159]), Err(plain(Number::TooFewBytes)));
    assert_eq!(check(&[]), Err(plain(Number::TooFewBytes)));
}

#[test]
fn a_machine_says_what_it_was_told() {
    let name = b"nqn.2014-08.org.nvmexpress:uuid:8f2b60c4-17de-4a05-b3c9-6a7714e0d582";
    assert_eq!(field(MACHINE, Kind::Header, 0, 10).unwrap().bytes(), b"VENDOR");
    assert_eq!(number(MACHINE, Kind::Header, 0, 32), 0x0100_0013);
    assert_eq!(common::counts(MACHINE), [2, 2, 1, 1]);
    assert_eq!(number(MACHINE, Kind::Ssns, 2, 46), 2);
    assert_eq!(number(MACHINE, Kind::HfiInfo, 2, 7), 0x1C01);
    assert_eq!(number(MACHINE, Kind::SsnsExtended, 1, 10), 32);
    assert_eq!(bytes(MACHINE, Kind::Ssns, 1, 54), name);
    assert_eq!(bytes(MACHINE, Kind::Ssns, 2, 10), b"\0\0\0\0\0\0\0\0\0\0\xFF\xFF\xC0\xA8\x66\x28");
    assert_eq!(bytes(MACHINE, Kind::Ssns, 2, 16), b"4420\0");
    assert_eq!(bytes(MACHINE, Kind::Security, 1, 36), b"/redfish/v1/KeyService/NVMeoFKeys/17");
    assert_eq!(bytes(MACHINE, Kind::Discovery, 1, 6), b"nvme+tcp://192.168.101.40:8009/");
    assert_eq!(field(MACHINE, Kind::HfiInfo, 1, 20).unwrap().number(), None);
}

#[test]
fn an_object_is_a_part_of_the_table() {
    let host = object(MACHINE, Kind::Host, 0, 18).unwrap().unwrap();
    assert!(MACHINE.as_ptr_range().contains(&host.as_ptr()));
    assert!(host.as_ptr_range().end <= MACHINE.as_ptr_range().end);
}

/// K7: the host NQN is the zero byte that ends the text of the smallest sample.
#[test]
fn an_empty_text_is_present() {
    let mut table = SMALLEST.to_vec();
    (table[146], table[150]) = (161, 1);
    let table = summed(table);
    let name = object(&table, Kind::Host, 0, 18).unwrap().unwrap();
    assert_eq!(name, b"");
    assert_eq!(name.as_ptr(), table[161..].as_ptr());
    assert_eq!(object(&table, Kind::Header, 0, 44), Ok(None));
}

/// A text without its terminator, one with a zero byte inside, and one byte that is not zero.
#[test]
fn a_text_ends_in_its_only_zero_byte() {
    let refusal = Refusal { number: Number::Text, kind: Kind::Host, position: 0 };
    for (place, byte) in [(161, b'n'), (160, 0), (150, 1)] {
        let mut table = SMALLEST.to_vec();
        table[place] = byte;
        let table = summed(table);
        assert_eq!(check(&table), Err(refusal));
        assert_eq!(object(&table, Kind::Host, 0, 18), Err(refusal));
    }
    assert_eq!(refusal.to_string(), "a text does not end in its only zero byte: host");
    assert_eq!(bytes(SMALLEST, Kind::Host, 0, 18), b"n");
}

/// Where the list of the machine's SSNS at position 1 is referred to, with its length, which is 1.
const SECONDARY: usize = 224 + 48;

/// The machine with a secondary list of this length: the list goes on into what stands behind it, the NQN.
fn with_longer_list(length: u8) -> Vec<u8> {
    let mut table = MACHINE.to_vec();
    assert_eq!(table[SECONDARY + 4], 1);
    table[SECONDARY + 4] = length;
    summed(table)
}

/// There are two HFIs: three bytes are too many, and two that differ are not, but the second is no index.
#[test]
fn a_secondary_list_has_no_more_bytes_than_there_are_interfaces_and_none_twice() {
    let at = |number| Refusal { number, kind: Kind::Ssns, position: 1 };
    let refusal = at(Number::Secondary);
    let table = with_longer_list(3);
    assert_eq!(check(&table), Err(refusal));
    assert_eq!(object(&table, Kind::Ssns, 1, 48), Err(refusal));
    assert_eq!(field(&table, Kind::Host, 0, 1), Err(refusal));
    assert_eq!(refusal.to_string(), "a secondary list is too long or names an HFI twice: SSNS 1");
    let mut table = with_longer_list(2);
    assert_eq!(check(&table), Err(at(Number::Index)));
    let list = u32::from_le_bytes(table[SECONDARY..][..4].try_into().unwrap()) as usize;
    table[list + 1] = table[list];
    assert_eq!(check(&summed(table)), Err(refusal));
}

/// The host, two HFIs; an SSNS with its discovery, security, primary and secondary index, and one without security;
/// a security record; a discovery record with its HFI and security index.
#[test]
fn looks_are_those_at_records_and_indexes() {
    assert_eq!(check_looks(SMALLEST), (Ok(()), 1));
    assert_eq!(check_looks(MACHINE), (Ok(()), 1 + 2 + 5 + 4 + 1 + 3));
    let refusal = Refusal { number: Number::Secondary, kind: Kind::Ssns, position: 1 };
    assert_eq!(check_looks(&with_longer_list(3)), (Err(refusal), 1 + 2 + 1));
    let refusal = Refusal { number: Number::Index, kind: Kind::Ssns, position: 1 };
    assert_eq!(check_looks(&with_longer_list(2)), (Err(refusal), 1 + 2 + 1 + 5));
    assert_eq!(check_looks(&MACHINE[..200]), (Err(plain(Number::Length)), 0));
    assert_eq!(check_looks(&[]), (Err(plain(Number::TooFewBytes)), 0));
}

#[test]
fn looks_pass_no_bound_and_come_with_the_answer_of_a_check() {
    for table in SAMPLES {
        let [h, s, c, d] = common::counts(table).map(u32::from);
        let most = 1 + h + s * (4 + h) + c + 3 * d;
        assert!(check_looks(table).1 <= most);
        for place in 0..table.len() {
            let mut changed = table.to_vec();
            changed[place] ^= 0x01;
            let changed = summed(changed);
            let (answer, looks) = check_looks(&changed);
            assert_eq!(answer, check(&changed), "{place}");
            let [h, s, c, d] = [87, 95, 103, 111].map(|count: usize| u32::from(changed[count]));
            assert!(looks <= 1 + h + s * (4 + h) + c + 3 * d, "{place}");
        }
    }
}

#[test]
fn an_unused_record_has_no_field_and_no_object() {
    let unused = field(MIXED, Kind::Ssns, 1, 24).unwrap();
    assert!(!unused.used());
    assert_eq!(unused.bytes(), [0; 4]);
    assert_eq!(object(MIXED, Kind::Ssns, 1, 54), Ok(None));
    assert!(field(MIXED, Kind::Ssns, 2, 24).unwrap().used());
    assert_eq!(object(MIXED, Kind::Header, 0, 44), Ok(None));
}

/// Every offset of every kind, also of those that no layout has.
#[test]
fn fields_and_objects_are_those_of_the_layouts() {
    let asked = LAYOUTS.iter().flat_map(|layout| (0..300).map(move |offset| (layout.kind, offset)));
    for (kind, offset) in asked {
        let position = u16::from(kind as u8 > 2);
        let table = if kind == Kind::HfiExtended { DHCP } else { MACHINE };
        let length = layout(kind).fields.iter().find(|(start, _)| *start == offset).map(|(_, length)| *length);
        let read = field(table, kind, position, offset);
        assert_eq!(read.map(|field| field.bytes().len()), length.ok_or(plain(Number::NoSuchField)));
        let referred = layout(kind).objects.contains(&offset);
        assert_eq!(object(table, kind, position, offset).is_ok(), referred, "{kind:?} {offset}");
    }
}

#[test]
fn positions_are_those_of_the_lists() {
    assert_eq!(field(MACHINE, Kind::Ssns, 0, 24), Err(plain(Number::NoSuchField)));
    assert_eq!(field(MACHINE, Kind::Ssns, 3, 24), Err(plain(Number::NoSuchField)));
    assert_eq!(field(MACHINE, Kind::Host, 1, 1), Err(plain(Number::NoSuchField)));
    assert_eq!(object(MACHINE, Kind::SsnsExtended, 2, 12), Err(plain(Number::NoSuchField)));
}

/// The first interface has an identity, the second none, and the third is as version 1 has it.
#[test]
fn an_identity_is_read_where_there_is_one() {
    assert_eq!([1, 2, 3].map(|position| number(DHCP, Kind::HfiInfo, position, 3)), [2, 2, 1]);
    assert_eq!([1, 2, 3].map(|position| number(DHCP, Kind::HfiInfo, position, 6)), [7, 9, 1]);
    assert_eq!(number(DHCP, Kind::HfiExtended, 1, 4), 3);
    assert_eq!(bytes(DHCP, Kind::HfiExtended, 1, 8), [0x00, 0xA1, 0xB2, 0x01]);
    assert_eq!(bytes(DHCP, Kind::HfiExtended, 1, 14), [0x00, 0x03, 0x00, 0x01, 0x52, 0x54, 0x00, 0xA1, 0xB2, 0x01]);
    for position in [0, 2, 3, 4] {
        assert_eq!(field(DHCP, Kind::HfiExtended, position, 0), Err(plain(Number::NoSuchField)));
    }
    assert_eq!(object(DHCP, Kind::HfiInfo, 1, 110), Err(plain(Number::NoSuchField)));
}

#[test]
fn a_flipped_byte_is_refused() {
    for place in 0..MACHINE.len() {
        let mut table = MACHINE.to_vec();
        table[place] ^= 0xFF;
        let refusal = check(&table).unwrap_err();
        assert_eq!(field(&table, Kind::Host, 0, 1), Err(refusal), "{place}");
        assert_eq!(object(&table, Kind::Host, 0, 18), Err(refusal), "{place}");
    }
}

/// What says how long the table is and where its heap stands is refused; another OEM or another name is not, but one
/// that does not end is.
#[test]
fn a_flipped_byte_under_a_right_checksum_is_judged_by_what_it_says() {
    let flipped = |place: usize| {
        let mut table = MACHINE.to_vec();
        table[place] ^= 0xFF;
        check(&summed(table))
    };
    let answers: Vec<_> = (0..MACHINE.len()).map(flipped).collect();
    let name = object(MACHINE, Kind::Discovery, 1, 12).unwrap().unwrap();
    let start = name.as_ptr() as usize - MACHINE.as_ptr() as usize;
    let (frame, oem, heap) = (&answers[..9], &answers[10..36], &answers[36..44]);
    assert!(frame.iter().chain(heap).all(Result::is_err));
    assert!(oem.iter().chain(&answers[start..][..name.len()]).all(Result::is_ok));
    let text = Refusal { number: Number::Text, kind: Kind::Discovery, position: 1 };
    assert_eq!(answers[start + name.len()], Err(text));
    let index = Refusal { number: Number::Index, kind: Kind::Ssns, position: 2 };
    assert_eq!(answers[398], Err(index));
    assert_eq!(index.to_string(), "an index names no valid record: SSNS 2");
}

#[test]
fn every_number_has_its_code_and_its_words() {
    let codes: Vec<u8> = Number::ALL.iter().map(|number| *number as u8).collect();
    assert_eq!(codes, (1..=20).collect::<Vec<u8>>());
    assert_eq!(plain(Number::Checksum).to_string(), "the checksum is wrong");
    let host = Refusal { number: Number::Version, kind: Kind::Host, position: 0 };
    assert_eq!(host.to_string(), "a version is wrong: host");
}
