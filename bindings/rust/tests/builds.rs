//! Builds.

mod common;

use common::{bytes, counts, form, image, DHCP, MACHINE, MIXED, SAMPLES};
use nbft::{
    check, field, object, Builder, Counts, Discovery, Hfi, HfiExtended, Host, Kind, Number, Refusal, Security, Ssns,
};

/// The position is left unused where it is unused in the table.
fn is_used(table: &[u8], kind: Kind, position: u16) -> bool {
    field(table, kind, position, 0).expect("every record has an ID").used()
}

/// An extended info that there is not cannot be read.
fn retell_hfi(builder: &mut Builder, table: &[u8], position: u16) -> Result<(), Refusal> {
    let kind = Kind::HfiExtended;
    let extended: Option<[u8; 20]> = field(table, kind, position, 0).ok().map(|_| image(table, kind, position));
    builder.hfi(&Hfi {
        record: &image(table, Kind::Hfi, position),
        info: &image(table, Kind::HfiInfo, position),
        name: bytes(table, Kind::HfiInfo, position, 104),
        extended: extended.as_ref().map(|record| HfiExtended {
            record,
            iaid: bytes(table, kind, position, 8),
            duid: bytes(table, kind, position, 14),
        }),
    })
}

/// Without flag 4 there is no extended info to be read.
fn retell_ssns(builder: &mut Builder, table: &[u8], position: u16) -> Result<(), Refusal> {
    let record: [u8; 128] = image(table, Kind::Ssns, position);
    let (extended, path): ([u8; 18], &[u8]) = match record[3] & 1 << 4 {
        0 => ([0; 18], b""),
        _ => (image(table, Kind::SsnsExtended, position), bytes(table, Kind::SsnsExtended, position, 12)),
    };
    builder.ssns(&Ssns {
        record: &record,
        address: bytes(table, Kind::Ssns, position, 10),
        service: bytes(table, Kind::Ssns, position, 16),
        others: bytes(table, Kind::Ssns, position, 48),
        nqn: bytes(table, Kind::Ssns, position, 54),
        extended: &extended,
        path,
    })
}

fn retell_security(builder: &mut Builder, table: &[u8], position: u16) -> Result<(), Refusal> {
    builder.security(&Security {
        record: &image(table, Kind::Security, position),
        algorithms: bytes(table, Kind::Security, position, 6),
        protocols: bytes(table, Kind::Security, position, 12),
        ciphers: bytes(table, Kind::Security, position, 18),
        groups: bytes(table, Kind::Security, position, 24),
        hashes: bytes(table, Kind::Security, position, 30),
        keypath: bytes(table, Kind::Security, position, 36),
    })
}

fn retell_discovery(builder: &mut Builder, table: &[u8], position: u16) -> Result<(), Refusal> {
    builder.discovery(&Discovery {
        record: &image(table, Kind::Discovery, position),
        address: bytes(table, Kind::Discovery, position, 6),
        nqn: bytes(table, Kind::Discovery, position, 12),
    })
}

fn retell_record(builder: &mut Builder, table: &[u8], kind: Kind, position: u16) -> Result<(), Refusal> {
    match kind {
        _ if !is_used(table, kind, position) => builder.leave(),
        Kind::Hfi => retell_hfi(builder, table, position),
        Kind::Ssns => retell_ssns(builder, table, position),
        Kind::Security => retell_security(builder, table, position),
        _ => retell_discovery(builder, table, position),
    }
}

fn retell_front(builder: &mut Builder, table: &[u8]) -> Result<(), Refusal> {
    let front: [u8; 64] = image(table, Kind::Header, 0);
    let [hfi, ssns, security, discovery] = counts(table);
    let header = front[10..36].try_into().expect("26 bytes");
    builder.begin(header, Counts { hfi, ssns, security, discovery }, bytes(table, Kind::Header, 0, 44))?;
    builder.host(&Host { record: &image(table, Kind::Host, 0), nqn: bytes(table, Kind::Host, 0, 18) })
}

/// Tells the builder all that is read from a table, short of finishing.
fn retell(builder: &mut Builder, table: &[u8]) -> Result<(), Refusal> {
    retell_front(builder, table)?;
    let kinds = [Kind::Hfi, Kind::Ssns, Kind::Security, Kind::Discovery];
    let lists = kinds.into_iter().zip(counts(table));
    let mut records = lists.flat_map(|(kind, count)| (1..=u16::from(count)).map(move |position| (kind, position)));
    records.try_for_each(|(kind, position)| retell_record(builder, table, kind, position))
}

#[test]
fn a_build_is_the_form_of_what_was_told() {
    for table in SAMPLES {
        let mut buffer = vec![0xA5; 2000];
        let mut builder = Builder::new(&mut buffer);
        retell(&mut builder, table).unwrap();
        let built = builder.finish().unwrap().to_vec();
        assert_eq!(built, form(table));
        assert!(buffer[built.len()..].iter().all(|byte| *byte == 0xA5));
    }
}

#[test]
fn a_build_needs_as_many_bytes_as_its_form() {
    let length = form(MACHINE).len();
    let mut buffer = vec![0; length];
    let mut builder = Builder::new(&mut buffer);
    retell(&mut builder, MACHINE).unwrap();
    assert_eq!(builder.finish().unwrap().len(), length);
    let mut short = vec![0; length - 1];
    let refusal = retell(&mut Builder::new(&mut short), MACHINE).unwrap_err();
    assert_eq!(refusal, Refusal { number: Number::OutputTooShort, kind: Kind::Header, position: 0 });
}

#[test]
fn counts_are_those_of_their_lists() {
    let mut buffer = vec![0; 1000];
    let mut builder = Builder::new(&mut buffer);
    builder.begin(&[0; 26], Counts { hfi: 1, ssns: 2, security: 3, discovery: 4 }, b"").unwrap();
    builder.host(&Host { record: &[0; 32], nqn: b"nqn.h" }).unwrap();
    (0..10).try_for_each(|_| builder.leave()).unwrap();
    assert_eq!(counts(builder.finish().unwrap()), [1, 2, 3, 4]);
}

#[test]
fn an_unfinished_build_is_no_table_and_can_be_resumed() {
    let mut buffer = vec![0; 2000];
    let mut builder = Builder::new(&mut buffer);
    retell(&mut builder, MIXED).unwrap();
    let (state, used) = (builder.state(), builder.used());
    assert_eq!(check(&buffer).unwrap_err().number, Number::Length);
    let mut resumed = Builder::resumed(state, &mut buffer);
    assert_eq!(resumed.finish().unwrap().len() as u64, used);
    assert_eq!(resumed.leave().unwrap_err().number, Number::OutOfTurn);
}

#[test]
fn indexes_are_judged_at_the_end() {
    let mut buffer = vec![0; 1000];
    let mut builder = Builder::new(&mut buffer);
    builder.begin(&[0; 26], Counts { discovery: 1, ..Counts::default() }, b"").unwrap();
    builder.host(&Host { record: &[0; 32], nqn: b"nqn.h" }).unwrap();
    builder.discovery(&Discovery { record: &[0; 32], address: b"", nqn: b"" }).unwrap();
    let refusal = builder.finish().unwrap_err();
    assert_eq!(refusal, Refusal { number: Number::Index, kind: Kind::Discovery, position: 1 });
}

/// A transport info of a version, with flags and an IP origin.
fn info(version: u8, flags: u8, origin: u8) -> [u8; 128] {
    let mut info = [0; 128];
    (info[3], info[6], info[19]) = (version, flags, origin);
    info
}

/// An HFI extended info with flags.
fn extended(flags: u8) -> [u8; 20] {
    let mut record = [0; 20];
    record[4] = flags;
    record
}

/// A table with one HFI, or what the call for it answers.
fn with_hfi(info: &[u8; 128], extended: Option<HfiExtended>) -> Result<Vec<u8>, Refusal> {
    let mut buffer = vec![0; 1000];
    let mut builder = Builder::new(&mut buffer);
    builder.begin(&[0; 26], Counts { hfi: 1, ..Counts::default() }, b"").unwrap();
    builder.host(&Host { record: &[0; 32], nqn: b"nqn.h" }).unwrap();
    builder.hfi(&Hfi { record: &[0; 32], info, name: b"name", extended })?;
    Ok(builder.finish().unwrap().to_vec())
}

#[test]
fn an_interface_has_the_identity_that_is_told() {
    let told = HfiExtended { record: &extended(2), iaid: b"iaid", duid: b"duid." };
    let table = with_hfi(&info(2, 0, 3), Some(told)).unwrap();
    assert_eq!(table[50], 1);
    assert_eq!(field(&table, Kind::HfiInfo, 1, 3).unwrap().number(), Some(2));
    assert_eq!(field(&table, Kind::HfiExtended, 1, 0).unwrap().number(), Some(10));
    assert_eq!(field(&table, Kind::HfiExtended, 1, 4).unwrap().number(), Some(3));
    assert_eq!(bytes(&table, Kind::HfiExtended, 1, 8), b"iaid");
    assert_eq!(bytes(&table, Kind::HfiExtended, 1, 14), b"duid.");
    assert_eq!(form(&table), table);
}

#[test]
fn an_interface_of_version_2_needs_no_identity() {
    let table = with_hfi(&info(2, 1 << 3, 0), None).unwrap();
    assert_eq!(table[50], 1);
    assert_eq!(field(&table, Kind::HfiInfo, 1, 6).unwrap().number(), Some(9));
    assert_eq!(field(&table, Kind::HfiExtended, 1, 0).unwrap_err().number, Number::NoSuchField);
    let empty = HfiExtended { record: &extended(0), iaid: b"dropped", duid: b"dropped" };
    let table = with_hfi(&info(2, 0, 0), Some(empty)).unwrap();
    assert_eq!(object(&table, Kind::HfiExtended, 1, 8), Ok(None));
    assert_eq!(object(&table, Kind::HfiExtended, 1, 14), Ok(None));
}

#[test]
fn version_1_drops_the_identity() {
    let told = HfiExtended { record: &extended(2), iaid: b"", duid: &[1; 65_536] };
    let table = with_hfi(&info(1, 1 << 3, 4), Some(told)).unwrap();
    assert_eq!(table, with_hfi(&info(1, 0, 4), None).unwrap());
    assert_eq!(table[50], 0);
    assert_eq!(field(&table, Kind::HfiExtended, 1, 0).unwrap_err().number, Number::NoSuchField);
}

#[test]
fn a_state_has_the_header_minor_behind_the_bytes_used() {
    let mut buffer = vec![0; 2000];
    let mut builder = Builder::new(&mut buffer);
    retell(&mut builder, DHCP).unwrap();
    let length = builder.finish().unwrap().len() as u64;
    assert_eq!(builder.used(), length);
    assert_eq!(builder.state()[12..], [1, 0, 0, 0]);
}

/// What is wrong here: versions 0 and 3, autoconfigured with DHCP and with an origin, a client identifier under another
/// origin, and IAID or DUID left out.
#[test]
fn heap_records_of_an_interface_are_judged_before_its_objects() {
    let (plain, known) = (extended(0), extended(2));
    let told = |record, iaid, duid| Some(HfiExtended { record, iaid, duid });
    let calls: [([u8; 128], Option<HfiExtended>, Number); 7] = [
        (info(0, 0, 0), None, Number::HeapRecord),
        (info(3, 0, 0), None, Number::HeapRecord),
        (info(2, 0b1100, 0), None, Number::HeapRecord),
        (info(2, 0b1000, 3), told(&plain, b"", b""), Number::HeapRecord),
        (info(2, 0, 4), told(&known, b"", b""), Number::HeapRecord),
        (info(2, 0, 3), told(&known, b"", b"duid"), Number::Reference),
        (info(2, 0, 3), told(&known, b"iaid", b""), Number::Reference),
    ];
    for (info, extended, number) in calls {
        assert_eq!(with_hfi(&info, extended), Err(Refusal { number, kind: Kind::Hfi, position: 1 }));
    }
}

#[test]
fn a_text_is_told_without_its_terminator() {
    let mut buffer = vec![0; 200];
    let mut builder = Builder::new(&mut buffer);
    builder.begin(&[0; 26], Counts::default(), b"").unwrap();
    builder.host(&Host { record: &[0; 32], nqn: b"nqn.h" }).unwrap();
    let table = builder.finish().unwrap();
    assert!(table.ends_with(b"nqn.h\0"));
    assert_eq!(object(table, Kind::Host, 0, 18), Ok(Some(&b"nqn.h"[..])));
}

/// What is read as an empty text is told as one that is absent.
#[test]
fn an_empty_text_is_absent() {
    let mut buffer = vec![0; 1000];
    let mut builder = Builder::new(&mut buffer);
    builder.begin(&[0; 26], Counts { hfi: 1, ..Counts::default() }, b"").unwrap();
    builder.host(&Host { record: &[0; 32], nqn: b"nqn.h" }).unwrap();
    builder.hfi(&Hfi { record: &[0; 32], info: &info(1, 0, 0), name: b"", extended: None }).unwrap();
    assert_eq!(object(builder.finish().unwrap(), Kind::HfiInfo, 1, 104), Ok(None));
}

/// Address and service may have zero bytes, the NQN may not; whether it is too long is asked first. The root path, which
/// has one too, is dropped without flag 4.
#[test]
fn the_first_object_at_fault_is_told() {
    let told = |address: &[u8], nqn: &[u8]| {
        let mut buffer = vec![0; 1000];
        let mut builder = Builder::new(&mut buffer);
        builder.begin(&[0; 26], Counts { ssns: 1, ..Counts::default() }, b"").unwrap();
        builder.host(&Host { record: &[0; 32], nqn: b"nqn.h" }).unwrap();
        let (record, extended): (&[u8; 128], &[u8; 18]) = (&[0; 128], &[0; 18]);
        builder.ssns(&Ssns { record, address, service: b"\0", others: b"", nqn, extended, path: b"\0" })
    };
    let refused = |number| Err(Refusal { number, kind: Kind::Ssns, position: 1 });
    assert_eq!(told(b"\0", b"nqn.s"), Ok(()));
    assert_eq!(told(b"\0", b"nqn.s\0"), refused(Number::Text));
    assert_eq!(told(b"", b"nqn.s\0"), refused(Number::Reference));
    assert_eq!(told(b"\0", b""), refused(Number::Reference));
    assert_eq!(told(b"\0", &[0; 65_535]), refused(Number::Reference));
    assert_eq!(told(b"\0", &[0; 65_534]), refused(Number::Text));
}

/// There are three HFIs, none of them used, which is asked at the end alone. A list that is too long for its reference
/// is told as such, and one that is wrong before the NQN behind it.
#[test]
fn secondary_interfaces_are_told_once_and_no_more_than_there_are() {
    let told = |others: &[u8], nqn: &[u8]| {
        let mut buffer = vec![0; 1000];
        let mut builder = Builder::new(&mut buffer);
        builder.begin(&[0; 26], Counts { hfi: 3, ssns: 1, ..Counts::default() }, b"").unwrap();
        builder.host(&Host { record: &[0; 32], nqn: b"nqn.h" }).unwrap();
        (0..3).try_for_each(|_| builder.leave()).unwrap();
        let (record, extended): (&[u8; 128], &[u8; 18]) = (&[0; 128], &[0; 18]);
        builder.ssns(&Ssns { record, address: b"a", service: b"s", others, nqn, extended, path: b"" })
    };
    let refused = |number| Err(Refusal { number, kind: Kind::Ssns, position: 1 });
    for fine in [&[][..], &[2], &[3, 1, 2], &[0, 200, 255]] {
        assert_eq!(told(fine, b"nqn.s"), Ok(()));
        assert_eq!(told(fine, b"nqn.s\0"), refused(Number::Text));
    }
    for wrong in [&[1, 1][..], &[1, 2, 1], &[0, 0], &[1, 2, 3, 4], &[1; 60_000], &[1; 65_535]] {
        assert_eq!(told(wrong, b"nqn.s"), refused(Number::Secondary));
        assert_eq!(told(wrong, b""), refused(Number::Secondary));
        assert_eq!(told(wrong, b"nqn.s\0"), refused(Number::Secondary));
    }
    assert_eq!(told(&[1; 65_536], b""), refused(Number::Reference));
}

/// What is wrong here: the turn, the state, a two-bit field, an empty NQN, one with a zero byte, two that are too long,
/// and the room.
#[test]
fn refused_calls_change_nothing() {
    let mut begun = vec![0xA5; 170];
    let mut builder = Builder::new(&mut begun);
    builder.begin(&[7; 26], Counts::default(), b"").unwrap();
    let state = builder.state();
    type Call = fn(&mut Builder) -> Result<(), Refusal>;
    let calls: [([u8; 16], Call, Number, Kind); 9] = [
        (state, |b| b.begin(&[0; 26], Counts::default(), b""), Number::OutOfTurn, Kind::Header),
        (state, |b| b.finish().map(|_| ()), Number::OutOfTurn, Kind::Header),
        ([0xFF; 16], |b| b.host(&Host { record: &[0; 32], nqn: b"n" }), Number::OutOfTurn, Kind::Header),
        (state, |b| b.host(&Host { record: &[0x18; 32], nqn: b"n" }), Number::Record, Kind::Host),
        (state, |b| b.host(&Host { record: &[0; 32], nqn: b"" }), Number::Reference, Kind::Host),
        (state, |b| b.host(&Host { record: &[0; 32], nqn: b"n\0" }), Number::Text, Kind::Host),
        (state, |b| b.host(&Host { record: &[0; 32], nqn: &[1; 65_535] }), Number::Reference, Kind::Host),
        (state, |b| b.host(&Host { record: &[0; 32], nqn: &[1; 65_534] }), Number::ResultTooLong, Kind::Header),
        (state, |b| b.host(&Host { record: &[0; 32], nqn: &[1; 10] }), Number::OutputTooShort, Kind::Header),
    ];
    for (before, call, number, kind) in calls {
        let mut buffer = begun.clone();
        let mut builder = Builder::resumed(before, &mut buffer);
        assert_eq!(call(&mut builder), Err(Refusal { number, kind, position: 0 }));
        assert_eq!(builder.state(), before);
        assert_eq!(buffer, begun);
    }
}

#[test]
fn a_refused_call_can_be_mended_and_made_again() {
    let mut buffer = vec![0; 200];
    let mut builder = Builder::new(&mut buffer);
    builder.begin(&[0; 26], Counts::default(), b"").unwrap();
    assert!(builder.host(&Host { record: &[0; 32], nqn: b"" }).is_err());
    builder.host(&Host { record: &[0; 32], nqn: b"n" }).unwrap();
    assert_eq!(builder.finish().map(<[u8]>::len), Ok(162));
}
