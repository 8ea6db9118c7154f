//! Texts of tables, and texts that the builder is told.

use second::answer::number;
use second::builder::{self, ToldInterface, ToldSubsystem};
use second::faults::damages;
use second::form::put_checksum;
use second::goods::{goods, with_empty_texts};
use second::samples::{machine, small, smallest};
use second::wire::{put_reference, u16_at, u32_at};
use second::{check, form, meaning, object, rewrite, Answer, State, Text};
use std::collections::BTreeSet;

#[test]
fn a_text_holds_exactly_one_zero_byte_its_last() {
    for good in [&b"\0"[..], b"a\0", b"abc\0", b"\xFF\x01\0"] {
        let text = Text::read(good).expect("it is text");
        assert_eq!(text.words(), &good[..good.len() - 1]);
        assert_eq!(text.ended(), good);
    }
    for bad in [
        &b""[..],
        b"a",
        b"abc",
        b"\0\0",
        b"a\0\0",
        b"\0a",
        b"a\0b\0",
        b"\0a\0",
    ] {
        assert_eq!(Text::read(bad), Err(number::TEXT), "{bad:?}");
    }
}

/// Where the references to text stand in the form of the machine's table,
/// each with the kind and position of its answers.
fn text_references(table: &[u8]) -> Vec<(usize, Answer)> {
    let at = |place: usize| u32_at(table, place) as usize;
    let (interfaces, subsystems, discoveries) = (at(80), at(88), at(104));
    let mut places = vec![(128 + 18, 2, 0)];
    for position in 1..=2 {
        let info = at(interfaces + 32 * (position - 1) + 16);
        places.push((info + 104, 3, position));
        let subsystem = subsystems + 128 * (position - 1);
        places.push((subsystem + 54, 4, position));
    }
    places.push((at(subsystems + 60) + 12, 4, 1));
    places.extend([(discoveries + 6, 6, 1), (discoveries + 12, 6, 1)]);
    let answer = |(place, kind, position)| (place, Answer::at(number::TEXT, kind, position as u16));
    places.into_iter().map(answer).collect()
}

#[test]
fn each_text_is_judged() {
    let good = form(&machine());
    let references = text_references(&good);
    assert_eq!(references.len(), 8);
    for (reference, wrong) in references {
        let start = u32_at(&good, reference) as usize;
        let last = start + usize::from(u16_at(&good, reference + 4)) - 1;
        for (place, byte) in [(last, 1), (last - 1, 0), (start, 0), (start + 2, 0)] {
            let mut table = good.clone();
            table[place] = byte;
            put_checksum(&mut table);
            assert_eq!(check(&table), wrong);
        }
        for (start, length, answer) in [
            (start, 1, wrong),
            (last - 1, 1, wrong),
            (last, 1, Answer::DONE),
        ] {
            let mut table = good.clone();
            put_reference(&mut table, reference, start as u32, length);
            put_checksum(&mut table);
            assert_eq!(check(&table), answer);
        }
    }
}

/// Zero bytes anywhere in what is no text change nothing but what is said.
#[test]
fn other_objects_may_hold_zero_bytes() {
    let mut told = machine();
    told.driver_signature = Some(b"\0a\0".into());
    for entry in &mut told.subsystems {
        if let second::Entry::Used(subsystem) = entry {
            subsystem.address = b"\0".into();
            subsystem.service = b"4420".into();
        }
    }
    for entry in &mut told.securities {
        if let second::Entry::Used(security) = entry {
            security.keypath = Some(b"/\0k".into());
        }
    }
    assert_eq!(check(&form(&told)), Answer::DONE);
    assert_eq!(meaning(&form(&told)), told);
}

/// The discovery record's faults, each with each that is met after it.
#[test]
fn a_text_is_judged_between_its_reference_and_the_next() {
    let good = form(&small(6, 1));
    let record = u32_at(&good, 104) as usize;
    let [address, name] = [6, 12].map(|field| u32_at(&good, record + field) as usize);
    let faults = [
        (record + 2, 9, number::RECORD),
        (record + 10, 0, number::REFERENCE),
        (address, 0, number::TEXT),
        (record + 16, 0, number::REFERENCE),
        (name, 0, number::TEXT),
        (record + 3, 0, number::INDEX),
    ];
    for (place, first) in faults.iter().enumerate() {
        for later in &faults[place..] {
            let mut table = good.clone();
            (table[later.0], table[first.0]) = (later.1, first.1);
            put_checksum(&mut table);
            assert_eq!(check(&table), Answer::at(first.2, 6, 1));
        }
    }
}

#[test]
fn an_empty_text_is_there_and_has_a_place() {
    let table = form(&with_empty_texts(4));
    assert_eq!(check(&table), Answer::DONE);
    for (kind, position, field) in [
        (2, 0, 18),
        (7, 1, 104),
        (4, 1, 54),
        (9, 1, 12),
        (6, 1, 6),
        (6, 1, 12),
    ] {
        let (answer, place) = object(&table, kind, position, field);
        let place = place.expect("it is there");
        assert_eq!((answer, place.len()), (Answer::DONE, 0));
        assert_eq!(table[place.start], 0);
    }
    let mut output = vec![0; table.len()];
    assert_eq!(rewrite(&table, &mut output), (Answer::DONE, table.len()));
    assert_eq!(output, table);
    let mut absent = form(&small(6, 1));
    let record = u32_at(&absent, 104) as usize;
    put_reference(&mut absent, record + 6, 0, 0);
    put_checksum(&mut absent);
    assert_eq!(object(&absent, 6, 1, 6), (Answer::DONE, None));
    assert_eq!(
        object(&smallest(), 2, 0, 18),
        (Answer::DONE, Some(160..161))
    );
}

#[test]
fn texts_may_share_bytes() {
    let part = |name: &str, kind, position, field| {
        let mut goods = goods().into_iter();
        let table = goods
            .find(|good| good.name == name)
            .expect("it is there")
            .table;
        let place = object(&table, kind, position, field)
            .1
            .expect("it is there");
        table[place].to_vec()
    };
    assert_eq!(
        part("discovery-name-ends-its-address", 6, 1, 12),
        b"10.0.0.8"[4..]
    );
    assert_eq!(
        part("discovery-name-is-its-address", 6, 1, 12),
        b"tcp:10.0.0.8"
    );
    assert_eq!(
        part("discovery-name-is-the-end-of-its-address", 6, 1, 12),
        b""
    );
    assert_eq!(part("host-name-within-signature", 2, 0, 18), b"bc");
    assert_eq!(part("host-name-empty-within-signature", 2, 0, 18), b"");
    assert_eq!(part("info-host-name-within-itself", 7, 1, 104), [1, 7]);
    assert_eq!(
        part("subsystem-service-around-its-name", 4, 1, 16),
        b"\x01nqn.s\0"
    );
    assert_eq!(
        part("subsystem-service-around-its-name", 4, 1, 54),
        b"nqn.s"
    );
}

#[test]
fn every_text_can_be_damaged_in_every_way() {
    let good = form(&machine());
    let found = damages(&good)
        .into_iter()
        .filter(|damage| damage.answer.number == number::TEXT);
    let names: BTreeSet<String> = found.map(|damage| damage.name).collect();
    let texts = [
        "host-name",
        "interface-1-info-host-name",
        "interface-2-info-host-name",
        "subsystem-1-name",
        "subsystem-2-name",
        "subsystem-1-extended-root-path",
        "discovery-1-address",
        "discovery-1-name",
    ];
    let ways = [
        "ends-in-1",
        "ends-in-255",
        "two-zeros-end-it",
        "zero-first",
        "zero-inside",
        "unended",
        "one-byte-not-zero",
    ];
    for text in texts {
        for way in ways {
            assert!(names.contains(&format!("{text}-{way}")), "{text}-{way}");
        }
    }
    assert!(names.contains("host-name-one-byte-behind"));
}

/// The turn of this kind's only record in a list, or the host's.
fn turn_of(kind: u16) -> State {
    State {
        turn: kind,
        position: u16::from(kind != 2),
        counts: [1; 4],
        used: 416,
        minor: 0,
    }
}

/// The answer to a call with this text in one of its fields, by kind and
/// field, where all else is fine.
fn told(kind: u16, field: usize, text: &[u8], room: usize) -> (Answer, State) {
    let (mut buffer, state) = (vec![0; room], turn_of(kind));
    let at = |other: usize, fine: &'static [u8]| {
        if other == field {
            text.to_vec()
        } else {
            fine.to_vec()
        }
    };
    match kind {
        2 => builder::host(&mut buffer, state, &[0; 32], text),
        3 => {
            let told = ToldInterface {
                record: [0; 32],
                info: [1; 128],
                host_name: text,
                extended: None,
                iaid: b"",
                duid: b"",
            };
            builder::hfi(&mut buffer, state, &told)
        }
        4 => {
            let mut record = [0; 128];
            record[3] = 0x10;
            let told = ToldSubsystem {
                record,
                address: b"\0",
                service: b"\0",
                secondary_interfaces: b"\0",
                name: &at(54, b"n"),
                extended: [0; 18],
                root_path: &at(12, b"r"),
            };
            builder::ssns(&mut buffer, state, &told)
        }
        _ => builder::discovery(&mut buffer, state, &[0; 32], &at(6, b"a"), &at(12, b"n")),
    }
}

const TOLD: [(u16, usize, bool); 6] = [
    (2, 18, true),
    (3, 104, false),
    (4, 54, true),
    (4, 12, false),
    (6, 6, false),
    (6, 12, false),
];

/// A refusal that hands back the state.
fn wrong(kind: u16, number: u8) -> (Answer, State) {
    let state = turn_of(kind);
    (Answer::at(number, kind as u8, state.position), state)
}

#[test]
fn told_texts_are_judged_before_the_room() {
    for (kind, field, _) in TOLD {
        for text in [&b"\0"[..], b"a\0", b"\0a", b"a\0b", &[0; 65_534]] {
            assert_eq!(told(kind, field, text, 0), wrong(kind, number::TEXT));
        }
        for text in [[0; 65_535], [1; 65_535]] {
            let too_long = told(kind, field, &text, 0);
            assert_eq!(too_long, wrong(kind, number::REFERENCE));
        }
        let passes = Answer::plain(number::FORM_TOO_LONG);
        assert_eq!(told(kind, field, &[1; 65_534], 0), (passes, turn_of(kind)));
    }
}

#[test]
fn told_texts_are_ended() {
    let short = Answer::plain(number::OUTPUT_TOO_SHORT);
    for (kind, field, required) in TOLD {
        let absent = told(kind, field, b"", 1000);
        let (answer, next) = told(kind, field, b"abc", 1000);
        assert_eq!(answer, Answer::DONE);
        if required {
            assert_eq!(absent, wrong(kind, number::REFERENCE));
        } else {
            assert_eq!((absent.0, next.used - absent.1.used), (Answer::DONE, 4));
        }
        assert_eq!(told(kind, field, b"abc", next.end()).0, Answer::DONE);
        let refused = told(kind, field, b"abc", next.end() - 1);
        assert_eq!(refused, (short, turn_of(kind)));
    }
}

/// Each field may lack its object, or hold a zero byte if it is text; the
/// first field that is wrong tells the number.
#[test]
fn the_first_field_that_is_told_wrong_counts() {
    let fields: [&[&[u8]]; 5] = [
        &[b"a", b""],
        &[b"s", b""],
        &[b"\0"],
        &[b"n", b"", b"n\0"],
        &[b"", b"\0", b"r"],
    ];
    let number_of = |place: usize, object: &[u8]| match (place, object) {
        (0 | 1 | 3, b"") => number::REFERENCE,
        (3 | 4, text) if text.contains(&0) => number::TEXT,
        _ => number::DONE,
    };
    let choices: usize = fields.iter().map(|field| field.len()).product();
    for choice in 0..choices {
        let mut rest = choice;
        let objects = fields.map(|field| {
            let place = rest % field.len();
            rest /= field.len();
            field[place]
        });
        let mut numbers = objects
            .iter()
            .enumerate()
            .map(|(place, o)| number_of(place, o));
        let expected = numbers.find(|number| *number != number::DONE);
        let answer = subsystem_told(objects);
        assert_eq!(answer.number, expected.unwrap_or(number::DONE));
    }
}

fn subsystem_told([address, service, secondary_interfaces, name, root_path]: [&[u8]; 5]) -> Answer {
    let mut record = [0; 128];
    record[3] = 0x10;
    let told = ToldSubsystem {
        record,
        address,
        service,
        secondary_interfaces,
        name,
        extended: [0; 18],
        root_path,
    };
    builder::ssns(&mut [0; 1000], turn_of(4), &told).0
}

#[test]
fn a_text_that_is_dropped_is_not_judged() {
    let told = ToldSubsystem {
        record: [0; 128],
        address: b"a",
        service: b"s",
        secondary_interfaces: b"",
        name: b"n",
        extended: [0; 18],
        root_path: &[0; 70_000],
    };
    let (answer, next) = builder::ssns(&mut [0; 1000], turn_of(4), &told);
    assert_eq!((answer, next.used), (Answer::DONE, 416 + 1 + 1 + 2));
}
