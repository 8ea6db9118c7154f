//! Version 2 of an info and the extended info it refers to.

use second::answer::number;
use second::builder::{self, ToldInterface};
use second::form::put_checksum;
use second::generate::random_meaning;
use second::layout::{lay_out_freely, Style};
use second::random::Random;
use second::retell::{calls, make_all, Call};
use second::samples::{dhcp, examples, small};
use second::state::READY;
use second::wire::{put, put_reference, u32_at};
use second::{check, field, form, meaning, object, record, Answer, Entry, State};

const WRONG_RECORD: Answer = Answer::at(number::HEAP_RECORD, 3, 1);
const WRONG_REFERENCE: Answer = Answer::at(number::REFERENCE, 3, 1);
const NOT_THERE: Answer = Answer::plain(number::NO_SUCH_FIELD);

/// Where the info and the extended info of the small table stand: behind
/// header, control, host, one HFI, signature and host NQN, and behind the
/// host name, both with the byte that ends them.
const INFO: usize = 160 + 32 + 3 + 6;
const IDENTITY: usize = INFO + 128 + 5;

/// The answer to the small table with these changes.
fn changed(changes: &[(usize, &[u8])]) -> Answer {
    let mut table = form(&small(10, 1));
    for (place, bytes) in changes {
        put(&mut table, *place, bytes);
    }
    put_checksum(&mut table);
    check(&table)
}

#[test]
fn a_form_has_its_records_and_objects_in_order() {
    let table = form(&small(10, 1));
    assert_eq!(table[50], 1);
    assert_eq!(table[66], 0);
    assert_eq!(table[INFO..INFO + 7], [7, 1, 3, 2, 1, 0, 7]);
    assert_eq!(&table[INFO + 128..IDENTITY], b"name\0");
    let (identity, objects) = table[IDENTITY..].split_at(20);
    let places = [IDENTITY as u32 + 20, IDENTITY as u32 + 24].map(u32::to_le_bytes);
    let [[a, b, ..], [c, d, ..]] = places;
    let expected = [10, 1, 1, 0, 3, 0, 0, 0, a, b, 0, 0, 4, 0, c, d, 0, 0, 13, 0];
    assert_eq!(identity, expected);
    assert_eq!(objects[..4], [0, 6, 0x1A, 0xF0]);
    assert_eq!(objects.len(), 17);
    assert_eq!(u32_at(&table, INFO + 110) as usize, IDENTITY);
}

#[test]
fn the_minor_revision_tells_whether_an_info_has_version_2() {
    let mut random = Random::seeded(21);
    let mut seen = [0; 2];
    for _ in 0..200 {
        let told = random_meaning(&mut random);
        let mut used = told.interfaces.iter().filter_map(Entry::used);
        let newer = used.any(|interface| interface.info.addition.is_some());
        assert_eq!(form(&told)[50], u8::from(newer));
        seen[usize::from(newer)] += 1;
    }
    assert!(seen[0] > 20 && seen[1] > 20);
}

#[test]
fn each_rule_of_the_info_has_its_number() {
    assert_eq!(changed(&[]), Answer::DONE);
    for version in [0, 3, 255] {
        assert_eq!(changed(&[(INFO + 3, &[version])]), WRONG_RECORD);
    }
    let origin = |value: &'static [u8]| (INFO + 19, value);
    let flags = |value: &'static [u8]| (INFO + 6, value);
    let without_identity = (INFO + 110, &[0; 6][..]);
    let answer =
        |changes: [(usize, &[u8]); 2]| changed(&[changes[0], changes[1], without_identity]);
    assert_eq!(answer([flags(&[9]), origin(&[0])]), Answer::DONE);
    assert_eq!(answer([flags(&[9]), origin(&[3])]), WRONG_RECORD);
    assert_eq!(answer([flags(&[13]), origin(&[0])]), WRONG_RECORD);
    assert_eq!(answer([flags(&[5]), origin(&[1])]), Answer::DONE);
    // Version 1 looks at none of this.
    let first = (INFO + 3, &[1][..]);
    let garbage = (INFO + 110, &[0, 0, 0, 0, 9, 0][..]);
    assert_eq!(
        changed(&[first, flags(&[13]), origin(&[1]), garbage]),
        Answer::DONE
    );
    assert_eq!(changed(&[garbage]), WRONG_REFERENCE);
}

#[test]
fn each_rule_of_the_extended_info_has_its_number() {
    for (place, value) in [(0, 9), (0, 7), (1, 0), (1, 2), (2, 2), (3, 1), (4, 2)] {
        assert_eq!(changed(&[(IDENTITY + place, &[value])]), WRONG_RECORD);
    }
    assert_eq!(changed(&[(INFO + 114, &[19])]), WRONG_RECORD);
    assert_eq!(changed(&[(INFO + 114, &[21])]), Answer::DONE);
    for origin in [0, 1, 2, 4] {
        assert_eq!(changed(&[(INFO + 19, &[origin])]), WRONG_RECORD);
        let clear = (IDENTITY + 4, &[1][..]);
        assert_eq!(changed(&[(INFO + 19, &[origin]), clear]), Answer::DONE);
    }
    for field in [8, 14] {
        let absent = (IDENTITY + field, &[0; 6][..]);
        let half = (IDENTITY + field, &[0; 4][..]);
        assert_eq!(changed(&[absent]), WRONG_REFERENCE);
        assert_eq!(changed(&[half]), WRONG_REFERENCE);
        assert_eq!(changed(&[half, (IDENTITY + 4, &[1])]), Answer::DONE);
    }
}

/// Each fault of an interface together with each that is met after it.
#[test]
fn the_faults_of_an_interface_are_met_in_order() {
    let half = &[0, 0, 0, 0, 9, 0][..];
    let faults = [
        (160, &[9][..], number::RECORD),
        (176, half, number::REFERENCE),
        (INFO + 3, &[3], number::HEAP_RECORD),
        (INFO + 104, half, number::REFERENCE),
        (INFO + 128, &[0], number::TEXT),
        (INFO + 110, half, number::REFERENCE),
        (IDENTITY, &[9], number::HEAP_RECORD),
        (IDENTITY + 8, half, number::REFERENCE),
        (IDENTITY + 14, half, number::REFERENCE),
    ];
    for (place, first) in faults.iter().enumerate() {
        for later in &faults[place..] {
            let answer = changed(&[(later.0, later.1), (first.0, first.1)]);
            assert_eq!(answer, Answer::at(first.2, 3, 1));
        }
    }
}

/// The record of each example stands in its table byte by byte.
#[test]
fn the_examples_of_the_document_read_as_they_are_printed() {
    let duids: [&[u8]; 2] = [
        &[1, 1, 4, 0x1F, 0xAA, 1, 7, 0, 1, 0x12, 0x31, 0x7A, 0xFE],
        b"\x04\x2E\xC5\xB3\xE1\x0C\x74\x40\x13\x9D\xB5\xB7\x06\x7B\xA5\x72\xA7",
    ];
    let printed = [(5, 0x200, 0x00, 0x400), (0xBE, 0x300, 0xFF, 0x500)];
    for ((sample, (position, iaid_at, first, duid_at)), duid) in
        examples().iter().zip(printed).zip(duids)
    {
        let table = &sample.table;
        assert_eq!(check(table), Answer::DONE);
        let read = record(table, 10, position);
        assert_eq!(read.length, 20);
        assert_eq!(read.bytes[..8], [10, 1, position as u8, 0, 3, 0, 0, 0]);
        let iaid = object(table, 10, position, 8);
        assert_eq!(iaid, (Answer::DONE, Some(iaid_at..iaid_at + 4)));
        assert_eq!(table[iaid_at..iaid_at + 4], [first, 6, 0x1A, 0xF0]);
        let place = object(table, 10, position, 14);
        assert_eq!(place, (Answer::DONE, Some(duid_at..duid_at + 0x17)));
        assert_eq!(&table[duid_at..duid_at + duid.len()], duid);
        assert_eq!(meaning(&form(&meaning(table))), meaning(table));
    }
}

#[test]
fn an_extended_info_that_is_not_there_is_not_read() {
    let table = form(&dhcp());
    assert_eq!(check(&table), Answer::DONE);
    assert_eq!(field(&table, 10, 1, 4).bytes[..4], [3, 0, 0, 0]);
    let (answer, duid) = object(&table, 10, 1, 14);
    assert_eq!(
        (answer, duid.map(|place| place.len())),
        (Answer::DONE, Some(10))
    );
    // Absent in version 2, of version 1, and of no interface.
    for position in [2, 3, 4] {
        assert_eq!(record(&table, 10, position).answer, NOT_THERE);
        assert_eq!(field(&table, 10, position, 0).answer, NOT_THERE);
        assert_eq!(object(&table, 10, position, 8), (NOT_THERE, None));
    }
    for position in [1, 2, 3] {
        assert_eq!(field(&table, 7, position, 110).answer, NOT_THERE);
        assert_eq!(object(&table, 7, position, 110), (NOT_THERE, None));
    }
    assert_eq!(
        [1, 2, 3].map(|at| field(&table, 7, at, 3).bytes[0]),
        [2, 2, 1]
    );
    assert_eq!(
        [1, 2, 3].map(|at| field(&table, 7, at, 6).bytes[0] & 8),
        [0, 8, 0]
    );
    let unused = form(&small(10, 2));
    assert_eq!(record(&unused, 10, 1).answer, NOT_THERE);
    assert_eq!(record(&unused, 10, 2).answer, Answer::DONE);
}

/// Without a client the references are ignored, which is no refusal.
#[test]
fn ignored_identifiers_read_as_absent() {
    let mut table = form(&small(10, 1));
    table[IDENTITY + 4] = 1;
    put_reference(&mut table, IDENTITY + 8, 0, 9);
    put_checksum(&mut table);
    assert_eq!(object(&table, 10, 1, 8), (Answer::DONE, None));
    assert_eq!(object(&table, 10, 1, 14), (Answer::DONE, None));
    assert_eq!(object(&table, 10, 1, 4), (NOT_THERE, None));
}

fn ready_for_interface() -> State {
    State {
        turn: 3,
        position: 1,
        counts: [1, 0, 0, 0],
        used: 192,
        minor: 0,
    }
}

/// An interface that is told with version, flags and IP origin of its info,
/// and with the flags of an extended info, if there is one.
fn told(info: [u8; 3], extended: Option<u8>) -> ToldInterface<'static> {
    let mut bytes = [0xEE; 128];
    [bytes[3], bytes[6], bytes[19]] = info;
    ToldInterface {
        record: [0xEE; 32],
        info: bytes,
        host_name: b"name",
        extended: extended.map(|flags| {
            let mut bytes = [0xEE; 20];
            bytes[4] = flags;
            bytes
        }),
        iaid: b"iaid",
        duid: b"duid",
    }
}

fn answer_to(told: &ToldInterface, room: usize) -> (Answer, State) {
    builder::hfi(&mut vec![0; room], ready_for_interface(), told)
}

/// With a host name that is too long, a missing IAID and no room.
#[test]
fn a_told_record_s_own_rule_comes_before_its_objects_and_the_room() {
    let long = vec![0; 65_535];
    for wrong in [
        told([0, 4, 3], Some(2)),
        told([3, 4, 3], None),
        told([2, 12, 0], None),
        told([2, 8, 1], None),
        told([2, 4, 1], Some(2)),
    ] {
        let all_wrong = ToldInterface {
            host_name: &long,
            iaid: &[],
            ..wrong
        };
        let refused = (WRONG_RECORD, ready_for_interface());
        assert_eq!(answer_to(&all_wrong, 0), refused);
    }
    let forged = State {
        minor: 2,
        ..ready_for_interface()
    };
    let out_of_turn = Answer::plain(number::OUT_OF_TURN);
    let refused = builder::hfi(&mut [], forged, &told([0, 4, 3], None));
    assert_eq!(refused, (out_of_turn, forged));
}

#[test]
fn told_objects_are_judged_before_the_room() {
    let refused = |answer| (answer, ready_for_interface());
    let long = vec![0; 65_536];
    let good = told([2, 4, 3], Some(2));
    let wrong: [(&[u8], &[u8]); 4] = [
        (&[], &long[1..]),
        (&long[1..], &[]),
        (&long, b"d"),
        (b"i", &long),
    ];
    for (iaid, duid) in wrong {
        let wrong = ToldInterface { iaid, duid, ..good };
        assert_eq!(answer_to(&wrong, 0), refused(WRONG_REFERENCE));
    }
    let iaid = &long[1..];
    let too_long = answer_to(&ToldInterface { iaid, ..good }, 0);
    assert_eq!(too_long, refused(Answer::plain(number::FORM_TOO_LONG)));
    let end = 192 + 128 + 5 + 20 + 4 + 4;
    let too_short = answer_to(&good, end - 1);
    assert_eq!(too_short, refused(Answer::plain(number::OUTPUT_TOO_SHORT)));
    let (answer, next) = answer_to(&good, end);
    assert_eq!((answer, next.turn), (Answer::DONE, READY));
    assert_eq!((next.end(), next.minor), (end, 1));
}

#[test]
fn what_does_not_count_is_dropped_before_any_test() {
    let long = vec![0; 70_000];
    let anything = |told| ToldInterface {
        iaid: &long,
        duid: &[],
        ..told
    };
    let used = |told| {
        let (answer, next) = answer_to(&anything(told), 400);
        assert_eq!(answer, Answer::DONE);
        (next.used - 192 - 128 - 5, next.minor)
    };
    assert_eq!(used(told([1, 12, 1], Some(2))), (0, 0));
    assert_eq!(used(told([2, 4, 1], None)), (0, 1));
    assert_eq!(used(told([2, 8, 0], Some(1))), (20, 1));
}

/// What a table of version 1 holds where version 2 has something makes no
/// difference, and no more does what is told there.
#[test]
fn version_1_says_the_same_among_all_noise() {
    let mut random = Random::seeded(22);
    let told = small(3, 1);
    let expected = form(&told);
    for _ in 0..200 {
        let table = lay_out_freely(&mut random, &told, Style::SEPARATE);
        assert_eq!(meaning(&table), told);
        let mut buffer = vec![0; expected.len()];
        let (answer, state) = make_all(&calls(&mut random, &told), &mut buffer);
        assert_eq!((answer, state.minor), (Answer::DONE, 0));
        assert_eq!(buffer, expected);
    }
}

/// Every value but 0 tells the extended info.
#[test]
fn any_value_but_0_tells_the_extended_info() {
    let run = calls(&mut Random::seeded(23), &small(10, 1));
    let telling = |value| {
        let mut run = run.clone();
        for call in &mut run {
            if let Call::Hfi { extended_told, .. } = call {
                *extended_told = value;
            }
        }
        let mut buffer = vec![0; 500];
        let (answer, state) = make_all(&run, &mut buffer);
        assert_eq!(answer, Answer::DONE);
        buffer.truncate(state.end());
        buffer
    };
    let with = form(&small(10, 1));
    for value in [1, 2, 3, 128, 255] {
        assert_eq!(telling(value), with);
    }
    assert_eq!(telling(0).len(), with.len() - 20 - 17);
}

/// Finish stores the state's minor revision, whatever the records say.
#[test]
fn finish_stores_the_minor_revision() {
    let mut run = calls(&mut Random::seeded(24), &small(10, 1));
    run.pop();
    let mut ready = vec![0xEE; 500];
    let (_, state) = make_all(&run, &mut ready);
    assert_eq!((state.minor, ready[50]), (1, 0));
    for minor in [0, 1] {
        let mut buffer = ready.clone();
        buffer[50] = 99;
        let (answer, finished) = builder::finish(&mut buffer, State { minor, ..state });
        assert_eq!((answer, finished.minor), (Answer::DONE, minor));
        assert_eq!(u32::from(buffer[50]), minor);
        assert_eq!(check(&buffer[..finished.end()]), Answer::DONE);
    }
}
