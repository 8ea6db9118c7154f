//! The known samples, and small cases of every call.

use second::answer::number;
use second::builder::{self, ToldInterface};
use second::form::{put_checksum, records_end};
use second::samples::{crowded, dhcp, known, longest, machine, mixed, refused, small, smallest};
use second::state::{FINISHED, READY};
use second::wire::u32_at;
use second::{check, field, form, meaning, object, record, rewrite, Answer, Meaning, State};

fn form_of(table: &[u8]) -> (Answer, Vec<u8>) {
    let mut output = vec![0xEE; 70_000];
    let (answer, length) = rewrite(table, &mut output);
    assert!(output[length..].iter().all(|byte| *byte == 0xEE));
    output.truncate(length);
    (answer, output)
}

#[test]
fn known_samples_get_their_answers() {
    for sample in known() {
        assert_eq!(check(&sample.table), sample.answer, "{}", sample.name);
    }
}

#[test]
fn known_samples_get_their_forms() {
    let samples = known();
    let table = |name: &str| {
        let sample = samples.iter().find(|sample| sample.name == name);
        &sample.expect("the sample is there").table
    };
    assert_eq!(form_of(table("known-1")), (Answer::DONE, smallest()));
    assert_eq!(form_of(table("known-2")), (Answer::DONE, smallest()));
    assert_eq!(form_of(table("known-7")).1.len(), 161);
    assert_eq!(form_of(table("known-9")), (Answer::DONE, smallest()));
    let refused = Answer::at(number::REFERENCE, 2, 0);
    assert_eq!(form_of(table("known-5")), (refused, Vec::new()));
}

#[test]
fn a_builder_run_makes_the_smallest_table() {
    let mut buffer = vec![0xEE; 200];
    let (answer, state) = builder::begin(&mut buffer, State::EMPTY, &[0; 26], [0; 4], &[]);
    assert_eq!(answer, Answer::DONE);
    let (answer, state) = builder::host(&mut buffer, state, &[0xE0; 32], &[0x6E]);
    assert_eq!(answer, Answer::DONE);
    assert_eq!(buffer[4..8], [0; 4]);
    let (answer, state) = builder::finish(&mut buffer, state);
    assert_eq!((answer, state.turn), (Answer::DONE, FINISHED));
    let mut expected = smallest();
    expected[130..146].fill(0xE0);
    put_checksum(&mut expected);
    assert_eq!(buffer[..162], expected);
    assert!(buffer[162..].iter().all(|byte| *byte == 0xEE));
}

/// K11, call by call.
#[test]
fn all_counts_255_leave_room_for_95_bytes_of_text() {
    assert_eq!(records_end([255; 4]), 65_440);
    let mut buffer = vec![0; 65_536];
    let (_, state) = builder::begin(&mut buffer, State::EMPTY, &[0; 26], [255; 4], &[]);
    let refused = builder::host(&mut buffer, state, &[0; 32], &[b'n'; 96]);
    assert_eq!(refused, (Answer::plain(number::FORM_TOO_LONG), state));
    let (answer, mut state) = builder::host(&mut buffer, state, &[0; 32], &[b'n'; 95]);
    assert_eq!(answer, Answer::DONE);
    while state.turn != READY {
        let (answer, next) = builder::leave(&mut buffer, state);
        assert_eq!(answer, Answer::DONE);
        state = next;
    }
    let (answer, _) = builder::finish(&mut buffer, state);
    assert_eq!(answer, Answer::DONE);
    assert_eq!(check(&buffer), Answer::DONE);
    assert_eq!(form_of(&buffer), (Answer::DONE, buffer.clone()));
}

#[test]
fn the_longest_tables_are_taken() {
    for meaning in [crowded(95), longest()] {
        let table = form(&meaning);
        assert_eq!(table.len(), 65_536);
        assert_eq!(check(&table), Answer::DONE);
    }
    assert_eq!(second::form_length(&crowded(96)), 65_537);
}

#[test]
fn a_machine_reads_back() {
    let told = machine();
    let table = form(&told);
    assert!((1200..1500).contains(&table.len()), "{}", table.len());
    assert_eq!(meaning(&table), told);
}

/// The bytes of the UUID at the end of a host NQN, in the order in which they are written.
fn uuid_of(name: &[u8]) -> Vec<u8> {
    let words = std::str::from_utf8(name).expect("a name in ASCII");
    let uuid = words.strip_prefix("nqn.2014-08.org.nvmexpress:uuid:");
    let digits = uuid.expect("a name by UUID").replace('-', "");
    let byte = |place| u8::from_str_radix(&digits[place..place + 2], 16).expect("two digits");
    (0..digits.len()).step_by(2).map(byte).collect()
}

/// What Linux's library wants of a table, or else it leaves something out.
fn is_as_linux_reads_it(said: &Meaning) {
    assert_eq!(said.host.id.to_vec(), uuid_of(said.host.name.words()));
    for subsystem in said.subsystems.iter().filter_map(|entry| entry.used()) {
        assert_eq!(subsystem.address.len(), 16);
        let zero = subsystem.service.iter().position(|byte| *byte == 0);
        assert_eq!(zero, Some(subsystem.service.len() - 1));
        let others = subsystem.secondary_interfaces.as_ref();
        assert!(!others
            .expect("a list")
            .contains(&subsystem.primary_interface));
    }
    for discovery in said.discoveries.iter().filter_map(|entry| entry.used()) {
        assert!(discovery.address.is_some() && discovery.name.is_some());
    }
}

#[test]
fn machines_are_as_linux_reads_them() {
    for said in [machine(), mixed(), dhcp()] {
        is_as_linux_reads_it(&said);
    }
    let mut whole = refused();
    let answer = Answer::at(number::INDEX, 4, 2);
    assert_eq!(check(&whole), answer);
    // The second subsystem's index of a discovery record, which is then the one that there is.
    let start = u32_at(&whole, 88) as usize + 128;
    whole[start + 8] = 1;
    put_checksum(&mut whole);
    assert_eq!(meaning(&whole), machine());
}

#[test]
fn fields_read_as_they_stand_in_the_table() {
    let table = form(&small(4, 2));
    let ssns = |offset| field(&table, 4, 2, offset);
    assert_eq!(ssns(0).bytes[0], 4);
    assert_eq!((ssns(1).length, ssns(1).bytes[0]), (2, 2));
    assert_eq!(ssns(45).bytes[0], 2);
    assert_eq!(ssns(29).bytes, [0xAB; 16]);
    assert_eq!(field(&table, 7, 2, 17).bytes[..2], [7, 0]);
    assert_eq!(field(&table, 9, 2, 8).bytes[..2], [2, 1]);
    assert_eq!(field(&table, 1, 0, 95).bytes[0], 2);
    assert_eq!(&field(&table, 0, 0, 10).bytes[..6], b"OEMID ");
    let unused = field(&table, 4, 1, 29);
    assert_eq!((unused.answer, unused.used), (Answer::DONE, false));
    assert_eq!((unused.length, unused.bytes), (16, [0; 16]));
    assert_eq!(record(&table, 4, 2).bytes[10..22], [0; 12]);
}

#[test]
fn objects_are_parts_of_the_table() {
    let table = form(&small(4, 2));
    let part = |kind, position, offset| {
        let (answer, place) = object(&table, kind, position, offset);
        assert_eq!(answer, Answer::DONE);
        place.map(|place| &table[place])
    };
    assert_eq!(part(0, 0, 44), Some(b"sig".as_slice()));
    assert_eq!(part(2, 0, 18), Some(b"nqn.h".as_slice()));
    assert_eq!(part(4, 2, 16), Some(b"4420".as_slice()));
    assert_eq!(part(9, 2, 12), Some(b"root".as_slice()));
    assert_eq!(part(4, 1, 16), None);
    assert_eq!(part(7, 2, 104), None);
    assert_eq!(part(5, 2, 36), None);
}

/// The offset and length of a field.
type Place = (u32, usize);

/// Every field of every kind, with a position to read it at.
const FIELDS: [(u8, u16, &[Place]); 10] = [
    (0, 0, &[(10, 6), (16, 8), (24, 4), (28, 4), (32, 4)]),
    (1, 0, &[(87, 1), (95, 1), (103, 1), (111, 1)]),
    (2, 0, &[(0, 1), (1, 1), (2, 16)]),
    (3, 2, &[(0, 1), (1, 1), (2, 1), (3, 1)]),
    (
        4,
        2,
        &[
            (0, 1),
            (1, 2),
            (3, 2),
            (5, 1),
            (6, 2),
            (8, 1),
            (22, 2),
            (24, 4),
            (28, 1),
            (29, 16),
            (45, 1),
            (46, 1),
        ],
    ),
    (5, 2, &[(0, 1), (1, 1), (2, 2), (4, 1)]),
    (6, 2, &[(0, 1), (1, 1), (2, 1), (3, 1), (4, 1)]),
    (
        7,
        2,
        &[
            (0, 1),
            (1, 1),
            (2, 1),
            (3, 1),
            (4, 2),
            (6, 1),
            (7, 4),
            (11, 6),
            (17, 2),
            (19, 1),
            (20, 16),
            (36, 1),
            (37, 16),
            (54, 2),
            (56, 16),
            (72, 16),
            (88, 16),
        ],
    ),
    (9, 2, &[(0, 1), (1, 1), (2, 2), (4, 4), (8, 2), (10, 2)]),
    (10, 2, &[(0, 1), (1, 1), (2, 2), (4, 4)]),
];

/// Every object of every kind.
const OBJECTS: [(u8, u16, &[u32]); 8] = [
    (0, 0, &[44]),
    (2, 0, &[18]),
    (4, 2, &[10, 16, 48, 54]),
    (5, 2, &[6, 12, 18, 24, 30, 36]),
    (6, 2, &[6, 12]),
    (7, 2, &[104]),
    (9, 2, &[12]),
    (10, 2, &[8, 14]),
];

#[test]
fn exactly_these_fields_and_objects_exist() {
    // No interface of the one has an identity, and the other has no lists
    // but that of interfaces.
    let (with_subsystem, with_identity) = (form(&small(4, 2)), form(&small(10, 2)));
    for kind in 0..=255 {
        let table = match kind {
            3 | 7 | 10 => &with_identity,
            _ => &with_subsystem,
        };
        let fields = FIELDS.iter().find(|known| known.0 == kind);
        let position = fields.map_or(0, |known| known.1);
        for offset in 0..200 {
            let found = field(table, kind, position, offset);
            let expected = fields.and_then(|known| known.2.iter().find(|f| f.0 == offset));
            assert_eq!(found.length, expected.map_or(0, |field| field.1));
            assert_eq!(found.answer.number, expected.map_or(16, |_| 0));
            assert_eq!(found.used, expected.is_some());
            let objects = OBJECTS.iter().find(|known| known.0 == kind);
            let exists = objects.is_some_and(|known| known.2.contains(&offset));
            let (answer, place) = object(table, kind, position, offset);
            assert_eq!(answer.number, if exists { 0 } else { 16 });
            assert!(exists || place.is_none());
        }
    }
}

#[test]
fn positions_outside_lists_are_refused() {
    let table = form(&small(4, 2));
    let none = Answer::plain(number::NO_SUCH_FIELD);
    let kinds = [
        (0, 1),
        (1, 1),
        (2, 1),
        (3, 0),
        (3, 4),
        (4, 0),
        (4, 3),
        (4, 258),
    ];
    let nested = [
        (7, 1),
        (7, 0),
        (9, 1),
        (9, 3),
        (10, 0),
        (10, 1),
        (10, 2),
        (10, 4),
    ];
    for (kind, position) in kinds.into_iter().chain(nested) {
        assert_eq!(record(&table, kind, position).answer, none);
        for offset in 0..200 {
            let found = field(&table, kind, position, offset);
            assert_eq!((found.answer, found.length), (none, 0));
            assert_eq!(object(&table, kind, position, offset), (none, None));
        }
    }
    for (kind, offset) in [(3, 16), (4, 60), (4, 9)] {
        assert_eq!(field(&table, kind, 1, offset).answer, none);
        assert_eq!(object(&table, kind, 1, offset), (none, None));
    }
}

#[test]
fn a_refused_table_is_told_before_a_missing_field() {
    let mut table = smallest();
    table[8] = 2;
    let refused = Answer::plain(number::CHECKSUM);
    assert_eq!(field(&table, 99, 9, 9).answer, refused);
    assert_eq!(object(&table, 99, 9, 9), (refused, None));
    assert_eq!(record(&table, 99, 9).answer, refused);
}

#[test]
fn ignored_objects_are_dropped_before_any_test() {
    let long = vec![0; 70_000];
    let mut buffer = vec![0; 1000];
    let state = State {
        turn: 5,
        position: 1,
        counts: [0, 0, 1, 0],
        used: 224,
        minor: 0,
    };
    let told = |flags: [u8; 3]| {
        let mut record = [0; 64];
        record[2..5].copy_from_slice(&flags);
        record
    };
    let all: [&[u8]; 6] = [&long; 6];
    let (answer, next) = builder::security(&mut buffer, state, &told([0, 0, 2]), all);
    assert_eq!((answer, next.turn, next.used), (Answer::DONE, READY, 224));
    for flags in [
        [0x80, 0, 0],
        [8, 0, 0],
        [0, 2, 0],
        [0, 4, 0],
        [0, 8, 0],
        [0, 0, 1],
    ] {
        let wrong = Answer::at(number::REFERENCE, 5, 1);
        let before = buffer.clone();
        let refused = builder::security(&mut buffer, state, &told(flags), all);
        assert_eq!(refused, (wrong, state));
        let refused = builder::security(&mut buffer, state, &told(flags), [&[]; 6]);
        assert_eq!(refused, (wrong, state));
        assert_eq!(buffer, before);
    }
}

#[test]
fn begin_refuses_in_order() {
    let mut buffer = vec![0; 1000];
    let long = vec![0; 65_536];
    let mut begin = |length: usize, signature: &[u8]| {
        let part = &mut buffer[..length];
        builder::begin(part, State::EMPTY, &[0; 26], [1, 1, 0, 0], signature).0
    };
    assert_eq!(begin(9, &long), Answer::plain(number::REFERENCE));
    assert_eq!(begin(9, &long[1..]), Answer::plain(number::FORM_TOO_LONG));
    assert_eq!(begin(319, &[]), Answer::plain(number::OUTPUT_TOO_SHORT));
    assert_eq!(begin(320, &[]), Answer::DONE);
}

#[test]
fn later_calls_refuse_in_order() {
    let mut buffer = vec![0; 400];
    let counts = [1, 1, 0, 0];
    let state = builder::begin(&mut buffer, State::EMPTY, &[0; 26], counts, &[]).1;
    let mut told = [0; 32];
    told[1] = 0x18;
    let wrong = Answer::at(number::RECORD, 2, 0);
    assert_eq!(builder::host(&mut [], state, &told, &[]), (wrong, state));
    let missing = Answer::at(number::REFERENCE, 2, 0);
    assert_eq!(
        builder::host(&mut [], state, &[0; 32], &[]),
        (missing, state)
    );
    let too_long = builder::host(&mut [], state, &[0; 32], &[1; 65_216]);
    assert_eq!(too_long, (Answer::plain(number::FORM_TOO_LONG), state));
    let short = Answer::plain(number::OUTPUT_TOO_SHORT);
    let full = builder::host(&mut buffer[..321], state, &[0; 32], &[1]);
    assert_eq!(full, (short, state));
    let (answer, state) = builder::host(&mut buffer[..322], state, &[0; 32], &[1]);
    assert_eq!((answer, state.turn, state.position), (Answer::DONE, 3, 1));
    assert_eq!(builder::leave(&mut buffer[..321], state), (short, state));
    let early = builder::finish(&mut buffer, state);
    assert_eq!(early, (Answer::plain(number::OUT_OF_TURN), state));
}

fn told_interface() -> ToldInterface<'static> {
    ToldInterface {
        record: [0; 32],
        info: [1; 128],
        host_name: &[],
        extended: None,
        iaid: &[],
        duid: &[],
    }
}

/// Forged states, each one step away from one that is possible.
fn impossible_states(good: State) -> Vec<State> {
    let turn = |turn| State { turn, ..good };
    let position = |position| State { position, ..good };
    let used = |used| State { used, ..good };
    let minor = |minor| State { minor, ..good };
    let mut states = vec![position(0), position(2), used(191), used(65_537)];
    states.extend([2, 256, 65_536, u32::MAX].map(minor));
    states.extend([0, 1, 2, 4, 7, 8, 9, 255, 259, 65535].map(turn));
    states
}

#[test]
fn impossible_states_are_refused() {
    let good = State {
        turn: 3,
        position: 1,
        counts: [1, 0, 0, 0],
        used: 193,
        minor: 1,
    };
    let mut buffer = vec![0; 70_000];
    assert_eq!(builder::leave(&mut buffer, good).0, Answer::DONE);
    let (answer, next) = builder::hfi(&mut buffer, good, &told_interface());
    assert_eq!((answer, next.minor), (Answer::DONE, 1));
    for state in impossible_states(good) {
        let refused = (Answer::plain(number::OUT_OF_TURN), state);
        assert_eq!(builder::leave(&mut buffer, state), refused);
        assert_eq!(builder::finish(&mut buffer, state), refused);
        assert_eq!(builder::host(&mut buffer, state, &[0; 32], &[1]), refused);
        let hfi = builder::hfi(&mut buffer, state, &told_interface());
        assert_eq!(hfi, refused);
        let begun = builder::begin(&mut buffer, state, &[0; 26], [0; 4], &[]);
        assert_eq!(begun, refused);
    }
}

#[test]
fn a_rewrite_needs_just_the_room_of_the_form() {
    let table = smallest();
    let mut output = [0xEE; 162];
    assert_eq!(rewrite(&table, &mut output), (Answer::DONE, 162));
    assert_eq!(output, *table);
    let all = second::goods::goods();
    let named = |name: &str| all.iter().find(|sample| sample.name == name);
    let shared = named("form-of-65537-from-shared").expect("it is there");
    let too_long = (Answer::plain(number::FORM_TOO_LONG), 0);
    assert_eq!(rewrite(&shared.table, &mut []), too_long);
    let shared = named("form-of-65536-from-shared").expect("it is there");
    assert_eq!(form_of(&shared.table).1.len(), 65_536);
}
