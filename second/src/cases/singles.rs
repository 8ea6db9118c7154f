//! Single builder calls: out of turn, with forged states and buffers, told
//! what is wrong or dropped, or lent too little.

use crate::cases::builds::{run, Step};
use crate::cases::dirty;
use crate::form::record_start;
use crate::identity::Identity;
use crate::interface::{Info, Interface};
use crate::meaning::{meaning, Entry, Meaning};
use crate::record::Record;
use crate::retell::Call;
use crate::samples::{small, smallest};
use crate::secondary;
use crate::state::{State, FINISHED, READY};
use crate::subsystem::Subsystem;
use crate::wire::u32_at;

const fn at(turn: u16, position: u16, counts: [u8; 4], used: u32) -> State {
    State {
        turn,
        position,
        counts,
        used,
        minor: 0,
    }
}

fn host(flags: u8, name: &[u8]) -> Call {
    let mut record = [0; 32];
    record[1] = flags;
    Call::Host(record, name.to_vec())
}

/// An interface of version 1 told as noise but for the info's flags.
fn hfi(flags: u8, name: &[u8]) -> Call {
    interface([1, flags, 0xD7], [3, 0xC9], [name, b"i", b"d"])
}

/// An interface told as noise but for the info's version, flags and IP
/// origin, whether there is an extended info, and the first of its flags.
fn interface(info_told: [u8; 3], extended_told: [u8; 2], objects: [&[u8]; 3]) -> Call {
    let (mut info, mut extended) = ([0xD7; 128], [0xC9; 20]);
    [info[Info::VERSION_AT], info[6], info[Info::ORIGIN_AT]] = info_told;
    let [extended_told, flags] = extended_told;
    extended[4] = flags;
    Call::Hfi {
        record: [0xA6; 32],
        info: Box::new(info),
        extended_told,
        extended,
        objects: objects.map(<[u8]>::to_vec),
    }
}

/// An interface with a client identifier.
fn client(objects: [&[u8]; 3]) -> Call {
    interface([2, 0xF4, 3], [1, 0xFE], objects)
}

/// A subsystem told as noise but for its flags; the last object is the
/// root path.
fn ssns(flags: [u8; 2], objects: [&[u8]; 5]) -> Call {
    let mut record = [0x9D; 128];
    record[3..5].copy_from_slice(&flags);
    Call::Ssns(Box::new(record), [0xB5; 18], objects.map(<[u8]>::to_vec))
}

/// A subsystem's objects with this NQN and root path.
const fn named<'a>(nqn: &'a [u8], root_path: &'a [u8]) -> [&'a [u8]; 5] {
    [b"a", b"b", &[1], nqn, root_path]
}

/// A security record told as noise but for flags and secret type.
fn security(flags: [u8; 3], objects: [&[u8]; 6]) -> Call {
    let mut record = [0x6B; 64];
    record[2..5].copy_from_slice(&flags);
    Call::Security(record, objects.map(<[u8]>::to_vec))
}

fn discovery(address: &[u8], name: &[u8]) -> Call {
    Call::Discovery([0x7A; 32], address.to_vec(), name.to_vec())
}

fn begin(counts: [u8; 4], signature: &[u8]) -> Call {
    Call::Begin(*b"oemid.oemtabidrev.crtr.rev", counts, signature.to_vec())
}

/// Host name, IAID and DUID.
const CLIENT: [&[u8]; 3] = [b"h", b"ia", b"du"];
const NAMES: [&[u8]; 5] = named(b"n", b"r");
const LISTS: [&[u8]; 6] = [b"1", b"22", b"333", b"4444", b"55555", b"/k"];

fn one_of_each() -> [Call; 8] {
    [
        begin([0; 4], b"s"),
        host(0, b"n"),
        hfi(0, b"h"),
        ssns([0x10, 0], NAMES),
        security([0, 0, 0], LISTS),
        discovery(b"u", b"d"),
        Call::Leave,
        Call::Finish,
    ]
}

fn step(state: State, room: usize, call: Call) -> Step {
    Step {
        state,
        buffer: dirty(room),
        call,
    }
}

/// Every call in states that wait for another one.
fn out_of_turn() -> Vec<Step> {
    let fitting = [
        (State::EMPTY, &[0][..]),
        (at(2, 0, [0; 4], 160), &[1]),
        (at(3, 1, [1, 0, 0, 0], 192), &[2, 6]),
        (at(READY, 0, [0; 4], 160), &[7]),
        (at(FINISHED, 0, [0; 4], 160), &[]),
    ];
    let mut steps = Vec::new();
    for (state, fits) in fitting {
        let others = one_of_each().into_iter().enumerate();
        let others = others.filter(|(place, _)| !fits.contains(place));
        steps.extend(others.map(|(_, call)| step(state, 400, call)));
    }
    steps
}

const fn with_minor(minor: u32, state: State) -> State {
    State { minor, ..state }
}

/// Begin from states that are not quite empty, and states with a turn,
/// position, number of bytes used or minor revision that no call hands out;
/// each with the place of the call among one of each.
const FORGED: [(usize, State); 35] = [
    (0, with_minor(1, State::EMPTY)),
    (1, with_minor(2, at(2, 0, [0; 4], 160))),
    (2, with_minor(2, at(3, 1, [1; 4], 416))),
    (4, with_minor(256, at(5, 1, [1; 4], 416))),
    (6, with_minor(u32::MAX, at(6, 1, [1; 4], 416))),
    (7, with_minor(2, at(READY, 0, [0; 4], 160))),
    (7, with_minor(65_537, at(READY, 0, [1; 4], 416))),
    (0, at(0, 0, [0; 4], 1)),
    (0, at(0, 1, [0; 4], 0)),
    (0, at(0, 0, [0, 0, 0, 1], 0)),
    (1, at(2, 1, [0; 4], 160)),
    (1, at(2, 0, [0; 4], 159)),
    (1, at(2, 0, [1; 4], 415)),
    (1, at(2, 0, [0; 4], 65_537)),
    (2, at(3, 0, [1; 4], 416)),
    (2, at(3, 2, [1; 4], 416)),
    (2, at(3, 1, [0, 1, 1, 1], 400)),
    (2, at(3, 257, [1; 4], 416)),
    (3, at(4, 65_535, [1; 4], 416)),
    (3, at(4, 1, [1; 4], 415)),
    (4, at(5, 0, [1; 4], 416)),
    (4, at(5, 1, [1; 4], u32::MAX)),
    (5, at(6, 2, [2, 2, 2, 1], 640)),
    (5, at(6, 1, [0; 4], 160)),
    (6, at(0, 1, [1; 4], 416)),
    (6, at(1, 1, [1; 4], 416)),
    (6, at(3, 0, [1; 4], 416)),
    (6, at(6, 2, [1; 4], 416)),
    (6, at(9, 1, [1; 4], 416)),
    (6, at(65_535, 1, [1; 4], 416)),
    (7, at(READY, 1, [1; 4], 416)),
    (7, at(READY, 0, [1; 4], 415)),
    (7, at(READY, 0, [0; 4], 65_537)),
    (7, at(6, 1, [1; 4], 416)),
    (7, at(263, 0, [0; 4], 160)),
];

fn forged() -> Vec<Step> {
    let all = one_of_each();
    let step = |(call, state): (usize, State)| step(state, 450, all[call].clone());
    FORGED.into_iter().map(step).collect()
}

/// Two-bit fields of 3, before anything else is told wrong or too long.
fn wrong_records() -> Vec<Step> {
    let one = [1; 4];
    let mut steps = vec![
        step(at(2, 0, one, 416), 0, host(0x18, b"")),
        step(at(2, 0, one, 416), 100, host(0xFF, b"n")),
        step(at(4, 1, one, 416), 0, ssns([0x80, 1], [b""; 5])),
        step(at(4, 1, one, 65_536), 0, ssns([0xFF, 0xFF], NAMES)),
    ];
    for flags in [[6, 0], [0x18, 0], [0x60, 0], [0x80, 1]] {
        let call = security([flags[0], flags[1], 0], [b""; 6]);
        steps.push(step(at(5, 1, one, 416), 0, call));
    }
    steps
}

/// Infos and extended infos that break their rules, before anything else
/// is told wrong or too long.
fn wrong_heap_records() -> Vec<Step> {
    let told = [
        interface([0, 0, 3], [1, 2], CLIENT),
        interface([3, 0, 3], [1, 2], CLIENT),
        interface([2, 0x0C, 0], [0, 2], CLIENT),
        interface([2, 0x08, 1], [0, 2], CLIENT),
        interface([2, 0x04, 2], [1, 2], [b""; 3]),
        interface([2, 0x08, 0], [255, 3], CLIENT),
    ];
    let step = |call| step(at(3, 1, [1; 4], 65_536), 0, call);
    told.map(step).into()
}

/// Required objects that are empty, before what would not fit.
fn missing_objects() -> Vec<Step> {
    let one = [1; 4];
    let mut steps = vec![
        step(at(2, 0, one, 416), 0, host(0, b"")),
        step(at(3, 1, one, 65_536), 0, client([b"h", b"", b"du"])),
        step(at(3, 1, one, 416), 0, client([b"", b"ia", b""])),
    ];
    for place in [0, 1, 3] {
        let mut names = NAMES;
        names[place] = b"";
        steps.push(step(at(4, 1, one, 65_536), 0, ssns([0, 0], names)));
    }
    let needs = [
        [0x80, 0, 0],
        [8, 0, 0],
        [0, 2, 0],
        [0, 4, 0],
        [0, 8, 0],
        [0, 0, 1],
    ];
    for (place, flags) in needs.into_iter().enumerate() {
        let mut lists = LISTS;
        lists[place] = b"";
        steps.push(step(at(5, 1, one, 416), 0, security(flags, lists)));
    }
    steps
}

/// Texts with a zero byte in them: the only byte, the first, the last and
/// one inside; each where there is no room, either.
fn zeros_in_texts() -> Vec<Step> {
    let one = [1; 4];
    let mut steps = Vec::new();
    for text in [&b"\0"[..], b"\0a", b"a\0", b"a\0b", b"\0\0"] {
        let told = [
            (at(2, 0, [255; 4], 65_536), host(0, text)),
            (at(3, 1, one, 65_536), hfi(0, text)),
            (at(4, 1, one, 416), ssns([0, 0], named(text, b""))),
            (at(4, 1, one, 65_536), ssns([0x10, 0], named(b"n", text))),
            (at(6, 1, one, 65_536), discovery(text, b"d")),
            (at(6, 1, one, 416), discovery(b"", text)),
        ];
        steps.extend(told.map(|(state, call)| step(state, 200, call)));
    }
    steps
}

/// What is wrong with several objects of a call, of which the first field's
/// counts: one that is missing, and one with a zero byte.
fn mixed_faults() -> Vec<Step> {
    let one = [1; 4];
    let zero = &b"a\0"[..];
    let told = [
        (3, client([zero, b"", b"du"])),
        (3, client([zero, b"ia", b""])),
        (3, interface([2, 0x04, 2], [1, 2], [zero, b"ia", b"du"])),
        (4, ssns([0x10, 0], [b"", b"b", &[1], zero, zero])),
        (4, ssns([0x10, 0], [b"a", b"", &[1], zero, b"r"])),
        (4, ssns([0x10, 0], [zero, zero, &[0], b"", zero])),
        (4, ssns([0x80, 1], [b"a", b"b", &[1], zero, b"r"])),
        (6, discovery(zero, zero)),
    ];
    let mut steps: Vec<Step> = told
        .map(|(turn, call)| step(at(turn, 1, one, 65_536), 0, call))
        .into();
    // A root path that does not count, and plain objects with zero bytes.
    steps.push(step(
        at(4, 1, one, 416),
        430,
        ssns([0, 0], [zero, zero, &[0], b"n", zero]),
    ));
    steps.push(step(at(3, 1, one, 416), 580, client([b"h", zero, b"\0\0"])));
    steps
}

/// The turn of a subsystem in a table with so many interfaces.
const fn behind_interfaces(interfaces: u8) -> State {
    at(4, 1, [interfaces, 1, 0, 0], 288 + 32 * interfaces as u32)
}

/// A subsystem's objects with this secondary list.
const fn listing(list: &[u8]) -> [&[u8]; 5] {
    [b"a", b"b", list, b"n", b"r"]
}

/// Lists that are taken, whatever their indexes name, and lists that are too
/// long or have a byte twice.
fn secondary_lists() -> Vec<Step> {
    let told: [(u8, &[u8]); 16] = [
        (0, &[]),
        (1, &[1]),
        (3, &[3, 1, 2]),
        (3, &[0, 255]),
        (3, &[9, 8, 7]),
        (2, &[2, 0]),
        (0, &[1]),
        (1, &[1, 2]),
        (1, &[1, 1]),
        (3, &[1, 2, 3, 4]),
        (3, &[1, 1]),
        (3, &[1, 1, 2]),
        (3, &[1, 2, 2]),
        (3, &[1, 2, 1]),
        (3, &[0, 0]),
        (255, &[7; 255]),
    ];
    told.map(|(interfaces, list)| {
        let state = behind_interfaces(interfaces);
        // Those that are taken need less, and others are refused before it.
        let room = (state.end() + 40).min(500);
        step(state, room, ssns([0, 0], listing(list)))
    })
    .into()
}

/// A list that is wrong, beside what is judged before it and behind it; and
/// lists of about the greatest length that a reference can say.
fn joint_list_faults() -> Vec<Step> {
    let (wrong, zero) = (&[1, 1][..], &b"a\0"[..]);
    let [longest, too_long] = [65_535, 65_536].map(|length| vec![1; length]);
    let told = [
        ssns([0x80, 1], listing(wrong)),
        ssns([0, 0], [b"", b"b", wrong, b"n", b"r"]),
        ssns([0, 0], [b"a", b"", wrong, zero, b"r"]),
        ssns([0, 0], listing(&too_long)),
        ssns([0, 0], listing(&longest)),
        ssns([0, 0], [b"a", b"b", wrong, b"", b"r"]),
        ssns([0, 0], [b"a", b"b", &[1, 2, 3, 4], zero, b"r"]),
        ssns([0x10, 0], [b"a", b"b", wrong, b"n", zero]),
        ssns([0x10, 0], [b"a", b"b", &[1, 2, 3], zero, zero]),
        ssns([0x10, 0], [b"a", b"b", &[1, 2, 3], b"", zero]),
    ];
    let full = State {
        used: 65_536,
        ..behind_interfaces(3)
    };
    let mut steps: Vec<Step> = told.map(|call| step(full, 0, call)).into();
    let other_turn = at(3, 1, [3, 1, 0, 0], 384);
    steps.push(step(other_turn, 400, ssns([0, 0], listing(wrong))));
    steps
}

/// K11's host names of 96 and 95 bytes: the one passes 65,536 bytes, the
/// other alone is too long for the buffer.
fn full_lists() -> Vec<Step> {
    let host_turn = at(2, 0, [255; 4], 65_440);
    let names = [&[b'n'; 96][..], &[b'n'; 95], b""];
    names.map(|name| step(host_turn, 200, host(0, name))).into()
}

/// Texts, and a plain object, of about the greatest length that a reference
/// can say.
fn longest_texts() -> Vec<Step> {
    let [fits, too_long] = [65_534, 65_535].map(|length| vec![b'n'; length]);
    let one = [1; 4];
    let told = [
        (at(2, 0, one, 416), host(0, &fits)),
        (at(2, 0, one, 416), host(0, &too_long)),
        (at(6, 1, one, 416), discovery(&too_long, b"a\0")),
        (at(6, 1, one, 416), discovery(b"a\0", &too_long)),
        (at(6, 1, one, 416), discovery(&fits, b"a\0")),
        (State::EMPTY, begin(one, &too_long)),
    ];
    told.map(|(state, call)| step(state, 0, call)).into()
}

/// Just past 65,536 bytes, and just not: then the buffer is too short.
fn too_long() -> Vec<Step> {
    let one = [1; 4];
    let told = [
        (at(2, 0, [0; 4], 65_530), host(0, b"123456")),
        (at(2, 0, [0; 4], 65_530), host(0, b"12345")),
        (at(3, 1, one, 65_407), hfi(0, b"h")),
        (at(3, 1, one, 65_408), hfi(0, b"")),
        (at(3, 1, one, 65_383), client(CLIENT)),
        (at(3, 1, one, 65_382), client(CLIENT)),
        (at(4, 1, one, 65_512), ssns([0x10, 0], NAMES)),
        (at(4, 1, one, 65_511), ssns([0x10, 0], NAMES)),
        (at(4, 1, one, 65_531), ssns([0, 0], NAMES)),
        (at(5, 1, one, 65_536), security([0x80, 0, 0], LISTS)),
        (at(5, 1, one, 65_536), security([0, 0, 0], LISTS)),
        (at(6, 1, one, 65_533), discovery(b"u", b"d")),
        (at(6, 1, one, 65_532), discovery(b"u", b"d")),
        (at(6, 1, one, 65_536), discovery(b"", b"")),
        (at(6, 1, one, 65_536), Call::Leave),
        (at(READY, 0, one, 65_536), Call::Finish),
        (State::EMPTY, begin([255; 4], &[7; 97])),
        (State::EMPTY, begin([255; 4], &[7; 96])),
    ];
    let step = |(state, call)| step(state, 200, call);
    told.into_iter().map(step).collect()
}

/// Each call of a run, lent one byte less than would then be used.
fn too_short() -> Vec<Step> {
    let mut steps = run(&small(Subsystem::ID, 1), 0);
    for step in &mut steps {
        let (_, next, _) = step.made();
        step.buffer.truncate(next.end() - 1);
    }
    steps
}

/// Reserved bits, ignored fields and objects, identity and valid bits, all
/// told as noise.
fn dropped() -> Vec<Step> {
    let one = [1; 4];
    vec![
        step(at(2, 0, [0; 4], 160), 170, host(0xF6, b"nqn")),
        step(at(3, 1, [1, 0, 0, 0], 192), 330, hfi(0xFF, b"h")),
        step(at(3, 1, [2, 0, 0, 0], 224), 352, hfi(0xF8, b"")),
        step(with_minor(1, at(3, 1, one, 416)), 544, hfi(0x0C, b"")),
        step(at(3, 1, one, 416), 600, client(CLIENT)),
        step(
            at(3, 1, one, 416),
            544,
            interface([2, 0, 4], [0, 2], [b"", b"i", b""]),
        ),
        step(
            with_minor(1, at(3, 1, [1, 0, 0, 0], 192)),
            350,
            interface([2, 0xF8, 0], [1, 0xFD], [b"h", b"", b"d"]),
        ),
        step(at(4, 1, [1, 2, 0, 0], 448), 480, ssns([0xEA, 0xFE], NAMES)),
        step(at(4, 1, one, 416), 450, ssns([0x15, 0xFF], NAMES)),
        step(at(5, 1, one, 416), 416, security([0, 0xF0, 0xFE], LISTS)),
        step(
            at(5, 2, [0, 0, 2, 1], 320),
            340,
            security([0x4A, 0xFF, 1], LISTS),
        ),
        step(
            at(5, 1, [0, 0, 1, 0], 224),
            230,
            security([0x80, 0, 0], LISTS),
        ),
        step(at(6, 3, [0, 0, 0, 3], 256), 260, discovery(b"", b"nq")),
        step(State::EMPTY, 500, begin(one, b"")),
        step(State::EMPTY, 420, begin([0, 0, 2, 3], b"sign")),
    ]
}

/// The step that finishes a run, in a buffer longer than the table.
fn finishing(meaning: &Meaning) -> Step {
    run(meaning, 40).pop().expect("a run ends with finish")
}

/// Finish where an index names no used record.
fn index_faults() -> Vec<Step> {
    let changed = |change: fn(&mut Subsystem)| {
        let mut meaning = small(Subsystem::ID, 1);
        if let Entry::Used(subsystem) = &mut meaning.subsystems[0] {
            change(subsystem);
        }
        finishing(&meaning)
    };
    let mut profile = small(Subsystem::ID, 1);
    if let Entry::Used(discovery) = &mut profile.discoveries[0] {
        discovery.security = 2;
    }
    vec![
        changed(|subsystem| subsystem.discovery = 2),
        changed(|subsystem| subsystem.security = Some(0)),
        changed(|subsystem| subsystem.primary_interface = 2),
        changed(|subsystem| subsystem.secondary_interfaces = Some(b"\x01\x00".into())),
        finishing(&profile),
    ]
}

/// Finish where a secondary list has become another: it has a byte twice, is
/// longer than the interfaces, or names none.
fn exchanged_lists() -> Vec<Step> {
    let meaning = secondary::listing(&[true, true], &[1, 2]);
    let ready = finishing(&meaning);
    let subsystem = record_start::<Subsystem>(meaning.counts(), 1);
    let list = u32_at(&ready.buffer, subsystem + 48) as usize;
    let edits = [(list, 2), (list + 1, 1), (subsystem + 52, 3), (list, 3)];
    let edited = |(place, byte): (usize, u8)| {
        let mut step = ready.clone();
        step.buffer[place] = byte;
        step
    };
    edits.map(edited).into()
}

/// Bytes of the smallest table to change before it is finished.
const SMALLEST_EDITS: [(usize, u8); 24] = [
    (0, 0),
    (4, 0xFF),
    (8, 2),
    (9, 0xFF),
    (36, 159),
    (36, 161),
    (40, 0xFF),
    (44, 1),
    (50, 1),
    (64, 2),
    (68, 63),
    (70, 0),
    (72, 129),
    (78, 0),
    (87, 1),
    (128, 3),
    (129, 0),
    (129, 0x19),
    (146, 161),
    (150, 0),
    (150, 1),
    (152, 5),
    (160, 0),
    (161, 1),
];

/// Likewise of a table with one interface, whose info stands at 201 and its
/// host name behind that.
const INTERFACE_EDITS: [(usize, u8); 9] = [
    (161, 2),
    (162, 0),
    (180, 127),
    (181, 1),
    (201, 3),
    (207, 6),
    (309, 0),
    (309, 4),
    (330, 0),
];

/// Likewise of a table with one interface whose identity stands behind that
/// and its host name, at 334.
const IDENTITY_EDITS: [(usize, u8); 8] = [
    (50, 7),
    (204, 1),
    (204, 3),
    (220, 1),
    (315, 19),
    (334, 9),
    (338, 1),
    (352, 0),
];

/// Finish with a buffer or a state that no run leaves.
fn tampered() -> Vec<Step> {
    let smallest = finishing(&meaning(&smallest()));
    let interface = finishing(&small(Interface::ID, 1));
    let identity = finishing(&small(Identity::ID, 1));
    let edited = |ready: &Step, (place, byte): (usize, u8)| {
        let mut step = ready.clone();
        step.buffer[place] = byte;
        step
    };
    let mut steps: Vec<Step> = SMALLEST_EDITS.map(|edit| edited(&smallest, edit)).into();
    steps.extend(INTERFACE_EDITS.map(|edit| edited(&interface, edit)));
    steps.extend(IDENTITY_EDITS.map(|edit| edited(&identity, edit)));
    let states = [
        at(READY, 0, [0; 4], 161),
        at(READY, 0, [0; 4], 170),
        at(READY, 0, [0, 0, 0, 1], 192),
        at(READY, 0, [1, 0, 0, 0], 194),
        with_minor(1, at(READY, 0, [0; 4], 162)),
    ];
    steps.extend(states.map(|state| Step {
        state,
        ..smallest.clone()
    }));
    steps.push(Step {
        state: with_minor(0, identity.state),
        ..identity
    });
    steps
}

/// Steps by what they show.
pub fn single_steps() -> Vec<(&'static str, Vec<Step>)> {
    vec![
        ("calls out of turn", out_of_turn()),
        ("forged states", forged()),
        ("two-bit fields of 3", wrong_records()),
        ("heap records that break their rules", wrong_heap_records()),
        ("required objects that are empty", missing_objects()),
        ("texts with a zero byte", zeros_in_texts()),
        ("several objects told wrong", mixed_faults()),
        ("secondary lists", secondary_lists()),
        ("secondary lists beside other faults", joint_list_faults()),
        ("all lists full", full_lists()),
        ("texts of the greatest length", longest_texts()),
        ("about 65,536 bytes", too_long()),
        ("one byte too few lent", too_short()),
        ("what is dropped", dropped()),
        ("indexes that name no used record", index_faults()),
        ("finish with another secondary list", exchanged_lists()),
        ("finish with forged buffers and states", tampered()),
    ]
}
