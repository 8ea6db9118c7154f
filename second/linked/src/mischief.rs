//! What may go wrong between a caller and the builder: calls told wrong, states that no call handed out, and buffers
//! that others wrote to.

use second::faults::damages;
use second::form::records_end;
use second::frame::GREATEST_LENGTH;
use second::identity::{Identity, DHCP_ORIGIN};
use second::interface::Info;
use second::random::Random;
use second::record::Record;
use second::retell::Call;
use second::state::{FINISHED, READY};
use second::wire::set_two_bits;
use second::State;
use std::collections::BTreeSet;

/// The objects of a call, in the order of their arguments but for the SSNS's, whose root path is the last.
pub fn objects(call: &mut Call) -> Vec<&mut Vec<u8>> {
    match call {
        Call::Begin(_, _, object) | Call::Host(_, object) => vec![object],
        Call::Hfi { objects, .. } => objects.iter_mut().collect(),
        Call::Ssns(_, _, objects) => objects.iter_mut().collect(),
        Call::Security(_, objects) => objects.iter_mut().collect(),
        Call::Discovery(_, address, name) => vec![address, name],
        Call::Leave | Call::Finish => Vec::new(),
    }
}

/// The record with its two-bit fields, each by its byte and its lower bit.
fn record_with_pairs(call: &mut Call) -> Option<(&mut [u8], &'static [(usize, usize)])> {
    match call {
        Call::Host(record, _) => Some((record, &[(1, 3)])),
        Call::Ssns(record, ..) => Some((&mut record[..], &[(3, 7)])),
        Call::Security(record, _) => Some((record, &[(2, 1), (2, 3), (2, 5), (2, 7)])),
        _ => None,
    }
}

/// The same call with one thing told in another way: a two-bit field wrong, what an info says of its version or its
/// address, a secondary list with more bytes, an object empty, with a zero byte, too long for its length field or as
/// long as that can say, or all bytes of the records noise. Now and then that is so of several objects, so that their
/// order shows.
pub fn spoiled(random: &mut Random, call: &Call) -> Call {
    let mut call = call.clone();
    let kind = random.below(6);
    if kind == 0 {
        return noisy(random, call);
    }
    if kind <= 2 {
        if let Some((record, pairs)) = record_with_pairs(&mut call) {
            let (at, place) = *random.pick(pairs);
            set_two_bits(record, at, place, 3);
            return call;
        }
        if let Call::Hfi { info, extended_told, extended, .. } = &mut call {
            retell_address(random, &mut info[..], extended_told, extended);
            return call;
        }
    }
    if let Call::Ssns(_, _, objects) = &mut call {
        if random.one_in(3) {
            spoil_secondary(random, &mut objects[SECONDARY]);
            return call;
        }
    }
    let mut objects = objects(&mut call);
    if !objects.is_empty() {
        let times = if random.one_in(3) { objects.len() } else { 1 };
        for _ in 0..times {
            let which = random.below(objects.len());
            spoil_object(random, objects[which]);
        }
    }
    call
}

/// The place of the secondary list among the objects of an SSNS.
const SECONDARY: usize = 2;

/// One of its bytes once more, at any place; another byte more; or far more of them than there are HFIs.
fn spoil_secondary(random: &mut Random, list: &mut Vec<u8>) {
    let place = random.below(list.len() + 1);
    match random.below(4) {
        0 | 1 if !list.is_empty() => list.insert(place, *random.pick(list)),
        2 => list.resize(list.len() + *random.pick(&[255, 256, 60_000]), 1),
        _ => list.insert(place, random.byte()),
    }
}

fn spoil_object(random: &mut Random, object: &mut Vec<u8>) {
    if random.flag() {
        let length = *random.pick(&[0, 0, 0, 1, 65_534, 65_535, 65_536, 70_000]);
        object.resize(length, 1);
    } else {
        let place = random.below(object.len() + 1);
        object.insert(place, 0);
    }
}

/// One of the places that the rules of an info and its extended info are about: version, flags, IP origin, whether the
/// extended info is told, and its flags.
fn retell_address(random: &mut Random, info: &mut [u8], extended_told: &mut u8, extended: &mut [u8]) {
    let any = random.byte();
    match random.below(5) {
        0 => info[Info::VERSION_AT] = *random.pick(&[0, 1, 2, 2, 3, 255, any]),
        1 => info[Info::VALID_AT] ^= 1 << *random.pick(&[Info::DHCP_BIT, Info::AUTOCONFIGURED_BIT]),
        2 => info[Info::ORIGIN_AT] = *random.pick(&[0, 1, 2, DHCP_ORIGIN, 4, any]),
        3 => *extended_told = *random.pick(&[0, 1, 2, 128, any]),
        _ => extended[Identity::VALID_AT] ^= 1 << Identity::CLIENT_BIT,
    }
}

/// Noise, of which version and IP origin are most often such that the rules can hold.
fn info_of_noise(random: &mut Random) -> Box<[u8; 128]> {
    let mut info: [u8; 128] = random.array();
    if !random.one_in(8) {
        info[Info::VERSION_AT] = *random.pick(&[1, 2, 2]);
        info[Info::ORIGIN_AT] = *random.pick(&[0, 1, DHCP_ORIGIN, DHCP_ORIGIN]);
    }
    Box::new(info)
}

/// The call of an HFI with these objects and noise for all that is told at a fixed length.
fn noisy_hfi(random: &mut Random, objects: [Vec<u8>; 3]) -> Call {
    let (any, extended) = (random.byte(), random.array());
    let extended_told = *random.pick(&[0, 1, any]);
    Call::Hfi { record: random.array(), info: info_of_noise(random), extended_told, extended, objects }
}

/// The same objects, but noise for all that is told at a fixed length.
fn noisy(random: &mut Random, call: Call) -> Call {
    match call {
        Call::Begin(_, _, signature) => Call::Begin(random.array(), random.array(), signature),
        Call::Host(_, name) => Call::Host(random.array(), name),
        Call::Hfi { objects, .. } => noisy_hfi(random, objects),
        Call::Ssns(_, _, objects) => Call::Ssns(Box::new(random.array()), random.array(), objects),
        Call::Security(_, objects) => Call::Security(random.array(), objects),
        Call::Discovery(_, address, name) => Call::Discovery(random.array(), address, name),
        Call::Leave | Call::Finish => call,
    }
}

/// A call for any turn, from the empty state's to that of a finished one, for which there is none.
pub fn any_call(random: &mut Random) -> Call {
    let turn = random.below(usize::from(FINISHED) + 1);
    call_of_noise(random, turn as u16)
}

/// A call for this turn, with noise for all that is told; where there is none, a position is left unused. Counts are
/// small, so that a run of such calls comes to its end.
pub fn call_of_noise(random: &mut Random, turn: u16) -> Call {
    match turn {
        0 => {
            let counts = std::array::from_fn(|_| random.below(3) as u8);
            Call::Begin(random.array(), counts, any_object(random))
        }
        2 => Call::Host(random.array(), any_object(random)),
        3 => {
            let objects = std::array::from_fn(|_| any_object(random));
            noisy_hfi(random, objects)
        }
        4 => {
            let mut objects = std::array::from_fn(|_| any_object(random));
            if !random.one_in(3) {
                objects[SECONDARY] = any_secondary(random);
            }
            Call::Ssns(Box::new(random.array()), random.array(), objects)
        }
        5 => Call::Security(random.array(), std::array::from_fn(|_| any_object(random))),
        6 => Call::Discovery(random.array(), any_object(random), any_object(random)),
        READY => Call::Finish,
        _ => Call::Leave,
    }
}

/// Now and then empty; its bytes are small, so that a list of indexes may name records that are there. Zero is rare, so
/// that most may be text.
fn any_object(random: &mut Random) -> Vec<u8> {
    let length = random.below(8).saturating_sub(1);
    (0..length).map(|_| if random.one_in(40) { 0 } else { 1 + random.below(3) as u8 }).collect()
}

/// No byte twice, and few, so that the list may be no longer than the HFIs of a small count.
fn any_secondary(random: &mut Random) -> Vec<u8> {
    let mut list = vec![1, 2, 3];
    random.shuffle(&mut list);
    list.truncate(random.below(3));
    list
}

/// A state that differs from this one, most often in one field alone.
pub fn forged(random: &mut Random, state: State) -> State {
    match random.below(12) {
        0 => State::from_bytes(random.array()),
        1 => State { turn: random.below(10) as u16, ..state },
        2 => State { turn: random.word() as u16, ..state },
        3 => State { position: position_near(random, state.position), ..state },
        4 | 5 => State { counts: counts_near(random, state.counts), ..state },
        6 | 7 => State { used: used_near(random, state), ..state },
        8 => State { turn: *random.pick(&[READY, FINISHED]), position: 0, ..state },
        9 | 10 => State { minor: any_minor(random), ..state },
        _ => in_some_list(random, state),
    }
}

fn position_near(random: &mut Random, position: u16) -> u16 {
    let any = random.below(300) as u16;
    *random.pick(&[0, 1, any, position.wrapping_sub(1), position.wrapping_add(1), position | 256, u16::MAX])
}

fn counts_near(random: &mut Random, mut counts: [u8; 4]) -> [u8; 4] {
    let list = random.below(4);
    let count = counts[list];
    counts[list] = *random.pick(&[0, 255, count.wrapping_sub(1), count.wrapping_add(1)]);
    counts
}

/// Around the least and the most that can be used, around what is used, the same with a bit above these set, and any.
fn used_near(random: &mut Random, state: State) -> u32 {
    const GREATEST: u32 = GREATEST_LENGTH as u32;
    let end = records_end(state.counts) as u32;
    let near = *random.pick(&[end, state.used, GREATEST]);
    match random.below(9) {
        0 => 0,
        1 => u32::MAX,
        2 => near | 1 << (17 + random.below(15)),
        3 => end + random.below((GREATEST + 1 - end) as usize) as u32,
        4 => random.word() as u32,
        _ => near.wrapping_sub(2).wrapping_add(random.below(5) as u32),
    }
}

/// The two that are possible, those next to them, a possible one with a higher bit set, and any.
fn any_minor(random: &mut Random) -> u32 {
    let (higher, any) = (1 << (1 + random.below(31)), random.word() as u32);
    *random.pick(&[0, 0, 1, 1, 2, u32::MAX, higher, higher | 1, any])
}

/// A position of a list, as if its turn had come.
fn in_some_list(random: &mut Random, state: State) -> State {
    let list = random.below(4);
    let position = 1 + random.below(usize::from(state.counts[list]).max(1));
    State { turn: 3 + list as u16, position: position as u16, ..state }
}

/// Some bytes below the bytes used changed, most of them in header, control record and first records.
pub fn overwrite(random: &mut Random, buffer: &mut [u8], used: usize) {
    for _ in 0..=random.below(3) {
        let reach = if random.flag() { 200 } else { used };
        let place = random.below(reach.clamp(1, buffer.len()));
        let noise = random.byte();
        buffer[place] = *random.pick(&[0, 1, 2, 255, noise, buffer[place] ^ 1, buffer[place].wrapping_add(1)]);
    }
}

/// The table with one fault of a known number. That is chosen first, since some numbers have few faults, others many.
pub fn damage(random: &mut Random, table: &[u8]) -> Vec<u8> {
    let mut all = damages(table);
    let numbers: BTreeSet<u8> = all.iter().map(|damage| damage.answer.number).collect();
    let number = *random.pick(&Vec::from_iter(numbers));
    all.retain(|damage| damage.answer.number == number);
    let mut damaged = random.pick(&all).apply(table).table;
    damaged.resize(table.len(), 0);
    damaged
}
