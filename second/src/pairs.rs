//! Pairs of tables whose meanings are compared: one meaning in two layouts,
//! meanings that differ in something or in all, and a few tables that are
//! refused.

use crate::compact::sites;
use crate::faults::damages;
use crate::form::{form, put_checksum, seal, HOST_START};
use crate::frame::{Frame, MINOR_AT};
use crate::generate::random_meaning;
use crate::host::Host;
use crate::identity::Identity;
use crate::interface::Info;
use crate::interop;
use crate::layout::{lay_out_freely, with_tail, Style};
use crate::meaning::{check, meaning, Entry};
use crate::random::Random;
use crate::read::{field_length, LONGEST_RECORD};
use crate::record::Record;
use crate::security::Security;
use crate::subsystem::{Extended, Subsystem};
use crate::wire::{put_reference, u32_at};
use std::ops::RangeInclusive;

/// The next pair. The same seed gives the same pairs.
pub fn pairs(random: &mut Random) -> (Vec<u8>, Vec<u8>) {
    let plain = form(&random_meaning(random));
    let plain = match random.one_in(4) {
        true => stretched(random, &plain),
        false => plain,
    };
    let other = match random.below(10) {
        0 => plain.clone(),
        1 => form(&random_meaning(random)),
        _ => changed(random, &plain),
    };
    // Changes take away more often than they add, so either table may be
    // the one that was changed.
    let (first, second) = match random.flag() {
        true => (plain, other),
        false => (other, plain),
    };
    let [first_refused, second_refused] = match random.below(30) {
        0 => [true, false],
        1 => [false, true],
        2 => [true, true],
        _ => [false, false],
    };
    let first = as_lent(random, &first, first_refused);
    (first, as_lent(random, &second, second_refused))
}

fn as_lent(random: &mut Random, form: &[u8], is_refused: bool) -> Vec<u8> {
    match is_refused {
        true => refused(random, form),
        false => laid_out(random, form),
    }
}

/// A table as a program may be lent it: its texts and addresses are of every
/// shape that is shown in its own way, or any bytes; one in five is refused.
pub fn lent(random: &mut Random) -> Vec<u8> {
    let plain = match random.flag() {
        true => form(&meaning(&interop::table(random))),
        false => form(&random_meaning(random)),
    };
    let plain = match random.one_in(5) {
        true => stretched(random, &plain),
        false => plain,
    };
    let is_refused = random.one_in(5);
    as_lent(random, &plain, is_refused)
}

/// The form's meaning in some layout. A wild one has other objects.
fn laid_out(random: &mut Random, form: &[u8]) -> Vec<u8> {
    let table = match random.below(10) {
        0 => form.to_vec(),
        1 => lay_out_freely(random, &meaning(form), Style::WILD),
        2..=5 => lay_out_freely(random, &meaning(form), Style::SEPARATE),
        _ => lay_out_freely(random, &meaning(form), Style::SHARED),
    };
    match random.one_in(4) {
        true => with_tail(random, table),
        false => table,
    }
}

/// The form cut short, with a wrong checksum, or with any other fault.
fn refused(random: &mut Random, form: &[u8]) -> Vec<u8> {
    let mut table = form.to_vec();
    match random.below(6) {
        0 => table.truncate(random.below(form.len())),
        1 => table[9] ^= 1 << random.below(8),
        _ => table = random.pick(&damages(form)).apply(form).table,
    }
    table
}

/// The form with one of its lists once more, far behind itself. Indexes name
/// what they named.
fn stretched(random: &mut Random, plain: &[u8]) -> Vec<u8> {
    let mut told = meaning(plain);
    match random.below(4) {
        0 => stretch(random, &mut told.interfaces),
        1 => stretch(random, &mut told.subsystems),
        2 => stretch(random, &mut told.securities),
        _ => stretch(random, &mut told.discoveries),
    }
    form(&told)
}

/// One list alone leaves room enough in a table, however it is laid out.
fn stretch<R: Clone>(random: &mut Random, list: &mut Vec<Entry<R>>) {
    let again = list.clone();
    let before = random.below(256 - again.len());
    list.resize(before.max(list.len()), Entry::Unused);
    list.extend(again);
}

/// A way to change what a form says. What comes of it may be no form, may be
/// refused, and may say the same.
type Change = fn(&mut Random, &[u8]) -> Vec<u8>;

const CHANGES: [Change; 5] = [
    other_field,
    other_flag,
    other_object,
    other_list,
    without_heap_records,
];

/// The form of a meaning that differs in one thing, or in some.
fn changed(random: &mut Random, plain: &[u8]) -> Vec<u8> {
    let mut table = plain.to_vec();
    for _ in 0..*random.pick(&[1, 1, 1, 2, 4]) {
        table = changed_once(random, &table);
    }
    table
}

/// Tries until a table is good, for an index may name what was taken away,
/// and says something else. Some fields of the header can always change.
fn changed_once(random: &mut Random, plain: &[u8]) -> Vec<u8> {
    loop {
        let change = random.pick(&CHANGES);
        let table = change(random, plain);
        if check(&table).is_done() && meaning(&table) != meaning(plain) {
            return form(&meaning(&table));
        }
    }
}

fn other_field(random: &mut Random, plain: &[u8]) -> Vec<u8> {
    let all = fields(plain);
    // A record first, since some kinds have many fields and some have few.
    let of_record = random.pick(&all);
    let (start, width) = *random.pick(of_record);
    let place = start + random.below(width);
    let mut table = plain.to_vec();
    table[place] = match random.below(4) {
        0 => random.byte(),
        1 => table[place].wrapping_add(1),
        _ => table[place] ^ 1 << random.below(8),
    };
    put_checksum(&mut table);
    table
}

/// Flags are few among the fields, but most objects hang on them.
fn other_flag(random: &mut Random, plain: &[u8]) -> Vec<u8> {
    let mut with_flags = records(plain);
    with_flags.retain(|start| !flags(plain[*start]).is_empty());
    let start = *random.pick(&with_flags);
    let (byte, flag) = *random.pick(&flags(plain[start]));
    let mut table = plain.to_vec();
    table[start + byte] ^= 1 << flag;
    put_checksum(&mut table);
    table
}

/// An object exchanged for another, or one that is taken away.
fn other_object(random: &mut Random, plain: &[u8]) -> Vec<u8> {
    let mut objects = sites(plain).expect("a form is good");
    objects.retain(|site| !site.is_heap_record);
    let site = random.pick(&objects);
    let object = similar(random, &plain[site.start..site.start + site.length]);
    with_object(plain, site.at, &object)
}

/// The form with a reference to this object, or to none. It is put behind all
/// others, since a form ends with its heap.
pub fn with_object(plain: &[u8], at: usize, object: &[u8]) -> Vec<u8> {
    let mut table = plain.to_vec();
    let (end, heap) = (table.len(), u32_at(plain, 36) as usize);
    match object.len() {
        0 => put_reference(&mut table, at, 0, 0),
        length => put_reference(&mut table, at, end as u32, length as u16),
    }
    table.extend(object);
    let heap_length = table.len() - heap;
    seal(&mut table, heap_length, plain[MINOR_AT]);
    table
}

/// The object with one byte exchanged, put in or taken out, its beginning,
/// some bytes more, or nothing.
fn similar(random: &mut Random, object: &[u8]) -> Vec<u8> {
    let mut similar = object.to_vec();
    let place = random.below(object.len());
    // In a list of indexes small bytes will do that it does not have yet.
    let byte = match random.below(3) {
        0 => random.byte(),
        1 => *random.pick(object),
        _ => 1 + random.below(4) as u8,
    };
    match random.below(6) {
        0 => similar[place] = byte,
        1 => similar.insert(place, byte),
        2 => drop(similar.remove(place)),
        3 => similar.truncate(place),
        4 => similar.resize(object.len() + 1 + random.below(3), byte),
        _ => similar.clear(),
    }
    similar
}

/// A list is chosen as often as it is long, for the sake of far positions.
fn other_list(random: &mut Random, plain: &[u8]) -> Vec<u8> {
    let mut told = meaning(plain);
    let often = |(list, count): (usize, u8)| vec![list; usize::from(count) + 1];
    let lists = told.counts().into_iter().enumerate().flat_map(often);
    match random.pick(&lists.collect::<Vec<usize>>()) {
        0 => change_list(random, &mut told.interfaces),
        1 => change_list(random, &mut told.subsystems),
        2 => change_list(random, &mut told.securities),
        _ => change_list(random, &mut told.discoveries),
    }
    form(&told)
}

/// Some position more or less, or one that is used no longer.
fn change_list<R: Clone>(random: &mut Random, list: &mut Vec<Entry<R>>) {
    match random.below(6) {
        0 => list.push(Entry::Unused),
        1 => list.extend([Entry::Unused, Entry::Unused]),
        _ if list.is_empty() => (),
        2 => list.truncate(random.below(list.len())),
        3 => list.push(random.pick(list).clone()),
        _ => leave_one(random, list),
    }
    // More than a count can say.
    list.truncate(usize::from(u8::MAX));
}

fn leave_one<R>(random: &mut Random, list: &mut [Entry<R>]) {
    let used = list.iter_mut().filter(|entry| entry.used().is_some());
    let mut used: Vec<&mut Entry<R>> = used.collect();
    if !used.is_empty() {
        let chosen = random.below(used.len());
        *used[chosen] = Entry::Unused;
    }
}

/// Without the extended infos of some subsystems, or with less in the infos
/// of some interfaces.
fn without_heap_records(random: &mut Random, plain: &[u8]) -> Vec<u8> {
    let mut told = meaning(plain);
    if random.one_in(3) {
        for entry in &mut told.subsystems {
            match entry {
                Entry::Used(subsystem) if random.flag() => subsystem.extended = None,
                _ => (),
            }
        }
    } else {
        for entry in &mut told.interfaces {
            match entry {
                Entry::Used(interface) if random.flag() => lessen(random, &mut interface.info),
                _ => (),
            }
        }
    }
    form(&told)
}

/// An info of version 1, one without extended info, or one whose extended
/// info names no client.
fn lessen(random: &mut Random, info: &mut Info) {
    match (random.below(3), &mut info.addition) {
        (0, addition) => *addition = None,
        (1, Some(addition)) => addition.identity = None,
        (_, Some(addition)) => {
            let identity = addition.identity.iter_mut();
            identity.for_each(|identity| identity.client = None);
        }
        _ => (),
    }
}

/// Where a form's host, its used list records and its heap records start.
/// An unused record has no ID there, and what has none is left out.
fn records(form: &[u8]) -> Vec<usize> {
    let frame = Frame::read(form).expect("a form is good");
    let mut starts = vec![HOST_START];
    for list in frame.lists() {
        let start = |place| list.offset as usize + place * usize::from(list.record_length);
        starts.extend((0..list.count.into()).map(start));
    }
    starts.retain(|start| form[*start] != 0);
    let heap_records = sites(form).expect("a form is good").into_iter();
    let heap_records = heap_records.filter(|site| site.is_heap_record);
    starts.extend(heap_records.map(|site| site.start));
    starts
}

/// Where the fields of each record of a form start, and their widths. Those
/// of the header come first.
fn fields(form: &[u8]) -> Vec<Vec<(usize, usize)>> {
    let mut all = vec![vec![(10, 6), (16, 8), (24, 4), (28, 4), (32, 4)]];
    for start in records(form) {
        let field = |offset| Some((start + offset, field_length(form[start], offset as u32)?));
        all.push((0..LONGEST_RECORD).filter_map(field).collect());
    }
    all
}

/// The flags of a record that count besides the valid bit, by byte and bit.
pub fn flags(kind: u8) -> Vec<(usize, u8)> {
    let bits = |byte: usize, bits: RangeInclusive<u8>| bits.map(move |bit| (byte, bit));
    match kind {
        Host::ID => bits(1, 1..=4).collect(),
        Subsystem::ID => bits(3, 1..=7)
            .chain(bits(4, 0..=0))
            .chain(bits(6, 0..=2))
            .collect(),
        Security::ID => bits(2, 1..=7)
            .chain(bits(3, 0..=3))
            .chain(bits(4, 0..=0))
            .collect(),
        Info::ID => bits(6, 1..=3).collect(),
        Extended::ID | Identity::ID => bits(4, 1..=1).collect(),
        _ => Vec::new(),
    }
}
