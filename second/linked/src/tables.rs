//! Tables to compare: directed ones, and an endless row of good ones in many
//! layouts, damaged ones, ones with a wrong text or secondary list, with a few
//! bytes or the version of an info changed, cut ones, and plain noise.

use second::answer::number::{SECONDARY, TEXT};
use second::damage::{outer_damage, put_checksum_within_length, Damage};
use second::faults::damages;
use second::form::form;
use second::frame::Frame;
use second::generate::random_meaning;
use second::goods::goods;
use second::interface::{Info, Interface};
use second::layout::{lay_out_freely, with_tail, Style};
use second::random::Random;
use second::record::Record;
use second::samples::{dhcp, known, machine};
use second::secondary::lists;
use second::wire::u32_at;

/// The samples, good tables that each show one thing, secondary lists, and every damage of two tables.
pub fn directed() -> Vec<Vec<u8>> {
    let (good, with_clients) = (form(&machine()), form(&dhcp()));
    let mut samples = known();
    samples.extend(goods());
    samples.extend(lists());
    for table in [&good, &with_clients] {
        samples.extend(damages(table).iter().map(|damage| damage.apply(table)));
    }
    samples.extend(outer_damage(&good));
    samples.into_iter().map(|sample| sample.table).collect()
}

/// The next table. The same seed gives the same tables.
pub fn next(random: &mut Random) -> Vec<u8> {
    let table = good(random);
    match random.below(11) {
        0 | 1 => table,
        2 => with_tail(random, table),
        3 => damaged(random),
        4 | 5 => changed(random, table),
        6 => cut(random, table),
        7 => other_version(random, table),
        8 => wrong_object(random, TEXT),
        9 => wrong_object(random, SECONDARY),
        _ if random.one_in(50) => too_long(random, table),
        _ => noise(random),
    }
}

/// A good table in some layout.
pub fn good(random: &mut Random) -> Vec<u8> {
    let meaning = random_meaning(random);
    let style = *random.pick(&[Style::SEPARATE, Style::SHARED, Style::WILD]);
    lay_out_freely(random, &meaning, style)
}

/// One fault of a known number, in a table in its one form.
fn damaged(random: &mut Random) -> Vec<u8> {
    let good = form(&random_meaning(random));
    let all = damages(&good);
    random.pick(&all).apply(&good).table
}

/// A text or a secondary list that is wrong, by the number that this gives, in a layout in which no two objects share
/// bytes. Often there is a fault behind it too, and now and then a few bytes more are changed, so that one may come
/// before it.
fn wrong_object(random: &mut Random, number: u8) -> Vec<u8> {
    let (good, all, wrong) = loop {
        let meaning = random_meaning(random);
        let good = lay_out_freely(random, &meaning, Style::SEPARATE);
        let all = damages(&good);
        let wrong: Vec<Damage> = all.iter().filter(|damage| damage.answer.number == number).cloned().collect();
        // Every table has a text, but not every one a subsystem.
        if !wrong.is_empty() {
            break (good, all, wrong);
        }
    };
    let damage = random.pick(&wrong);
    let behind = damage.before(random.pick(&all), &good);
    let table = behind.unwrap_or_else(|| damage.apply(&good)).table;
    if random.one_in(4) {
        changed(random, table)
    } else {
        table
    }
}

/// One to four bytes changed, most of them in the header, the control record
/// and the first records. The checksum is put right three times of four.
fn changed(random: &mut Random, mut table: Vec<u8>) -> Vec<u8> {
    for _ in 0..=random.below(4) {
        let reach = if random.flag() { 160 } else { table.len() };
        let place = random.below(reach);
        table[place] = match random.below(4) {
            0 => random.byte(),
            1 => table[place] ^ (1 << random.below(8)),
            2 => table[place].wrapping_add(1),
            _ => *random.pick(&[0, 1, 2, 3, 255]),
        };
    }
    if !random.one_in(4) {
        put_checksum_within_length(&mut table);
    }
    table
}

/// The info of an interface taken for one of another version: what counted is reserved then, or the other way round.
fn other_version(random: &mut Random, mut table: Vec<u8>) -> Vec<u8> {
    let frame = Frame::read(&table).expect("only a good table has its regions");
    let used: Vec<u8> =
        (1..=frame.interfaces.count).filter(|position| frame.names_valid::<Interface>(*position)).collect();
    if used.is_empty() {
        return table;
    }
    let owner = frame.list_record(Interface::ID, (*random.pick(&used)).into());
    let version = u32_at(owner, 16) as usize + Info::VERSION_AT;
    table[version] = match table[version] {
        1 => 2,
        _ => *random.pick(&[1, 1, 1, 3]),
    };
    put_checksum_within_length(&mut table);
    table
}

fn cut(random: &mut Random, mut table: Vec<u8>) -> Vec<u8> {
    table.truncate(random.below(table.len() + 1));
    table
}

/// A Length above the greatest, with as many bytes lent or a few less.
fn too_long(random: &mut Random, mut table: Vec<u8>) -> Vec<u8> {
    let length = 65_530 + random.below(20);
    table.resize(length, 0);
    table[4..8].copy_from_slice(&(length as u32 + random.below(3) as u32).to_le_bytes());
    put_checksum_within_length(&mut table);
    table
}

/// Noise behind a right signature, so that more than the first two tests is met.
fn noise(random: &mut Random) -> Vec<u8> {
    let length = random.below(600);
    let mut table = random.bytes(length);
    if length >= 64 && random.flag() {
        table[..4].copy_from_slice(b"NBFT");
        table[4..8].copy_from_slice(&(length as u32).to_le_bytes());
        put_checksum_within_length(&mut table);
    }
    table
}

#[cfg(test)]
mod tests {
    use super::*;
    use second::read::Reading;
    use second::{check, Answer};

    /// Whether the first info's version is this one, in a table that is taken.
    fn has_version(table: &[u8], version: u8) -> bool {
        let field = Reading::of(table).field(7, 1, 3);
        field.answer.is_done() && field.bytes[0] == version
    }

    #[test]
    fn infos_of_both_versions_come_with_and_without_an_extended_info() {
        let mut random = Random::seeded(8);
        let tables: Vec<Vec<u8>> = (0..1000).map(|_| next(&mut random)).collect();
        let is_met = |has: &dyn Fn(&[u8]) -> bool| tables.iter().filter(|table| has(table)).count() >= 10;
        let extended = |table: &[u8]| Reading::of(table).record(10, 1).answer.is_done();
        let client = |table: &[u8]| Reading::of(table).object(10, 1, 8).1.is_some();
        assert!(is_met(&|table| has_version(table, 1)));
        assert!(is_met(&|table| has_version(table, 2) && !extended(table)));
        assert!(is_met(&|table| extended(table) && !client(table)));
        assert!(is_met(&client));
        for number in [11, 12] {
            assert!(is_met(&|table| check(table) == Answer::at(number, 3, 1)));
        }
    }

    /// The secondary list of the first subsystem, in a table that is taken.
    fn secondary(table: &[u8]) -> Option<Vec<u8>> {
        let (answer, place) = Reading::of(table).object(4, 1, 48);
        place.filter(|_| answer.is_done()).map(|place| table[place].to_vec())
    }

    #[test]
    fn secondary_lists_come_full_and_with_the_primary_and_wrong() {
        let mut random = Random::seeded(10);
        let tables: Vec<Vec<u8>> = (0..4000).map(|_| next(&mut random)).collect();
        let is_met = |has: &dyn Fn(&[u8]) -> bool| tables.iter().filter(|table| has(table)).count() >= 10;
        let is_full = |table: &[u8]| secondary(table).is_some_and(|list| list.len() == usize::from(table[87]));
        let has_primary = |table: &[u8]| {
            let primary = Reading::of(table).field(4, 1, 46).bytes[0];
            secondary(table).is_some_and(|list| list.contains(&primary))
        };
        assert!(is_met(&is_full) && is_met(&has_primary));
        assert!(is_met(&|table| is_full(table) && table[87] > 1));
        for position in [1, 2] {
            assert!(is_met(&|table| check(table) == Answer::at(SECONDARY, 4, position)));
        }
    }

    /// Every reference to text, with a position that many tables have.
    const TEXTS: [(u8, u16, u32); 6] = [(2, 0, 18), (4, 1, 54), (6, 1, 6), (6, 1, 12), (7, 1, 104), (9, 1, 12)];

    #[test]
    fn texts_come_empty_and_absent_and_wrong() {
        let mut random = Random::seeded(9);
        let tables: Vec<Vec<u8>> = (0..9000).map(|_| next(&mut random)).collect();
        let is_met = |has: &dyn Fn(&[u8]) -> bool| tables.iter().filter(|table| has(table)).count() >= 10;
        for (kind, position, offset) in TEXTS {
            let words = |table: &[u8]| {
                let (answer, place) = Reading::of(table).object(kind, position, offset);
                answer.is_done().then_some(place.map(|place| place.len()))
            };
            assert!(is_met(&|table| words(table) == Some(Some(0))), "{kind} {offset}");
            assert!(is_met(&|table| words(table) > Some(Some(0))), "{kind} {offset}");
            assert!([2, 4].contains(&kind) || is_met(&|table| words(table) == Some(None)), "{kind} {offset}");
        }
        for kind in [2, 3, 4, 6] {
            assert!(is_met(&|table| check(table) == Answer::at(TEXT, kind, u16::from(kind != 2))), "{kind}");
        }
    }
}
