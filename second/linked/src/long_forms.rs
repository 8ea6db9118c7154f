//! Good tables whose forms are about as long as a form can be, or too long.
//! Objects that share bytes make a form longer than its table.

use second::form::put_checksum;
use second::frame::{Frame, DRIVER_SIGNATURE_AT, GREATEST_LENGTH};
use second::generate::random_meaning;
use second::identity::Identity;
use second::interface::{Info, Interface};
use second::layout::{lay_out_freely, Style};
use second::random::Random;
use second::record::Record;
use second::samples::machine;
use second::subsystem::Subsystem;
use second::wire::{bit, put_reference, u16_at, u32_at};
use second::{form, form_length, Entry, Meaning, Text};

/// A form of the greatest length, or some bytes shorter or longer.
pub fn near_the_limit(random: &mut Random) -> Vec<u8> {
    let meaning = random_meaning(random);
    let length = GREATEST_LENGTH - 3 + random.below(7);
    of_length(random, meaning, length)
}

/// A good table whose form has this length: the driver signature, and other
/// objects instead of the meaning's, are parts of one long object. That is a
/// text, so that texts can be its ends.
pub fn of_length(random: &mut Random, mut meaning: Meaning<'static>, length: usize) -> Vec<u8> {
    let subsystems = meaning.subsystems.iter().filter_map(Entry::used).count();
    let longest = length.div_ceil(2 + 3 * subsystems) + random.below(200);
    let words: Vec<u8> = (1..longest).map(|_| 1 + random.below(255) as u8).collect();
    meaning.driver_signature = Some(Text::of(words).ended().to_vec().into());
    let mut table = lay_out_freely(random, &meaning, Style::SEPARATE);
    let object = u32_at(&table, DRIVER_SIGNATURE_AT);
    let mut places = references_never_ignored(&table);
    random.shuffle(&mut places);
    let last = object + longest as u32 - 1;
    for (place, _) in &places {
        put_reference(&mut table, *place, last, 1);
    }
    put_checksum(&mut table);
    let mut left = length - form_length(&second::meaning(&table));
    for (later, (place, holds)) in places.iter().enumerate().rev() {
        // As many bytes that the later ones can still take the rest.
        let least = left.saturating_sub(later * (longest - 1));
        let more = least + random.below(left.min(longest - 1) - least + 1);
        let offset = match holds {
            Holds::Text => last - more as u32,
            Holds::AnyBytes => object + random.below(longest - more) as u32,
        };
        put_reference(&mut table, *place, offset, 1 + more as u16);
        left -= more;
    }
    put_checksum(&mut table);
    assert_eq!(form_length(&second::meaning(&table)), length);
    table
}

/// What the object of a reference may be.
#[derive(Clone, Copy)]
enum Holds {
    AnyBytes,
    Text,
}

/// Where the references stand whose objects are never ignored, but for lists of indexes.
fn references_never_ignored(table: &[u8]) -> Vec<(usize, Holds)> {
    use Holds::{AnyBytes, Text};
    let frame = Frame::read(table).expect("only a good table has its regions");
    let list = frame.subsystems;
    let start = |position: u8| list.offset as usize + usize::from(position - 1) * usize::from(list.record_length);
    let used = (1..=list.count).filter(|position| frame.names_valid::<Subsystem>(*position));
    let mut places = vec![(DRIVER_SIGNATURE_AT, AnyBytes), (frame.host.start as usize + 18, Text)];
    let fields = [(10, AnyBytes), (16, AnyBytes), (54, Text)];
    places.extend(used.flat_map(|position| fields.map(|(field, holds)| (start(position) + field, holds))));
    let interfaces = (1..=frame.interfaces.count).filter(|position| frame.names_valid::<Interface>(*position));
    let clients = interfaces.filter_map(|position| client(&frame, position));
    places.extend(clients.flat_map(|at| [(at + 8, AnyBytes), (at + 14, AnyBytes)]));
    places
}

/// Where the extended info of an interface stands, if it has one with a client identifier.
fn client(frame: &Frame, position: u8) -> Option<usize> {
    let info = u32_at(frame.list_record(Interface::ID, position.into()), 16) as usize;
    let extended = u32_at(frame.table, info + 110) as usize;
    let is_read = frame.table[info + Info::VERSION_AT] == 2 && extended != 0;
    (is_read && bit(u32_at(frame.table, extended + 4), Identity::CLIENT_BIT)).then_some(extended)
}

/// Many records: each list of a random meaning several times over, in any layout.
pub fn crowd(random: &mut Random) -> Vec<u8> {
    let whole = repeated(random_meaning(random), 2 + random.below(40));
    let style = *random.pick(&[Style::SEPARATE, Style::SHARED, Style::WILD]);
    lay_out_freely(random, &whole, style)
}

/// Indexes still name what they named: the first of the copies.
fn repeated(mut meaning: Meaning<'static>, times: usize) -> Meaning<'static> {
    meaning.interfaces = vec![meaning.interfaces; times].concat();
    meaning.subsystems = vec![meaning.subsystems; times].concat();
    meaning.securities = vec![meaning.securities; times].concat();
    meaning.discoveries = vec![meaning.discoveries; times].concat();
    meaning
}

/// 255 security records of which every object is the whole heap: the sum of the lengths passes 24 bits.
pub fn far_too_long() -> Vec<u8> {
    let mut meaning = machine();
    meaning.securities = vec![meaning.securities; 255].concat();
    let mut table = form(&meaning);
    let (heap, length) = (u32_at(&table, 36), u16_at(&table, 40));
    let list = u32_at(&table, 96) as usize;
    for record in 0..255 {
        for field in [6, 12, 18, 24, 30, 36] {
            put_reference(&mut table, list + 64 * record + field, heap, length);
        }
    }
    put_checksum(&mut table);
    table
}
