//! Free layouts of a meaning: good tables that are not its form.

use crate::form::put_checksum;
use crate::frame::{CONTROL_SIZE, CONTROL_START, DRIVER_SIGNATURE_AT, SIGNATURE};
use crate::host::Host;
use crate::meaning::{Entry, Meaning};
use crate::random::Random;
use crate::record::{Record, Target};
use crate::subsystem::Subsystem;
use crate::text::Text;
use crate::wire::{put, put_reference, put_u16, put_u32, set_bit};

/// How freely a layout treats what it lays out.
#[derive(Clone, Copy, Debug)]
pub struct Style {
    /// Random bytes in every place that counts for nothing.
    pub noise: bool,
    /// Equal bytes may stand once for several objects.
    pub sharing: bool,
    /// Objects may be replaced by any other bytes of the heap, and texts by
    /// any other text in an object or an empty one, which changes the
    /// meaning but keeps the table good.
    pub replacing: bool,
}

impl Style {
    /// Every object has its own bytes, so that damage to one is no damage
    /// to another.
    pub const SEPARATE: Style = Style {
        noise: true,
        sharing: false,
        replacing: false,
    };
    pub const SHARED: Style = Style {
        noise: true,
        sharing: true,
        replacing: false,
    };
    pub const WILD: Style = Style {
        noise: true,
        sharing: true,
        replacing: true,
    };
}

/// A good table with this meaning, unless the style replaces objects.
pub fn lay_out_freely(random: &mut Random, meaning: &Meaning, style: Style) -> Vec<u8> {
    let mut scribe = Scribe {
        random: Random::seeded(random.word()),
        style,
        heap_start: 0,
        heap: Vec::new(),
        objects: Vec::new(),
    };
    // References depend on where the heap starts and that on how long it
    // gets, so the parts are made twice with the same luck.
    let draft = scribe.clone().parts(meaning);
    let plan = Plan::of(random, &draft);
    scribe.heap_start = plan.heap;
    let parts = scribe.parts(meaning);
    plan.write(random, meaning, &parts, style)
}

/// Lent bytes beyond the table's Length.
pub fn with_tail(random: &mut Random, mut table: Vec<u8>) -> Vec<u8> {
    let length = random.below(20);
    table.extend(random.bytes(length));
    table
}

/// The contents of a table's regions.
struct Parts {
    signature: (u32, u16),
    host: Vec<u8>,
    lists: [ListPart; 4],
    heap: Vec<u8>,
}

struct ListPart {
    bytes: Vec<u8>,
    record_length: usize,
    count: u8,
}

/// Writes records and the heap they refer to.
#[derive(Clone)]
struct Scribe {
    random: Random,
    style: Style,
    heap_start: usize,
    heap: Vec<u8>,
    /// Where in the heap each object stands, and its length.
    objects: Vec<(usize, usize)>,
}

impl Scribe {
    fn noise(&mut self, length: usize) -> Vec<u8> {
        if self.style.noise {
            self.random.bytes(length)
        } else {
            vec![0; length]
        }
    }

    fn longer_than(&mut self, size: usize) -> usize {
        size + *self.random.pick(&[0, 0, 1, 5, 32])
    }

    fn parts(mut self, meaning: &Meaning) -> Parts {
        // Discovery first, header last: the heap's order is not the form's.
        let discoveries = self.list(&meaning.discoveries);
        let interfaces = self.list(&meaning.interfaces);
        let length = self.longer_than(Host::SIZE);
        let host = self.record(Some(&meaning.host), 0, length);
        let securities = self.list(&meaning.securities);
        let subsystems = self.list(&meaning.subsystems);
        let signature = match &meaning.driver_signature {
            Some(object) => self.object(object, true),
            None => (0, 0),
        };
        Parts {
            signature,
            host,
            lists: [interfaces, subsystems, securities, discoveries],
            heap: self.heap,
        }
    }

    fn list<'a, R: Record<'a>>(&mut self, list: &[Entry<R>]) -> ListPart {
        let record_length = self.longer_than(R::SIZE);
        let mut bytes = Vec::new();
        for (position, entry) in (1..).zip(list) {
            bytes.extend(self.record(entry.used(), position, record_length));
        }
        ListPart {
            bytes,
            record_length,
            count: list.len() as u8,
        }
    }

    fn record<'a, R: Record<'a>>(
        &mut self,
        record: Option<&R>,
        position: u16,
        length: usize,
    ) -> Vec<u8> {
        let mut bytes = self.noise(length);
        let Some(record) = record else {
            set_bit(&mut bytes, R::VALID_AT, 0, false);
            return bytes;
        };
        record.write_fields(position, &mut bytes);
        for (field, target) in record.targets() {
            // The secondary list's bytes are indexes, so no others will do.
            let replaceable = (R::ID, field) != (Subsystem::ID, 48);
            let (offset, length) = self.target(target, position, replaceable);
            put_reference(&mut bytes, field, offset, length);
        }
        bytes
    }

    fn target(&mut self, target: Target, position: u16, replaceable: bool) -> (u32, u16) {
        match target {
            Target::Absent => (0, 0),
            Target::Object(object) => self.object(object, replaceable),
            Target::Text(text) => self.text(text),
            Target::Info(info) => self.heap_record(info, position),
            Target::Identity(identity) => self.heap_record(identity, position),
            Target::Extended(extended) => self.heap_record(extended, position),
        }
    }

    fn heap_record<'a, R: Record<'a>>(&mut self, record: &R, position: u16) -> (u32, u16) {
        let length = self.longer_than(R::SIZE);
        let bytes = self.record(Some(record), position, length);
        self.append(&bytes)
    }

    fn object(&mut self, object: &[u8], replaceable: bool) -> (u32, u16) {
        let replace = self.style.replacing && replaceable && self.random.one_in(4);
        if replace && !self.heap.is_empty() {
            let start = self.random.below(self.heap.len());
            let length = 1 + self.random.below(self.heap.len() - start);
            return ((self.heap_start + start) as u32, length as u16);
        }
        self.shared_or_own(object)
    }

    fn text(&mut self, text: &Text) -> (u32, u16) {
        if self.style.replacing && self.random.one_in(4) {
            return match self.some_other_text() {
                Some((start, length)) => ((self.heap_start + start) as u32, length as u16),
                None => self.shared_or_own(Text::of("").ended()),
            };
        }
        self.shared_or_own(text.ended())
    }

    /// A zero byte of some object, with none, some or all of the bytes
    /// before it that are not zero.
    fn some_other_text(&mut self) -> Option<(usize, usize)> {
        let mut ends = Vec::new();
        for (start, length) in &self.objects {
            let zeros = (*start..*start + *length).filter(|place| self.heap[*place] == 0);
            ends.extend(zeros.map(|zero| (*start, zero)));
        }
        if ends.is_empty() {
            return None;
        }
        let (start, zero) = *self.random.pick(&ends);
        let before = self.heap[start..zero].iter().rev();
        let longest = before.take_while(|byte| **byte != 0).count();
        let words = match self.random.one_in(3) {
            true => 0,
            false => self.random.below(longest + 1),
        };
        Some((zero - words, words + 1))
    }

    /// The object's bytes where they stand already, or once more.
    fn shared_or_own(&mut self, object: &[u8]) -> (u32, u16) {
        if self.style.sharing && self.random.flag() {
            if let Some(start) = self.within_another(object) {
                return ((self.heap_start + start) as u32, object.len() as u16);
            }
        }
        let reference = self.append(object);
        self.objects
            .push((self.heap.len() - object.len(), object.len()));
        reference
    }

    /// Only objects are searched: heap records hold references, which would
    /// make what is found depend on where the heap starts.
    fn within_another(&self, object: &[u8]) -> Option<usize> {
        self.objects.iter().find_map(|(start, length)| {
            let other = &self.heap[*start..*start + *length];
            let place = other
                .windows(object.len())
                .position(|part| part == object)?;
            Some(start + place)
        })
    }

    fn append(&mut self, bytes: &[u8]) -> (u32, u16) {
        let gap = *self.random.pick(&[0, 0, 1, 3]);
        let gap = self.noise(gap);
        self.heap.extend(gap);
        let start = self.heap_start + self.heap.len();
        self.heap.extend_from_slice(bytes);
        (start as u32, bytes.len() as u16)
    }
}

/// Where each region starts.
struct Plan {
    control_size: usize,
    host: usize,
    lists: [usize; 4],
    heap: usize,
    length: usize,
}

impl Plan {
    /// Regions in any order, with or without gaps.
    fn of(random: &mut Random, parts: &Parts) -> Plan {
        let control_size = CONTROL_SIZE + *random.pick(&[0, 0, 1, 24]);
        let lengths = [
            parts.host.len(),
            parts.heap.len(),
            parts.lists[0].bytes.len(),
            parts.lists[1].bytes.len(),
            parts.lists[2].bytes.len(),
            parts.lists[3].bytes.len(),
        ];
        let mut order = [0, 1, 2, 3, 4, 5];
        random.shuffle(&mut order);
        let mut starts = [0; 6];
        let mut end = CONTROL_START + control_size;
        for region in order {
            starts[region] = end + *random.pick(&[0, 0, 2, 9]);
            end = starts[region] + lengths[region];
        }
        Plan {
            control_size,
            host: starts[0],
            heap: starts[1],
            lists: [starts[2], starts[3], starts[4], starts[5]],
            length: end + *random.pick(&[0, 0, 7]),
        }
    }

    fn write(
        &self,
        random: &mut Random,
        meaning: &Meaning,
        parts: &Parts,
        style: Style,
    ) -> Vec<u8> {
        let mut table = match style.noise {
            true => random.bytes(self.length),
            false => vec![0; self.length],
        };
        self.write_header(&mut table, meaning, parts);
        self.write_control(&mut table, parts);
        put(&mut table, self.host, &parts.host);
        put(&mut table, self.heap, &parts.heap);
        for (start, list) in self.lists.iter().zip(&parts.lists) {
            put(&mut table, *start, &list.bytes);
        }
        put_checksum(&mut table);
        table
    }

    fn write_header(&self, table: &mut [u8], meaning: &Meaning, parts: &Parts) {
        put(table, 0, &SIGNATURE);
        put_u32(table, 4, self.length as u32);
        table[8] = 1;
        meaning.origin.write(table);
        put_u32(table, 36, self.heap as u32);
        put_u32(table, 40, parts.heap.len() as u32);
        let (offset, length) = parts.signature;
        put_reference(table, DRIVER_SIGNATURE_AT, offset, length);
    }

    fn write_control(&self, table: &mut [u8], parts: &Parts) {
        put(table, CONTROL_START, &[1, 1]);
        put_u16(table, 68, self.control_size as u16);
        set_bit(table, 70, 0, true);
        put_reference(table, 72, self.host as u32, parts.host.len() as u16);
        table[78] = 1;
        for (place, list) in parts.lists.iter().enumerate() {
            let at = 80 + 8 * place;
            table[at + 7] = list.count;
            // Nothing but the count is looked at in an empty list's entry.
            if list.count != 0 {
                let start = self.lists[place] as u32;
                put_reference(table, at, start, list.record_length as u16);
                table[at + 6] = 1;
            }
        }
    }
}
