//! Closes up the heap of a table in place: bytes that nothing refers to are
//! given up, and those behind them move down.

use crate::answer::{number, Answer};
use crate::form::put_checksum;
use crate::frame::{Frame, List, DRIVER_SIGNATURE_AT};
use crate::meaning::{Entry, Meaning};
use crate::record::{Record, Target};
use crate::wire::{put, put_u32, u16_at, u32_at};
use std::ops::Range;

const HEAP_LENGTH_AT: usize = 40;

/// A reference that counts and is present.
#[derive(Clone, Copy, Debug, PartialEq, Eq)]
pub struct Site {
    /// Where in the table the reference stands.
    pub at: usize,
    /// Where in the table the bytes start that it refers to, and how many it
    /// states, which for a heap record can be more than its base size.
    pub start: usize,
    pub length: usize,
    pub is_heap_record: bool,
}

impl Site {
    fn read(table: &[u8], at: usize, is_heap_record: bool) -> Site {
        Site {
            at,
            start: u32_at(table, at) as usize,
            length: u16_at(table, at + 4).into(),
            is_heap_record,
        }
    }

    /// Where in the heap its bytes are.
    fn within(&self, heap: &Range<usize>) -> Range<usize> {
        let start = self.start - heap.start;
        start..start + self.length
    }
}

/// The sites of a table, or the first fault of one that is not good.
pub fn sites(lent: &[u8]) -> Result<Vec<Site>, Answer> {
    sites_within(Frame::read(lent)?)
}

fn sites_within(frame: Frame) -> Result<Vec<Site>, Answer> {
    let meaning = Meaning::within(frame)?;
    let mut search = Search {
        table: frame.table,
        found: Vec::new(),
    };
    if meaning.driver_signature.is_some() {
        search.reference(DRIVER_SIGNATURE_AT, false);
    }
    search.record(&meaning.host, frame.host.start as usize);
    search.list(&meaning.interfaces, frame.interfaces);
    search.list(&meaning.subsystems, frame.subsystems);
    search.list(&meaning.securities, frame.securities);
    search.list(&meaning.discoveries, frame.discoveries);
    Ok(search.found)
}

struct Search<'a> {
    table: &'a [u8],
    found: Vec<Site>,
}

impl Search<'_> {
    /// Where what the reference refers to starts.
    fn reference(&mut self, at: usize, is_heap_record: bool) -> usize {
        let site = Site::read(self.table, at, is_heap_record);
        self.found.push(site);
        site.start
    }

    fn heap_record<'a, R: Record<'a>>(&mut self, record: &R, at: usize) {
        let start = self.reference(at, true);
        self.record(record, start);
    }

    fn record<'a, R: Record<'a>>(&mut self, record: &R, start: usize) {
        for (field, target) in record.targets() {
            let at = start + field;
            match target {
                Target::Absent => (),
                Target::Object(_) | Target::Text(_) => {
                    self.reference(at, false);
                }
                Target::Info(info) => self.heap_record(info, at),
                Target::Identity(identity) => self.heap_record(identity, at),
                Target::Extended(extended) => self.heap_record(extended, at),
            }
        }
    }

    fn list<'a, R: Record<'a>>(&mut self, entries: &[Entry<R>], list: List) {
        let length = usize::from(list.record_length);
        for (place, entry) in entries.iter().enumerate() {
            if let Some(record) = entry.used() {
                self.record(record, list.offset as usize + place * length);
            }
        }
    }
}

/// Which heap bytes something refers to. There is no telling where a heap
/// record shares a byte with anything else that is referred to.
fn marks(sites: &[Site], heap: &Range<usize>) -> Option<Vec<bool>> {
    let mut marks = vec![false; heap.len()];
    let mut in_heap_records = vec![false; heap.len()];
    for site in sites {
        let place = site.within(heap);
        let others = match site.is_heap_record {
            true => &marks,
            false => &in_heap_records,
        };
        if others[place.clone()].contains(&true) {
            return None;
        }
        if site.is_heap_record {
            in_heap_records[place.clone()].fill(true);
        }
        marks[place].fill(true);
    }
    Some(marks)
}

/// All that closing a table needs to know.
struct Closing {
    table_length: usize,
    heap: Range<usize>,
    sites: Vec<Site>,
    marks: Vec<bool>,
}

impl Closing {
    /// The table's own faults come first, then a map that is too short.
    fn of(lent: &[u8], map_length: usize) -> Result<Closing, Answer> {
        let frame = Frame::read(lent)?;
        let sites = sites_within(frame)?;
        let heap = frame.heap.start as usize..frame.heap.end() as usize;
        if map_length < heap.len().div_ceil(8) {
            return Err(Answer::plain(number::OUTPUT_TOO_SHORT));
        }
        let marks = marks(&sites, &heap).ok_or(Answer::plain(number::OVERLAP))?;
        Ok(Closing {
            table_length: frame.table.len(),
            heap,
            sites,
            marks,
        })
    }

    /// How many of the heap's first bytes are marked.
    fn marked_below(&self, place: usize) -> usize {
        self.marks[..place].iter().filter(|mark| **mark).count()
    }

    /// Every byte before the first one that is given up stays in its place,
    /// and every one behind it that is kept moves.
    fn moved(&self) -> usize {
        let given_up = self.marks.iter().position(|mark| !mark);
        let staying = given_up.unwrap_or(self.marks.len());
        self.marked_below(self.marks.len()) - staying
    }

    fn write_table(&self, lent: &mut [u8]) {
        for site in &self.sites {
            let place = self.marked_below(site.within(&self.heap).start);
            put_u32(lent, site.at, (self.heap.start + place) as u32);
        }
        let heap = &mut lent[self.heap.clone()];
        let marked = heap.iter().zip(&self.marks).filter(|(_, mark)| **mark);
        let kept: Vec<u8> = marked.map(|(byte, _)| *byte).collect();
        heap.fill(0);
        put(heap, 0, &kept);
        put_u32(lent, HEAP_LENGTH_AT, kept.len() as u32);
        put_checksum(&mut lent[..self.table_length]);
    }

    fn write_map(&self, map: &mut [u8]) {
        map.fill(0);
        for (byte, marks) in map.iter_mut().zip(self.marks.chunks(8)) {
            for (bit, mark) in marks.iter().enumerate() {
                *byte |= u8::from(*mark) << bit;
            }
        }
    }
}

/// Closes up the heap and tells how many bytes of it moved. The map is left
/// with a bit for each heap byte, set where the byte was kept. A refusal
/// leaves both as they were.
pub fn compact(lent: &mut [u8], map: &mut [u8]) -> (Answer, usize) {
    match Closing::of(lent, map.len()) {
        Ok(closing) => {
            closing.write_table(lent);
            closing.write_map(map);
            (Answer::DONE, closing.moved())
        }
        Err(answer) => (answer, 0),
    }
}
