//! What differs between the meanings of two tables, line by line.
//!
//! Which fields a record has, and which references, is written down here
//! once more from the layouts, kind by kind. The reads have lists of their
//! own, so that a slip in either shows where the two are compared.

use crate::answer::{CONTROL_KIND, HEADER_KIND};
use crate::discovery::Discovery;
use crate::host::Host;
use crate::identity::{Client, Identity};
use crate::interface::{Info, Interface};
use crate::meaning::{Entry, Meaning};
use crate::record::Record;
use crate::security::{Policy, Security};
use crate::subsystem::{Extended, Subsystem};
use crate::text::Text;
use std::fmt;

/// One of the two tables.
#[derive(Clone, Copy, Debug, PartialEq, Eq, PartialOrd, Ord)]
pub enum Side {
    First,
    Second,
}

/// The record that a line speaks of. A heap record has its own kind and the
/// position of its owner.
#[derive(Clone, Copy, Debug, PartialEq, Eq)]
pub struct Place {
    pub kind: u8,
    pub position: u16,
}

/// A field's bytes in table order.
#[derive(Clone, Debug, PartialEq, Eq)]
pub struct Value(pub Vec<u8>);

/// One difference of two meanings.
#[derive(Clone, Debug, PartialEq, Eq)]
pub enum Line {
    /// A field has these values in the first and the second table.
    Field {
        place: Place,
        offset: usize,
        values: [Value; 2],
    },
    /// An object has these lengths, where 0 stands for an absent one. Its
    /// bytes are the same up to one that differs or that one side lacks.
    Object {
        place: Place,
        offset: usize,
        lengths: [usize; 2],
        at: usize,
    },
    /// Only this side has the list position, or the heap record.
    Only(Place, Side),
    /// Both have the list position, and only this side uses it.
    Used(Place, Side),
}

impl fmt::Display for Side {
    fn fmt(&self, out: &mut fmt::Formatter) -> fmt::Result {
        match self {
            Side::First => out.write_str("1"),
            Side::Second => out.write_str("2"),
        }
    }
}

impl fmt::Display for Place {
    fn fmt(&self, out: &mut fmt::Formatter) -> fmt::Result {
        write!(out, "{} {}", self.kind, self.position)
    }
}

/// What is no wider than four bytes is a number. Addresses and names, all of
/// them wider, are told byte by byte.
impl fmt::Display for Value {
    fn fmt(&self, out: &mut fmt::Formatter) -> fmt::Result {
        let Value(bytes) = self;
        if bytes.len() <= 4 {
            let from_highest = bytes.iter().rev();
            let number = from_highest.fold(0, |number, byte| number << 8 | u32::from(*byte));
            write!(out, "{number}")
        } else {
            bytes.iter().try_for_each(|byte| write!(out, "{byte:02x}"))
        }
    }
}

impl fmt::Display for Line {
    fn fmt(&self, out: &mut fmt::Formatter) -> fmt::Result {
        match self {
            Line::Field {
                place,
                offset,
                values: [one, other],
            } => write!(out, "{place} {offset} {one} {other}"),
            Line::Object {
                place,
                offset,
                lengths: [one, other],
                at,
            } => write!(out, "{place} {offset} {one} {other} {at}"),
            Line::Only(place, side) => write!(out, "{place} only {side}"),
            Line::Used(place, side) => write!(out, "{place} used {side}"),
        }
    }
}

/// All that is printed of two files: the differences of their meanings, or
/// where files are refused, the answers to these and nothing else.
pub fn report(first: &[u8], second: &[u8]) -> String {
    match (Meaning::read(first), Meaning::read(second)) {
        (Ok(one), Ok(other)) => lines_of(changes(&one, &other)),
        (one, other) => lines_of([one.err(), other.err()].into_iter().flatten()),
    }
}

fn lines_of<L: fmt::Display>(lines: impl IntoIterator<Item = L>) -> String {
    lines.into_iter().map(|line| format!("{line}\n")).collect()
}

/// Every difference, in the order in which they are told: the counts first,
/// which say how many positions there are to tell of.
pub fn changes<'a>(one: &Meaning<'a>, other: &Meaning<'a>) -> Vec<Line> {
    [
        counts(one, other),
        header(one, other),
        host(&one.host, &other.host),
        list(&one.interfaces, &other.interfaces, interface),
        list(&one.subsystems, &other.subsystems, subsystem),
        list(&one.securities, &other.securities, security),
        list(&one.discoveries, &other.discoveries, discovery),
    ]
    .concat()
}

/// Nothing more is told of what only one side has.
fn of_both<T>(
    one: Option<T>,
    other: Option<T>,
    alone: impl Fn(Side) -> Line,
    compare: impl Fn(T, T) -> Vec<Line>,
) -> Vec<Line> {
    match (one, other) {
        (Some(one), Some(other)) => compare(one, other),
        (Some(_), None) => vec![alone(Side::First)],
        (None, Some(_)) => vec![alone(Side::Second)],
        (None, None) => Vec::new(),
    }
}

fn list<'a, R: Record<'a>>(
    one: &[Entry<R>],
    other: &[Entry<R>],
    compare: impl Fn(&R, &R, u16) -> Vec<Line>,
) -> Vec<Line> {
    let entry = |index: usize| {
        let position = index as u16 + 1;
        let place = Place {
            kind: R::ID,
            position,
        };
        let only = |side| Line::Only(place, side);
        let used = |side| Line::Used(place, side);
        of_both(one.get(index), other.get(index), only, |one, other| {
            of_both(one.used(), other.used(), used, |one, other| {
                compare(one, other, position)
            })
        })
    };
    let positions = one.len().max(other.len());
    (0..positions).flat_map(entry).collect()
}

fn heap_record<'a, R: Record<'a>>(
    one: Option<&R>,
    other: Option<&R>,
    position: u16,
    compare: impl Fn(&R, &R, u16) -> Vec<Line>,
) -> Vec<Line> {
    let place = Place {
        kind: R::ID,
        position,
    };
    let only = |side| Line::Only(place, side);
    let compare = |one, other| compare(one, other, position);
    of_both(one, other, only, compare)
}

/// A record that both sides have, and what was found to differ in it.
struct Pair {
    place: Place,
    /// The fields of both as a table has them, with all else zero.
    images: [Vec<u8>; 2],
    lines: Vec<Line>,
}

impl Pair {
    fn at(kind: u8, position: u16, images: [Vec<u8>; 2]) -> Pair {
        Pair {
            place: Place { kind, position },
            images,
            lines: Vec::new(),
        }
    }

    fn of<'a, R: Record<'a>>(one: &R, other: &R, position: u16) -> Pair {
        let images = [one, other].map(|record| {
            let mut image = vec![0; R::SIZE];
            record.write_fields(position, &mut image);
            image
        });
        Pair::at(R::ID, position, images)
    }

    /// Fields, each by its first byte and its width.
    fn fields(&mut self, fields: &[(usize, usize)]) {
        for (offset, width) in fields {
            let part = |image: &Vec<u8>| Value(image[*offset..*offset + *width].to_vec());
            let values = self.images.each_ref().map(part);
            if values[0] != values[1] {
                self.lines.push(Line::Field {
                    place: self.place,
                    offset: *offset,
                    values,
                });
            }
        }
    }

    /// An object as the heap has it. One that is there has some byte, so
    /// none at all stands for an absent one.
    fn object(&mut self, offset: usize, one: Option<&[u8]>, other: Option<&[u8]>) {
        let [one, other] = [one, other].map(Option::unwrap_or_default);
        if one != other {
            let same = one.iter().zip(other).take_while(|(a, b)| a == b);
            self.lines.push(Line::Object {
                place: self.place,
                offset,
                lengths: [one.len(), other.len()],
                at: same.count(),
            });
        }
    }

    /// A text, with the zero byte that ends it.
    fn text(&mut self, offset: usize, one: Option<&Text>, other: Option<&Text>) {
        self.object(offset, one.map(Text::ended), other.map(Text::ended));
    }
}

/// The places of the counts are those of the table.
fn counts(one: &Meaning, other: &Meaning) -> Vec<Line> {
    let images = [one, other].map(|meaning| {
        let mut image = vec![0; 128];
        [image[87], image[95], image[103], image[111]] = meaning.counts();
        image
    });
    let mut pair = Pair::at(CONTROL_KIND, 0, images);
    pair.fields(&[(87, 1), (95, 1), (103, 1), (111, 1)]);
    pair.lines
}

fn header(one: &Meaning, other: &Meaning) -> Vec<Line> {
    let images = [one, other].map(|meaning| {
        let mut image = vec![0; 64];
        meaning.origin.write(&mut image);
        image
    });
    let mut pair = Pair::at(HEADER_KIND, 0, images);
    pair.fields(&[(10, 6), (16, 8), (24, 4), (28, 4), (32, 4)]);
    pair.object(
        44,
        one.driver_signature.as_deref(),
        other.driver_signature.as_deref(),
    );
    pair.lines
}

fn host(one: &Host, other: &Host) -> Vec<Line> {
    let mut pair = Pair::of(one, other, 0);
    pair.fields(&[(0, 1), (1, 1), (2, 16)]);
    pair.text(18, Some(&one.name), Some(&other.name));
    pair.lines
}

fn interface(one: &Interface, other: &Interface, position: u16) -> Vec<Line> {
    let mut pair = Pair::of(one, other, position);
    pair.fields(&[(0, 1), (1, 1), (2, 1), (3, 1)]);
    // The info stands at 16. No used interface is without one.
    pair.lines.extend(info(&one.info, &other.info, position));
    pair.lines
}

fn info(one: &Info, other: &Info, position: u16) -> Vec<Line> {
    let mut pair = Pair::of(one, other, position);
    pair.fields(&[(0, 1), (1, 1), (2, 1), (3, 1), (4, 2), (6, 1)]);
    pair.fields(&[(7, 4), (11, 6), (17, 2), (19, 1), (20, 16), (36, 1)]);
    pair.fields(&[(37, 16), (54, 2), (56, 16), (72, 16), (88, 16)]);
    pair.text(104, one.host_name.as_ref(), other.host_name.as_ref());
    // At 110.
    let [one, other] = [one, other].map(identity_of);
    pair.lines
        .extend(heap_record(one, other, position, identity));
    pair.lines
}

/// The HFI extended info that an info has. In version 1 it has none.
fn identity_of<'r, 'a>(info: &'r Info<'a>) -> Option<&'r Identity<'a>> {
    let addition = info.addition.as_ref()?;
    addition.identity.as_ref()
}

fn identity(one: &Identity, other: &Identity, position: u16) -> Vec<Line> {
    fn iaid<'r>(client: &'r Client) -> &'r [u8] {
        &client.iaid
    }
    fn duid<'r>(client: &'r Client) -> &'r [u8] {
        &client.duid
    }
    let mut pair = Pair::of(one, other, position);
    pair.fields(&[(0, 1), (1, 1), (2, 2), (4, 4)]);
    let (one, other) = (one.client.as_ref(), other.client.as_ref());
    pair.object(8, one.map(iaid), other.map(iaid));
    pair.object(14, one.map(duid), other.map(duid));
    pair.lines
}

fn subsystem(one: &Subsystem, other: &Subsystem, position: u16) -> Vec<Line> {
    let mut pair = Pair::of(one, other, position);
    pair.fields(&[(0, 1), (1, 2), (3, 2), (5, 1), (6, 2), (8, 1)]);
    pair.object(10, Some(&one.address), Some(&other.address));
    pair.object(16, Some(&one.service), Some(&other.service));
    pair.fields(&[(22, 2), (24, 4), (28, 1), (29, 16), (45, 1), (46, 1)]);
    pair.object(
        48,
        one.secondary_interfaces.as_deref(),
        other.secondary_interfaces.as_deref(),
    );
    pair.text(54, Some(&one.name), Some(&other.name));
    // At 60.
    let (one, other) = (one.extended.as_ref(), other.extended.as_ref());
    pair.lines
        .extend(heap_record(one, other, position, extended));
    pair.lines
}

fn extended(one: &Extended, other: &Extended, position: u16) -> Vec<Line> {
    let mut pair = Pair::of(one, other, position);
    pair.fields(&[(0, 1), (1, 1), (2, 2), (4, 4), (8, 2), (10, 2)]);
    pair.text(12, one.root_path.as_ref(), other.root_path.as_ref());
    pair.lines
}

fn security(one: &Security, other: &Security, position: u16) -> Vec<Line> {
    fn choices<'r>(policy: &'r Option<Policy>) -> Option<&'r [u8]> {
        policy.as_ref().map(|policy| &*policy.list)
    }
    let mut pair = Pair::of(one, other, position);
    pair.fields(&[(0, 1), (1, 1), (2, 2), (4, 1)]);
    pair.object(6, choices(&one.algorithms), choices(&other.algorithms));
    pair.object(12, choices(&one.protocols), choices(&other.protocols));
    pair.object(18, one.ciphers.as_deref(), other.ciphers.as_deref());
    pair.object(24, one.groups.as_deref(), other.groups.as_deref());
    pair.object(30, one.hashes.as_deref(), other.hashes.as_deref());
    pair.object(36, one.keypath.as_deref(), other.keypath.as_deref());
    pair.lines
}

fn discovery(one: &Discovery, other: &Discovery, position: u16) -> Vec<Line> {
    let mut pair = Pair::of(one, other, position);
    pair.fields(&[(0, 1), (1, 1), (2, 1), (3, 1), (4, 1)]);
    pair.text(6, one.address.as_ref(), other.address.as_ref());
    pair.text(12, one.name.as_ref(), other.name.as_ref());
    pair.lines
}
