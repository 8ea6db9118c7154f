//! Sample tables, and what the tests of several files ask of a table.
#![allow(dead_code)] // each file of tests takes what it needs

use nbft::Kind;

pub const SMALLEST: &[u8] = include_bytes!("../../../../samples/smallest.nbft");
pub const MACHINE: &[u8] = include_bytes!("../../../../samples/machine.nbft");
pub const MIXED: &[u8] = include_bytes!("../../../../samples/mixed.nbft");
pub const DHCP: &[u8] = include_bytes!("../../../../samples/dhcp.nbft");
pub const SAMPLES: [&[u8]; 4] = [SMALLEST, MACHINE, MIXED, DHCP];

/// A kind's fields, as offset and length, and the offsets of its references to objects.
pub struct Layout {
    pub kind: Kind,
    pub fields: &'static [(u32, usize)],
    pub objects: &'static [u32],
}

pub const LAYOUTS: [Layout; 10] = [
    Layout { kind: Kind::Header, fields: &[(10, 6), (16, 8), (24, 4), (28, 4), (32, 4)], objects: &[44] },
    Layout { kind: Kind::Control, fields: &[(87, 1), (95, 1), (103, 1), (111, 1)], objects: &[] },
    Layout { kind: Kind::Host, fields: &[(0, 1), (1, 1), (2, 16)], objects: &[18] },
    Layout { kind: Kind::Hfi, fields: &[(0, 1), (1, 1), (2, 1), (3, 1)], objects: &[] },
    Layout {
        kind: Kind::Ssns,
        fields: &[
            (0, 1),
            (1, 2),
            (3, 2),
            (5, 1),
            (6, 2),
            (8, 1),
            (22, 2),
            (24, 4),
            (28, 1),
            (29, 16),
            (45, 1),
            (46, 1),
        ],
        objects: &[10, 16, 48, 54],
    },
    Layout { kind: Kind::Security, fields: &[(0, 1), (1, 1), (2, 2), (4, 1)], objects: &[6, 12, 18, 24, 30, 36] },
    Layout { kind: Kind::Discovery, fields: &[(0, 1), (1, 1), (2, 1), (3, 1), (4, 1)], objects: &[6, 12] },
    Layout {
        kind: Kind::HfiInfo,
        fields: &[
            (0, 1),
            (1, 1),
            (2, 1),
            (3, 1),
            (4, 2),
            (6, 1),
            (7, 4),
            (11, 6),
            (17, 2),
            (19, 1),
            (20, 16),
            (36, 1),
            (37, 16),
            (54, 2),
            (56, 16),
            (72, 16),
            (88, 16),
        ],
        objects: &[104],
    },
    Layout { kind: Kind::SsnsExtended, fields: &[(0, 1), (1, 1), (2, 2), (4, 4), (8, 2), (10, 2)], objects: &[12] },
    Layout { kind: Kind::HfiExtended, fields: &[(0, 1), (1, 1), (2, 2), (4, 4)], objects: &[8, 14] },
];

pub fn layout(kind: Kind) -> &'static Layout {
    LAYOUTS.iter().find(|layout| layout.kind == kind).expect("every kind has a layout")
}

/// A record's fields in table layout, as far as they are within N bytes; what is no field is zero.
pub fn image<const N: usize>(table: &[u8], kind: Kind, position: u16) -> [u8; N] {
    let mut image = [0; N];
    for &(offset, length) in layout(kind).fields {
        let field = nbft::field(table, kind, position, offset).expect("the record has this field");
        image[offset as usize..][..length].copy_from_slice(field.bytes());
    }
    image
}

/// An object's bytes, none where it is absent.
pub fn bytes(table: &[u8], kind: Kind, position: u16, offset: u32) -> &[u8] {
    nbft::object(table, kind, position, offset).expect("the record has this reference").unwrap_or_default()
}

/// How many records the four lists have.
pub fn counts(table: &[u8]) -> [u8; 4] {
    [87, 95, 103, 111].map(|offset| number(table, Kind::Control, 0, offset) as u8)
}

pub fn number(table: &[u8], kind: Kind, position: u16, offset: u32) -> u64 {
    let field = nbft::field(table, kind, position, offset).expect("the record has this field");
    field.number().expect("a field of up to eight bytes")
}

pub fn form(table: &[u8]) -> Vec<u8> {
    let mut out = vec![0; 65_536];
    nbft::rewrite(table, &mut out).expect("a good table with a form that fits").to_vec()
}

/// The same bytes with a checksum that is right for the first Length of them.
pub fn summed(mut table: Vec<u8>) -> Vec<u8> {
    let length = u32::from_le_bytes([table[4], table[5], table[6], table[7]]) as usize;
    table[9] = 0;
    let sum = table.iter().take(length).fold(0, |sum: u8, byte| sum.wrapping_add(*byte));
    table[9] = sum.wrapping_neg();
    table
}
