//! What the library answers: done, or a number, a kind and a position.

use core::error::Error;
use core::fmt::{self, Display, Formatter};

/// Why a call is refused: those of a check, then those of the other calls, then [`Number::Text`] and
/// [`Number::Secondary`], which are of both, and [`Number::Overlap`], which is of [`compact`](crate::compact) alone.
/// Up to [`Number::Version`] they are tested in this order; then record after record, of each its own fields, its
/// references in turn, with the heap record, the text or the secondary list that one names, and its indexes.
#[repr(u8)]
#[derive(Clone, Copy, Debug, PartialEq, Eq, Hash)]
pub enum Number {
    /// Fewer than 160 bytes are lent.
    TooFewBytes = 1,
    /// The first four bytes are not `NBFT`.
    Signature = 2,
    /// Length is below 160, or above what is lent.
    Length = 3,
    /// Length is above 65,536.
    TooLong = 4,
    /// The bytes do not add up to 0 modulo 256.
    Checksum = 5,
    /// The header's major revision is wrong.
    Revision = 6,
    /// The control record.
    Control = 7,
    /// Record lengths and regions.
    Region = 8,
    /// The version of the host or of a list.
    Version = 9,
    /// The host is not valid, or a record has a wrong ID, index, type or two-bit field.
    Record = 10,
    /// A reference is wrong, outside the heap, or required and absent.
    Reference = 11,
    /// A heap record (transport info or extended info of an HFI, extended info of an SSNS) breaks its rule.
    HeapRecord = 12,
    /// An index names no valid record.
    Index = 13,
    /// The lent output is too short, or the lent map has fewer bits than the heap has bytes.
    OutputTooShort = 14,
    /// A builder call out of turn, or an impossible builder state.
    OutOfTurn = 15,
    /// No such kind, position or field.
    NoSuchField = 16,
    /// The result would pass 65,536 bytes.
    ResultTooLong = 17,
    /// A text does not end in its only zero byte; of a builder call, a text is told with a zero byte.
    Text = 18,
    /// A heap record shares a byte with another object.
    Overlap = 19,
    /// A secondary list, which names HFIs of an SSNS, has more bytes than HFIs are counted, or a byte twice.
    Secondary = 20,
}

impl Number {
    /// All numbers; each stands one place before the one that it is.
    pub const ALL: [Number; 20] = [
        Number::TooFewBytes,
        Number::Signature,
        Number::Length,
        Number::TooLong,
        Number::Checksum,
        Number::Revision,
        Number::Control,
        Number::Region,
        Number::Version,
        Number::Record,
        Number::Reference,
        Number::HeapRecord,
        Number::Index,
        Number::OutputTooShort,
        Number::OutOfTurn,
        Number::NoSuchField,
        Number::ResultTooLong,
        Number::Text,
        Number::Overlap,
        Number::Secondary,
    ];

    /// What it means, in words.
    pub const fn meaning(self) -> &'static str {
        match self {
            Number::TooFewBytes => "too few bytes",
            Number::Signature => "the signature is wrong",
            Number::Length => "Length is outside what is lent",
            Number::TooLong => "Length is above 65536",
            Number::Checksum => "the checksum is wrong",
            Number::Revision => "the header's major revision is wrong",
            Number::Control => "the control record is wrong",
            Number::Region => "a record length or a region is wrong",
            Number::Version => "a version is wrong",
            Number::Record => "a host that is not valid, or a wrong ID, index, type or two-bit field",
            Number::Reference => "a reference is wrong, outside the heap, or required and absent",
            Number::HeapRecord => "a heap record breaks its rule",
            Number::Index => "an index names no valid record",
            Number::OutputTooShort => "the output is too short",
            Number::OutOfTurn => "a builder call out of turn or an impossible state",
            Number::NoSuchField => "no such kind, position or field",
            Number::ResultTooLong => "the output would pass 65536 bytes",
            Number::Text => "a text does not end in its only zero byte",
            Number::Overlap => "a heap record shares a byte with another object",
            Number::Secondary => "a secondary list is too long or names an HFI twice",
        }
    }
}

/// Kinds of records, with the offsets of their fields, and of the references to their objects;
/// [`offsets`](crate::offsets) has them by name.
///
/// A field of more than one byte is followed by its length in brackets. Six objects are text: NQNs, host name, root
/// path and the address of a discovery record, which is a URI. In the table a text ends in a zero byte, its terminator,
/// and has no other. The other objects are bytes of any values.
#[repr(u8)]
#[derive(Clone, Copy, Debug, PartialEq, Eq, Hash)]
pub enum Kind {
    /// Fields 10 OEM ID (6), 16 OEM table ID (8), 24 OEM revision (4), 28 creator ID (4), 32 creator revision (4);
    /// object 44 driver signature.
    Header = 0,
    /// Fields 87, 95, 103 and 111: how many HFIs, SSNSs, security and discovery records there are.
    Control = 1,
    /// Fields 0 ID, 1 flags, 2 host ID (16); object 18 NQN.
    Host = 2,
    /// Fields 0 ID, 1 index, 2 flags, 3 type.
    Hfi = 3,
    /// Fields 0 ID, 1 index (2), 3 flags (2), 5 type, 6 transport flags (2), 8 discovery index, 22 port ID (2),
    /// 24 namespace ID (4), 28 type of the identifier, 29 identifier (16), 45 security index, 46 primary HFI's index;
    /// objects 10 address, 16 service, 48 indexes of the secondary HFIs, 54 NQN.
    Ssns = 4,
    /// Fields 0 ID, 1 index, 2 flags (2), 4 the secret's type; objects 6 algorithms, 12 protocols, 18 cipher suites,
    /// 24 DH groups, 30 hash functions, 36 keypath.
    Security = 5,
    /// Fields 0 ID, 1 flags, 2 index, 3 HFI index, 4 security index; objects 6 address, 12 NQN.
    Discovery = 6,
    /// An HFI's transport info, by the HFI's position. Fields 0 ID, 1 version, 2 type, 3 its version, 4 HFI index (2),
    /// 6 flags, 7 PCI Express routing ID (4), 11 MAC (6), 17 VLAN (2), 19 origin, 20 IP address (16), 36 prefix,
    /// 37 gateway (16), 54 metric (2), 56 and 72 DNS servers (16), 88 DHCP server (16); object 104 host name. Where its
    /// version (3) is 2 it may have an extended info, [`Kind::HfiExtended`].
    HfiInfo = 7,
    /// An SSNS's extended info, by the SSNS's position. Fields 0 ID, 1 version, 2 SSNS index (2), 4 flags (4),
    /// 8 controller ID (2), 10 admin queue size (2); object 12 root path.
    SsnsExtended = 9,
    /// An HFI's extended info, by the HFI's position. Fields 0 ID, 1 version, 2 HFI index (2), 4 flags (4);
    /// objects 8 IAID, 14 DUID.
    HfiExtended = 10,
}

impl Kind {
    const ANSWERED: [Kind; 7] =
        [Kind::Header, Kind::Control, Kind::Host, Kind::Hfi, Kind::Ssns, Kind::Security, Kind::Discovery];

    const fn name(self) -> &'static str {
        match self {
            Kind::Header => "header",
            Kind::Control => "control",
            Kind::Host => "host",
            Kind::Hfi => "HFI",
            Kind::Ssns => "SSNS",
            Kind::Security => "security",
            Kind::Discovery => "discovery",
            Kind::HfiInfo => "HFI transport info",
            Kind::SsnsExtended => "SSNS extended info",
            Kind::HfiExtended => "HFI extended info",
        }
    }
}

/// An answer that is not done: the first fault, and where it is.
#[derive(Clone, Copy, Debug, PartialEq, Eq, Hash)]
pub struct Refusal {
    /// What is wrong.
    pub number: Number,
    /// The kind of record it is in; [`Kind::Header`] where it is in none.
    pub kind: Kind,
    /// The record's position in its list, from 1 on, and 0 outside lists.
    pub position: u16,
}

impl Display for Refusal {
    fn fmt(&self, f: &mut Formatter<'_>) -> fmt::Result {
        f.write_str(self.number.meaning())?;
        match (self.kind, self.position) {
            (Kind::Header, _) => Ok(()),
            (kind, 0) => write!(f, ": {}", kind.name()),
            (kind, position) => write!(f, ": {} {position}", kind.name()),
        }
    }
}

impl Error for Refusal {}

/// Bits 0 to 7 are the number, 8 to 15 the kind, 16 to 31 the position. The library answers with no number above 20
/// and no kind above 6.
pub(crate) fn answered(packed: u32) -> Result<(), Refusal> {
    let [number, kind, low, high] = packed.to_le_bytes();
    match number {
        0 => Ok(()),
        _ => Err(Refusal {
            number: Number::ALL[usize::from(number) - 1],
            kind: Kind::ANSWERED[usize::from(kind)],
            position: u16::from_le_bytes([low, high]),
        }),
    }
}
