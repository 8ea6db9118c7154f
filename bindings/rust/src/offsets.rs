//! The offsets of fields and objects by name, a module for each [`Kind`], as [`field`](crate::field) and
//! [`object`](crate::object) take them, and as records told to a [`Builder`](crate::Builder) have them.
//!
//! `include/nbft.h` has the same under the same names: `offsets::ssns::NQN` is `NBFT_SSNS_NQN` there. A field of more
//! than one byte is followed by its length in brackets.
//!
//! ```
//! use nbft::{field, object, offsets, Kind};
//!
//! # fn main() -> Result<(), nbft::Refusal> {
//! # let table = include_bytes!("../../../samples/machine.nbft");
//! assert_eq!(field(table, Kind::Ssns, 1, offsets::ssns::NSID)?.number(), Some(1));
//! assert_eq!(object(table, Kind::HfiInfo, 1, offsets::info::HOST_NAME)?, Some(&b"server-17.example.net"[..]));
//! # Ok(())
//! # }
//! ```

use crate::Kind;

/// Whether the object of the reference is one of the six that are text.
pub(crate) fn is_text(kind: Kind, offset: u32) -> bool {
    matches!(
        (kind, offset),
        (Kind::Host, host::NQN)
            | (Kind::Ssns, ssns::NQN)
            | (Kind::Discovery, discovery::ADDRESS | discovery::NQN)
            | (Kind::HfiInfo, info::HOST_NAME)
            | (Kind::SsnsExtended, ssns_extended::ROOT_PATH)
    )
}

/// Of [`Kind::Header`].
pub mod header {
    /// OEM ID (6).
    pub const OEM_ID: u32 = 10;
    /// OEM table ID (8).
    pub const OEM_TABLE_ID: u32 = 16;
    /// OEM revision (4).
    pub const OEM_REVISION: u32 = 24;
    /// Creator ID (4).
    pub const CREATOR_ID: u32 = 28;
    /// Creator revision (4).
    pub const CREATOR_REVISION: u32 = 32;
    /// Object: the driver signature.
    pub const DRIVER_SIGNATURE: u32 = 44;
}

/// Of [`Kind::Control`], counted from the table's start.
pub mod control {
    /// How many HFIs are counted, used or not.
    pub const HFI_COUNT: u32 = 87;
    /// How many SSNSs are counted.
    pub const SSNS_COUNT: u32 = 95;
    /// How many security records are counted.
    pub const SECURITY_COUNT: u32 = 103;
    /// How many discovery records are counted.
    pub const DISCOVERY_COUNT: u32 = 111;
}

/// Of [`Kind::Host`].
pub mod host {
    /// The record's own ID, which is 2.
    pub const STRUCTURE_ID: u32 = 0;
    /// Flags, whose bits are [`flags::host`](crate::flags::host).
    pub const FLAGS: u32 = 1;
    /// Host ID (16).
    pub const ID: u32 = 2;
    /// Object, a text: the host NQN.
    pub const NQN: u32 = 18;
}

/// Of [`Kind::Hfi`].
pub mod hfi {
    /// The record's own ID, which is 3.
    pub const STRUCTURE_ID: u32 = 0;
    /// Its position.
    pub const INDEX: u32 = 1;
    /// Flags, whose bits are [`flags::hfi`](crate::flags::hfi).
    pub const FLAGS: u32 = 2;
    /// Transport type.
    pub const TRANSPORT_TYPE: u32 = 3;
}

/// Of [`Kind::Ssns`].
pub mod ssns {
    /// The record's own ID, which is 4.
    pub const STRUCTURE_ID: u32 = 0;
    /// Its position (2).
    pub const INDEX: u32 = 1;
    /// Flags (2), whose bits are [`flags::ssns`](crate::flags::ssns).
    pub const FLAGS: u32 = 3;
    /// Transport type.
    pub const TRANSPORT_TYPE: u32 = 5;
    /// Transport flags (2), whose bits are [`flags::ssns_transport`](crate::flags::ssns_transport).
    pub const TRANSPORT_FLAGS: u32 = 6;
    /// The position of a discovery record, or 0.
    pub const DISCOVERY_INDEX: u32 = 8;
    /// Object: the transport address, 16 bytes in network order.
    pub const ADDRESS: u32 = 10;
    /// Object: the transport service, as a rule a port in decimal with a zero byte behind it.
    pub const SERVICE: u32 = 16;
    /// Port ID (2).
    pub const PORT_ID: u32 = 22;
    /// Namespace ID (4).
    pub const NSID: u32 = 24;
    /// Type of the namespace identifier.
    pub const NID_TYPE: u32 = 28;
    /// Namespace identifier (16).
    pub const NID: u32 = 29;
    /// The position of a security record; counts under [`flags::ssns::SECURITY`](crate::flags::ssns::SECURITY).
    pub const SECURITY_INDEX: u32 = 45;
    /// The position of the primary HFI.
    pub const PRIMARY_HFI_INDEX: u32 = 46;
    /// Object: the positions of the secondary HFIs, one byte each.
    pub const SECONDARY_HFI_INDEXES: u32 = 48;
    /// Object, a text: the NQN of the subsystem.
    pub const NQN: u32 = 54;
}

/// Of [`Kind::Security`].
pub mod security {
    /// The record's own ID, which is 5.
    pub const STRUCTURE_ID: u32 = 0;
    /// Its position.
    pub const INDEX: u32 = 1;
    /// Flags (2), whose bits are [`flags::security`](crate::flags::security).
    pub const FLAGS: u32 = 2;
    /// The secret's type, whose bit is [`flags::secret`](crate::flags::secret).
    pub const SECRET_TYPE: u32 = 4;
    /// Object: secure channel algorithms.
    pub const ALGORITHMS: u32 = 6;
    /// Object: authentication protocols.
    pub const PROTOCOLS: u32 = 12;
    /// Object: cipher suites.
    pub const CIPHER_SUITES: u32 = 18;
    /// Object: DH groups.
    pub const DH_GROUPS: u32 = 24;
    /// Object: hash functions.
    pub const HASH_FUNCTIONS: u32 = 30;
    /// Object: the keypath.
    pub const KEYPATH: u32 = 36;
}

/// Of [`Kind::Discovery`].
pub mod discovery {
    /// The record's own ID, which is 6.
    pub const STRUCTURE_ID: u32 = 0;
    /// Flags, whose bits are [`flags::discovery`](crate::flags::discovery).
    pub const FLAGS: u32 = 1;
    /// Its position.
    pub const INDEX: u32 = 2;
    /// The position of an HFI.
    pub const HFI_INDEX: u32 = 3;
    /// The position of a security record, or 0.
    pub const SECURITY_INDEX: u32 = 4;
    /// Object, a text: the address of the discovery controller, a URI.
    pub const ADDRESS: u32 = 6;
    /// Object, a text: the NQN of the discovery controller.
    pub const NQN: u32 = 12;
}

/// Of [`Kind::HfiInfo`].
pub mod info {
    /// The record's own ID, which is 7.
    pub const STRUCTURE_ID: u32 = 0;
    /// Version of the record, which is 1.
    pub const VERSION: u32 = 1;
    /// Transport type.
    pub const TRANSPORT_TYPE: u32 = 2;
    /// Version of the transport info, 1 or 2.
    pub const INFO_VERSION: u32 = 3;
    /// The position of its HFI (2).
    pub const HFI_INDEX: u32 = 4;
    /// Flags, whose bits are [`flags::info`](crate::flags::info).
    pub const FLAGS: u32 = 6;
    /// PCI Express routing ID (4).
    pub const PCI_ROUTING_ID: u32 = 7;
    /// MAC address (6).
    pub const MAC: u32 = 11;
    /// VLAN (2).
    pub const VLAN: u32 = 17;
    /// Where the IP address comes from.
    pub const IP_ORIGIN: u32 = 19;
    /// IP address (16).
    pub const IP_ADDRESS: u32 = 20;
    /// Prefix length of the subnet mask.
    pub const PREFIX: u32 = 36;
    /// The gateway's IP address (16).
    pub const GATEWAY: u32 = 37;
    /// Route metric (2).
    pub const ROUTE_METRIC: u32 = 54;
    /// The primary DNS server's IP address (16).
    pub const PRIMARY_DNS: u32 = 56;
    /// The secondary DNS server's IP address (16).
    pub const SECONDARY_DNS: u32 = 72;
    /// The DHCP server's IP address (16); counts under
    /// [`flags::info::DHCP_OVERRIDE`](crate::flags::info::DHCP_OVERRIDE).
    pub const DHCP_SERVER: u32 = 88;
    /// Object, a text: the host name.
    pub const HOST_NAME: u32 = 104;
}

/// Of [`Kind::SsnsExtended`].
pub mod ssns_extended {
    /// The record's own ID, which is 9.
    pub const STRUCTURE_ID: u32 = 0;
    /// Version of the record, which is 1.
    pub const VERSION: u32 = 1;
    /// The position of its SSNS (2).
    pub const SSNS_INDEX: u32 = 2;
    /// Flags (4), whose bits are [`flags::ssns_extended`](crate::flags::ssns_extended).
    pub const FLAGS: u32 = 4;
    /// Controller ID (2).
    pub const CONTROLLER_ID: u32 = 8;
    /// Admin submission queue size (2).
    pub const ADMIN_QUEUE_SIZE: u32 = 10;
    /// Object, a text: the root path.
    pub const ROOT_PATH: u32 = 12;
}

/// Of [`Kind::HfiExtended`].
pub mod hfi_extended {
    /// The record's own ID, which is 10.
    pub const STRUCTURE_ID: u32 = 0;
    /// Version of the record, which is 1.
    pub const VERSION: u32 = 1;
    /// The position of its HFI (2).
    pub const HFI_INDEX: u32 = 2;
    /// Flags (4), whose bits are [`flags::hfi_extended`](crate::flags::hfi_extended).
    pub const FLAGS: u32 = 4;
    /// Object: the identity association identifier.
    pub const IAID: u32 = 8;
    /// Object: the DHCP unique identifier.
    pub const DUID: u32 = 14;
}

/// What no read takes, for those who look at the bytes: parts of the header, and references to heap records in their
/// owner.
pub mod unread {
    /// The table's first bytes, `NBFT` (4).
    pub const HEADER_SIGNATURE: u32 = 0;
    /// Length of the table (4).
    pub const HEADER_LENGTH: u32 = 4;
    /// Major revision.
    pub const HEADER_MAJOR: u32 = 8;
    /// Checksum.
    pub const HEADER_CHECKSUM: u32 = 9;
    /// Where the heap starts (4).
    pub const HEADER_HEAP_OFFSET: u32 = 36;
    /// Length of the heap (4).
    pub const HEADER_HEAP_LENGTH: u32 = 40;
    /// Minor revision.
    pub const HEADER_MINOR: u32 = 50;
    /// In an HFI: the reference to its transport info.
    pub const HFI_TRANSPORT_INFO: u32 = 16;
    /// In an SSNS: the reference to its extended info.
    pub const SSNS_EXTENDED_INFO: u32 = 60;
    /// In a transport info of version 2: the reference to its extended info.
    pub const INFO_EXTENDED_INFO: u32 = 110;
}
