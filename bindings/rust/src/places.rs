//! The places of an [`Entry`](crate::Entry) by name, a module for each [`Kind`](crate::Kind) that has objects, as
//! [`Entry::place`](crate::Entry::place) takes them.
//!
//! `include/nbft.h` has the same under the same names: `places::ssns::NQN` is `NBFT_SSNS_NQN_PLACE` there.

/// Of [`Kind::Header`](crate::Kind::Header).
pub mod header {
    /// The driver signature.
    pub const DRIVER_SIGNATURE: u8 = 0;
}

/// Of [`Kind::Host`](crate::Kind::Host).
pub mod host {
    /// The host NQN, a text.
    pub const NQN: u8 = 0;
}

/// Of [`Kind::Ssns`](crate::Kind::Ssns).
pub mod ssns {
    /// The transport address.
    pub const ADDRESS: u8 = 0;
    /// The transport service.
    pub const SERVICE: u8 = 1;
    /// The positions of the secondary HFIs, one byte each.
    pub const SECONDARY_HFI_INDEXES: u8 = 2;
    /// The NQN of the subsystem, a text.
    pub const NQN: u8 = 3;
}

/// Of [`Kind::Security`](crate::Kind::Security).
pub mod security {
    /// Secure channel algorithms.
    pub const ALGORITHMS: u8 = 0;
    /// Authentication protocols.
    pub const PROTOCOLS: u8 = 1;
    /// Cipher suites.
    pub const CIPHER_SUITES: u8 = 2;
    /// DH groups.
    pub const DH_GROUPS: u8 = 3;
    /// Hash functions.
    pub const HASH_FUNCTIONS: u8 = 4;
    /// The keypath.
    pub const KEYPATH: u8 = 5;
}

/// Of [`Kind::Discovery`](crate::Kind::Discovery).
pub mod discovery {
    /// The address of the discovery controller, a URI, which is a text.
    pub const ADDRESS: u8 = 0;
    /// The NQN of the discovery controller, a text.
    pub const NQN: u8 = 1;
}

/// Of [`Kind::HfiInfo`](crate::Kind::HfiInfo).
pub mod info {
    /// The host name, a text.
    pub const HOST_NAME: u8 = 0;
}

/// Of [`Kind::SsnsExtended`](crate::Kind::SsnsExtended).
pub mod ssns_extended {
    /// The root path, a text.
    pub const ROOT_PATH: u8 = 0;
}

/// Of [`Kind::HfiExtended`](crate::Kind::HfiExtended).
pub mod hfi_extended {
    /// The identity association identifier.
    pub const IAID: u8 = 0;
    /// The DHCP unique identifier.
    pub const DUID: u8 = 1;
}
