//! Flags by name, as bits of the number that a flags field is; each module is for one such field.
//!
//! A field of two bits has a mask, and a shift by which its value is brought to the lowest bits. That value is never 3.
//! Bits without a name are reserved. `include/nbft.h` has the same under the same names: `flags::ssns::SECURITY` is
//! `NBFT_SSNS_FLAG_SECURITY` there.

/// Of [`offsets::host::FLAGS`](crate::offsets::host::FLAGS).
pub mod host {
    /// The record is valid; set by the builder.
    pub const VALID: u8 = 1 << 0;
    /// The host ID was configured.
    pub const ID_CONFIGURED: u8 = 1 << 1;
    /// The host NQN was configured.
    pub const NQN_CONFIGURED: u8 = 1 << 2;
    /// Whether this is the primary administrative host, a field of two bits.
    pub const PRIMARY_MASK: u8 = 3 << 3;
    /// Of [`PRIMARY_MASK`].
    pub const PRIMARY_SHIFT: u8 = 3;
}

/// Of [`offsets::hfi::FLAGS`](crate::offsets::hfi::FLAGS).
pub mod hfi {
    /// The record is used; set by the builder.
    pub const VALID: u8 = 1 << 0;
}

/// Of [`offsets::info::FLAGS`](crate::offsets::info::FLAGS).
pub mod info {
    /// The record is valid; set by the builder.
    pub const VALID: u8 = 1 << 0;
    /// The HFI has the default route.
    pub const GLOBAL_ROUTE: u8 = 1 << 1;
    /// The DHCP server's address counts.
    pub const DHCP_OVERRIDE: u8 = 1 << 2;
    /// The address was configured by the interface itself; counts under info version 2.
    pub const AUTOCONFIGURED: u8 = 1 << 3;
}

/// Of [`offsets::hfi_extended::FLAGS`](crate::offsets::hfi_extended::FLAGS).
pub mod hfi_extended {
    /// The record is valid; set by the builder.
    pub const VALID: u32 = 1 << 0;
    /// There are IAID and DUID.
    pub const CLIENT_ID: u32 = 1 << 1;
}

/// Of [`offsets::ssns::FLAGS`](crate::offsets::ssns::FLAGS).
pub mod ssns {
    /// The record is used; set by the builder.
    pub const VALID: u16 = 1 << 0;
    /// The namespace cannot be booted from.
    pub const NOT_BOOTABLE: u16 = 1 << 1;
    /// The security index counts.
    pub const SECURITY: u16 = 1 << 2;
    /// The root path was used.
    pub const ROOT_PATH: u16 = 1 << 3;
    /// There is extended info.
    pub const EXTENDED_INFO: u16 = 1 << 4;
    /// The discovery controller is a separate one.
    pub const SEPARATE_DISCOVERY: u16 = 1 << 5;
    /// The namespace was found by discovery.
    pub const DISCOVERED: u16 = 1 << 6;
    /// Whether the namespace is available, a field of two bits.
    pub const AVAILABILITY_MASK: u16 = 3 << 7;
    /// Of [`AVAILABILITY_MASK`].
    pub const AVAILABILITY_SHIFT: u16 = 7;
}

/// Of [`offsets::ssns::TRANSPORT_FLAGS`](crate::offsets::ssns::TRANSPORT_FLAGS).
pub mod ssns_transport {
    /// The transport flags are in use; the others count whatever it says.
    pub const IN_USE: u16 = 1 << 0;
    /// PDUs have a header digest.
    pub const HEADER_DIGEST: u16 = 1 << 1;
    /// PDUs have a data digest.
    pub const DATA_DIGEST: u16 = 1 << 2;
}

/// Of [`offsets::ssns_extended::FLAGS`](crate::offsets::ssns_extended::FLAGS).
pub mod ssns_extended {
    /// The record is valid; set by the builder.
    pub const VALID: u32 = 1 << 0;
    /// The queue size was set by an administrator.
    pub const QUEUE_SIZE_SET: u32 = 1 << 1;
}

/// Of [`offsets::security::FLAGS`](crate::offsets::security::FLAGS).
pub mod security {
    /// The record is used; set by the builder.
    pub const VALID: u16 = 1 << 0;
    /// In-band authentication, a field of two bits.
    pub const IN_BAND_MASK: u16 = 3 << 1;
    /// Of [`IN_BAND_MASK`].
    pub const IN_BAND_SHIFT: u16 = 1;
    /// The authentication policy list, a field of two bits: not 0 where there are protocols.
    pub const PROTOCOLS_MASK: u16 = 3 << 3;
    /// Of [`PROTOCOLS_MASK`].
    pub const PROTOCOLS_SHIFT: u16 = 3;
    /// Secure channel negotiation, a field of two bits.
    pub const CHANNEL_MASK: u16 = 3 << 5;
    /// Of [`CHANNEL_MASK`].
    pub const CHANNEL_SHIFT: u16 = 5;
    /// The security policy list, a field of two bits: not 0 where there are algorithms.
    pub const ALGORITHMS_MASK: u16 = 3 << 7;
    /// Of [`ALGORITHMS_MASK`].
    pub const ALGORITHMS_SHIFT: u16 = 7;
    /// There are cipher suites.
    pub const CIPHER_SUITES: u16 = 1 << 9;
    /// There are DH groups.
    pub const DH_GROUPS: u16 = 1 << 10;
    /// There are hash functions.
    pub const HASH_FUNCTIONS: u16 = 1 << 11;
}

/// Of [`offsets::security::SECRET_TYPE`](crate::offsets::security::SECRET_TYPE).
pub mod secret {
    /// There is a keypath.
    pub const KEYPATH: u8 = 1 << 0;
}

/// Of [`offsets::discovery::FLAGS`](crate::offsets::discovery::FLAGS).
pub mod discovery {
    /// The record is used; set by the builder.
    pub const VALID: u8 = 1 << 0;
}
