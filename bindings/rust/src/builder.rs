//! Builds a table in a lent buffer, one call for each record.

use crate::answer::answered;
use crate::{library, Refusal};

/// How many records each list is to have.
#[derive(Clone, Copy, Debug, Default, PartialEq, Eq)]
pub struct Counts {
    /// Host fabric interfaces.
    pub hfi: u8,
    /// Subsystems with their namespaces.
    pub ssns: u8,
    /// Security records.
    pub security: u8,
    /// Discovery records.
    pub discovery: u8,
}

/// What is told of the host.
#[derive(Clone, Copy, Debug)]
pub struct Host<'a> {
    /// In table layout. The host ID, 16 bytes from 2 on, is the UUID of the NQN, its bytes in order.
    pub record: &'a [u8; 32],
    /// A text; required.
    pub nqn: &'a [u8],
}

/// What is told of an HFI.
#[derive(Clone, Copy, Debug)]
pub struct Hfi<'a> {
    /// In table layout. The builder sets all that counts in it.
    pub record: &'a [u8; 32],
    /// The transport info. Its byte 3 is its version, 1 or 2; the DHCP server's address counts under its flag 2 alone.
    /// Flag 3 (autoconfigured) counts under version 2, and goes with neither flag 2 nor an IP origin (19).
    pub info: &'a [u8; 128],
    /// The host name, a text; optional.
    pub name: &'a [u8],
    /// The extended info; optional under version 2, dropped under version 1.
    pub extended: Option<HfiExtended<'a>>,
}

/// What is told of an HFI's extended info: what a DHCP server knows the interface by.
#[derive(Clone, Copy, Debug)]
pub struct HfiExtended<'a> {
    /// In table layout. Flag 1 (client identifier) goes with IP origin 3 of the transport info alone.
    pub record: &'a [u8; 20],
    /// Required under flag 1, and dropped without it.
    pub iaid: &'a [u8],
    /// Required under flag 1, and dropped without it.
    pub duid: &'a [u8],
}

/// What is told of an SSNS.
#[derive(Clone, Copy, Debug)]
pub struct Ssns<'a> {
    /// In table layout.
    pub record: &'a [u8; 128],
    /// 16 bytes in network order, an IPv4 address mapped (`::ffff:a.b.c.d`), which is not tested; required.
    pub address: &'a [u8],
    /// Ends in one zero byte, as in `b"4420\0"`, which the builder does not add; required.
    pub service: &'a [u8],
    /// The indexes of the secondary HFIs, one byte each; optional. None of them comes twice, and there are no more than
    /// HFIs are counted. Linux's libnvme drops an SSNS without them.
    pub others: &'a [u8],
    /// A text; required.
    pub nqn: &'a [u8],
    /// The extended info. It and the root path count where flag 4 of the record is set.
    pub extended: &'a [u8; 18],
    /// The root path, a text; optional.
    pub path: &'a [u8],
}

/// What is told of a security record. An object is required where the record's flags switch it on, and dropped where
/// they do not.
#[derive(Clone, Copy, Debug)]
pub struct Security<'a> {
    /// In table layout.
    pub record: &'a [u8; 64],
    /// Counts where bits 8:7 of the flags are not 0.
    pub algorithms: &'a [u8],
    /// Counts where bits 4:3 of the flags are not 0.
    pub protocols: &'a [u8],
    /// Cipher suites; count under flag 9.
    pub ciphers: &'a [u8],
    /// DH groups; count under flag 10.
    pub groups: &'a [u8],
    /// Hash functions; count under flag 11.
    pub hashes: &'a [u8],
    /// Counts under bit 0 of the secret's type.
    pub keypath: &'a [u8],
}

/// What is told of a discovery record.
#[derive(Clone, Copy, Debug)]
pub struct Discovery<'a> {
    /// In table layout.
    pub record: &'a [u8; 32],
    /// A URI, which is a text; optional. Linux's libnvme drops a record without URI or NQN.
    pub address: &'a [u8],
    /// A text; optional.
    pub nqn: &'a [u8],
}

/// A table that is being built in a lent buffer.
///
/// The calls are, in this order: [`begin`](Builder::begin), [`host`](Builder::host), then as often as counted
/// [`hfi`](Builder::hfi), [`ssns`](Builder::ssns), [`security`](Builder::security) and
/// [`discovery`](Builder::discovery), or [`leave`](Builder::leave) for a position that stays unused, and at last
/// [`finish`](Builder::finish).
///
/// Records are told in table layout. ID, version, type, own index and valid bit are set by the builder, whatever is told;
/// only the version in byte 3 of a transport info is the caller's. Reserved bits, references in the told bytes, and fields
/// and objects that other fields switch off are dropped before anything is tested. An object without bytes is absent.
///
/// Text is told without its terminator, a zero byte that the builder writes behind it. So an empty text, which can be
/// read and rewritten, cannot be built.
///
/// Each call is refused, in this order, out of turn; for a two-bit field that is 3 ([`Number::Record`]); for a
/// transport info's version, flags or origin, or an HFI extended info's flags ([`Number::HeapRecord`]); object by
/// object, for a required one that is empty, one of more than 65,535 bytes or a text of more than 65,534
/// ([`Number::Reference`]), then for a text with a zero byte ([`Number::Text`]), or for a list of secondary HFIs that
/// has a byte twice or more bytes than HFIs are counted ([`Number::Secondary`]); where the table would pass 65,536
/// bytes, terminators among them; and where the buffer is too short. A refused call changes nothing: what was wrong can
/// be mended and the call made again.
///
/// [`Number::Record`]: crate::Number::Record
/// [`Number::HeapRecord`]: crate::Number::HeapRecord
/// [`Number::Reference`]: crate::Number::Reference
/// [`Number::Text`]: crate::Number::Text
/// [`Number::Secondary`]: crate::Number::Secondary
pub struct Builder<'b> {
    state: [u8; 16],
    out: &'b mut [u8],
}

impl<'b> Builder<'b> {
    /// A builder that has not begun. Until the table is finished no reader takes what stands in the buffer.
    pub fn new(out: &'b mut [u8]) -> Builder<'b> {
        Builder::resumed([0; 16], out)
    }

    /// A builder in the state that [`state`](Builder::state) gave, with the buffer as it was then. Any bytes may be handed
    /// in: in a state that cannot be every call is out of turn.
    pub fn resumed(state: [u8; 16], out: &'b mut [u8]) -> Builder<'b> {
        Builder { state, out }
    }

    /// The state between two calls, as `include/nbft.h` lays it out.
    pub fn state(&self) -> [u8; 16] {
        self.state
    }

    /// How many bytes the table has so far.
    pub fn used(&self) -> u64 {
        let [.., a, b, c, d, _, _, _, _] = self.state;
        u64::from(u32::from_le_bytes([a, b, c, d]))
    }

    /// Starts a table. `header` is its bytes 10 to 35: OEM ID, OEM table ID, OEM revision, creator ID, creator revision.
    /// The driver signature is optional.
    pub fn begin(&mut self, header: &[u8; 26], counts: Counts, signature: &[u8]) -> Result<(), Refusal> {
        let counts = [counts.hfi, counts.ssns, counts.security, counts.discovery];
        answered(library::begin(&mut self.state, self.out, header, &counts, signature))
    }

    /// Tells the host.
    pub fn host(&mut self, told: &Host) -> Result<(), Refusal> {
        answered(library::host(&mut self.state, self.out, told))
    }

    /// Tells the next HFI.
    pub fn hfi(&mut self, told: &Hfi) -> Result<(), Refusal> {
        answered(library::hfi(&mut self.state, self.out, told))
    }

    /// Tells the next SSNS.
    pub fn ssns(&mut self, told: &Ssns) -> Result<(), Refusal> {
        answered(library::ssns(&mut self.state, self.out, told))
    }

    /// Tells the next security record.
    pub fn security(&mut self, told: &Security) -> Result<(), Refusal> {
        answered(library::security(&mut self.state, self.out, told))
    }

    /// Tells the next discovery record.
    pub fn discovery(&mut self, told: &Discovery) -> Result<(), Refusal> {
        answered(library::discovery(&mut self.state, self.out, told))
    }

    /// Leaves the next position of a list unused.
    pub fn leave(&mut self) -> Result<(), Refusal> {
        answered(library::leave(&mut self.state, self.out))
    }

    /// Finishes the table and hands it back: the first bytes of the buffer. It is the one form of what was told.
    ///
    /// Indexes are judged only here: one that names an unused record is refused.
    pub fn finish(&mut self) -> Result<&[u8], Refusal> {
        answered(library::finish(&mut self.state, self.out))?;
        Ok(&self.out[..self.used() as usize])
    }

    /// Finishes the table and hands it back for as long as the buffer was lent, so that it can be given on, or closed up
    /// and changed in place. Where it is refused the builder is gone; [`finish`](Builder::finish) leaves it to be called
    /// again.
    ///
    /// ```
    /// # use nbft::{Builder, Counts, Host, Refusal};
    /// fn smallest(buffer: &mut [u8]) -> Result<&mut [u8], Refusal> {
    ///     let mut builder = Builder::new(buffer);
    ///     builder.begin(&[0; 26], Counts::default(), b"")?;
    ///     builder.host(&Host { record: &[0; 32], nqn: b"n" })?;
    ///     builder.into_table()
    /// }
    /// # assert_eq!(smallest(&mut [0; 200]).unwrap().len(), 162);
    /// ```
    pub fn into_table(mut self) -> Result<&'b mut [u8], Refusal> {
        self.finish()?;
        let used = self.used() as usize;
        Ok(&mut self.out[..used])
    }
}
