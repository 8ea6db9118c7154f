//! A table that was checked once, and its records by name.
//!
//! ```
//! use nbft::Table;
//!
//! # fn main() -> Result<(), nbft::Refusal> {
//! # let bytes = include_bytes!("../../../samples/machine.nbft");
//! let table = Table::new(bytes)?;
//! assert_eq!(table.header().oem_id(), *b"VENDOR");
//! assert_eq!(table.counts().hfi, 2);
//!
//! for subsystem in table.subsystems().filter(|subsystem| subsystem.used()) {
//!     assert_eq!(subsystem.nsid(), 1);
//!     assert!(subsystem.nqn().unwrap().starts_with(b"nqn."));
//!     let interface = subsystem.primary_hfi().unwrap();
//!     assert_eq!(interface.info().unwrap().host_name(), Some(&b"server-17.example.net"[..]));
//! }
//! assert!(table.hfi(3).is_none());
//! # Ok(())
//! # }
//! ```

use crate::{check, offsets, places, record, records, Counts, Entry, Kind, Refusal};
use core::ffi::CStr;
use core::fmt::{self, Debug, Formatter};
use core::marker::PhantomData;

/// A good table. What it is read for is there or not; nothing of it can be refused any more.
///
/// The bytes are checked by [`Table::new`], and since they are borrowed nobody changes them after it. Each read is one
/// call of the library; a list is read some records at a time.
#[derive(Clone, Copy, PartialEq, Eq)]
pub struct Table<'a> {
    bytes: &'a [u8],
}

impl Debug for Table<'_> {
    fn fmt(&self, f: &mut Formatter<'_>) -> fmt::Result {
        f.debug_struct("Table").field("counts", &self.counts()).finish_non_exhaustive()
    }
}

impl<'a> Table<'a> {
    /// Checks the bytes, of which there may be more than the table has; refuses them as [`check`] does.
    pub fn new(bytes: &'a [u8]) -> Result<Table<'a>, Refusal> {
        check(bytes)?;
        Ok(Table { bytes })
    }

    /// The bytes that were lent.
    pub fn bytes(&self) -> &'a [u8] {
        self.bytes
    }

    /// The header.
    pub fn header(&self) -> Header<'a> {
        Header(self.one(Kind::Header))
    }

    /// How many records the lists have, used or not.
    pub fn counts(&self) -> Counts {
        counts_in(&self.one(Kind::Control).entry)
    }

    /// The host.
    pub fn host(&self) -> Host<'a> {
        Host(self.one(Kind::Host))
    }

    /// The HFI at a position, from 1 on, used or not; `None` behind the list.
    pub fn hfi(&self, position: u16) -> Option<Hfi<'a>> {
        self.seen(Kind::Hfi, position).map(Hfi)
    }

    /// The SSNS at a position, from 1 on, used or not; `None` behind the list.
    pub fn subsystem(&self, position: u16) -> Option<Ssns<'a>> {
        self.seen(Kind::Ssns, position).map(Ssns)
    }

    /// The security record at a position, from 1 on, used or not; `None` behind the list.
    pub fn security(&self, position: u16) -> Option<Security<'a>> {
        self.seen(Kind::Security, position).map(Security)
    }

    /// The discovery record at a position, from 1 on, used or not; `None` behind the list.
    pub fn discovery(&self, position: u16) -> Option<Discovery<'a>> {
        self.seen(Kind::Discovery, position).map(Discovery)
    }

    /// The transport info of the HFI at a position; `None` where that is unused or not there.
    pub fn info(&self, position: u16) -> Option<Info<'a>> {
        self.seen(Kind::HfiInfo, position).map(Info)
    }

    /// The extended info of the HFI at a position; `None` where it has none.
    pub fn hfi_extended(&self, position: u16) -> Option<HfiExtended<'a>> {
        self.seen(Kind::HfiExtended, position).map(HfiExtended)
    }

    /// The extended info of the SSNS at a position; `None` where it has none.
    pub fn ssns_extended(&self, position: u16) -> Option<SsnsExtended<'a>> {
        self.seen(Kind::SsnsExtended, position).map(SsnsExtended)
    }

    /// All HFIs in order, unused positions among them.
    pub fn hfis(&self) -> List<'a, Hfi<'a>> {
        List::new(*self, Kind::Hfi)
    }

    /// All SSNSs in order, unused positions among them.
    pub fn subsystems(&self) -> List<'a, Ssns<'a>> {
        List::new(*self, Kind::Ssns)
    }

    /// All security records in order, unused positions among them.
    pub fn security_records(&self) -> List<'a, Security<'a>> {
        List::new(*self, Kind::Security)
    }

    /// All discovery records in order, unused positions among them.
    pub fn discovery_records(&self) -> List<'a, Discovery<'a>> {
        List::new(*self, Kind::Discovery)
    }

    /// What is in an entry that [`record`] or [`records`] read of this table; `None` where there is no such record.
    ///
    /// ```
    /// # fn main() -> Result<(), nbft::Refusal> {
    /// # let bytes = include_bytes!("../../../samples/machine.nbft");
    /// use nbft::{records, table::Record, Entry, Kind, Table};
    ///
    /// let table = Table::new(bytes)?;
    /// let mut room = [Entry::EMPTY; Entry::MOST];
    /// let read = records(bytes, Kind::Header, 0, Kind::HfiExtended, &mut room)?;
    /// let vlans = read.entries.iter().filter_map(|entry| match table.view(entry)? {
    ///     Record::Info(info) => Some(info.vlan()),
    ///     _ => None,
    /// });
    /// assert_eq!(vlans.collect::<Vec<_>>(), [0, 102]);
    /// # Ok(())
    /// # }
    /// ```
    pub fn view(&self, entry: &Entry) -> Option<Record<'a>> {
        let seen = Seen { table: *self, entry: *entry };
        entry.is_there().then_some(match entry.kind() {
            Kind::Header => Record::Header(Header(seen)),
            Kind::Control => Record::Counts(counts_in(entry)),
            Kind::Host => Record::Host(Host(seen)),
            Kind::Hfi => Record::Hfi(Hfi(seen)),
            Kind::Ssns => Record::Ssns(Ssns(seen)),
            Kind::Security => Record::Security(Security(seen)),
            Kind::Discovery => Record::Discovery(Discovery(seen)),
            Kind::HfiInfo => Record::Info(Info(seen)),
            Kind::SsnsExtended => Record::SsnsExtended(SsnsExtended(seen)),
            Kind::HfiExtended => Record::HfiExtended(HfiExtended(seen)),
        })
    }

    fn seen(&self, kind: Kind, position: u16) -> Option<Seen<'a>> {
        let entry = record(self.bytes, kind, position).ok()?;
        Some(Seen { table: *self, entry })
    }

    fn one(&self, kind: Kind) -> Seen<'a> {
        self.seen(kind, 0).expect("a good table has one header, one control record and one host")
    }
}

fn counts_in(entry: &Entry) -> Counts {
    use offsets::control::{DISCOVERY_COUNT, HFI_COUNT, SECURITY_COUNT, SSNS_COUNT};
    Counts {
        hfi: entry.field(HFI_COUNT),
        ssns: entry.field(SSNS_COUNT),
        security: entry.field(SECURITY_COUNT),
        discovery: entry.field(DISCOVERY_COUNT),
    }
}

/// A record that was read, and the table that has its objects.
#[derive(Clone, Copy)]
struct Seen<'a> {
    table: Table<'a>,
    entry: Entry,
}

impl<'a> Seen<'a> {
    fn object(&self, place: u8) -> Option<&'a [u8]> {
        self.table.bytes.get(self.entry.place(place)?)
    }

    /// A text is told without the zero byte that ends it, which stands behind it in the table.
    fn c_text(&self, place: u8) -> Option<&'a CStr> {
        let start = self.entry.place(place)?.start;
        CStr::from_bytes_until_nul(self.table.bytes.get(start..)?).ok()
    }
}

/// A record of any kind, by [`Table::view`].
#[derive(Clone, Copy, Debug)]
#[allow(missing_docs)] // each says what it is
#[allow(clippy::large_enum_variant)] // counts are the only small one, and nothing may be allocated
pub enum Record<'a> {
    Header(Header<'a>),
    Counts(Counts),
    Host(Host<'a>),
    Hfi(Hfi<'a>),
    Ssns(Ssns<'a>),
    Security(Security<'a>),
    Discovery(Discovery<'a>),
    Info(Info<'a>),
    SsnsExtended(SsnsExtended<'a>),
    HfiExtended(HfiExtended<'a>),
}

/// A record by name: its fields, its objects, and its texts without and with their terminator.
macro_rules! named {
    (
        $(#[$about:meta])*
        $record:ident of $names:ident,
        fields { $($(#[$field_about:meta])* $field:ident: $value:ty = $offset:ident,)* }
        objects { $($(#[$object_about:meta])* $object:ident = $place:ident,)* }
        texts { $($(#[$text_about:meta])* $text:ident, $c_text:ident = $text_place:ident,)* }
    ) => {
        $(#[$about])*
        #[derive(Clone, Copy)]
        pub struct $record<'a>(Seen<'a>);

        impl<'a> $record<'a> {
            /// Its position in its list, that of its owner if it stands in the heap; 0 outside lists.
            pub fn position(&self) -> u16 {
                self.0.entry.position()
            }

            /// Whether it is used. In one that is not every field is zero and every object absent.
            pub fn used(&self) -> bool {
                self.0.entry.used()
            }

            /// The record as it was read.
            pub fn entry(&self) -> &Entry {
                &self.0.entry
            }

            $($(#[$field_about])*
            pub fn $field(&self) -> $value {
                self.0.entry.field(offsets::$names::$offset)
            })*

            $($(#[$object_about])*
            pub fn $object(&self) -> Option<&'a [u8]> {
                self.0.object(places::$names::$place)
            })*

            $($(#[$text_about])*
            ///
            /// A text, without its terminator; `None` where it is absent. One that is present may be empty.
            pub fn $text(&self) -> Option<&'a [u8]> {
                self.0.object(places::$names::$text_place)
            }

            $(#[$text_about])*
            ///
            /// The same text with its terminator, as C has it.
            pub fn $c_text(&self) -> Option<&'a CStr> {
                self.0.c_text(places::$names::$text_place)
            })*
        }

        impl Debug for $record<'_> {
            fn fmt(&self, f: &mut Formatter<'_>) -> fmt::Result {
                f.debug_struct(stringify!($record))
                    .field("position", &self.position())
                    .field("used", &self.used())
                    $(.field(stringify!($field), &self.$field()))*
                    $(.field(stringify!($object), &self.$object()))*
                    $(.field(stringify!($text), &self.$c_text()))*
                    .finish()
            }
        }

        impl<'a> From<Seen<'a>> for $record<'a> {
            fn from(seen: Seen<'a>) -> $record<'a> {
                $record(seen)
            }
        }
    };
}

named! {
    /// The header, [`Kind::Header`].
    Header of header,
    fields {
        /// OEM ID.
        oem_id: [u8; 6] = OEM_ID,
        /// OEM table ID.
        oem_table_id: [u8; 8] = OEM_TABLE_ID,
        /// OEM revision.
        oem_revision: u32 = OEM_REVISION,
        /// Creator ID.
        creator_id: [u8; 4] = CREATOR_ID,
        /// Creator revision.
        creator_revision: u32 = CREATOR_REVISION,
    }
    objects {
        /// The driver signature; `None` where it is absent.
        driver_signature = DRIVER_SIGNATURE,
    }
    texts {}
}

named! {
    /// The host, [`Kind::Host`].
    Host of host,
    fields {
        /// The record's own ID, which is 2.
        structure_id: u8 = STRUCTURE_ID,
        /// Flags, whose bits are [`flags::host`](crate::flags::host).
        flags: u8 = FLAGS,
        /// Host ID.
        id: [u8; 16] = ID,
    }
    objects {}
    texts {
        /// The host NQN.
        nqn, nqn_c = NQN,
    }
}

named! {
    /// An HFI, [`Kind::Hfi`].
    Hfi of hfi,
    fields {
        /// The record's own ID, which is 3.
        structure_id: u8 = STRUCTURE_ID,
        /// Its position.
        index: u8 = INDEX,
        /// Flags, whose bits are [`flags::hfi`](crate::flags::hfi).
        flags: u8 = FLAGS,
        /// Transport type.
        transport_type: u8 = TRANSPORT_TYPE,
    }
    objects {}
    texts {}
}

named! {
    /// An SSNS, [`Kind::Ssns`]: a subsystem with its namespace.
    Ssns of ssns,
    fields {
        /// The record's own ID, which is 4.
        structure_id: u8 = STRUCTURE_ID,
        /// Its position.
        index: u16 = INDEX,
        /// Flags, whose bits are [`flags::ssns`](crate::flags::ssns).
        flags: u16 = FLAGS,
        /// Transport type.
        transport_type: u8 = TRANSPORT_TYPE,
        /// Transport flags, whose bits are [`flags::ssns_transport`](crate::flags::ssns_transport).
        transport_flags: u16 = TRANSPORT_FLAGS,
        /// The position of a discovery record, or 0.
        discovery_index: u8 = DISCOVERY_INDEX,
        /// Port ID.
        port_id: u16 = PORT_ID,
        /// Namespace ID.
        nsid: u32 = NSID,
        /// Type of the namespace identifier.
        nid_type: u8 = NID_TYPE,
        /// Namespace identifier.
        nid: [u8; 16] = NID,
        /// The position of a security record, or 0.
        security_index: u8 = SECURITY_INDEX,
        /// The position of the primary HFI.
        primary_hfi_index: u8 = PRIMARY_HFI_INDEX,
    }
    objects {
        /// The transport address, as a rule 16 bytes in network order.
        address = ADDRESS,
        /// The transport service, as a rule a port in decimal with a zero byte behind it.
        service = SERVICE,
        /// The positions of the secondary HFIs, one byte each; `None` where there are none.
        secondary_hfi_indexes = SECONDARY_HFI_INDEXES,
    }
    texts {
        /// The NQN of the subsystem.
        nqn, nqn_c = NQN,
    }
}

named! {
    /// A security record, [`Kind::Security`].
    Security of security,
    fields {
        /// The record's own ID, which is 5.
        structure_id: u8 = STRUCTURE_ID,
        /// Its position.
        index: u8 = INDEX,
        /// Flags, whose bits are [`flags::security`](crate::flags::security).
        flags: u16 = FLAGS,
        /// The secret's type, whose bit is [`flags::secret`](crate::flags::secret).
        secret_type: u8 = SECRET_TYPE,
    }
    objects {
        /// Secure channel algorithms.
        algorithms = ALGORITHMS,
        /// Authentication protocols.
        protocols = PROTOCOLS,
        /// Cipher suites.
        cipher_suites = CIPHER_SUITES,
        /// DH groups.
        dh_groups = DH_GROUPS,
        /// Hash functions.
        hash_functions = HASH_FUNCTIONS,
        /// The keypath.
        keypath = KEYPATH,
    }
    texts {}
}

named! {
    /// A discovery record, [`Kind::Discovery`].
    Discovery of discovery,
    fields {
        /// The record's own ID, which is 6.
        structure_id: u8 = STRUCTURE_ID,
        /// Flags, whose bits are [`flags::discovery`](crate::flags::discovery).
        flags: u8 = FLAGS,
        /// Its position.
        index: u8 = INDEX,
        /// The position of an HFI.
        hfi_index: u8 = HFI_INDEX,
        /// The position of a security record, or 0.
        security_index: u8 = SECURITY_INDEX,
    }
    objects {}
    texts {
        /// The address of the discovery controller, a URI.
        address, address_c = ADDRESS,
        /// The NQN of the discovery controller.
        nqn, nqn_c = NQN,
    }
}

named! {
    /// An HFI's transport info, [`Kind::HfiInfo`].
    Info of info,
    fields {
        /// The record's own ID, which is 7.
        structure_id: u8 = STRUCTURE_ID,
        /// Version of the record, which is 1.
        version: u8 = VERSION,
        /// Transport type.
        transport_type: u8 = TRANSPORT_TYPE,
        /// Version of the transport info, 1 or 2.
        info_version: u8 = INFO_VERSION,
        /// The position of its HFI.
        hfi_index: u16 = HFI_INDEX,
        /// Flags, whose bits are [`flags::info`](crate::flags::info).
        flags: u8 = FLAGS,
        /// PCI Express routing ID.
        pci_routing_id: u32 = PCI_ROUTING_ID,
        /// MAC address.
        mac: [u8; 6] = MAC,
        /// VLAN.
        vlan: u16 = VLAN,
        /// Where the IP address comes from.
        ip_origin: u8 = IP_ORIGIN,
        /// IP address, in network order, one of version 4 mapped.
        ip_address: [u8; 16] = IP_ADDRESS,
        /// Prefix length of the subnet mask.
        prefix: u8 = PREFIX,
        /// The gateway's IP address.
        gateway: [u8; 16] = GATEWAY,
        /// Route metric.
        route_metric: u16 = ROUTE_METRIC,
        /// The primary DNS server's IP address.
        primary_dns: [u8; 16] = PRIMARY_DNS,
        /// The secondary DNS server's IP address.
        secondary_dns: [u8; 16] = SECONDARY_DNS,
        /// The DHCP server's IP address; zero without
        /// [`flags::info::DHCP_OVERRIDE`](crate::flags::info::DHCP_OVERRIDE).
        dhcp_server: [u8; 16] = DHCP_SERVER,
    }
    objects {}
    texts {
        /// The host name.
        host_name, host_name_c = HOST_NAME,
    }
}

named! {
    /// An SSNS's extended info, [`Kind::SsnsExtended`].
    SsnsExtended of ssns_extended,
    fields {
        /// The record's own ID, which is 9.
        structure_id: u8 = STRUCTURE_ID,
        /// Version of the record, which is 1.
        version: u8 = VERSION,
        /// The position of its SSNS.
        ssns_index: u16 = SSNS_INDEX,
        /// Flags, whose bits are [`flags::ssns_extended`](crate::flags::ssns_extended).
        flags: u32 = FLAGS,
        /// Controller ID.
        controller_id: u16 = CONTROLLER_ID,
        /// Admin submission queue size.
        admin_queue_size: u16 = ADMIN_QUEUE_SIZE,
    }
    objects {}
    texts {
        /// The root path.
        root_path, root_path_c = ROOT_PATH,
    }
}

named! {
    /// An HFI's extended info, [`Kind::HfiExtended`]: what a DHCP server knows the interface by.
    HfiExtended of hfi_extended,
    fields {
        /// The record's own ID, which is 10.
        structure_id: u8 = STRUCTURE_ID,
        /// Version of the record, which is 1.
        version: u8 = VERSION,
        /// The position of its HFI.
        hfi_index: u16 = HFI_INDEX,
        /// Flags, whose bits are [`flags::hfi_extended`](crate::flags::hfi_extended).
        flags: u32 = FLAGS,
    }
    objects {
        /// The identity association identifier.
        iaid = IAID,
        /// The DHCP unique identifier.
        duid = DUID,
    }
    texts {}
}

impl<'a> Hfi<'a> {
    /// Its transport info, which every used HFI has.
    pub fn info(&self) -> Option<Info<'a>> {
        self.0.table.info(self.position())
    }

    /// The extended info of its transport info.
    pub fn extended(&self) -> Option<HfiExtended<'a>> {
        self.0.table.hfi_extended(self.position())
    }
}

impl<'a> Info<'a> {
    /// Its extended info, which one of version 2 may have.
    pub fn extended(&self) -> Option<HfiExtended<'a>> {
        self.0.table.hfi_extended(self.position())
    }
}

impl<'a> Ssns<'a> {
    /// Its extended info; none without [`flags::ssns::EXTENDED_INFO`](crate::flags::ssns::EXTENDED_INFO).
    pub fn extended(&self) -> Option<SsnsExtended<'a>> {
        self.0.table.ssns_extended(self.position())
    }

    /// The HFI that its primary index names, which every used one has.
    pub fn primary_hfi(&self) -> Option<Hfi<'a>> {
        self.0.table.hfi(self.primary_hfi_index().into())
    }

    /// The discovery record that its index names.
    pub fn discovery(&self) -> Option<Discovery<'a>> {
        self.0.table.discovery(self.discovery_index().into())
    }

    /// The security record that its index names.
    pub fn security(&self) -> Option<Security<'a>> {
        self.0.table.security(self.security_index().into())
    }
}

impl<'a> Discovery<'a> {
    /// The HFI that its index names, which every used one has.
    pub fn hfi(&self) -> Option<Hfi<'a>> {
        self.0.table.hfi(self.hfi_index().into())
    }

    /// The security record that its index names.
    pub fn security(&self) -> Option<Security<'a>> {
        self.0.table.security(self.security_index().into())
    }
}

/// How many records of a list are read by one call, and so by one check of the table.
const BATCH: usize = 8;

/// The records of a list in order, used or not.
#[derive(Clone)]
pub struct List<'a, R> {
    table: Table<'a>,
    kind: Kind,
    batch: [Entry; BATCH],
    /// How many of the batch were read, how many of these were handed out, and how many records come from its first on.
    read: usize,
    handed: usize,
    all: usize,
    records: PhantomData<R>,
}

impl<'a, R> List<'a, R> {
    fn new(table: Table<'a>, kind: Kind) -> List<'a, R> {
        let empty = [Entry::EMPTY; BATCH];
        let mut list = List { table, kind, batch: empty, read: 0, handed: 0, all: 0, records: PhantomData };
        list.read_from(1);
        list
    }

    /// An empty list has no position 1, and so nothing to come.
    fn read_from(&mut self, position: u16) {
        let read = records(self.table.bytes, self.kind, position, self.kind, &mut self.batch);
        (self.read, self.all) = read.map_or((0, 0), |read| (read.entries.len(), read.all));
        self.handed = 0;
    }

    fn next_entry(&mut self) -> Option<Entry> {
        if self.handed == self.read && self.handed < self.all {
            self.read_from(self.batch[self.handed - 1].position() + 1);
        }
        let entry = *self.batch[..self.read].get(self.handed)?;
        self.handed += 1;
        Some(entry)
    }
}

impl<'a, R: From<Seen<'a>>> Iterator for List<'a, R> {
    type Item = R;

    fn next(&mut self) -> Option<R> {
        let entry = self.next_entry()?;
        Some(R::from(Seen { table: self.table, entry }))
    }

    fn size_hint(&self) -> (usize, Option<usize>) {
        let left = self.all - self.handed;
        (left, Some(left))
    }
}

impl<'a, R: From<Seen<'a>>> ExactSizeIterator for List<'a, R> {}

impl<R> Debug for List<'_, R> {
    fn fmt(&self, f: &mut Formatter<'_>) -> fmt::Result {
        f.debug_struct("List").field("kind", &self.kind).finish_non_exhaustive()
    }
}
