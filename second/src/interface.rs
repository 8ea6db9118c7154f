//! The host fabric interface (HFI) record and its transport info.

use crate::answer::number;
use crate::identity::Identity;
use crate::record::{Number, Objects, Record, Target, TCP};
use crate::text::Text;
use crate::wire::{array_at, bit, put, put_u16, put_u32, set_bit, u16_at, u32_at};

#[derive(Clone, Debug, PartialEq, Eq)]
pub struct Interface<'a> {
    pub info: Info<'a>,
}

impl<'a> Record<'a> for Interface<'a> {
    const ID: u8 = 3;
    const SIZE: usize = 32;
    const VALID_AT: usize = 2;

    fn stamp(bytes: &mut [u8], position: u16) {
        bytes[0] = Self::ID;
        bytes[1] = position as u8;
        set_bit(bytes, 2, 0, true);
        bytes[3] = TCP;
    }

    fn read(bytes: &[u8], position: u16, objects: &dyn Objects<'a>) -> Result<Self, Number> {
        if bytes[0] != Self::ID || u16::from(bytes[1]) != position || bytes[3] != TCP {
            return Err(number::RECORD);
        }
        let (info, inner) = objects.heap_record(16)?;
        Ok(Interface {
            info: Info::read(&info, position, inner.as_ref())?,
        })
    }

    fn minor(&self) -> u8 {
        self.info.minor()
    }

    fn write_fields(&self, position: u16, bytes: &mut [u8]) {
        Self::stamp(bytes, position);
    }

    fn targets(&self) -> Vec<(usize, Target<'_, 'a>)> {
        vec![(16, Target::Info(&self.info))]
    }

    fn field_length(offset: u32) -> Option<usize> {
        match offset {
            0..=3 => Some(1),
            _ => None,
        }
    }

    /// The info is read by its own kind, not as an object.
    fn object(_record: Option<&Self>, _offset: u32) -> Option<Option<&[u8]>> {
        None
    }
}

#[derive(Clone, Debug, PartialEq, Eq)]
pub struct Info<'a> {
    pub default_route: bool,
    pub pci_routing: u32,
    pub mac_address: [u8; 6],
    pub vlan: u16,
    pub ip_origin: u8,
    pub ip_address: [u8; 16],
    pub prefix_length: u8,
    pub gateway: [u8; 16],
    pub route_metric: u16,
    pub primary_dns: [u8; 16],
    pub secondary_dns: [u8; 16],
    /// Present exactly when DHCP gave the configuration.
    pub dhcp_server: Option<[u8; 16]>,
    pub host_name: Option<Text<'a>>,
    /// Present exactly when the info has version 2.
    pub addition: Option<Addition<'a>>,
}

/// What version 2 of an info says beyond version 1.
#[derive(Clone, Debug, PartialEq, Eq)]
pub struct Addition<'a> {
    /// The address comes from a mechanism without state, so neither DHCP
    /// nor any other origin is told.
    pub autoconfigured: bool,
    pub identity: Option<Identity<'a>>,
}

/// The first transport info version, and the one that has an addition.
const PLAIN: u8 = 1;
const WITH_ADDITION: u8 = 2;

impl<'a> Info<'a> {
    pub const VERSION_AT: usize = 3;
    pub const ORIGIN_AT: usize = 19;
    pub const DHCP_BIT: usize = 2;
    pub const AUTOCONFIGURED_BIT: usize = 3;

    fn is_identified(bytes: &[u8], position: u16) -> bool {
        bytes[0] == Self::ID
            && bytes[1] == 1
            && bytes[2] == TCP
            && u16_at(bytes, 4) == position
            && Self::is_valid(bytes)
    }

    fn version(&self) -> u8 {
        match self.addition {
            Some(_) => WITH_ADDITION,
            None => PLAIN,
        }
    }

    fn flag(bytes: &[u8], place: usize) -> bool {
        bit(bytes[Self::VALID_AT].into(), place as u32)
    }

    /// In version 1 the bit is reserved.
    fn origin_is_good(bytes: &[u8]) -> bool {
        let autoconfigured =
            bytes[Self::VERSION_AT] == WITH_ADDITION && Self::flag(bytes, Self::AUTOCONFIGURED_BIT);
        let by_dhcp = Self::flag(bytes, Self::DHCP_BIT);
        !autoconfigured || (!by_dhcp && bytes[Self::ORIGIN_AT] == 0)
    }

    fn is_good(bytes: &[u8], position: u16) -> bool {
        bytes.len() >= Self::SIZE
            && Self::is_identified(bytes, position)
            && matches!(bytes[Self::VERSION_AT], PLAIN | WITH_ADDITION)
            && Self::origin_is_good(bytes)
    }

    /// In version 1 there is nothing to read, whatever stands there.
    fn read_addition(
        bytes: &[u8],
        position: u16,
        objects: &dyn Objects<'a>,
    ) -> Result<Option<Addition<'a>>, Number> {
        if bytes[Self::VERSION_AT] == PLAIN {
            return Ok(None);
        }
        let origin = bytes[Self::ORIGIN_AT];
        let identity = match objects.optional_heap_record(110)? {
            Some((record, inner)) => {
                let identity = Identity::read_for(origin, &record, position, inner.as_ref())?;
                Some(identity)
            }
            None => None,
        };
        Ok(Some(Addition {
            autoconfigured: Self::flag(bytes, Self::AUTOCONFIGURED_BIT),
            identity,
        }))
    }
}

impl<'a> Record<'a> for Info<'a> {
    const ID: u8 = 7;
    const SIZE: usize = 128;
    const VALID_AT: usize = 6;

    fn stamp(bytes: &mut [u8], position: u16) {
        put(bytes, 0, &[Self::ID, 1, TCP]);
        put_u16(bytes, 4, position);
        set_bit(bytes, 6, 0, true);
    }

    fn read(bytes: &[u8], position: u16, objects: &dyn Objects<'a>) -> Result<Self, Number> {
        if !Self::is_good(bytes, position) {
            return Err(number::HEAP_RECORD);
        }
        // Objects are named in the order in which their faults count.
        Ok(Info {
            default_route: Self::flag(bytes, 1),
            pci_routing: u32_at(bytes, 7),
            mac_address: array_at(bytes, 11),
            vlan: u16_at(bytes, 17),
            ip_origin: bytes[Self::ORIGIN_AT],
            ip_address: array_at(bytes, 20),
            prefix_length: bytes[36],
            gateway: array_at(bytes, 37),
            route_metric: u16_at(bytes, 54),
            primary_dns: array_at(bytes, 56),
            secondary_dns: array_at(bytes, 72),
            dhcp_server: Self::flag(bytes, Self::DHCP_BIT).then(|| array_at(bytes, 88)),
            host_name: objects.optional_text(104)?,
            addition: Self::read_addition(bytes, position, objects)?,
        })
    }

    fn minor(&self) -> u8 {
        self.addition.is_some().into()
    }

    fn write_fields(&self, position: u16, bytes: &mut [u8]) {
        Self::stamp(bytes, position);
        bytes[Self::VERSION_AT] = self.version();
        set_bit(bytes, 6, 1, self.default_route);
        set_bit(bytes, 6, Self::DHCP_BIT, self.dhcp_server.is_some());
        if let Some(addition) = &self.addition {
            set_bit(bytes, 6, Self::AUTOCONFIGURED_BIT, addition.autoconfigured);
        }
        put_u32(bytes, 7, self.pci_routing);
        put(bytes, 11, &self.mac_address);
        put_u16(bytes, 17, self.vlan);
        bytes[Self::ORIGIN_AT] = self.ip_origin;
        put(bytes, 20, &self.ip_address);
        bytes[36] = self.prefix_length;
        put(bytes, 37, &self.gateway);
        put_u16(bytes, 54, self.route_metric);
        put(bytes, 56, &self.primary_dns);
        put(bytes, 72, &self.secondary_dns);
        if let Some(server) = &self.dhcp_server {
            put(bytes, 88, server);
        }
    }

    fn targets(&self) -> Vec<(usize, Target<'_, 'a>)> {
        let mut targets = vec![(104, Target::optional_text(&self.host_name))];
        if let Some(addition) = &self.addition {
            let identity = addition.identity.as_ref();
            targets.push((110, identity.map_or(Target::Absent, Target::Identity)));
        }
        targets
    }

    fn field_length(offset: u32) -> Option<usize> {
        match offset {
            0..=3 | 6 | 19 | 36 => Some(1),
            4 | 17 | 54 => Some(2),
            7 => Some(4),
            11 => Some(6),
            20 | 37 | 56 | 72 | 88 => Some(16),
            _ => None,
        }
    }

    /// The identity is read by its own kind, not as an object.
    fn object(record: Option<&Self>, offset: u32) -> Option<Option<&[u8]>> {
        match offset {
            104 => {
                let name = record.and_then(|info| info.host_name.as_ref());
                Some(name.map(Text::words))
            }
            _ => None,
        }
    }
}
