//! The subsystem and namespace (SSNS) record and its extended info.

use crate::answer::number;
use crate::discovery::Discovery;
use crate::interface::Interface;
use crate::looks::Lookup;
use crate::record::{is_extended, stamp_extended, Bytes, Number, Objects, Record, Target, TCP};
use crate::security::Security;
use crate::text::Text;
use crate::wire::{
    array_at, bit, put, put_u16, put_u32, set_bit, set_two_bits, two_bits, u16_at, u32_at,
};

#[derive(Clone, Debug, PartialEq, Eq)]
pub struct Subsystem<'a> {
    pub not_bootable: bool,
    pub root_path_used: bool,
    pub separate_discovery: bool,
    pub discovered: bool,
    pub availability: u8,
    pub transport_flags_used: bool,
    pub header_digest: bool,
    pub data_digest: bool,
    /// A position in the discovery list, or 0.
    pub discovery: u8,
    pub address: Bytes<'a>,
    pub service: Bytes<'a>,
    pub port: u16,
    pub namespace: u32,
    pub identifier_type: u8,
    pub identifier: [u8; 16],
    /// Present exactly when security is used.
    pub security: Option<u8>,
    pub primary_interface: u8,
    /// Positions in the interface list, each once at most.
    pub secondary_interfaces: Option<Bytes<'a>>,
    pub name: Text<'a>,
    /// Present exactly when extended info is in use.
    pub extended: Option<Extended<'a>>,
}

impl<'a> Subsystem<'a> {
    fn is_identified(bytes: &[u8], position: u16) -> bool {
        bytes[0] == Self::ID && u16_at(bytes, 1) == position && bytes[5] == TCP
    }

    fn read_extended(
        position: u16,
        objects: &dyn Objects<'a>,
    ) -> Result<Option<Extended<'a>>, Number> {
        let (bytes, inner) = objects.heap_record(60)?;
        Extended::read(&bytes, position, inner.as_ref()).map(Some)
    }

    fn write_flags(&self, bytes: &mut [u8]) {
        set_bit(bytes, 3, 1, self.not_bootable);
        set_bit(bytes, 3, 2, self.security.is_some());
        set_bit(bytes, 3, 3, self.root_path_used);
        set_bit(bytes, 3, 4, self.extended.is_some());
        set_bit(bytes, 3, 5, self.separate_discovery);
        set_bit(bytes, 3, 6, self.discovered);
        set_two_bits(bytes, 3, 7, self.availability);
        set_bit(bytes, 6, 0, self.transport_flags_used);
        set_bit(bytes, 6, 1, self.header_digest);
        set_bit(bytes, 6, 2, self.data_digest);
    }
}

impl<'a> Record<'a> for Subsystem<'a> {
    const ID: u8 = 4;
    const SIZE: usize = 128;
    const VALID_AT: usize = 3;

    fn stamp(bytes: &mut [u8], position: u16) {
        bytes[0] = Self::ID;
        put_u16(bytes, 1, position);
        set_bit(bytes, 3, 0, true);
        bytes[5] = TCP;
    }

    fn read(bytes: &[u8], position: u16, objects: &dyn Objects<'a>) -> Result<Self, Number> {
        let flags = u32::from(u16_at(bytes, 3));
        let transport = u32::from(u16_at(bytes, 6));
        let availability = two_bits(flags, 7);
        if !Self::is_identified(bytes, position) || availability == 3 {
            return Err(number::RECORD);
        }
        // Objects are named in the order in which their faults count.
        Ok(Subsystem {
            not_bootable: bit(flags, 1),
            root_path_used: bit(flags, 3),
            separate_discovery: bit(flags, 5),
            discovered: bit(flags, 6),
            availability,
            transport_flags_used: bit(transport, 0),
            header_digest: bit(transport, 1),
            data_digest: bit(transport, 2),
            discovery: bytes[8],
            address: objects.required(10)?,
            service: objects.required(16)?,
            port: u16_at(bytes, 22),
            namespace: u32_at(bytes, 24),
            identifier_type: bytes[28],
            identifier: array_at(bytes, 29),
            security: bit(flags, 2).then_some(bytes[45]),
            primary_interface: bytes[46],
            secondary_interfaces: objects.optional_secondary(48)?,
            name: objects.required_text(54)?,
            extended: match bit(flags, 4) {
                true => Self::read_extended(position, objects)?,
                false => None,
            },
        })
    }

    fn indexes_hold(&self, records: &Lookup<'a>) -> bool {
        let secondary = self.secondary_interfaces.as_deref().unwrap_or(&[]);
        (self.discovery == 0 || records.names_valid::<Discovery>(self.discovery))
            && self
                .security
                .is_none_or(|index| records.names_valid::<Security>(index))
            && records.names_valid::<Interface>(self.primary_interface)
            && secondary
                .iter()
                .all(|index| records.names_valid::<Interface>(*index))
    }

    fn write_fields(&self, position: u16, bytes: &mut [u8]) {
        Self::stamp(bytes, position);
        self.write_flags(bytes);
        bytes[8] = self.discovery;
        put_u16(bytes, 22, self.port);
        put_u32(bytes, 24, self.namespace);
        bytes[28] = self.identifier_type;
        put(bytes, 29, &self.identifier);
        if let Some(index) = self.security {
            bytes[45] = index;
        }
        bytes[46] = self.primary_interface;
    }

    fn targets(&self) -> Vec<(usize, Target<'_, 'a>)> {
        let mut targets = vec![
            (10, Target::Object(&self.address)),
            (16, Target::Object(&self.service)),
            (48, Target::optional(&self.secondary_interfaces)),
            (54, Target::Text(&self.name)),
        ];
        if let Some(extended) = &self.extended {
            targets.push((60, Target::Extended(extended)));
        }
        targets
    }

    fn field_length(offset: u32) -> Option<usize> {
        match offset {
            0 | 5 | 8 | 28 | 45 | 46 => Some(1),
            1 | 3 | 6 | 22 => Some(2),
            24 => Some(4),
            29 => Some(16),
            _ => None,
        }
    }

    /// The extended info is read by its own kind, not as an object.
    fn object(record: Option<&Self>, offset: u32) -> Option<Option<&[u8]>> {
        match offset {
            10 => Some(record.map(|subsystem| &*subsystem.address)),
            16 => Some(record.map(|subsystem| &*subsystem.service)),
            48 => Some(record.and_then(|subsystem| subsystem.secondary_interfaces.as_deref())),
            54 => Some(record.map(|subsystem| subsystem.name.words())),
            _ => None,
        }
    }
}

#[derive(Clone, Debug, PartialEq, Eq)]
pub struct Extended<'a> {
    pub queue_size_configured: bool,
    pub controller: u16,
    pub queue_size: u16,
    pub root_path: Option<Text<'a>>,
}

impl<'a> Record<'a> for Extended<'a> {
    const ID: u8 = 9;
    const SIZE: usize = 18;
    const VALID_AT: usize = 4;

    fn stamp(bytes: &mut [u8], position: u16) {
        stamp_extended::<Self>(bytes, position);
    }

    fn read(bytes: &[u8], position: u16, objects: &dyn Objects<'a>) -> Result<Self, Number> {
        if !is_extended::<Self>(bytes, position) {
            return Err(number::HEAP_RECORD);
        }
        Ok(Extended {
            queue_size_configured: bit(u32_at(bytes, 4), 1),
            controller: u16_at(bytes, 8),
            queue_size: u16_at(bytes, 10),
            root_path: objects.optional_text(12)?,
        })
    }

    fn write_fields(&self, position: u16, bytes: &mut [u8]) {
        Self::stamp(bytes, position);
        set_bit(bytes, 4, 1, self.queue_size_configured);
        put_u16(bytes, 8, self.controller);
        put_u16(bytes, 10, self.queue_size);
    }

    fn targets(&self) -> Vec<(usize, Target<'_, 'a>)> {
        vec![(12, Target::optional_text(&self.root_path))]
    }

    fn field_length(offset: u32) -> Option<usize> {
        match offset {
            0 | 1 => Some(1),
            2 | 8 | 10 => Some(2),
            4 => Some(4),
            _ => None,
        }
    }

    fn object(record: Option<&Self>, offset: u32) -> Option<Option<&[u8]>> {
        match offset {
            12 => {
                let path = record.and_then(|extended| extended.root_path.as_ref());
                Some(path.map(Text::words))
            }
            _ => None,
        }
    }
}
