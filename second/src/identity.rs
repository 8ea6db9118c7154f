//! The extended info of a host fabric interface: who the interface was to
//! the DHCP server.

use crate::answer::number;
use crate::record::{is_extended, stamp_extended, Bytes, Number, Objects, Record, Target};
use crate::wire::{bit, set_bit, u32_at};

/// The IP origin of an address that DHCP gave.
pub const DHCP_ORIGIN: u8 = 3;

#[derive(Clone, Debug, PartialEq, Eq)]
pub struct Identity<'a> {
    /// Present exactly when the record says that there is one.
    pub client: Option<Client<'a>>,
}

/// The two parts of a DHCP client identifier.
#[derive(Clone, Debug, PartialEq, Eq)]
pub struct Client<'a> {
    /// The identity association identifier.
    pub iaid: Bytes<'a>,
    /// The DHCP unique identifier.
    pub duid: Bytes<'a>,
}

impl<'a> Identity<'a> {
    pub const CLIENT_BIT: u32 = 1;

    fn names_a_client(bytes: &[u8]) -> bool {
        bit(u32_at(bytes, 4), Self::CLIENT_BIT)
    }

    /// The record of an info with this IP origin: only an address that DHCP
    /// gave has a client. That rule is the record's own, so it is judged
    /// before the record's objects.
    pub fn read_for(
        ip_origin: u8,
        bytes: &[u8],
        position: u16,
        objects: &dyn Objects<'a>,
    ) -> Result<Self, Number> {
        let whole = bytes.len() >= Self::SIZE;
        if whole && Self::names_a_client(bytes) && ip_origin != DHCP_ORIGIN {
            return Err(number::HEAP_RECORD);
        }
        Self::read(bytes, position, objects)
    }
}

impl<'a> Client<'a> {
    fn read(objects: &dyn Objects<'a>) -> Result<Client<'a>, Number> {
        Ok(Client {
            iaid: objects.required(8)?,
            duid: objects.required(14)?,
        })
    }
}

impl<'a> Record<'a> for Identity<'a> {
    const ID: u8 = 10;
    const SIZE: usize = 20;
    const VALID_AT: usize = 4;

    fn stamp(bytes: &mut [u8], position: u16) {
        stamp_extended::<Self>(bytes, position);
    }

    fn read(bytes: &[u8], position: u16, objects: &dyn Objects<'a>) -> Result<Self, Number> {
        if !is_extended::<Self>(bytes, position) {
            return Err(number::HEAP_RECORD);
        }
        let client = match Self::names_a_client(bytes) {
            true => Some(Client::read(objects)?),
            false => None,
        };
        Ok(Identity { client })
    }

    fn write_fields(&self, position: u16, bytes: &mut [u8]) {
        Self::stamp(bytes, position);
        set_bit(bytes, 4, Self::CLIENT_BIT as usize, self.client.is_some());
    }

    /// Without a client both references are ignored.
    fn targets(&self) -> Vec<(usize, Target<'_, 'a>)> {
        self.client.as_ref().map_or(Vec::new(), |client| {
            vec![
                (8, Target::Object(&client.iaid)),
                (14, Target::Object(&client.duid)),
            ]
        })
    }

    fn field_length(offset: u32) -> Option<usize> {
        match offset {
            0 | 1 => Some(1),
            2 => Some(2),
            4 => Some(4),
            _ => None,
        }
    }

    fn object(record: Option<&Self>, offset: u32) -> Option<Option<&[u8]>> {
        let client = record.and_then(|identity| identity.client.as_ref());
        match offset {
            8 => Some(client.map(|client| &*client.iaid)),
            14 => Some(client.map(|client| &*client.duid)),
            _ => None,
        }
    }
}
