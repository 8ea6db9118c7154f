//! The discovery record.

use crate::answer::number;
use crate::interface::Interface;
use crate::looks::Lookup;
use crate::record::{Number, Objects, Record, Target};
use crate::security::Security;
use crate::text::Text;
use crate::wire::set_bit;

#[derive(Clone, Debug, PartialEq, Eq)]
pub struct Discovery<'a> {
    pub interface: u8,
    /// A position in the security list, or 0.
    pub security: u8,
    pub address: Option<Text<'a>>,
    pub name: Option<Text<'a>>,
}

impl<'a> Record<'a> for Discovery<'a> {
    const ID: u8 = 6;
    const SIZE: usize = 32;
    const VALID_AT: usize = 1;

    fn stamp(bytes: &mut [u8], position: u16) {
        bytes[0] = Self::ID;
        set_bit(bytes, 1, 0, true);
        bytes[2] = position as u8;
    }

    fn read(bytes: &[u8], position: u16, objects: &dyn Objects<'a>) -> Result<Self, Number> {
        if bytes[0] != Self::ID || u16::from(bytes[2]) != position {
            return Err(number::RECORD);
        }
        Ok(Discovery {
            interface: bytes[3],
            security: bytes[4],
            address: objects.optional_text(6)?,
            name: objects.optional_text(12)?,
        })
    }

    fn indexes_hold(&self, records: &Lookup<'a>) -> bool {
        records.names_valid::<Interface>(self.interface)
            && (self.security == 0 || records.names_valid::<Security>(self.security))
    }

    fn write_fields(&self, position: u16, bytes: &mut [u8]) {
        Self::stamp(bytes, position);
        bytes[3] = self.interface;
        bytes[4] = self.security;
    }

    fn targets(&self) -> Vec<(usize, Target<'_, 'a>)> {
        vec![
            (6, Target::optional_text(&self.address)),
            (12, Target::optional_text(&self.name)),
        ]
    }

    fn field_length(offset: u32) -> Option<usize> {
        match offset {
            0..=4 => Some(1),
            _ => None,
        }
    }

    fn object(record: Option<&Self>, offset: u32) -> Option<Option<&[u8]>> {
        let text = match offset {
            6 => record.map(|discovery| &discovery.address),
            12 => record.map(|discovery| &discovery.name),
            _ => return None,
        };
        Some(text.and_then(Option::as_ref).map(Text::words))
    }
}
