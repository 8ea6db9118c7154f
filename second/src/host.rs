//! The host record.

use crate::answer::number;
use crate::record::{Number, Objects, Record, Target};
use crate::text::Text;
use crate::wire::{array_at, bit, put, set_bit, set_two_bits, two_bits};

#[derive(Clone, Debug, PartialEq, Eq)]
pub struct Host<'a> {
    pub id_configured: bool,
    pub name_configured: bool,
    pub primary: u8,
    pub id: [u8; 16],
    pub name: Text<'a>,
}

impl<'a> Record<'a> for Host<'a> {
    const ID: u8 = 2;
    const SIZE: usize = 32;
    const VALID_AT: usize = 1;

    fn stamp(bytes: &mut [u8], _position: u16) {
        bytes[0] = Self::ID;
        set_bit(bytes, 1, 0, true);
    }

    fn read(bytes: &[u8], _position: u16, objects: &dyn Objects<'a>) -> Result<Self, Number> {
        let flags = u32::from(bytes[1]);
        let primary = two_bits(flags, 3);
        if bytes[0] != Self::ID || !Self::is_valid(bytes) || primary == 3 {
            return Err(number::RECORD);
        }
        Ok(Host {
            id_configured: bit(flags, 1),
            name_configured: bit(flags, 2),
            primary,
            id: array_at(bytes, 2),
            name: objects.required_text(18)?,
        })
    }

    fn write_fields(&self, position: u16, bytes: &mut [u8]) {
        Self::stamp(bytes, position);
        set_bit(bytes, 1, 1, self.id_configured);
        set_bit(bytes, 1, 2, self.name_configured);
        set_two_bits(bytes, 1, 3, self.primary);
        put(bytes, 2, &self.id);
    }

    fn targets(&self) -> Vec<(usize, Target<'_, 'a>)> {
        vec![(18, Target::Text(&self.name))]
    }

    fn field_length(offset: u32) -> Option<usize> {
        match offset {
            0 | 1 => Some(1),
            2 => Some(16),
            _ => None,
        }
    }

    fn object(record: Option<&Self>, offset: u32) -> Option<Option<&[u8]>> {
        match offset {
            18 => Some(record.map(|host| host.name.words())),
            _ => None,
        }
    }
}
