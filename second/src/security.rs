//! The security profile record.

use crate::answer::number;
use crate::record::{Bytes, Number, Objects, Record, Target};
use crate::wire::{bit, set_bit, set_two_bits, two_bits, u16_at};

#[derive(Clone, Debug, PartialEq, Eq)]
pub struct Security<'a> {
    pub authentication: u8,
    pub channel: u8,
    pub algorithms: Option<Policy<'a>>,
    pub protocols: Option<Policy<'a>>,
    pub ciphers: Option<Bytes<'a>>,
    pub groups: Option<Bytes<'a>>,
    pub hashes: Option<Bytes<'a>>,
    /// Present exactly when the secret is a Redfish URI.
    pub keypath: Option<Bytes<'a>>,
}

/// A list of choices, and whether driver (1) or administrator (2) made it.
#[derive(Clone, Debug, PartialEq, Eq)]
pub struct Policy<'a> {
    pub origin: u8,
    pub list: Bytes<'a>,
}

impl<'a> Policy<'a> {
    /// Origin 0 means that there is no policy, and the list is ignored.
    fn read(
        origin: u8,
        field: usize,
        objects: &dyn Objects<'a>,
    ) -> Result<Option<Policy<'a>>, Number> {
        let list = objects.required_when(origin != 0, field)?;
        Ok(list.map(|list| Policy { origin, list }))
    }

    fn origin_of(policy: &Option<Self>) -> u8 {
        policy.as_ref().map_or(0, |policy| policy.origin)
    }

    fn list_of(policy: &Option<Self>) -> Option<&Bytes<'a>> {
        policy.as_ref().map(|policy| &policy.list)
    }
}

impl<'a> Security<'a> {
    /// The object of a reference field, or `None` where it is ignored.
    fn list_at(&self, offset: u32) -> Option<&Bytes<'a>> {
        match offset {
            6 => Policy::list_of(&self.algorithms),
            12 => Policy::list_of(&self.protocols),
            18 => self.ciphers.as_ref(),
            24 => self.groups.as_ref(),
            30 => self.hashes.as_ref(),
            36 => self.keypath.as_ref(),
            _ => None,
        }
    }
}

impl<'a> Record<'a> for Security<'a> {
    const ID: u8 = 5;
    const SIZE: usize = 64;
    const VALID_AT: usize = 2;

    fn stamp(bytes: &mut [u8], position: u16) {
        bytes[0] = Self::ID;
        bytes[1] = position as u8;
        set_bit(bytes, 2, 0, true);
    }

    fn read(bytes: &[u8], position: u16, objects: &dyn Objects<'a>) -> Result<Self, Number> {
        let flags = u32::from(u16_at(bytes, 2));
        let authentication = two_bits(flags, 1);
        let protocols = two_bits(flags, 3);
        let channel = two_bits(flags, 5);
        let algorithms = two_bits(flags, 7);
        let identified = bytes[0] == Self::ID && u16::from(bytes[1]) == position;
        if !identified || [authentication, protocols, channel, algorithms].contains(&3) {
            return Err(number::RECORD);
        }
        Ok(Security {
            authentication,
            channel,
            algorithms: Policy::read(algorithms, 6, objects)?,
            protocols: Policy::read(protocols, 12, objects)?,
            ciphers: objects.required_when(bit(flags, 9), 18)?,
            groups: objects.required_when(bit(flags, 10), 24)?,
            hashes: objects.required_when(bit(flags, 11), 30)?,
            keypath: objects.required_when(bit(bytes[4].into(), 0), 36)?,
        })
    }

    fn write_fields(&self, position: u16, bytes: &mut [u8]) {
        Self::stamp(bytes, position);
        set_two_bits(bytes, 2, 1, self.authentication);
        set_two_bits(bytes, 2, 3, Policy::origin_of(&self.protocols));
        set_two_bits(bytes, 2, 5, self.channel);
        set_two_bits(bytes, 2, 7, Policy::origin_of(&self.algorithms));
        set_bit(bytes, 2, 9, self.ciphers.is_some());
        set_bit(bytes, 2, 10, self.groups.is_some());
        set_bit(bytes, 2, 11, self.hashes.is_some());
        set_bit(bytes, 4, 0, self.keypath.is_some());
    }

    fn targets(&self) -> Vec<(usize, Target<'_, 'a>)> {
        let fields = [6, 12, 18, 24, 30, 36].into_iter();
        let present = |field: u32| Some((field as usize, Target::Object(self.list_at(field)?)));
        fields.filter_map(present).collect()
    }

    fn field_length(offset: u32) -> Option<usize> {
        match offset {
            0 | 1 | 4 => Some(1),
            2 => Some(2),
            _ => None,
        }
    }

    fn object(record: Option<&Self>, offset: u32) -> Option<Option<&[u8]>> {
        match offset {
            6 | 12 | 18 | 24 | 30 | 36 => {
                let list = record.and_then(|security| security.list_at(offset));
                Some(list.map(|list| &**list))
            }
            _ => None,
        }
    }
}
