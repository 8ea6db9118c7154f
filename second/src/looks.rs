//! Counts how often a check looks at a record of the host or of a list.

use crate::frame::Frame;
use crate::record::Record;
use std::cell::Cell;

/// A table's records, and how often one of them was looked at: once for each
/// that is visited, used or not, and once for each index that is resolved,
/// whether it names a record or not. Heap records are no records here.
pub struct Lookup<'a> {
    pub frame: Frame<'a>,
    looks: Cell<u32>,
}

impl<'a> Lookup<'a> {
    pub fn of(frame: Frame<'a>) -> Lookup<'a> {
        let looks = Cell::new(0);
        Lookup { frame, looks }
    }

    pub fn looks(&self) -> u32 {
        self.looks.get()
    }

    fn count(&self) {
        self.looks.set(self.looks.get() + 1);
    }

    pub fn host_record(&self) -> &'a [u8] {
        self.count();
        self.frame.host_record()
    }

    /// The record at this position, which must be within the count.
    pub fn list_record<R: Record<'a>>(&self, position: u16) -> &'a [u8] {
        self.count();
        self.frame.list_record(R::ID, position)
    }

    /// Whether the index names a record whose valid bit is set.
    pub fn names_valid<R: Record<'a>>(&self, index: u8) -> bool {
        self.count();
        self.frame.names_valid::<R>(index)
    }
}

/// As often as a check of a table with these counts looks at most: at the
/// host, at each record, and for each index that a record can have. A
/// subsystem has three and its secondary list, a discovery record two.
pub fn most_looks(counts: [u8; 4]) -> u32 {
    let [interfaces, subsystems, securities, discoveries] = counts.map(u32::from);
    let of_subsystem = 1 + 3 + interfaces;
    1 + interfaces + subsystems * of_subsystem + securities + discoveries * (1 + 2)
}

/// The same of any bytes. Where the counts are not lent no record is looked
/// at.
pub fn most_looks_at(lent: &[u8]) -> u32 {
    match [87, 95, 103, 111].map(|place| lent.get(place).copied()) {
        [Some(interfaces), Some(subsystems), Some(securities), Some(discoveries)] => {
            most_looks([interfaces, subsystems, securities, discoveries])
        }
        _ => 0,
    }
}
