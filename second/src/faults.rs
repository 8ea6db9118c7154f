//! Finds every single fault that a good table can be given.

use crate::answer::{number, Answer, CONTROL_KIND, HEADER_KIND};
use crate::damage::Damage;
use crate::discovery::Discovery;
use crate::frame::{Frame, Region, CONTROL_START, DRIVER_SIGNATURE_AT};
use crate::host::Host;
use crate::identity::{Identity, DHCP_ORIGIN};
use crate::interface::{Info, Interface};
use crate::record::Record;
use crate::security::Security;
use crate::subsystem::{Extended, Subsystem};
use crate::wire::{bit, put_reference, two_bits, u16_at, u32_at};

/// Flags of an info, and of an identity.
const BY_DHCP: u8 = 1 << Info::DHCP_BIT;
const AUTOCONFIGURED: u8 = 1 << Info::AUTOCONFIGURED_BIT;
const CLIENT: u8 = 1 << Identity::CLIENT_BIT;

/// All damages of a good table whose objects share no bytes.
pub fn damages(good: &[u8]) -> Vec<Damage> {
    let mut finder = Finder {
        frame: Frame::read(good).expect("only a good table is damaged"),
        found: Vec::new(),
    };
    finder.header();
    finder.control();
    finder.regions();
    finder.versions();
    finder.host();
    finder.each::<Interface>("interface", Finder::interface);
    finder.each::<Subsystem>("subsystem", Finder::subsystem);
    finder.each::<Security>("security", Finder::security);
    finder.each::<Discovery>("discovery", Finder::discovery);
    finder.found
}

/// What is damaged: a record or heap record, the header or the control
/// record.
#[derive(Clone)]
struct Subject {
    name: String,
    /// The kind and position that answers carry.
    kind: u8,
    position: u16,
    /// Where its bytes start in the table.
    start: usize,
    /// How far the judgement of the record has come.
    stage: Vec<usize>,
}

impl Subject {
    fn front(name: &str, kind: u8) -> Subject {
        Subject {
            name: name.to_string(),
            kind,
            position: 0,
            start: 0,
            stage: Vec::new(),
        }
    }

    /// The subject when the reference field at this offset is judged.
    fn at_field(&self, field: usize) -> Subject {
        let mut stage = self.stage.clone();
        stage.push(field);
        Subject {
            stage,
            ..self.clone()
        }
    }

    /// A heap record's own rule is judged before its references, none of
    /// which stands at 0; and a list's right behind its reference.
    fn own_rule(&self) -> Subject {
        self.at_field(0)
    }

    /// Indexes are judged after everything else in a record.
    fn indexes(&self) -> Subject {
        self.at_field(usize::MAX)
    }
}

fn reference_bytes(offset: u32, length: u16) -> [u8; 6] {
    let mut bytes = [0; 6];
    put_reference(&mut bytes, 0, offset, length);
    bytes
}

struct Finder<'a> {
    frame: Frame<'a>,
    found: Vec<Damage>,
}

impl<'a> Finder<'a> {
    /// Bytes that must not stand at this offset of the subject.
    fn fault(&mut self, subject: &Subject, name: &str, number: u8, offset: usize, bytes: &[u8]) {
        self.joint_fault(subject, name, number, &[(offset, bytes)]);
    }

    /// Bytes that must not stand at these offsets all at once.
    fn joint_fault(&mut self, subject: &Subject, name: &str, number: u8, parts: &[(usize, &[u8])]) {
        let edit = |(offset, bytes): &(usize, &[u8])| (subject.start + offset, bytes.to_vec());
        self.found.push(Damage {
            name: format!("{}-{name}", subject.name),
            edits: parts.iter().map(edit).collect(),
            answer: Answer::at(number, subject.kind, subject.position),
            stage: subject.stage.clone(),
        });
    }

    /// One byte that must not have this value.
    fn byte(&mut self, subject: &Subject, name: &str, number: u8, offset: usize, value: u8) {
        self.fault(
            subject,
            &format!("{name}-{value}"),
            number,
            offset,
            &[value],
        );
    }

    /// Bytes of which none may have another value than it has.
    fn identity(&mut self, subject: &Subject, number: u8, parts: &[(&str, usize)]) {
        for (name, offset) in parts {
            let value = self.frame.table[subject.start + offset];
            for other in [value.wrapping_add(1), value.wrapping_sub(1)] {
                self.byte(subject, name, number, *offset, other);
            }
        }
    }

    /// A two-bit field in the 16 bits from the offset on, set to 3.
    fn three(&mut self, subject: &Subject, name: &str, offset: usize, place: u32) {
        let flags = u16_at(self.frame.table, subject.start + offset) | 3 << place;
        let name = format!("{name}-3");
        self.fault(subject, &name, number::RECORD, offset, &flags.to_le_bytes());
    }

    fn header(&mut self) {
        let header = Subject::front("header", HEADER_KIND);
        for (place, name) in ["n", "b", "f", "t"].into_iter().enumerate() {
            let other = self.frame.table[place] ^ 0x20;
            self.fault(
                &header,
                &format!("signature-{name}"),
                number::SIGNATURE,
                place,
                &[other],
            );
        }
        for length in [0, 159, 70_000, u32::MAX] {
            let name = format!("length-{length}");
            self.fault(&header, &name, number::LENGTH, 4, &length.to_le_bytes());
        }
        for (name, offset, value) in [("major", 8, 0), ("major", 8, 2)] {
            self.byte(&header, name, number::HEADER_VERSION, offset, value);
        }
        self.reference(&header, "driver-signature", DRIVER_SIGNATURE_AT, false);
    }

    fn control(&mut self) {
        let control = Subject::front("control", CONTROL_KIND);
        let wrong = [
            ("id", 64, 0),
            ("id", 64, 2),
            ("major", 65, 0),
            ("major", 65, 2),
            ("block-not-valid", 70, 0xFE),
        ];
        for (name, offset, value) in wrong {
            self.byte(&control, name, number::CONTROL, offset, value);
        }
        let past_end = (self.frame.table.len() - CONTROL_START + 1) as u16;
        for size in [0, 63, past_end, u16::MAX] {
            let name = format!("size-{size}");
            self.fault(&control, &name, number::CONTROL, 68, &size.to_le_bytes());
        }
    }

    fn regions(&mut self) {
        let host = Subject::front("host-region", CONTROL_KIND);
        for length in [0, 31] {
            self.byte(&host, "length", number::REGION, 76, length);
        }
        self.moved_region(&host, 72, self.frame.host);
        let heap = Subject::front("heap-region", CONTROL_KIND);
        self.fault(
            &heap,
            "length-greatest",
            number::REGION,
            40,
            &u32::MAX.to_le_bytes(),
        );
        self.moved_region(&heap, 36, self.frame.heap);
        self.list_region::<Interface>("interface-list", 80);
        self.list_region::<Subsystem>("subsystem-list", 88);
        self.list_region::<Security>("security-list", 96);
        self.list_region::<Discovery>("discovery-list", 104);
    }

    fn list_region<R: Record<'a>>(&mut self, name: &str, entry: usize) {
        let list = self.frame.list(R::ID);
        if list.count == 0 {
            return;
        }
        let subject = Subject::front(name, CONTROL_KIND);
        for length in [0, R::SIZE as u16 - 1, u16::MAX] {
            let name = format!("record-length-{length}");
            self.fault(
                &subject,
                &name,
                number::REGION,
                entry + 4,
                &length.to_le_bytes(),
            );
        }
        self.moved_region(&subject, entry, list.region());
    }

    /// Moves a region to where it must not be.
    fn moved_region(&mut self, subject: &Subject, offset: usize, region: Region) {
        let table_end = self.frame.table.len() as u64;
        let control_end = self.frame.control_end;
        let mut places = vec![
            ("at-0".to_string(), 0),
            ("in-control".to_string(), control_end - 1),
            ("past-end".to_string(), table_end - region.length + 1),
            ("at-end".to_string(), table_end),
            ("wraps".to_string(), (1 << 32) - region.length + 1),
        ];
        let others = self.frame.regions().into_iter().enumerate();
        for (place, other) in others.filter(|(_, other)| *other != region) {
            places.push((format!("on-region-{place}"), other.start));
            places.push((format!("on-last-byte-of-region-{place}"), other.end() - 1));
            // Where this would start within the control record, that is
            // the fault.
            let start = (other.start + 1).saturating_sub(region.length);
            places.push((format!("onto-first-byte-of-region-{place}"), start));
        }
        for (name, start) in places {
            let start = (start as u32).to_le_bytes();
            self.fault(subject, &name, number::REGION, offset, &start);
        }
    }

    fn versions(&mut self) {
        let control = Subject::front("control", CONTROL_KIND);
        let entries = [
            ("interface-list-version", 86),
            ("subsystem-list-version", 94),
            ("security-list-version", 102),
            ("discovery-list-version", 110),
        ];
        for version in [0, 2] {
            self.byte(
                &control,
                "host-version",
                number::RECORD_VERSION,
                78,
                version,
            );
            for ((name, offset), list) in entries.into_iter().zip(self.frame.lists()) {
                if list.count != 0 {
                    self.byte(&control, name, number::RECORD_VERSION, offset, version);
                }
            }
        }
    }

    /// Every way in which a reference field can be wrong.
    fn reference(&mut self, subject: &Subject, name: &str, field: usize, required: bool) {
        let (start, end) = (self.frame.heap.start as u32, self.frame.heap.end() as u32);
        let mut wrong = vec![
            ("offset-zero", 0, 1),
            ("length-zero", start, 0),
            ("below-heap", start - 1, 2u16),
            ("at-heap-end", end, 1),
            ("past-heap-end", end - 1, 2),
            ("wraps", 0xFFFF_FFF0, 0x20),
        ];
        if required {
            wrong.push(("absent", 0, 0));
        }
        for (fault, offset, length) in wrong {
            let bytes = reference_bytes(offset, length);
            let name = format!("{name}-{fault}");
            self.fault(subject, &name, number::REFERENCE, field, &bytes);
        }
    }

    /// A reference field of a record, in its turn.
    fn record_reference(&mut self, subject: &Subject, name: &str, field: usize, required: bool) {
        self.reference(&subject.at_field(field), name, field, required);
    }

    /// A reference field to text. The text is judged right behind its
    /// reference.
    fn text(&mut self, subject: &Subject, name: &str, field: usize, required: bool) {
        self.record_reference(subject, name, field, required);
        let reference = subject.start + field;
        match u16_at(self.frame.table, reference + 4) {
            0 => (),
            length => self.spoiled_text(&subject.at_field(field), name, field, length),
        }
    }

    /// Every way in which a text can be wrong, by its bytes and by the
    /// length that the reference gives it.
    fn spoiled_text(&mut self, subject: &Subject, name: &str, field: usize, length: u16) {
        let start = u32_at(self.frame.table, subject.start + field) as usize;
        let text = Subject {
            start,
            ..subject.clone()
        };
        let last = usize::from(length) - 1;
        let mut bytes = vec![("ends-in-1", last, 1), ("ends-in-255", last, 255)];
        let mut lengths = Vec::new();
        if last >= 1 {
            bytes.push(("two-zeros-end-it", last - 1, 0));
            lengths.push(("unended", length - 1));
        }
        if last >= 2 {
            bytes.push(("zero-first", 0, 0));
            lengths.push(("one-byte-not-zero", 1));
        }
        if last >= 3 {
            bytes.push(("zero-inside", last / 2, 0));
        }
        if ((start + last + 1) as u64) < self.frame.heap.end() {
            lengths.push(("one-byte-behind", length + 1));
        }
        for (fault, at, value) in bytes {
            let name = format!("{name}-{fault}");
            self.fault(&text, &name, number::TEXT, at, &[value]);
        }
        for (fault, length) in lengths {
            let name = format!("{name}-{fault}");
            self.fault(
                subject,
                &name,
                number::TEXT,
                field + 4,
                &length.to_le_bytes(),
            );
        }
    }

    /// The heap record behind a reference field that is judged. Its own
    /// rule comes right after the field, and its own references after that.
    fn heap_record<R: Record<'a>>(
        &mut self,
        owner: &Subject,
        name: &str,
        field: usize,
        identity: &[(&str, usize)],
    ) -> Subject {
        let nested = owner.at_field(field);
        for length in [1, R::SIZE as u16 - 1] {
            let name = format!("{name}-length-{length}");
            let bytes = length.to_le_bytes();
            let rule = nested.own_rule();
            self.fault(&rule, &name, number::HEAP_RECORD, field + 4, &bytes);
        }
        let record = Subject {
            name: format!("{}-{name}", owner.name),
            start: u32_at(self.frame.table, owner.start + field) as usize,
            ..nested
        };
        self.identity(&record.own_rule(), number::HEAP_RECORD, identity);
        self.not_valid::<R>(&record.own_rule(), number::HEAP_RECORD);
        record
    }

    fn not_valid<R: Record<'a>>(&mut self, subject: &Subject, number: u8) {
        let flags = self.frame.table[subject.start + R::VALID_AT];
        self.fault(subject, "not-valid", number, R::VALID_AT, &[flags & 0xFE]);
    }

    /// An index into the list of `R` that names no valid record.
    fn index<R: Record<'a>>(
        &mut self,
        subject: &Subject,
        name: &str,
        offset: usize,
        zero_is_fine: bool,
    ) {
        let count = self.frame.list(R::ID).count;
        let mut wrong = vec![count.saturating_add(1), 255];
        wrong.extend((!zero_is_fine).then_some(0));
        wrong.extend((1..=count).find(|index| !self.frame.names_valid::<R>(*index)));
        wrong.retain(|index| !self.frame.names_valid::<R>(*index));
        for index in wrong {
            self.byte(&subject.indexes(), name, number::INDEX, offset, index);
        }
    }

    /// Damages every used record of a list.
    fn each<R: Record<'a>>(&mut self, name: &str, damage: fn(&mut Self, Subject)) {
        for position in 1..=self.frame.list(R::ID).count {
            if self.frame.names_valid::<R>(position) {
                let subject = self.list_subject::<R>(name, position.into());
                damage(self, subject);
            }
        }
    }

    fn list_subject<R: Record<'a>>(&self, name: &str, position: u16) -> Subject {
        let list = self.frame.list(R::ID);
        let before = usize::from(position - 1) * usize::from(list.record_length);
        Subject {
            name: format!("{name}-{position}"),
            kind: R::ID,
            position,
            start: list.offset as usize + before,
            stage: Vec::new(),
        }
    }

    fn host(&mut self) {
        let host = Subject {
            start: self.frame.host.start as usize,
            ..Subject::front("host", Host::ID)
        };
        self.identity(&host, number::RECORD, &[("id", 0)]);
        self.not_valid::<Host>(&host, number::RECORD);
        self.three(&host, "primary", 1, 3);
        self.text(&host, "name", 18, true);
    }

    fn interface(&mut self, interface: Subject) {
        let identity = [("id", 0), ("index", 1), ("type", 3)];
        self.identity(&interface, number::RECORD, &identity);
        let identity = [
            ("id", 0),
            ("version", 1),
            ("type", 2),
            ("index", 4),
            ("index-high", 5),
        ];
        self.record_reference(&interface, "info", 16, true);
        let info = self.heap_record::<Info>(&interface, "info", 16, &identity);
        for version in [0, 3, 255] {
            let (rule, at) = (info.own_rule(), Info::VERSION_AT);
            self.byte(&rule, "transport-version", number::HEAP_RECORD, at, version);
        }
        self.text(&info, "host-name", 104, false);
        match self.frame.table[info.start + Info::VERSION_AT] {
            1 => self.raised_version(&info),
            _ => self.addition(&info),
        }
    }

    /// What version 1 reserves, and is wrong once the info has version 2.
    fn raised_version(&mut self, info: &Subject) {
        let flags = self.frame.table[info.start + Info::VALID_AT];
        let (version, at) = ((Info::VERSION_AT, &[2][..]), Info::VALID_AT);
        self.joint_fault(
            &info.own_rule(),
            "raised-autoconfigured-by-dhcp",
            number::HEAP_RECORD,
            &[version, (at, &[flags | AUTOCONFIGURED | BY_DHCP])],
        );
        let flags = (at, &[flags & !AUTOCONFIGURED][..]);
        self.joint_fault(
            &info.at_field(110),
            "raised-identity-offset-zero",
            number::REFERENCE,
            &[version, flags, (110, &[0, 0, 0, 0, 20, 0])],
        );
    }

    /// What version 2 of an info adds.
    fn addition(&mut self, info: &Subject) {
        self.autoconfigured(&info.own_rule());
        self.record_reference(info, "identity", 110, false);
        if u32_at(self.frame.table, info.start + 110) != 0 {
            let parts = [("id", 0), ("version", 1), ("index", 2), ("index-high", 3)];
            let record = self.heap_record::<Identity>(info, "identity", 110, &parts);
            self.client(info, &record);
        }
    }

    /// An autoconfigured address that is said to have an origin, too.
    fn autoconfigured(&mut self, info: &Subject) {
        let flags = self.frame.table[info.start + Info::VALID_AT];
        let origin = self.frame.table[info.start + Info::ORIGIN_AT];
        let mut wrong = vec![(
            "autoconfigured-by-dhcp",
            Info::VALID_AT,
            flags | AUTOCONFIGURED | BY_DHCP,
        )];
        if flags & AUTOCONFIGURED != 0 {
            wrong.extend([1, DHCP_ORIGIN, 255].map(|o| ("origin", Info::ORIGIN_AT, o)));
        } else if origin != 0 {
            let flags = flags & !BY_DHCP | AUTOCONFIGURED;
            wrong.push(("autoconfigured-with-origin", Info::VALID_AT, flags));
        }
        for (name, offset, value) in wrong {
            self.byte(info, name, number::HEAP_RECORD, offset, value);
        }
    }

    /// The client identifier of an info's identity, or one where there is
    /// none.
    fn client(&mut self, info: &Subject, identity: &Subject) {
        let flags = self.frame.table[identity.start + Identity::VALID_AT];
        let origin = self.frame.table[info.start + Info::ORIGIN_AT];
        if flags & CLIENT != 0 {
            let rule = Subject {
                start: info.start,
                ..identity.own_rule()
            };
            for other in [0, 1, DHCP_ORIGIN - 1, DHCP_ORIGIN + 1, 255] {
                let at = Info::ORIGIN_AT;
                self.byte(&rule, "info-origin", number::HEAP_RECORD, at, other);
            }
            self.record_reference(identity, "iaid", 8, true);
            self.record_reference(identity, "duid", 14, true);
        } else if origin == DHCP_ORIGIN {
            self.client_without_objects(identity, flags | CLIENT);
        } else {
            let (rule, at) = (identity.own_rule(), Identity::VALID_AT);
            self.byte(&rule, "client", number::HEAP_RECORD, at, flags | CLIENT);
        }
    }

    /// The client's first object is absent, or the second one alone.
    fn client_without_objects(&mut self, identity: &Subject, flags: u8) {
        let mut there = (self.frame.heap.start as u32).to_le_bytes().to_vec();
        there.extend([1, 0]);
        for (name, field, first) in [("iaid", 8, &[0; 6][..]), ("duid", 14, &there)] {
            self.joint_fault(
                &identity.at_field(field),
                &format!("client-without-{name}"),
                number::REFERENCE,
                &[(Identity::VALID_AT, &[flags]), (8, first), (14, &[0; 6])],
            );
        }
    }

    fn subsystem(&mut self, subsystem: Subject) {
        let identity = [("id", 0), ("index", 1), ("index-high", 2), ("type", 5)];
        self.identity(&subsystem, number::RECORD, &identity);
        self.three(&subsystem, "availability", 3, 7);
        self.record_reference(&subsystem, "address", 10, true);
        self.record_reference(&subsystem, "service", 16, true);
        self.record_reference(&subsystem, "secondary", 48, false);
        self.secondary_list(&subsystem);
        self.text(&subsystem, "name", 54, true);
        let flags = u16_at(self.frame.table, subsystem.start + 3).into();
        if bit(flags, 4) {
            let identity = [("id", 0), ("version", 1), ("index", 2), ("index-high", 3)];
            self.record_reference(&subsystem, "extended", 60, true);
            let extended = self.heap_record::<Extended>(&subsystem, "extended", 60, &identity);
            self.text(&extended, "root-path", 12, false);
        }
        self.index::<Discovery>(&subsystem, "discovery-index", 8, true);
        if bit(flags, 2) {
            self.index::<Security>(&subsystem, "security-index", 45, false);
        }
        self.index::<Interface>(&subsystem, "primary-index", 46, false);
        self.secondary_indexes(&subsystem);
    }

    /// A secondary list that is too long, whether or not there is one now, or
    /// has a byte twice. It is judged right behind its reference.
    fn secondary_list(&mut self, subsystem: &Subject) {
        let rule = subsystem.at_field(48).own_rule();
        let positions = u16::from(self.frame.interfaces.count);
        let (start, heap) = (self.frame.heap.start as u32, self.frame.heap.length);
        for (name, length) in [("one-too-long", positions + 1), ("over-255", 256)] {
            if u64::from(length) <= heap {
                let bytes = reference_bytes(start, length);
                self.fault(
                    &rule,
                    &format!("secondary-{name}"),
                    number::SECONDARY,
                    48,
                    &bytes,
                );
            }
        }
        self.repeated_indexes(&rule);
    }

    /// A byte of the secondary list that is there, once more in it. Both are
    /// written, so that no other damage to the list takes this one back.
    fn repeated_indexes(&mut self, rule: &Subject) {
        let list = Subject {
            start: u32_at(self.frame.table, rule.start + 48) as usize,
            ..rule.clone()
        };
        let length = usize::from(u16_at(self.frame.table, rule.start + 52));
        if length < 2 {
            return;
        }
        let (index, last) = (self.frame.table[list.start], length - 1);
        for (name, first, second) in [
            ("first-twice", 0, 1),
            ("last-twice", last - 1, last),
            ("last-as-first", 0, last),
        ] {
            let edits: [(usize, &[u8]); 2] = [(first, &[index]), (second, &[index])];
            let name = format!("secondary-{name}");
            self.joint_fault(&list, &name, number::SECONDARY, &edits);
        }
    }

    /// The first and the last byte of the secondary list, if there is one.
    fn secondary_indexes(&mut self, subsystem: &Subject) {
        let object = Subject {
            start: u32_at(self.frame.table, subsystem.start + 48) as usize,
            ..subsystem.clone()
        };
        match u16_at(self.frame.table, subsystem.start + 52) {
            0 => (),
            1 => self.index::<Interface>(&object, "secondary-only", 0, false),
            length => {
                self.index::<Interface>(&object, "secondary-first", 0, false);
                let last = usize::from(length) - 1;
                self.index::<Interface>(&object, "secondary-last", last, false);
            }
        }
    }

    fn security(&mut self, security: Subject) {
        self.identity(&security, number::RECORD, &[("id", 0), ("index", 1)]);
        let flags = u16_at(self.frame.table, security.start + 2).into();
        let secret = self.frame.table[security.start + 4].into();
        self.three(&security, "authentication", 2, 1);
        self.three(&security, "protocols", 2, 3);
        self.three(&security, "channel", 2, 5);
        self.three(&security, "algorithms", 2, 7);
        let references = [
            ("algorithms", 6, two_bits(flags, 7) != 0),
            ("protocols", 12, two_bits(flags, 3) != 0),
            ("ciphers", 18, bit(flags, 9)),
            ("groups", 24, bit(flags, 10)),
            ("hashes", 30, bit(flags, 11)),
            ("keypath", 36, bit(secret, 0)),
        ];
        for (name, field, counts) in references {
            if counts {
                self.record_reference(&security, name, field, true);
            }
        }
    }

    fn discovery(&mut self, discovery: Subject) {
        self.identity(&discovery, number::RECORD, &[("id", 0), ("index", 2)]);
        self.text(&discovery, "address", 6, false);
        self.text(&discovery, "name", 12, false);
        self.index::<Interface>(&discovery, "interface-index", 3, false);
        self.index::<Security>(&discovery, "security-index", 4, true);
    }
}
