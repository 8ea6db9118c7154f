//! Reads of records, fields and objects, with what they give.

use crate::answer::number;
use crate::cases::noisy;
use crate::cases::source::{answer, argument, file, list, Family, Group, Shelf};
use crate::discovery::Discovery;
use crate::form::form;
use crate::goods::{bare_identity, goods, with_empty_texts};
use crate::host::Host;
use crate::identity::Identity;
use crate::interface::{Info, Interface};
use crate::meaning::{Entry, Meaning};
use crate::read::{Reading, LONGEST_RECORD};
use crate::record::Record;
use crate::samples::{host_only, known, small, smallest, unended};
use crate::secondary::named_twice;
use crate::security::Security;
use crate::subsystem::{Extended, Subsystem};

const FAMILY: Family = Family {
    about: "Reads with what the second program gives, and that the definitions compute the same.",
    words: ", true, false, ℕ",
    uses: "use Rattle.table.proofs.Cases.{whole, field, object, ReadCase, denied, found, sheet, fine_read, all_fine_reads}",
    case: "ReadCase",
    fine: "fine_read",
    all_fine: "all_fine_reads",
    agree: "reads_agree",
};

/// What is read of the record of a kind and position.
#[derive(Clone, Copy)]
enum Part {
    Whole,
    Field(u32),
    Object(u32),
}

type Question = (u8, u16, Part);

/// A table, and what is asked of it.
struct Inquiry {
    title: &'static str,
    table: Vec<u8>,
    questions: Vec<Question>,
}

/// The part as source text, the answer, and what follows it where it is
/// done: used or present, place, bytes.
fn replied(table: &[u8], question: Question) -> (String, crate::Answer, String) {
    let reading = Reading::of(table);
    let (kind, position, part) = question;
    match part {
        Part::Whole => {
            let image = reading.record(kind, position);
            let bytes = argument(&image.bytes[..image.length]);
            let reply = format!("{} 0 {bytes}", image.used);
            ("whole".to_string(), image.answer, reply)
        }
        Part::Field(offset) => {
            let field = reading.field(kind, position, offset);
            let bytes = list(&field.bytes[..field.length]);
            let reply = format!("{} 0 {bytes}", field.used);
            (format!("(field {offset})"), field.answer, reply)
        }
        Part::Object(offset) => {
            let (answer, place) = reading.object(kind, position, offset);
            let present = place.is_some();
            let place = place.unwrap_or(0..0);
            let (start, bytes) = (place.start, list(&table[place]));
            let reply = format!("{present} {start} {bytes}");
            (format!("(object {offset})"), answer, reply)
        }
    }
}

impl Inquiry {
    fn group(&self, shelf: &mut Shelf) -> Group {
        let name = shelf.name(&self.table);
        let case = |question: &Question| {
            let (kind, position, _) = *question;
            match replied(&self.table, *question) {
                (part, refusal, _) if !refusal.is_done() => {
                    format!("denied {name} {kind} {position} {part} {}", answer(refusal))
                }
                (part, _, reply) => format!("found {name} {kind} {position} {part} {reply}"),
            }
        };
        Group::new(self.title, self.questions.iter().map(case).collect())
    }
}

/// Every field and object that the record has.
fn all_of(table: &[u8], records: &[(u8, u16)]) -> Vec<Question> {
    let reading = Reading::of(table);
    let mut questions = Vec::new();
    for &(kind, position) in records {
        questions.push((kind, position, Part::Whole));
        for offset in 0..LONGEST_RECORD as u32 {
            if reading.field(kind, position, offset).answer.is_done() {
                questions.push((kind, position, Part::Field(offset)));
            }
            if reading.object(kind, position, offset).0.is_done() {
                questions.push((kind, position, Part::Object(offset)));
            }
        }
    }
    questions
}

fn fields(kind: u8, position: u16, offsets: &[u32]) -> Vec<Question> {
    let question = |offset: &u32| (kind, position, Part::Field(*offset));
    offsets.iter().map(question).collect()
}

fn objects(kind: u8, position: u16, offsets: &[u32]) -> Vec<Question> {
    let question = |offset: &u32| (kind, position, Part::Object(*offset));
    offsets.iter().map(question).collect()
}

/// A record asked for whole, by a field and by an object.
fn three_ways(records: &[(u8, u16)]) -> Vec<Question> {
    let ask = |&(kind, position): &(u8, u16)| {
        [Part::Whole, Part::Field(0), Part::Object(12)].map(|part| (kind, position, part))
    };
    records.iter().flat_map(ask).collect()
}

/// The list's used records, changed.
fn change<R>(list: &mut [Entry<R>], change: impl Fn(&mut R)) {
    for entry in list {
        if let Entry::Used(record) = entry {
            change(record);
        }
    }
}

fn every_kind() -> Inquiry {
    let table = form(&small(Subsystem::ID, 1));
    let records = [
        (0, 0),
        (1, 0),
        (Host::ID, 0),
        (Interface::ID, 1),
        (Subsystem::ID, 1),
        (Security::ID, 1),
        (Discovery::ID, 1),
        (Info::ID, 1),
        (Extended::ID, 1),
        (Interface::ID, 2),
        (Discovery::ID, 2),
    ];
    Inquiry {
        title: "every field and object of every kind, in used and unused records",
        questions: all_of(&table, &records),
        table,
    }
}

/// Reserved bytes, places within a field, and calls of the wrong sort.
fn no_such_field() -> [Inquiry; 2] {
    let mut front = fields(0, 0, &[0, 4, 9, 11, 36, 40, 44, 50, 63, 64]);
    front.extend(objects(0, 0, &[10, 36, 43, 45]));
    front.extend(fields(1, 0, &[0, 23, 64, 70, 72, 80, 86, 88, 112, 127]));
    front.extend(objects(1, 0, &[44, 72, 80, 87]));
    front.extend(fields(2, 0, &[3, 17, 18, 24, 31, 32, 4_294_967_295]));
    front.extend(objects(2, 0, &[0, 2, 17, 19, 4_294_967_295]));
    let mut used = fields(3, 1, &[16]);
    used.extend(objects(3, 1, &[16]));
    used.extend(fields(4, 1, &[9, 48, 60, 66]));
    used.extend(objects(4, 1, &[45, 60]));
    used.extend(fields(7, 1, &[5, 53, 104, 110, 128]));
    used.extend(objects(7, 1, &[88, 103, 110]));
    used.extend(fields(9, 1, &[3, 5, 12, 18]));
    used.extend(objects(9, 1, &[10, 18]));
    [
        Inquiry {
            title: "no field or object of header, control or host",
            table: smallest(),
            questions: front,
        },
        Inquiry {
            title: "no field or object of a used record",
            table: form(&small(Subsystem::ID, 1)),
            questions: used,
        },
    ]
}

/// One unused record in every list: what it has not, and what is nowhere.
fn unused() -> [Inquiry; 2] {
    let table = form(&Meaning {
        interfaces: vec![Entry::Unused],
        subsystems: vec![Entry::Unused],
        securities: vec![Entry::Unused],
        discoveries: vec![Entry::Unused],
        ..host_only()
    });
    let mut missing = vec![(0, 1), (1, 1), (2, 1), (8, 0), (8, 1), (11, 1), (255, 0)];
    for kind in [3, 4, 5, 6, 7, 9, 10] {
        missing.extend([(kind, 0), (kind, 2), (kind, 255)]);
    }
    missing.extend([(7, 1), (9, 1), (10, 1), (3, 257), (4, 65_535)]);
    let mut questions = fields(3, 1, &[4, 16, 22, 32]);
    questions.extend(objects(3, 1, &[0, 16]));
    questions.extend(fields(4, 1, &[2, 7, 10, 47, 54, 60, 128]));
    questions.extend(objects(4, 1, &[8, 45, 60, 66]));
    questions.extend(fields(5, 1, &[3, 5, 6, 36, 42, 64]));
    questions.extend(objects(5, 1, &[4, 7, 42]));
    questions.extend(fields(6, 1, &[5, 6, 12, 18, 32]));
    questions.extend(objects(6, 1, &[3, 18]));
    questions.extend(all_of(&table, &[(Subsystem::ID, 1)]));
    [
        Inquiry {
            title: "fields and objects, or none, of unused records",
            table: table.clone(),
            questions,
        },
        Inquiry {
            title: "no such kind or position, and nested records of unused owners",
            table,
            questions: three_ways(&missing),
        },
    ]
}

/// Fields and references that flags make ignored, where noise stands.
fn ignored() -> [Inquiry; 2] {
    let mut meaning = small(Subsystem::ID, 1);
    change(&mut meaning.subsystems, |subsystem| {
        subsystem.security = None;
        subsystem.extended = None;
        subsystem.secondary_interfaces = None;
    });
    let table = noisy(&meaning);
    let mut questions = all_of(&table, &[(Subsystem::ID, 1), (Discovery::ID, 1)]);
    questions.extend(three_ways(&[(Extended::ID, 1)]));
    questions.extend(fields(Info::ID, 1, &[6, 72, 88]));
    let mut meaning = small(Security::ID, 2);
    change(&mut meaning.securities, |security| {
        security.algorithms = None;
        security.groups = None;
        security.keypath = None;
    });
    let secured = noisy(&meaning);
    let records = [(Security::ID, 1), (Security::ID, 2), (Host::ID, 0)];
    [
        Inquiry {
            title: "what SSNS and info flags make ignored, among noise",
            table,
            questions,
        },
        Inquiry {
            title: "what security flags make ignored, and an unused record, among noise",
            questions: all_of(&secured, &records),
            table: secured,
        },
    ]
}

/// Objects of long records among noise.
fn scattered() -> [Inquiry; 3] {
    let interface = noisy(&small(Interface::ID, 2));
    let security = noisy(&small(Security::ID, 1));
    let discovery = noisy(&small(Discovery::ID, 1));
    let mut nested = all_of(&interface, &[(0, 0), (Interface::ID, 2), (Info::ID, 2)]);
    nested.extend(three_ways(&[(Interface::ID, 1), (Info::ID, 1)]));
    [
        Inquiry {
            title: "an info behind an unused record, among noise",
            table: interface,
            questions: nested,
        },
        Inquiry {
            title: "every object of a security record, among noise",
            questions: objects(Security::ID, 1, &[6, 12, 18, 24, 30, 36]),
            table: security,
        },
        Inquiry {
            title: "discovery objects, among noise",
            questions: all_of(&discovery, &[(1, 0), (Discovery::ID, 1)]),
            table: discovery,
        },
    ]
}

/// The extended info of an interface, and none.
fn identities() -> [Inquiry; 4] {
    let whole = noisy(&small(Identity::ID, 1));
    let mut questions = all_of(&whole, &[(Info::ID, 1), (Identity::ID, 1)]);
    questions.extend(fields(Identity::ID, 1, &[3, 5, 8, 14, 20]));
    questions.extend(objects(Identity::ID, 1, &[0, 4, 20]));
    questions.extend(fields(Info::ID, 1, &[110, 116]));
    questions.extend(objects(Info::ID, 1, &[110]));
    let bare = noisy(&bare_identity(1));
    let of_info = |offsets| fields(Info::ID, 1, offsets);
    let nowhere = || three_ways(&[(Identity::ID, 1)]);
    [
        Inquiry {
            title: "an info of version 2 and its extended info, among noise",
            table: whole,
            questions,
        },
        Inquiry {
            title: "an extended info without a client, among noise",
            questions: all_of(&bare, &[(Identity::ID, 1)]),
            table: bare,
        },
        Inquiry {
            title: "no extended info in version 1, though one stands there",
            table: good("identity-ignored-in-version-1"),
            questions: [of_info(&[3, 6, 110]), nowhere()].concat(),
        },
        Inquiry {
            title: "no extended info of an autoconfigured interface",
            table: noisy(&small(Info::ID, 1)),
            questions: [of_info(&[3, 6, 19]), nowhere()].concat(),
        },
    ]
}

/// A good table by its name.
fn good(name: &str) -> Vec<u8> {
    let mut goods = goods().into_iter();
    let sample = goods.find(|good| good.name == name);
    sample.expect("it is among the good tables").table
}

/// Every object that may be text, of records at position 1.
fn all_texts() -> Vec<Question> {
    let references = [
        (Host::ID, 0, &[18][..]),
        (Subsystem::ID, 1, &[54]),
        (Discovery::ID, 1, &[6, 12]),
        (Info::ID, 1, &[104]),
        (Extended::ID, 1, &[12]),
    ];
    let ask = |&(kind, position, offsets): &(u8, u16, &[u32])| objects(kind, position, offsets);
    references.iter().flat_map(ask).collect()
}

/// Texts that are there and empty, that are absent, and that share bytes.
fn texts() -> Vec<Inquiry> {
    let empty = |kind| noisy(&with_empty_texts(kind));
    let seventh = known().into_iter().find(|known| known.name == "known-7");
    let mut signed = objects(0, 0, &[44]);
    signed.extend(objects(Host::ID, 0, &[18]));
    let inquiry = |title, table, questions| Inquiry {
        title,
        table,
        questions,
    };
    vec![
        inquiry(
            "empty texts, among noise",
            empty(Subsystem::ID),
            all_texts(),
        ),
        inquiry(
            "an empty host name of an interface",
            empty(Identity::ID),
            all_texts(),
        ),
        inquiry("absent texts", form(&small(Subsystem::ID, 1)), all_texts()),
        inquiry(
            "K7",
            seventh.expect("it is among the known samples").table,
            objects(Host::ID, 0, &[18]),
        ),
        inquiry(
            "a text that ends as another does",
            good("discovery-name-ends-its-address"),
            objects(Discovery::ID, 1, &[6, 12]),
        ),
        inquiry(
            "a text within an object that is none",
            good("host-name-within-signature"),
            signed,
        ),
    ]
}

/// The check's answer comes before everything else.
fn refused() -> Vec<Inquiry> {
    let numbers = [
        number::TOO_FEW_BYTES,
        number::REGION,
        number::REFERENCE,
        number::INDEX,
    ];
    let mut tables = known();
    tables.retain(|sample| numbers.contains(&sample.answer.number));
    tables.dedup_by_key(|sample| sample.answer);
    tables.extend([unended(), named_twice()]);
    let inquiry = |table| Inquiry {
        title: "a refused table",
        table,
        questions: three_ways(&[(Host::ID, 0), (99, 9)]),
    };
    let mut all: Vec<Inquiry> = tables.into_iter().map(|s| inquiry(s.table)).collect();
    all.push(Inquiry {
        title: "the smallest table",
        table: smallest(),
        questions: all_of(&smallest(), &[(0, 0), (1, 0), (Host::ID, 0)]),
    });
    all
}

/// The text of the reads' file.
pub fn text() -> String {
    let mut inquiries = vec![every_kind()];
    inquiries.extend(no_such_field());
    inquiries.extend(unused());
    inquiries.extend(ignored());
    inquiries.extend(scattered());
    inquiries.extend(identities());
    inquiries.extend(texts());
    inquiries.extend(refused());
    let mut shelf = Shelf::default();
    let groups: Vec<Group> = inquiries.iter().map(|i| i.group(&mut shelf)).collect();
    file(&FAMILY, &shelf, &groups)
}
