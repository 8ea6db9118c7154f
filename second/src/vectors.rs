//! Tables with their answers and forms, as lines of text.

use crate::damage::{empty_heap, outer_damage, Damage};
use crate::discovery::Discovery;
use crate::faults::damages;
use crate::form::{form, form_length, rewrite};
use crate::frame::GREATEST_LENGTH;
use crate::generate::random_meaning;
use crate::goods::{bare_identity, goods};
use crate::identity::{Identity, DHCP_ORIGIN};
use crate::interface::{Info, Interface};
use crate::layout::{lay_out_freely, with_tail, Style};
use crate::meaning::{check, meaning};
use crate::random::Random;
use crate::record::Record;
use crate::samples::{dhcp, host_only, known, machine, small, smallest, unended, Sample};
use crate::secondary::lists;
use crate::security::Security;
use crate::subsystem::Subsystem;
use crate::Answer;
use std::fmt::Write;

const HEADER: &str = "\
# Tables with the answer of the check and the bytes of the rewritten form.
#
# One table a line: NAME NUMBER KIND POSITION TABLE FORM
#
# TABLE is every lent byte, in uppercase hex; (N) stands for N zero bytes,
# which is how each run of four or more is written. A table of no bytes is
# written as (0). FORM is written likewise; it is - where the table is refused,
# and where the number is 0 but the form would pass 65,536 bytes (so that the
# rewriter answers 17).
";

/// A sample with what this program makes of it.
pub struct Vector {
    pub name: String,
    pub table: Vec<u8>,
    pub answer: Answer,
    pub form: Option<Vec<u8>>,
}

impl Vector {
    fn of(sample: Sample) -> Vector {
        let answer = check(&sample.table);
        assert_eq!(answer, sample.answer, "{}", sample.name);
        let mut output = vec![0; GREATEST_LENGTH];
        let (answer_of_rewrite, length) = rewrite(&sample.table, &mut output);
        output.truncate(length);
        Vector {
            name: sample.name,
            table: sample.table,
            answer,
            form: answer_of_rewrite.is_done().then_some(output),
        }
    }

    fn line(&self) -> String {
        let Answer {
            number,
            kind,
            position,
        } = self.answer;
        let table = hex(&self.table);
        let form = self.form.as_deref().map_or("-".to_string(), hex);
        format!("{} {number} {kind} {position} {table} {form}\n", self.name)
    }
}

/// Splits bytes into runs, each with its start; four or more of the same
/// byte stand alone, where that byte is to.
pub fn runs(bytes: &[u8], is_to_stand_alone: impl Fn(u8) -> bool) -> Vec<(usize, &[u8])> {
    let mut runs = Vec::new();
    let (mut start, mut place) = (0, 0);
    while place < bytes.len() {
        let rest = &bytes[place..];
        let same = rest.iter().take_while(|byte| **byte == rest[0]).count();
        if same >= 4 && is_to_stand_alone(rest[0]) {
            runs.push((start, &bytes[start..place]));
            runs.push((place, &bytes[place..place + same]));
            start = place + same;
        }
        place += same;
    }
    runs.push((start, &bytes[start..]));
    runs.retain(|(_, run)| !run.is_empty());
    runs
}

/// Whether a run is one that can stand alone.
pub fn is_repetition(run: &[u8]) -> bool {
    run.len() >= 4 && run.iter().all(|byte| *byte == run[0])
}

fn hex(bytes: &[u8]) -> String {
    if bytes.is_empty() {
        return "(0)".to_string();
    }
    let mut text = String::new();
    for (_, run) in runs(bytes, |byte| byte == 0) {
        if run[0] == 0 && is_repetition(run) {
            let _ = write!(text, "({})", run.len());
        } else {
            run.iter().for_each(|byte| {
                let _ = write!(text, "{byte:02X}");
            });
        }
    }
    text
}

fn apply_all(good: &[u8], damages: impl IntoIterator<Item = Damage>) -> Vec<Sample> {
    damages
        .into_iter()
        .map(|damage| damage.apply(good))
        .collect()
}

/// Every damage to one full record of each kind, and some to such a record
/// behind an unused one.
fn record_damage() -> Vec<Sample> {
    let mut samples = Vec::new();
    for kind in [Interface::ID, Subsystem::ID, Security::ID, Discovery::ID] {
        for (position, every) in [(1, 1), (2, 5)] {
            let good = form(&small(kind, position));
            let of_kind = |damage: &Damage| damage.answer.kind == kind;
            let found = damages(&good).into_iter().filter(of_kind).step_by(every);
            samples.extend(apply_all(&good, found));
        }
    }
    samples
}

/// Every damage to what version 2 of an info adds, without what is the same
/// in version 1, and some to such an info behind an unused record.
fn addition_damage() -> Vec<Sample> {
    let added = [
        "-transport-version-",
        "-autoconfigured-",
        "-origin-",
        "-identity-",
    ];
    let client = ["-client-"];
    let tables = [
        ("autoconfigured", small(Info::ID, 1), &added[..], 1),
        ("bare", bare_identity(1), &client, 1),
        ("bare-by-dhcp", bare_identity(DHCP_ORIGIN), &client, 1),
        ("identity", small(Identity::ID, 1), &added, 1),
        ("identity-behind-unused", small(Identity::ID, 2), &added, 5),
    ];
    let mut samples = Vec::new();
    for (name, meaning, words, every) in tables {
        let good = form(&meaning);
        let mut found = damages(&good);
        found.retain(|damage| words.iter().any(|word| damage.name.contains(word)));
        let found = found.into_iter().step_by(every);
        samples.extend(apply_all(&good, found.map(|damage| damage.named(name))));
    }
    samples
}

/// Damage to header and host of a table without lists, and to the lists of
/// one that has them all.
fn front_damage() -> Vec<Sample> {
    let good = form(&host_only());
    let mut samples = outer_damage(&good);
    samples.push(empty_heap(&good));
    samples.push(empty_heap(&smallest()));
    samples.extend(apply_all(&good, damages(&good)));
    let good = form(&small(Subsystem::ID, 1));
    let of_lists = |damage: &Damage| damage.answer.kind == 1 && damage.name.contains("-list-");
    let found = damages(&good).into_iter().filter(of_lists);
    samples.extend(apply_all(&good, found));
    samples
}

/// Two faults at once, of which the first counts.
fn double_damage(random: &mut Random) -> Vec<Sample> {
    let good = form(&small(Subsystem::ID, 1));
    let numbers = [2, 3, 6, 7, 8, 9, 10, 11, 12, 13, 18, 20];
    doubly_damaged(random, &good, &damages(&good), &numbers)
}

/// Two faults of one interface at once, so that the order of its references
/// and of what hangs on them shows.
fn double_addition_damage(random: &mut Random) -> Vec<Sample> {
    let good = form(&small(Identity::ID, 1));
    let found = damages(&good).into_iter();
    let of_kind = found.filter(|damage| damage.answer.kind == Interface::ID);
    let found: Vec<Damage> = of_kind.map(|damage| damage.named("identity")).collect();
    doubly_damaged(random, &good, &found, &[10, 11, 12, 18])
}

/// Five samples for each number of the first fault.
fn doubly_damaged(
    random: &mut Random,
    good: &[u8],
    found: &[Damage],
    numbers: &[u8],
) -> Vec<Sample> {
    let mut samples = Vec::new();
    for &number in numbers {
        let first = |damage: &&Damage| damage.answer.number == number;
        let firsts: Vec<&Damage> = found.iter().filter(first).collect();
        let wanted = samples.len() + 5;
        while samples.len() < wanted {
            let (first, second) = (random.pick(&firsts), random.pick(found));
            samples.extend(first.before(second, good));
        }
    }
    samples
}

/// A random table that is short, and so is its form.
fn short_table(random: &mut Random, longest: usize) -> Vec<u8> {
    loop {
        let said = random_meaning(random);
        let table = lay_out_freely(random, &said, Style::WILD);
        if table.len() <= longest && form_length(&meaning(&table)) <= longest {
            return table;
        }
    }
}

fn random_goods(random: &mut Random) -> Vec<Sample> {
    let sample = |number: usize| {
        let table = short_table(random, if number < 20 { 700 } else { 900 });
        good(format!("random-{number}"), with_tail(random, table))
    };
    (0..60).map(sample).collect()
}

/// Each wild table once more, with the same meaning in another layout.
fn pairs(random: &mut Random) -> Vec<Sample> {
    let mut samples = Vec::new();
    for number in 0..12 {
        let wild = short_table(random, 700);
        let other = lay_out_freely(random, &meaning(&wild), Style::SHARED);
        samples.push(good(format!("pair-{number}-first"), wild));
        samples.push(good(format!("pair-{number}-second"), other));
    }
    samples
}

fn machines(random: &mut Random) -> Vec<Sample> {
    let layouts = [Style::SEPARATE, Style::SHARED, Style::WILD];
    let named = layouts.iter().enumerate();
    let samples = |(number, style): (usize, &Style)| {
        [("machine", machine()), ("dhcp", dhcp())].map(|(name, told)| {
            let table = lay_out_freely(random, &told, *style);
            good(format!("{name}-layout-{number}"), table)
        })
    };
    named.flat_map(samples).collect()
}

fn good(name: String, table: Vec<u8>) -> Sample {
    Sample {
        name,
        table,
        answer: Answer::DONE,
    }
}

/// All committed vectors, the same on every run.
pub fn vectors() -> Vec<Vector> {
    let mut random = Random::seeded(2026);
    let mut samples = known();
    samples.push(unended());
    samples.extend(goods());
    samples.extend(lists());
    samples.extend(front_damage());
    samples.extend(record_damage());
    samples.extend(addition_damage());
    samples.extend(double_damage(&mut random));
    samples.extend(double_addition_damage(&mut random));
    samples.extend(random_goods(&mut random));
    samples.extend(pairs(&mut random));
    samples.extend(machines(&mut random));
    samples.into_iter().map(Vector::of).collect()
}

/// The text of the vectors' file.
pub fn text() -> String {
    let lines = vectors().iter().map(Vector::line).collect::<String>();
    format!("{HEADER}{lines}")
}
