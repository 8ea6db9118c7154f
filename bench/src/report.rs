//! The benchmark's tables: a sum, a check, reads of a field, of an object's place
//! and of a whole table, a rewrite, a closing up of the heap and a build, each
//! beside two more that it is held to; and every call of the C library by itself.

use crate::alone::{Alone, Builds, Shared};
use crate::calls::Both;
use crate::stack;
use crate::tables::{grown, long_heap, most_looks, most_sites, shared_text, with_a_hole};
use crate::turns::{Timed, Times, Turns};
use linked::builder::Run;
use second::form;
use second::frame::GREATEST_LENGTH;
use second::retell::Call;
use second::samples;
use std::slice::from_ref;

const ROUNDS: usize = 1_000;

/// The library's call, and two that it is held to: most often the second program's, and one more.
struct Row {
    name: &'static str,
    bytes: usize,
    timed: [Timed; 3],
}

impl Row {
    fn print(&self, times: &Times) {
        let [library, one, other] = self.timed.map(|timed| times[timed]);
        println!(
            "{:<22} {:>6} bytes {library:>9.0} {one:>9.0} {other:>9.0}   {:>6.2} {:>6.2}",
            self.name,
            self.bytes,
            library / one,
            library / other
        );
    }

    /// How many times as long the library takes as in another row.
    fn to(&self, other: &Row, times: &Times) -> f64 {
        times[self.timed[0]] / times[other.timed[0]]
    }
}

fn check_row<'a>(turns: &mut Turns<'a>, name: &'static str, table: &'a [u8]) -> Row {
    let check = turns.check(table);
    Row { name, bytes: table.len(), timed: [check.library, check.second, turns.bare_sum(table)] }
}

/// Beside the bare sum and the check of the same table, which has this sum in it.
fn sum_row<'a>(turns: &mut Turns<'a>, table: &'a [u8], check: &Row) -> Row {
    Row { timed: [turns.sum(table), check.timed[2], check.timed[0]], ..*check }
}

/// Beside the check of the same table.
fn rewrite_row<'a>(turns: &mut Turns<'a>, table: &'a [u8], check: &Row) -> Row {
    let rewrite = turns.rewrite(table);
    Row { timed: [rewrite.library, rewrite.second, check.timed[0]], ..*check }
}

/// Beside the check of the same table but for a byte.
fn compact_row<'a>(turns: &mut Turns<'a>, table: &'a [u8], check: &Row) -> Row {
    let compact = turns.compact(table);
    Row { timed: [compact.library, compact.second, check.timed[0]], ..*check }
}

fn field_row<'a>(turns: &mut Turns<'a>, table: &'a [u8], check: &Row) -> Row {
    let field = turns.field(table);
    Row { timed: [field.library, field.second, check.timed[0]], ..*check }
}

/// One call beside two that give the same, and beside the check.
fn place_row<'a>(turns: &mut Turns<'a>, table: &'a [u8], check: &Row) -> Row {
    let [one, two] = turns.place(table);
    Row { timed: [one, two, check.timed[0]], ..*check }
}

/// Beside the check of the same table.
fn whole_row(name: &'static str, whole: Both, check: &Row) -> Row {
    Row { name, timed: [whole.library, whole.second, check.timed[0]], ..*check }
}

/// The typical table by one call and by one for each list, and the large one.
fn whole_rows<'a>(turns: &mut Turns<'a>, typical: &'a [u8], large: &'a [u8], checks: &[Row]) -> [Row; 3] {
    [
        whole_row("typical", turns.whole(typical), &checks[1]),
        whole_row("typical, list by list", turns.list_by_list(typical), &checks[1]),
        whole_row("60 kB, many records", turns.whole(large), &checks[4]),
    ]
}

/// Beside the sum of the finished table's bytes.
fn build_row<'a>(turns: &mut Turns<'a>, calls: &'a [Call], table: &'a [u8], check: &Row) -> Row {
    let build = turns.build(calls, table);
    Row { timed: [build.library, build.second, check.timed[2]], ..*check }
}

fn print_table(call: &str, held_to: [&str; 2], rows: &[Row], times: &Times) {
    let [one, other] = held_to;
    let [short, other_short] = held_to.map(|name| name.trim_start_matches("byte "));
    println!("{:<41} library {one:>9} {other:>9}   to {short}, to {other_short}", format!("ns per {call}"));
    rows.iter().for_each(|row| row.print(times));
}

/// Bytes of stack that a check, a read of all records, a rewrite, a closing and a build take.
fn stacks(table: &[u8], calls: &[Call]) -> [usize; 5] {
    let (mut output, mut lent) = (vec![0; GREATEST_LENGTH], with_a_hole(table));
    let run = Run::of(calls);
    [
        stack::depth(|| linked::check(table)),
        stack::depth(|| linked::records(table, 0, 0, 10, &mut output)),
        stack::depth(|| linked::rewrite(table, &mut output)),
        stack::depth(|| linked::compact(&mut lent, &mut output)),
        stack::depth(|| run.make(&mut output)),
    ]
}

/// What is timed, a table of rows for each call.
struct Report {
    sums: [Row; 3],
    checks: [Row; 8],
    /// Of the row above with the most.
    looks: u32,
    field: Row,
    place: Row,
    wholes: [Row; 3],
    rewrites: [Row; 5],
    closings: [Row; 4],
    build: Row,
}

pub fn print() {
    let (smallest, typical, long) = (samples::smallest(), grown(1), long_heap(60_000));
    let (half, large, identity) = (grown(28), grown(56), form(&samples::dhcp()));
    let (shared, looks) = (shared_text(16, 40_000), most_looks());
    let holed = [&typical, &long, &half, &large].map(|table| with_a_hole(table));
    let builds = Builds::of_machine();
    let mut turns = Turns::default();
    let checks = [
        ("K1", &smallest),
        ("typical", &typical),
        ("60 kB, few records", &long),
        ("30 kB, many records", &half),
        ("60 kB, many records", &large),
        ("DHCP identity", &identity),
        ("one text, 33 records", &shared),
        ("most looks", &looks),
    ]
    .map(|(name, table)| check_row(&mut turns, name, table));
    let report = Report {
        sums: [(&smallest, 0), (&typical, 1), (&long, 2)]
            .map(|(table, check)| sum_row(&mut turns, table, &checks[check])),
        field: field_row(&mut turns, &typical, &checks[1]),
        place: place_row(&mut turns, &typical, &checks[1]),
        wholes: whole_rows(&mut turns, &typical, &large, &checks),
        rewrites: [(&typical, 1), (&long, 2), (&half, 3), (&large, 4), (&identity, 5)]
            .map(|(table, check)| rewrite_row(&mut turns, table, &checks[check])),
        closings: [0, 1, 2, 3].map(|place| compact_row(&mut turns, &holed[place], &checks[place + 1])),
        build: build_row(&mut turns, &builds.typical, &typical, &checks[1]),
        looks: looks_of(&looks),
        checks,
    };
    let alone = Alone::enter(&mut turns, &typical, &builds, &report.shared());
    let times = turns.take(ROUNDS);
    report.print(&times, stacks(&large, &builds.typical));
    alone.print(&times);
}

/// How often the check of a good table looks at records, on which both programs must agree.
fn looks_of(table: &[u8]) -> u32 {
    let looked = linked::check_looks(table);
    assert_eq!(looked, second::check_looks(table));
    assert!(looked.0.is_done());
    looked.1
}

/// A closing takes so long here that fewer rounds must do.
pub fn print_worst() {
    let table = most_sites();
    let mut turns = Turns::default();
    let check = check_row(&mut turns, "most sites", &table);
    let compact = compact_row(&mut turns, &table, &check);
    let times = turns.take(ROUNDS / 50);
    println!("timed: {}\n", env!("TIMED"));
    print_table("closing", ["second", "check"], from_ref(&compact), &times);
}

impl Report {
    /// What these rows have timed of the typical table.
    fn shared(&self) -> Shared {
        Shared {
            check: self.checks[1].timed[0],
            records: self.wholes[0].timed[0],
            rewrite: self.rewrites[0].timed[0],
            compact: self.closings[0].timed[0],
        }
    }

    fn print(&self, times: &Times, stacks: [usize; 5]) {
        let Report { sums, checks, looks, field, place, wholes, rewrites, closings, build } = self;
        println!("timed: {}\n", env!("TIMED"));
        print_table("sum", ["byte sum", "check"], sums, times);
        println!("to check: the part of a check that is the sum\n");
        print_table("check", ["second", "byte sum"], checks, times);
        println!("twice the table takes {:.2} times the time", checks[4].to(&checks[3], times));
        let by_look = times[checks[7].timed[0]] / f64::from(*looks);
        println!("most looks: {looks} looks at records, {by_look:.2} ns for each");
        println!("a check takes {} bytes of stack", stacks[0]);
        println!("targets: 60 kB with few records at most 1.2 to second and 1.5 to sum");
        println!("         typical at most 1.5 to second, DHCP identity at most 1; twice at most 2.2\n");
        print_table("field read", ["second", "check"], from_ref(field), times);
        println!();
        print_table("object's place", ["two calls", "check"], from_ref(place), times);
        println!();
        print_table("table read whole", ["second", "check"], wholes, times);
        println!("a read of all records takes {} bytes of stack", stacks[1]);
        println!("targets: typical at most 8 to check\n");
        print_table("rewrite", ["second", "check"], rewrites, times);
        println!("twice the table takes {:.2} times the time", rewrites[3].to(&rewrites[2], times));
        println!("a rewrite takes {} bytes of stack", stacks[2]);
        println!("targets: typical and 60 kB at most 3 to check; DHCP identity at most 1 to second; twice at most 2.2\n");
        print_table("closing", ["second", "check"], closings, times);
        println!("twice the table takes {:.2} times the time", closings[3].to(&closings[2], times));
        println!("a closing takes {} bytes of stack", stacks[3]);
        println!("targets: typical and 60 kB at most 1.5 to second\n");
        print_table("build", ["second", "byte sum"], from_ref(build), times);
        println!("a build takes {} bytes of stack\n", stacks[4]);
    }
}
