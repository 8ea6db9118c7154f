//! Times against the table's length: what `bench/plot` draws.

use crate::tables::{grown, long_heap};
use crate::turns::{Timed, Times, Turns};

/// The longest has 60,366 bytes.
const GROWTHS: [usize; 7] = [1, 2, 4, 8, 16, 32, 56];
const ROUNDS: usize = 400;

struct Point {
    records: &'static str,
    bytes: usize,
    timed: [Timed; 4],
}

/// Tables of these lengths, each with many records and with few.
fn tables() -> Vec<(&'static str, Vec<u8>)> {
    let many = GROWTHS.map(grown);
    let few = many.iter().map(|table| ("few", long_heap(table.len()))).collect::<Vec<_>>();
    many.into_iter().map(|table| ("many", table)).chain(few).collect()
}

fn point<'a>(turns: &mut Turns<'a>, records: &'static str, table: &'a [u8]) -> Point {
    let check = turns.check(table);
    let timed = [check.library, turns.rewrite(table).library, check.second, turns.bare_sum(table)];
    Point { records, bytes: table.len(), timed }
}

fn line(point: &Point, times: &Times) -> String {
    let times = point.timed.map(|timed| format!("{:.1}", times[timed]));
    format!("{} {} {}", point.records, point.bytes, times.join(" "))
}

/// A line for each table, in nanoseconds.
pub fn print() {
    let tables = tables();
    let mut turns = Turns::default();
    let points: Vec<Point> = tables.iter().map(|(records, table)| point(&mut turns, records, table)).collect();
    let times = turns.take(ROUNDS);
    println!("records bytes check rewrite second-check byte-sum");
    points.iter().for_each(|point| println!("{}", line(point, &times)));
}
