//! Each call of the C library by itself, on the typical table: what a caller pays for it. Where another row has timed
//! the call already, that time is taken, so that no call has two.

use crate::turns::{Timed, Times, Turns};
use linked::builder::Run;
use second::frame::GREATEST_LENGTH;
use second::random::Random;
use second::retell::{calls, Call};
use second::whole::ENTRY_SIZE;
use second::{samples, Entry};
use std::hint::black_box;
use std::slice::from_ref;

const HOST: u8 = 2;
const SSNS: u8 = 4;
/// A field of an SSNS, and an object: namespace ID and NQN of the subsystem.
const NSID: u32 = 24;
const NQN: u32 = 54;

/// A call by its name in C.
type Named = (&'static str, Timed);

/// The calls that other rows have timed, each of the typical table.
pub struct Shared {
    pub check: Timed,
    pub records: Timed,
    pub rewrite: Timed,
    pub compact: Timed,
}

/// What is told in two builds.
pub struct Builds {
    /// Of the typical table.
    pub typical: Vec<Call>,
    /// Of the same with one HFI more, whose position is left: the typical table leaves none.
    leaving: Vec<Call>,
}

impl Builds {
    pub fn of_machine() -> Builds {
        let mut more = samples::machine();
        more.interfaces.push(Entry::Unused);
        let told = |meaning| calls(&mut Random::seeded(1), meaning);
        Builds { typical: told(&samples::machine()), leaving: told(&more) }
    }
}

/// All calls of the C library, in the order of its header.
pub struct Alone {
    check: Timed,
    rows: Vec<Named>,
}

impl Alone {
    pub fn enter<'a>(turns: &mut Turns<'a>, table: &'a [u8], builds: &'a Builds, shared: &Shared) -> Alone {
        let mut rows = vec![("nbft_check", shared.check)];
        rows.extend(turns.reads(table));
        rows.extend([
            ("nbft_records", shared.records),
            ("nbft_rewrite", shared.rewrite),
            ("nbft_compact", shared.compact),
        ]);
        rows.extend(turns.steps(builds));
        Alone { check: shared.check, rows }
    }

    pub fn print(&self, times: &Times) {
        println!("{:<37} library   to check", "ns per call, typical table");
        for (name, timed) in &self.rows {
            println!("{name:<35} {:>9.0}   {:>8.2}", times[*timed], times[*timed] / times[self.check]);
        }
    }
}

impl<'a> Turns<'a> {
    /// The calls that read and are timed nowhere else: values of the first SSNS, and the host as a record.
    fn reads(&mut self, table: &'a [u8]) -> [Named; 6] {
        let (start, place) = (linked::object_start(table, SSNS, 1, NQN), linked::object_place(table, SSNS, 1, NQN));
        let mut entry = [0; ENTRY_SIZE];
        assert!(linked::check_looks(table).0.is_done() && linked::field(table, SSNS, 1, NSID).answer.is_done());
        assert!(linked::object_length(table, SSNS, 1, NQN).0.is_done() && place.answer.is_done());
        assert!(start != 0 && place.place.start == start && linked::record(table, HOST, 0, &mut entry).is_done());
        [
            ("nbft_check_looks", self.enter(|| linked::check_looks(black_box(table)))),
            ("nbft_field", self.enter(|| linked::field(black_box(table), SSNS, 1, NSID))),
            ("nbft_object", self.enter(|| linked::object_length(black_box(table), SSNS, 1, NQN))),
            ("nbft_object_start", self.enter(|| linked::object_start(black_box(table), SSNS, 1, NQN))),
            ("nbft_object_place", self.enter(|| linked::object_place(black_box(table), SSNS, 1, NQN))),
            ("nbft_record", self.enter(move || linked::record(black_box(table), HOST, 0, black_box(&mut entry)))),
        ]
    }

    /// The builder's calls; of records with a list, that of the first.
    fn steps(&mut self, builds: &'a Builds) -> [Named; 8] {
        let Builds { typical, leaving } = builds;
        [
            ("nbft_begin", self.step(typical, |call| matches!(call, Call::Begin(..)))),
            ("nbft_host", self.step(typical, |call| matches!(call, Call::Host(..)))),
            ("nbft_hfi", self.step(typical, |call| matches!(call, Call::Hfi { .. }))),
            ("nbft_ssns", self.step(typical, |call| matches!(call, Call::Ssns(..)))),
            ("nbft_security", self.step(typical, |call| matches!(call, Call::Security(..)))),
            ("nbft_discovery", self.step(typical, |call| matches!(call, Call::Discovery(..)))),
            ("nbft_leave", self.step(leaving, |call| matches!(call, Call::Leave))),
            ("nbft_finish", self.step(typical, |call| matches!(call, Call::Finish))),
        ]
    }

    /// The first such call of a build, into the buffer that the calls before it have left. It would be refused in the
    /// state that it leaves, so each time it is given the one before, 16 bytes. What it writes stands in the buffer
    /// already then; that it is done all the same, and leaves the same, is tested first.
    fn step(&mut self, calls: &'a [Call], is_meant: impl Fn(&Call) -> bool) -> Timed {
        let place = calls.iter().position(is_meant).expect("the build has such a call");
        let mut out = vec![0; GREATEST_LENGTH];
        let (answer, before) = Run::of(&calls[..place]).make(&mut out);
        assert!(answer.is_done());
        let run = Run::of(from_ref(&calls[place]));
        let first = run.make_from(before, &mut out);
        let left = out.clone();
        assert!(first.0.is_done() && run.make_from(before, &mut out) == first && out == left);
        self.enter(move || black_box(&run).make_from(black_box(before), black_box(&mut out)))
    }
}
