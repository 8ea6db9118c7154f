//! All comparisons over and over, each time from another seed, until a time has passed or so many cases have agreed.

use crate::guard::Guarded;
use crate::tally::Tally;
use crate::{builder, builds, checks, closings, reads, records, rewrites};
use std::time::{Duration, Instant, SystemTime, UNIX_EPOCH};

/// When to stop: looked at behind every batch.
#[derive(Clone, Copy)]
pub enum Until {
    Seconds(u64),
    Cases(u64),
}

impl Until {
    fn is_reached(self, start: Instant, cases: u64) -> bool {
        match self {
            Until::Seconds(seconds) => start.elapsed().as_secs() >= seconds,
            Until::Cases(wanted) => cases >= wanted,
        }
    }
}

/// A seed that no run before had, as long as the clock goes forward.
pub fn fresh_seed() -> u64 {
    SystemTime::now().duration_since(UNIX_EPOCH).map_or(0, |since| since.as_micros() as u64)
}

type Compare = fn(&mut Soak, u64, u64) -> Result<(), String>;

/// A batch of one sort: what its cases are, how many it has, and how they are compared from a seed.
struct Batch {
    cases: &'static str,
    count: u64,
    compare: Compare,
}

const fn batch(cases: &'static str, count: u64, compare: Compare) -> Batch {
    Batch { cases, count, compare }
}

/// A seed's batch is the one at its remainder, so that the seed alone says what was compared.
const BATCHES: [Batch; 12] = [
    batch("tables checked", 1000, |soak, count, seed| {
        checks::generated(count, seed, &mut soak.tally, checks::by_library)
    }),
    batch("tables read", 4, |soak, count, seed| {
        reads::generated(count, seed, &mut soak.tally, reads::by_library)
    }),
    batch("tables' records read whole", 100, |soak, count, seed| {
        records::generated(count, seed, &mut soak.tally, records::by_library)
    }),
    batch("tables rewritten", 200, |soak, count, seed| {
        rewrites::generated(count, seed, &mut soak.tally, rewrites::by_library)
    }),
    batch("tables closed up", 200, |soak, count, seed| {
        closings::generated(count, seed, &mut soak.tally, closings::by_library)
    }),
    batch("builder's runs", 200, |soak, count, seed| {
        builds::generated(count, seed, &mut soak.tally, builder::by_library)
    }),
    batch("tables checked between closed pages", 500, |soak, count, seed| {
        let pages = &mut soak.pages[0];
        checks::generated(count, seed, &mut soak.tally, |table| checks::by_library_in_pages(pages, table))
    }),
    batch("tables read between closed pages", 1, |soak, count, seed| {
        let pages = &mut soak.pages[0];
        reads::generated(count, seed, &mut soak.tally, |table, tally| reads::by_library_in_pages(pages, table, tally))
    }),
    batch("tables' records read whole between closed pages", 25, |soak, count, seed| {
        let pages = &mut soak.pages;
        records::generated(count, seed, &mut soak.tally, |table, asked, output| {
            records::by_library_in_pages(pages, table, asked, output)
        })
    }),
    batch("tables rewritten between closed pages", 100, |soak, count, seed| {
        let pages = &mut soak.pages;
        rewrites::generated(count, seed, &mut soak.tally, |table, output| {
            rewrites::by_library_in_pages(pages, table, output)
        })
    }),
    batch("tables closed up between closed pages", 100, |soak, count, seed| {
        let pages = &mut soak.pages;
        closings::generated(count, seed, &mut soak.tally, |table, map| {
            closings::by_library_in_pages(pages, table, map)
        })
    }),
    batch("builder's runs between closed pages", 100, |soak, count, seed| {
        let pages = &mut soak.builder_pages;
        builds::generated(count, seed, &mut soak.tally, |call, state, buffer| {
            builder::by_library_in_pages(pages, call, state, buffer)
        })
    }),
];

struct Soak {
    tally: Tally,
    pages: [Guarded; 2],
    builder_pages: builder::Pages,
    batches: [u64; BATCHES.len()],
}

/// What was compared, in words; or the first difference.
pub fn run(until: Until, seed: u64) -> Result<String, String> {
    println!("seed {seed}; a difference is met again by make soak CASES=1 SEED= and the seed that it tells");
    let pages = std::array::from_fn(|_| Guarded::new(1 << 20));
    let (tally, batches) = (Tally::default(), [0; BATCHES.len()]);
    let mut soak = Soak { tally, pages, builder_pages: builder::pages(), batches };
    soak.directed()?;
    let (start, mut next, mut told) = (Instant::now(), seed, Duration::ZERO);
    while next == seed || !until.is_reached(start, soak.cases()) {
        soak.compare(next)?;
        next = next.wrapping_add(1);
        if start.elapsed() - told >= Duration::from_secs(60) {
            told = start.elapsed();
            println!("{} cases agree after {} seconds", soak.cases(), told.as_secs());
        }
    }
    Ok(soak.told(start.elapsed()))
}

impl Soak {
    /// What does not depend on a seed, once.
    fn directed(&mut self) -> Result<(), String> {
        checks::known(checks::by_library)?;
        reads::known(&mut self.tally, reads::by_library)?;
        records::directed(&mut self.tally, records::by_library)?;
        rewrites::directed(&mut self.tally, rewrites::by_library)?;
        closings::directed(&mut self.tally, closings::by_library)?;
        builds::known(&mut self.tally, builder::by_library)
    }

    fn compare(&mut self, seed: u64) -> Result<(), String> {
        let sort = (seed % BATCHES.len() as u64) as usize;
        let Batch { cases, count, compare } = BATCHES[sort];
        compare(self, count, seed).map_err(|difference| format!("1 difference: {cases}, {difference}"))?;
        self.batches[sort] += 1;
        Ok(())
    }

    /// How many cases of each sort.
    fn by_sort(&self) -> impl Iterator<Item = (&'static str, u64)> + '_ {
        BATCHES.iter().zip(&self.batches).map(|(batch, batches)| (batch.cases, batch.count * batches))
    }

    fn cases(&self) -> u64 {
        self.by_sort().map(|(_, cases)| cases).sum()
    }

    /// There are no differences where this is told: the first one ends the run.
    fn told(&self, taken: Duration) -> String {
        let sorts: String = self.by_sort().map(|(sort, cases)| format!("    {cases} {sort}\n")).collect();
        let (cases, calls, seconds) = (self.cases(), self.tally.calls(), taken.as_secs());
        let (looks, answers) = (self.tally.looks(), self.tally.by_call_number_and_kind());
        let compared = format!("{calls} calls and {looks} looks at records compared");
        format!("{cases} cases in {seconds} seconds, {compared}, 0 differences\n{sorts}{}", answers.trim_end())
    }
}
