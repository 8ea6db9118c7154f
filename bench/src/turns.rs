//! Times of many calls, taken in turn. A machine's speed changes by phases that
//! last longer than a round, so that times taken one after the other cannot be
//! compared: here each call has a short round of every phase, and its least counts.

use std::hint::black_box;
use std::ops::Index;
use std::time::{Duration, Instant};

const ROUND: Duration = Duration::from_micros(500);

/// A call that is timed, by the order in which it was entered.
#[derive(Clone, Copy)]
pub struct Timed(usize);

struct Contender<'a> {
    /// Makes the call so many times. The loop stands inside, so that a call through a pointer is paid once a round.
    repeat: Box<dyn FnMut(u32) + 'a>,
    calls: u32,
    least: f64,
}

impl Contender<'_> {
    /// As many calls as fill a round.
    fn settle(&mut self) {
        while self.time() * f64::from(self.calls) < ROUND.as_nanos() as f64 {
            self.calls = self.calls * 5 / 4 + 1;
        }
    }

    /// Nanoseconds per call in one round. What other calls put out of the caches is fetched before.
    fn time(&mut self) -> f64 {
        (self.repeat)(1);
        let start = Instant::now();
        (self.repeat)(self.calls);
        start.elapsed().as_nanos() as f64 / f64::from(self.calls)
    }
}

#[derive(Default)]
pub struct Turns<'a> {
    contenders: Vec<Contender<'a>>,
}

impl<'a> Turns<'a> {
    pub fn enter<T>(&mut self, mut call: impl FnMut() -> T + 'a) -> Timed {
        let repeat = Box::new(move |calls| {
            for _ in 0..calls {
                black_box(call());
            }
        });
        self.contenders.push(Contender { repeat, calls: 1, least: f64::INFINITY });
        Timed(self.contenders.len() - 1)
    }

    pub fn take(mut self, rounds: usize) -> Times {
        self.contenders.iter_mut().for_each(Contender::settle);
        for _ in 0..rounds {
            self.round();
        }
        Times(self.contenders.iter().map(|contender| contender.least).collect())
    }

    fn round(&mut self) {
        for contender in &mut self.contenders {
            contender.least = contender.least.min(contender.time());
        }
    }
}

/// Nanoseconds per call.
pub struct Times(Vec<f64>);

impl Index<Timed> for Times {
    type Output = f64;

    fn index(&self, Timed(place): Timed) -> &f64 {
        &self.0[place]
    }
}
