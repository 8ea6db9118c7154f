//! Tables built by both programs, call by call. After every call the answer, the state and every byte of the buffer
//! are compared. Buffers are full of noise, so that a byte shows whether it was written.

use crate::cases::each;
use crate::mischief::any_call;
use crate::noise::Noise;
use crate::tally::Tally;
use crate::{first_difference, hex};
use second::random::Random;
use second::retell::Call;
use second::{Answer, State};
use std::slice::from_ref;

/// What a call gives, with the state and every byte of the buffer when it has ended.
#[derive(PartialEq, Eq)]
pub struct Outcome {
    pub answer: Answer,
    pub state: [u8; 16],
    pub buffer: Vec<u8>,
}

/// What a call is told, in the order of the arguments in C.
pub fn told(call: &Call) -> Vec<&[u8]> {
    match call {
        Call::Begin(header, counts, signature) => vec![header, counts, signature],
        Call::Host(record, name) => vec![record, name],
        Call::Hfi { record, info, extended_told, extended, objects: [name, iaid, duid] } => {
            vec![record, &info[..], name, from_ref(extended_told), extended, iaid, duid]
        }
        Call::Ssns(record, extended, [address, service, others, name, path]) => {
            vec![&record[..], address, service, others, name, extended, path]
        }
        Call::Security(record, objects) => {
            let mut parts: Vec<&[u8]> = vec![record];
            parts.extend(objects.iter().map(Vec::as_slice));
            parts
        }
        Call::Discovery(record, address, name) => vec![record, address, name],
        Call::Leave | Call::Finish => Vec::new(),
    }
}

fn name(call: &Call) -> &'static str {
    match call {
        Call::Begin(..) => "begin",
        Call::Host(..) => "host",
        Call::Hfi { .. } => "hfi",
        Call::Ssns(..) => "ssns",
        Call::Security(..) => "security",
        Call::Discovery(..) => "discovery",
        Call::Leave => "leave",
        Call::Finish => "finish",
    }
}

fn by_second(call: &Call, state: State, buffer: &[u8]) -> Outcome {
    let mut buffer = buffer.to_vec();
    let (answer, state) = call.make(&mut buffer, state);
    Outcome { answer, state: state.to_bytes(), buffer }
}

/// The library's call, of what is told, the state's bytes and the buffer's.
pub trait Make: FnMut(&Call, [u8; 16], &[u8]) -> Result<Outcome, String> {}

impl<F: FnMut(&Call, [u8; 16], &[u8]) -> Result<Outcome, String>> Make for F {}

/// The case of a tally that a table was finished.
const FINISHED: &str = "tables finished";

/// A run whose answers are known, then `count` runs of every sort.
pub fn compare(count: u64, seed: u64, mut make: impl Make) -> Result<String, String> {
    let mut tally = Tally::default();
    known(&mut tally, &mut make)?;
    generated(count, seed, &mut tally, make)?;
    Ok(format!(
        "{} runs, {} calls agree (seed {seed}), {} tables finished; by number {}; by call {}",
        1 + count,
        tally.calls(),
        tally.cases(FINISHED),
        tally.by_number(),
        tally.by_call()
    ))
}

pub fn known(tally: &mut Tally, make: impl Make) -> Result<(), String> {
    Comparison::seeded(0, tally, make).full_lists()
}

pub fn generated(count: u64, seed: u64, tally: &mut Tally, make: impl Make) -> Result<(), String> {
    let mut comparison = Comparison::seeded(seed, tally, make);
    each(count, seed, || comparison.any_run())
}

/// What a caller keeps between two calls.
pub struct Kept {
    pub state: State,
    pub buffer: Vec<u8>,
}

/// Both builders, side by side through many runs.
pub struct Comparison<'t, F> {
    make: F,
    pub random: Random,
    /// What buffers hold before they are lent is cut from this.
    noise: Noise,
    tally: &'t mut Tally,
}

/// No buffer is longer.
pub const LONGEST_BUFFER: usize = 70_000;

impl<'t, F: Make> Comparison<'t, F> {
    fn seeded(seed: u64, tally: &'t mut Tally, make: F) -> Comparison<'t, F> {
        let mut random = Random::seeded(seed);
        let noise = Noise::new(&mut random, LONGEST_BUFFER);
        Comparison { make, random, noise, tally }
    }

    /// Both programs make the call; what they leave is kept.
    pub fn call(&mut self, kept: &mut Kept, call: &Call) -> Result<Answer, String> {
        let before = kept.state.to_bytes();
        let expected = by_second(call, kept.state, &kept.buffer);
        (self.make)(call, before, &kept.buffer)
            .and_then(|given| same(&expected, &given))
            .map_err(|difference| format!("{difference}, {}", shown(call, kept)))?;
        kept.state = State::from_bytes(expected.state);
        kept.buffer = expected.buffer;
        self.tally.add(name(call), expected.answer);
        if matches!(call, Call::Finish) && expected.answer.is_done() {
            self.finished(kept)?;
        }
        Ok(expected.answer)
    }

    /// The reader takes a finished table, and a call that comes after the last leaves it as it is.
    fn finished(&mut self, kept: &mut Kept) -> Result<(), String> {
        let answer = second::check(&kept.buffer[..kept.state.end()]);
        if !answer.is_done() {
            return Err(format!("a finished table is refused: {answer:?}, on\n{}", hex(&kept.buffer)));
        }
        self.tally.case(FINISHED);
        let late = any_call(&mut self.random);
        self.call(kept, &late).map(|_| ())
    }

    /// The call on copies, which are dropped: whatever comes of it, the run goes on as if it had not been made.
    pub fn call_aside(&mut self, state: State, buffer: &[u8], call: &Call) -> Result<Answer, String> {
        let mut aside = Kept { state, buffer: buffer.to_vec() };
        self.call(&mut aside, call)
    }

    /// The call where the answer is known beforehand.
    pub fn call_known(&mut self, kept: &mut Kept, call: &Call, known: Answer) -> Result<(), String> {
        let answer = self.call(kept, call)?;
        if answer == known {
            return Ok(());
        }
        Err(format!("both answer {answer:?} to {}, but {known:?} is right", name(call)))
    }

    /// The empty state, and a buffer of noise.
    pub fn start(&mut self, length: usize) -> Kept {
        Kept { state: State::EMPTY, buffer: self.noise.cut(&mut self.random, length).to_vec() }
    }
}

fn same(expected: &Outcome, given: &Outcome) -> Result<(), String> {
    if given == expected {
        return Ok(());
    }
    let told = |outcome: &Outcome| format!("{:?} and state {}", outcome.answer, hex(&outcome.state));
    let in_buffer = first_difference("buffer", &given.buffer, &expected.buffer);
    Err(format!("the library gives {}, the second program {}{in_buffer}", told(given), told(expected)))
}

/// A call with all that it was given, as a message shows it.
fn shown(call: &Call, kept: &Kept) -> String {
    let parts: Vec<String> = told(call).iter().map(|part| format!("[{}]", hex(part))).collect();
    let (state, buffer) = (hex(&kept.state.to_bytes()), hex(&kept.buffer));
    format!("for {} {} in state {state}, on\n{buffer}", name(call), parts.join(" "))
}

#[cfg(test)]
mod tests {
    use super::*;
    use second::answer::number::{SECONDARY, TEXT};
    use std::collections::BTreeSet;

    /// The second program itself, as the library.
    fn by_itself(call: &Call, state: [u8; 16], buffer: &[u8]) -> Outcome {
        by_second(call, State::from_bytes(state), buffer)
    }

    #[test]
    fn runs_meet_every_number_that_a_call_can_give() {
        let line =
            compare(1000, 4, |call, state, buffer| Ok(by_itself(call, state, buffer))).expect("it agrees with itself");
        for number in [0, 2, 6, 7, 8, 9, 10, 11, 12, 13, 14, 15, 17, 18, 20] {
            assert!(line.contains(&format!(" {number}: ")), "{number} is missing: {line}");
        }
    }

    /// What is met of the calls that tell an HFI.
    #[derive(Default)]
    struct Met {
        refusals: BTreeSet<u8>,
        told_by: BTreeSet<u8>,
        minors_before: BTreeSet<u32>,
        raised: u32,
        kept: u32,
    }

    impl Met {
        fn add(&mut self, call: &Call, before: State, outcome: &Outcome) {
            self.minors_before.insert(before.minor);
            let Call::Hfi { extended_told, .. } = call else { return };
            self.told_by.insert(*extended_told);
            self.refusals.insert(outcome.answer.number);
            let after = State::from_bytes(outcome.state);
            if outcome.answer.is_done() && before.minor == 0 {
                self.raised += after.minor;
                self.kept += 1 - after.minor;
            }
        }
    }

    #[test]
    fn runs_tell_interfaces_in_every_way() {
        let mut met = Met::default();
        compare(1000, 6, |call, state, buffer| {
            let outcome = by_itself(call, state, buffer);
            met.add(call, State::from_bytes(state), &outcome);
            Ok(outcome)
        })
        .expect("it agrees with itself");
        assert_eq!(met.refusals, BTreeSet::from([0, 11, 12, 14, 15, 17, 18]));
        assert!(met.told_by.len() > 100 && met.told_by.contains(&0));
        assert!(met.minors_before.len() > 40 && met.minors_before.is_superset(&BTreeSet::from([0, 1, 2, u32::MAX])));
        assert!(met.raised > 100 && met.kept > 100);
    }

    /// Whether any of the objects that a call is told is text.
    fn has_text(call: &Call) -> bool {
        matches!(call, Call::Host(..) | Call::Hfi { .. } | Call::Ssns(..) | Call::Discovery(..))
    }

    #[test]
    fn every_call_with_text_meets_its_number_and_those_around_it() {
        let mut met: BTreeSet<(&str, u8)> = BTreeSet::new();
        compare(1000, 7, |call, state, buffer| {
            let outcome = by_itself(call, state, buffer);
            let number = outcome.answer.number;
            assert!(number != TEXT || has_text(call) || matches!(call, Call::Finish));
            met.insert((name(call), number));
            Ok(outcome)
        })
        .expect("it agrees with itself");
        for call in ["host", "hfi", "ssns", "discovery"] {
            for number in [0, 11, 14, 15, 17, TEXT] {
                assert!(met.contains(&(call, number)), "{call} {number}");
            }
        }
        assert!(met.contains(&("finish", TEXT)));
    }

    /// How many bytes the secondary list has that is told.
    fn told_secondary(call: &Call) -> Option<usize> {
        match call {
            Call::Ssns(_, _, objects) => Some(objects[2].len()),
            _ => None,
        }
    }

    #[test]
    fn subsystems_meet_their_number_with_short_and_long_lists_and_so_does_finish() {
        let (mut short, mut long, mut taken, mut finish) = (0, 0, 0, 0);
        compare(1000, 8, |call, state, buffer| {
            let outcome = by_itself(call, state, buffer);
            match (outcome.answer.number, told_secondary(call)) {
                (SECONDARY, Some(length)) if length < 256 => short += 1,
                (SECONDARY, Some(_)) => long += 1,
                (SECONDARY, None) => finish += u32::from(matches!(call, Call::Finish)),
                (0, Some(1..)) => taken += 1,
                _ => (),
            }
            Ok(outcome)
        })
        .expect("it agrees with itself");
        assert!(short > 50 && long > 10 && taken > 100 && finish > 10, "{short} {long} {taken} {finish}");
    }

    #[test]
    fn a_difference_of_one_bit_is_found() {
        let spoils: [fn(&mut Outcome); 4] = [
            |outcome| outcome.answer.position ^= 1,
            |outcome| outcome.state[2] ^= 1,
            |outcome| outcome.state[15] ^= 0x80,
            |outcome| *outcome.buffer.last_mut().expect("the first runs lend buffers") ^= 1,
        ];
        for spoil in spoils {
            let mut calls = 0;
            let compared = compare(20, 5, |call, state, buffer| {
                let mut outcome = by_itself(call, state, buffer);
                calls += 1;
                if calls == 1100 {
                    spoil(&mut outcome);
                }
                Ok(outcome)
            });
            assert!(compared.is_err_and(|difference| difference.contains("the library gives")));
        }
    }
}
