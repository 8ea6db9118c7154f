//! The sorts of runs in which both builders are compared.

use crate::builds::{Comparison, Kept, Make, LONGEST_BUFFER};
use crate::mischief::{any_call, call_of_noise, damage, forged, objects, overwrite, spoiled};
use second::answer::number::{FORM_TOO_LONG, OUT_OF_TURN};
use second::frame::GREATEST_LENGTH;
use second::generate::random_meaning;
use second::random::Random;
use second::retell::{calls, Call};
use second::samples::crowded;
use second::state::{FINISHED, READY};
use second::{form_length, Answer, Meaning, State};

impl<F: Make> Comparison<'_, F> {
    /// K11: all lists full of unused records, which leaves 96 bytes for objects. A driver signature of 97 does not fit,
    /// nor does a host name of 96, to which a byte is added; one of 95 does.
    pub fn full_lists(&mut self) -> Result<(), String> {
        let too_long = Answer::plain(FORM_TOO_LONG);
        let mut kept = self.start(GREATEST_LENGTH);
        let longer = Call::Begin(self.random.array(), [255; 4], vec![0; 97]);
        self.call_known(&mut kept, &longer, too_long)?;
        let [run, longer] = [95, 96].map(|length| calls(&mut self.random, &crowded(length)));
        for (call, longer) in run.iter().zip(&longer) {
            if matches!(longer, Call::Host(..)) {
                self.call_known(&mut kept, longer, too_long)?;
            }
            self.call_known(&mut kept, call, Answer::DONE)?;
        }
        let end = (kept.state.turn, kept.state.end());
        if end == (FINISHED, GREATEST_LENGTH) {
            return Ok(());
        }
        Err(format!("full lists end in turn and bytes used {end:?}"))
    }

    /// A run of any sort.
    pub fn any_run(&mut self) -> Result<(), String> {
        let meaning = random_meaning(&mut self.random);
        let run = calls(&mut self.random, &meaning);
        match self.random.below(10) {
            0..=3 => self.straight(&meaning, &run),
            4 => self.near_the_limit(&meaning, &run),
            5 => self.with_forged_states(&run),
            6 => self.with_changed_buffers(&run),
            7 => self.with_a_damaged_table(&meaning, &run),
            8 => self.with_a_record_left_out(&meaning, &run),
            _ => self.of_noise(),
        }
    }

    /// Every call of the run is done. Before some of them others are made, which leave the run as it is.
    fn straight(&mut self, meaning: &Meaning, run: &[Call]) -> Result<(), String> {
        let length = form_length(meaning) + self.random.below(9);
        let mut kept = self.start(length);
        for call in run {
            match self.random.below(8) {
                0 | 1 => self.mischief(&kept, call, run)?,
                2 => self.short_buffers(&kept, call)?,
                _ => (),
            }
            self.call_known(&mut kept, call, Answer::DONE)?;
        }
        Ok(())
    }

    /// Instead of the call one that differs in what is told, in its sort, in the room that is lent or in the state: in
    /// one of these, or in some of them at once, so that the order of the refusals shows.
    fn mischief(&mut self, kept: &Kept, call: &Call, run: &[Call]) -> Result<(), String> {
        let (mut other, mut state, mut room) = (call.clone(), kept.state, kept.buffer.len());
        loop {
            match self.random.below(8) {
                0..=2 => other = spoiled(&mut self.random, &other),
                3 => other = self.random.pick(run).clone(),
                4 => other = any_call(&mut self.random),
                5 => room = self.random.below(kept.buffer.len() + 1),
                _ => state = forged(&mut self.random, state),
            }
            if !self.random.one_in(3) {
                return self.call_aside(state, &kept.buffer[..room], &other).map(|_| ());
            }
        }
    }

    /// Just as many bytes as the call needs, one less, none, and any number below.
    fn short_buffers(&mut self, kept: &Kept, call: &Call) -> Result<(), String> {
        let needed = call.make(&mut kept.buffer.clone(), kept.state).1.end();
        let any = self.random.below(needed);
        for room in [needed, needed - 1, 0, any] {
            self.call_aside(kept.state, &kept.buffer[..room], call)?;
        }
        Ok(())
    }

    /// One object is so long that the table ends at the limit, or some bytes before or behind it. A call that is
    /// refused is made once more with what was told before.
    fn near_the_limit(&mut self, meaning: &Meaning, run: &[Call]) -> Result<(), String> {
        let more = GREATEST_LENGTH - form_length(meaning) + self.random.below(7) - 3;
        let longer = lengthened(&mut self.random, run, more);
        let length = GREATEST_LENGTH - 2 + self.random.below(5);
        let mut kept = self.start(length);
        for (call, shorter) in longer.iter().zip(run) {
            self.spoiled_at_the_limit(&kept, shorter)?;
            if !self.call(&mut kept, call)?.is_done() {
                self.call(&mut kept, shorter)?;
            }
        }
        Ok(())
    }

    /// The call told wrong where few bytes are left, so that it may be refused for either.
    fn spoiled_at_the_limit(&mut self, kept: &Kept, call: &Call) -> Result<(), String> {
        let used = (GREATEST_LENGTH - self.random.below(40)) as u32;
        let state = State { used, ..kept.state };
        let spoiled = spoiled(&mut self.random, call);
        self.call_aside(state, &kept.buffer, &spoiled).map(|_| ())
    }

    /// From some call on, states that no call handed out, which the run goes on with.
    fn with_forged_states(&mut self, run: &[Call]) -> Result<(), String> {
        let length = 100 + self.random.below(LONGEST_BUFFER / 8);
        let mut kept = self.start(length);
        for call in run {
            if self.random.one_in(3) {
                kept.state = forged(&mut self.random, kept.state);
            }
            let call = match self.random.below(3) {
                0 => call_of_noise(&mut self.random, kept.state.turn),
                _ => call.clone(),
            };
            self.call(&mut kept, &call)?;
        }
        Ok(())
    }

    /// Between the calls the buffer is exchanged for another, or bytes of it are overwritten.
    fn with_changed_buffers(&mut self, run: &[Call]) -> Result<(), String> {
        let mut kept = self.start(4000);
        for call in run {
            match self.random.below(12) {
                0 => {
                    let length = self.random.below(5000);
                    kept.buffer = self.start(length).buffer;
                }
                1 | 2 if !kept.buffer.is_empty() => overwrite(&mut self.random, &mut kept.buffer, kept.state.end()),
                _ => (),
            }
            self.call(&mut kept, call)?;
        }
        Ok(())
    }

    /// All is told; then finish meets a table that others damaged, and at last the one that was built.
    fn with_a_damaged_table(&mut self, meaning: &Meaning, run: &[Call]) -> Result<(), String> {
        let length = form_length(meaning);
        let mut kept = self.start(length);
        for call in &run[..run.len() - 1] {
            self.call_known(&mut kept, call, Answer::DONE)?;
        }
        let table = second::form(meaning);
        for _ in 0..4 {
            let damaged = damage(&mut self.random, &table);
            self.call_aside(kept.state, &damaged, &Call::Finish)?;
            let mut overwritten = kept.buffer.clone();
            overwrite(&mut self.random, &mut overwritten, length);
            self.call_aside(kept.state, &overwritten, &Call::Finish)?;
        }
        self.call_known(&mut kept, &Call::Finish, Answer::DONE)
    }

    /// A record of a list stays unused, which others may name. Then the state before it is taken up again, and from
    /// there on the run is made as it should be.
    fn with_a_record_left_out(&mut self, meaning: &Meaning, run: &[Call]) -> Result<(), String> {
        let length = form_length(meaning) + self.random.below(100);
        let mut kept = self.start(length);
        let in_lists = run.len() - 3;
        let left = 2 + self.random.below(in_lists.max(1));
        let mut before = kept.state;
        for (place, call) in run.iter().enumerate() {
            if place == left && kept.state.turn != READY {
                before = kept.state;
                self.call_known(&mut kept, &Call::Leave, Answer::DONE)?;
            } else {
                self.call(&mut kept, call)?;
            }
        }
        if before == State::EMPTY || kept.state.turn == FINISHED {
            return Ok(());
        }
        kept.state = before;
        run[left..].iter().try_for_each(|call| self.call_known(&mut kept, call, Answer::DONE))
    }

    /// Calls that are mostly in turn, but tell noise.
    fn of_noise(&mut self) -> Result<(), String> {
        let length = 1000 + self.random.below(3000);
        let mut kept = self.start(length);
        for _ in 0..60 {
            let call = match self.random.below(6) {
                0 => any_call(&mut self.random),
                _ => call_of_noise(&mut self.random, kept.state.turn),
            };
            let answer = self.call(&mut kept, &call)?;
            if matches!(call, Call::Finish) && answer.number != OUT_OF_TURN {
                break;
            }
        }
        Ok(())
    }
}

/// The run with so many bytes more in one of its objects: its first byte over and over, which a list of indexes is
/// refused for. An object that is ignored makes no difference.
fn lengthened(random: &mut Random, run: &[Call], more: usize) -> Vec<Call> {
    let mut longer = run.to_vec();
    let mut all: Vec<&mut Vec<u8>> = longer.iter_mut().flat_map(objects).filter(|object| !object.is_empty()).collect();
    let which = random.below(all.len());
    let object = &mut all[which];
    let (length, byte) = (object.len() + more, object[0]);
    object.resize(length, byte);
    longer
}
