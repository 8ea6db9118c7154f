//! Calls of the builder, with the state and the buffer that they leave.

use crate::cases::dirty;
use crate::cases::singles::single_steps;
use crate::cases::source::{answer, argument, file, list, Family, Group, Shelf};
use crate::discovery::Discovery;
use crate::generate::random_meaning;
use crate::identity::Identity;
use crate::interface::Interface;
use crate::meaning::{meaning, Meaning};
use crate::random::Random;
use crate::record::Record;
use crate::retell::{calls, Call};
use crate::samples::{host_only, small, smallest};
use crate::security::Security;
use crate::state::State;
use crate::subsystem::Subsystem;
use crate::{form_length, Answer};
use std::slice::from_ref;

const FAMILY: Family = Family {
    about: "Calls of the builder with what the second program answers and leaves, and that the definitions compute the same.",
    words: ", true, false, ℕ",
    uses: "use Rattle.table.proofs.Cases.{BuildCase, beginning, a_host, an_hfi, an_ssns, a_security, a_discovery, leaving, finishing, state, halted, stepped, sheet, fine_build, all_fine_builds}",
    case: "BuildCase",
    fine: "fine_build",
    all_fine: "all_fine_builds",
    agree: "builds_agree",
};

/// A call with the state and the buffer that it is given.
#[derive(Clone)]
pub struct Step {
    pub state: State,
    pub buffer: Vec<u8>,
    pub call: Call,
}

impl Step {
    /// The answer, the state and the buffer after the call.
    pub fn made(&self) -> (Answer, State, Vec<u8>) {
        let mut buffer = self.buffer.clone();
        let (answer, state) = self.call.make(&mut buffer, self.state);
        (answer, state, buffer)
    }

    fn case(&self, shelf: &mut Shelf) -> String {
        let (said, state, buffer) = self.made();
        let before = state_text(self.state);
        let lent = shelf.name(&self.buffer);
        let call = call_text(&self.call);
        if said.is_done() {
            let after = state_text(state);
            format!(
                "stepped {before} {lent} {call} {after} {}",
                shelf.name(&buffer)
            )
        } else {
            assert_eq!((state, buffer), (self.state, self.buffer.clone()));
            format!("halted {before} {lent} {call} {}", answer(said))
        }
    }
}

fn state_text(state: State) -> String {
    let State {
        turn,
        position,
        counts: [interfaces, subsystems, securities, discoveries],
        used,
        minor,
    } = state;
    format!(
        "(state {turn} {position} {interfaces} {subsystems} {securities} {discoveries} {used} {minor})"
    )
}

/// A call's name, its records at their lengths, and its objects.
fn words(name: &str, records: &[&[u8]], objects: &[Vec<u8>]) -> Vec<String> {
    let mut words = vec![name.to_string()];
    words.extend(records.iter().map(|record| argument(record)));
    words.extend(objects.iter().map(|object| list(object)));
    words
}

fn call_text(call: &Call) -> String {
    let words = match call {
        Call::Begin(header, counts, signature) => {
            let objects = [counts.to_vec(), signature.clone()];
            words("beginning", &[header], &objects)
        }
        Call::Host(record, name) => words("a_host", &[record], from_ref(name)),
        Call::Hfi {
            record,
            info,
            extended_told,
            extended,
            objects: [name, iaid, duid],
        } => {
            let mut owner = words("an_hfi", &[record, &info[..]], from_ref(name));
            let told = (*extended_told != 0).to_string();
            owner.extend(words(&told, &[extended], &[iaid.clone(), duid.clone()]));
            owner
        }
        Call::Ssns(record, extended, objects) => {
            words("an_ssns", &[&record[..], extended], objects)
        }
        Call::Security(record, objects) => words("a_security", &[record], objects),
        Call::Discovery(record, address, name) => {
            words("a_discovery", &[record], &[address.clone(), name.clone()])
        }
        Call::Leave => return "leaving".to_string(),
        Call::Finish => return "finishing".to_string(),
    };
    format!("({})", words.join(" "))
}

/// The calls that build a meaning, with noise in all that is dropped, but
/// no ignored object of great length.
fn short_calls(meaning: &Meaning) -> Vec<Call> {
    let is_short = |call: &Call| match call {
        Call::Hfi { objects, .. } => objects.iter().all(|object| object.len() < 100),
        Call::Ssns(_, _, objects) => objects.iter().all(|object| object.len() < 100),
        Call::Security(_, objects) => objects.iter().all(|object| object.len() < 100),
        _ => true,
    };
    let mut told = (0..).map(|seed| calls(&mut Random::seeded(seed), meaning));
    told.find(|calls| calls.iter().all(is_short))
        .expect("some seed gives short objects")
}

/// Every step of the run that builds a meaning, in a buffer with this many
/// bytes too many.
pub fn run(meaning: &Meaning, spare: usize) -> Vec<Step> {
    let mut state = State::EMPTY;
    let mut buffer = dirty(form_length(meaning) + spare);
    let mut steps = Vec::new();
    for call in short_calls(meaning) {
        let step = Step {
            state,
            buffer,
            call,
        };
        (_, state, buffer) = step.made();
        steps.push(step);
    }
    steps
}

/// Runs that build random tables, short ones.
fn random_runs() -> Vec<Step> {
    let mut random = Random::seeded(11);
    let told = std::iter::repeat_with(|| random_meaning(&mut random));
    let short = told.filter(|meaning| form_length(meaning) <= 700);
    short.take(8).flat_map(|meaning| run(&meaning, 2)).collect()
}

/// Whole runs and then single steps, by what they show.
pub fn steps() -> Vec<(&'static str, Vec<Step>)> {
    let mut all = vec![
        ("the smallest table", run(&meaning(&smallest()), 0)),
        ("a host with a driver signature", run(&host_only(), 7)),
        (
            "an interface behind an unused one",
            run(&small(Interface::ID, 2), 5),
        ),
        ("a DHCP client", run(&small(Identity::ID, 1), 2)),
        (
            "every kind, and unused records",
            run(&small(Subsystem::ID, 1), 9),
        ),
        ("a security record", run(&small(Security::ID, 1), 1)),
        (
            "a security record behind an unused one",
            run(&small(Security::ID, 2), 0),
        ),
        ("a discovery record", run(&small(Discovery::ID, 1), 3)),
        ("random tables", random_runs()),
    ];
    all.extend(single_steps());
    all
}

/// The text of the builder calls' file.
pub fn text() -> String {
    let mut shelf = Shelf::default();
    let mut groups = Vec::new();
    for (title, steps) in steps() {
        let cases = steps.iter().map(|step| step.case(&mut shelf)).collect();
        groups.push(Group::new(title, cases));
    }
    file(&FAMILY, &shelf, &groups)
}
