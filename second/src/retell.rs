//! Tells a meaning to the builder, record by record.

use crate::answer::Answer;
use crate::builder::{self, ToldInterface, ToldSubsystem};
use crate::discovery::Discovery;
use crate::host::Host;
use crate::identity::Identity;
use crate::interface::{Addition, Interface};
use crate::meaning::{Entry, Meaning, Origin};
use crate::random::Random;
use crate::record::{Bytes, Record};
use crate::security::Security;
use crate::state::State;
use crate::subsystem::{Extended, Subsystem};
use crate::text::Text;
use crate::wire::{array_at, set_bit};

/// One call that the builder takes, with all that it is told.
#[derive(Clone, Debug)]
pub enum Call {
    Begin([u8; 26], [u8; 4], Vec<u8>),
    Host([u8; 32], Vec<u8>),
    Hfi {
        record: [u8; 32],
        info: Box<[u8; 128]>,
        /// As C has it: any value but 0 tells the extended info.
        extended_told: u8,
        extended: [u8; 20],
        /// Host name, IAID and DUID.
        objects: [Vec<u8>; 3],
    },
    Ssns(Box<[u8; 128]>, [u8; 18], [Vec<u8>; 5]),
    Security([u8; 64], [Vec<u8>; 6]),
    Discovery([u8; 32], Vec<u8>, Vec<u8>),
    Leave,
    Finish,
}

impl Call {
    pub fn make(&self, buffer: &mut [u8], state: State) -> (Answer, State) {
        match self {
            Call::Begin(header, counts, signature) => {
                builder::begin(buffer, state, header, *counts, signature)
            }
            Call::Host(record, name) => builder::host(buffer, state, record, name),
            Call::Hfi {
                record,
                info,
                extended_told,
                extended,
                objects: [host_name, iaid, duid],
            } => {
                let told = ToldInterface {
                    record: *record,
                    info: **info,
                    host_name,
                    extended: (*extended_told != 0).then_some(*extended),
                    iaid,
                    duid,
                };
                builder::hfi(buffer, state, &told)
            }
            Call::Ssns(record, extended, objects) => {
                let told = told_subsystem(**record, *extended, objects);
                builder::ssns(buffer, state, &told)
            }
            Call::Security(record, objects) => {
                let objects = objects.each_ref().map(|object| object.as_slice());
                builder::security(buffer, state, record, objects)
            }
            Call::Discovery(record, address, name) => {
                builder::discovery(buffer, state, record, address, name)
            }
            Call::Leave => builder::leave(buffer, state),
            Call::Finish => builder::finish(buffer, state),
        }
    }
}

/// The objects are in the order of their fields, the root path last.
fn told_subsystem(
    record: [u8; 128],
    extended: [u8; 18],
    objects: &[Vec<u8>; 5],
) -> ToldSubsystem<'_> {
    let [address, service, secondary_interfaces, name, root_path] = objects;
    ToldSubsystem {
        record,
        address,
        service,
        secondary_interfaces,
        name,
        extended,
        root_path,
    }
}

/// Makes calls one after another until one is refused.
pub fn make_all(calls: &[Call], buffer: &mut [u8]) -> (Answer, State) {
    let mut state = State::EMPTY;
    for call in calls {
        let (answer, next) = call.make(buffer, state);
        if !answer.is_done() {
            return (answer, next);
        }
        state = next;
    }
    (Answer::DONE, state)
}

/// All calls that build a table with this meaning. What the builder drops
/// or sets itself is told as noise. A text that is there and empty cannot be
/// told: it is told as one that is absent.
pub fn calls(random: &mut Random, meaning: &Meaning) -> Vec<Call> {
    let mut header = [0; 64];
    meaning.origin.write(&mut header);
    let signature = told(&meaning.driver_signature);
    let header = array_at(&header, Origin::START);
    let mut calls = vec![Call::Begin(header, meaning.counts(), signature)];
    calls.push(tell_host(random, &meaning.host));
    calls.extend(tell_list(random, &meaning.interfaces, tell_interface));
    calls.extend(tell_list(random, &meaning.subsystems, tell_subsystem));
    calls.extend(tell_list(random, &meaning.securities, tell_security));
    calls.extend(tell_list(random, &meaning.discoveries, tell_discovery));
    calls.push(Call::Finish);
    calls
}

fn tell_list<R>(
    random: &mut Random,
    list: &[Entry<R>],
    tell: impl Fn(&mut Random, &R) -> Call,
) -> Vec<Call> {
    let entries = list.iter();
    let call = |entry: &Entry<R>| {
        entry
            .used()
            .map_or(Call::Leave, |record| tell(random, record))
    };
    entries.map(call).collect()
}

/// Noise with the record's fields in it, but for identity and valid bit.
fn tell_record<'a, R: Record<'a>, const N: usize>(random: &mut Random, record: &R) -> [u8; N] {
    let mut bytes = random.array();
    record.write_fields(random.byte().into(), &mut bytes);
    bytes[0] = random.byte();
    set_bit(&mut bytes, R::VALID_AT, 0, random.flag());
    bytes
}

fn told(object: &Option<Bytes>) -> Vec<u8> {
    object.as_ref().map_or(Vec::new(), |object| object.to_vec())
}

fn told_text(text: &Option<Text>) -> Vec<u8> {
    text.as_ref()
        .map_or(Vec::new(), |text| text.words().to_vec())
}

/// An object that the record's flags ignore: anything will do.
fn told_or_noise(random: &mut Random, object: Option<&[u8]>) -> Vec<u8> {
    match object {
        Some(object) => object.to_vec(),
        None if random.one_in(20) => vec![0; 70_000],
        None => random.bytes(3),
    }
}

fn tell_host(random: &mut Random, host: &Host) -> Call {
    Call::Host(tell_record(random, host), host.name.words().to_vec())
}

fn tell_interface(random: &mut Random, interface: &Interface) -> Call {
    let info = &interface.info;
    let identity = info.addition.as_ref().map(|addition| &addition.identity);
    let [iaid, duid] = [8, 14].map(|field| {
        let identity = identity.and_then(Option::as_ref);
        told_or_noise(random, Identity::object(identity, field).flatten())
    });
    Call::Hfi {
        record: tell_record(random, interface),
        info: Box::new(tell_record(random, info)),
        extended_told: tell_whether(random, &info.addition),
        extended: match identity {
            Some(Some(identity)) => tell_record(random, identity),
            _ => random.array(),
        },
        objects: [told_text(&info.host_name), iaid, duid],
    }
}

/// Whether there is an extended info. Where the info has no addition, that
/// makes no difference.
fn tell_whether(random: &mut Random, addition: &Option<Addition>) -> u8 {
    let any = random.byte();
    match addition {
        Some(addition) if addition.identity.is_none() => 0,
        Some(_) => *random.pick(&[1, 2, 128, 255, any | 1]),
        None => *random.pick(&[0, 1, any]),
    }
}

fn tell_subsystem(random: &mut Random, subsystem: &Subsystem) -> Call {
    let record = tell_record(random, subsystem);
    let extended: [u8; 18] = match &subsystem.extended {
        Some(extended) => tell_record(random, extended),
        None => random.array(),
    };
    let root_path = match &subsystem.extended {
        Some(Extended { root_path, .. }) => told_text(root_path),
        None => told_or_noise(random, None),
    };
    let objects = [
        subsystem.address.to_vec(),
        subsystem.service.to_vec(),
        told(&subsystem.secondary_interfaces),
        subsystem.name.words().to_vec(),
        root_path,
    ];
    Call::Ssns(Box::new(record), extended, objects)
}

fn tell_security(random: &mut Random, security: &Security) -> Call {
    let record = tell_record(random, security);
    let fields = [6, 12, 18, 24, 30, 36];
    let objects = fields.map(|field| {
        let object = Security::object(Some(security), field).flatten();
        told_or_noise(random, object)
    });
    Call::Security(record, objects)
}

fn tell_discovery(random: &mut Random, discovery: &Discovery) -> Call {
    let record = tell_record(random, discovery);
    let [address, name] = [&discovery.address, &discovery.name].map(told_text);
    Call::Discovery(record, address, name)
}
