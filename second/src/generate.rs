//! Random meanings.

use crate::discovery::Discovery;
use crate::host::Host;
use crate::identity::{Client, Identity, DHCP_ORIGIN};
use crate::interface::{Addition, Info, Interface};
use crate::meaning::{Entry, Meaning, Origin};
use crate::random::Random;
use crate::record::Bytes;
use crate::security::{Policy, Security};
use crate::subsystem::{Extended, Subsystem};
use crate::text::Text;

fn some_length(random: &mut Random) -> usize {
    let longest = *random.pick(&[2, 9, 9, 40]);
    1 + random.below(longest)
}

pub fn object(random: &mut Random) -> Bytes<'static> {
    let length = some_length(random);
    random.bytes(length).into()
}

fn maybe(random: &mut Random) -> Option<Bytes<'static>> {
    random.flag().then(|| object(random))
}

/// Never an empty one, which no builder can be told.
pub fn text(random: &mut Random) -> Text<'static> {
    let words = (0..some_length(random)).map(|_| 1 + random.below(255) as u8);
    Text::of(words.collect::<Vec<u8>>())
}

fn maybe_text(random: &mut Random) -> Option<Text<'static>> {
    random.flag().then(|| text(random))
}

/// Positions from 1 on that are used.
fn used_positions<R>(list: &[Entry<R>]) -> Vec<u8> {
    let places = (1..).zip(list);
    places
        .filter_map(|(position, entry)| entry.used().map(|_| position))
        .collect()
}

/// None, some or all of the positions in any order, each of them once.
fn some_of(random: &mut Random, positions: &[u8]) -> Vec<u8> {
    let mut some = positions.to_vec();
    random.shuffle(&mut some);
    some.truncate(random.below(positions.len() + 1));
    some
}

/// An optional index: 0, or one of the positions.
fn zero_or_one_of(random: &mut Random, positions: &[u8]) -> u8 {
    if positions.is_empty() || random.one_in(3) {
        0
    } else {
        *random.pick(positions)
    }
}

fn list<R>(random: &mut Random, make: impl Fn(&mut Random) -> R) -> Vec<Entry<R>> {
    let count = *random.pick(&[0, 1, 1, 2, 2, 3, 4]);
    let entry = |_| match random.one_in(4) {
        true => Entry::Unused,
        false => Entry::Used(make(random)),
    };
    (0..count).map(entry).collect()
}

/// A list of records that each need one of the interfaces.
fn dependent_list<R>(
    random: &mut Random,
    interfaces: &[u8],
    make: impl Fn(&mut Random) -> R,
) -> Vec<Entry<R>> {
    if interfaces.is_empty() {
        (0..random.below(3)).map(|_| Entry::Unused).collect()
    } else {
        list(random, make)
    }
}

/// A random meaning that a builder can be told; every index in it names a
/// used record.
pub fn random_meaning(random: &mut Random) -> Meaning<'static> {
    let origin = Origin::read(&random.bytes(64));
    let driver_signature = maybe(random);
    let host = random_host(random);
    let interfaces = list(random, random_interface);
    let valid_interfaces = used_positions(&interfaces);
    let securities = list(random, random_security);
    let valid_securities = used_positions(&securities);
    let discoveries = dependent_list(random, &valid_interfaces, |random| Discovery {
        interface: *random.pick(&valid_interfaces),
        security: zero_or_one_of(random, &valid_securities),
        address: maybe_text(random),
        name: maybe_text(random),
    });
    let valid_discoveries = used_positions(&discoveries);
    let subsystems = dependent_list(random, &valid_interfaces, |random| {
        let discovery = zero_or_one_of(random, &valid_discoveries);
        let security = zero_or_one_of(random, &valid_securities);
        random_subsystem(random, &valid_interfaces, security, discovery)
    });
    Meaning {
        origin,
        driver_signature,
        host,
        interfaces,
        subsystems,
        securities,
        discoveries,
    }
}

pub fn random_host(random: &mut Random) -> Host<'static> {
    Host {
        id_configured: random.flag(),
        name_configured: random.flag(),
        primary: random.below(3) as u8,
        id: random.array(),
        name: text(random),
    }
}

fn random_identity(random: &mut Random) -> Identity<'static> {
    let client = (!random.one_in(3)).then(|| Client {
        iaid: object(random),
        duid: object(random),
    });
    Identity { client }
}

/// An address that comes from a mechanism without state has no client.
fn random_addition(random: &mut Random) -> Addition<'static> {
    let autoconfigured = random.one_in(3);
    let identity = (!random.one_in(3)).then(|| match autoconfigured {
        true => Identity { client: None },
        false => random_identity(random),
    });
    Addition {
        autoconfigured,
        identity,
    }
}

/// The IP origins that go with an addition: one where it says how the
/// address was found, else any.
pub fn random_origin(random: &mut Random, addition: &Option<Addition>) -> u8 {
    let identity = addition.as_ref().and_then(|a| a.identity.as_ref());
    if addition.as_ref().is_some_and(|a| a.autoconfigured) {
        0
    } else if identity.is_some_and(|identity| identity.client.is_some()) {
        DHCP_ORIGIN
    } else {
        let any = random.byte();
        *random.pick(&[0, 1, DHCP_ORIGIN, 4, any])
    }
}

pub fn random_interface(random: &mut Random) -> Interface<'static> {
    let addition = random.flag().then(|| random_addition(random));
    let autoconfigured = addition.as_ref().is_some_and(|a| a.autoconfigured);
    let info = Info {
        default_route: random.flag(),
        pci_routing: random.word() as u32,
        mac_address: random.array(),
        vlan: random.word() as u16,
        ip_origin: random_origin(random, &addition),
        ip_address: random.array(),
        prefix_length: random.byte(),
        gateway: random.array(),
        route_metric: random.word() as u16,
        primary_dns: random.array(),
        secondary_dns: random.array(),
        dhcp_server: (!autoconfigured && random.flag()).then(|| random.array()),
        host_name: maybe_text(random),
        addition,
    };
    Interface { info }
}

/// Security index 0 stands for no security.
pub fn random_subsystem(
    random: &mut Random,
    interfaces: &[u8],
    security: u8,
    discovery: u8,
) -> Subsystem<'static> {
    let secondary = some_of(random, interfaces);
    Subsystem {
        not_bootable: random.flag(),
        root_path_used: random.flag(),
        separate_discovery: random.flag(),
        discovered: random.flag(),
        availability: random.below(3) as u8,
        transport_flags_used: random.flag(),
        header_digest: random.flag(),
        data_digest: random.flag(),
        discovery,
        address: object(random),
        service: object(random),
        port: random.word() as u16,
        namespace: random.word() as u32,
        identifier_type: random.byte(),
        identifier: random.array(),
        security: (security != 0).then_some(security),
        primary_interface: *random.pick(interfaces),
        secondary_interfaces: (!secondary.is_empty()).then(|| secondary.into()),
        name: text(random),
        extended: random.flag().then(|| Extended {
            queue_size_configured: random.flag(),
            controller: random.word() as u16,
            queue_size: random.word() as u16,
            root_path: maybe_text(random),
        }),
    }
}

fn random_policy(random: &mut Random) -> Option<Policy<'static>> {
    random.flag().then(|| Policy {
        origin: 1 + random.below(2) as u8,
        list: object(random),
    })
}

pub fn random_security(random: &mut Random) -> Security<'static> {
    Security {
        authentication: random.below(3) as u8,
        channel: random.below(3) as u8,
        algorithms: random_policy(random),
        protocols: random_policy(random),
        ciphers: maybe(random),
        groups: maybe(random),
        hashes: maybe(random),
        keypath: maybe(random),
    }
}
