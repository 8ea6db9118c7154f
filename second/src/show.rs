//! Tables as JSON: what nvme-cli 2.13 prints of them, and behind its keys of
//! each object further ones, so that everything a table says is shown. Two
//! tables of different meaning never look the same.
//!
//! A key of nvme-cli's has its name, its type and its value, and stands in
//! its place; an object that is absent leaves it out, while an empty text is
//! "". What is absent of ours is null. Flags are 0 or 1. nvme-cli prints
//! neither headers nor security records, so those keys are all ours.
//!
//! Ours, beside the header. Nothing is nested in a record, so that each of
//! its values has one key:
//!
//! - `flags`, `transport_flags`, `record_flags` and `extended_info_flags`:
//!   flags as a number, with all reserved bits clear. An HFI's `flags` are
//!   those of its info, its `record_flags` those of the record itself.
//! - Host: `primary_admin_host` in words.
//! - Subsystem: `not_bootable`, `root_path_used`, `separate_discovery`,
//!   `availability` in words, `transport_flags_used`; `discovery` and
//!   `security`, the positions that it names; `primary_hfi` and
//!   `secondary_hfis`, the list as it stands, while nvme-cli's `hfis` has the
//!   primary first and no position twice; `traddr_bytes`, `trsvcid_bytes`,
//!   `namespace_id`, `nid_type_number` and `nid_bytes`, since what nvme-cli
//!   prints of these loses something; `extended_info_controller_id` and
//!   `extended_info_asqsz`, whether the flags say that the size counts or not.
//! - HFI: `pci_address`, `info_version`, `autoconfigured`, and of its extended
//!   info the bytes of `iaid` and `duid`.
//! - `security`: the security records. `authentication` and `secure_channel`
//!   are words; `protocols` and `algorithms` are bytes, each with who chose
//!   them, which is "nobody" where there are none; `cipher_suites`,
//!   `dh_groups` and `hash_functions` are bytes and `keypath` is text.
//! - `unused`: of each list the positions that are not used.
//!
//! Bytes are hex digits, and a byte of a text that is not printable ASCII is
//! `\u00HH`.
//!
//! Three values of nvme-cli's say less than the table does, and are shown as
//! nvme-cli has them all the same: `primary_admin_host_flag` is always "not
//! indicated", `pcidev` has always segment 0, and `nsid` is negative from
//! 2147483648 on. Keys of ours say these in full.

use crate::answer::{number, Answer};
use crate::discovery::Discovery;
use crate::frame::GREATEST_LENGTH;
use crate::host::Host;
use crate::interface::{Info, Interface};
use crate::json::{hex, Json};
use crate::meaning::{Entry, Meaning, Origin};
use crate::printed::{address, mac, pci, pci_with_segment, signed, uuid};
use crate::record::{Bytes, Record};
use crate::security::{Policy, Security};
use crate::subsystem::{Extended, Subsystem};
use crate::text::Text;
use crate::wire::{u16_at, u32_at};

type Members = Vec<(&'static str, Json)>;

/// What is shown of one file: the table, or why it is refused.
pub fn show(filename: &[u8], lent: &[u8]) -> Json {
    let mut members = vec![("filename", Json::text(filename))];
    match Meaning::read(lent) {
        Ok(meaning) => members.extend(table(&meaning)),
        Err(answer) => members.push(("refused", refused(answer))),
    }
    Json::Object(members)
}

fn refused(answer: Answer) -> Json {
    Json::Object(vec![
        ("number", Json::number(answer.number)),
        ("kind", Json::number(answer.kind)),
        ("position", Json::number(answer.position)),
        ("words", Json::text(words(answer))),
    ])
}

/// A refusal in words, as the check prints it for people.
fn words(answer: Answer) -> String {
    let kinds = [
        "header",
        "control",
        "host",
        "HFI",
        "SSNS",
        "security",
        "discovery",
    ];
    let kind = kinds[usize::from(answer.kind)];
    let fault = fault(answer.number);
    match answer.position {
        0 => format!("{fault}: {kind}"),
        position => format!("{fault}: {kind} {position}"),
    }
}

/// The faults that a check can find.
fn fault(fault: u8) -> String {
    let words = match fault {
        number::TOO_FEW_BYTES => "too few bytes",
        number::SIGNATURE => "the signature is wrong",
        number::LENGTH => "Length is outside what is lent",
        number::TOO_LONG => return format!("Length is above {GREATEST_LENGTH}"),
        number::CHECKSUM => "the checksum is wrong",
        number::HEADER_VERSION => "the header's major revision is wrong",
        number::CONTROL => "the control record is wrong",
        number::REGION => "a record length or a region is wrong",
        number::RECORD_VERSION => "a version is wrong",
        number::RECORD => "a host that is not valid, or a wrong ID, index, type or two-bit field",
        number::REFERENCE => "a reference is wrong, outside the heap, or required and absent",
        number::HEAP_RECORD => "a heap record breaks its rule",
        number::INDEX => "an index names no valid record",
        number::TEXT => "a text does not end in its only zero byte",
        number::OVERLAP => "a heap record shares a byte with another object",
        number::SECONDARY => "a secondary list is too long or names an HFI twice",
        _ => "a fault with no name",
    };
    words.to_string()
}

fn table(meaning: &Meaning) -> Members {
    let unused = vec![
        ("subsystem", unused(&meaning.subsystems)),
        ("hfi", unused(&meaning.interfaces)),
        ("discovery", unused(&meaning.discoveries)),
        ("security", unused(&meaning.securities)),
    ];
    vec![
        ("header", header(meaning)),
        ("host", host(&meaning.host)),
        ("subsystem", used(&meaning.subsystems, subsystem)),
        ("hfi", used(&meaning.interfaces, interface)),
        ("discovery", used(&meaning.discoveries, discovery)),
        ("security", used(&meaning.securities, security)),
        ("unused", Json::Object(unused)),
    ]
}

/// nvme-cli shows none but the used records, each with its position.
fn used<R>(list: &[Entry<R>], show: impl Fn(u16, &R) -> Members) -> Json {
    let places = (1..).zip(list);
    let shown = places.filter_map(|(position, entry)| {
        let mut members = vec![("index", Json::number(position))];
        members.extend(show(position, entry.used()?));
        Some(Json::Object(members))
    });
    Json::List(shown.collect())
}

fn unused<R>(list: &[Entry<R>]) -> Json {
    let places = (1u16..).zip(list);
    let positions = places.filter(|(_, entry)| entry.used().is_none());
    Json::List(positions.map(|(place, _)| Json::number(place)).collect())
}

/// The record's fields as the one form has them: only what counts is set.
fn fields<'a, R: Record<'a>>(record: &R, position: u16) -> Vec<u8> {
    let mut bytes = vec![0; R::SIZE];
    record.write_fields(position, &mut bytes);
    bytes
}

fn choice(words: &[&str], value: u8) -> Json {
    Json::text(words[usize::from(value)])
}

/// A key of nvme-cli's, which an absent text leaves out.
fn text_if_present(key: &'static str, text: &Option<Text>) -> Option<(&'static str, Json)> {
    let text = text.as_ref()?;
    Some((key, Json::text(text.words())))
}

fn header(meaning: &Meaning) -> Json {
    let Origin {
        oem,
        oem_table,
        oem_revision,
        creator,
        creator_revision,
    } = &meaning.origin;
    let signature = meaning.driver_signature.as_ref();
    Json::Object(vec![
        ("oem_id", Json::text(oem)),
        ("oem_table_id", Json::text(oem_table)),
        ("oem_revision", Json::number(*oem_revision)),
        ("creator_id", Json::text(creator)),
        ("creator_revision", Json::number(*creator_revision)),
        ("driver_signature", Json::or_null(signature, Json::text)),
    ])
}

/// libnvme does not hand on who the primary host is, so that nvme-cli says
/// "not indicated" of every host; `primary_admin_host` is what the table says.
fn host(host: &Host) -> Json {
    let primary = ["not indicated", "unselected", "selected"];
    Json::Object(vec![
        ("nqn", Json::text(host.name.words())),
        ("id", Json::text(uuid(&host.id))),
        ("host_id_configured", Json::flag(host.id_configured)),
        ("host_nqn_configured", Json::flag(host.name_configured)),
        ("primary_admin_host_flag", Json::text(primary[0])),
        ("flags", Json::number(fields(host, 0)[1])),
        ("primary_admin_host", choice(&primary, host.primary)),
    ])
}

fn subsystem(position: u16, subsystem: &Subsystem) -> Members {
    let mut members = reached(subsystem);
    members.extend(named(subsystem));
    members.extend(extended(subsystem.extended.as_ref()));
    let digests = [subsystem.header_digest, subsystem.data_digest].map(Json::flag);
    let [header_digest, data_digest] = digests;
    members.extend([
        ("pdu_header_digest_required", header_digest),
        ("data_digest_required", data_digest),
        ("discovered", Json::flag(subsystem.discovered)),
        ("unavailable", Json::flag(subsystem.availability == 2)),
    ]);
    members.extend(subsystem_flags(position, subsystem));
    members.extend(subsystem_links(subsystem));
    members.extend(extended_info(position, subsystem.extended.as_ref()));
    members
}

/// How the subsystem is reached.
fn reached(subsystem: &Subsystem) -> Members {
    let hfis = all_interfaces(subsystem);
    vec![
        ("num_hfis", Json::Number(hfis.len() as i64)),
        ("hfis", positions(&hfis)),
        ("transport", Json::text("tcp")),
        ("traddr", transport_address(&subsystem.address)),
        ("trsvcid", service(&subsystem.service)),
        ("subsys_port_id", Json::number(subsystem.port)),
    ]
}

/// The primary interface and behind it the others, each of them once.
fn all_interfaces(subsystem: &Subsystem) -> Vec<u8> {
    let primary = subsystem.primary_interface;
    let others = subsystem.secondary_interfaces.as_deref().unwrap_or(&[]);
    let others = others.iter().filter(|index| **index != primary);
    [primary].iter().chain(others).copied().collect()
}

fn positions(list: &[u8]) -> Json {
    Json::List(list.iter().copied().map(Json::number).collect())
}

/// libnvme takes the first 16 bytes, whatever the object's length. A shorter
/// object is no address, and its bytes are shown as text.
fn transport_address(object: &[u8]) -> Json {
    match object.first_chunk() {
        Some(bytes) => Json::text(address(bytes)),
        None => Json::text(object),
    }
}

/// Up to the first zero, or all of it where nothing ends it.
fn service(object: &[u8]) -> Json {
    let end = object.iter().position(|byte| *byte == 0);
    Json::text(&object[..end.unwrap_or(object.len())])
}

/// What namespace it is.
fn named(subsystem: &Subsystem) -> Members {
    let identifier = &subsystem.identifier;
    let (kind, nid) = match subsystem.identifier_type {
        1 => (Some("eui64"), hex(&identifier[..8])),
        2 => (Some("nguid"), hex(identifier)),
        3 => (Some("uuid"), uuid(identifier)),
        _ => (None, String::new()),
    };
    let mut members = vec![("nsid", Json::Number(signed(subsystem.namespace)))];
    members.extend(kind.map(|kind| ("nid_type", Json::text(kind))));
    members.push(("nid", Json::text(nid)));
    members.push(("subsys_nqn", Json::text(subsystem.name.words())));
    members
}

/// Without extended info both numbers are 0. The size is also 0 where the
/// info does not say that it counts.
fn extended(info: Option<&Extended>) -> Members {
    let controller = info.map_or(0, |info| info.controller);
    let configured = info.filter(|info| info.queue_size_configured);
    let size = configured.map_or(0, |info| info.queue_size);
    let mut members = vec![
        ("controller_id", Json::number(controller)),
        ("asqsz", Json::number(size)),
    ];
    let path = info.and_then(|info| text_if_present("dhcp_root_path_string", &info.root_path));
    members.extend(path);
    members
}

fn subsystem_flags(position: u16, subsystem: &Subsystem) -> Members {
    let bytes = fields(subsystem, position);
    let availability = ["not indicated", "available", "unavailable"];
    let used = subsystem.transport_flags_used;
    vec![
        ("flags", Json::number(u16_at(&bytes, 3))),
        ("transport_flags", Json::number(u16_at(&bytes, 6))),
        ("not_bootable", Json::flag(subsystem.not_bootable)),
        ("root_path_used", Json::flag(subsystem.root_path_used)),
        (
            "separate_discovery",
            Json::flag(subsystem.separate_discovery),
        ),
        (
            "availability",
            choice(&availability, subsystem.availability),
        ),
        ("transport_flags_used", Json::flag(used)),
    ]
}

fn subsystem_links(subsystem: &Subsystem) -> Members {
    let discovery = Some(subsystem.discovery).filter(|index| *index != 0);
    let secondary = subsystem.secondary_interfaces.as_deref().unwrap_or(&[]);
    vec![
        ("discovery", Json::or_null(discovery, Json::number)),
        ("security", Json::or_null(subsystem.security, Json::number)),
        ("primary_hfi", Json::number(subsystem.primary_interface)),
        ("secondary_hfis", positions(secondary)),
        ("traddr_bytes", Json::hex(&subsystem.address)),
        ("trsvcid_bytes", Json::hex(&subsystem.service)),
        ("namespace_id", Json::number(subsystem.namespace)),
        ("nid_type_number", Json::number(subsystem.identifier_type)),
        ("nid_bytes", Json::hex(&subsystem.identifier)),
    ]
}

/// What the info says, whether or not nvme-cli's keys have it as well.
fn extended_info(position: u16, info: Option<&Extended>) -> Members {
    let flags = info.map(|info| u32_at(&fields(info, position), 4));
    let controller = info.map(|info| info.controller);
    let size = info.map(|info| info.queue_size);
    vec![
        ("extended_info_flags", Json::or_null(flags, Json::number)),
        (
            "extended_info_controller_id",
            Json::or_null(controller, Json::number),
        ),
        ("extended_info_asqsz", Json::or_null(size, Json::number)),
    ]
}

fn interface(position: u16, interface: &Interface) -> Members {
    let info = &interface.info;
    let server = info.dhcp_server.as_ref();
    let mut members = vec![
        ("transport", Json::text("tcp")),
        ("pcidev", Json::text(pci(info.pci_routing))),
        ("mac_addr", Json::text(mac(&info.mac_address))),
        ("vlan", Json::number(info.vlan)),
        ("ip_origin", Json::number(info.ip_origin)),
        ("ipaddr", Json::text(address(&info.ip_address))),
        ("subnet_mask_prefix", Json::number(info.prefix_length)),
        ("gateway_ipaddr", Json::text(address(&info.gateway))),
        ("route_metric", Json::number(info.route_metric)),
        ("primary_dns_ipaddr", Json::text(address(&info.primary_dns))),
        (
            "secondary_dns_ipaddr",
            Json::text(address(&info.secondary_dns)),
        ),
        (
            "dhcp_server_ipaddr",
            Json::text(server.map_or(String::new(), address)),
        ),
    ];
    members.extend(text_if_present("host_name", &info.host_name));
    members.push(("this_hfi_is_default_route", Json::flag(info.default_route)));
    members.push(("dhcp_override", Json::flag(server.is_some())));
    members.extend(info_additions(position, info));
    let flags = fields(interface, position)[Interface::VALID_AT];
    members.push(("record_flags", Json::number(flags)));
    members.extend(identity_info(position, info));
    members
}

fn info_additions(position: u16, info: &Info) -> Members {
    let bytes = fields(info, position);
    let addition = info.addition.as_ref();
    let autoconfigured = addition.is_some_and(|addition| addition.autoconfigured);
    vec![
        (
            "pci_address",
            Json::text(pci_with_segment(info.pci_routing)),
        ),
        ("info_version", Json::number(bytes[Info::VERSION_AT])),
        ("flags", Json::number(bytes[Info::VALID_AT])),
        ("autoconfigured", Json::flag(autoconfigured)),
    ]
}

/// An extended info that names no client has flags all the same.
fn identity_info(position: u16, info: &Info) -> Members {
    let addition = info.addition.as_ref();
    let identity = addition.and_then(|addition| addition.identity.as_ref());
    let flags = identity.map(|identity| u32_at(&fields(identity, position), 4));
    let client = identity.and_then(|identity| identity.client.as_ref());
    let iaid = client.map(|client| &client.iaid);
    let duid = client.map(|client| &client.duid);
    vec![
        ("extended_info_flags", Json::or_null(flags, Json::number)),
        ("iaid", Json::or_null(iaid, |bytes| Json::hex(bytes))),
        ("duid", Json::or_null(duid, |bytes| Json::hex(bytes))),
    ]
}

fn discovery(position: u16, discovery: &Discovery) -> Members {
    let flags = fields(discovery, position)[Discovery::VALID_AT];
    let mut members = Vec::new();
    if discovery.security != 0 {
        members.push(("security", Json::number(discovery.security)));
    }
    members.push(("hfi", Json::number(discovery.interface)));
    members.extend(text_if_present("uri", &discovery.address));
    members.extend(text_if_present("nqn", &discovery.name));
    members.push(("flags", Json::number(flags)));
    members
}

fn security(position: u16, security: &Security) -> Members {
    let bytes = fields(security, position);
    let wanted = ["not supported", "not required", "required"];
    let list = |list: &Option<Bytes>| Json::or_null(list.as_ref(), |list| Json::hex(list));
    let mut members = vec![
        ("flags", Json::number(u16_at(&bytes, 2))),
        ("secret_type", Json::number(bytes[4])),
        ("authentication", choice(&wanted, security.authentication)),
        ("secure_channel", choice(&wanted, security.channel)),
    ];
    let keys = ["protocols_chosen_by", "protocols"];
    members.extend(policy(keys, security.protocols.as_ref()));
    let keys = ["algorithms_chosen_by", "algorithms"];
    members.extend(policy(keys, security.algorithms.as_ref()));
    members.extend([
        ("cipher_suites", list(&security.ciphers)),
        ("dh_groups", list(&security.groups)),
        ("hash_functions", list(&security.hashes)),
        (
            "keypath",
            Json::or_null(security.keypath.as_ref(), Json::text),
        ),
    ]);
    members
}

/// Nobody chose where there is no list.
fn policy([chosen_by, list]: [&'static str; 2], policy: Option<&Policy>) -> Members {
    let who = ["nobody", "driver", "administrator"];
    let origin = policy.map_or(0, |policy| policy.origin);
    let choices = Json::or_null(policy, |policy| Json::hex(&policy.list));
    vec![(chosen_by, choice(&who, origin)), (list, choices)]
}
