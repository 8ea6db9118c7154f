//! Fixed tables: the known samples, small ones for each kind of record, and
//! ones as a machine's firmware would leave them.

use crate::answer::{number, Answer};
use crate::discovery::Discovery;
use crate::form::{form, lay_out_front, put_checksum, seal, HOST_START};
use crate::host::Host;
use crate::identity::{Client, Identity, DHCP_ORIGIN};
use crate::interface::{Addition, Info, Interface};
use crate::meaning::{Entry, Meaning, Origin};
use crate::record::Record;
use crate::security::{Policy, Security};
use crate::subsystem::{Extended, Subsystem};
use crate::text::Text;
use crate::wire::{put, put_reference, put_u32, u32_at};

/// A table with the answer that it must get.
#[derive(Clone, Debug)]
pub struct Sample {
    pub name: String,
    pub table: Vec<u8>,
    pub answer: Answer,
}

/// The smallest good table, byte by byte.
pub fn smallest() -> Vec<u8> {
    let mut table = vec![0; 162];
    put(&mut table, 0, &[0x4E, 0x42, 0x46, 0x54, 0xA2]);
    put(&mut table, 8, &[0x01, 0x96]);
    table[36] = 0xA0;
    table[40] = 0x02;
    put(&mut table, 64, &[0x01, 0x01]);
    table[68] = 0x40;
    table[70] = 0x01;
    table[72] = 0x80;
    table[76] = 0x20;
    table[78] = 0x01;
    for version in [86, 94, 102, 110] {
        table[version] = 0x01;
    }
    put(&mut table, 128, &[0x02, 0x01]);
    table[146] = 0xA0;
    table[150] = 0x02;
    table[160] = 0x6E;
    table
}

/// The smallest table with some bytes changed and the checksum put right.
fn smallest_with(changes: &[(usize, u8)]) -> Vec<u8> {
    let mut table = smallest();
    for (place, byte) in changes {
        table[*place] = *byte;
    }
    put_checksum(&mut table);
    table
}

/// The smallest table with a host name that lacks the byte that ends it.
pub fn unended() -> Sample {
    Sample {
        name: "smallest-host-name-unended".to_string(),
        table: smallest_with(&[(150, 1)]),
        answer: Answer::at(number::TEXT, Host::ID, 0),
    }
}

fn heap_that_wraps() -> Vec<u8> {
    let mut table = smallest();
    put_u32(&mut table, 36, 0xFFFF_FFF0);
    put_u32(&mut table, 40, 0x20);
    put_checksum(&mut table);
    table
}

/// One interface and one subsystem that uses security, but whose index
/// names no valid security record, since the only one is unused.
fn without_valid_security(index: u8) -> Vec<u8> {
    let subsystem = Subsystem {
        security: Some(index),
        ..plain_subsystem()
    };
    form(&Meaning {
        interfaces: vec![Entry::Used(plain_interface())],
        subsystems: vec![Entry::Used(subsystem)],
        securities: vec![Entry::Unused],
        ..host_only()
    })
}

/// The known samples that are single tables.
pub fn known() -> Vec<Sample> {
    let host_reference = Answer::at(number::REFERENCE, Host::ID, 0);
    let region = Answer::at(number::REGION, 1, 0);
    let index = Answer::at(number::INDEX, Subsystem::ID, 1);
    let lent = |length: usize| {
        let mut table = smallest();
        table.resize(length, 0);
        table
    };
    let sample = |name: &str, table, answer| Sample {
        name: format!("known-{name}"),
        table,
        answer,
    };
    vec![
        sample("1", smallest(), Answer::DONE),
        sample("2", lent(163), Answer::DONE),
        sample("3", lent(161), Answer::plain(number::LENGTH)),
        sample("4", lent(159), Answer::plain(number::TOO_FEW_BYTES)),
        sample("5", smallest_with(&[(150, 0)]), host_reference),
        sample("6", smallest_with(&[(146, 0xA1)]), host_reference),
        sample("7", smallest_with(&[(146, 0xA1), (150, 1)]), Answer::DONE),
        sample("8", heap_that_wraps(), region),
        sample("9", smallest_with(&[(152, 5)]), Answer::DONE),
        sample("10", smallest_with(&[(36, 159)]), region),
        sample("12", without_valid_security(0), index),
        sample("13", without_valid_security(1), index),
    ]
}

fn plain_host() -> Host<'static> {
    Host {
        id_configured: true,
        name_configured: false,
        primary: 2,
        id: *b"\x01\x02\x03\x04\x05\x06\x07\x08\x09\x0A\x0B\x0C\x0D\x0E\x0F\x10",
        name: Text::of("nqn.h"),
    }
}

/// A host with a driver signature and nothing else.
pub fn host_only() -> Meaning<'static> {
    Meaning {
        origin: Origin {
            oem: *b"OEMID ",
            oem_table: *b"TABLE ID",
            oem_revision: 1,
            creator: *b"MAKE",
            creator_revision: 0x0102_0304,
        },
        driver_signature: Some(b"sig".into()),
        host: plain_host(),
        interfaces: Vec::new(),
        subsystems: Vec::new(),
        securities: Vec::new(),
        discoveries: Vec::new(),
    }
}

fn ipv4(address: [u8; 4]) -> [u8; 16] {
    let mut mapped = [0; 16];
    mapped[10..12].fill(0xFF);
    mapped[12..].copy_from_slice(&address);
    mapped
}

pub fn plain_interface() -> Interface<'static> {
    Interface {
        info: Info {
            default_route: false,
            pci_routing: 0x0300,
            mac_address: [2, 0, 0, 0, 0, 1],
            vlan: 7,
            ip_origin: 1,
            ip_address: ipv4([10, 0, 0, 2]),
            prefix_length: 24,
            gateway: [0; 16],
            route_metric: 500,
            primary_dns: [0; 16],
            secondary_dns: [0; 16],
            dhcp_server: None,
            host_name: None,
            addition: None,
        },
    }
}

fn full_interface() -> Interface<'static> {
    Interface {
        info: Info {
            default_route: true,
            gateway: ipv4([10, 0, 0, 1]),
            primary_dns: ipv4([10, 0, 0, 3]),
            secondary_dns: ipv4([10, 0, 0, 4]),
            dhcp_server: Some(ipv4([10, 0, 0, 5])),
            host_name: Some(Text::of("name")),
            ..plain_interface().info
        },
    }
}

/// What an info says of a DHCP client.
fn client(iaid: &'static [u8], duid: &'static [u8]) -> Option<Addition<'static>> {
    let (iaid, duid) = (iaid.into(), duid.into());
    Some(Addition {
        autoconfigured: false,
        identity: Some(Identity {
            client: Some(Client { iaid, duid }),
        }),
    })
}

/// What it says of an address that comes from a mechanism without state.
const AUTOCONFIGURED: Option<Addition<'static>> = Some(Addition {
    autoconfigured: true,
    identity: None,
});

fn identified_interface() -> Interface<'static> {
    Interface {
        info: Info {
            ip_origin: DHCP_ORIGIN,
            addition: client(&FIGURED_IAIDS[0], FIGURED_DUIDS[0]),
            ..full_interface().info
        },
    }
}

fn autoconfigured_interface() -> Interface<'static> {
    Interface {
        info: Info {
            ip_origin: 0,
            dhcp_server: None,
            addition: AUTOCONFIGURED,
            ..full_interface().info
        },
    }
}

/// Identifiers of the two examples in the document that has the extended
/// info, in the order in which it gives their bytes.
const FIGURED_IAIDS: [[u8; 4]; 2] = [*b"\x00\x06\x1A\xF0", *b"\xFF\x06\x1A\xF0"];
const FIGURED_DUIDS: [&[u8]; 2] = [
    b"\x01\x01\x04\x1F\xAA\x01\x07\x00\x01\x12\x31\x7A\xFE",
    b"\x04\x2E\xC5\xB3\xE1\x0C\x74\x40\x13\x9D\xB5\xB7\x06\x7B\xA5\x72\xA7",
];
/// Their records, byte by byte. Both state 23 bytes for the DUID, of which
/// they give fewer: those behind them are zero here.
const FIGURED_RECORDS: [&[u8; 20]; 2] = [
    b"\x0A\x01\x05\0\x03\0\0\0\0\x02\0\0\x04\0\0\x04\0\0\x17\0",
    b"\x0A\x01\xBE\0\x03\0\0\0\0\x03\0\0\x04\0\0\x05\0\0\x17\0",
];
/// Where the examples' heap ends, and the list starts: behind the objects.
const FIGURED_LIST: usize = 0x600;

/// A table that has the record of an example and its objects at the places
/// that it states, for the last interface of a list.
fn figured(example: usize) -> Vec<u8> {
    let record = FIGURED_RECORDS[example];
    let position = record[2];
    let (heap, info) = (HOST_START + Host::SIZE, HOST_START + Host::SIZE + 1);
    let mut table = lay_out_front(&Origin::default(), [position, 0, 0, 0], (0, 0));
    put_u32(&mut table, 36, heap as u32);
    put_u32(&mut table, 80, FIGURED_LIST as u32);
    table.resize(FIGURED_LIST + usize::from(position) * Interface::SIZE, 0);
    plain_host().write_fields(0, &mut table[HOST_START..]);
    put_reference(&mut table, HOST_START + 18, heap as u32, 1);
    let owner = identified_interface();
    owner.info.write_fields(position.into(), &mut table[info..]);
    put_reference(&mut table, info + 110, (info + Info::SIZE) as u32, 20);
    put(&mut table, info + Info::SIZE, record);
    put(
        &mut table,
        u32_at(record, 8) as usize,
        &FIGURED_IAIDS[example],
    );
    put(
        &mut table,
        u32_at(record, 14) as usize,
        FIGURED_DUIDS[example],
    );
    let last = table.len() - Interface::SIZE;
    owner.write_fields(position.into(), &mut table[last..]);
    put_reference(&mut table, last + 16, info as u32, Info::SIZE as u16);
    seal(&mut table, FIGURED_LIST - heap, 1);
    table
}

/// Both examples, of DHCPv4 and of DHCPv6.
pub fn examples() -> [Sample; 2] {
    let sample = |(example, name): (usize, &str)| Sample {
        name: name.to_string(),
        table: figured(example),
        answer: Answer::DONE,
    };
    [(0, "example-dhcpv4"), (1, "example-dhcpv6")].map(sample)
}

pub fn plain_subsystem() -> Subsystem<'static> {
    Subsystem {
        not_bootable: false,
        root_path_used: false,
        separate_discovery: false,
        discovered: false,
        availability: 0,
        transport_flags_used: false,
        header_digest: false,
        data_digest: false,
        discovery: 0,
        address: b"10.0.0.9".into(),
        service: b"4420".into(),
        port: 1,
        namespace: 1,
        identifier_type: 3,
        identifier: [0xAB; 16],
        security: None,
        primary_interface: 1,
        secondary_interfaces: None,
        name: Text::of("nqn.s"),
        extended: None,
    }
}

/// A subsystem with every object and index, all of them at this position.
fn full_subsystem(position: u8) -> Subsystem<'static> {
    Subsystem {
        root_path_used: true,
        discovered: true,
        availability: 1,
        transport_flags_used: true,
        data_digest: true,
        discovery: position,
        security: Some(position),
        primary_interface: position,
        secondary_interfaces: Some(vec![position].into()),
        extended: Some(Extended {
            queue_size_configured: true,
            controller: 0x0102,
            queue_size: 32,
            root_path: Some(Text::of("root")),
        }),
        ..plain_subsystem()
    }
}

pub fn plain_security() -> Security<'static> {
    Security {
        authentication: 1,
        channel: 2,
        algorithms: None,
        protocols: None,
        ciphers: None,
        groups: None,
        hashes: None,
        keypath: None,
    }
}

fn full_security() -> Security<'static> {
    let policy = |origin, list: &'static [u8]| {
        let list = list.into();
        Some(Policy { origin, list })
    };
    Security {
        algorithms: policy(1, &[1]),
        protocols: policy(2, &[1, 2]),
        ciphers: Some(b"\x13\x01".into()),
        groups: Some(b"\x01\x02\x03".into()),
        hashes: Some(b"\x01".into()),
        keypath: Some(b"/key".into()),
        ..plain_security()
    }
}

fn plain_discovery(position: u8) -> Discovery<'static> {
    Discovery {
        interface: position,
        security: 0,
        address: None,
        name: None,
    }
}

/// A record at position 1 or, behind an unused one, at position 2.
fn at_position<R>(position: u8, record: R) -> Vec<Entry<R>> {
    let mut list = Vec::new();
    list.resize_with(usize::from(position) - 1, || Entry::Unused);
    list.push(Entry::Used(record));
    list
}

/// The same with one more unused record behind it.
fn with_unused<R>(position: u8, record: R) -> Vec<Entry<R>> {
    let mut list = at_position(position, record);
    list.push(Entry::Unused);
    list
}

/// A small meaning with one full record of this kind at this position, and
/// an unused record in the lists that it has indexes into. The info's own is
/// one of version 2 without an identity.
pub fn small(kind: u8, position: u8) -> Meaning<'static> {
    let base = host_only();
    let with_interface = |interface| Meaning {
        interfaces: at_position(position, interface),
        ..host_only()
    };
    match kind {
        Interface::ID => with_interface(full_interface()),
        Info::ID => with_interface(autoconfigured_interface()),
        Identity::ID => with_interface(identified_interface()),
        Subsystem::ID => Meaning {
            interfaces: with_unused(position, plain_interface()),
            subsystems: at_position(position, full_subsystem(position)),
            securities: at_position(position, plain_security()),
            discoveries: with_unused(position, plain_discovery(position)),
            ..base
        },
        Security::ID => Meaning {
            securities: at_position(position, full_security()),
            ..base
        },
        Discovery::ID => Meaning {
            interfaces: with_unused(position, plain_interface()),
            securities: with_unused(position, plain_security()),
            discoveries: at_position(
                position,
                Discovery {
                    security: position,
                    address: Some(Text::of("tcp:10.0.0.8")),
                    name: Some(Text::of("nqn.d")),
                    ..plain_discovery(position)
                },
            ),
            ..base
        },
        _ => base,
    }
}

/// A machine's table whose only fault is a discovery index, of its second subsystem, that names no record.
pub fn refused() -> Vec<u8> {
    let astray = Subsystem {
        discovery: 4,
        ..machine_subsystem(2)
    };
    let mut whole = machine();
    whole.subsystems[1] = Entry::Used(astray);
    form(&whole)
}

/// Indexes that need all eight bits.
pub fn far_interface() -> Meaning<'static> {
    let subsystem = Subsystem {
        primary_interface: 255,
        secondary_interfaces: Some(b"\xFF".into()),
        ..plain_subsystem()
    };
    Meaning {
        interfaces: at_position(255, plain_interface()),
        subsystems: vec![Entry::Used(subsystem)],
        discoveries: vec![Entry::Used(plain_discovery(255))],
        ..host_only()
    }
}

/// K11: all counts 255, every list record unused, so that the records end at 65,440. A host NQN of 95 bytes, with the
/// one that ends it 96, is taken; one of 96 gives 17.
pub fn crowded(name_length: usize) -> Meaning<'static> {
    fn unused<R>() -> Vec<Entry<R>> {
        (0..255).map(|_| Entry::Unused).collect()
    }
    Meaning {
        driver_signature: None,
        host: Host {
            name: Text::of(vec![b'n'; name_length]),
            ..plain_host()
        },
        interfaces: unused(),
        subsystems: unused(),
        securities: unused(),
        discoveries: unused(),
        ..host_only()
    }
}

/// A host name so long that the table is as long as it can be.
pub fn longest() -> Meaning<'static> {
    let mut meaning = host_only();
    meaning.driver_signature = None;
    meaning.host.name = Text::of(vec![b'n'; 65_536 - 160 - 1]);
    meaning
}

/// What firmware leaves on a machine with two ports to one storage array.
pub fn machine() -> Meaning<'static> {
    // The host ID is the UUID of this name, its bytes in order.
    let host_name = "nqn.2014-08.org.nvmexpress:uuid:3c1e7a52-9d40-4b6f-8a11-5e0d2f7c9b34";
    Meaning {
        origin: Origin {
            oem: *b"VENDOR",
            oem_table: *b"SERVER\0\0",
            oem_revision: 2,
            creator: *b"UEFI",
            creator_revision: 0x0100_0013,
        },
        driver_signature: Some(b"PciRoot(0x0)/Pci(0x1C,0x0)/MAC(525400A1B201,0x1)\0".into()),
        host: Host {
            id_configured: true,
            name_configured: true,
            primary: 2,
            id: *b"\x3C\x1E\x7A\x52\x9D\x40\x4B\x6F\x8A\x11\x5E\x0D\x2F\x7C\x9B\x34",
            name: Text::of(host_name),
        },
        interfaces: vec![
            Entry::Used(machine_interface(1)),
            Entry::Used(machine_interface(2)),
        ],
        subsystems: vec![
            Entry::Used(machine_subsystem(1)),
            Entry::Used(machine_subsystem(2)),
        ],
        securities: vec![Entry::Used(machine_security())],
        discoveries: vec![Entry::Used(machine_discovery())],
    }
}

/// The same with unused positions, IPv6, absent objects, and bytes that are no characters.
pub fn mixed() -> Meaning<'static> {
    let mut whole = machine();
    whole.driver_signature = None;
    let mut first = machine_interface(1);
    first.info.ip_address = *b"\x20\x01\x0D\xB8\0\0\0\0\0\x01\0\0\0\0\0\x30";
    first.info.gateway = *b"\xFE\x80\0\0\0\0\0\0\0\0\0\0\0\0\0\x01";
    first.info.primary_dns = [0; 16];
    let mut third = machine_interface(3);
    third.info.host_name = None;
    whole.interfaces = vec![Entry::Used(first), Entry::Unused, Entry::Used(third)];
    let mut subsystem = machine_subsystem(2);
    subsystem.address = b"\x20\x01\x0D\xB8\0\0\0\0\0\x01\0\0\0\0\0\x41".into();
    subsystem.service = b"\"4420\\\x07\xFF\0".into();
    subsystem.primary_interface = 1;
    subsystem.secondary_interfaces = Some(vec![3].into());
    whole.subsystems = vec![Entry::Unused, Entry::Used(subsystem)];
    whole.securities = vec![Entry::Unused];
    whole.discoveries = vec![Entry::Used(Discovery {
        security: 0,
        ..machine_discovery()
    })];
    whole
}

/// A machine of which one port has its address from DHCP, one has found it
/// by itself, and one is described in version 1.
pub fn dhcp() -> Meaning<'static> {
    let mut by_dhcp = machine_interface(1);
    let duid = b"\x00\x03\x00\x01\x52\x54\x00\xA1\xB2\x01";
    by_dhcp.info.addition = client(b"\x00\xA1\xB2\x01", duid);
    let mut by_itself = machine_interface(2);
    by_itself.info.ip_origin = 0;
    by_itself.info.ip_address = *b"\x20\x01\x0D\xB8\0\0\0\x02\x50\x54\0\xFF\xFE\xA1\xB2\x02";
    by_itself.info.prefix_length = 64;
    by_itself.info.gateway = *b"\xFE\x80\0\0\0\0\0\0\0\0\0\0\0\0\0\x01";
    by_itself.info.primary_dns = [0; 16];
    by_itself.info.host_name = None;
    by_itself.info.addition = AUTOCONFIGURED;
    Meaning {
        interfaces: [by_dhcp, by_itself, machine_interface(3)]
            .map(Entry::Used)
            .into(),
        subsystems: vec![Entry::Used(Subsystem {
            discovery: 0,
            ..machine_subsystem(2)
        })],
        securities: Vec::new(),
        discoveries: Vec::new(),
        ..machine()
    }
}

fn machine_interface(port: u8) -> Interface<'static> {
    Interface {
        info: Info {
            default_route: port == 1,
            pci_routing: 0x0000_1C00 + u32::from(port) - 1,
            mac_address: [0x52, 0x54, 0x00, 0xA1, 0xB2, port],
            vlan: u16::from(port - 1) * 102,
            ip_origin: 3,
            ip_address: ipv4([192, 168, 100 + port, 30]),
            prefix_length: 24,
            gateway: ipv4([192, 168, 100 + port, 1]),
            route_metric: 500,
            primary_dns: ipv4([192, 168, 100 + port, 2]),
            secondary_dns: [0; 16],
            dhcp_server: (port == 1).then_some(ipv4([192, 168, 101, 2])),
            host_name: Some(Text::of("server-17.example.net")),
            addition: None,
        },
    }
}

/// What Linux's libnvme shows: an address of 16 bytes, a service that ends in a zero byte, and a list of other
/// interfaces.
fn machine_subsystem(port: u8) -> Subsystem<'static> {
    let name = "nqn.2014-08.org.nvmexpress:uuid:8f2b60c4-17de-4a05-b3c9-6a7714e0d582";
    Subsystem {
        root_path_used: port == 1,
        discovered: true,
        availability: port,
        transport_flags_used: true,
        header_digest: true,
        data_digest: port == 2,
        discovery: 1,
        address: ipv4([192, 168, 100 + port, 40]).to_vec().into(),
        service: b"4420\0".into(),
        port: port.into(),
        namespace: 1,
        identifier_type: 3,
        identifier: *b"\x8F\x2B\x60\xC4\x17\xDE\x4A\x05\xB3\xC9\x6A\x77\x14\xE0\xD5\x82",
        security: (port == 1).then_some(1),
        primary_interface: port,
        secondary_interfaces: Some(vec![3 - port].into()),
        name: Text::of(name),
        extended: (port == 1).then(|| Extended {
            queue_size_configured: true,
            controller: 0,
            queue_size: 32,
            root_path: Some(Text::of("NVME+TCP://192.168.101.40:4420/nqn.array/1")),
        }),
        ..plain_subsystem()
    }
}

fn machine_security() -> Security<'static> {
    Security {
        authentication: 2,
        channel: 1,
        keypath: Some(b"/redfish/v1/KeyService/NVMeoFKeys/17".into()),
        ..full_security()
    }
}

/// With URI and NQN: libnvme drops a record that lacks one of them.
fn machine_discovery() -> Discovery<'static> {
    Discovery {
        interface: 1,
        security: 1,
        address: Some(Text::of("nvme+tcp://192.168.101.40:8009/")),
        name: Some(Text::of("nqn.2014-08.org.nvmexpress.discovery")),
    }
}
