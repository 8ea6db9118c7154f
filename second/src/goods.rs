//! Good tables that each show one thing that counts for nothing, or one
//! thing that may be absent.

use crate::answer::Answer;
use crate::discovery::Discovery;
use crate::form::{form, put_checksum, record_start, HOST_START};
use crate::frame::{DRIVER_SIGNATURE_AT, MINOR_AT};
use crate::host::Host;
use crate::identity::Identity;
use crate::interface::{Addition, Info, Interface};
use crate::meaning::{Entry, Meaning};
use crate::record::Record;
use crate::samples::{
    crowded, dhcp, examples, far_interface, host_only, longest, machine, small, Sample,
};
use crate::security::Security;
use crate::subsystem::{Extended, Subsystem};
use crate::text::Text;
use crate::wire::{array_at, put, put_reference, put_u16, set_bit, u16_at, u32_at};

/// A good table made from the form of a meaning.
fn good(name: &str, meaning: &Meaning, change: impl Fn(&mut Vec<u8>)) -> Sample {
    let mut table = form(meaning);
    change(&mut table);
    put_checksum(&mut table);
    Sample {
        name: name.to_string(),
        table,
        answer: Answer::DONE,
    }
}

/// A change to the record of this kind at position 1 of its small table.
fn record_change<R: Record<'static>>(name: &str, change: impl Fn(&mut [u8])) -> Sample {
    let meaning = small(R::ID, 1);
    let start = record_start::<R>(meaning.counts(), 1);
    good(name, &meaning, |table| {
        change(&mut table[start..start + R::SIZE])
    })
}

/// A change to a heap record in the small table of this kind: the one that
/// these reference fields lead to, from an owner at position 1 on.
fn heap_record_change<O: Record<'static>, R: Record<'static>>(
    name: &str,
    kind: u8,
    fields: &[usize],
    change: impl Fn(&mut [u8]),
) -> Sample {
    let meaning = small(kind, 1);
    let owner = record_start::<O>(meaning.counts(), 1);
    good(name, &meaning, |table| {
        let follow = |start: usize, field: &usize| u32_at(table, start + field) as usize;
        let start = fields.iter().fold(owner, follow);
        change(&mut table[start..start + R::SIZE]);
    })
}

pub fn goods() -> Vec<Sample> {
    let mut all = front_goods();
    all.extend(interface_goods());
    all.extend(addition_goods());
    all.extend(identity_goods());
    all.extend(examples());
    all.extend(subsystem_goods());
    all.extend(extended_goods());
    all.extend(security_goods());
    all.extend(discovery_goods());
    all.extend(sharing_goods());
    all.extend(text_goods());
    all.extend(long_goods());
    all.push(good("machine-form", &machine(), |_| ()));
    all.push(good("dhcp-form", &dhcp(), |_| ()));
    all
}

fn front_goods() -> Vec<Sample> {
    let base = host_only();
    let filled = |name: &str, places: std::ops::Range<usize>| {
        good(name, &base, |table| table[places.clone()].fill(0xFF))
    };
    let mut bare = host_only();
    bare.driver_signature = None;
    vec![
        good("host-only", &base, |_| ()),
        good("no-driver-signature", &bare, |_| ()),
        good("header-minor-1", &base, |table| table[50] = 1),
        filled("header-minor-255", 50..51),
        filled("control-minor-255", 66..67),
        filled("header-reserved", 51..64),
        filled("control-reserved-67", 67..68),
        filled("control-flags-all-set", 70..71),
        filled("control-reserved-71", 71..72),
        filled("control-reserved-79", 79..80),
        filled("control-reserved-112", 112..128),
        filled("empty-interface-list-garbage", 80..87),
        filled("empty-subsystem-list-garbage", 88..95),
        filled("empty-security-list-garbage", 96..103),
        filled("empty-discovery-list-garbage", 104..111),
        filled("host-reserved", HOST_START + 24..HOST_START + Host::SIZE),
        good("host-reserved-flags", &base, |table| {
            table[HOST_START + 1] |= 0xE0
        }),
        good("empty-list-versions-zero", &base, |table| {
            for version in [86, 94, 102, 110] {
                table[version] = 0;
            }
        }),
        good("lent-beyond-length", &base, |table| {
            table.extend([1, 2, 3]);
        }),
    ]
    .into_iter()
    .map(sealed_within_length)
    .collect()
}

/// The checksum covers no byte beyond Length.
fn sealed_within_length(mut sample: Sample) -> Sample {
    crate::damage::put_checksum_within_length(&mut sample.table);
    sample
}

/// A change to the info in the small table of this kind.
fn info_change(name: &str, kind: u8, change: impl Fn(&mut [u8])) -> Sample {
    heap_record_change::<Interface, Info>(name, kind, &[16], change)
}

fn interface_goods() -> Vec<Sample> {
    let info = |name: &str, change: fn(&mut [u8])| info_change(name, Interface::ID, change);
    vec![
        good("interface-only", &small(Interface::ID, 1), |_| ()),
        good("interface-behind-unused", &small(Interface::ID, 2), |_| ()),
        record_change::<Interface>("interface-unused-garbage", |record| {
            record.fill(0xFF);
            record[Interface::VALID_AT] = 0xFE;
        }),
        record_change::<Interface>("interface-reserved", |record| {
            record[2] |= 0xFE;
            record[4..16].fill(0xFF);
            record[22..].fill(0xFF);
        }),
        info("info-reserved-flags", |info| info[6] |= 0xF8),
        info("info-reserved-53", |info| info[53] = 0xFF),
        info("info-reserved-110", |info| info[110..].fill(0xFF)),
        info("info-dhcp-server-ignored", |info| info[6] &= 0xFB),
        info("info-host-name-absent", |info| info[104..110].fill(0)),
        // The last byte of the MAC address and both of the VLAN.
        info("info-host-name-within-itself", |info| {
            let start = u32_at(info, 104) - Info::SIZE as u32;
            put_reference(info, 104, start + 16, 3);
        }),
    ]
}

/// What version 2 of an info adds, and the same where version 1 reserves it.
fn addition_goods() -> Vec<Sample> {
    let info = |name: &str, change: fn(&mut [u8])| info_change(name, Identity::ID, change);
    let header = |name: &str, minor: u8| {
        good(name, &small(Identity::ID, 1), |table| {
            table[MINOR_AT] = minor
        })
    };
    vec![
        good("autoconfigured-only", &small(Info::ID, 1), |_| ()),
        info_change("autoconfigured-in-version-1", Info::ID, |info| {
            info[Info::VERSION_AT] = 1;
            info[Info::ORIGIN_AT] = 1;
            set_bit(info, Info::VALID_AT, Info::DHCP_BIT, true);
        }),
        header("identity-header-minor-0", 0),
        header("identity-header-minor-255", 255),
        info("identity-info-reserved-flags", |info| info[6] |= 0xF0),
        info("identity-info-reserved-116", |info| info[116..].fill(0xFF)),
        info("identity-absent", |info| info[110..116].fill(0)),
        info("identity-ignored-in-version-1", |info| {
            info[Info::VERSION_AT] = 1
        }),
        // Half zero, which only an ignored reference may be.
        info("identity-garbage-in-version-1", |info| {
            info[Info::VERSION_AT] = 1;
            put_reference(info, 110, 0, 20);
        }),
    ]
}

fn identity_goods() -> Vec<Sample> {
    let record = |name: &str, change: fn(&mut [u8])| {
        heap_record_change::<Interface, Identity>(name, Identity::ID, &[16, 110], change)
    };
    vec![
        good("identity-full", &small(Identity::ID, 1), |_| ()),
        good("identity-behind-unused", &small(Identity::ID, 2), |_| ()),
        good("identity-of-autoconfigured", &bare_identity(0), |_| ()),
        good("identity-of-manual-address", &bare_identity(1), |_| ()),
        record("identity-reserved-flags", |record| {
            record[4] |= 0xFC;
            record[5..8].fill(0xFF);
        }),
        record("identity-client-ignored", |record| {
            record[4] = 1;
            put_reference(record, 8, 0, 9);
            put_reference(record, 14, 9, 0);
        }),
        record("identity-within-its-own-iaid", |record| {
            let iaid = u32_at(record, 8);
            put_reference(record, 8, iaid - 20, 24);
        }),
    ]
}

/// An identity without a client, which goes with any IP origin.
pub fn bare_identity(ip_origin: u8) -> Meaning<'static> {
    let mut meaning = small(Info::ID, 1);
    if let Entry::Used(interface) = &mut meaning.interfaces[0] {
        interface.info.ip_origin = ip_origin;
        interface.info.addition = Some(Addition {
            autoconfigured: ip_origin == 0,
            identity: Some(Identity { client: None }),
        });
    }
    meaning
}

fn subsystem_goods() -> Vec<Sample> {
    let record = |name: &str, change: fn(&mut [u8])| record_change::<Subsystem>(name, change);
    vec![
        good("subsystem-full", &small(Subsystem::ID, 1), |_| ()),
        good("subsystem-behind-unused", &small(Subsystem::ID, 2), |_| ()),
        record("subsystem-reserved", |record| {
            record[4] |= 0xFE;
            record[6] |= 0xF8;
            record[7] = 0xFF;
            record[9] = 0xFF;
            record[47] = 0xFF;
            record[66..].fill(0xFF);
        }),
        record("subsystem-unused-garbage", |record| {
            record.fill(0xFF);
            record[Subsystem::VALID_AT] = 0xFE;
        }),
        record("subsystem-security-index-ignored", |record| {
            record[3] &= 0xFB;
            record[45] = 255;
        }),
        record("subsystem-extended-ignored", |record| {
            record[3] &= 0xEF;
            put_reference(record, 60, 5, 0);
        }),
        record("subsystem-discovery-index-zero", |record| record[8] = 0),
        record("subsystem-secondary-absent", |record| {
            record[48..54].fill(0)
        }),
        record("subsystem-root-path-flag-clear", |record| record[3] &= 0xF7),
        record("subsystem-digests-without-use", |record| record[6] = 6),
    ]
}

fn extended_goods() -> Vec<Sample> {
    let extended = |name: &str, change: fn(&mut [u8])| {
        heap_record_change::<Subsystem, Extended>(name, Subsystem::ID, &[60], change)
    };
    vec![
        extended("extended-reserved-flags", |extended| {
            extended[4] |= 0xFC;
            extended[5..8].fill(0xFF);
        }),
        extended("extended-root-path-absent", |extended| {
            extended[12..].fill(0)
        }),
    ]
}

fn security_goods() -> Vec<Sample> {
    let record = |name: &str, change: fn(&mut [u8])| record_change::<Security>(name, change);
    // The reference is half zero, which only an ignored one may be.
    let ignored = |name: &str, bits: &'static [usize], field: usize| {
        record_change::<Security>(name, move |record| {
            for place in bits {
                set_bit(record, 2, *place, false);
            }
            put_reference(record, field, 0, 9);
        })
    };
    vec![
        good("security-full", &small(Security::ID, 1), |_| ()),
        good("security-behind-unused", &small(Security::ID, 2), |_| ()),
        record("security-reserved", |record| {
            record[3] |= 0xF0;
            record[4] |= 0xFE;
            record[5] = 0xFF;
            record[42..].fill(0xFF);
        }),
        record("security-unused-garbage", |record| {
            record.fill(0xFF);
            record[Security::VALID_AT] = 0xFE;
        }),
        ignored("security-algorithms-ignored", &[7, 8], 6),
        ignored("security-protocols-ignored", &[3, 4], 12),
        ignored("security-ciphers-ignored", &[9], 18),
        ignored("security-groups-ignored", &[10], 24),
        ignored("security-hashes-ignored", &[11], 30),
        record("security-keypath-ignored", |record| {
            record[4] = 0xFE;
            put_reference(record, 36, 0, 9);
        }),
    ]
}

fn discovery_goods() -> Vec<Sample> {
    let record = |name: &str, change: fn(&mut [u8])| record_change::<Discovery>(name, change);
    vec![
        good("discovery-full", &small(Discovery::ID, 1), |_| ()),
        good("discovery-behind-unused", &small(Discovery::ID, 2), |_| ()),
        record("discovery-reserved", |record| {
            record[1] |= 0xFE;
            record[5] = 0xFF;
            record[18..].fill(0xFF);
        }),
        record("discovery-unused-garbage", |record| {
            record.fill(0xFF);
            record[Discovery::VALID_AT] = 0xFE;
        }),
        record("discovery-security-index-zero", |record| record[4] = 0),
        record("discovery-objects-absent", |record| record[6..18].fill(0)),
    ]
}

/// The driver signature's reference is made the host name's, which has this
/// length with the byte that ends it.
fn shared_name(name: &str, length: usize, signature_length: u16) -> Sample {
    let mut meaning = host_only();
    meaning.driver_signature = None;
    meaning.host.name = Text::of(vec![b'n'; length - 1]);
    good(name, &meaning, |table| {
        let reference: [u8; 6] = array_at(table, HOST_START + 18);
        put(table, 44, &reference);
        put_u16(table, 48, signature_length);
    })
}

fn sharing_goods() -> Vec<Sample> {
    vec![
        shared_name("objects-shared", 5, 5),
        shared_name("objects-overlap", 5, 3),
        shared_name("form-of-65536-from-shared", 32_688, 32_688),
        shared_name("form-of-65537-from-shared", 32_689, 32_688),
        shared_name("form-of-80160-from-shared", 40_000, 40_000),
        good(
            "objects-in-heap-records",
            &small(Interface::ID, 1),
            |table| {
                let info = u32_at(table, 176);
                let length = u16_at(table, 180);
                put_reference(table, 44, info, length);
                put_reference(table, HOST_START + 18, info + 16, 3);
            },
        ),
    ]
}

/// The small meaning of this kind with every text that it has, but empty.
pub fn with_empty_texts(kind: u8) -> Meaning<'static> {
    let empty = || Text::of("");
    let mut meaning = small(kind, 1);
    meaning.host.name = empty();
    for entry in &mut meaning.interfaces {
        if let Entry::Used(interface) = entry {
            interface.info.host_name = Some(empty());
        }
    }
    for entry in &mut meaning.subsystems {
        if let Entry::Used(subsystem) = entry {
            subsystem.name = empty();
            if let Some(extended) = &mut subsystem.extended {
                extended.root_path = Some(empty());
            }
        }
    }
    for entry in &mut meaning.discoveries {
        if let Entry::Used(discovery) = entry {
            (discovery.address, discovery.name) = (Some(empty()), Some(empty()));
        }
    }
    meaning
}

/// A driver signature, and the host name a part of it.
fn name_in_signature(name: &str, signature: &'static [u8], start: u32, length: u16) -> Sample {
    let mut meaning = host_only();
    meaning.driver_signature = Some(signature.into());
    good(name, &meaning, |table| {
        let signature = u32_at(table, DRIVER_SIGNATURE_AT);
        put_reference(table, HOST_START + 18, signature + start, length);
    })
}

/// Empty texts, texts that end as another does, and texts that share bytes
/// with objects that are none.
fn text_goods() -> Vec<Sample> {
    let empty = |name: &str, kind| good(name, &with_empty_texts(kind), |_| ());
    let tail = |name: &str, length: u32| {
        record_change::<Discovery>(name, move |record| {
            let end = u32_at(record, 6) + u32::from(u16_at(record, 10));
            put_reference(record, 12, end - length, length as u16);
        })
    };
    vec![
        empty("texts-empty-in-subsystem", Subsystem::ID),
        empty("texts-empty-in-interface", Identity::ID),
        empty("texts-empty-in-discovery", Discovery::ID),
        tail("discovery-name-ends-its-address", 5),
        tail("discovery-name-is-its-address", 13),
        tail("discovery-name-is-the-end-of-its-address", 1),
        name_in_signature("host-name-within-signature", b"a\0bc\0\0d", 2, 3),
        name_in_signature("host-name-empty-within-signature", b"a\0bc\0\0d", 5, 1),
        name_in_signature("host-name-starts-signature", b"abc\0d", 0, 4),
        // The last byte of the secondary list, and the name behind it.
        record_change::<Subsystem>("subsystem-service-around-its-name", |record| {
            let (place, length) = (u32_at(record, 54), u16_at(record, 58));
            put_reference(record, 16, place - 1, length + 1);
        }),
    ]
}

fn long_goods() -> Vec<Sample> {
    vec![
        good("all-counts-255-and-65536-bytes", &crowded(95), |_| ()),
        good("host-name-of-65376-bytes", &longest(), |_| ()),
        good("interface-at-255", &far_interface(), |_| ()),
        good("all-records-at-254", &small(Subsystem::ID, 254), |_| ()),
    ]
}
