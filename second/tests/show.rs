//! What is shown of tables as JSON, and that nothing they say is lost.

use second::generate::random_meaning;
use second::interface::Info;
use second::json::Json;
use second::layout::{lay_out_freely, Style};
use second::pairs::{lent, pairs};
use second::printed::{address, mac, pci, pci_with_segment, signed, uuid};
use second::random::Random;
use second::samples::{dhcp, host_only, machine, mixed, refused, small, smallest};
use second::security::Policy;
use second::subsystem::{Extended, Subsystem};
use second::text::Text;
use second::{check, form, meaning, show, Entry, Meaning};
use std::collections::HashSet;
use std::ffi::OsStr;
use std::io::Write;
use std::os::unix::ffi::OsStrExt;
use std::path::Path;
use std::process::{Command, Stdio};
use std::{env, fs, process};

fn shown(told: &Meaning) -> Json {
    show(b"NBFT", &form(told))
}

/// The value behind these keys and places.
fn at<'j>(json: &'j Json, path: &str) -> Option<&'j Json> {
    path.split('.').try_fold(json, |json, step| match json {
        Json::Object(members) => {
            let member = members.iter().find(|(key, _)| *key == step);
            member.map(|(_, value)| value)
        }
        Json::List(values) => values.get(step.parse::<usize>().ok()?),
        _ => None,
    })
}

fn text(words: &str) -> Option<Json> {
    Some(Json::text(words))
}

fn keys(json: Option<&Json>) -> Vec<&'static str> {
    match json {
        Some(Json::Object(members)) => members.iter().map(|(key, _)| *key).collect(),
        other => panic!("no object: {other:?}"),
    }
}

#[test]
fn addresses_are_as_the_c_library_has_them() {
    let of = |groups: [u16; 8]| {
        let bytes: Vec<u8> = groups.iter().flat_map(|g| g.to_be_bytes()).collect();
        address(&bytes.try_into().unwrap())
    };
    assert_eq!(of([0; 8]), "::");
    assert_eq!(of([0, 0, 0, 0, 0, 0, 0, 1]), "::1");
    assert_eq!(of([0, 0, 0, 0, 0, 0xFFFF, 0xC0A8, 0x6502]), "192.168.101.2");
    assert_eq!(of([0, 0, 0, 0, 0, 0xFFFF, 0, 0]), "0.0.0.0");
    assert_eq!(of([0, 0, 0, 0, 0, 0, 1, 2]), "::0.1.0.2");
    assert_eq!(of([0, 0, 0, 0, 0, 1, 1, 2]), "::1:1:2");
    assert_eq!(
        of([0x2001, 0xDB8, 0, 0, 1, 0, 0, 0x30]),
        "2001:db8::1:0:0:30"
    );
    assert_eq!(of([1, 0, 2, 0, 3, 0, 4, 0]), "1:0:2:0:3:0:4:0");
    assert_eq!(of([0xFE80, 0, 0, 0, 0, 0, 0, 0]), "fe80::");
}

#[test]
fn other_values_are_as_nvme_cli_has_them() {
    assert_eq!(pci(0x1E60_5C40), "0:5c:8.0");
    assert_eq!(pci(0x0000_FFFF), "0:ff:1f.7");
    assert_eq!(pci_with_segment(0x1E60_5C40), "1e60:5c:08.0");
    assert_eq!(mac(&[0x52, 0x54, 0, 0xA1, 0xB2, 1]), "52:54:00:a1:b2:01");
    assert_eq!(signed(u32::MAX), -1);
    assert_eq!(signed(0x8000_0000), -2_147_483_648);
    assert_eq!(signed(0x7FFF_FFFF), 2_147_483_647);
    let id = std::array::from_fn(|place| place as u8);
    assert_eq!(uuid(&id), "00010203-0405-0607-0809-0a0b0c0d0e0f");
}

/// The keys of each object, those of nvme-cli first. A blank stands between
/// them, and `?` behind one that is left out where its text is absent.
const KEYS: [(&str, &str); 8] = [
    (
        "table",
        "filename header host subsystem hfi discovery security unused",
    ),
    (
        "header",
        "oem_id oem_table_id oem_revision creator_id creator_revision driver_signature",
    ),
    (
        "host",
        "nqn id host_id_configured host_nqn_configured primary_admin_host_flag flags \
         primary_admin_host",
    ),
    (
        "subsystem",
        "index num_hfis hfis transport traddr trsvcid subsys_port_id nsid nid_type? nid \
         subsys_nqn controller_id asqsz dhcp_root_path_string? pdu_header_digest_required \
         data_digest_required discovered unavailable flags transport_flags not_bootable \
         root_path_used separate_discovery availability transport_flags_used discovery security \
         primary_hfi secondary_hfis traddr_bytes trsvcid_bytes namespace_id nid_type_number \
         nid_bytes extended_info_flags extended_info_controller_id extended_info_asqsz",
    ),
    (
        "hfi",
        "index transport pcidev mac_addr vlan ip_origin ipaddr subnet_mask_prefix \
         gateway_ipaddr route_metric primary_dns_ipaddr secondary_dns_ipaddr dhcp_server_ipaddr \
         host_name? this_hfi_is_default_route dhcp_override pci_address info_version flags \
         autoconfigured record_flags extended_info_flags iaid duid",
    ),
    ("discovery", "index security? hfi uri? nqn? flags"),
    (
        "security",
        "index flags secret_type authentication secure_channel protocols_chosen_by protocols \
         algorithms_chosen_by algorithms cipher_suites dh_groups hash_functions keypath",
    ),
    ("unused", "subsystem hfi discovery security"),
];

/// Whether the keys are these, apart from some that may be left out.
fn assert_keys(what: &str, json: &Json) {
    let (_, all) = KEYS.iter().find(|(name, _)| *name == what).expect(what);
    let mut found = keys(Some(json)).into_iter().peekable();
    for key in all.split(' ') {
        let may_lack = key.ends_with('?');
        let key = key.trim_end_matches('?');
        assert!(found.next_if_eq(&key).is_some() || may_lack, "{what} {key}");
    }
    assert_eq!(found.next(), None, "{what}");
}

/// Nothing but numbers, texts, null and lists of positions.
fn assert_flat(json: &Json) {
    if let Json::Object(members) = json {
        for (key, value) in members {
            let is_flat = match value {
                Json::Object(_) => false,
                Json::List(places) => places.iter().all(|one| matches!(one, Json::Number(_))),
                _ => true,
            };
            assert!(is_flat, "{key}");
        }
    }
}

#[test]
fn every_record_has_its_keys_in_their_order() {
    let mut random = Random::seeded(24);
    let generated = (0..200).map(|_| random_meaning(&mut random));
    for told in [machine(), mixed(), dhcp()].into_iter().chain(generated) {
        let json = shown(&told);
        assert_keys("table", &json);
        for one in ["header", "host", "unused"] {
            let record = at(&json, one).expect(one);
            assert_keys(one, record);
            assert_flat(record);
        }
        for list in ["subsystem", "hfi", "discovery", "security"] {
            let Some(Json::List(records)) = at(&json, list) else {
                panic!("no list: {list}");
            };
            for record in records {
                assert_keys(list, record);
                assert_flat(record);
            }
        }
    }
}

#[test]
fn what_is_absent_is_null_or_left_out() {
    let mut told = machine();
    for entry in &mut told.securities {
        if let Entry::Used(record) = entry {
            record.protocols = None;
            record.algorithms = None;
        }
    }
    for entry in &mut told.subsystems {
        if let Entry::Used(record) = entry {
            record.extended = None;
            record.security = None;
        }
    }
    let json = shown(&told);
    let value = |path: &str| at(&json, path).cloned();
    assert_eq!(value("security.0.protocols_chosen_by"), text("nobody"));
    assert_eq!(value("security.0.protocols"), Some(Json::Null));
    assert_eq!(value("security.0.algorithms_chosen_by"), text("nobody"));
    assert_eq!(value("security.0.algorithms"), Some(Json::Null));
    for key in ["flags", "controller_id", "asqsz"] {
        let path = format!("subsystem.0.extended_info_{key}");
        assert_eq!(value(&path), Some(Json::Null));
    }
    assert_eq!(value("subsystem.0.security"), Some(Json::Null));
    assert_eq!(value("subsystem.0.dhcp_root_path_string"), None);
    assert_eq!(value("hfi.0.record_flags"), Some(Json::Number(1)));
    assert_eq!(value("discovery.0.flags"), Some(Json::Number(1)));
}

#[test]
fn a_machine_is_shown() {
    let json = shown(&machine());
    let value = |path: &str| at(&json, path).cloned();
    assert_eq!(value("filename"), text("NBFT"));
    assert_eq!(
        value("host.id"),
        text("3c1e7a52-9d40-4b6f-8a11-5e0d2f7c9b34")
    );
    assert_eq!(value("host.host_id_configured"), Some(Json::Number(1)));
    assert_eq!(value("host.primary_admin_host_flag"), text("not indicated"));
    assert_eq!(value("host.primary_admin_host"), text("selected"));
    assert_eq!(value("hfi.0.ipaddr"), text("192.168.101.30"));
    assert_eq!(value("hfi.1.vlan"), Some(Json::Number(102)));
    assert_eq!(value("hfi.1.dhcp_server_ipaddr"), text(""));
    assert_eq!(value("subsystem.1.traddr"), text("192.168.102.40"));
    assert_eq!(value("subsystem.1.trsvcid"), text("4420"));
    assert_eq!(
        value("discovery.0.uri"),
        text("nvme+tcp://192.168.101.40:8009/")
    );
}

#[test]
fn unused_positions_are_named() {
    let json = shown(&mixed());
    let list = |positions: &[i64]| {
        let numbers = positions.iter().copied().map(Json::Number);
        Some(Json::List(numbers.collect()))
    };
    let value = |path: &str| at(&json, path).cloned();
    assert_eq!(value("unused.hfi"), list(&[2]));
    assert_eq!(value("unused.subsystem"), list(&[1]));
    assert_eq!(value("unused.security"), list(&[1]));
    assert_eq!(value("unused.discovery"), list(&[]));
    assert_eq!(value("subsystem.0.index"), Some(Json::Number(2)));
    assert_eq!(value("security"), list(&[]));
}

#[test]
fn identities_are_shown() {
    let json = shown(&dhcp());
    let value = |path: &str| at(&json, path).cloned();
    assert_eq!(value("hfi.0.iaid"), text("00a1b201"));
    assert_eq!(value("hfi.0.info_version"), Some(Json::Number(2)));
    assert_eq!(value("hfi.1.autoconfigured"), Some(Json::Number(1)));
    assert_eq!(value("hfi.0.extended_info_flags"), Some(Json::Number(3)));
    assert_eq!(value("hfi.1.extended_info_flags"), Some(Json::Null));
    assert_eq!(value("hfi.1.iaid"), Some(Json::Null));
    assert_eq!(value("hfi.1.duid"), Some(Json::Null));
    assert_eq!(value("hfi.2.info_version"), Some(Json::Number(1)));
}

/// nvme-cli leaves an absent text out; an empty one it shows.
#[test]
fn empty_texts_are_told_from_absent_ones() {
    let mut told = small(6, 1);
    let mut name = |text: Option<Text<'static>>| {
        if let Entry::Used(record) = &mut told.discoveries[0] {
            record.name = text;
        }
        at(&shown(&told), "discovery.0.nqn").cloned()
    };
    assert_eq!(name(None), None);
    assert_eq!(name(Some(Text::of(""))), text(""));
    assert_eq!(name(Some(Text::of("n"))), text("n"));
}

#[test]
fn a_refused_table_says_why() {
    let printed = show(b"samples/refused.nbft", &refused()).to_string();
    let expected = "{\n  \"filename\":\"samples/refused.nbft\",\n  \"refused\":{\n    \"number\":13,\n    \
                    \"kind\":4,\n    \"position\":2,\n    \"words\":\"an index names no valid record: SSNS 2\"\n  }\n}";
    assert_eq!(printed, expected);
    let json = show(b"none", b"");
    assert_eq!(
        at(&json, "refused.words").cloned(),
        text("too few bytes: header")
    );
}

#[test]
fn the_smallest_table_is_shown() {
    let json = show(b"NBFT", &smallest());
    assert_eq!(at(&json, "host.nqn").cloned(), text("n"));
    assert_eq!(at(&json, "hfi"), Some(&Json::List(Vec::new())));
    assert!(json
        .to_string()
        .contains("\"subsystem\":[],\n  \"hfi\":[],\n"));
}

#[test]
fn bytes_outside_printable_ascii_are_escaped() {
    let mut told = host_only();
    told.host.name = Text::of(b"\"\\/ ~\x07\x1F\x7F\x80\xFF");
    let printed = shown(&told).to_string();
    let expected = r#""nqn":"\"\\/ ~\u0007\u001f\u007f\u0080\u00ff""#;
    assert!(printed.contains(expected), "{printed}");
    assert!(printed
        .bytes()
        .all(|byte| matches!(byte, b'\n' | 0x20..=0x7E)));
}

/// What differs in meaning differs in what is printed, and nothing else does.
#[test]
fn tables_look_the_same_exactly_where_they_say_the_same() {
    let mut random = Random::seeded(22);
    let mut same = 0;
    for _ in 0..3000 {
        let (one, other) = pairs(&mut random);
        if !check(&one).is_done() || !check(&other).is_done() {
            continue;
        }
        let print = |table: &[u8]| show(b"NBFT", table).to_string();
        let equal = meaning(&one) == meaning(&other);
        assert_eq!(print(&one) == print(&other), equal);
        same += usize::from(equal);
    }
    assert!(same > 50, "{same}");
}

/// A table with one record of each kind, changed in one way or another.
fn changed(change: impl Fn(&mut Subsystem<'static>)) -> String {
    let mut told = small(4, 1);
    if let Entry::Used(record) = &mut told.subsystems[0] {
        record.identifier_type = 1;
        change(record);
    }
    shown(&told).to_string()
}

fn extended(controller: u16, queue_size: u16, path: Option<&str>) -> Option<Extended<'static>> {
    Some(Extended {
        queue_size_configured: false,
        controller,
        queue_size,
        root_path: path.map(Text::of),
    })
}

/// Of each of these nvme-cli's keys have the same values as of another.
#[test]
fn what_nvme_cli_tells_not_apart_is_told_apart() {
    let all = [
        changed(|_| ()),
        changed(|record| record.address = vec![0; 16].into()),
        changed(|record| record.address = vec![0; 17].into()),
        changed(|record| record.address = b"::".to_vec().into()),
        changed(|record| record.service = b"4421".to_vec().into()),
        changed(|record| record.service = b"4421\0".to_vec().into()),
        changed(|record| record.service = b"4421\0\0".to_vec().into()),
        changed(|record| record.identifier[15] ^= 1),
        changed(|record| record.identifier_type = 0),
        changed(|record| record.identifier_type = 4),
        changed(|record| record.secondary_interfaces = None),
        changed(|record| record.extended = extended(0, 0, None)),
        changed(|record| record.extended = extended(0, 1, None)),
        changed(|record| record.extended = extended(0, 0, Some(""))),
        changed(|record| record.availability ^= 1),
        changed(|record| record.not_bootable ^= true),
        changed(|record| record.root_path_used ^= true),
        changed(|record| record.separate_discovery ^= true),
        changed(|record| record.transport_flags_used ^= true),
    ];
    let different: HashSet<&String> = all.iter().collect();
    assert_eq!(different.len(), all.len());
}

/// Fields that no two generated tables differ in alone.
#[test]
fn the_least_difference_is_shown() {
    let interface = |change: fn(&mut Info)| {
        let mut told = small(3, 1);
        if let Entry::Used(record) = &mut told.interfaces[0] {
            change(&mut record.info);
        }
        shown(&told).to_string()
    };
    let security = |origins: [u8; 2]| {
        let mut told = small(5, 1);
        let policy = |origin| {
            let list = vec![1].into();
            Some(Policy { origin, list })
        };
        if let Entry::Used(record) = &mut told.securities[0] {
            [record.protocols, record.algorithms] = origins.map(policy);
        }
        shown(&told).to_string()
    };
    let all = [
        interface(|_| ()),
        interface(|info| info.mac_address[5] ^= 1),
        interface(|info| info.pci_routing ^= 0x8000_0000),
        interface(|info| info.pci_routing ^= 1),
        security([1, 1]),
        security([1, 2]),
        security([2, 1]),
        security([2, 2]),
    ];
    let different: HashSet<&String> = all.iter().collect();
    assert_eq!(different.len(), all.len());
}

#[test]
fn how_a_table_is_laid_out_is_not_shown() {
    let mut random = Random::seeded(23);
    let mut all = HashSet::new();
    for _ in 0..300 {
        let told = random_meaning(&mut random);
        let free = lay_out_freely(&mut random, &told, Style::SHARED);
        let printed = show(b"NBFT", &free).to_string();
        assert_eq!(printed, shown(&told).to_string());
        all.insert(printed);
    }
    assert_eq!(all.len(), 300);
}

/// What `second json` prints of these arguments in a folder, with this on its
/// standard input, and whether it ends well and complains.
fn run(folder: &Path, arguments: &[&OsStr], input: &[u8]) -> (String, bool, bool) {
    let mut program = Command::new(env!("CARGO_BIN_EXE_second"));
    let program = program.current_dir(folder).arg("json").args(arguments);
    let piped = program.stdin(Stdio::piped()).stdout(Stdio::piped());
    let mut child = piped.stderr(Stdio::piped()).spawn().unwrap();
    child.stdin.take().unwrap().write_all(input).unwrap();
    let output = child.wait_with_output().unwrap();
    let printed = String::from_utf8(output.stdout).unwrap();
    (printed, output.status.success(), !output.stderr.is_empty())
}

fn list_of(tables: &[(&[u8], Vec<u8>)]) -> String {
    let shown = tables.iter().map(|(name, table)| show(name, table));
    format!("{}\n", Json::List(shown.collect()))
}

/// A list with an object for each file, in the order in which they are named.
#[test]
fn the_program_shows_files() {
    let samples = Path::new(env!("CARGO_MANIFEST_DIR")).join("../samples");
    let read = |name: &str| fs::read(samples.join(name)).unwrap();
    let run = |names: &[&str], input: &[u8]| {
        let names: Vec<&OsStr> = names.iter().map(OsStr::new).collect();
        run(&samples, &names, input)
    };
    let [refused, machine] = ["refused.nbft", "machine.nbft"].map(|name| (name, read(name)));
    let one = |(name, table): &(&'static str, Vec<u8>)| (name.as_bytes(), table.clone());
    assert_eq!(
        run(&["refused.nbft", "machine.nbft"], b""),
        (list_of(&[one(&refused), one(&machine)]), true, false)
    );
    assert_eq!(
        run(&["no such file", "machine.nbft"], b""),
        (list_of(&[one(&machine)]), false, true)
    );
    assert_eq!(run(&["none"], b""), ("[]\n".to_string(), false, true));
    assert_eq!(
        run(&["-"], &machine.1),
        (list_of(&[(b"-", machine.1.clone())]), true, false)
    );
    assert_eq!(run(&[], b""), (String::new(), false, true));
}

/// Of a folder the tables as a system names them, in the order of numbers.
#[test]
fn the_program_shows_folders() {
    let folder = env::temp_dir().join(format!("second-shown-{}", process::id()));
    fs::create_dir_all(folder.join("in/empty")).unwrap();
    let table = smallest();
    for name in ["NBFT9", "NBFT", "NBFT10", "NBFT2", "other", "NBFT0"] {
        fs::write(folder.join("in").join(name), &table).unwrap();
    }
    let odd = OsStr::from_bytes(b"a \"b\"\\\x07\xFF");
    fs::write(folder.join(odd), &table).unwrap();
    let run = |names: &[&OsStr]| run(&folder, names, b"");
    let all = ["in/NBFT", "in/NBFT2", "in/NBFT9"];
    let all = all.map(|name| (name.as_bytes(), table.clone()));
    let expected = (list_of(&all), true, false);
    assert_eq!(run(&[OsStr::new("in")]), expected);
    assert_eq!(run(&[OsStr::new("in/")]), expected);
    let expected = (list_of(&[(odd.as_bytes(), table.clone())]), true, false);
    assert_eq!(run(&[odd]), expected);
    let expected = ("[]\n".to_string(), false, true);
    assert_eq!(run(&[OsStr::new("in/empty")]), expected);
    fs::remove_dir_all(&folder).unwrap();
}

/// Most are good, some are refused, and both are of many shapes.
#[test]
fn the_tables_to_be_shown_are_good_and_refused() {
    let mut random = Random::seeded(25);
    let tables: Vec<Vec<u8>> = (0..500).map(|_| lent(&mut random)).collect();
    let refused = tables.iter().filter(|table| !check(table).is_done());
    let kinds: HashSet<u8> = refused.clone().map(|table| check(table).kind).collect();
    let count = refused.count();
    assert!((60..150).contains(&count), "{count}");
    assert!(kinds.len() >= 6, "{kinds:?}");
    let shown: Vec<String> = tables
        .iter()
        .map(|t| show(b"NBFT", t).to_string())
        .collect();
    let has = |words: &str| shown.iter().filter(|shown| shown.contains(words)).count();
    for words in [
        "\"nid_type\":\"eui64\"",
        "\"nid_type\":\"uuid\"",
        "\"ipaddr\":\"::\"",
        "\"nqn\":\"\"",
        "\"nsid\":-",
        "\"duid\":\"",
        "\"autoconfigured\":1",
    ] {
        assert!(has(words) >= 5, "{words}");
    }
    let far = (100..=255).map(|index| has(&format!("\"index\":{index},")));
    assert!(far.sum::<usize>() >= 5);
}
