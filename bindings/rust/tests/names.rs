//! Names of offsets, places and flags, and the words of numbers: those of the C header, and those of what the library
//! reads.

mod common;

use common::{bytes, number, DHCP, LAYOUTS, MACHINE};
use nbft::{c_text, field, flags, object, offsets, places};
use nbft::{Builder, Counts, Entry, Hfi, HfiExtended, Host, Kind, Number, Refusal};

const HEADER: &str = include_str!("../../../include/nbft.h");
const WORDS: &str = include_str!("../../../crates/text_answers/specs/Words.antt");

/// The constants of one module, each with its name in C.
macro_rules! named {
    ($all:ident, $prefix:literal, $module:path, [$($name:ident)*]) => {
        named!($all, $prefix, "", $module, [$($name)*])
    };
    ($all:ident, $prefix:literal, $suffix:literal, $module:path, [$($name:ident)*]) => {{
        use $module as names;
        $($all.push((concat!($prefix, stringify!($name), $suffix), u64::from(names::$name)));)*
    }};
}

fn offsets_of(kind: Kind) -> Vec<(&'static str, u64)> {
    let mut all = Vec::new();
    match kind {
        Kind::Header => named!(all, "NBFT_HEADER_", offsets::header, [
            OEM_ID OEM_TABLE_ID OEM_REVISION CREATOR_ID CREATOR_REVISION DRIVER_SIGNATURE]),
        Kind::Control => named!(all, "NBFT_CONTROL_", offsets::control, [
            HFI_COUNT SSNS_COUNT SECURITY_COUNT DISCOVERY_COUNT]),
        Kind::Host => named!(all, "NBFT_HOST_", offsets::host, [STRUCTURE_ID FLAGS ID NQN]),
        Kind::Hfi => named!(all, "NBFT_HFI_", offsets::hfi, [STRUCTURE_ID INDEX FLAGS TRANSPORT_TYPE]),
        Kind::Ssns => named!(all, "NBFT_SSNS_", offsets::ssns, [
            STRUCTURE_ID INDEX FLAGS TRANSPORT_TYPE TRANSPORT_FLAGS DISCOVERY_INDEX ADDRESS SERVICE PORT_ID NSID
            NID_TYPE NID SECURITY_INDEX PRIMARY_HFI_INDEX SECONDARY_HFI_INDEXES NQN]),
        Kind::Security => named!(all, "NBFT_SECURITY_", offsets::security, [
            STRUCTURE_ID INDEX FLAGS SECRET_TYPE ALGORITHMS PROTOCOLS CIPHER_SUITES DH_GROUPS HASH_FUNCTIONS KEYPATH]),
        Kind::Discovery => named!(all, "NBFT_DISCOVERY_", offsets::discovery, [
            STRUCTURE_ID FLAGS INDEX HFI_INDEX SECURITY_INDEX ADDRESS NQN]),
        Kind::HfiInfo => named!(all, "NBFT_INFO_", offsets::info, [
            STRUCTURE_ID VERSION TRANSPORT_TYPE INFO_VERSION HFI_INDEX FLAGS PCI_ROUTING_ID MAC VLAN IP_ORIGIN
            IP_ADDRESS PREFIX GATEWAY ROUTE_METRIC PRIMARY_DNS SECONDARY_DNS DHCP_SERVER HOST_NAME]),
        Kind::SsnsExtended => named!(all, "NBFT_SSNS_EXTENDED_", offsets::ssns_extended, [
            STRUCTURE_ID VERSION SSNS_INDEX FLAGS CONTROLLER_ID ADMIN_QUEUE_SIZE ROOT_PATH]),
        Kind::HfiExtended => named!(all, "NBFT_HFI_EXTENDED_", offsets::hfi_extended, [
            STRUCTURE_ID VERSION HFI_INDEX FLAGS IAID DUID]),
    }
    all
}

fn unread() -> Vec<(&'static str, u64)> {
    let mut all = Vec::new();
    named!(all, "NBFT_", offsets::unread, [
        HEADER_SIGNATURE HEADER_LENGTH HEADER_MAJOR HEADER_CHECKSUM HEADER_HEAP_OFFSET HEADER_HEAP_LENGTH HEADER_MINOR
        HFI_TRANSPORT_INFO SSNS_EXTENDED_INFO INFO_EXTENDED_INFO]);
    all
}

fn all_flags() -> Vec<(&'static str, u64)> {
    let mut all = Vec::new();
    named!(all, "NBFT_HOST_FLAG_", flags::host, [VALID ID_CONFIGURED NQN_CONFIGURED PRIMARY_MASK PRIMARY_SHIFT]);
    named!(all, "NBFT_HFI_FLAG_", flags::hfi, [VALID]);
    named!(all, "NBFT_INFO_FLAG_", flags::info, [VALID GLOBAL_ROUTE DHCP_OVERRIDE AUTOCONFIGURED]);
    named!(all, "NBFT_HFI_EXTENDED_FLAG_", flags::hfi_extended, [VALID CLIENT_ID]);
    named!(all, "NBFT_SSNS_FLAG_", flags::ssns, [
        VALID NOT_BOOTABLE SECURITY ROOT_PATH EXTENDED_INFO SEPARATE_DISCOVERY DISCOVERED AVAILABILITY_MASK
        AVAILABILITY_SHIFT]);
    named!(all, "NBFT_SSNS_TRANSPORT_FLAG_", flags::ssns_transport, [IN_USE HEADER_DIGEST DATA_DIGEST]);
    named!(all, "NBFT_SSNS_EXTENDED_FLAG_", flags::ssns_extended, [VALID QUEUE_SIZE_SET]);
    named!(all, "NBFT_SECURITY_FLAG_", flags::security, [
        VALID IN_BAND_MASK IN_BAND_SHIFT PROTOCOLS_MASK PROTOCOLS_SHIFT CHANNEL_MASK CHANNEL_SHIFT ALGORITHMS_MASK
        ALGORITHMS_SHIFT CIPHER_SUITES DH_GROUPS HASH_FUNCTIONS]);
    named!(all, "NBFT_SECRET_FLAG_", flags::secret, [KEYPATH]);
    named!(all, "NBFT_DISCOVERY_FLAG_", flags::discovery, [VALID]);
    all
}

fn all_places() -> Vec<(&'static str, u64)> {
    let mut all = Vec::new();
    named!(all, "NBFT_HEADER_", "_PLACE", places::header, [DRIVER_SIGNATURE]);
    named!(all, "NBFT_HOST_", "_PLACE", places::host, [NQN]);
    named!(all, "NBFT_SSNS_", "_PLACE", places::ssns, [ADDRESS SERVICE SECONDARY_HFI_INDEXES NQN]);
    named!(all, "NBFT_SECURITY_", "_PLACE", places::security, [
        ALGORITHMS PROTOCOLS CIPHER_SUITES DH_GROUPS HASH_FUNCTIONS KEYPATH]);
    named!(all, "NBFT_DISCOVERY_", "_PLACE", places::discovery, [ADDRESS NQN]);
    named!(all, "NBFT_INFO_", "_PLACE", places::info, [HOST_NAME]);
    named!(all, "NBFT_SSNS_EXTENDED_", "_PLACE", places::ssns_extended, [ROOT_PATH]);
    named!(all, "NBFT_HFI_EXTENDED_", "_PLACE", places::hfi_extended, [IAID DUID]);
    all
}

/// What an enumerator is set to: a number, or one that is shifted.
fn value_in_c(written: &str) -> u64 {
    let mut factors = written.split("<<").map(|part| part.trim().parse::<u64>().expect("a number"));
    let number = factors.next().expect("a value");
    factors.next().map_or(number, |shift| number << shift)
}

/// The enumerators of the header whose enum has a tag that ends so.
fn enumerators(tag: &str) -> Vec<(&'static str, u64)> {
    let enums = HEADER.split("\nenum ").skip(1).filter_map(|text| text.split_once(" {\n"));
    let wanted = enums.filter(|(name, _)| name.ends_with(tag));
    let lines = wanted.flat_map(|(_, text)| text.split_once("\n};").expect("an end").0.lines());
    let bare = lines.map(|line| line.split("/*").next().unwrap_or_default().trim().trim_end_matches(','));
    bare.filter_map(|line| line.split_once(" = ")).map(|(name, written)| (name, value_in_c(written))).collect()
}

fn sorted(mut all: Vec<(&'static str, u64)>) -> Vec<(&'static str, u64)> {
    all.sort_unstable();
    all
}

#[test]
fn names_and_values_are_those_of_the_c_header() {
    let named = LAYOUTS.iter().flat_map(|layout| offsets_of(layout.kind)).chain(unread()).collect();
    assert_eq!(sorted(named), sorted(enumerators("_offset")));
    assert_eq!(sorted(all_flags()), sorted(enumerators("_flag")));
    assert_eq!(sorted(all_places()), sorted(enumerators("_place")));
}

/// A number of the header that is no enumerator.
fn defined(name: &str) -> usize {
    let lines = HEADER.lines().filter_map(|line| line.strip_prefix("#define ")?.split_once(' '));
    let (_, value) = lines.into_iter().find(|(defined, _)| *defined == name).expect("it is defined");
    value.split("/*").next().unwrap_or_default().trim().parse().expect("a number")
}

#[test]
fn sizes_are_those_of_the_c_header() {
    assert_eq!((Entry::BYTES, Entry::MOST), (defined("NBFT_ENTRY_BYTES"), defined("NBFT_MOST_ENTRIES")));
    assert_eq!(size_of::<Entry>(), Entry::BYTES);
}

/// Each object has its place, in the order of the references.
#[test]
fn places_are_those_of_the_objects() {
    let named = all_places();
    let mut found = 0;
    for layout in &LAYOUTS {
        let names = offsets_of(layout.kind);
        let name_at = |offset: &u32| names.iter().find(|(_, at)| *at == u64::from(*offset)).expect("it has a name").0;
        for (place, offset) in (0..).zip(layout.objects) {
            let wanted = format!("{}_PLACE", name_at(offset));
            assert!(named.iter().any(|(name, at)| *name == wanted && *at == place), "{wanted}");
            found += 1;
        }
    }
    assert_eq!(found, named.len());
}

/// What nbft_words of the C header returns for each number, and last for one without a name.
fn words_in_c() -> Vec<(u64, &'static str)> {
    let numbers = enumerators("nbft_number");
    let function = HEADER.split_once("*nbft_words(").expect("it is there").1.split_once("\n}").expect("an end").0;
    let number = |name: &str| numbers.iter().find(|(known, _)| *known == name).expect("a number").1;
    let cases = function.lines().filter_map(|line| {
        let (case, words) = line.trim().split_once(": return \"")?;
        let words = words.strip_suffix("\";")?;
        Some((case.strip_prefix("case ").map_or(u64::MAX, number), words))
    });
    cases.collect()
}

/// The same by the definition.
fn words_defined() -> Vec<(u64, &'static str)> {
    let lines = WORDS.split_once("meaning_of n =\n").expect("it is there").1.lines();
    let lines = lines.take_while(|line| !line.is_empty());
    let words = lines.map(|line| line.split('"').nth(1).expect("words"));
    let numbers = WORDS.split("eqb n ").skip(1).map(|text| text.split(')').next().and_then(|n| n.parse().ok()));
    numbers.map(|number| number.unwrap_or(u64::MAX)).take(21).chain([u64::MAX]).zip(words).collect()
}

#[test]
fn words_are_those_of_the_definition_in_c_and_in_rust() {
    let defined = words_defined();
    assert_eq!(words_in_c(), defined);
    let here = Number::ALL.iter().map(|number| (*number as u64, number.meaning()));
    let all: Vec<_> = [(0, "good")].into_iter().chain(here).chain([(u64::MAX, "a fault with no name")]).collect();
    assert_eq!(all, defined);
    let shown = Refusal { number: Number::Checksum, kind: Kind::Header, position: 0 };
    assert_eq!(shown.to_string(), Number::Checksum.meaning());
}

/// Every offset that is read has a name, and every name is read.
#[test]
fn offsets_are_those_that_the_library_reads() {
    for layout in &LAYOUTS {
        let (kind, position) = (layout.kind, u16::from(layout.kind as u8 > 2));
        let table = if kind == Kind::HfiExtended { DHCP } else { MACHINE };
        let is_read = |offset: &u32| {
            field(table, kind, position, *offset).is_ok() || object(table, kind, position, *offset).is_ok()
        };
        let named: Vec<u32> = offsets_of(kind).into_iter().map(|(_, offset)| offset as u32).collect();
        assert_eq!(named, (0..300).filter(is_read).collect::<Vec<_>>(), "{kind:?}");
    }
}

#[test]
fn a_machine_is_read_by_name() {
    assert_eq!(field(MACHINE, Kind::Header, 0, offsets::header::OEM_ID).unwrap().bytes(), b"VENDOR");
    assert_eq!(number(MACHINE, Kind::Ssns, 2, offsets::ssns::PRIMARY_HFI_INDEX), 2);
    assert_eq!(number(MACHINE, Kind::HfiInfo, 2, offsets::info::PCI_ROUTING_ID), 0x1C01);
    assert_eq!(number(MACHINE, Kind::SsnsExtended, 1, offsets::ssns_extended::ADMIN_QUEUE_SIZE), 32);
    assert_eq!(bytes(MACHINE, Kind::Ssns, 2, offsets::ssns::SERVICE), b"4420\0");
    assert_eq!(bytes(MACHINE, Kind::Discovery, 1, offsets::discovery::ADDRESS), b"nvme+tcp://192.168.101.40:8009/");
    let identity = flags::hfi_extended::VALID | flags::hfi_extended::CLIENT_ID;
    assert_eq!(number(DHCP, Kind::HfiExtended, 1, offsets::hfi_extended::FLAGS), u64::from(identity));
    let configured = flags::info::VALID | flags::info::AUTOCONFIGURED;
    assert_eq!(number(DHCP, Kind::HfiInfo, 2, offsets::info::FLAGS), u64::from(configured));
}

/// Reserved bits are dropped: what is left of all bits, with 2 for 3 in the field of two bits, has a name.
#[test]
fn flags_are_all_bits_that_count() {
    use flags::host::{ID_CONFIGURED, NQN_CONFIGURED, PRIMARY_MASK, PRIMARY_SHIFT, VALID};
    let mut record = [0; 32];
    record[offsets::host::FLAGS as usize] = !(1 << PRIMARY_SHIFT);
    let mut buffer = [0; 200];
    let mut builder = Builder::new(&mut buffer);
    builder.begin(&[0; 26], Counts::default(), b"").unwrap();
    builder.host(&Host { record: &record, nqn: b"n" }).unwrap();
    let kept = VALID | ID_CONFIGURED | NQN_CONFIGURED | 2 << PRIMARY_SHIFT;
    assert_eq!(number(builder.finish().unwrap(), Kind::Host, 0, offsets::host::FLAGS), u64::from(kept));
    assert_eq!(PRIMARY_MASK >> PRIMARY_SHIFT, 3);
}

fn with_identity(buffer: &mut [u8], flags: u8) -> Result<&mut [u8], Refusal> {
    let (mut info, mut extended) = ([0; 128], [0; 20]);
    info[offsets::info::INFO_VERSION as usize] = 2;
    info[offsets::info::IP_ORIGIN as usize] = 3;
    info[offsets::info::FLAGS as usize] = flags;
    extended[offsets::hfi_extended::FLAGS as usize] = flags::hfi_extended::CLIENT_ID as u8;
    let mut builder = Builder::new(buffer);
    builder.begin(&[0; 26], Counts { hfi: 1, ..Counts::default() }, b"")?;
    builder.host(&Host { record: &[0; 32], nqn: b"n" })?;
    let extended = Some(HfiExtended { record: &extended, iaid: b"iaid", duid: b"duid" });
    builder.hfi(&Hfi { record: &[0; 32], info: &info, name: b"", extended })?;
    builder.into_table()
}

/// It outlives its builder, and can be changed.
#[test]
fn a_table_is_handed_back_with_its_buffer() {
    let mut buffer = vec![0xA5; 1000];
    let table = with_identity(&mut buffer, flags::info::GLOBAL_ROUTE).unwrap();
    assert_eq!(bytes(table, Kind::HfiExtended, 1, offsets::hfi_extended::DUID), b"duid");
    let length = u32::from_le_bytes(table[offsets::unread::HEADER_LENGTH as usize..][..4].try_into().unwrap());
    assert_eq!(table.len(), length as usize);
    let mut map = vec![0; table.len().div_ceil(8)];
    assert_eq!(nbft::compact(table, &mut map), Ok(0));
    table[offsets::unread::HEADER_CHECKSUM as usize] ^= 1;
    assert_eq!(nbft::check(table).unwrap_err().number, Number::Checksum);
    let refusal = with_identity(&mut buffer, flags::info::AUTOCONFIGURED).unwrap_err();
    assert_eq!(refusal, Refusal { number: Number::HeapRecord, kind: Kind::Hfi, position: 1 });
    assert_eq!(Builder::new(&mut buffer).into_table().unwrap_err().number, Number::OutOfTurn);
}

/// Every object of every kind: six are text, the others are refused, and so is a table that is not good.
#[test]
fn a_text_is_read_with_its_terminator_too() {
    let mut texts = 0;
    for layout in &LAYOUTS {
        let (kind, position) = (layout.kind, u16::from(layout.kind as u8 > 2));
        let table = if kind == Kind::HfiExtended { DHCP } else { MACHINE };
        for &offset in layout.objects {
            match c_text(table, kind, position, offset) {
                Ok(text) => {
                    texts += 1;
                    assert_eq!(text.map(|text| text.to_bytes()), object(table, kind, position, offset).unwrap());
                }
                Err(refusal) => assert_eq!(refusal.number, Number::NoSuchField),
            }
        }
    }
    assert_eq!(texts, 6);
    let refusal = c_text(&MACHINE[1..], Kind::Header, 0, offsets::header::DRIVER_SIGNATURE).unwrap_err();
    assert_eq!(refusal.number, Number::Signature);
}
