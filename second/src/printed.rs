//! Values as nvme-cli prints them.

use crate::json::hex;
use std::net::{Ipv4Addr, Ipv6Addr};

/// An address of 16 bytes: a dotted quad where IPv4 is mapped, else groups.
pub fn address(bytes: &[u8; 16]) -> String {
    let address = Ipv6Addr::from(*bytes);
    match address.to_ipv4_mapped() {
        Some(mapped) => mapped.to_string(),
        None => groups(address),
    }
}

/// As the C library's `inet_ntop` has them, which is RFC 5952 but for one
/// case: behind exactly six zero groups the last two are a dotted quad.
fn groups(address: Ipv6Addr) -> String {
    let [.., a, b, c, d] = address.octets();
    let segments = address.segments();
    if segments[..6] == [0; 6] && segments[6] != 0 {
        format!("::{}", Ipv4Addr::new(a, b, c, d))
    } else {
        address.to_string()
    }
}

/// Bus, device and function, with no zeros in front. The segment is always
/// 0: nvme-cli hands the routing ID on in 16 bits.
pub fn pci(routing: u32) -> String {
    let [bus, device, function] = pci_parts(routing);
    format!("0:{bus:x}:{device:x}.{function:x}")
}

/// The same with the segment, and as many digits as there can be.
pub fn pci_with_segment(routing: u32) -> String {
    let [bus, device, function] = pci_parts(routing);
    let segment = routing >> 16;
    format!("{segment:04x}:{bus:02x}:{device:02x}.{function:x}")
}

fn pci_parts(routing: u32) -> [u32; 3] {
    [routing >> 8 & 0xFF, routing >> 3 & 0x1F, routing & 7]
}

/// A number of 32 bits, of which nvme-cli takes the upper half as negative.
pub fn signed(number: u32) -> i64 {
    i64::from(number as i32)
}

pub fn mac(bytes: &[u8; 6]) -> String {
    let pairs: Vec<String> = bytes.iter().map(|byte| hex(&[*byte])).collect();
    pairs.join(":")
}

/// The bytes in their order, with no part turned round.
pub fn uuid(bytes: &[u8; 16]) -> String {
    let parts = [0..4, 4..6, 6..8, 8..10, 10..16];
    parts.map(|part| hex(&bytes[part])).join("-")
}
