//! Rewrites.

mod common;

use common::{form, image, summed, MACHINE, SAMPLES, SMALLEST};
use nbft::{check, object, rewrite, Kind, Number};

#[test]
fn a_form_is_good_and_rewrites_to_itself() {
    for table in SAMPLES {
        let once = form(table);
        assert_eq!(check(&once), Ok(()));
        assert_eq!(form(&once), once);
    }
}

#[test]
fn a_form_says_what_the_table_says() {
    let once = form(MACHINE);
    assert_eq!(image::<128>(&once, Kind::Ssns, 2), image::<128>(MACHINE, Kind::Ssns, 2));
    assert_eq!(common::bytes(&once, Kind::Header, 0, 44), common::bytes(MACHINE, Kind::Header, 0, 44));
}

#[test]
fn reserved_bytes_are_no_part_of_the_form() {
    let mut table = SMALLEST.to_vec();
    table[152] = 5;
    let table = summed(table);
    assert_eq!(check(&table), Ok(()));
    assert_ne!(table, SMALLEST);
    assert_eq!(form(&table), form(SMALLEST));
}

/// K7, whose host NQN is one zero byte.
#[test]
fn an_empty_text_stays_one() {
    let mut table = SMALLEST.to_vec();
    (table[146], table[150]) = (161, 1);
    let once = form(&summed(table));
    assert_eq!(once.len(), 161);
    assert_eq!(object(&once, Kind::Host, 0, 18), Ok(Some(&b""[..])));
}

#[test]
fn bytes_behind_the_form_stay() {
    let mut out = vec![0xA5; 200];
    let length = rewrite(SMALLEST, &mut out).unwrap().len();
    assert_eq!(length, 162);
    assert!(out[length..].iter().all(|byte| *byte == 0xA5));
}

#[test]
fn an_output_that_is_too_short_is_refused_and_stays() {
    let length = form(MACHINE).len();
    for room in [0, 1, length - 1] {
        let mut out = vec![0xA5; room];
        let refusal = rewrite(MACHINE, &mut out).unwrap_err();
        assert_eq!((refusal.number, refusal.number as u8), (Number::OutputTooShort, 14));
        assert!(out.iter().all(|byte| *byte == 0xA5));
    }
    assert!(rewrite(MACHINE, &mut vec![0; length]).is_ok());
}

#[test]
fn a_table_that_is_refused_leaves_the_output() {
    let mut table = MACHINE.to_vec();
    table[1000] ^= 1;
    let mut out = vec![0xA5; 2000];
    assert_eq!(rewrite(&table, &mut out).map(|_| ()), check(&table));
    assert_eq!(check(&table).unwrap_err().number, Number::Checksum);
    assert!(out.iter().all(|byte| *byte == 0xA5));
}
