//! What `nbft_show --json` and `second json` print is JSON as the standard (RFC 8259) has it: read by a parser that takes
//! nothing else.

use second::generate::random_meaning;
use second::layout::{lay_out_freely, with_tail, Style};
use second::random::Random;
use second::show;
use second::vectors::vectors;
use std::fs;
use std::path::Path;

/// The rest behind a value, or where it goes wrong.
type Rest<'a> = Result<&'a [u8], String>;

fn wrong<'a>(text: &[u8]) -> Rest<'a> {
    let near: Vec<u8> = text.iter().take(40).copied().collect();
    Err(format!("no JSON at: {}", String::from_utf8_lossy(&near)))
}

fn blanks(text: &[u8]) -> &[u8] {
    let past = text
        .iter()
        .take_while(|byte| b" \t\r\n".contains(byte))
        .count();
    &text[past..]
}

fn value(text: &[u8]) -> Rest<'_> {
    match text.first() {
        Some(b'{') => many(&text[1..], b'}', member),
        Some(b'[') => many(&text[1..], b']', |text| value(blanks(text))),
        Some(b'"') => string(text),
        Some(b'-' | b'0'..=b'9') => number(text),
        _ => ["true", "false", "null"]
            .iter()
            .find_map(|word| text.strip_prefix(word.as_bytes()))
            .map_or_else(|| wrong(text), Ok),
    }
}

/// None, or some with commas between and none behind the last, up to the end.
fn many<'a>(text: &'a [u8], end: u8, one: impl Fn(&'a [u8]) -> Rest<'a>) -> Rest<'a> {
    let mut text = blanks(text);
    if text.first() == Some(&end) {
        return Ok(&text[1..]);
    }
    loop {
        text = blanks(one(text)?);
        match text.first() {
            Some(b',') => text = blanks(&text[1..]),
            Some(byte) if *byte == end => return Ok(&text[1..]),
            _ => return wrong(text),
        }
    }
}

fn member(text: &[u8]) -> Rest<'_> {
    match blanks(string(text)?) {
        [b':', rest @ ..] => value(blanks(rest)),
        rest => wrong(rest),
    }
}

fn string(text: &[u8]) -> Rest<'_> {
    let [b'"', inside @ ..] = text else {
        return wrong(text);
    };
    let mut rest = inside;
    loop {
        rest = match rest {
            [b'"', rest @ ..] => return Ok(rest),
            [b'\\', b'"' | b'\\' | b'/' | b'b' | b'f' | b'n' | b'r' | b't', rest @ ..] => rest,
            [b'\\', b'u', a, b, c, d, rest @ ..]
                if [a, b, c, d].iter().all(|digit| digit.is_ascii_hexdigit()) =>
            {
                rest
            }
            [0x20..=0x21 | 0x23..=0x5B | 0x5D..=0x7E, rest @ ..] => rest,
            _ => return wrong(rest),
        }
    }
}

/// Whole numbers without zeros in front; no other is printed.
fn number(text: &[u8]) -> Rest<'_> {
    let text = text.strip_prefix(b"-").unwrap_or(text);
    let digits = text.iter().take_while(|byte| byte.is_ascii_digit()).count();
    if digits == 0 || (digits > 1 && text[0] == b'0') {
        return wrong(text);
    }
    Ok(&text[digits..])
}

fn whole(text: &[u8]) -> Result<(), String> {
    match blanks(value(blanks(text))?) {
        [] => Ok(()),
        rest => wrong(rest).map(|_| ()),
    }
}

/// What examples of a document print as JSON, each with its lines joined.
/// One that leaves lines out, or hands them to another program, is no JSON.
fn examples(document: &str) -> Vec<String> {
    let mut found: Vec<Vec<&str>> = Vec::new();
    let mut is_inside = false;
    for line in document.lines() {
        let example = line.strip_prefix("    ");
        if let Some(command) = example.and_then(|line| line.strip_prefix("$ ")) {
            is_inside = command.contains("nbft_show --json") && !command.contains('|');
            if is_inside {
                found.push(Vec::new());
            }
        } else if let (true, Some(line)) = (is_inside, example) {
            found.last_mut().expect("its command").push(line);
        } else {
            is_inside = false;
        }
    }
    let is_json =
        |lines: &Vec<&str>| matches!(lines.first(), Some(line) if line.starts_with(['[', '{']));
    found.retain(|lines| is_json(lines) && !lines.contains(&"..."));
    found.iter().map(|lines| lines.join("\n")).collect()
}

#[test]
fn what_is_shown_is_json() {
    let mut count = 0;
    for name in ["README.md", "docs/SAMPLES.md"] {
        let file = Path::new(env!("CARGO_MANIFEST_DIR")).join("..").join(name);
        let document = fs::read_to_string(file).expect("what the program is expected to print");
        for printed in examples(&document) {
            whole(printed.as_bytes()).unwrap();
            count += 1;
        }
    }
    assert!(count > 0);
}

/// Whether the table is good or refused, and whatever bytes stand in it.
#[test]
fn what_the_second_program_shows_is_json() {
    for vector in vectors() {
        whole(
            show(b"a \"name\"\x07\xFF", &vector.table)
                .to_string()
                .as_bytes(),
        )
        .unwrap();
    }
    let mut random = Random::seeded(21);
    for _ in 0..300 {
        let told = random_meaning(&mut random);
        let table = lay_out_freely(&mut random, &told, Style::WILD);
        let table = with_tail(&mut random, table);
        whole(show(b"NBFT", &table).to_string().as_bytes()).unwrap();
    }
}

#[test]
fn the_parser_is_strict() {
    for good in [
        "{}",
        "[1, 2]",
        "{\"a\":[true,null,\"\\u00ff\\\"\"]}",
        " 0 ",
        "-10",
    ] {
        assert_eq!(whole(good.as_bytes()), Ok(()), "{good}");
    }
    for bad in [
        "",
        "[1,]",
        "{\"a\" 1}",
        "{a:1}",
        "\"\\x00\"",
        "\"\u{7}\"",
        "01",
        "[1] 2",
        "'a'",
        "\"a",
        "-",
        "-01",
    ] {
        assert!(whole(bad.as_bytes()).is_err(), "{bad}");
    }
}
