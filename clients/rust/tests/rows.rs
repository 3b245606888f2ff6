//! Refusals of the calls against tests/clients/hints/rows, which has what the program says, from the root of the repository.
use std::{fs, str};
use toxicap::{rehearse, reports};

fn byte(digits: &[u8]) -> u8 {
    u8::from_str_radix(str::from_utf8(digits).unwrap(), 16).unwrap()
}

/// The bytes of a cell of hosts or scenarios.
fn cell(text: &str) -> Vec<u8> {
    let (mut rest, mut bytes) = (text.as_bytes(), Vec::new());
    while let [first, after @ ..] = rest {
        let (found, next) = match (first, after) {
            (b'\\', [b'n', next @ ..]) => (b'\n', next),
            (b'\\', [b't', next @ ..]) => (b'\t', next),
            (b'\\', [b'x', high, low, next @ ..]) => (byte(&[*high, *low]), next),
            (b'\\', [other, next @ ..]) => (*other, next),
            (first, after) => (*first, after),
        };
        bytes.push(found);
        rest = next;
    }
    bytes
}

#[test]
fn calls() {
    let rows = include_str!("../../../tests/clients/hints/rows").lines();
    let rows: Vec<&str> = rows.filter(|row| row.starts_with("refused ")).collect();
    assert!(rows.len() > 80);
    for row in rows {
        let cells: Vec<&str> = row.split('\t').collect();
        let capture = match cells[3] {
            name if name.ends_with(".pcap") => fs::read(format!("samples/{name}")).unwrap(),
            digits => digits.as_bytes().chunks(2).map(byte).collect(),
        };
        // a call takes texts in UTF-8 only
        let Ok(mut scenarios) = cells[5..].iter().map(|text| String::from_utf8(cell(text))).collect::<Result<Vec<_>, _>>() else { continue };
        let hosts = String::from_utf8(cell(cells[4])).unwrap();
        if scenarios.is_empty() {
            scenarios.push("[]".to_string());
        }
        let scenarios: Vec<&str> = scenarios.iter().map(|text| &**text).collect();
        let refusals = [rehearse(&capture, &scenarios, &hosts, 0).unwrap_err(), reports(&capture, &scenarios, &hosts, 0).unwrap_err()];
        for refusal in refusals {
            assert_eq!((&*refusal.line(), &*refusal.hint), (cells[0], cells[1]));
            assert_eq!(refusal.to_string(), format!("{}: {}", cells[0], cells[1]));
        }
    }
}
