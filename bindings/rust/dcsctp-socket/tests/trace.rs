//! The lines of packets that were made by hand, in `trace.txt`, which the test of `examples/c/trace.c` reads, too; and
//! those of any bytes.
//!
//! TRACE_ROWS names a file in the form of `trace.txt`: packets with the lines that C has written.

use dcsctp_socket::trace::{trace_line, trace_packet, Direction};
use std::time::Duration;

const ROWS: &str = include_str!("trace.txt");

struct Row {
    name: String,
    direction: Direction,
    moment: Duration,
    packet: Vec<u8>,
    line: String,
}

fn bytes_of(hex: &str) -> Vec<u8> {
    let digits: Vec<u8> =
        hex.chars().filter(|it| *it != ' ').map(|it| it.to_digit(16).unwrap() as u8).collect();
    assert!(digits.len() % 2 == 0, "{hex}");
    digits.chunks(2).map(|it| it[0] << 4 | it[1]).collect()
}

fn row_of(lines: &[&str]) -> Row {
    let mut words = lines[1].splitn(3, ' ');
    let direction = match words.next() {
        Some("sent") => Direction::Sent,
        Some("received") => Direction::Received,
        other => panic!("{other:?}"),
    };
    Row {
        name: lines[0].to_string(),
        direction,
        moment: Duration::from_nanos(words.next().unwrap().parse().unwrap()),
        packet: bytes_of(words.next().unwrap_or("")),
        line: lines[2].to_string(),
    }
}

fn rows_of(text: &str) -> Vec<Row> {
    let lines: Vec<&str> =
        text.lines().filter(|it| !it.is_empty() && !it.starts_with('#')).collect();
    assert!(lines.len() > 150 && lines.len() % 3 == 0, "{} lines", lines.len());
    lines.chunks(3).map(row_of).collect()
}

fn check(rows: &[Row]) {
    for row in rows {
        let line = trace_line(row.direction, row.moment, &row.packet);
        assert_eq!(line, row.line, "{}: {:02x?}", row.name, row.packet);
        assert!(line.ends_with(&format!(" {}", trace_packet(&row.packet))), "{}", row.name);
    }
}

#[test]
fn lines_are_those_of_the_file() {
    check(&rows_of(ROWS));
}

#[test]
#[ignore = "it needs lines that C has written: make check-rust"]
fn lines_are_those_that_c_has_written() {
    let path = std::env::var("TRACE_ROWS").unwrap();
    check(&rows_of(&std::fs::read_to_string(path).unwrap()));
}

#[test]
fn moment_that_c_has_no_number_for_is_exact() {
    let line = trace_line(Direction::Sent, Duration::MAX, &[]);
    assert_eq!(line, "18446744073709551615.999999999 sent malformed: 0 bytes");
}

/// Each packet of the file, cut anywhere, and with another value of any byte: small ones, as those of lengths and types
/// are, and large ones.
#[test]
fn any_bytes_are_a_line() {
    let is_line = |packet: &[u8]| {
        let text = trace_packet(packet);
        assert!(text.bytes().all(|it| (b' '..=b'~').contains(&it)), "{packet:02x?}");
    };
    for row in rows_of(ROWS) {
        for length in 0..row.packet.len() {
            is_line(&row.packet[..length]);
            let mut changed = row.packet.clone();
            for value in (0..=16).chain([0x40, 0x80, 0x82, 0xc0, 0xc1, 0xff]) {
                changed[length] = value;
                is_line(&changed);
            }
        }
    }
}
