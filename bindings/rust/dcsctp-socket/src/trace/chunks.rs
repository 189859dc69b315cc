//! Chunks (RFC 9260, section 3.3; RFC 3758, 4820, 4895, 5061, 6525 and 8260).

use super::items::{
    after, length, length_if_any, nothing, put_all, u16_at, u32_at, u8_at, Kind, Kinds,
};
use super::parameters::{causes, parameters};
use std::fmt::{self, Formatter};

pub(super) static CHUNKS: Kinds = Kinds(&[
    Kind(0, "DATA", 16, &[("tsn", 4), ("stream", 2), ("ssn", 2), ("ppid", 4)], length),
    Kind(1, "INIT", 20, INIT, parameters),
    Kind(2, "INIT ACK", 20, INIT, parameters),
    Kind(3, "SACK", 16, &[("cumulative", 4), ("window", 4)], gaps),
    Kind(4, "HEARTBEAT", 4, &[], parameters),
    Kind(5, "HEARTBEAT ACK", 4, &[], parameters),
    Kind(6, "ABORT", 4, &[], causes),
    Kind(7, "SHUTDOWN", 8, &[("cumulative", 4)], nothing),
    Kind(8, "SHUTDOWN ACK", 4, &[], length_if_any),
    Kind(9, "ERROR", 4, &[], causes),
    Kind(10, "COOKIE ECHO", 4, &[], length_if_any),
    Kind(11, "COOKIE ACK", 4, &[], length_if_any),
    Kind(12, "ECNE", 4, &[], length_if_any),
    Kind(13, "CWR", 4, &[], length_if_any),
    Kind(14, "SHUTDOWN COMPLETE", 4, &[], length_if_any),
    Kind(15, "AUTH", 4, &[], length_if_any),
    Kind(64, "I-DATA", 20, &[("tsn", 4), ("stream", 2)], i_data),
    Kind(128, "ASCONF-ACK", 4, &[], length_if_any),
    Kind(130, "RE-CONFIG", 4, &[], parameters),
    Kind(132, "PAD", 4, &[], length_if_any),
    Kind(192, "FORWARD-TSN", 8, &[("cumulative", 4)], skipped),
    Kind(193, "ASCONF", 4, &[], length_if_any),
    Kind(194, "I-FORWARD-TSN", 8, &[("cumulative", 4)], i_skipped),
]);

const INIT: &[(&str, usize)] = &[("tag", 4), ("window", 4), ("out", 2), ("in", 2), ("tsn", 4)];

pub(super) fn name_of(number: u32) -> String {
    CHUNKS.name_of(number).map_or_else(|| format!("chunk {number}"), String::from)
}

/// The letters of a chunk's flags, from bit 0 on.
pub(super) fn letters_of(number: u32) -> &'static str {
    match number {
        0 | 64 => "EBUI",
        6 | 14 => "T",
        _ => "",
    }
}

/// RFC 8260, section 2.1. The first part of a message has a PPID, and the others have a number.
fn i_data(to: &mut Formatter, chunk: &[u8], _: usize) -> fmt::Result {
    let name = if u8_at(chunk, 1) & 2 == 2 { "ppid" } else { "fsn" };
    write!(to, " mid={} {name}={}", u32_at(chunk, 12), u32_at(chunk, 16))?;
    length(to, chunk, 20)
}

/// RFC 9260, section 3.3.4.
fn gaps(to: &mut Formatter, chunk: &[u8], _: usize) -> fmt::Result {
    let [gaps, duplicates] = [12, 14].map(|at| u16_at(chunk, at) as usize);
    let (cumulative, rest) = (u32_at(chunk, 4), after(chunk, 16));
    let mut words = rest.chunks_exact(4);
    put_all(to, " gaps=", ",", words.by_ref().take(gaps).map(|it| gap_of(cumulative, it)))?;
    put_all(to, " duplicates=", ",", words.take(duplicates).map(|it| u32_at(it, 0)))?;
    if rest.len() != 4 * (gaps + duplicates) {
        let length = rest.len();
        write!(to, " malformed: {gaps} gaps and {duplicates} duplicates in {length} bytes")?;
    }
    Ok(())
}

/// The TSNs of a gap block, which counts from the cumulative TSN.
fn gap_of(cumulative: u32, block: &[u8]) -> String {
    let [first, last] = [0, 2].map(|at| cumulative.wrapping_add(u16_at(block, at)));
    if first == last {
        first.to_string()
    } else {
        format!("{first}-{last}")
    }
}

/// RFC 3758, section 3.2.
fn skipped(to: &mut Formatter, chunk: &[u8], at: usize) -> fmt::Result {
    let text_of = |it: &[u8]| format!("{}:{}", u16_at(it, 0), u16_at(it, 2));
    put_streams(to, after(chunk, at), 4, text_of)
}

/// RFC 8260, section 2.3.1.
fn i_skipped(to: &mut Formatter, chunk: &[u8], at: usize) -> fmt::Result {
    let text_of = |it: &[u8]| {
        let unordered = if u8_at(it, 3) & 1 == 1 { "U" } else { "" };
        format!("{}:{}{unordered}", u16_at(it, 0), u32_at(it, 4))
    };
    put_streams(to, after(chunk, at), 8, text_of)
}

/// Streams, of so many bytes each.
fn put_streams(
    to: &mut Formatter,
    bytes: &[u8],
    size: usize,
    text_of: fn(&[u8]) -> String,
) -> fmt::Result {
    put_all(to, " streams=", ",", bytes.chunks_exact(size).map(text_of))?;
    if bytes.len() % size > 0 {
        write!(to, " malformed: {} bytes left", bytes.len() % size)?;
    }
    Ok(())
}
