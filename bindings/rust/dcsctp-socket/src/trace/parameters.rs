//! Parameters (RFC 9260, section 3.3; RFC 3758, 4820, 4895, 5061, 6525 and 9653), and the causes of ERROR and ABORT
//! (RFC 9260, section 3.3.10).

use super::chunks;
use super::items::{
    after, length_if_any, nothing, put_all, put_numbers, put_rest, reason, streams, take, u16_at,
    u32_at, u8_at, Kind, Kinds,
};
use std::fmt::{self, Formatter, Write};

// ---- Parameters -------------------------------------------------------------------------------

static PARAMETERS: Kinds = Kinds(&[
    Kind(1, "Heartbeat Info", 4, &[], length_if_any),
    Kind(5, "IPv4 Address", 8, &[], length_if_any),
    Kind(6, "IPv6 Address", 20, &[], length_if_any),
    Kind(7, "State Cookie", 4, &[], length_if_any),
    Kind(8, "Unrecognized Parameter", 8, &[], unrecognized),
    Kind(9, "Cookie Preservative", 8, &[("milliseconds", 4)], nothing),
    Kind(11, "Host Name Address", 4, &[], length_if_any),
    Kind(12, "Supported Address Types", 4, &[], types),
    Kind(13, "Outgoing SSN Reset Request", 16, OUTGOING_RESET, streams),
    Kind(14, "Incoming SSN Reset Request", 8, &[("request", 4)], streams),
    Kind(15, "SSN/TSN Reset Request", 8, &[("request", 4)], nothing),
    Kind(16, "Re-configuration Response", 12, &[("response", 4), ("result", 4)], result),
    Kind(17, "Add Outgoing Streams Request", 12, ADD_STREAMS, nothing),
    Kind(18, "Add Incoming Streams Request", 12, ADD_STREAMS, nothing),
    Kind(0x8000, "ECN Capable", 4, &[], length_if_any),
    Kind(0x8001, "Zero Checksum Acceptable", 8, &[("method", 4)], nothing),
    Kind(0x8002, "Random", 4, &[], length_if_any),
    Kind(0x8003, "Chunk List", 4, &[], extensions),
    Kind(0x8004, "Requested HMAC Algorithm", 4, &[], length_if_any),
    Kind(0x8005, "Padding", 4, &[], length_if_any),
    Kind(0x8008, "Supported Extensions", 4, &[], extensions),
    Kind(0xc000, "Forward-TSN-Supported", 4, &[], length_if_any),
    Kind(0xc006, "Adaptation Layer Indication", 8, &[], length_if_any),
]);

/// RFC 6525, sections 4.1, 4.5 and 4.6.
const OUTGOING_RESET: &[(&str, usize)] = &[("request", 4), ("response", 4), ("last-tsn", 4)];
const ADD_STREAMS: &[(&str, usize)] = &[("request", 4), ("new-streams", 2)];

fn name_of(number: u32) -> String {
    PARAMETERS.name_of(number).map_or_else(|| format!("parameter {number:#06x}"), String::from)
}

/// Writes parameters, each in brackets.
pub(super) fn parameters(to: &mut Formatter, chunk: &[u8], at: usize) -> fmt::Result {
    let mut rest = after(chunk, at);
    while let Some(item) = take(&mut rest) {
        let number = u16_at(item, 0);
        write!(to, " [{}", name_of(number))?;
        PARAMETERS.put_fields(to, number, item)?;
        to.write_char(']')?;
    }
    put_rest(to, rest)
}

/// A parameter that the peer doesn't know, by name alone: it may have another in it, and so on.
fn unrecognized(to: &mut Formatter, item: &[u8], at: usize) -> fmt::Result {
    write!(to, ": {}", name_of(u16_at(item, at)))
}

fn types(to: &mut Formatter, item: &[u8], at: usize) -> fmt::Result {
    put_numbers(to, " types=", after(item, at))
}

/// Chunk types (RFC 5061, section 4.2.7).
fn extensions(to: &mut Formatter, item: &[u8], at: usize) -> fmt::Result {
    put_all(to, " ", ", ", after(item, at).iter().map(|it| chunks::name_of(u32::from(*it))))
}

/// RFC 6525, section 4.4.
fn result(to: &mut Formatter, item: &[u8], _: usize) -> fmt::Result {
    const RESULTS: [&str; 7] = [
        "Success - Nothing to do",
        "Success - Performed",
        "Denied",
        "Error - Wrong SSN",
        "Error - Request already in progress",
        "Error - Bad Sequence Number",
        "In progress",
    ];
    let [result, sender, receiver] = [8, 12, 16].map(|at| u32_at(item, at));
    if let Some(name) = RESULTS.get(result as usize) {
        write!(to, " ({name})")?;
    }
    if item.len() >= 20 {
        write!(to, " sender-next-tsn={sender} receiver-next-tsn={receiver}")?;
    }
    Ok(())
}

// ---- Causes -----------------------------------------------------------------------------------

static CAUSES: Kinds = Kinds(&[
    Kind(1, "Invalid Stream Identifier", 8, &[("stream", 2)], nothing),
    Kind(2, "Missing Mandatory Parameter", 8, &[], missing),
    Kind(3, "Stale Cookie", 8, &[("microseconds", 4)], nothing),
    Kind(4, "Out of Resource", 4, &[], length_if_any),
    Kind(5, "Unresolvable Address", 4, &[], all_by_name),
    Kind(6, "Unrecognized Chunk Type", 8, &[], unrecognized_chunk),
    Kind(7, "Invalid Mandatory Parameter", 4, &[], length_if_any),
    Kind(8, "Unrecognized Parameters", 4, &[], all_by_name),
    Kind(9, "No User Data", 8, &[("tsn", 4)], nothing),
    Kind(10, "Cookie Received While Shutting Down", 4, &[], length_if_any),
    Kind(11, "Restart of an Association with New Addresses", 4, &[], all_by_name),
    Kind(12, "User-Initiated Abort", 4, &[], reason),
    Kind(13, "Protocol Violation", 4, &[], reason),
]);

/// Writes causes, each in brackets.
pub(super) fn causes(to: &mut Formatter, chunk: &[u8], at: usize) -> fmt::Result {
    let mut rest = after(chunk, at);
    while let Some(item) = take(&mut rest) {
        let number = u16_at(item, 0);
        match CAUSES.name_of(number) {
            Some(name) => write!(to, " [{name}")?,
            None => write!(to, " [cause {number:#06x}")?,
        }
        CAUSES.put_fields(to, number, item)?;
        to.write_char(']')?;
    }
    put_rest(to, rest)
}

fn missing(to: &mut Formatter, item: &[u8], _: usize) -> fmt::Result {
    let (count, numbers) = (u32_at(item, 4), after(item, 8).chunks_exact(2));
    put_all(to, ": ", ", ", numbers.clone().map(|it| name_of(u16_at(it, 0))))?;
    if count as usize != numbers.len() {
        write!(to, " malformed: their number is {count}")?;
    }
    Ok(())
}

fn unrecognized_chunk(to: &mut Formatter, item: &[u8], at: usize) -> fmt::Result {
    write!(to, ": {}", chunks::name_of(u8_at(item, at)))
}

/// Parameters, by name alone.
fn all_by_name(to: &mut Formatter, item: &[u8], at: usize) -> fmt::Result {
    let mut rest = after(item, at);
    let items = std::iter::from_fn(|| take(&mut rest));
    put_all(to, ": ", ", ", items.map(|it| name_of(u16_at(it, 0))))?;
    put_rest(to, rest)
}
