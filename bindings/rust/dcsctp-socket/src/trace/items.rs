//! Chunks, parameters and causes are items: each has a header with its length, fields of fixed sizes, and a rest.

use std::fmt::{self, Display, Formatter, Write};

// ---- Bytes ------------------------------------------------------------------------------------

/// The number in so many bytes. Past the end there are none: no read panics.
fn read(bytes: &[u8], at: usize, size: usize) -> u32 {
    after(bytes, at).iter().take(size).fold(0, |sum, byte| sum << 8 | u32::from(*byte))
}

pub(super) fn u8_at(bytes: &[u8], at: usize) -> u32 {
    read(bytes, at, 1)
}

pub(super) fn u16_at(bytes: &[u8], at: usize) -> u32 {
    read(bytes, at, 2)
}

pub(super) fn u32_at(bytes: &[u8], at: usize) -> u32 {
    read(bytes, at, 4)
}

/// The bytes after the first `count`.
pub(super) fn after(bytes: &[u8], count: usize) -> &[u8] {
    bytes.get(count..).unwrap_or_default()
}

/// Bytes of a header: all items have their length in its last two.
pub(super) const HEAD: usize = 4;

/// Takes the next item and its padding. `None`: there is none, or what is left is shorter than a header, or than the
/// length in it.
pub(super) fn take<'a>(rest: &mut &'a [u8]) -> Option<&'a [u8]> {
    let length = u16_at(rest, 2) as usize;
    let item = rest.get(..length).filter(|item| item.len() >= HEAD)?;
    *rest = after(rest, length.next_multiple_of(4));
    Some(item)
}

// ---- Kinds ------------------------------------------------------------------------------------

/// A kind of item: its number, its name, its least length, its fields after the header, each with a name and a size in
/// bytes, and what writes the rest.
pub(super) struct Kind(
    pub(super) u32,
    pub(super) &'static str,
    pub(super) usize,
    pub(super) &'static [(&'static str, usize)],
    pub(super) Rest,
);

/// Writes what comes after the fields. It gets the item, and where its fields end.
pub(super) type Rest = fn(&mut Formatter, &[u8], usize) -> fmt::Result;

/// All kinds of chunk, of parameter, or of cause.
pub(super) struct Kinds(pub(super) &'static [Kind]);

impl Kinds {
    fn find(&self, number: u32) -> Option<&Kind> {
        self.0.iter().find(|kind| kind.0 == number)
    }

    pub(super) fn name_of(&self, number: u32) -> Option<&'static str> {
        self.find(number).map(|kind| kind.1)
    }

    /// Writes the fields of an item, or how long it is if it has none.
    pub(super) fn put_fields(&self, to: &mut Formatter, number: u32, item: &[u8]) -> fmt::Result {
        let Some(Kind(_, _, least, fields, rest)) = self.find(number) else {
            return length_if_any(to, item, HEAD);
        };
        if item.len() < *least {
            let length = item.len();
            return write!(to, " malformed: length field is {length}, not {least} or more");
        }
        let mut at = HEAD;
        for (name, size) in *fields {
            put_field(to, name, read(item, at, *size))?;
            at += size;
        }
        rest(to, item, at)
    }
}

/// Writes a field. Verification tags are hexadecimal.
fn put_field(to: &mut Formatter, name: &str, value: u32) -> fmt::Result {
    match name {
        "tag" => write!(to, " tag={value:#010x}"),
        _ => write!(to, " {name}={value}"),
    }
}

// ---- What comes after the fields --------------------------------------------------------------

pub(super) fn nothing(_: &mut Formatter, _: &[u8], _: usize) -> fmt::Result {
    Ok(())
}

pub(super) fn length(to: &mut Formatter, item: &[u8], at: usize) -> fmt::Result {
    write!(to, " length={}", after(item, at).len())
}

pub(super) fn length_if_any(to: &mut Formatter, item: &[u8], at: usize) -> fmt::Result {
    if item.len() > at {
        length(to, item, at)?;
    }
    Ok(())
}

pub(super) fn streams(to: &mut Formatter, item: &[u8], at: usize) -> fmt::Result {
    put_numbers(to, " streams=", after(item, at))
}

/// Writes numbers of two bytes after a text.
pub(super) fn put_numbers(to: &mut Formatter, first: &str, bytes: &[u8]) -> fmt::Result {
    put_all(to, first, ",", bytes.chunks_exact(2).map(|it| u16_at(it, 0)))?;
    if bytes.len() % 2 == 1 {
        to.write_str(" malformed: 1 byte left")?;
    }
    Ok(())
}

/// Writes all values, with `first` before the first and `between` before each other one.
pub(super) fn put_all<T: Display>(
    to: &mut Formatter,
    first: &str,
    between: &str,
    values: impl Iterator<Item = T>,
) -> fmt::Result {
    let mut before = first;
    for value in values {
        write!(to, "{before}{value}")?;
        before = between;
    }
    Ok(())
}

/// A text of the peer's, in quotes.
pub(super) fn reason(to: &mut Formatter, item: &[u8], at: usize) -> fmt::Result {
    if item.len() == at {
        return Ok(());
    }
    to.write_str(" \"")?;
    for byte in after(item, at) {
        match byte {
            b'"' | b'\\' | ..=0x1f | 0x7f.. => write!(to, "\\x{byte:02x}")?,
            _ => to.write_char(char::from(*byte))?,
        }
    }
    to.write_str("\"")
}

/// Writes what is left where no item could be taken.
pub(super) fn put_rest(to: &mut Formatter, rest: &[u8]) -> fmt::Result {
    let (length, left) = (u16_at(rest, 2) as usize, rest.len());
    match left {
        0 => Ok(()),
        1..HEAD => write!(to, " malformed: {left} bytes left"),
        _ if length < HEAD => write!(to, " malformed: length field is {length}"),
        _ => write!(to, " malformed: length field is {length}, with {left} bytes left"),
    }
}
