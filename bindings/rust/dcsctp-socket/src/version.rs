//! The version of the library, and its seed.

use crate::Version;
use dcsctp_sys as sys;
use std::fs::File;
use std::io::{self, Read};

/// The version of the linked library. `Socket::new` fails if it isn't the version of these crates.
pub fn version() -> Version {
    // SAFETY: it has no premise.
    Version::of(unsafe { sys::dcsctp_version() })
}

/// Whether the library has the version of these crates, with or without proofs.
pub(crate) fn is_ours() -> bool {
    // SAFETY: it has no premise.
    let number = unsafe { sys::dcsctp_version() };
    number & !sys::DCSCTP_VERSION_UNPROVED == sys::DCSCTP_VERSION
}

/// A seed for `Socket::new`, from the system's generator. Each socket needs another one.
pub fn random_seed() -> io::Result<[u8; 32]> {
    let mut seed = [0; 32];
    File::open("/dev/urandom")?.read_exact(&mut seed)?;
    Ok(seed)
}
