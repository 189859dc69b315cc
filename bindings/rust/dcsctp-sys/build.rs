//! Links the static library: libdcsctp.a, or libdcsctp-unproved.a, which was built without proofs. It takes the first
//! of these, and in each place the proved library first:
//!
//! 1. in the folder that DCSCTP_LIB_DIR names, if it is set;
//! 2. in `lib/TARGET` of this crate, as `make crate` packs it;
//! 3. in `lib` of the package that this crate was unpacked with;
//! 4. where `make` of the repository puts it;
//! 5. where pkg-config finds it.
//!
//! DCSCTP_LIB_NAME, `dcsctp` or `dcsctp-unproved`, chooses one of the two. If it isn't set and the unproved library is
//! taken, a warning says so. With DOCS_RS, as docs.rs sets it, nothing is linked: documents need no library.
use std::path::{Path, PathBuf};
use std::process::Command;

const PROVED: &str = "dcsctp";
const UNPROVED: &str = "dcsctp-unproved";

fn main() {
    if std::env::var_os("DOCS_RS").is_some() {
        return;
    }
    for name in ["DCSCTP_LIB_DIR", "DCSCTP_LIB_NAME", "PKG_CONFIG_PATH", "PKG_CONFIG_LIBDIR"] {
        println!("cargo:rerun-if-env-changed={name}");
    }
    let wanted = std::env::var("DCSCTP_LIB_NAME").ok();
    let names = wanted.as_deref().map_or(vec![PROVED, UNPROVED], |name| vec![name]);
    let Some((folder, name)) = find(&names) else {
        let files: Vec<_> = names.iter().map(|name| format!("lib{name}.a")).collect();
        eprintln!(
            "dcsctp-sys: no {}: set DCSCTP_LIB_DIR or PKG_CONFIG_PATH, or build it in the repository (`make` says how)",
            files.join(" or ")
        );
        std::process::exit(1);
    };
    if name == UNPROVED && wanted.is_none() {
        println!("cargo:warning=linking {UNPROVED}, which was built without proofs");
    }
    println!("cargo:rustc-link-search=native={}", folder.display());
    println!("cargo:rustc-link-lib=static={name}");
    println!("cargo:rerun-if-changed={}", archive(&folder, &name).display());
}

/// The folder of the library, and its name.
fn find(names: &[&str]) -> Option<(PathBuf, String)> {
    let has = |(folder, name): &(PathBuf, String)| archive(folder, name).exists();
    let in_folders = |folders: [PathBuf; 2]| {
        let of = |name: &&str| folders[usize::from(*name == UNPROVED)].clone();
        names.iter().map(|name| (of(name), name.to_string())).find(has)
    };
    if let Some(folder) = std::env::var_os("DCSCTP_LIB_DIR").map(PathBuf::from) {
        return in_folders([folder.clone(), folder]);
    }
    let own = Path::new(env!("CARGO_MANIFEST_DIR"));
    let packed = own.join("lib").join(std::env::var_os("TARGET")?);
    let top = own.join("../../..");
    in_folders([packed.clone(), packed])
        .or_else(|| in_folders([top.join("lib"), top.join("lib")]))
        .or_else(|| in_folders([top.join("out"), top.join("out/unproved")]))
        .or_else(|| names.iter().filter_map(|name| by_pkg_config(name)).find(has))
}

fn by_pkg_config(name: &str) -> Option<(PathBuf, String)> {
    let found = Command::new("pkg-config").args(["--variable=libdir", name]).output().ok()?;
    let folder = String::from_utf8(found.stdout).ok()?;
    Some((PathBuf::from(folder.trim()), name.to_string()))
}

fn archive(folder: &Path, name: &str) -> PathBuf {
    folder.join(format!("lib{name}.a"))
}
