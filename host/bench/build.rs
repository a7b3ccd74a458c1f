//! The hash of a pair, `sha256::pair`, and of eight blocks, `lanes::hashes::hash8`, are inside the library and not exported. To
//! measure them alone a second copy of the archive is linked, in which they are visible and the exported functions are not.
//! `cfg(has_pair)` and `cfg(has_hash8)` say that there is one with them.

use std::path::{Path, PathBuf};
use std::{env, process::Command};

const INSIDE: [(&str, &str); 2] = [("has_pair", "sha256::pair"), ("has_hash8", "lanes::hashes::hash8")];

fn main() {
    println!("cargo:rerun-if-env-changed=KD_LIB");
    println!("cargo:rerun-if-env-changed=KD_CC");
    for (cfg, _) in INSIDE {
        println!("cargo:rustc-check-cfg=cfg({cfg})");
    }
    let repository = Path::new(env!("CARGO_MANIFEST_DIR")).join("../..");
    let library = env::var("KD_LIB").map_or(repository.join("target/staticlib/libkombudeva.a"), PathBuf::from);
    println!("cargo:rerun-if-changed={}", library.display());
    let folder = env::var("OUT_DIR").unwrap();
    let symbols = symbols(&library);
    let there: Vec<_> = INSIDE.iter().filter(|(_, name)| symbols.lines().any(|line| line.ends_with(name))).collect();
    if !there.is_empty() && make_visible(&there, &library, &Path::new(&folder).join("libinside.a")) {
        for (cfg, _) in there {
            println!("cargo:rustc-cfg={cfg}");
        }
        println!("cargo:rustc-link-search=native={folder}");
        println!("cargo:rustc-link-lib=static=inside");
    }
}

/// A tool for object files, of the same family as the C compiler.
fn tool(name: &str) -> Command {
    let compiler = env::var("KD_CC").unwrap_or_else(|_| "gcc".to_string());
    Command::new(compiler.strip_suffix("gcc").unwrap_or("").to_string() + name)
}

/// What `nm` says of the library. The compiler may have put a function into its callers, and left none of its own.
fn symbols(library: &Path) -> String {
    tool("nm")
        .arg(library)
        .output()
        .map_or(String::new(), |output| String::from_utf8_lossy(&output.stdout).into_owned())
}

fn make_visible(there: &[&(&str, &str)], library: &Path, copy: &Path) -> bool {
    let mut command = tool("objcopy");
    command.args(["--wildcard", "--localize-symbol=kd_*"]);
    command.args(there.iter().map(|(_, name)| format!("--globalize-symbol={name}")));
    command.arg(library).arg(copy).status().is_ok_and(|status| status.success())
}
