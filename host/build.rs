//! Finds the archive, libpradulins.a: in PRADULINS_LIB_DIR, or where `tools/build pradulins` writes it. It is for x86-64 Linux. Where there is none, or
//! one of an earlier version, the crate can be checked and its unit tests run, but no program can be linked.

use std::path::PathBuf;
use std::{env, fs};

/// What an archive has since version 0.6.0.
const SINCE: &[u8] = b"pradulins_write_rpc";

fn main() {
    println!("cargo:rerun-if-env-changed=PRADULINS_LIB_DIR");
    println!("cargo:rerun-if-changed=build.rs");
    // A folder that is not named by its whole path counts from the folder that this program runs in, which is the crate's.
    let here = env::current_dir().unwrap();
    let named = env::var_os("PRADULINS_LIB_DIR").map(PathBuf::from);
    let folder = here.join(named.clone().unwrap_or_else(|| PathBuf::from(env::var_os("CARGO_MANIFEST_DIR").unwrap()).join("../target/staticlib")));
    let archive = folder.join("libpradulins.a");
    println!("cargo:rerun-if-changed={}", archive.display());
    let ours = env::var("CARGO_CFG_TARGET_ARCH").as_deref() == Ok("x86_64") && env::var("CARGO_CFG_TARGET_OS").as_deref() == Ok("linux");
    let missing = if !ours {
        "libpradulins.a is for x86-64 Linux: here only those tests run that call nothing of it. On Arm, tools/host runs all".to_string()
    } else {
        let from = match &named {
            Some(named) if named.is_relative() => format!(" (PRADULINS_LIB_DIR is not a whole path, and counts from {})", here.display()),
            _ => String::new(),
        };
        match fs::read(&archive) {
            Ok(bytes) if bytes.windows(SINCE.len()).any(|part| part == SINCE) => {
                println!("cargo:rustc-link-search=native={}", folder.display());
                println!("cargo:rustc-link-lib=static=pradulins");
                return;
            }
            Ok(_) => format!("{}{from} is an older one, which this crate cannot use: make it anew by `tools/build pradulins`", archive.display()),
            Err(_) => format!("no {}{from}: make it by `tools/build pradulins`, or name its folder in PRADULINS_LIB_DIR", archive.display()),
        }
    };
    println!("cargo:rustc-cfg=no_archive");
    println!("cargo:warning={missing}");
}
