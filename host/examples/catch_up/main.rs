//! Two gateways in one process. One speaks first: it joins a topic and publishes; the other takes its notice, and prunes it from the mesh of the topic. Notices
//! are passed on over a link that loses some; then the gateways catch up with each other, round by round. Then it is told what a wall clock that steps by an hour
//! would do, and a gateway is saved and loaded again.
//!
//!     cargo run --example catch_up

#[cfg(not(no_archive))]
mod frame;
#[cfg(not(no_archive))]
mod join;
#[cfg(not(no_archive))]
mod notice;
#[cfg(not(no_archive))]
mod rounds;

#[cfg(not(no_archive))]
fn main() -> Result<(), Box<dyn std::error::Error>> {
    rounds::run(&mut std::io::stdout().lock())
}

/// Without the archive nothing of the library can be linked.
#[cfg(no_archive)]
fn main() {
    if cfg!(all(target_arch = "x86_64", target_os = "linux")) {
        eprintln!("catch_up: there is no libpradulins.a, or only an older one. Make it by `tools/build pradulins` in the repository's folder,");
        eprintln!("or name the folder that has it in PRADULINS_LIB_DIR.");
    } else {
        eprintln!("catch_up: libpradulins.a is for x86-64 Linux, and cannot be linked here. On Arm, `tools/host example` in the repository's folder");
        eprintln!("builds this example for x86-64 and runs it under an emulator.");
    }
    std::process::exit(1);
}
