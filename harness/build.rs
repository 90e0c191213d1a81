//! Tells the harness whether its build links the library: the crate in `rust` does where `HOENGTILA_ARCHIVE` says in which folder it
//! stands. Without it everything still compiles: other machines than x86-64 reach the library through a peer (`src/peer.rs`).

fn main() {
    println!("cargo:rustc-check-cfg=cfg(hoengtila_linked)");
    println!("cargo:rerun-if-env-changed=DEP_HOENGTILA_LINKED");
    if std::env::var_os("DEP_HOENGTILA_LINKED").is_some() {
        println!("cargo:rustc-cfg=hoengtila_linked");
    }
}
