//! The program `vers` for those who have cargo and not Rattle's toolchain: `crates/vers_commands` and the crates below it,
//! as `tools/plain_rust.py` writes the proved sources.
#![cfg_attr(not(target_feature = "bmi2"), forbid(unsafe_code))]

#[cfg(not(target_pointer_width = "64"))]
compile_error!("the proofs are of positions of 64 bits");

#[path = "../../src/proved/mod.rs"]
#[rustfmt::skip]
#[allow(dead_code, clippy::all)]
mod proved;

#[rustfmt::skip]
#[allow(dead_code, clippy::all)]
mod programs;

#[path = "../../src/rattle/mod.rs"]
#[allow(dead_code, clippy::all)]
mod rattle;

fn main() -> std::process::ExitCode {
    programs::vers_commands::main()
}
