//! The caller before, with the published program, which bindings/test-rust cuts into target/bindings.

#[allow(warnings)]
#[path = "../../../../target/bindings/published/at_command/mod.rs"]
mod at_command;
#[path = "before.rs"]
mod before;
#[path = "modem.rs"]
mod modem;
#[path = "../../../../target/bindings/published/util.rs"]
mod util;

fn main() {
    print!("{}", before::notes());
}
