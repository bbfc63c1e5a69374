//! A caller of the published program after its change to this crate: it notes what it noted before. bindings/test-rust runs the caller before as well, where
//! the published source is at hand, and compares it with the same notes.

#[path = "caller/after.rs"]
mod after;
#[path = "caller/modem.rs"]
mod modem;

#[test]
fn the_caller_after_notes_the_same() {
    let path = concat!(env!("CARGO_MANIFEST_DIR"), "/tests/caller/notes.txt");
    let before = std::fs::read_to_string(path).unwrap_or_else(|why| panic!("{}: {}", path, why));
    let after = after::notes();
    for (ours, theirs) in after.lines().zip(before.lines()) {
        assert_eq!(ours, theirs);
    }
    assert_eq!(after, before);
}
