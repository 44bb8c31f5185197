//! The series that ship are those that their program makes.

mod common;
#[path = "../../../data/make.rs"]
mod make;

#[test]
fn the_program_makes_them() {
    for (name, text) in make::files() {
        assert_eq!(std::fs::read_to_string(common::data().join(name)).unwrap(), text, "{name}");
    }
}
