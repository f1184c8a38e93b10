//! The example prints what bindings/c/stack.c prints.

#[path = "../examples/stack.rs"]
mod example;

#[test]
fn the_example_plays_as_in_c() {
    let mut out = Vec::new();
    example::play(&mut out).expect("no call is refused");
    let played = String::from_utf8(out).expect("the example prints text");
    assert_eq!(played, include_str!("../../c/stack.stdout"));
}
