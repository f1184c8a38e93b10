//! The example prints what is stored. That can be worked out by hand: a turn by 0.08 about corner 0 moves corners 1 and 3 by
//! 2 sin 0.04 = 0.080, and corner 2 by √2 times that, 0.113. By place a corner takes its own old impulses if it moved by less than 0.1;
//! by number every corner takes those of corner 0, the first without features.

#[path = "../examples/corners.rs"]
mod example;

#[test]
fn the_example_prints_what_is_stored() {
    let mut out = Vec::new();
    example::compare(&mut out).expect("no call is refused");
    let printed = String::from_utf8(out).expect("the example prints text");
    assert_eq!(printed, include_str!("../examples/corners.stdout"));
}
