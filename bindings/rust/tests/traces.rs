//! Traces through the safe API: what each line prints, by hand from the specification and the listed lines.

use sardinerod::layout::*;
use sardinerod::{Change, ContactGraph, ContactId, Event, Refusal, Trace};

const CAPACITY: u32 = 4;

// ---- Lines.

const SETTINGS: &str =
    "T\t3C800000\t3F800000\t3BA3D70A\t00000000\t3F733333\t1\t3F000000\t1\t00000000\t1\n";
const ORIGIN: &str = "00000000\t00000000\t00000000";
const GO: &str = "G\n";

/// With the bodies of the colliders' numbers, and events.
fn addition(a: u32, b: u32) -> String {
    format!("A\t{a}\t{b}\t{a}\t{b}\t1\t0\t00000000\n")
}

/// A box around the origin, or one far off.
fn collider(n: u32, x: &str) -> String {
    let lower = format!("{x}\tBF800000\tBF800000");
    let upper = format!("{x}\t3F800000\t3F800000");
    format!("C\t{n}\t{n}\t{lower}\t{upper}\t{ORIGIN}\t1\t4294967295\t-\t-\t-\t0\n")
}

fn body(n: u32) -> String {
    let rotation = format!("{ORIGIN}\t3F800000");
    format!("B\t{n}\t0\t{ORIGIN}\t{rotation}\t{ORIGIN}\t{ORIGIN}\t{ORIGIN}\t-\t-\t-\t3F800000\n")
}

fn point() -> String {
    format!("P\t{ORIGIN}\t{ORIGIN}\t{ORIGIN}\t3C23D70A\t0\t0\n")
}

fn manifold(a: u32, b: u32, points: usize) -> String {
    format!("M\t{a}\t{b}\t00000000\t3F800000\t00000000\n") + &point().repeat(points)
}

/// Settings, colliders and bodies 0 and 1.
fn world() -> String {
    let near = "00000000";
    [
        SETTINGS,
        &collider(0, near),
        &collider(1, near),
        &body(0),
        &body(1),
    ]
    .concat()
}

/// A step in which colliders 0 and 1 touch.
fn touch() -> String {
    world() + &manifold(1, 0, 1) + GO
}

/// The settings with that behind their ten fields.
fn settings_and(rest: &str) -> String {
    SETTINGS.replace('\n', rest) + "\n"
}

/// `touch` with such settings.
fn touch_and(rest: &str) -> String {
    touch().replace(SETTINGS, &settings_and(rest))
}

const STARTED: &str = "E\t0\t0\t0\t1\t0\t1\nS\t0\t0\t-\t-\t-\n";
const ENDED: &str = "E\t1\t0\t0\t1\t0\t1\nS\t1\t0\t0\t1\t-\n";

// ---- What is printed.

fn printed(trace: &str, capacity: u32) -> String {
    let printed = Trace::new(trace.as_bytes()).printed(capacity).unwrap();
    String::from_utf8(printed).unwrap()
}

/// What lines print on top of an accepted addition of 0 and 1.
fn prints(lines: &str, expected: &str) {
    assert_eq!(printed(&(addition(0, 1) + lines), CAPACITY), expected);
}

#[test]
fn an_empty_trace_ends_at_once() {
    let trace = Trace::new(b"");
    assert_eq!(trace.as_bytes(), b"");
    let mut play = trace.play(CAPACITY).unwrap();
    assert_eq!((play.next(), play.next(), play.place()), (None, None, 0));
    assert_eq!(play.into_graph(), ContactGraph::new(CAPACITY).unwrap());
    assert_eq!(trace.printed(CAPACITY), Ok(vec![]));
}

#[test]
fn a_play_needs_a_capacity() {
    for capacity in [0, 257, u32::MAX] {
        let trace = Trace::new(b"G\n");
        assert_eq!(trace.play(capacity), Err(Refusal::WrongLength));
        assert_eq!(trace.printed(capacity), Err(Refusal::WrongLength));
    }
    for capacity in [1, 65, 256] {
        assert_eq!(printed("G\n", capacity), "10\n");
    }
}

#[test]
fn steps_print_events_then_changes() {
    prints(&touch(), STARTED);
    prints(&(touch() + &touch()), STARTED);
    prints(&(touch() + &world() + GO), &[STARTED, ENDED].concat());
}

#[test]
fn a_count_change_has_its_sign() {
    let go = |manifolds: usize| world() + &manifold(0, 1, 1).repeat(manifolds) + GO;
    let expected = [STARTED, "S\t2\t0\t0\t1\t2\nS\t2\t0\t0\t1\t-1\n"].concat();
    prints(&(go(1) + &go(3) + &go(2)), &expected);
}

#[test]
fn additions_print_their_refusals() {
    prints("", "");
    prints(&addition(0, 256), "2\n");
    prints(&addition(7, 7), "3\n");
    prints(&addition(1, 0), "4\n");
    assert_eq!(printed(&(addition(0, 1) + &addition(0, 2)), 1), "5\n");
}

#[test]
fn a_number_out_of_range_is_answered_at_the_go() {
    prints(&(collider(256, "00000000") + &touch()), "2\n");
    prints(
        &(manifold(5, 256, 0) + &touch() + &touch()),
        &("2\n".to_owned() + STARTED),
    );
    prints(&collider(256, "00000000"), "");
    prints(
        &(addition(256, 0) + &touch()),
        &("2\n".to_owned() + STARTED),
    );
}

#[test]
fn too_large_a_proposal_is_answered_at_the_go() {
    prints(&(manifold(0, 1, 1).repeat(MANIFOLDS) + &touch()), "6\n");
    for points in [PROPOSED_POINTS + 1, 33] {
        prints(&(manifold(0, 1, points) + &touch()), "6\n");
    }
    prints(&(manifold(0, 1, PROPOSED_POINTS) + &touch()), STARTED);
    prints(&(manifold(0, 2, PROPOSED_POINTS + 1) + &touch()), STARTED);
}

/// The matching, an eleventh field, is a mark or a dash, or missing. It shows in impulses alone, which no line prints.
#[test]
fn settings_may_name_the_matching() {
    for rest in ["", "\t-", "\t0", "\t1", "\t000", "\t0000000001"] {
        prints(&touch_and(rest), STARTED);
        prints(&(touch_and(rest) + &touch_and(rest)), STARTED);
    }
    for rest in ["\t2", "\t007", "\t4294967295"] {
        prints(&settings_and(rest), "");
        prints(&(touch_and(rest) + &touch()), &("2\n".to_owned() + STARTED));
        prints(&(settings_and(rest) + &touch()), "2\n");
    }
}

#[test]
fn settings_have_no_other_fields() {
    let eleventh = [
        "\t", "\t ", "\t--", "\t-1", "\t+1", "\t1 ", "\t1\r", "\t0x1", "\tx",
    ];
    let twelfth = [
        "\t\t", "\t\t1", "\t-\t", "\t1\t", "\t-\t-", "\t0\t0", "\t1\t1",
    ];
    let number = "\t4294967296";
    for rest in eleventh
        .into_iter()
        .chain(twelfth)
        .chain([number, " ", "-", "\r"])
    {
        prints(&touch_and(rest), "10\n");
        prints(
            &(touch() + &settings_and(rest)),
            &(STARTED.to_owned() + "10\n"),
        );
    }
    let nine = touch().replace(SETTINGS, &SETTINGS.replace("\t1\n", "\n"));
    prints(&nine, "10\n");
}

#[test]
fn an_unreadable_line_ends_the_trace() {
    let last_feed_missing = touch() + "G";
    let no_settings = touch() + GO;
    let point_alone = touch() + &point();
    let point_below_addition = touch() + &manifold(0, 1, 0) + &addition(0, 2) + &point();
    let broken = [
        last_feed_missing,
        no_settings,
        point_alone,
        point_below_addition,
        touch() + "\n",
        touch() + "G\r\n",
        touch() + "G\t\n",
        touch() + "X\n",
        touch() + "H\t0\t1\n",
        touch() + "H\t0\t1\t-1\n",
        touch() + "H\t0\t1\t4294967296\n",
    ];
    for lines in broken {
        prints(&lines, &(STARTED.to_owned() + "10\n"));
        prints(&(lines + "\n" + &touch()), &(STARTED.to_owned() + "10\n"));
    }
}

#[test]
fn numbers_and_floats_may_be_written_otherwise() {
    let lines = touch().replace("M\t1\t0", "M\t00000000000000000001\t000");
    prints(&lines, STARTED);
    prints(&touch().to_lowercase().replace(['a', 't'], "x"), "10\n");
    prints(&touch().replace("3C23D70A", "3c23D70a"), STARTED);
}

// ---- The iterator.

#[test]
fn a_play_has_an_item_for_each_line() {
    let text = addition(0, 1) + &touch() + "?\n" + &touch();
    let mut play = Trace::new(text.as_bytes()).play(CAPACITY).unwrap();
    let mut place = 0;
    let lines: Vec<&str> = text.split_inclusive('\n').collect();
    for line in &lines[..lines.len() / 2] {
        assert_eq!(play.place(), place);
        let go = STARTED.as_bytes().to_vec();
        assert_eq!(play.next(), Some(if *line == GO { go } else { vec![] }));
        place += line.len();
    }
    assert_eq!(lines[lines.len() / 2], "?\n");
    assert_eq!(play.next(), Some(b"10\n".to_vec()));
    let ended = play.clone();
    assert_eq!(play.place(), text.len());
    assert_eq!((play.next(), play.next()), (None, None));
    assert_eq!(play, ended);
}

#[test]
fn the_graph_can_be_looked_at() {
    let text = addition(0, 1) + &touch() + &world() + GO;
    let mut play = Trace::new(text.as_bytes()).play(CAPACITY).unwrap();
    let contact = ContactId(0);
    assert_eq!(play.graph().look_up(contact), Err(Refusal::NoContact));
    let goes: Vec<Vec<u8>> = play
        .by_ref()
        .filter(|out| !out.is_empty())
        .take(1)
        .collect();
    assert_eq!(goes, [STARTED.as_bytes()]);
    let graph = play.graph();
    assert!(graph.look_up(contact).unwrap().touching);
    let pair = graph.pair(contact).unwrap();
    assert_eq!(pair.manifolds().next().unwrap().points().len(), 1);
    assert_eq!((graph.report().events, graph.report().changes), (1, 1));
    assert!(matches!(
        graph.events().next(),
        Some(Event::Started { collider2: 1, .. })
    ));
    assert_eq!(
        graph.changes().collect::<Vec<_>>(),
        [Change::Start { contact }]
    );
    assert_eq!(play.last(), Some(ENDED.as_bytes().to_vec()));
}

#[test]
fn a_refused_step_leaves_the_report() {
    let text = addition(0, 1) + &touch() + &manifold(0, 1, PROPOSED_POINTS + 1) + &world() + GO;
    let mut play = Trace::new(text.as_bytes()).play(CAPACITY).unwrap();
    let answers: Vec<Vec<u8>> = play.by_ref().filter(|out| !out.is_empty()).collect();
    assert_eq!(answers, [STARTED.as_bytes(), b"6\n"]);
    assert_eq!(play.graph().report().events, 1);
    let quiet = addition(0, 1) + &touch() + &touch();
    let mut play = Trace::new(quiet.as_bytes()).play(CAPACITY).unwrap();
    assert_eq!(play.by_ref().flatten().count(), STARTED.len());
    assert_eq!(play.graph().events().len(), 0);
}
