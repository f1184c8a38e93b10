//! The layout, the functions and the numbers, as docs/BUFFERS.md, the C header, this crate and the library have them.

mod texts;

use sardinerod::layout::*;
use sardinerod::{CoefficientCombine, Matching, Refusal, raw};
use texts::*;

/// Names and values of `layout::TABLE`.
fn table() -> Vec<(String, usize)> {
    TABLE
        .iter()
        .map(|&(name, value)| (name.to_owned(), value))
        .collect()
}

#[test]
fn the_library_answers_the_table() {
    let mut answer = [u32::MAX; LAYOUT_LENGTH];
    assert_eq!(raw::layout(&mut answer), 0);
    let values: Vec<usize> = table().into_iter().map(|(_, value)| value).collect();
    assert_eq!(answer.map(|n| n as usize).to_vec(), values);
}

#[test]
fn the_document_has_the_table() {
    let rows: Vec<(usize, String, usize)> = buffers()
        .lines()
        .filter_map(|line| {
            let [number, name, value] = cells(line)?.try_into().ok()?;
            Some((
                number.parse().ok()?,
                name.trim_matches('`').to_owned(),
                value.parse().ok()?,
            ))
        })
        .collect();
    let numbers: Vec<usize> = rows.iter().map(|row| row.0).collect();
    assert_eq!(numbers, (0..LAYOUT_LENGTH).collect::<Vec<_>>());
    let named: Vec<(String, usize)> = rows
        .into_iter()
        .map(|(_, name, value)| (name, value))
        .collect();
    assert_eq!(named, table());
}

#[test]
fn the_header_has_the_table() {
    let defined: Vec<(String, usize)> = header()
        .lines()
        .filter_map(|line| {
            let mut words = line.strip_prefix("#define SARDINEROD_")?.split_whitespace();
            Some((words.next()?.to_owned(), words.next()?.parse().ok()?))
        })
        .collect();
    assert_eq!(defined, table());
}

#[test]
fn functions_agree() {
    let library = library_functions();
    assert_eq!(library.len(), 9);
    assert_eq!(sorted(header_functions()), sorted(library.clone()));
    assert_eq!(sorted(raw_functions()), sorted(library.clone()));
    let mut named: Vec<String> = library.into_iter().map(|(name, _)| name).collect();
    named.sort();
    assert_eq!(document_functions(), named);
}

#[test]
fn refusals_agree() {
    let crate_own: Vec<(String, u32)> = Refusal::ALL
        .into_iter()
        .map(|r| (screaming(&format!("{r:?}")), r.number()))
        .collect();
    assert_eq!(header_enum("sardinerod_refusal"), crate_own);
    assert_eq!(library_refusals(), crate_own);
}

#[test]
fn refusals_come_back_from_their_numbers() {
    for refusal in Refusal::ALL {
        assert_eq!(Refusal::from_number(refusal.number()), Some(refusal));
        assert!(!refusal.to_string().is_empty());
    }
    assert_eq!(Refusal::from_number(0), None);
    assert_eq!(Refusal::from_number(10), None);
}

#[test]
fn combining_rules_agree() {
    let crate_own: Vec<(String, u32)> = [
        CoefficientCombine::Average,
        CoefficientCombine::GeometricMean,
        CoefficientCombine::Min,
        CoefficientCombine::Multiply,
        CoefficientCombine::Max,
    ]
    .into_iter()
    .map(|rule| {
        (
            format!("COMBINE_{}", screaming(&format!("{rule:?}"))),
            rule as u32,
        )
    })
    .collect();
    assert_eq!(header_enum("sardinerod_combine_rule"), crate_own);
}

#[test]
fn matchings_agree() {
    let crate_own: Vec<(String, u32)> = [Matching::ByNumber, Matching::ByPlace]
        .into_iter()
        .map(|matching| {
            (
                format!("MATCHING_{}", screaming(&format!("{matching:?}"))),
                matching as u32,
            )
        })
        .collect();
    assert_eq!(header_enum("sardinerod_matching"), crate_own);
}

#[test]
fn pair_flags_agree() {
    let documented: Vec<String> = buffers()
        .lines()
        .find_map(|line| line.split_once("the pair's marks "))
        .map(|(_, marks)| {
            marks
                .split('`')
                .skip(1)
                .step_by(2)
                .map(str::to_owned)
                .collect()
        })
        .expect("docs/BUFFERS.md lists the pair's marks");
    assert_eq!(documented.len(), CONTACT_COUNT_CHANGE - CONTACT_FLAGS);
    let numbered: Vec<(String, u32)> = documented
        .iter()
        .zip(0..)
        .map(|(name, n)| (format!("FLAG_{name}"), n))
        .collect();
    assert_eq!(header_enum("sardinerod_pair_flag"), numbered);
}

#[test]
fn kinds_are_those_of_the_document() {
    let kinds = |words: &[&str]| -> Vec<(String, u32)> {
        words
            .iter()
            .zip(0..)
            .map(|(&w, n)| (w.to_owned(), n))
            .collect()
    };
    assert!(buffers().contains("| 0 | 0 started, 1 ended | 0 | 0 start, 1 stop, 2 count |"));
    assert_eq!(
        header_enum("sardinerod_event_kind"),
        kinds(&["EVENT_STARTED", "EVENT_ENDED"])
    );
    assert_eq!(
        header_enum("sardinerod_change_kind"),
        kinds(&["CHANGE_START", "CHANGE_STOP", "CHANGE_COUNT"])
    );
}
