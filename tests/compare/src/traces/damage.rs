//! Damage to a trace's bytes, fields and lines, rather towards its end, so that much of it is still played.

use super::text::lines;
use crate::draws::Rng;

/// What is put in a byte's place or beside it.
const BYTES: &[u8] = b"\t\t\n\n\r -+.x0123456789ABCDEFabcdefGPMTH\0\xff";

/// What is put in a field's place.
const FIELDS: [&[u8]; 22] = [
    b"-",
    b"",
    b"--",
    b"-3",
    b"+1",
    b" 1",
    b"0",
    b"1",
    b"2",
    b"007",
    b"127",
    b"128",
    b"255",
    b"256",
    b"4294967295",
    b"4294967296",
    b"0000000004294967295",
    b"0000000004294967296",
    b"00000000000000000007",
    b"7FC00000",
    b"ffbfffff",
    b"3F80000g",
];

pub fn damage(rng: &mut Rng, text: &mut Vec<u8>) {
    for _ in 0..1 + rng.below(3) {
        if !text.is_empty() {
            one(rng, text);
        }
    }
}

/// A place below n, rather a later one.
fn place(rng: &mut Rng, n: usize) -> usize {
    rng.below(n).max(rng.below(n))
}

fn one(rng: &mut Rng, text: &mut Vec<u8>) {
    let at = place(rng, text.len());
    match rng.below(12) {
        0 => drop(text.remove(at)),
        1 => text.insert(at, rng.of(BYTES)),
        2 => text[at] = rng.of(BYTES),
        3 => {
            let other = place(rng, text.len());
            text.swap(at, other);
        }
        4 => text[at] = digit(rng, text[at]),
        5 => tab(rng, text, at),
        6 => feed(rng, text),
        7 | 8 => field(rng, text),
        _ => whole_lines(rng, text),
    }
}

/// Another digit where one stands.
fn digit(rng: &mut Rng, byte: u8) -> u8 {
    match byte.is_ascii_hexdigit() {
        true => rng.of(b"0123456789ABCDEFabcdef"),
        false => byte,
    }
}

/// The next tab doubled, removed or a space.
fn tab(rng: &mut Rng, text: &mut Vec<u8>, at: usize) {
    let Some(next) = text[at..].iter().position(|byte| *byte == b'\t') else {
        return;
    };
    match rng.below(3) {
        0 => text.insert(at + next, b'\t'),
        1 => drop(text.remove(at + next)),
        _ => text[at + next] = b' ',
    }
}

/// The last LF missing, or a CR or tab before an LF, or all lines with CR.
fn feed(rng: &mut Rng, text: &mut Vec<u8>) {
    let feeds: Vec<usize> = (0..text.len()).filter(|k| text[*k] == b'\n').collect();
    if feeds.is_empty() || rng.one_in(4) {
        text.pop();
        return;
    }
    let at = feeds[place(rng, feeds.len())];
    match rng.below(3) {
        0 => text.insert(at, b'\r'),
        1 => text.insert(at, b'\t'),
        _ => text.truncate(at),
    }
}

fn split(line: &[u8]) -> Vec<&[u8]> {
    let text = line.strip_suffix(b"\n").unwrap_or(line);
    text.split(|byte| *byte == b'\t').collect()
}

/// A field changed, left out, doubled, or changed with its neighbour.
fn field(rng: &mut Rng, text: &mut Vec<u8>) {
    let all: Vec<&[u8]> = lines(text).collect();
    let line = place(rng, all.len());
    let mut fields = split(all[line]);
    let k = rng.below(fields.len());
    match rng.below(8) {
        0 => drop(fields.remove(k)),
        1 => fields.insert(k, fields[k]),
        2 if k > 0 => fields.swap(k - 1, k),
        _ if k > 0 => fields[k] = rng.of(&FIELDS),
        _ => fields[0] = rng.of(&[b"A", b"P", b"G", b"g", b"X", b"GG", b""]),
    }
    let mut changed = fields.join(&b'\t');
    changed.push(b'\n');
    *text = [all[..line].concat(), changed, all[line + 1..].concat()].concat();
}

/// A line left out, doubled, moved or exchanged, or an empty one.
fn whole_lines(rng: &mut Rng, text: &mut Vec<u8>) {
    let mut all: Vec<&[u8]> = lines(text).collect();
    let (a, b) = (place(rng, all.len()), place(rng, all.len()));
    match rng.below(6) {
        0 => drop(all.remove(a)),
        1 => all.insert(a, all[b]),
        2 => all.swap(a, b),
        3 => {
            let line = all.remove(a);
            all.insert(b, line);
        }
        4 => all.insert(a, b"G\n"),
        _ => all.insert(a, b"\n"),
    }
    *text = all.concat();
}
