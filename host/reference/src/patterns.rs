//! Patterns: their syntax, their meaning and the steps of a match.
//!
//! A valid pattern is read once into a tree. The match walks along the tree from left to right
//! and never goes back: a group keeps its first branch that matches, and a `*` takes the least
//! that it can.

/// The longest pattern that is served, in bytes.
pub const PATTERN_LIMIT: usize = 255;
/// The longest key that a match asked by itself takes, in bytes.
pub const KEY_LIMIT: usize = 65_535;
/// How many groups may be open at once.
const DEPTH_LIMIT: usize = 4;

/// What a match asked by itself gives back.
#[derive(Clone, Copy, Debug, PartialEq, Eq)]
pub struct Match {
    /// 0, 101 for an invalid pattern, or 102 for a pattern or key that is too long.
    pub answer: u32,
    /// Whether the pattern matches the whole key; false beside a refusal.
    pub matched: bool,
    /// The steps taken; 0 beside a refusal.
    pub steps: usize,
}

/// A valid pattern: its bytes and its tree.
#[derive(Clone, Debug)]
pub struct Pattern {
    bytes: Vec<u8>,
    sequence: Vec<Element>,
}

#[derive(Clone, Debug)]
enum Element {
    /// An ordinary or escaped byte.
    Byte(u8),
    /// `?`, and `*?` too.
    Any,
    /// `*` before an ordinary or escaped byte: everything up to and including the next one.
    Until(u8),
    /// `*` at the end, or before `|` or `)`: the rest of the key.
    Rest,
    /// A group's branches in order.
    Group(Vec<Vec<Element>>),
}

impl Pattern {
    /// The pattern of these bytes, of any length, or `None` where they are invalid.
    pub fn parse(bytes: &[u8]) -> Option<Pattern> {
        match parse_sequence(bytes, 0)? {
            (sequence, []) => Some(Pattern {
                bytes: bytes.to_vec(),
                sequence,
            }),
            _ => None,
        }
    }

    pub fn bytes(&self) -> &[u8] {
        &self.bytes
    }

    /// Whether the pattern matches the whole key, and the steps that the match costs.
    pub fn matches(&self, key: &[u8]) -> (bool, usize) {
        let mut steps = 0;
        let end = walk(&self.sequence, key, 0, &mut steps);
        (end == Some(key.len()), steps)
    }
}

/// Reads elements up to the end, a `|` or a `)`, and gives what is left from there.
fn parse_sequence(mut rest: &[u8], depth: usize) -> Option<(Vec<Element>, &[u8])> {
    let mut elements = Vec::new();
    loop {
        let (element, after) = match rest {
            [] | [b'|' | b')', ..] => return Some((elements, rest)),
            [b'\\'] | [b'*', b'\\'] | [b'*', b'*' | b'(', ..] => return None,
            [b'\\', byte, after @ ..] => (Element::Byte(*byte), after),
            [b'?', after @ ..] | [b'*', b'?', after @ ..] => (Element::Any, after),
            [b'*'] | [b'*', b'|' | b')', ..] => (Element::Rest, &rest[1..]),
            [b'*', b'\\', byte, after @ ..] => (Element::Until(*byte), after),
            [b'*', byte, after @ ..] => (Element::Until(*byte), after),
            [b'(', after @ ..] => parse_group(after, depth + 1)?,
            [byte, after @ ..] => (Element::Byte(*byte), after),
        };
        elements.push(element);
        rest = after;
    }
}

/// Reads branches up to and including the group's `)`; `depth` counts this group too.
fn parse_group(mut rest: &[u8], depth: usize) -> Option<(Element, &[u8])> {
    if depth > DEPTH_LIMIT {
        return None;
    }
    let mut branches = Vec::new();
    loop {
        let (branch, after) = parse_sequence(rest, depth)?;
        branches.push(branch);
        match after {
            [b'|', next @ ..] => rest = next,
            [b')', next @ ..] => return Some((Element::Group(branches), next)),
            _ => return None,
        }
    }
}

/// Where in the key the sequence ends when it begins at `at`, or `None` where it fails.
fn walk(sequence: &[Element], key: &[u8], mut at: usize, steps: &mut usize) -> Option<usize> {
    for element in sequence {
        at = match element {
            Element::Byte(byte) => {
                *steps += 1;
                (key.get(at) == Some(byte)).then_some(at + 1)?
            }
            Element::Any => {
                *steps += 1;
                (at < key.len()).then_some(at + 1)?
            }
            Element::Until(byte) => match key[at..].iter().position(|b| b == byte) {
                Some(before) => {
                    *steps += before + 1;
                    at + before + 1
                }
                None => {
                    *steps += key.len() - at + 1;
                    return None;
                }
            },
            Element::Rest => {
                *steps += 1;
                key.len()
            }
            Element::Group(branches) => branches
                .iter()
                .find_map(|branch| walk(branch, key, at, steps))?,
        };
    }
    Some(at)
}

/// A match asked by itself: 101 for an invalid pattern, then 102 for one over 255 bytes or a
/// key over 65,535, with "no" and 0 steps.
pub fn matches(pattern: &[u8], key: &[u8]) -> Match {
    let refused = |answer| Match {
        answer,
        matched: false,
        steps: 0,
    };
    let Some(valid) = Pattern::parse(pattern) else {
        return refused(101);
    };
    if pattern.len() > PATTERN_LIMIT || key.len() > KEY_LIMIT {
        return refused(102);
    }
    let (matched, steps) = valid.matches(key);
    Match {
        answer: 0,
        matched,
        steps,
    }
}
