//! Changes that no list can show, each with the reason.

use super::changes::Mutant;

/// A reason and the changes it is for; `*` in a name stands for any text.
type Reason = (&'static str, &'static [&'static str]);

const REASONS: &[Reason] = &[
    (
        "bit 9 of a load is undefined: 6 is given before",
        &[
            "table: 40: payload: groups: bits 9..0, *",
            "table: 40: fault 5: test: second: left: second: bits 9..0, *",
        ],
    ),
    (
        "bit 19 of a load is undefined: 6 is given before",
        &[
            "table: 40: fault 5: test: second: left: first: bits 19..10, *",
            "everywhere: load offset: bits 19..10, *",
        ],
    ),
    (
        "bits 24 to 29 of a load's first word are of its id, 40 hex, and are zero",
        &[
            "table: 40: fault 4: test: first: left: field: bits 2*..23, *",
            "everywhere: load converts: bits 2*..23, *",
        ],
    ),
    (
        "bit 22 is set in code 5, to which this rule doesn't apply, and in 4, 6 and 7, which are \
         refused before",
        &[
            "table: 40: fault 4: test: first: left: field: bits 23..22, *",
            "everywhere: load converts: bits 23..22, *",
        ],
    ),
    (
        "of the legal codes only 5 is read otherwise, as 1, with the same rule for the second word",
        &["table: 40: fault 1: test: left: chosen by: bits 21..20, *"],
    ),
    (
        "codes 1 and 5 are read as 0 and 4, which have the same rule for the second word",
        &["table: 40: fault 1: test: left: chosen by: without bit 20"],
    ),
    (
        "codes 3, 4, 6 and 7 are illegal themselves, in a lower word than those that must be zero",
        &["table: 40: fault *: test: left: for [3, 4, 6, 7]: *"],
    ),
    (
        "only code 7 is read as 5, and 7 is refused before",
        &[
            "table: 40: fault 4: test: second: not: field: without bit 21",
            "table: 40: fault 5: test: first: field: without bit 21",
        ],
    ),
    (
        "codes 3, 4, 6 and 7 are refused before bit 23 and the planes are looked at",
        &[
            "table: 40: fault 4: test: second: not: set: with 3",
            "table: 40: fault 4: test: second: not: set: with 4",
            "table: 40: fault 4: test: second: not: set: with 6",
            "table: 40: fault 4: test: second: not: set: with 7",
            "table: 40: fault 5: test: first: set: with 3",
            "table: 40: fault 5: test: first: set: with 4",
            "table: 40: fault 5: test: first: set: with 6",
            "table: 40: fault 5: test: first: set: with 7",
        ],
    ),
    (
        "bits 24 to 26 of a primitive's first word are of its id, 48 hex, and are zero",
        &[
            "table: 48: fault 0: test: left: field: bits 24..0, *",
            "table: 48: fault 0: test: left: field: bits 25..0, *",
            "table: 48: fault 0: test: left: field: bits 26..0, *",
        ],
    ),
    (
        "a primitive's header is zero: no groups of payload, no bit to lose in the record",
        &["table: 48: payload: like a load's", "record of 48: header without bit *"],
    ),
    (
        "the header of C4 has no defined bit: no groups of payload",
        &["table: C4: payload: like a load's"],
    ),
    (
        "bits 30 and 31 of a window clip's second word are undefined: 6 is given before",
        &[
            "table: 84: fault 0: test: left: field: bits 3*..28, *",
            "table: 84: fault 1: test: right: chosen by: bits 3*..28, *",
            "everywhere: bank: bits 3*..28, *",
        ],
    ),
    (
        "the bank has two bits: it is never over 3",
        &["table: 84: fault 0: test: AtLeast, not Equal"],
    ),
    (
        "the stored maximum has four bits: it is never over 15",
        &["table: 84: fault 1: test: right: for 0: 16, not 15"],
    ),
    (
        "a minimum of at least the maximum plus one is not zero, nor is a field of more bits around it",
        &[
            "table: 84: fault 2: test: first: Always, not NotEqual",
            "table: 84: fault 2: test: first: left: field: bits 16..12, *",
            "table: 84: fault 2: test: first: left: field: bits 17..12, *",
            "table: 84: fault 2: test: first: left: field: bits 18..12, *",
            "table: 84: fault 2: test: first: left: field: bits 19..12, *",
            "table: 84: fault 2: test: first: left: field: bits 2*..12, *",
            "table: 84: fault 2: test: first: left: field: bits 3*..12, *",
            "table: 84: fault 2: test: first: left: field: bits 15..0, *",
            "table: 84: fault 2: test: first: left: field: bits 15..1, *",
            "table: 84: fault 2: test: first: left: field: bits 15..2, *",
            "table: 84: fault 2: test: first: left: field: bits 15..3, *",
            "table: 84: fault 2: test: first: left: field: bits 15..4, *",
            "table: 84: fault 2: test: first: left: field: bits 15..5, *",
            "table: 84: fault 2: test: first: left: field: bits 15..6, *",
            "table: 84: fault 2: test: first: left: field: bits 15..7, *",
            "table: 84: fault 2: test: first: left: field: bits 15..8, *",
            "table: 84: fault 2: test: first: left: field: bits 15..9, *",
            "table: 84: fault 2: test: first: left: field: bits 15..10, *",
            "table: 84: fault 2: test: first: left: field: bits 15..11, *",
        ],
    ),
    (
        "no command has two clashes but for 15 and 16: 17 is of 88, 18 and 19 are of 40, 18 with \
         any code but 5 and 19 with 5",
        &[
            "each command: verdict 16: behind verdict 17",
            "each command: verdict 17: behind verdict 18",
            "each command: verdict 18: behind verdict 19",
            "order: verdict 16 behind 18",
            "order: verdict 16 behind 19",
            "order: verdict 17 behind 19",
            "order: verdict 17 before 15",
            "order: verdict 18 before 15",
            "order: verdict 18 before 16",
            "order: verdict 19 before 15",
            "order: verdict 19 before 16",
            "order: verdict 19 before 17",
        ],
    ),
    (
        "window clips and raster modes have no payload, and none of the clashes in between",
        &["order: verdict 16 behind 9", "order: verdict 17 behind 9"],
    ),
    ("a raster mode has no illegal value, and neither 15 nor 16", &["order: verdict 17 before 7"]),
    (
        "raster bits, bit 23 and the plane range are in the command's first word",
        &[
            "each command: verdict 17: at ThatWord",
            "each command: verdict 18: at ThatWord",
            "each command: verdict 19: at ThatWord",
        ],
    ),
    (
        "with 6 at a first word a bit of the header is set, which is lower than those of the id",
        &[
            "told bit: header: bits 24..0, *",
            "told bit: header: bits 25..0, *",
            "told bit: header: bits 26..0, *",
            "told bit: header: bits 27..0, *",
            "told bit: header: bits 28..0, *",
            "told bit: header: bits 29..0, *",
            "told bit: header: bits 30..0, *",
            "told bit: header: bits 31..0, *",
        ],
    ),
    (
        "a payload cut short has all words to the list's end: there is no command behind it",
        &["*, verdict 9: an undefined bit of the list told"],
    ),
    (
        "all undefined bits of the word are lower, and the lowest is told",
        &[
            "*, verdict 6: word 1 of 08: bit 31 as an undefined one",
            "*, verdict 6: word 1 of 0C: bit 31 as an undefined one",
            "*, verdict 6: word 1 of 10: bit 31 as an undefined one",
            "*, verdict 6: word 1 of 14: bit 31 as an undefined one",
            "*, verdict 6: word 0 of 26: bit 23 as an undefined one",
            "*, verdict 6: word 0 of 40: bit 20 as an undefined one",
            "*, verdict 6: word 0 of 40: bit 21 as an undefined one",
            "*, verdict 6: word 0 of 40: bit 22 as an undefined one",
            "*, verdict 6: word 0 of 40: bit 23 as an undefined one",
            "*, verdict 6: word 0 of 88: bit 21 as an undefined one",
            "*, verdict 6: word 0 of 88: bit 22 as an undefined one",
            "*, verdict 6: word 0 of 88: bit 23 as an undefined one",
        ],
    ),
    (
        "no command changes the image words behind settings 02, 26, 31, 90 and C4",
        &[
            "table: 02: compared: with bit 1",
            "table: 26: compared: with bit 1",
            "table: 31: compared: with bit 1",
            "table: 90: compared: with bit 4",
            "table: C4: compared: with bit 4",
        ],
    ),
    (
        "4 is given for 03 and 04 whether or not they are in the table",
        &["table: 03 added *", "table: 04 added *"],
    ),
    ("no id is both unknown and 03 or 04", &["each command: verdict 3: behind verdict 4"]),
    (
        "an unknown id, 03 and 04 are no groups and have neither masks nor values nor payload",
        &[
            "each command: verdict 4: behind verdict 5",
            "order: verdict 3 behind 5",
            "order: verdict 3 behind 6",
            "order: verdict 3 behind 7",
            "order: verdict 3 behind 15",
            "order: verdict 3 behind 16",
            "order: verdict 3 behind 17",
            "order: verdict 3 behind 18",
            "order: verdict 3 behind 19",
            "order: verdict 3 behind 9",
            "order: verdict 4 behind 6",
            "order: verdict 4 behind 7",
            "order: verdict 4 behind 15",
            "order: verdict 4 behind 16",
            "order: verdict 4 behind 17",
            "order: verdict 4 behind 18",
            "order: verdict 4 behind 19",
            "order: verdict 4 behind 9",
            "order: verdict 5 before 3",
        ],
    ),
    (
        "the first command follows nothing: 10 is never given for it",
        &["order: verdict 10 for all but the first"],
    ),
    (
        "at each work command the form brings its settings to the list's, so that both images \
         agree there",
        &["*form: *: compared with: LastWork"],
    ),
    (
        "a form has as many words whatever the order of its settings and the values of the last ones",
        &[
            "measure: form: *: order: *",
            "measure: form: after last work: values: *",
            "measure: table: 02: behind 26",
            "measure: table: 26: behind 30",
            "measure: table: 30: behind 31",
            "measure: table: 31: behind 84",
            "measure: table: 84: behind 88",
            "measure: table: 88: behind 8C",
            "measure: table: 8C: behind 90",
            "measure: table: 90: behind C4",
        ],
    ),
    (
        "only a BEGIN or the list's end follows a surface base: the settings before it are as many \
         behind it",
        &[
            "measure: table: 21: settings first: false",
            "measure: table: 23: settings first: false",
            "measure: table: 25: settings first: false",
        ],
    ),
    (
        "the list of the pairs is what is written: as many words as it has",
        &[
            "from pci: room: verdict 11: when: test: left: quantity: ListWords",
            "from_pci, verdict 0: words for position",
            "from_pci, verdict 0: position for words",
        ],
    ),
    (
        "a pair after the 4,096th comes behind 4,096 lists that were read with this image: it has 256 words",
        &["scenes: too many: tested: BehindImage"],
    ),
    (
        "neither the reader's answer nor its records nor the image have a word of a payload",
        &["reader in a mode: swapped: OwnWords"],
    ),
    (
        "a count over 256 is 22 by itself: the contents of others have far fewer than 2^32 words",
        &["books: reader: checks: verdict 22: fault 1: test: left: WrappedContents"],
    ),
    (
        "a length over 4,096 is 24 by itself: 256 others have far fewer than 2^32 words",
        &["books: reader: checks: verdict 24: fault 2: test: left: WrappedBodiesEnd"],
    ),
    (
        "a body that is too long has words",
        &["books: *: checks: verdict 24: fault 0: entries: WithWords"],
    ),
    (
        "scene numbers rise strictly: no two entries have the same",
        &["books: reader: found by: LastOfNumber"],
    ),
    (
        "no rule reads the image, and the listing doesn't show it",
        &["listing: starting word: 1, not 0"],
    ),
    (
        "every number has a digit, whether none or one is asked for",
        &[
            "listing: columns: *: least digits: 0, not 1",
            "tool: refused: *: least digits: 0, not 1",
            "tool: accepted: *: least digits: 0, not 1",
        ],
    ),
    (
        "an image of fewer than 256 words is refused with 2 by the functions themselves",
        &["tool: * sizes: verdict 2: when: test: Over, not NotEqual"],
    ),
    (
        "at most 32,776 bytes of pairs are read, a multiple of four: 12 is not given for so many",
        &["tool: pairs sizes: verdict 1: behind verdict 12"],
    ),
    (
        "at most 16,385 bytes of a list are read: one that is too long has 4,096 whole words",
        &["tool: list sizes: verdict 1: at ListLength"],
    ),
    (
        "the tool gives neither 8 nor 11, and a refusal is none of acceptance",
        &[
            "tool: refused: *: verdicts: with 0",
            "tool: refused: *: verdicts: with 8",
            "tool: refused: *: verdicts: with B",
        ],
    ),
    (
        "pairs that are through have no command cut short: 5 and 9 are not given with an address",
        &["tool: refused: 2: verdicts: without 5", "tool: refused: 2: verdicts: without 9"],
    ),
    (
        "a refusal has the image's bytes or an address, and acceptance the form's words or those written",
        &["tool: refused: 1: behind 2", "tool: accepted: 5: behind 6"],
    ),
];

/// A reason for a change of the rules is one for the same change in the measure alone.
pub fn reason(name: &str) -> Option<&'static str> {
    let everywhere = name.strip_prefix("measure: ").unwrap_or(name);
    let is_of = |pattern: &&str| matches(pattern, name) || matches(pattern, everywhere);
    let given = |(_, names): &&Reason| names.iter().any(is_of);
    REASONS.iter().find(given).map(|(reason, _)| *reason)
}

/// How many of the names are of none of these.
pub fn unused(mutants: &[Mutant]) -> usize {
    let used = |pattern: &&str| mutants.iter().any(|mutant| matches(pattern, &mutant.name));
    REASONS.iter().flat_map(|(_, names)| *names).filter(|pattern| !used(pattern)).count()
}

fn matches(pattern: &str, name: &str) -> bool {
    match pattern.split_once('*') {
        None => pattern == name,
        Some((front, "")) => name.starts_with(front),
        Some((front, rest)) => name
            .strip_prefix(front)
            .is_some_and(|name| name.char_indices().any(|(k, _)| matches(rest, &name[k..]))),
    }
}

#[cfg(test)]
mod tests {
    use super::matches;

    #[test]
    fn a_star_is_any_text() {
        assert!(matches("a*c", "abc") && matches("a*c*", "abcd") && matches("*", ""));
        assert!(!matches("a*c", "abcd") && !matches("a", "ab") && !matches("b*", "ab"));
    }
}
