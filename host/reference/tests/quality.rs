//! The marks of quality flag 1: the documents' cases by the reference alone, then every flag there is by the proved
//! library too.

use reference::proved::Bridge;
use reference::quality::Mark::{self, No, NotKnown, Yes};
use reference::quality::{marks, NAMES};

/// An invalid flag, whatever its other bits are.
const DISOWNED: [Mark; 8] = [
    Yes, NotKnown, NotKnown, NotKnown, NotKnown, NotKnown, NotKnown, NotKnown,
];

#[test]
fn the_artists_hour() {
    // "in eclipse" was lit, and the top bit too
    assert_eq!(marks(0b1000_0001), DISOWNED);
    // with the top bit clear the hour would have been in eclipse
    assert_eq!(marks(0b0000_0001), [No, No, No, No, No, No, No, Yes]);
}

#[test]
fn nothing_is_set() {
    assert_eq!(marks(0x00), [No; 8]);
}

#[test]
fn all_but_the_top_bit_are_set() {
    assert_eq!(marks(0x7f), [No, Yes, Yes, Yes, Yes, Yes, Yes, Yes]);
}

/// The guides' table, bit 1 to bit 8.
#[test]
fn each_bit_alone() {
    let table = [
        (0x80, "invalid"),
        (0x40, "sun"),
        (0x20, "moon"),
        (0x10, "test"),
        (0x08, "manoeuvre"),
        (0x04, "unloading"),
        (0x02, "solar_calibration"),
        (0x01, "eclipse"),
    ];
    for (flag, name) in table {
        let lit: Vec<&str> = (NAMES.into_iter().zip(marks(flag)))
            .filter_map(|(name, mark)| (mark == Yes).then_some(name))
            .collect();
        assert_eq!(lit, [name], "flag {flag:02x}");
        let unknown = marks(flag).iter().filter(|mark| **mark == NotKnown).count();
        assert_eq!(
            unknown,
            if name == "invalid" { 7 } else { 0 },
            "flag {flag:02x}"
        );
    }
}

#[test]
fn the_top_bit_disowns_every_other() {
    for flag in 0x80..=0xff {
        assert_eq!(marks(flag), DISOWNED, "flag {flag:02x}");
    }
}

/// No two flags that are valid show the same marks: each mark is as it stands in the byte.
#[test]
fn valid_flags_are_told_apart() {
    for flag in 0x00..=0x7f {
        let back = marks(flag)
            .iter()
            .fold(0, |byte, mark| 2 * byte + u8::from(*mark == Yes));
        assert_eq!(back, flag);
        assert!(!marks(flag).contains(&NotKnown), "flag {flag:02x}");
    }
}

#[test]
fn numbers_and_words() {
    let shown = [No, Yes, NotKnown].map(|mark| (mark.number(), mark.word()));
    assert_eq!(shown, [(0, "no"), (1, "yes"), (2, "unknown")]);
}

/// All 256 flags, each of the eight members, through the C function.
#[test]
fn the_proved_library_tells_the_same() {
    let Bridge {
        mut requests,
        mut answers,
    } = Bridge::start();
    for flag in 0..=u8::MAX {
        requests.ask_quality(flag).expect("the bridge reads");
    }
    requests.end().expect("the bridge reads");
    let mut members = 0;
    for flag in 0..=u8::MAX {
        let given = answers.next_quality().expect("the bridge answers");
        for ((name, mark), number) in NAMES.iter().zip(marks(flag)).zip(given) {
            assert_eq!(number, mark.number(), "{name} of flag {flag:02x}");
            members += 1;
        }
    }
    assert!(answers.ended_well(), "the bridge did not end well");
    println!("{members} marks of 256 flags compared");
    assert_eq!(members, 256 * 8);
}
