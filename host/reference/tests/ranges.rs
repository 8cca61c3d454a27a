//! Every range of document 01, tried on all values of its field.

use std::collections::BTreeMap;

use reference::accept::{
    accept, AREA_FIELD, BAND_FIELD, BITS_FIELD, COMPRESSION_FIELD, DATA_SUM, FIXED, HEADER_SUM,
    LENGTH, NAME, NUMBER, ORDER, PACKED, SATELLITE_FIELD, SEGMENT_FIELD, SIZE_FIELD,
    TIMELINE_FIELD,
};
use reference::make::{areas, length_width, Recipe, Sample, BASE};
use reference::random::Random;
use reference::{numbers, Answer, FINE};

/// Where blocks 1 to 11 begin in a file without entries.
const STARTS: [u32; 11] = [
    0, 282, 332, 459, 598, 745, 1_004, 1_051, 1_112, 1_157, 1_204,
];

fn make(recipe: &Recipe) -> Sample {
    Sample::make(recipe, &mut Random::new(1))
}

fn answer(sample: &Sample) -> Answer {
    numbers(&accept(&sample.bytes))
}

/// The plain file in both byte orders.
fn both_orders() -> [Sample; 2] {
    [0, 1].map(|order| {
        make(&Recipe {
            order,
            ..Recipe::plain()
        })
    })
}

/// One field takes all values of its width. The lawful ones are accepted, and all others get this
/// one refusal.
fn try_all(
    block: usize,
    offset: usize,
    width: usize,
    refusal: Answer,
    lawful: impl Fn(u64) -> bool,
) {
    for mut sample in both_orders() {
        for value in 0..1 << (8 * width) {
            sample.put(block, offset, width, value);
            let expected = if lawful(value) { FINE } else { refusal };
            assert_eq!(
                answer(&sample),
                expected,
                "{value} at {offset} of block {block}"
            );
        }
    }
}

#[test]
fn block_numbers() {
    for block in 1..=11 {
        let refusal = (NUMBER, block as u8, STARTS[block - 1]);
        try_all(block, 0, 1, refusal, |value| value == block as u64);
    }
}

#[test]
fn block_lengths() {
    for block in 1..=11 {
        let base = BASE[block - 1] as u64;
        if length_width(block) == 2 {
            let refusal = (LENGTH, block as u8, STARTS[block - 1] + 1);
            try_all(block, 1, 2, refusal, |value| value == base);
        }
    }
    for mut sample in both_orders() {
        for bit in 0..32 {
            sample.put(10, 1, 4, 47 ^ (1 << bit));
            assert_eq!(answer(&sample), (LENGTH, 10, 1_158));
        }
    }
}

#[test]
fn byte_order() {
    for mut sample in both_orders() {
        for value in 0..=255 {
            sample.put(1, 5, 1, value);
            let expected = match value {
                value if value == sample.recipe.order => FINE,
                0 | 1 => (LENGTH, 1, 1),
                _ => (ORDER, 1, 5),
            };
            assert_eq!(answer(&sample), expected);
        }
    }
}

#[test]
fn fixed_values() {
    try_all(1, 3, 2, (FIXED, 1, 3), |value| value == 11);
    try_all(2, 3, 2, (FIXED, 2, 285), |value| value == 16);
    try_all(5, 15, 2, (FIXED, 5, 613), |value| value == 65_535);
    try_all(5, 17, 2, (FIXED, 5, 615), |value| value == 65_534);
}

#[test]
fn compression_flag() {
    for mut sample in both_orders() {
        for value in 0..=255 {
            sample.put(2, 9, 1, value);
            let expected = match value {
                0 => FINE,
                1 | 2 => (PACKED, 2, 291),
                _ => (COMPRESSION_FIELD, 2, 291),
            };
            assert_eq!(answer(&sample), expected);
        }
    }
}

#[test]
fn columns_and_lines() {
    // The sum stays as it was, so a lawful size gets as far as DATA SUM.
    for (offset, right, place) in [(5, 4, 287), (7, 2, 289)] {
        for mut sample in both_orders() {
            for value in 0..=65_535 {
                sample.put(2, offset, 2, value);
                let expected = match value {
                    value if value == right => FINE,
                    1..=22_000 => (DATA_SUM, 1, 74),
                    _ => (SIZE_FIELD, 2, place),
                };
                assert_eq!(answer(&sample), expected);
            }
        }
    }
    for (columns, lines) in [(22_000, 1), (1, 22_000), (1, 1)] {
        assert_eq!(
            answer(&make(&Recipe {
                columns,
                lines,
                ..Recipe::plain()
            })),
            FINE
        );
    }
}

#[test]
fn satellites() {
    for satellite in [8, 9] {
        let good = make(&Recipe {
            satellite,
            ..Recipe::plain()
        });
        for at in 6..22 {
            for value in 0..=255 {
                let mut sample = good.clone();
                sample.put(1, at, 1, value);
                // The digit of the other satellite is in range, but the name tells another.
                let expected = if sample.bytes == good.bytes {
                    FINE
                } else if at == 15 && (value == u64::from(b'8') || value == u64::from(b'9')) {
                    (NAME, 1, 114)
                } else {
                    (SATELLITE_FIELD, 1, 6)
                };
                assert_eq!(answer(&sample), expected);
            }
        }
    }
    let mut sample = make(&Recipe::plain());
    for text in [
        b"MTSAT-2\0\0\0\0\0\0\0\0\0",
        b"Himawari-8      ",
        b"himawari-8\0\0\0\0\0\0",
        b"HIMAWARI-8\0\0\0\0\0\0",
    ] {
        sample.put_text(1, 6, text);
        assert_eq!(answer(&sample), (SATELLITE_FIELD, 1, 6));
    }
}

#[test]
fn every_area() {
    let lawful = areas();
    assert_eq!(lawful.len(), 49);
    let mut tried = lawful.clone();
    for first in *b"FJRfjr HN0" {
        for second in *b"LPlp0123456789 N" {
            for third in *b"0123456789D/: \0" {
                for fourth in *b"0123456789K/: \0" {
                    tried.push([first, second, third, fourth]);
                }
            }
        }
    }
    for area in tried {
        // The name follows, so nothing but the range decides.
        let sample = make(&Recipe {
            area,
            ..Recipe::plain()
        });
        let expected = if lawful.contains(&area) {
            FINE
        } else {
            (AREA_FIELD, 1, 38)
        };
        assert_eq!(answer(&sample), expected, "{}", area.escape_ascii());
    }
}

#[test]
fn timelines() {
    let mut lawful = Vec::new();
    for hour in 0..24 {
        for minute in [0, 10, 20, 30, 40, 50] {
            lawful.push(100 * hour + minute);
        }
    }
    for timeline in 0..=65_535 {
        let mut sample = make(&Recipe::plain());
        sample.put(1, 44, 2, timeline);
        let followed = Recipe {
            timeline,
            ..Recipe::plain()
        }
        .name();
        if lawful.contains(&timeline) && timeline != 200 {
            assert_eq!(answer(&sample), (NAME, 1, 114));
        }
        sample.put_text(1, 114, &followed);
        let expected = if lawful.contains(&timeline) {
            FINE
        } else {
            (TIMELINE_FIELD, 1, 44)
        };
        assert_eq!(answer(&sample), expected, "{timeline}");
    }
}

#[test]
fn bands_and_valid_bits() {
    // Table 1, row by row.
    let table = [
        11, 11, 11, 11, 11, 11, 14, 11, 11, 12, 12, 12, 12, 12, 12, 11,
    ];
    for order in [0, 1] {
        for band in 1..=16 {
            let mut sample = make(&Recipe {
                order,
                band,
                ..Recipe::plain()
            });
            for bits in (0..=300).chain(65_000..=65_535) {
                sample.put(5, 13, 2, bits);
                let expected = if bits == table[band as usize - 1] {
                    FINE
                } else {
                    (BITS_FIELD, 5, 611)
                };
                assert_eq!(answer(&sample), expected, "band {band}, {bits} bits");
            }
        }
        for band in (17..=65_535).chain([0]) {
            let mut sample = make(&Recipe {
                order,
                ..Recipe::plain()
            });
            sample.put(5, 3, 2, band);
            let refusal = (BAND_FIELD, 5, 601);
            assert_eq!(answer(&sample), refusal, "band {band}");
        }
    }
}

#[test]
fn segment_totals_and_numbers() {
    let good = make(&Recipe::plain());
    for total in 0..=255 {
        for number in 0..=255 {
            let mut sample = good.clone();
            sample.put(7, 3, 1, total);
            sample.put(7, 4, 1, number);
            sample.put_text(
                1,
                114,
                &Recipe {
                    total,
                    number,
                    ..Recipe::plain()
                }
                .name(),
            );
            // A number above the total is the number's fault.
            let expected = if !(1..=99).contains(&total) {
                (SEGMENT_FIELD, 7, 1_007)
            } else if !(1..=total).contains(&number) {
                (SEGMENT_FIELD, 7, 1_008)
            } else {
                FINE
            };
            assert_eq!(answer(&sample), expected, "{number} of {total}");
        }
    }
}

#[test]
fn first_lines() {
    for lines in [1, 2, 3, 21_999, 22_000] {
        for order in [0, 1] {
            let mut sample = make(&Recipe {
                order,
                columns: 1,
                lines,
                ..Recipe::plain()
            });
            for first in 0..=65_535 {
                sample.put(7, 5, 2, first);
                // Counted backwards from the last line that there can be.
                let lawful = first >= 1 && first <= 22_001 - lines;
                let refusal = (SEGMENT_FIELD, 7, 1_009);
                let expected = if lawful { FINE } else { refusal };
                assert_eq!(answer(&sample), expected, "{lines} lines from {first}");
            }
        }
    }
}

#[test]
fn sums() {
    for (offset, right, refusal) in [(70, 1_463, HEADER_SUM), (74, 16, DATA_SUM)] {
        for mut sample in both_orders() {
            for value in
                (0..=65_535).chain([right + (1 << 16), right + (1 << 24), right << 16, u64::MAX])
            {
                sample.put(1, offset, 4, value);
                let expected = if value == right {
                    FINE
                } else {
                    (refusal, 1, offset as u32)
                };
                assert_eq!(answer(&sample), expected);
            }
        }
    }
}

#[test]
fn every_letter_of_the_name() {
    let good = make(&Recipe {
        month: 10,
        ..Recipe::plain()
    });
    assert_eq!(
        &good.bytes[114..157],
        b"HS_H08_20151007_0200_B13_FLDK_R20_S0102.DAT"
    );
    assert_eq!(good.bytes[157..242], [0; 85]);
    for at in 0..128 {
        // The date has its own test.
        if (7..15).contains(&at) {
            continue;
        }
        let mut sample = good.clone();
        for value in 0..=255 {
            sample.put(1, 114 + at, 1, value);
            let expected = if sample.bytes == good.bytes {
                FINE
            } else {
                (NAME, 1, 114)
            };
            assert_eq!(answer(&sample), expected, "{value} at {at}");
        }
    }
}

#[test]
fn every_date() {
    // The calendar, walked day by day from the one day that the paper fixes.
    let mut calendar = BTreeMap::new();
    let (mut year, mut month, mut day, mut count) = (2000, 1, 1, 51_544);
    while year < 2100 {
        calendar.insert((year, month, day), count);
        count += 1;
        day += 1;
        let length = match (month, year % 4) {
            (2, 0) => 29,
            (2, _) => 28,
            (4 | 6 | 9 | 11, _) => 30,
            _ => 31,
        };
        if day > length {
            (month, day) = (month + 1, 1);
        }
        if month > 12 {
            (year, month) = (year + 1, 1);
        }
    }
    assert_eq!(calendar[&(2015, 7, 7)], 57_210);
    assert_eq!(calendar[&(2099, 12, 31)], 88_068);
    assert!(!calendar.contains_key(&(2023, 2, 29)));

    let mut sample = make(&Recipe::plain());
    for year in (0..=2)
        .chain(1899..=1901)
        .chain(1996..=2104)
        .chain([2400, 9999])
    {
        for month in (0..=19).chain([99]) {
            for day in (0..=39).chain([99]) {
                sample.put_text(
                    1,
                    114,
                    &Recipe {
                        year,
                        month,
                        day,
                        ..Recipe::plain()
                    }
                    .name(),
                );
                let given = accept(&sample.bytes).map(|facts| facts.day);
                match calendar.get(&(year, month, day)) {
                    Some(count) => assert_eq!(given, Ok(*count), "{year} {month} {day}"),
                    None => assert_eq!(answer(&sample), (NAME, 1, 114), "{year} {month} {day}"),
                }
            }
        }
    }
    // In a date, too, only digits are read.
    for at in 7..15 {
        for value in (0..=255).filter(|value| !(48..=57).contains(value)) {
            let mut sample = make(&Recipe::plain());
            sample.put(1, 114 + at, 1, value);
            assert_eq!(answer(&sample), (NAME, 1, 114));
        }
    }
}

#[test]
fn resolutions() {
    for band in 1..=16 {
        let right = match band {
            3 => 5,
            5..=16 => 20,
            _ => 10,
        };
        for resolution in 0..100 {
            let mut sample = make(&Recipe {
                band,
                ..Recipe::plain()
            });
            sample.put_text(1, 114 + 31, format!("{resolution:02}").as_bytes());
            let expected = if resolution == right {
                FINE
            } else {
                (NAME, 1, 114)
            };
            assert_eq!(
                answer(&sample),
                expected,
                "R{resolution:02} for band {band}"
            );
        }
    }
}

#[test]
fn a_name_of_another_file() {
    let plain = Recipe::plain();
    let others = [
        Recipe {
            satellite: 9,
            ..plain.clone()
        },
        Recipe {
            timeline: 210,
            ..plain.clone()
        },
        Recipe {
            band: 14,
            ..plain.clone()
        },
        Recipe {
            area: *b"JP01",
            ..plain.clone()
        },
        Recipe {
            number: 2,
            ..plain.clone()
        },
        Recipe {
            total: 3,
            ..plain.clone()
        },
    ];
    let good = make(&plain);
    for other in others {
        assert_eq!(answer(&make(&other)), FINE);
        let mut sample = good.clone();
        sample.put_text(1, 114, &other.name());
        assert_eq!(answer(&sample), (NAME, 1, 114), "{other:?}");
    }
}
