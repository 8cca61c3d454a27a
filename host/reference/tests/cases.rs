//! The cases that document 01 names, and those of the points that decide how it is read.

use reference::accept::{accept, Facts, CUT, DATA_SUM, LENGTH, NUMBER, SHORT, TAIL};
use reference::make::{Recipe, Sample, BASE, GREATEST_A, GREATEST_B, GREATEST_C};
use reference::random::Random;
use reference::{numbers, Answer, FINE};

fn make(recipe: &Recipe) -> Sample {
    Sample::make(recipe, &mut Random::new(1))
}

fn answer(file: &[u8]) -> Answer {
    numbers(&accept(file))
}

fn header_length(a: u64, b: u64, c: u64) -> u32 {
    let sample = make(&Recipe {
        a,
        b,
        c,
        ..Recipe::plain()
    });
    accept(&sample.bytes).unwrap().header_length
}

#[test]
fn the_listed_file_gives_its_facts() {
    for order in [0, 1] {
        let mut sample = make(&Recipe {
            order,
            ..Recipe::plain()
        });
        sample.put(1, 78, 1, 0x81);
        sample.put(5, 19, 8, 0.5_f64.to_bits());
        sample.put(5, 27, 8, (-1.0_f64).to_bits());
        assert_eq!(sample.bytes.len(), 1_479);
        let expected = Facts {
            satellite: 8,
            day: 57_210,
            timeline: 200,
            band: 13,
            area: *b"FLDK",
            columns: 4,
            lines: 2,
            number: 1,
            total: 2,
            first_line: 1,
            valid_bits: 12,
            gain: 0x3fe0_0000_0000_0000,
            constant: 0xbff0_0000_0000_0000,
            quality: 0x81,
            header_length: 1_463,
            order: order as u8,
            a: 0,
            b: 0,
            c: 0,
        };
        assert_eq!(accept(&sample.bytes), Ok(expected));
    }
}

#[test]
fn numbers_are_read_in_the_order_that_the_file_names() {
    // The bytes are written out here, so that maker and reader cannot share a mistake.
    let little = make(&Recipe {
        columns: 3,
        lines: 2,
        first_line: 258,
        ..Recipe::plain()
    });
    assert_eq!(little.bytes[1..6], [0x1a, 0x01, 11, 0, 0]);
    assert_eq!(little.bytes[70..78], [0xb7, 0x05, 0, 0, 12, 0, 0, 0]);
    assert_eq!(little.bytes[1_004..1_011], [7, 47, 0, 2, 1, 2, 1]);
    assert_eq!(accept(&little.bytes).unwrap().first_line, 258);
    let big = make(&Recipe {
        order: 1,
        columns: 3,
        lines: 2,
        first_line: 259,
        ..Recipe::plain()
    });
    assert_eq!(big.bytes[1..6], [0x01, 0x1a, 0, 11, 1]);
    assert_eq!(big.bytes[70..78], [0, 0, 0x05, 0xb7, 0, 0, 0, 12]);
    assert_eq!(big.bytes[1_004..1_011], [7, 0, 47, 2, 1, 1, 3]);
    assert_eq!(accept(&big.bytes).unwrap().first_line, 259);
}

#[test]
fn doubles_are_kept_as_bits() {
    for order in [0, 1] {
        for bits in [
            0x7ff0_0000_0000_0001,
            0xfff8_1234_5678_9abc,
            0x0102_0304_0506_0708,
            1 << 63,
        ] {
            let mut sample = make(&Recipe {
                order,
                ..Recipe::plain()
            });
            sample.put(5, 19, 8, bits);
            sample.put(5, 27, 8, !bits);
            let facts = accept(&sample.bytes).unwrap();
            assert_eq!((facts.gain, facts.constant), (bits, !bits));
        }
    }
}

#[test]
fn few_bytes_are_short_whatever_they_hold() {
    assert_eq!(answer(&[]), (SHORT, 1, 0));
    let good = make(&Recipe::plain()).bytes;
    let mut noise = vec![0; 281];
    Random::new(2).fill(&mut noise);
    for bytes in [&[0; 281][..], &[1; 281], &[255; 281], &noise, &good[..281]] {
        assert_eq!(answer(bytes), (SHORT, 1, 0));
    }
    assert_eq!(answer(&[0; 282]), (NUMBER, 1, 0));
    assert_eq!(answer(&good[..282]), (SHORT, 2, 282));
}

#[test]
fn every_cut_is_short_in_its_block_or_cut() {
    for order in [0, 1] {
        for (a, b, c) in [(0, 0, 0), (2, 3, 4)] {
            let sample = make(&Recipe {
                order,
                a,
                b,
                c,
                ..Recipe::plain()
            });
            for length in 0..sample.bytes.len() {
                let block = (1..=12)
                    .rfind(|&block| sample.start(block) <= length)
                    .unwrap();
                let number = if block == 12 { CUT } else { SHORT };
                let start = sample.start(block) as u32;
                assert_eq!(
                    answer(&sample.bytes[..length]),
                    (number, block as u8, start),
                    "{length} bytes"
                );
            }
        }
    }
}

#[test]
fn a_wrong_number_in_a_cut_block_is_still_short() {
    for block in 1..=11 {
        let mut sample = make(&Recipe::plain());
        sample.put(block, 0, 1, 99);
        let (shown, start) = (block as u8, sample.start(block));
        let end = start + BASE[block - 1];
        let told = [end, end - 1].map(|end| answer(&sample.bytes[..end]));
        let start = start as u32;
        assert_eq!(told, [(NUMBER, shown, start), (SHORT, shown, start)]);
    }
}

#[test]
fn blocks_with_entries_are_short_after_their_length() {
    let recipe = Recipe {
        a: 5,
        b: 5,
        c: 5,
        ..Recipe::plain()
    };
    for (block, length_width, start) in [(8, 2, 1_051), (9, 2, 1_162), (10, 4, 1_257)] {
        let shown = block as u8;
        let sample = make(&recipe);
        // Enough for the block without entries: its number and length are looked at.
        let file_end = sample.start(block) + BASE[block - 1];
        let short = (SHORT, shown, start);
        assert_eq!(answer(&sample.bytes[..file_end]), short);
        let mut wrong = make(&recipe);
        wrong.put(block, 1, length_width, 1);
        let length = (LENGTH, shown, start + 1);
        assert_eq!(answer(&wrong.bytes[..file_end]), length);
        assert_eq!(answer(&wrong.bytes[..file_end - 1]), short);
    }
}

#[test]
fn one_byte_more_or_less() {
    for order in [0, 1] {
        let mut file = make(&Recipe {
            order,
            a: 1,
            b: 1,
            c: 1,
            ..Recipe::plain()
        })
        .bytes;
        file.push(0);
        assert_eq!(answer(&file), (TAIL, 12, 1_487));
        file.pop();
        assert_eq!(answer(&file), FINE);
        file.pop();
        assert_eq!(answer(&file), (CUT, 12, 1_487));
    }
}

#[test]
fn headers_have_the_named_lengths() {
    assert_eq!(header_length(0, 0, 0), 1_463);
    assert_eq!(header_length(4, 2, 0), 1_523);
    assert_eq!(header_length(GREATEST_A, GREATEST_B, GREATEST_C), 394_563);
    let greatest = make(&Recipe {
        a: GREATEST_A,
        b: GREATEST_B,
        c: GREATEST_C,
        ..Recipe::plain()
    });
    assert_eq!(greatest.start(9) - greatest.start(8), 65_531);
    assert_eq!(greatest.start(10) - greatest.start(9), 65_535);
    assert_eq!(greatest.start(11) - greatest.start(10), 262_187);
}

#[test]
fn entries_beyond_two_bytes_of_length_never_fit() {
    let refusal_8 = (LENGTH, 8, 1_052);
    let refusal_9 = (LENGTH, 9, 1_113);
    // Every length that can be written, with the first count that no length fits.
    for (block, offset, count, refusal) in [
        (8, 19, GREATEST_A + 1, refusal_8),
        (9, 3, GREATEST_B + 1, refusal_9),
    ] {
        let mut sample = make(&Recipe::plain());
        sample.put(block, offset, 2, count);
        for length in 0..=65_535 {
            sample.put(block, 1, 2, length);
            assert_eq!(answer(&sample.bytes), refusal);
        }
    }
    // Every greater count, with the length that wraps around.
    for (block, offset, first, refusal) in [
        (8, 19, GREATEST_A + 1, refusal_8),
        (9, 3, GREATEST_B + 1, refusal_9),
    ] {
        let mut sample = make(&Recipe::plain());
        for count in first..=65_535 {
            sample.put(block, offset, 2, count);
            sample.put(block, 1, 2, (BASE[block - 1] as u64 + 10 * count) % 65_536);
            assert_eq!(answer(&sample.bytes), refusal);
        }
    }
}

#[test]
fn the_length_of_block_10_has_four_bytes() {
    for order in [0, 1] {
        let mut sample = make(&Recipe {
            order,
            c: 20_000,
            ..Recipe::plain()
        });
        assert_eq!(answer(&sample.bytes), FINE);
        sample.put(10, 1, 4, 80_047 % 65_536);
        assert_eq!(answer(&sample.bytes), (LENGTH, 10, 1_158));
        sample.put(10, 1, 4, 80_047 + (1 << 24));
        assert_eq!(answer(&sample.bytes), (LENGTH, 10, 1_158));
    }
}

#[test]
fn counts_beyond_sixteen_bits() {
    for order in [0, 1] {
        // 2 x 22,000 x 2 is 88,000, or 22,464 in 16 bits.
        let sample = make(&Recipe {
            order,
            columns: 22_000,
            ..Recipe::plain()
        });
        assert_eq!(sample.bytes.len(), 1_463 + 88_000);
        assert_eq!(answer(&sample.bytes), FINE);
        assert_eq!(answer(&sample.bytes[..1_463 + 22_464]), (CUT, 12, 1_463));
        let mut wrapped = sample.clone();
        wrapped.put(1, 74, 4, 22_464);
        assert_eq!(answer(&wrapped.bytes), (DATA_SUM, 1, 74));
        let cut = &wrapped.bytes[..1_463 + 22_464];
        assert_eq!(answer(cut), (DATA_SUM, 1, 74));

        // 2 x 16,384 x 2 is 65,536, or nothing at all.
        let mut sample = make(&Recipe {
            order,
            columns: 16_384,
            ..Recipe::plain()
        });
        assert_eq!(answer(&sample.bytes), FINE);
        assert_eq!(answer(&sample.bytes[..1_463]), (CUT, 12, 1_463));
        sample.put(1, 74, 4, 0);
        assert_eq!(answer(&sample.bytes[..1_463]), (DATA_SUM, 1, 74));
    }
}

#[test]
fn the_greatest_picture_is_only_cut() {
    let mut sample = make(&Recipe::plain());
    sample.put(2, 5, 2, 22_000);
    sample.put(2, 7, 2, 22_000);
    sample.put(1, 74, 4, 968_000_000);
    assert_eq!(answer(&sample.bytes), (CUT, 12, 1_463));
}

#[test]
fn made_files_are_accepted_with_what_they_were_made_of() {
    let mut random = Random::new(3);
    for round in 0..20_000 {
        let recipe = match round % 400 {
            0 => Recipe::large(&mut random),
            _ => Recipe::small(&mut random),
        };
        let sample = Sample::make(&recipe, &mut random);
        let facts =
            accept(&sample.bytes).unwrap_or_else(|refusal| panic!("{refusal:?} for {recipe:?}"));
        assert_eq!(u64::from(facts.order), recipe.order);
        assert_eq!(u64::from(facts.satellite), recipe.satellite);
        assert_eq!(u64::from(facts.timeline), recipe.timeline);
        assert_eq!(u64::from(facts.band), recipe.band);
        assert_eq!(facts.area, recipe.area);
        assert_eq!(u64::from(facts.columns), recipe.columns);
        assert_eq!(u64::from(facts.lines), recipe.lines);
        assert_eq!(u64::from(facts.number), recipe.number);
        assert_eq!(u64::from(facts.total), recipe.total);
        assert_eq!(u64::from(facts.first_line), recipe.first_line);
        assert_eq!(u64::from(facts.valid_bits), recipe.valid_bits());
        assert_eq!(
            (u64::from(facts.a), u64::from(facts.b), u64::from(facts.c)),
            (recipe.a, recipe.b, recipe.c)
        );
        assert_eq!(facts.header_length as usize, sample.start(12));
        assert_eq!(facts.quality, sample.bytes[78]);
    }
}

#[test]
fn carried_bytes_may_hold_anything() {
    // First and end offset of what acceptance does not look at, block by block; entries have 2 each.
    let carried: [&[(usize, usize)]; 11] = [
        &[(22, 38), (42, 44), (46, 70), (78, 114), (242, 282)],
        &[(10, 50)],
        &[(3, 127)],
        &[(3, 139)],
        &[(5, 13), (19, 147)],
        &[(3, 259)],
        &[(7, 47)],
        &[(3, 19), (21, 81)],
        &[(5, 65)],
        &[(7, 55)],
        &[(3, 259)],
    ];
    for order in [0, 1] {
        let sample = make(&Recipe {
            order,
            a: 2,
            b: 2,
            c: 2,
            ..Recipe::plain()
        });
        let facts = accept(&sample.bytes).unwrap();
        let mut free: Vec<usize> = (sample.start(12)..sample.bytes.len()).collect();
        for (index, parts) in carried.iter().enumerate() {
            for &(from, to) in *parts {
                free.extend(sample.start(index + 1) + from..sample.start(index + 1) + to);
            }
        }
        let mut file = sample.bytes.clone();
        for at in free {
            for byte in [0, 1, 127, 128, 255, !sample.bytes[at]] {
                file[at] = byte;
                let mut other =
                    accept(&file).unwrap_or_else(|refusal| panic!("{refusal:?} at {at}"));
                (other.gain, other.constant, other.quality) =
                    (facts.gain, facts.constant, facts.quality);
                assert_eq!(other, facts);
            }
            file[at] = sample.bytes[at];
        }
    }
}
