//! The header's readers and writer: what is read from an image, what is written, and what is refused.

use reference::accept::{
    accept, AREA_FIELD, BAND_FIELD, BITS_FIELD, COMPRESSION_FIELD, LENGTH, NAME, ORDER, PACKED,
    ROOM, SATELLITE_FIELD, SEGMENT_FIELD, SIZE_FIELD, TIMELINE_FIELD,
};
use reference::damage;
use reference::images::{Images, REFUSALS};
use reference::make::{Recipe, Sample, GREATEST_A, GREATEST_B, GREATEST_C};
use reference::random::Random;
use reference::readers::{verdicts, Readings};
use reference::tally::Tally;
use reference::{numbers, Answer, Values, FINE};

fn make(recipe: &Recipe) -> Sample {
    Sample::make(recipe, &mut Random::new(1))
}

/// The values of a file with entries in all three blocks that can have them.
fn good(order: u64) -> Values {
    let sample = make(&Recipe {
        order,
        a: 2,
        b: 3,
        c: 4,
        ..Recipe::plain()
    });
    Values::of_image(&sample.bytes)
}

fn answer(values: &Values, room: usize) -> Answer {
    numbers(&values.write(room))
}

/// Now and then a file with many entries or of full size among the small ones.
fn any_recipe(round: u64, random: &mut Random) -> Recipe {
    match round % 400 {
        0 => Recipe::large(random),
        1 => Recipe::segment(random),
        _ => Recipe::small(random),
    }
}

#[test]
fn a_good_header_comes_back() {
    let mut random = Random::new(4);
    for round in 0..8_000 {
        let sample = Sample::make(&any_recipe(round, &mut random), &mut random);
        let header = &sample.bytes[..sample.start(12)];
        let values = Values::of_image(&sample.bytes);
        assert_eq!(values.header_length(), header.len() as u64);
        assert!(values.write(header.len()).as_deref() == Ok(header));
        // More room changes nothing, and what is behind the header is not looked at.
        assert!(values.write(header.len() + 9).as_deref() == Ok(header));
        assert!(Values::of_image(header) == values);
    }
}

#[test]
fn a_written_header_is_accepted() {
    let mut random = Random::new(5);
    for round in 0..8_000 {
        let recipe = any_recipe(round, &mut random);
        let mut sample = Sample::make(&recipe, &mut random);
        damage::derived(&mut sample, &mut random);
        let values = Values::of_image(&sample.bytes);
        let mut file = values.write(400_000).unwrap();
        assert!(Values::of_image(&file) == values);
        file.extend_from_slice(&sample.bytes[sample.start(12)..]);

        let facts = accept(&file).unwrap_or_else(|refusal| panic!("{refusal:?} for {recipe:?}"));
        assert_eq!(facts.order, values.order);
        assert_eq!(facts.satellite, values.satellite[9] - b'0');
        assert_eq!(facts.area, values.area);
        assert_eq!(facts.timeline, values.timeline);
        assert_eq!(facts.quality, values.quality[0]);
        assert_eq!((facts.columns, facts.lines), (values.columns, values.lines));
        assert_eq!(facts.band, values.band);
        assert_eq!(facts.valid_bits, values.valid_bits);
        assert_eq!(facts.gain, values.gain);
        assert_eq!(facts.constant, values.constant);
        assert_eq!((facts.total, facts.number), (values.total, values.number));
        assert_eq!(facts.first_line, values.first_line);
        assert_eq!(usize::from(facts.a), values.line_shifts.len());
        assert_eq!(usize::from(facts.b), values.line_times.len());
        assert_eq!(usize::from(facts.c), values.error_pixels.len());
    }
}

#[test]
fn every_value_stands_in_its_place() {
    // Places and bytes are written out here, so that reading and writing cannot share a mistake.
    for order in [0, 1] {
        let mut values = good(order);
        values.other = *b"ot";
        values.start_time = 0x0102_0304_0506_0708;
        values.end_time = 0x1112_1314_1516_1718;
        values.creation_time = 0x2122_2324_2526_2728;
        values.quality = [0x31, 0x32, 0x33, 0x34];
        values.wavelength = 0x4142_4344_4546_4748;
        values.gain = 0x5152_5354_5556_5758;
        values.constant = 0x6162_6364_6566_6768;
        values.first_line = 0x0173;
        values.centre_column = 0x7172_7374;
        values.centre_line = 0x8182_8384;
        values.rotation = 0x9192_9394_9596_9798;
        values.shifted_lines = vec![0xa1a2, 0xa3a4];
        values.column_shifts = vec![0xb1b2_b3b4, 0xb5b6_b7b8];
        values.line_shifts = vec![0xc1c2_c3c4, 0xc5c6_c7c8];
        values.timed_lines = vec![0xd1d2, 0xd3d4, 0xd5d6];
        values.line_times = vec![0xe1e2_e3e4_e5e6_e7e8, 2, 0xe9ea_ebec_edee_eff0];
        values.error_lines = vec![0xf1f2, 0xf3f4, 0xf5f6, 0xf7f8];
        values.error_pixels = vec![0x0a0b, 0x0c0d, 0x0e0f, 0x1a1b];
        let header = values.write(1_529).unwrap();
        assert_eq!(header.len(), 1_463 + 20 + 30 + 16);
        assert!(Values::of_image(&header) == values);

        let number = |at: usize, digits: &[u8]| {
            let mut shown = header[at..at + digits.len()].to_vec();
            if order == 0 {
                shown.reverse();
            }
            assert_eq!(shown, digits, "at {at}");
        };
        let run = |at: usize, bytes: &[u8]| assert_eq!(&header[at..at + bytes.len()], bytes);

        run(0, &[1]);
        number(1, &[0x01, 0x1a]);
        number(3, &[0, 11]);
        run(5, &[order as u8]);
        run(6, b"Himawari-8\0\0\0\0\0\0");
        run(22, &values.centre);
        run(38, b"FLDKot");
        number(44, &[0, 200]);
        number(46, &[1, 2, 3, 4, 5, 6, 7, 8]);
        number(54, &[0x11, 0x12, 0x13, 0x14, 0x15, 0x16, 0x17, 0x18]);
        number(62, &[0x21, 0x22, 0x23, 0x24, 0x25, 0x26, 0x27, 0x28]);
        number(70, &[0, 0, 0x05, 0xf9]);
        number(74, &[0, 0, 0, 16]);
        run(78, &[0x31, 0x32, 0x33, 0x34]);
        run(82, &values.version);
        run(114, b"HS_H08_20150707_0200_B13_FLDK_R20_S0102.DAT\0");
        run(242, &values.spare_1);

        run(282, &[2]);
        number(283, &[0, 50]);
        number(285, &[0, 16]);
        number(287, &[0, 4]);
        number(289, &[0, 2]);
        run(291, &[0]);
        run(292, &values.spare_2);

        run(332, &[3]);
        number(333, &[0, 127]);
        run(335, &values.carried_3);
        run(459, &[4]);
        number(460, &[0, 139]);
        run(462, &values.carried_4);

        run(598, &[5]);
        number(599, &[0, 147]);
        number(601, &[0, 13]);
        number(603, &[0x41, 0x42, 0x43, 0x44, 0x45, 0x46, 0x47, 0x48]);
        number(611, &[0, 12]);
        number(613, &[0xff, 0xff]);
        number(615, &[0xff, 0xfe]);
        number(617, &[0x51, 0x52, 0x53, 0x54, 0x55, 0x56, 0x57, 0x58]);
        number(625, &[0x61, 0x62, 0x63, 0x64, 0x65, 0x66, 0x67, 0x68]);
        run(633, &values.carried_5);
        run(745, &[6]);
        number(746, &[0x01, 0x03]);
        run(748, &values.carried_6);

        run(1_004, &[7]);
        number(1_005, &[0, 47]);
        run(1_007, &[2, 1]);
        number(1_009, &[0x01, 0x73]);
        run(1_011, &values.spare_7);

        run(1_051, &[8]);
        number(1_052, &[0, 81]);
        number(1_054, &[0x71, 0x72, 0x73, 0x74]);
        number(1_058, &[0x81, 0x82, 0x83, 0x84]);
        number(1_062, &[0x91, 0x92, 0x93, 0x94, 0x95, 0x96, 0x97, 0x98]);
        number(1_070, &[0, 2]);
        number(1_072, &[0xa1, 0xa2]);
        number(1_074, &[0xb1, 0xb2, 0xb3, 0xb4]);
        number(1_078, &[0xc1, 0xc2, 0xc3, 0xc4]);
        number(1_082, &[0xa3, 0xa4]);
        number(1_084, &[0xb5, 0xb6, 0xb7, 0xb8]);
        number(1_088, &[0xc5, 0xc6, 0xc7, 0xc8]);
        run(1_092, &values.spare_8);

        run(1_132, &[9]);
        number(1_133, &[0, 75]);
        number(1_135, &[0, 3]);
        number(1_137, &[0xd1, 0xd2]);
        number(1_139, &[0xe1, 0xe2, 0xe3, 0xe4, 0xe5, 0xe6, 0xe7, 0xe8]);
        number(1_157, &[0xd5, 0xd6]);
        number(1_159, &[0xe9, 0xea, 0xeb, 0xec, 0xed, 0xee, 0xef, 0xf0]);
        run(1_167, &values.spare_9);

        run(1_207, &[10]);
        number(1_208, &[0, 0, 0, 63]);
        number(1_212, &[0, 4]);
        number(1_214, &[0xf1, 0xf2]);
        number(1_216, &[0x0a, 0x0b]);
        number(1_226, &[0xf7, 0xf8]);
        number(1_228, &[0x1a, 0x1b]);
        run(1_230, &values.spare_10);
        run(1_270, &[11]);
        number(1_271, &[0x01, 0x03]);
        run(1_273, &values.spare_11);
    }
}

#[test]
fn bytes_past_the_end_are_zeros() {
    let nothing = Values::of_image(&[]);
    assert_eq!(nothing.name, [0; 128]);
    assert_eq!(nothing.header_length(), 1_463);
    assert_eq!(answer(&nothing, 1_463), (SATELLITE_FIELD, 1, 0));
    for order in [0, 1] {
        let sample = make(&Recipe {
            order,
            a: 2,
            b: 3,
            c: 4,
            ..Recipe::plain()
        });
        for length in 0..=sample.bytes.len() {
            let mut longer = sample.bytes[..length].to_vec();
            let values = Values::of_image(&longer);
            longer.resize(2_000, 0);
            assert!(Values::of_image(&longer) == values);
        }
        // The values end with block 7: the entries and all after them may be missing.
        let mut header = sample.bytes[..1_051].to_vec();
        let written = Values::of_image(&header).write(1_463).unwrap();
        header.resize(1_463, 0);
        for (at, bytes) in [(70, [0, 0, 0x05, 0xb7]), (1_158, [0, 0, 0, 47])] {
            header[at..at + 4].copy_from_slice(&bytes);
            if order == 0 {
                header[at..at + 4].reverse();
            }
        }
        for (at, number, length) in [
            (1_051, 8, 61_u16),
            (1_112, 9, 45),
            (1_157, 10, 0),
            (1_204, 11, 259),
        ] {
            header[at] = number;
            let length = match (number, order) {
                (10, _) => continue,
                (_, 0) => length.to_le_bytes(),
                _ => length.to_be_bytes(),
            };
            header[at + 1..at + 3].copy_from_slice(&length);
        }
        assert_eq!(written, header);
    }
}

#[test]
fn any_order_but_0_is_read_as_big_endian() {
    let mut sample = make(&Recipe {
        order: 1,
        a: 1,
        ..Recipe::plain()
    });
    let big = Values::of_image(&sample.bytes);
    for order in 2..=255 {
        sample.put(1, 5, 1, order);
        let mut values = Values::of_image(&sample.bytes);
        assert_eq!(answer(&values, 10_000), (ORDER, 1, 0));
        values.order = 1;
        assert!(values == big);
    }
}

#[test]
fn the_greatest_header() {
    let sample = make(&Recipe {
        a: GREATEST_A,
        b: GREATEST_B,
        c: GREATEST_C,
        ..Recipe::plain()
    });
    let mut values = Values::of_image(&sample.bytes);
    assert_eq!(values.write(394_563).unwrap().len(), 394_563);
    assert_eq!(answer(&values, 394_562), (ROOM, 0, 0));
    // As an image holds at most 65,535 entries of block 10, one more is only for the writer.
    values.error_lines.push(0);
    values.error_pixels.push(0);
    assert_eq!(answer(&values, 400_000), (LENGTH, 10, 0));
    values.timed_lines.push(0);
    values.line_times.push(0);
    assert_eq!(answer(&values, 400_000), (LENGTH, 9, 0));
    values.shifted_lines.push(0);
    values.column_shifts.push(0);
    values.line_shifts.push(0);
    assert_eq!(answer(&values, 400_000), (LENGTH, 8, 0));
}

type Fault = (u8, u8, fn(&mut Values));

/// In the order of the checks. None has a place: these values come from no file.
fn faults() -> Vec<Fault> {
    vec![
        (ORDER, 1, |values| values.order = 2),
        (ORDER, 1, |values| values.order = 255),
        (SATELLITE_FIELD, 1, |values| values.satellite[9] = b'7'),
        (SATELLITE_FIELD, 1, |values| values.satellite[15] = b' '),
        (AREA_FIELD, 1, |values| values.area = *b"R421"),
        (TIMELINE_FIELD, 1, |values| values.timeline = 2_400),
        (TIMELINE_FIELD, 1, |values| values.timeline = 2_360),
        (TIMELINE_FIELD, 1, |values| values.timeline = 65_500),
        (TIMELINE_FIELD, 1, |values| values.timeline = 205),
        (PACKED, 2, |values| values.flag = 1),
        (PACKED, 2, |values| values.flag = 2),
        (SIZE_FIELD, 2, |values| values.columns = 0),
        (SIZE_FIELD, 2, |values| values.columns = 22_001),
        (SIZE_FIELD, 2, |values| values.lines = 0),
        (SIZE_FIELD, 2, |values| values.lines = 22_001),
        (COMPRESSION_FIELD, 2, |values| values.flag = 3),
        (BAND_FIELD, 5, |values| values.band = 0),
        (BAND_FIELD, 5, |values| values.band = 17),
        (BITS_FIELD, 5, |values| values.valid_bits = 13),
        (SEGMENT_FIELD, 7, |values| values.total = 0),
        (SEGMENT_FIELD, 7, |values| values.total = 100),
        (SEGMENT_FIELD, 7, |values| values.number = 0),
        (SEGMENT_FIELD, 7, |values| values.number = values.total + 1),
        (SEGMENT_FIELD, 7, |values| values.first_line = 0),
        (SEGMENT_FIELD, 7, |values| values.first_line = 22_000),
        (SEGMENT_FIELD, 7, |values| values.first_line = 65_535),
        (LENGTH, 8, |values| {
            values.shifted_lines.resize(6_548, 0);
            values.column_shifts.resize(6_548, 0);
            values.line_shifts.resize(6_548, 0);
        }),
        (LENGTH, 8, |values| values.shifted_lines.clear()),
        (LENGTH, 8, |values| values.column_shifts.clear()),
        (LENGTH, 8, |values| values.line_shifts.push(0)),
        (LENGTH, 9, |values| {
            values.timed_lines.resize(6_550, 0);
            values.line_times.resize(6_550, 0);
        }),
        (LENGTH, 9, |values| values.timed_lines.clear()),
        (LENGTH, 9, |values| values.line_times.push(0)),
        (LENGTH, 10, |values| {
            values.error_lines.resize(65_536, 0);
            values.error_pixels.resize(65_536, 0);
        }),
        (LENGTH, 10, |values| values.error_lines.push(0)),
        (LENGTH, 10, |values| values.error_pixels.clear()),
        (NAME, 1, |values| values.name[0] = b'h'),
        (NAME, 1, |values| {
            values.name[7..15].copy_from_slice(b"20230229")
        }),
        (NAME, 1, |values| values.name[127] = b' '),
    ]
}

#[test]
fn each_fault_alone() {
    for order in [0, 1] {
        let length = good(order).header_length() as usize;
        assert_eq!(answer(&good(order), length), FINE);
        for room in [0, 1, 1_463, length - 1] {
            assert_eq!(answer(&good(order), room), (ROOM, 0, 0));
        }
        for (number, block, fault) in faults() {
            let mut values = good(order);
            fault(&mut values);
            assert_eq!(answer(&values, 400_000), (number, block, 0));
            // Room is looked at last.
            assert_eq!(answer(&values, 0), (number, block, 0));
        }
    }
}

#[test]
fn of_two_faults_the_earlier_answers() {
    for order in [0, 1] {
        let all = faults();
        for (later_at, (_, _, later)) in all.iter().enumerate() {
            for (number, block, earlier) in &all[..later_at] {
                let mut values = good(order);
                later(&mut values);
                earlier(&mut values);
                // Where both change one value, the earlier is the one that stands.
                assert_eq!(answer(&values, 400_000), (*number, *block, 0));
            }
        }
    }
}

#[test]
fn the_readers_of_entries_ask_for_room() {
    let read =
        |file: &[u8], room: usize| verdicts(&accept(file), room).map(|verdict| numbers(&verdict));
    let no_room = (ROOM, 0, 0);
    for order in [0, 1] {
        let mut file = make(&Recipe {
            order,
            a: 2,
            b: 4,
            c: 3,
            ..Recipe::plain()
        })
        .bytes;
        for room in [4, 5, 65_536] {
            assert_eq!(read(&file, room), [FINE; 4]);
        }
        assert_eq!(read(&file, 3), [FINE, FINE, no_room, FINE]);
        assert_eq!(read(&file, 2), [FINE, FINE, no_room, no_room]);
        assert_eq!(read(&file, 1), [FINE, no_room, no_room, no_room]);
        assert_eq!(read(&file, 0), [FINE, no_room, no_room, no_room]);
        // The file's own refusal comes first.
        file.pop();
        for room in [0, 2, 65_536] {
            assert_eq!(read(&file, room), [(11, 12, 1_535); 4]);
        }
    }
    let none = make(&Recipe::plain()).bytes;
    assert_eq!(read(&none, 0), [FINE; 4]);
    assert_eq!(read(&[], 0), [(1, 1, 0); 4]);
}

#[test]
fn the_images_reach_every_answer() {
    let images = Images::new(12_000);
    let mut tally = Tally::new("written", &REFUSALS);
    let mut readings = Readings::new();
    for number in 0..images.cases {
        let asked = images.case(number);
        assert!(asked.image.len() <= 65_536 && asked.room <= 400_000 && asked.entries <= 65_536);
        let again = Values::of_image(&asked.image).write(asked.room);
        assert!(again == asked.written);
        tally.count(asked.kind, &again);
        readings.count(&asked.file, asked.entries, again.is_ok());
    }
    tally.print();
    readings.print();
    let least = images.cases / 600;
    tally.check(images.cases / 12, least, least);
    readings.check(images.cases);
}
