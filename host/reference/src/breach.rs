//! Every rule of document 01 broken once or more, in the order in which the rules are checked, with what document 02
//! has told of it.

use crate::accept::{
    Answer, AREA_FIELD, BAND_FIELD, BITS_FIELD, COMPRESSION_FIELD, CUT, DATA_SUM, FIXED,
    HEADER_SUM, LENGTH, NAME, NUMBER, ORDER, PACKED, SATELLITE_FIELD, SEGMENT_FIELD, SHORT,
    SIZE_FIELD, TAIL, TIMELINE_FIELD,
};
use crate::make::{length_width, Recipe, Sample, BASE};
use Change::{End, Number, OneMore, Text};

/// A change to a good file.
enum Change {
    /// Block, offset, width, value.
    Number(usize, usize, usize, u64),
    /// Block, offset, text.
    Text(usize, usize, &'static [u8]),
    /// The file ends so many bytes after the block's start.
    End(usize, usize),
    OneMore,
}

/// A change that breaks one rule, with the refusal, the block and the offset that it earns.
pub struct Breach {
    change: Change,
    pub answer: Answer,
}

impl Breach {
    pub fn apply(&self, sample: &mut Sample) {
        match self.change {
            Number(block, offset, width, value) => sample.put(block, offset, width, value),
            Text(block, offset, text) => sample.put_text(block, offset, text),
            End(block, offset) => {
                let end = sample.start(block) + offset;
                sample.bytes.truncate(end);
            }
            OneMore => sample.bytes.push(0),
        }
    }
}

/// A file with entries in all three blocks that can have them.
pub fn recipe(order: u64) -> Recipe {
    Recipe {
        order,
        a: 2,
        b: 3,
        c: 4,
        ..Recipe::plain()
    }
}

/// Where blocks 1 to 11 and the counts begin, by the documents' formulas.
fn beginnings(recipe: &Recipe) -> [u64; 12] {
    let Recipe { a, b, c, .. } = recipe;
    [
        0,
        282,
        332,
        459,
        598,
        745,
        1_004,
        1_051,
        1_112 + 10 * a,
        1_157 + 10 * a + 10 * b,
        1_204 + 10 * a + 10 * b + 4 * c,
        1_463 + 10 * a + 10 * b + 4 * c,
    ]
}

/// The breaches of a file that was made by a recipe, in the order of the checks: blocks 1 to 11, each with 1, 2, 3 (block
/// 1), 4, 1 again (blocks 8 to 10), 5, 6, 31 to 38; then 8 to 12. What each earns holds for recipes that differ from the
/// plain one in byte order and entries alone.
pub fn breaches(recipe: &Recipe) -> Vec<Breach> {
    let at = beginnings(recipe);
    let mut all = List(Vec::new());
    for block in 1..=11 {
        let shown = block as u8;
        let start = at[block - 1];
        all.add(SHORT, shown, start, End(block, 0));
        all.add(SHORT, shown, start, End(block, BASE[block - 1] - 1));
        all.add(NUMBER, shown, start, Number(block, 0, 1, 12));
        if block == 1 {
            all.add(ORDER, 1, 5, Number(1, 5, 1, 2));
        }
        let length = Number(block, 1, length_width(block), 1);
        all.add(LENGTH, shown, start + 1, length);
        match block {
            1 => all.fields_of_block_1(),
            2 => all.fields_of_block_2(),
            5 => all.fields_of_block_5(),
            7 => all.fields_of_block_7(),
            8 => all.entries(8, start, 19, recipe.a, 10),
            9 => all.entries(9, start, 3, recipe.b, 10),
            10 => all.entries(10, start, 5, recipe.c, 4),
            _ => {}
        }
    }
    all.after_the_blocks(at[11]);
    all.0
}

struct List(Vec<Breach>);

impl List {
    fn add(&mut self, number: u8, block: u8, offset: u64, change: Change) {
        self.0.push(Breach {
            change,
            answer: (number, block, offset as u32),
        });
    }

    fn fields_of_block_1(&mut self) {
        self.add(FIXED, 1, 3, Number(1, 3, 2, 12));
        let mtsat = Text(1, 6, b"MTSAT-2\0\0\0\0\0\0\0\0\0");
        self.add(SATELLITE_FIELD, 1, 6, mtsat);
        self.add(AREA_FIELD, 1, 38, Text(1, 38, b"JP05"));
        self.add(TIMELINE_FIELD, 1, 44, Number(1, 44, 2, 2_400));
    }

    fn fields_of_block_2(&mut self) {
        self.add(FIXED, 2, 285, Number(2, 3, 2, 15));
        self.add(PACKED, 2, 291, Number(2, 9, 1, 1));
        self.add(PACKED, 2, 291, Number(2, 9, 1, 2));
        self.add(SIZE_FIELD, 2, 287, Number(2, 5, 2, 0));
        self.add(SIZE_FIELD, 2, 287, Number(2, 5, 2, 22_001));
        self.add(SIZE_FIELD, 2, 289, Number(2, 7, 2, 0));
        self.add(SIZE_FIELD, 2, 289, Number(2, 7, 2, 22_001));
        self.add(COMPRESSION_FIELD, 2, 291, Number(2, 9, 1, 3));
    }

    fn fields_of_block_5(&mut self) {
        self.add(FIXED, 5, 613, Number(5, 15, 2, 65_534));
        self.add(FIXED, 5, 615, Number(5, 17, 2, 65_535));
        self.add(BAND_FIELD, 5, 601, Number(5, 3, 2, 0));
        self.add(BAND_FIELD, 5, 601, Number(5, 3, 2, 17));
        self.add(BITS_FIELD, 5, 611, Number(5, 13, 2, 13));
    }

    fn fields_of_block_7(&mut self) {
        self.add(SEGMENT_FIELD, 7, 1_007, Number(7, 3, 1, 0));
        self.add(SEGMENT_FIELD, 7, 1_007, Number(7, 3, 1, 100));
        self.add(SEGMENT_FIELD, 7, 1_008, Number(7, 4, 1, 0));
        self.add(SEGMENT_FIELD, 7, 1_008, Number(7, 4, 1, 3));
        self.add(SEGMENT_FIELD, 7, 1_009, Number(7, 5, 2, 0));
        self.add(SEGMENT_FIELD, 7, 1_009, Number(7, 5, 2, 22_000));
    }

    /// The number of entries, which stands there in the block, does not fit the length; or not all of them are there.
    fn entries(&mut self, block: usize, start: u64, count_at: usize, count: u64, entry: usize) {
        let (shown, base) = (block as u8, BASE[block - 1]);
        let more = Number(block, count_at, 2, count + 1);
        self.add(LENGTH, shown, start + 1, more);
        if count > 0 {
            let last = base + entry * count as usize - 1;
            self.add(SHORT, shown, start, End(block, base));
            self.add(SHORT, shown, start, End(block, last));
        }
    }

    fn after_the_blocks(&mut self, header: u64) {
        self.add(HEADER_SUM, 1, 70, Number(1, 70, 4, header - 4));
        self.add(DATA_SUM, 1, 74, Number(1, 74, 4, 17));
        self.add(NAME, 1, 114, Text(1, 114, b"hs_"));
        self.add(NAME, 1, 114, Text(1, 114 + 7, b"20230229"));
        self.add(NAME, 1, 114, Text(1, 114 + 127, b" "));
        self.add(CUT, 12, header, End(12, 0));
        self.add(CUT, 12, header, End(12, 15));
        self.add(TAIL, 12, header, OneMore);
    }
}
