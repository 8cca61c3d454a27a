//! Files good and damaged: `little full, set block 8 a 3, bytes 1200`.

use super::{hexadecimal, number, refused, remake, words};
use crate::accept::{accept, Facts};
use crate::make::{length_width, Recipe, Sample};

/// The room that the program has for a file; what would stand behind it is cut off.
const ROOM: usize = 65_536;

pub fn answer(case: &str) -> String {
    accept(&made(case)).map_or_else(refused, accepted)
}

/// First come changes of what the file is made of, then those of single fields, then that of its length.
fn made(case: &str) -> Vec<u8> {
    let mut changes = case.split(", ");
    let (mut recipe, mut fill) = start(changes.next().expect("a file to start from"));
    let mut fields = Vec::new();
    let mut length = None;
    for change in changes {
        match words(change)[..] {
            ["a", a] => recipe.a = number(a),
            ["b", b] => recipe.b = number(b),
            ["c", c] => recipe.c = number(c),
            ["fill", byte] => fill = number(byte),
            ["set", "block", block, ref field @ .., value] => {
                fields.push((number(block), field.join(" "), value));
            }
            ["bytes", bytes] => length = Some(number(bytes)),
            _ => assert!(remake(&mut recipe, change), "{change}?"),
        }
    }
    let room = ROOM.min(recipe.file_length() as usize);
    let mut sample = Sample::on(&recipe, vec![fill; room]);
    for (block, field, value) in fields {
        set(&mut sample, block, &field, value);
    }
    sample.bytes.resize(length.unwrap_or(room), 0);
    sample.bytes
}

/// The file to start from, and what its other bytes hold.
fn start(file: &str) -> (Recipe, u8) {
    let mut recipe = Recipe::plain();
    let (order, entries, fill) = match file {
        "little" => (0, [0, 0, 0], 0),
        "big" => (1, [0, 0, 0], 0),
        "little full" => (0, [4, 2, 3], 0xa5),
        "big full" => (1, [4, 2, 3], 0xa5),
        _ => panic!("{file}?"),
    };
    recipe.order = order;
    [recipe.a, recipe.b, recipe.c] = entries;
    (recipe, fill)
}

fn set(sample: &mut Sample, block: usize, field: &str, value: &str) {
    if let Some((at, width)) = text(field) {
        let text = format!("{value:0>width$}");
        sample.put_text(block, at, text.as_bytes());
    } else if let Some(at) = field.strip_prefix("byte ") {
        sample.put(block, number(at), 1, hexadecimal(value));
    } else {
        let (at, width) = place(block, field);
        let value = match width {
            // of eight bytes the upper half is told
            8 => hexadecimal(value) << 32,
            _ => number(value),
        };
        sample.put(block, at, width, value);
    }
}

/// Where letters or digits stand in block 1, the name's from 114 on, and how many they are.
fn text(field: &str) -> Option<(usize, usize)> {
    let place = match field {
        "satellite" => (6 + 9, 1),
        "area" => (38, 4),
        "name satellite" => (114 + 4, 2),
        "name date" => (114 + 7, 8),
        "name time" => (114 + 16, 4),
        "name band" => (114 + 22, 2),
        "name area" => (114 + 25, 4),
        "name resolution" => (114 + 31, 2),
        "name segment" => (114 + 35, 2),
        "name total" => (114 + 37, 2),
        _ => return None,
    };
    Some(place)
}

/// Where a number stands in its block, and its width.
fn place(block: usize, field: &str) -> (usize, usize) {
    match (block, field) {
        (_, "number") => (0, 1),
        (_, "length") => (1, length_width(block)),
        (10, "half length") => (1, 2),
        (1, "blocks") => (3, 2),
        (1, "order") => (5, 1),
        (1, "timeline") => (44, 2),
        (1, "start") => (46, 8),
        (1, "header sum") => (70, 4),
        (1, "data sum") => (74, 4),
        (1, "quality") => (78, 1),
        (2, "bits") => (3, 2),
        (2, "columns") => (5, 2),
        (2, "lines") => (7, 2),
        (2, "flag") => (9, 1),
        (5, "band") => (3, 2),
        (5, "valid bits") => (13, 2),
        (5, "error count") => (15, 2),
        (5, "outside count") => (17, 2),
        (5, "gain") => (19, 8),
        (5, "constant") => (27, 8),
        (7, "total") => (3, 1),
        (7, "segment") => (4, 1),
        (7, "first") => (5, 2),
        (8, "a") => (19, 2),
        (9, "b") => (3, 2),
        (10, "c") => (5, 2),
        _ => panic!("block {block} {field}?"),
    }
}

fn accepted(facts: Facts) -> String {
    let Facts {
        satellite,
        day,
        timeline,
        band,
        area,
        columns,
        lines,
        number,
        total,
        first_line,
        valid_bits,
        gain,
        constant,
        quality,
        header_length,
        order,
        a,
        b,
        c,
    } = facts;
    let area = String::from_utf8_lossy(&area);
    format!(
        "OK {satellite} {day} {timeline} {band} {area} {columns} {lines} {number} {total} {first_line}, \
         order and bits {order} {valid_bits}, entries and header {a} {b} {c} {header_length}, \
         quality and calibration {quality} {gain:016x} {constant:016x}"
    )
}
