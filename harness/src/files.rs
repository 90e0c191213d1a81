//! Block files: fields, and the files that the crate `file_cases` stores and the examples show.

use crate::model::file::{
    run_file, LARGEST_FILE, TAG_COEFFICIENTS, TAG_KEPT, TAG_RESIDUALS, TAG_SHAPE,
};
use crate::model::salvage::saved_of;
use crate::random::Random;

pub struct Case {
    pub name: String,
    pub file: Vec<u8>,
}

fn case(name: &str, fields: &[Vec<u8>]) -> Case {
    Case {
        name: name.to_string(),
        file: fields.concat(),
    }
}

// ---- fields

pub fn field(tag: u8, body: &[u8]) -> Vec<u8> {
    let length = u16::try_from(body.len()).expect("a body of at most 65,535 bytes");
    [&[tag], &length.to_be_bytes()[..], body].concat()
}

pub fn shape(width: u8, height: u8, horizontal: u8, vertical: u8, depth: u8) -> Vec<u8> {
    field(TAG_SHAPE, &[width, height, horizontal, vertical, depth])
}

pub fn kept(columns: u8, rows: u8) -> Vec<u8> {
    field(TAG_KEPT, &[columns, rows])
}

pub fn data(tag: u8, numbers: &[i16]) -> Vec<u8> {
    let body: Vec<u8> = numbers.iter().flat_map(|n| n.to_be_bytes()).collect();
    field(tag, &body)
}

fn coefficients(numbers: &[i16]) -> Vec<u8> {
    data(TAG_COEFFICIENTS, numbers)
}

fn residuals(numbers: &[i16]) -> Vec<u8> {
    data(TAG_RESIDUALS, numbers)
}

/// `count` numbers, all 0 but the one at a place.
fn alone(count: usize, place: usize, number: i16) -> Vec<i16> {
    let mut numbers = vec![0; count];
    numbers[place] = number;
    numbers
}

/// The two fields of document 01's whole case.
fn four() -> Vec<u8> {
    shape(4, 4, 1, 1, 10)
}

fn inverse_of_64() -> Vec<u8> {
    coefficients(&alone(16, 0, 64))
}

pub fn whole_case() -> Vec<u8> {
    [four(), inverse_of_64()].concat()
}

/// An inverse of three coefficients, and a forward of residuals that rise and start anew: what pictures show.
fn waves() -> [Vec<u8>; 4] {
    let mut three = alone(1024, 0, 900);
    three[37] = -1300;
    three[98] = 2400;
    let rising: Vec<i16> = (0..64)
        .map(|k| (28 * (k % 8) + 52 * (k / 8)) % 256 - 128)
        .collect();
    [
        shape(32, 32, 1, 2, 8),
        coefficients(&three),
        shape(8, 8, 1, 1, 8),
        residuals(&rising),
    ]
}

/// A block that keeps less than it can: the forward's zeros, an inverse of what is left, and the shape anew with all of it.
fn kept_part() -> [Vec<u8>; 6] {
    let slope: Vec<i16> = (0..64).map(|k| 13 * (k % 8) - 9 * (k / 8)).collect();
    let few = [[400, -30, 7], [-85, 12, 0]].map(|row| [&row[..], &[0; 5]].concat());
    [
        shape(8, 8, 1, 2, 8),
        kept(3, 2),
        residuals(&slope),
        coefficients(&[few.concat(), vec![0; 48]].concat()),
        shape(8, 8, 1, 2, 8),
        residuals(&slope),
    ]
}

/// Two blocks with three stray bytes between them, a third with twenty bytes of its body missing, and a fourth.
fn broken() -> Vec<u8> {
    let other = [shape(8, 4, 1, 2, 8), coefficients(&alone(32, 0, 500))].concat();
    let shorter = [&other[..40], &other[60..]].concat();
    [whole_case(), vec![9; 3], other, shorter, whole_case()].concat()
}

// ---- files of random blocks

/// A shape and some blocks of it, now and then behind other kept numbers: small numbers, or ones whose residuals no picture
/// can hold, some outside the kept part.
fn random_group(random: &mut Random) -> Vec<u8> {
    let (w, h) = (random.choose(&[4, 8, 16, 32]), random.choose(&[4, 8, 32]));
    let kinds = [random.choose(&[1, 2]), random.choose(&[1, 2])];
    let mut bytes = shape(w, h, kinds[0], kinds[1], random.choose(&[8, 10, 12]));
    let mut columns_and_rows = [w, h].map(|n: u8| n.min(16));
    for _ in 0..random.between(0, 3) {
        if random.once_in(3) {
            columns_and_rows = [w, h].map(|n: u8| random.between(1, n.min(16).into()) as u8);
            bytes.extend(kept(columns_and_rows[0], columns_and_rows[1]));
        }
        let high = random.choose(&[3, 255, 32767]);
        let tag = random.choose(&[TAG_COEFFICIENTS, TAG_RESIDUALS]);
        let [width, height] = [w, h].map(usize::from);
        let [columns, rows] = columns_and_rows.map(usize::from);
        let number = |place: usize| {
            let inside = place % width < columns && place / width < rows;
            if inside || random.once_in(900) {
                random.between(-high, high) as i16
            } else {
                0
            }
        };
        let numbers: Vec<i16> = (0..width * height).map(number).collect();
        bytes.extend(data(tag, &numbers));
    }
    bytes
}

/// Up to three such groups, and in every third file one byte that is another.
pub fn random_file(random: &mut Random) -> Vec<u8> {
    let groups = random.between(0, 3);
    let mut file: Vec<u8> = (0..groups).flat_map(|_| random_group(random)).collect();
    if random.once_in(3) && !file.is_empty() {
        let at = random.below(file.len());
        file[at] = random.below(256) as u8;
    }
    file
}

// ---- cases

fn accepted() -> Vec<Case> {
    vec![
        case("whole_case", &[whole_case()]),
        case("empty", &[]),
        case("shape_alone", &[four()]),
        case(
            "both_directions",
            &[four(), residuals(&rising()), inverse_of_64()],
        ),
        case("waves", &waves()),
        case("saved", &[saved_of(&broken()).0]),
        case(
            "rails",
            &[
                four(),
                coefficients(&[32767; 16]),
                coefficients(&[-32768; 16]),
            ],
        ),
        case(
            "largest_residuals",
            &[four(), residuals(&[-1023; 16]), residuals(&[1023; 16])],
        ),
        case(
            "shape_replaced",
            &[
                whole_case(),
                shape(32, 4, 2, 1, 8),
                coefficients(&alone(128, 15, -32768)),
                residuals(&wide()),
                whole_case(),
            ],
        ),
    ]
}

/// Residuals of 4 by 4, and of 32 by 4.
fn rising() -> Vec<i16> {
    (0..16).map(|k| 37 * k - 200).collect()
}

fn wide() -> Vec<i16> {
    (0..128).map(|k| 3 * k - 200).collect()
}

fn kept_numbers() -> Vec<Case> {
    vec![
        case("kept_part", &kept_part()),
        case("kept_alone", &[four(), kept(1, 4)]),
        case(
            "kept_twice",
            &[
                four(),
                kept(1, 1),
                inverse_of_64(),
                kept(4, 2),
                coefficients(&alone(16, 7, -900)),
                residuals(&rising()),
            ],
        ),
        case(
            "kept_until_the_next_shape",
            &[
                shape(32, 4, 1, 2, 8),
                kept(3, 2),
                residuals(&wide()),
                shape(32, 4, 1, 2, 8),
                residuals(&wide()),
                coefficients(&alone(128, 111, 999)),
            ],
        ),
    ]
}

fn kind_0() -> Vec<Case> {
    vec![
        case(
            "kept_of_kind_0",
            &[
                shape(32, 4, 0, 0, 8),
                kept(32, 4),
                coefficients(&alone(128, 127, 999)),
                kept(31, 3),
                coefficients(&alone(128, 94, 999)),
                residuals(&wide()),
            ],
        ),
        case(
            "kind_0",
            &[
                shape(4, 4, 0, 0, 10),
                inverse_of_64(),
                residuals(&rising()),
                shape(32, 4, 0, 2, 8),
                coefficients(&alone(128, 31, 999)),
                residuals(&wide()),
            ],
        ),
    ]
}

/// A field for each number that a file can meet, with the fields that it needs before it. 7 is no file's: the output is the
/// run's own. 13 and 14 can be met at the first field alone.
fn refused_fields() -> Vec<(&'static str, Vec<u8>, Vec<u8>)> {
    let none = Vec::new;
    let one_outside = coefficients(&alone(128, 16, 1));
    vec![
        ("01", none(), shape(5, 4, 1, 1, 10)),
        ("02", none(), shape(4, 64, 1, 1, 10)),
        ("03", none(), shape(4, 4, 3, 1, 10)),
        ("04", none(), shape(4, 4, 0, 4, 10)),
        ("05", none(), shape(4, 4, 1, 1, 13)),
        ("06", four(), coefficients(&[0; 15])),
        ("08", shape(32, 4, 1, 1, 10), one_outside),
        ("09", four(), residuals(&alone(16, 3, 1024))),
        ("10_header", none(), vec![TAG_SHAPE, 0]),
        ("10_body", none(), vec![TAG_SHAPE, 0, 5, 4, 4]),
        ("10_kept_header", four(), vec![TAG_KEPT, 0]),
        ("10_kept_body", four(), vec![TAG_KEPT, 0, 2, 4]),
        ("11", none(), field(5, &[1, 2])),
        ("12", none(), field(TAG_SHAPE, &[4, 4, 1, 1])),
        ("12_kept", none(), field(TAG_KEPT, &[4, 4, 4])),
        ("20_no_column", four(), kept(0, 4)),
        ("20_no_row", four(), kept(4, 0)),
        ("20_columns", four(), kept(5, 4)),
        ("20_rows", shape(32, 32, 0, 1, 8), kept(32, 17)),
    ]
}

/// The same behind kept numbers. "A data field's length stays".
fn refused_behind_kept() -> [(&'static str, Vec<u8>, Vec<u8>); 3] {
    let keeping = |columns, rows| [four(), kept(columns, rows)].concat();
    [
        (
            "08_kept_columns",
            keeping(1, 4),
            coefficients(&alone(16, 1, 1)),
        ),
        (
            "08_kept_rows",
            keeping(4, 3),
            coefficients(&alone(16, 12, -1)),
        ),
        ("06_kept", keeping(2, 2), coefficients(&[0; 4])),
    ]
}

/// "Order: ... 12, 13, data length not 2*w*h (6), body present (10)"
fn refused_in_order() -> Vec<Case> {
    let cut = |field: Vec<u8>, bytes: usize| field[..bytes].to_vec();
    let behind_four = |field: Vec<u8>, bytes| [four(), cut(field, bytes)].concat();
    let cases = [
        ("13_first", [inverse_of_64(), four()].concat()),
        ("12_before_10", cut(field(TAG_SHAPE, &[4; 6]), 5)),
        ("13_before_06", residuals(&[0; 3])),
        ("13_kept", [kept(1, 1), four()].concat()),
        ("12_kept_before_13_and_10", cut(field(TAG_KEPT, &[0; 3]), 4)),
        ("13_kept_before_10", cut(kept(0, 0), 3)),
        (
            "12_kept_before_10",
            behind_four(field(TAG_KEPT, &[0; 9]), 5),
        ),
        ("10_kept_before_20", behind_four(kept(0, 0), 4)),
        ("06_before_10", behind_four(residuals(&[0; 15]), 9)),
    ];
    cases.map(|(name, file)| case(name, &[file])).into()
}

/// Each case meets the number that its name starts with.
fn refused_by_name() -> Vec<Case> {
    let fields = refused_fields().into_iter().chain(refused_behind_kept());
    let twice = |(name, before, field): (&str, Vec<u8>, Vec<u8>)| {
        let later = [whole_case(), inverse_of_64(), before.clone(), field.clone()];
        [
            case(&format!("{name}_first"), &[before, field]),
            case(&format!("{name}_later"), &later),
        ]
    };
    let cases: Vec<Case> = fields.flat_map(twice).chain(refused_in_order()).collect();
    for case in &cases {
        let number = case.name[..2].trim_start_matches('0');
        let text = run_file(&case.file);
        let last = text.lines().last().expect("a refusal is printed");
        assert!(last.starts_with(&format!("R {number} ")), "{}", case.name);
    }
    cases
}

fn refused() -> Vec<Case> {
    let mut cases = refused_by_name();
    cases.push(case("broken", &[broken()]));
    // the fields behind it are not looked at: "The first refusal ends the run"
    let lines = [
        whole_case(),
        inverse_of_64(),
        field(9, &[]),
        inverse_of_64(),
    ];
    cases.push(case("refused_after_lines", &lines));
    cases
}

/// As many bytes as a file may have, the last of them a block's, and one byte more.
fn long() -> Vec<Case> {
    let blocks = 8;
    let shapes = (LARGEST_FILE - blocks * inverse_of_64().len()) / four().len();
    let longest = [four().repeat(shapes), inverse_of_64().repeat(blocks)].concat();
    assert_eq!(longest.len(), LARGEST_FILE);
    let too_long = [longest.clone(), vec![0]].concat();
    vec![case("longest", &[longest]), case("too_long", &[too_long])]
}

fn cut() -> Vec<Case> {
    let file = whole_case();
    (0..file.len())
        .map(|n| case(&format!("cut_{n:02}"), &[file[..n].to_vec()]))
        .collect()
}

/// Every stored case, in order.
pub fn stored() -> Vec<Case> {
    let parts = [
        accepted(),
        kept_numbers(),
        kind_0(),
        refused(),
        long(),
        cut(),
    ];
    parts.into_iter().flatten().collect()
}
