//! Chosen calls of a layer's NPY file.

use super::{all_headed, base, grouped, headed, infinite, largest_models, settled, spline, writes};
use super::{Group, Model, FAULTY};
use crate::calls::bits;
use crate::compared::Compared;
use crate::lent::Lent;
use crate::npy_calls::{Kind, NpyCall};
use crate::ported::Grid;
use crate::reading::npy::{self, dictionary, FRONT};
use crate::reading::Configuration;
use crate::settled::{Chosen, Settled};

const OLD_BYTE: u8 = 0x55;
const INF: f32 = f32::INFINITY;
/// The dictionary of Z's layer as the writer has it.
const PLAIN: &str = "{'descr': '<f4', 'fortran_order': False, 'shape': (1, 1, 5), }";
/// The numbers of a good file.
const NUMBERS: [f32; 5] = [1.0, 2.0, 3.0, 4.0, 5.0];

/// All chosen calls of the program `npy`; none is large.
pub fn settled_npy(large: bool) -> Chosen<NpyCall> {
    const UNSTORED: &[Group<NpyCall>] = &[places, longest_headers, largest_networks];
    Box::new(stored_npy().chain(grouped(UNSTORED, &[], large)))
}

/// Those of them that are stored as cases of the program `model_vectors`.
pub fn stored_npy() -> Chosen<NpyCall> {
    const STORED: &[Group<NpyCall>] = &[
        writing,
        written_layers,
        refused_writing,
        refused_models,
        faulty_writing,
        good_headers,
        good_numbers,
        read_layers,
        fronts,
        malformed,
        malformed_values,
        malformed_ends,
        other_types,
        other_shapes,
        bodies,
        reading_orders,
        file_orders,
        faulty_reading,
    ];
    grouped(STORED, &[], false)
}

fn write(model: &Model, layer: usize, length: usize) -> NpyCall {
    let old = Lent::new(&vec![OLD_BYTE; length]);
    let mut call = NpyCall::new(Kind::Write, &model.config, layer, old);
    call.model = Lent::new(&model.parameters);
    call
}

fn read(model: &Model, layer: usize, file: &[u8]) -> NpyCall {
    let mut call = NpyCall::new(Kind::Read, &model.config, layer, Lent::new(file));
    call.model = Lent::new(&model.parameters);
    call
}

/// Refused, and nothing is written.
fn refused(call: NpyCall, number: u32, carried: usize) -> Settled<NpyCall> {
    let unchanged = call.written();
    writes(call, number, carried, &unchanged)
}

fn words(numbers: &[f32]) -> Vec<u64> {
    bits(&Lent::new(numbers))
}

/// A file with this dictionary, 0A behind it, and these numbers.
fn file(dictionary: &str, numbers: &[f32]) -> Vec<u8> {
    let body: Vec<u8> = numbers.iter().flat_map(|x| x.to_le_bytes()).collect();
    npy::file(format!("{dictionary}\n").as_bytes(), &body)
}

/// [2, 3, 1], g 3, [-1, 1]: every parameter is its own place in the model.
fn two_layers() -> Model {
    let config = Configuration::new(&[2, 3, 1], Grid::new(3, -1.0, 1.0));
    let places = 0..config.parameters();
    Model {
        parameters: places.map(|place| place as f32).collect(),
        config,
    }
}

/// The coefficients of both layers of that model, which are their places too, in the order of a file: output by output, input by
/// input, each edge behind its two weights.
fn coefficients(layer: usize) -> Vec<f32> {
    let edges = if layer == 0 { 0..6 } else { 6..9 };
    let places = edges.flat_map(|edge| 8 * edge + 2..8 * edge + 8);
    places.map(|place| place as f32).collect()
}

fn writing() -> Vec<Settled<NpyCall>> {
    let padded = format!("{PLAIN}{}", " ".repeat(55));
    let bytes = |numbers: &[f32]| file(&padded, numbers).into_iter().map(u64::from).collect();
    let (zeros, small): (Vec<u64>, Vec<u64>) = (bytes(&[0.0; 5]), bytes(&odd_numbers()));
    let mut odd = base(0.0);
    odd.parameters[2..].copy_from_slice(&odd_numbers());
    all_headed(vec![
        (
            "D106: the file of Z's layer: 148 bytes, a dictionary of 62 and 55 spaces",
            writes(write(&base(0.0), 0, 148), 0, 0, &zeros),
        ),
        (
            "Every bit of -0.0, of the largest numbers and of the smallest is written",
            writes(write(&odd, 0, 148), 0, 0, &small),
        ),
    ])
}

fn odd_numbers() -> [f32; 5] {
    [0x8000_0000, 0x7f7f_ffff, 0xff7f_ffff, 1, 0x807f_ffff].map(f32::from_bits)
}

/// Both layers of a network, and sizes of more than one digit.
fn written_layers() -> Vec<Settled<NpyCall>> {
    let mut calls = Vec::new();
    for (layer, shape) in [(0, [3, 2, 6]), (1, [1, 3, 6])] {
        let model = two_layers();
        let own = coefficients(layer);
        let text = format!("{:<117}", dictionary(shape));
        let bytes: Vec<u64> = file(&text, &own).into_iter().map(u64::from).collect();
        let call = write(&model, layer, FRONT + 4 * own.len());
        calls.push(writes(call, 0, 0, &bytes));
    }
    let calls = headed(
        "[2, 3, 1], g 3, every parameter its own place in the model: layer 0, then layer 1",
        calls,
    );
    let shapes: [(&[usize], usize, usize); 3] =
        [(&[1, 10], 1, 288), (&[10, 1], 1, 288), (&[1, 1], 9, 176)];
    let digits = shapes.map(|(widths, intervals, length)| {
        let config = Configuration::new(widths, Grid::new(intervals, -1.0, 1.0));
        let parameters = vec![0.5; config.parameters()];
        settled(write(&Model { config, parameters }, 0, length), 0, 0)
    });
    let digits = headed(
        "Sizes of two digits: [1, 10] and [10, 1], g 1, and [1, 1], g 9",
        digits.into(),
    );
    joined(calls, digits)
}

/// Two groups put together.
fn joined(first: Vec<Settled<NpyCall>>, second: Vec<Settled<NpyCall>>) -> Vec<Settled<NpyCall>> {
    first.into_iter().chain(second).collect()
}

fn refused_writing() -> Vec<Settled<NpyCall>> {
    let (zero, inf, two) = (base(0.0), infinite(), two_layers());
    let groups = [
        (
            "D107: INF's layer 1 with 147 bytes: 37; layer 0 with 147 bytes: 10; with 148: 11",
            vec![
                (write(&inf, 1, 147), 37),
                (write(&inf, 0, 147), 10),
                (write(&inf, 0, 148), 11),
            ],
        ),
        (
            "Layers that are not there, with the length that layer 0 needs",
            vec![
                (write(&zero, 1, 148), 37),
                (write(&zero, usize::MAX, 148), 37),
                (write(&two, 2, 272), 37),
            ],
        ),
        (
            "A byte too few, a byte too many, none, the body alone, and the other layer's length: 10",
            vec![
                (write(&zero, 0, 147), 10),
                (write(&zero, 0, 149), 10),
                (write(&zero, 0, 0), 10),
                (write(&zero, 0, 20), 10),
                (write(&two, 0, 200), 10),
            ],
        ),
    ];
    all_refused(groups.into())
}

fn refused_models() -> Vec<Settled<NpyCall>> {
    let (inf, two) = (infinite(), two_layers());
    let [short, long] = other_lengths(write(&inf, 1, 147));
    let groups = [
        (
            "A weight, and a coefficient of another layer, that are infinite: 11",
            vec![
                (write(&base(INF), 0, 148), 11),
                (write(&two.edited(71, INF), 0, 272), 11),
            ],
        ),
        (
            "A model one short, or one long, is 8, before the layer is 37",
            vec![(short, 8), (long, 8)],
        ),
    ];
    all_refused(groups.into())
}

/// The call with INF's parameters but the last, and with one parameter too many.
fn other_lengths(call: NpyCall) -> [NpyCall; 2] {
    let (mut short, mut long) = (call.clone(), call);
    short.model = Lent::new(&infinite().parameters[..6]);
    long.model = Lent::new(&[INF; 8]);
    [short, long]
}

/// What the stored lists say of some calls, and the number that each is refused with.
type Refused = (&'static str, Vec<(NpyCall, u32)>);

fn all_refused(groups: Vec<Refused>) -> Vec<Settled<NpyCall>> {
    let groups = groups.into_iter();
    groups
        .flat_map(|(heading, calls)| {
            let calls = calls.into_iter();
            let calls = calls.map(|(call, number)| refused(call, number, 0));
            headed(heading, calls.collect())
        })
        .collect()
}

/// Every refusal of the configuration, before all that comes later.
fn with_faults(heading: &'static str, call: &NpyCall) -> Vec<Settled<NpyCall>> {
    let calls = FAULTY.map(|(widths, intervals, (lo, hi), number, carried)| {
        let mut call = call.clone();
        call.widths = Lent::new(widths);
        call.grid = Grid::new(intervals, lo, hi);
        call.model = Lent::new(&[INF; 3]);
        refused(call, number, carried)
    });
    headed(heading, calls.into())
}

fn faulty_writing() -> Vec<Settled<NpyCall>> {
    with_faults(
        "Every refusal of the configuration, with a model and a file that are too short, layer 9 and infinite parameters",
        &write(&base(0.0), 9, 5),
    )
}

fn faulty_reading() -> Vec<Settled<NpyCall>> {
    with_faults(
        "Every refusal of the configuration, with a model that is too short, layer 9, infinite parameters and no file",
        &read(&base(0.0), 9, &[]),
    )
}

/// S with the numbers of the file for its coefficients.
fn taken(numbers: &[f32]) -> Vec<u64> {
    words(&[&spline().parameters[..2], numbers].concat())
}

/// The file with this dictionary is accepted.
fn accepted(dictionary: &str) -> Settled<NpyCall> {
    let call = read(&spline(), 0, &file(dictionary, &NUMBERS));
    writes(call, 0, 0, &taken(&NUMBERS))
}

fn good_headers() -> Vec<Settled<NpyCall>> {
    let padded = format!("{PLAIN}{}", " ".repeat(55));
    let rows = [
        (
            "The file as it is written, with the numbers 1 to 5",
            &padded[..],
        ),
        (
            "D108: double quotes, no spaces, another order of keys, no last comma",
            r#"{"shape":(1,1,5),"descr":"<f4","fortran_order":False}"#,
        ),
        (
            "Spaces between all tokens, both kinds of quotes, both last commas",
            r#"{ 'fortran_order' : False , "shape" : ( 1 , 1 , 5 , ) , 'descr' : "<f4" , }  "#,
        ),
        (
            "No last comma, and no space behind the dictionary",
            "{'descr': '<f4', 'fortran_order': False, 'shape': (1, 1, 5)}",
        ),
        (
            "A last comma in the shape alone",
            "{'shape': (1,1,5,), 'fortran_order':False,'descr':'<f4'}",
        ),
        (
            "More than 255 bytes of header",
            &format!("{PLAIN:<257}")[..],
        ),
    ]
    .map(|(heading, text)| (heading, accepted(text)));
    all_headed(rows.into())
}

fn good_numbers() -> Vec<Settled<NpyCall>> {
    let odd = odd_numbers();
    let call = read(&spline(), 0, &file(PLAIN, &odd));
    all_headed(vec![(
        "Every bit of -0.0, of the largest numbers and of the smallest is taken",
        writes(call, 0, 0, &taken(&odd)),
    )])
}

/// A layer's coefficients alone are replaced: no weight, and none of the other layer.
fn read_layers() -> Vec<Settled<NpyCall>> {
    let model = two_layers();
    let mut calls = Vec::new();
    for (layer, shape) in [(0, [3, 2, 6]), (1, [1, 3, 6])] {
        let new: Vec<f32> = coefficients(layer).iter().map(|x| x + 1000.0).collect();
        let mut left = model.parameters.clone();
        for (&place, &number) in coefficients(layer).iter().zip(&new) {
            left[place as usize] = number;
        }
        let bytes = file(&dictionary(shape), &new);
        calls.push(writes(read(&model, layer, &bytes), 0, 0, &words(&left)));
    }
    let calls = headed(
        "[2, 3, 1], g 3, as above: layer 0, then layer 1, from files in which each coefficient is 1000 more",
        calls,
    );
    let first = file(&dictionary([3, 2, 6]), &coefficients(0));
    let second = file(&dictionary([1, 3, 6]), &coefficients(1));
    let mixed = all_refused(vec![(
        "The other layer's file: 30; layer 2: 37",
        vec![
            (read(&model, 0, &second), 30),
            (read(&model, 1, &first), 30),
            (read(&model, 2, &first), 37),
            (read(&model, usize::MAX, &first), 37),
        ],
    )]);
    joined(calls, mixed)
}

/// Files that are refused with one number, each as it is.
fn all_with(number: u32, files: Vec<(&'static str, Vec<u8>)>) -> Vec<Settled<NpyCall>> {
    let files = files.into_iter();
    let groups = files.map(|(heading, file)| (heading, vec![(read(&spline(), 0, &file), number)]));
    all_refused(groups.collect())
}

/// What the stored lists say of a dictionary, and how it is made: PLAIN with a part of it replaced.
type Edit = (&'static str, &'static str, &'static str);

/// Dictionaries before good numbers that are refused with one number.
fn edited(number: u32, edits: &[Edit]) -> Vec<Settled<NpyCall>> {
    let files = edits.iter().map(|&(heading, part, instead)| {
        assert_eq!(PLAIN.matches(part).count(), 1, "one place for {heading}");
        (heading, file(&PLAIN.replace(part, instead), &NUMBERS))
    });
    all_with(number, files.collect())
}

/// The good file with another byte.
fn with_byte(place: usize, byte: u8) -> Vec<u8> {
    let mut bytes = file(PLAIN, &NUMBERS);
    bytes[place] = byte;
    bytes
}

/// The good file with another length of its header.
fn with_length(length: u16) -> Vec<u8> {
    let mut bytes = file(PLAIN, &NUMBERS);
    bytes[8..10].copy_from_slice(&length.to_le_bytes());
    bytes
}

fn fronts() -> Vec<Settled<NpyCall>> {
    let good = file(PLAIN, &NUMBERS);
    all_with(
        29,
        vec![
            ("No byte: 29", Vec::new()),
            ("9 bytes: no whole length", good[..9].to_vec()),
            ("10 bytes: no header", good[..10].to_vec()),
            (
                "The header alone but for its last byte",
                good[..72].to_vec(),
            ),
            ("The first byte 13", with_byte(0, 0x13)),
            ("A lower-case y", with_byte(5, b'y')),
            ("D109: version 2.0", with_byte(6, 2)),
            ("Version 1.1", with_byte(7, 1)),
            ("D109: a length past the end", with_length(84)),
            ("A length of 0", with_length(0)),
            ("A length that leaves out the 0A", with_length(62)),
            (
                "A length that takes in a byte of the numbers",
                with_length(64),
            ),
            ("A length that takes in all of them", with_length(83)),
            (
                "The length's bytes in the other order",
                with_length(63 << 8),
            ),
        ],
    )
}

/// Keys, commas and braces.
fn malformed() -> Vec<Settled<NpyCall>> {
    const EDITS: &[Edit] = &[
        ("D109: a key twice", ", }", ", 'shape': (1, 1, 5), }"),
        (
            "A key twice, and another missing",
            "'fortran_order': False",
            "'descr': '<f4'",
        ),
        ("D109: a key missing", "'fortran_order': False, ", ""),
        ("A fourth key", ", }", ", 'x': 1, }"),
        ("Another key", "'descr'", "'Descr'"),
        ("A space in a key", "'descr'", "'descr '"),
        ("A key without quotes", "'descr'", "descr"),
        ("A key closed by the other quote", "'descr'", "'descr\""),
        ("No colon", "'descr':", "'descr'"),
        ("D109: two commas between entries", "'<f4',", "'<f4',,"),
        ("No comma between entries", "'<f4',", "'<f4'"),
        ("Two last commas", ", }", ",, }"),
        ("A comma before the first entry", "{", "{,"),
        (
            "No entry",
            "'descr': '<f4', 'fortran_order': False, 'shape': (1, 1, 5), ",
            "",
        ),
        (
            "No entry but a comma",
            "'descr': '<f4', 'fortran_order': False, 'shape': (1, 1, 5)",
            "",
        ),
        ("No brace at the end", "}", ""),
        ("No brace at the front", "{", ""),
        ("A space before the brace", "{", " {"),
        ("D109: a tab between tokens", "'descr': ", "'descr':\t"),
        ("0A between tokens", "'descr': ", "'descr':\n"),
        ("A value missing", "'<f4', ", ""),
    ];
    edited(29, EDITS)
}

/// Values that are no type, no order or no shape.
fn malformed_values() -> Vec<Settled<NpyCall>> {
    const EDITS: &[Edit] = &[
        ("D109: a backslash in a string", "<f4", "<f4\\"),
        ("A byte above 7E in a string", "<f4", "<f4\x7f"),
        ("A byte below 20 in a string", "<f4", "<f4\x1f"),
        ("A string that is not closed", "<f4'", "<f4"),
        ("Two strings", "'<f4'", "'<' 'f4'"),
        ("A type without quotes", "'<f4'", "<f4"),
        ("D109: false", "False", "false"),
        ("D109: 0 for the order", "False", "0"),
        ("An order in quotes", "False", "'False'"),
        ("Falsely", "False", "Falsely"),
        ("A space in the order", "False", "Fal se"),
        ("D109: 05", "5", "05"),
        ("00", "5", "00"),
        ("D109: -5", "5", "-5"),
        ("+5", "5", "+5"),
        ("5L", "5", "5L"),
        ("A space between two digits", "5", "5 5"),
        ("No comma between numbers", "1, 5", "1 5"),
        ("Two commas between numbers", "1, 5", "1,, 5"),
        ("Two last commas in the shape", "5)", "5,,)"),
        ("A comma alone in the shape", "(1, 1, 5)", "(,)"),
        ("A comma before the first number", "(", "(,"),
        ("A list for the shape", "(1, 1, 5)", "[1, 1, 5]"),
        ("A number for the shape", "(1, 1, 5)", "5"),
        ("A shape that is not closed", ")", ""),
    ];
    edited(29, EDITS)
}

/// What stands behind the dictionary, before good numbers.
fn malformed_ends() -> Vec<Settled<NpyCall>> {
    let good = file(PLAIN, &NUMBERS);
    let body = &good[good.len() - 20..];
    let with = |end: &str| npy::file(format!("{PLAIN}{end}").as_bytes(), body);
    all_with(
        29,
        vec![
            ("D109: no 0A", with("")),
            ("Spaces and no 0A", with("  ")),
            ("D109: a byte behind the 0A", with("\n ")),
            ("0A twice", with("\n\n")),
            ("0A before spaces and 0A", with("\n  \n")),
            ("0D before the 0A", with("\r\n")),
            ("A tab before the 0A", with("\t\n")),
            ("A second brace", with("}\n")),
            ("A comma behind the brace", with(",\n")),
        ],
    )
}

fn other_types() -> Vec<Settled<NpyCall>> {
    const EDITS: &[Edit] = &[
        ("D110: >f4", "<f4", ">f4"),
        ("<f8", "<f4", "<f8"),
        ("f4", "<f4", "f4"),
        ("A space behind <f4", "<f4", "<f4 "),
        ("An empty type", "<f4", ""),
        ("The other quote in a type", "'<f4'", "\"<f4'\""),
        ("Braces and commas in a type", "<f4", "{(,):}"),
        (
            "The first byte that a type may hold and the last",
            "<f4",
            " ~",
        ),
        ("D110: True", "False", "True"),
    ];
    edited(30, EDITS)
}

fn other_shapes() -> Vec<Settled<NpyCall>> {
    const EDITS: &[Edit] = &[
        ("D110: (5,)", "(1, 1, 5)", "(5,)"),
        ("(5)", "(1, 1, 5)", "(5)"),
        ("D110: ()", "(1, 1, 5)", "()"),
        ("( )", "(1, 1, 5)", "( )"),
        ("(1, 5)", "(1, 1, 5)", "(1, 5)"),
        ("(1, 1, 5, 1)", "5)", "5, 1)"),
        ("(5, 1, 1)", "(1, 1, 5)", "(5, 1, 1)"),
        ("(1, 1, 4)", "5", "4"),
        ("(1, 1, 0)", "5", "0"),
        ("(1, 1, 50)", "5", "50"),
        (
            "D110: a third size of 2^64 + 5",
            "5",
            "18446744073709551621",
        ),
        ("A first size of 2^64 + 1", "(1", "(18446744073709551617"),
        (
            "A third size of 2^128 + 5",
            "5",
            "340282366920938463463374607431768211461",
        ),
        ("A third size of 2^32 + 5", "5", "4294967301"),
        ("A fourth size of 2^64 + 5", "5", "5, 18446744073709551621"),
    ];
    edited(30, EDITS)
}

/// The body's length and its numbers.
fn bodies() -> Vec<Settled<NpyCall>> {
    let good = file(PLAIN, &NUMBERS);
    let cut = |lost: usize| good[..good.len() - lost].to_vec();
    let lengths = vec![
        ("D111: a body of 19 bytes: 29", cut(1)),
        ("A number less", cut(4)),
        ("No number", cut(20)),
        ("A byte more", [&good[..], &[0]].concat()),
        ("A number more", [&good[..], &[0; 4]].concat()),
    ];
    let with = |place: usize, bits: u32| {
        let mut numbers = NUMBERS;
        numbers[place] = f32::from_bits(bits);
        file(PLAIN, &numbers)
    };
    let not_finite = vec![
        ("D111: an infinite last number: 11", with(4, 0x7f80_0000)),
        ("A first number of -infinity", with(0, 0xff80_0000)),
        ("A NaN of the smallest bits", with(1, 0x7f80_0001)),
        ("A NaN of the largest bits", with(3, 0xffff_ffff)),
    ];
    joined(all_with(29, lengths), all_with(11, not_finite))
}

/// PLAIN with another type, and with a tab besides.
fn other_and_tab() -> [Vec<u8>; 2] {
    let other = PLAIN.replace('<', ">");
    let tab = other.replace(", 's", ",\t's");
    [other, tab].map(|text| file(&text, &NUMBERS))
}

/// Each check of the model and the layer before its neighbour.
fn reading_orders() -> Vec<Settled<NpyCall>> {
    let (inf, good) = (infinite(), file(PLAIN, &NUMBERS));
    let [_, tab] = other_and_tab();
    let [short, long] = other_lengths(read(&inf, 1, &tab));
    let groups = [
        (
            "A model one short, or one long, is 8, before layer 1 is 37",
            vec![(short, 8), (long, 8)],
        ),
        (
            "INF and layer 1: 37, before INF is 11",
            vec![(read(&inf, 1, &tab), 37)],
        ),
        (
            "D111: INF and a bad header: 11; INF and a good file, too",
            vec![(read(&inf, 0, &tab), 11), (read(&inf, 0, &good), 11)],
        ),
    ];
    all_refused(groups.into())
}

/// Each check of the file before its neighbour.
fn file_orders() -> Vec<Settled<NpyCall>> {
    let plain = spline();
    let [other, tab] = other_and_tab();
    let smaller = file(&PLAIN.replace('5', "4"), &NUMBERS[..4]);
    let infinite = file(PLAIN, &[INF; 5]);
    let cut = |file: &[u8], lost: usize| read(&plain, 0, &file[..file.len() - lost]);
    let longer = read(&plain, 0, &[&infinite[..], &[0]].concat());
    let groups = [
        (
            "A tab is 29, before >f4 is 30",
            vec![(read(&plain, 0, &tab), 29)],
        ),
        (
            "D111: >f4 and a body of 19 bytes: 30; of none, too; (1, 1, 4) and a body of 16 bytes, too",
            vec![(cut(&other, 1), 30), (cut(&other, 20), 30), (read(&plain, 0, &smaller), 30)],
        ),
        (
            "Infinite numbers, a byte too few: 29; a byte too many: 29",
            vec![(cut(&infinite, 1), 29), (longer, 29)],
        ),
    ];
    all_refused(groups.into())
}

/// The first byte at every place of a word.
fn places() -> Vec<Settled<NpyCall>> {
    let calls = (5..13).flat_map(|front| {
        let mut taking = read(&spline(), 0, &[]);
        taking.file = Lent::behind(front, &file(PLAIN, &NUMBERS));
        let mut writing = write(&spline(), 0, 0);
        writing.file = Lent::behind(front, &[OLD_BYTE; 148]);
        [
            writes(taking, 0, 0, &taken(&NUMBERS)),
            settled(writing, 0, 0),
        ]
    });
    calls.collect()
}

/// As many spaces as a header has room for, and hardly fewer (D108); one thing wrong at the end of them, and long numbers.
fn longest_headers() -> Vec<Settled<NpyCall>> {
    let mut calls = Vec::new();
    for spaces in [65_000, 65_471, 65_472] {
        let padded = format!("{PLAIN}{}", " ".repeat(spaces));
        calls.push(accepted(&padded));
        let mut no_end = file(&padded, &NUMBERS);
        let last = no_end.len() - 21;
        no_end[last] = b' ';
        calls.push(refused(read(&spline(), 0, &no_end), 29, 0));
    }
    for gap in [16, 16_000] {
        let gap = " ".repeat(gap);
        let spread =
            format!("{{{gap}'shape'{gap}:(1,1,5){gap},'descr':'<f4','fortran_order':False{gap}}}");
        calls.push(accepted(&spread));
    }
    let sizes = ["9".repeat(65_000), format!("1{}", "0".repeat(60_000))];
    for size in sizes {
        let text = format!("{{'shape':(1,1,{size}),'descr':'<f4','fortran_order':False}}");
        calls.push(refused(read(&spline(), 0, &file(&text, &NUMBERS)), 30, 0));
        let zero = text.replace("(1,1,", "(1,1,0");
        calls.push(refused(read(&spline(), 0, &file(&zero, &NUMBERS)), 29, 0));
    }
    calls
}

fn largest_networks() -> Vec<Settled<NpyCall>> {
    let mut calls = Vec::new();
    for model in largest_models() {
        let last = model.config.widths.len() - 2;
        for number in [0, last, last + 1] {
            let layer = npy::Layer::of(&model.config, number);
            let length = layer.map_or(FRONT, |layer| FRONT + layer.body());
            let bytes = layer.map_or(Vec::new(), |layer| npy::written(layer, &model.parameters));
            let answer = if layer.is_some() { 0 } else { 37 };
            calls.push(settled(write(&model, number, length), answer, 0));
            let kept = words(&model.parameters);
            calls.push(writes(read(&model, number, &bytes), answer, 0, &kept));
        }
    }
    calls
}
