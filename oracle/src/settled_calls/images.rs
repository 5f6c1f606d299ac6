//! Chosen calls of the model image.

use super::{base, chain, grouped, headed, infinite, largest_models, pair, settled, writes};
use super::{Group, Model, FAULTY, NAN};
use crate::calls::bits;
use crate::compared::Compared;
use crate::image_calls::{ImageCall, Kind};
use crate::lent::Lent;
use crate::ported::Grid;
use crate::reading::images::Word::{self, *};
use crate::reading::images::{self, LONGEST, TRAILER};
use crate::settled::{Chosen, Settled};

const OLD_BYTE: u8 = 0x55;
const OLD_WIDTH: usize = 77;
const OLD_PARAMETER: f32 = 5.0;

/// All chosen calls of the program `images`; none is large.
pub fn settled_images(large: bool) -> Chosen<ImageCall> {
    const UNSTORED: &[Group<ImageCall>] = &[places, longest, largest_networks];
    Box::new(stored_images().chain(grouped(UNSTORED, &[], large)))
}

/// Those of them that are stored as cases of the program `model_vectors`.
pub fn stored_images() -> Chosen<ImageCall> {
    const STORED: &[Group<ImageCall>] = &[
        writing,
        refused_writing,
        faulty_writing,
        good_images,
        other_formats,
        malformed,
        faulty_configurations,
        odd_widths,
        infinite_parameters,
        odd_parameters,
        wrong_rooms,
    ];
    grouped(STORED, &[], false)
}

/// The image of R16.4: [1, 1], g 2, [-1, 1], all parameters 0.0 but spline weight 1.0.
fn good() -> Vec<u8> {
    let mut bytes = vec![0, 0, 0, 0, 0, 0, 0x80, 0x3f];
    bytes.resize(28, 0);
    bytes.extend([1, 0, 0, 0, 1, 0, 0, 0]);
    bytes.extend([68, 0, 0, 0, 40, 0, 0, 0, 2, 0, 0, 0, 2, 0, 0, 0]);
    bytes.extend([0, 0, 0x80, 0xbf, 0, 0, 0x80, 0x3f, 3, 0, 0, 0, 1, 0, 0, 0]);
    bytes
}

/// The image with some words of its trailer replaced.
fn with(mut bytes: Vec<u8>, words: &[(Word, u32)]) -> Vec<u8> {
    for &(word, value) in words {
        let place = bytes.len() - TRAILER + 4 * word as usize;
        put(&mut bytes, place, value);
    }
    bytes
}

fn put(bytes: &mut [u8], place: usize, value: u32) {
    bytes[place..place + 4].copy_from_slice(&value.to_le_bytes());
}

/// An image of no words but the trailer.
fn trailer_alone(words: &[(Word, u32)]) -> Vec<u8> {
    with(good().split_off(36), words)
}

fn read(bytes: &[u8]) -> ImageCall {
    ImageCall::new(Kind::Read, Lent::new(bytes))
}

/// Unpacking into room for so many widths and parameters.
fn unpack(bytes: &[u8], widths: usize, parameters: usize) -> ImageCall {
    let mut call = ImageCall::new(Kind::Unpack, Lent::new(bytes));
    call.widths = Lent::new(&vec![OLD_WIDTH; widths]);
    call.model = Lent::new(&vec![OLD_PARAMETER; parameters]);
    call
}

/// Refused alike by both readers, whatever lies before the image in memory; nothing is written.
fn refused(bytes: &[u8], number: u32, carried: usize) -> Vec<Settled<ImageCall>> {
    let calls = [read(bytes), unpack(bytes, 2, 7), unpack(bytes, 0, 0)];
    let refused = calls.into_iter().map(|call| {
        let unchanged = call.written();
        writes(call, number, carried, &unchanged)
    });
    refused.collect()
}

fn write(model: &Model, length: usize) -> ImageCall {
    let mut call = ImageCall::new(Kind::Write, Lent::new(&vec![OLD_BYTE; length]));
    call.widths = Lent::new(&model.config.widths);
    call.grid = model.config.grid;
    call.model = Lent::new(&model.parameters);
    call
}

fn writing() -> Vec<Settled<ImageCall>> {
    let zero = base(0.0);
    let written: Vec<u64> = good().into_iter().map(u64::from).collect();
    let mut signed = zero.clone();
    signed.config.grid.lo = -0.0;
    signed.parameters[3] = -0.0;
    let mut with_signs = written.clone();
    for (place, byte) in [(15, 0x80), (54, 0x00), (55, 0x80)] {
        with_signs[place] = byte;
    }
    let deep = chain((-1.0, 1.0), &[[1.0; 7], [-2.0; 7]]);
    let accepted = [
        (
            "The image of R16.4 is written: [1, 1], g 2, [-1, 1], all parameters 0.0 but spline weight 1.0",
            writes(write(&zero, 68), 0, 0, &written),
        ),
        (
            "Bits of -0.0 survive, in a coefficient and as lo",
            writes(write(&signed, 68), 0, 0, &with_signs),
        ),
        ("A21 is written", settled(write(&pair(), 96), 0, 0)),
        (
            "[1, 1, 1] is written: all parameters 1.0 in layer 0, -2.0 in layer 1",
            settled(write(&deep, 100), 0, 0),
        ),
    ];
    let accepted = accepted.into_iter();
    accepted
        .flat_map(|(heading, call)| headed(heading, vec![call]))
        .collect()
}

fn refused_writing() -> Vec<Settled<ImageCall>> {
    let (zero, inf) = (base(0.0), infinite());
    let mut short_model = write(&inf, 67);
    short_model.model = Lent::new(&inf.parameters[..6]);
    let mut long_model = short_model.clone();
    long_model.model = Lent::new(&[0.0; 8]);
    let mut no_domain = short_model.clone();
    no_domain.grid.hi = -1.0;
    let groups = [
        (
            "D103: INF with 67 bytes: 10; with 68: 11, and no byte is written",
            vec![(write(&inf, 67), 10), (write(&inf, 68), 11)],
        ),
        (
            "Z with a byte too few, a byte too many, and none: 10",
            vec![
                (write(&zero, 67), 10),
                (write(&zero, 69), 10),
                (write(&zero, 0), 10),
            ],
        ),
        (
            "A model one short, or one long, is 8, before the bytes are 10",
            vec![(short_model, 8), (long_model, 8)],
        ),
        (
            "The configuration comes before 8: the domain [-1, -1] is 4",
            vec![(no_domain, 4)],
        ),
    ];
    let refused = groups.into_iter().flat_map(|(heading, cases)| {
        let calls = cases
            .into_iter()
            .map(|(call, number)| unwritten(call, number, 0));
        headed(heading, calls.collect())
    });
    refused.collect()
}

/// Refused, and no byte is written.
fn unwritten(call: ImageCall, number: u32, carried: usize) -> Settled<ImageCall> {
    let unchanged = bits(&call.image);
    writes(call, number, carried, &unchanged)
}

/// Every refusal of the configuration, before a model that is short, an image that is short and a parameter that is not finite.
fn faulty_writing() -> Vec<Settled<ImageCall>> {
    let calls = FAULTY.map(|(widths, intervals, (lo, hi), number, carried)| {
        let mut call = write(&infinite(), 5);
        call.widths = Lent::new(widths);
        call.grid = Grid::new(intervals, lo, hi);
        call.model = Lent::new(&[f32::INFINITY; 3]);
        unwritten(call, number, carried)
    });
    headed(
        "Every refusal of the configuration, with a model and an image that are too short and a parameter that is infinite",
        calls.into(),
    )
}

fn good_images() -> Vec<Settled<ImageCall>> {
    let (lo, hi) = (0xbf80_0000, 0x3f80_0000);
    let signed = with(good(), &[(Lo, 0x8000_0000)]);
    let model = [0, 0x3f80_0000, 0, 0, 0, 0, 0];
    let unpacked = [&[1, 1], &model[..]].concat();
    let two = images::image(&pair().config, &pair().parameters);
    let groups = [
        (
            "The image of R16.4: g 2, [-1, 1], 2 widths, 7 parameters",
            vec![
                writes(read(&good()), 0, 0, &[2, lo, hi, 2, 7]),
                writes(unpack(&good(), 2, 7), 0, 0, &unpacked),
            ],
        ),
        (
            "D102: lo bits 80000000, which stay",
            vec![
                writes(read(&signed), 0, 0, &[2, 0x8000_0000, hi, 2, 7]),
                writes(unpack(&signed, 2, 7), 0, 0, &unpacked),
            ],
        ),
        (
            "The image of A21: g 2, [-1, 1], 2 widths, 14 parameters",
            vec![
                writes(read(&two), 0, 0, &[2, lo, hi, 2, 14]),
                settled(unpack(&two, 2, 14), 0, 0),
            ],
        ),
    ];
    let groups = groups.into_iter();
    groups
        .flat_map(|(heading, calls)| headed(heading, calls))
        .collect()
}

/// The first byte at every place of a word.
fn places() -> Vec<Settled<ImageCall>> {
    let described = [2, 0xbf80_0000, 0x3f80_0000, 2, 7];
    let calls = (5..13).map(|front| {
        let call = ImageCall::new(Kind::Read, Lent::behind(front, &good()));
        writes(call, 0, 0, &described)
    });
    calls.collect()
}

/// The good image behind so many bytes.
fn moved(count: usize) -> Vec<u8> {
    [vec![0; count], good()].concat()
}

/// What the stored lists say of an image, the image, the number and what it carries.
type Refused = (&'static str, Vec<u8>, u32, usize);

fn all_refused(cases: Vec<Refused>) -> Vec<Settled<ImageCall>> {
    let calls = cases.into_iter();
    calls
        .flat_map(|(heading, bytes, number, carried)| {
            headed(heading, refused(&bytes, number, carried))
        })
        .collect()
}

fn other_formats() -> Vec<Settled<ImageCall>> {
    let version = |version: u32| with(good(), &[(Version, version), (Degree, 9)]);
    let no_widths = with(good(), &[(Degree, 2), (WidthsDistance, 0)]);
    let behind = [good(), vec![0]].concat();
    all_refused(vec![
        ("D91: version 2, degree 9: 25 carrying 2", version(2), 25, 2),
        ("Version 0", version(0), 25, 0),
        ("The largest version", version(u32::MAX), 25, 0xffff_ffff),
        (
            "A version in the last byte alone",
            version(1 << 24),
            25,
            1 << 24,
        ),
        (
            "A byte behind: the last word is no longer the version",
            behind,
            25,
            0,
        ),
        (
            "32 zero bytes (D90 has as many as an image may have)",
            vec![0; 32],
            25,
            0,
        ),
        ("D92: degree 2, widths' distance 0: 26", no_widths, 26, 0),
        (
            "Degree 4, g 0",
            with(good(), &[(Degree, 4), (Intervals, 0)]),
            26,
            0,
        ),
    ])
}

fn malformed() -> Vec<Settled<ImageCall>> {
    let counted = |count: u32, away: u32| trailer_alone(&[(Widths, count), (WidthsDistance, away)]);
    let refound = with(moved(4), &[(FirstDistance, 72)]);
    let near = with(good(), &[(FirstDistance, 64)]);
    all_refused(vec![
        ("D89: no byte: 27", Vec::new(), 27, 0),
        ("D89: the last 31 bytes: 27", good().split_off(37), 27, 0),
        ("The first 31 bytes", good()[..31].to_vec(), 27, 0),
        (
            "D93: widths' distance 36",
            with(good(), &[(WidthsDistance, 36)]),
            27,
            0,
        ),
        (
            "D94: a trailer alone, K 2^30, distance 32: 32 + 4K is right only modulo 2^32",
            counted(1 << 30, 32),
            27,
            0,
        ),
        (
            "K 2^32 - 1, distance 28, in the same way",
            counted(u32::MAX, 28),
            27,
            0,
        ),
        (
            "A trailer alone whose widths would lie before it",
            counted(2, 40),
            27,
            0,
        ),
        (
            "D95: a trailer alone, K 0, distance 32: 1",
            counted(0, 32),
            1,
            0,
        ),
        ("D95: the same with distance 0: 27", counted(0, 0), 27, 0),
        ("D100: a byte more in front", moved(1), 27, 0),
        ("D100: a word more in front", moved(4), 27, 0),
        (
            "A word more in front that the first distance counts",
            refound,
            27,
            0,
        ),
        ("A word less in front", good()[4..].to_vec(), 27, 0),
        ("D100: first distance 64", near, 27, 0),
    ])
}

fn faulty_configurations() -> Vec<Settled<ImageCall>> {
    let one = 1.0_f32.to_bits();
    let of = |words: &[(Word, u32)]| with(good(), words);
    let intervals = |intervals: u32| of(&[(Intervals, intervals)]);
    let and_domain = |intervals: u32| of(&[(Intervals, intervals), (Lo, one)]);
    let one_width = of(&[(Widths, 1), (WidthsDistance, 36)]);
    let moved_with = |word: Word, value: u32| with(moved(1), &[(word, value)]);
    all_refused(vec![
        ("One width, at its distance: 1", one_width, 1, 0),
        (
            "D96: g 0 and the length wrong: 3",
            moved_with(Intervals, 0),
            3,
            0,
        ),
        (
            "D97: lo = hi and the length wrong: 4",
            moved_with(Lo, one),
            4,
            0,
        ),
        ("lo is NaN", of(&[(Lo, NAN.to_bits())]), 4, 0),
        ("hi is infinite", of(&[(Hi, 0x7f80_0000)]), 4, 0),
        (
            "g 67,108,862: 4 with the domain [-1, 1]",
            and_domain(67_108_862),
            4,
            0,
        ),
        ("The largest g", intervals(u32::MAX), 4, 0),
        ("g 67,108,861: 7", intervals(67_108_861), 7, 67_108_866),
        (
            "D98: g 249,996 and lo = hi: 7 carrying 250,001",
            and_domain(249_996),
            7,
            250_001,
        ),
        (
            "g 249,995: as many parameters as may be, and the length is wrong",
            intervals(249_995),
            27,
            0,
        ),
        ("g 3: a parameter is missing", intervals(3), 27, 0),
    ])
}

/// Widths, and a trailer of their number and of these intervals.
fn of_widths(widths: &[u32], intervals: u32) -> Vec<u8> {
    let count = widths.len() as u32;
    let bytes = widths.iter().flat_map(|width| width.to_le_bytes());
    let words = [
        (Widths, count),
        (WidthsDistance, 32 + 4 * count),
        (Intervals, intervals),
    ];
    [bytes.collect(), trailer_alone(&words)].concat()
}

/// Words of 32 bits as widths.
fn odd_widths() -> Vec<Settled<ImageCall>> {
    let (p30, p31, most) = (1 << 30, 1 << 31, u32::MAX);
    all_refused(vec![
        ("The first width is 0", of_widths(&[0, 1], 1), 1, 0),
        (
            "The last width is 0, and g too",
            of_widths(&[1, 1, 0], 0),
            1,
            0,
        ),
        (
            "Widths 2^32 - 1 twice, g 0: their product is below 2^64, so 3",
            of_widths(&[most, most], 0),
            3,
            0,
        ),
        (
            "D99: widths 2^32 - 1 twice, g 1: 5",
            of_widths(&[most, most], 1),
            5,
            0,
        ),
        (
            "The second layer is too large by itself: 5",
            of_widths(&[p30, p31, p31], 1),
            5,
            0,
        ),
        (
            "The total is too large at the second layer: 6",
            of_widths(&[p31, p30, p31, p31], 1),
            6,
            0,
        ),
        (
            "250,002 parameters: 7",
            of_widths(&[41_667, 1], 1),
            7,
            250_002,
        ),
        (
            "A width of 2^32 - 1: 7",
            of_widths(&[1, most], 1),
            7,
            6 * 0xffff_ffff,
        ),
        (
            "249,996 parameters, and the length is wrong",
            of_widths(&[41_666, 1], 1),
            27,
            0,
        ),
    ])
}

/// The first parameter that is not finite, by its bits; the length and the first distance come before it.
fn infinite_parameters() -> Vec<Settled<ImageCall>> {
    let parameters = [
        (
            "D101: an infinite base weight: 11; with first distance 64: 27",
            0,
            0x7f80_0000,
        ),
        ("The spline weight -infinity", 4, 0xff80_0000),
        (
            "The second coefficient NaN, of the smallest bits",
            12,
            0x7f80_0001,
        ),
        ("The fourth coefficient NaN", 20, 0x7fc0_0000),
        (
            "The last coefficient NaN, of the largest bits",
            24,
            0xffff_ffff,
        ),
    ];
    let mut calls = Vec::new();
    for (heading, place, value) in parameters {
        let mut bytes = good();
        put(&mut bytes, place, value);
        calls.extend(headed(heading, refused(&bytes, 11, 0)));
        calls.extend(refused(&with(bytes, &[(FirstDistance, 64)]), 27, 0));
    }
    calls
}

/// The largest numbers, the smallest, and -0.0: all bits are kept.
fn odd_parameters() -> Vec<Settled<ImageCall>> {
    let large = [0x7f7f_ffff, 0xff7f_ffff, 0x7f00_0000];
    let small = [0x8000_0000, 1, 0x807f_ffff, 0x0080_0000];
    let mut bytes = good();
    let mut unpacked = vec![1, 1];
    for (place, value) in large.into_iter().chain(small).enumerate() {
        put(&mut bytes, 4 * place, value);
        unpacked.push(u64::from(value));
    }
    let calls = vec![
        settled(read(&bytes), 0, 0),
        writes(unpack(&bytes, 2, 7), 0, 0, &unpacked),
    ];
    headed("The largest parameters, the smallest, and -0.0", calls)
}

/// The reader's checks come before those of the lent lengths.
fn wrong_rooms() -> Vec<Settled<ImageCall>> {
    let mut infinite = good();
    put(&mut infinite, 0, 0x7f80_0000);
    let mut calls = Vec::new();
    for (widths, parameters) in [(2, 6), (2, 8), (1, 7), (3, 7), (0, 7), (2, 0), (7, 2)] {
        for (bytes, number) in [(&good(), 10), (&infinite, 11)] {
            let call = unpack(bytes, widths, parameters);
            let unchanged = call.written();
            calls.push(writes(call, number, 0, &unchanged));
        }
    }
    headed("Room for another number of widths or of parameters: 10; with an infinite base weight 11, which comes first", calls)
}

/// About the longest image that is looked at.
fn longest() -> Vec<Settled<ImageCall>> {
    all_refused(vec![
        ("D90", vec![0; LONGEST + 1], 24, 0),
        ("D90", vec![0; LONGEST], 25, 0),
        (
            "The good image behind zeros",
            moved(LONGEST + 1 - 68),
            24,
            0,
        ),
        ("The good image behind zeros", moved(LONGEST - 68), 27, 0),
        (
            "All but the trailer is widths",
            of_widths(&vec![1; (LONGEST - TRAILER) / 4], 1),
            7,
            12_582_858,
        ),
    ])
}

fn largest_networks() -> Vec<Settled<ImageCall>> {
    let mut calls = Vec::new();
    for model in largest_models() {
        let Model { config, parameters } = &model;
        let bytes = images::image(config, parameters);
        calls.push(settled(write(&model, bytes.len()), 0, 0));
        calls.push(settled(read(&bytes), 0, 0));
        let unpacked = unpack(&bytes, config.widths.len(), parameters.len());
        calls.push(settled(unpacked, 0, 0));
    }
    calls
}
