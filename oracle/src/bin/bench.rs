//! Times three programs on the same inputs, in turns: the ported Rust, the proved library
//! (`libestimator.a`) and the fast algorithm written by hand (`bench/handwritten.cpp`). In turns
//! too: the library's training step, and the two calls that make the same step. All answers are
//! compared bit by bit. With `--wide 1` it times the first two instead, on domains where the
//! library cannot go by four basis values of an edge. Prints Markdown tables.

use kan_oracle::arguments;
use kan_oracle::draws::Draws;
use kan_oracle::models;
use kan_oracle::network::kan::Kan;
use kan_oracle::ported::{demand_e, Grid};
use std::hint::black_box;
use std::process::ExitCode;
use std::time::{Duration, Instant};

const PREDICTED_ROWS: usize = 256;
const TRAINED_ROWS: usize = 64;
const RATE: f32 = 0.05;
const FEWEST_TURNS: usize = 3;
const SHAPES: [&[usize]; 3] = [&[8, 16, 1], &[4, 8, 8, 1], &[1, 1]];
const GRIDS: [usize; 4] = [5, 16, 64, 256];
// Knots that are all finite and span more than the largest float: (g + 3) steps are finite, (g + 6) are
// not. On wider domains the last knot is infinite, and every row inside the knots is refused with 20.
const WIDE: [(&[usize], usize, [f32; 2]); 5] = [
    (&[1, 1], 1, [0.0, 8e37]),
    (&[1, 1], 5, [-1e38, 1e38]),
    (&[8, 16, 1], 5, [-1e38, 1e38]),
    (&[8, 16, 1], 16, [-1.4e38, 1.4e38]),
    (&[8, 16, 1], 256, [-1.67e38, 1.67e38]),
];
const HEAD: &str = concat!(
    "| shape | g | edges | Rust, ns a row | library | by hand | Rust, ns an edge | library | by hand ",
    "| Rust/library | library/by hand | bits |"
);

const SPLIT_HEAD: &str = concat!(
    "| shape | g | edges | train_step, ns a row | accumulate | apply | accumulate, ns an edge ",
    "| accumulate/(train_step - apply) | (accumulate + apply)/train_step | bits |"
);

// Without the algorithm by hand, which would lose refusals on these domains.
const WIDE_HEAD: &str = concat!(
    "| shape | g | edges | Rust, ns a row | library | Rust, ns an edge | library ",
    "| Rust/library | bits |"
);

mod linked {
    #[link(name = "estimator", kind = "static")]
    extern "C" {
        pub fn kan_predict(
            widths: *const usize,
            widths_len: usize,
            intervals: usize,
            lo: f32,
            hi: f32,
            model: *const f32,
            model_len: usize,
            inputs: *const f32,
            inputs_len: usize,
            first: *mut f32,
            first_len: usize,
            second: *mut f32,
            second_len: usize,
            outputs: *mut f32,
            outputs_len: usize,
            carried: *mut usize,
        ) -> u32;

        pub fn kan_train_step(
            widths: *const usize,
            widths_len: usize,
            intervals: usize,
            lo: f32,
            hi: f32,
            model: *mut f32,
            model_len: usize,
            inputs: *const f32,
            inputs_len: usize,
            targets: *const f32,
            targets_len: usize,
            rate: f32,
            gradients: *mut f32,
            gradients_len: usize,
            work: *mut f32,
            work_len: usize,
            carried: *mut usize,
        ) -> u32;

        pub fn kan_accumulate(
            widths: *const usize,
            widths_len: usize,
            intervals: usize,
            lo: f32,
            hi: f32,
            model: *const f32,
            model_len: usize,
            inputs: *const f32,
            inputs_len: usize,
            targets: *const f32,
            targets_len: usize,
            total: usize,
            gradients: *mut f32,
            gradients_len: usize,
            work: *mut f32,
            work_len: usize,
            carried: *mut usize,
        ) -> u32;

        pub fn kan_apply(
            widths: *const usize,
            widths_len: usize,
            intervals: usize,
            lo: f32,
            hi: f32,
            model: *mut f32,
            model_len: usize,
            gradients: *const f32,
            gradients_len: usize,
            rate: f32,
            carried: *mut usize,
        ) -> u32;

        pub fn kan_visits(
            widths: *const usize,
            widths_len: usize,
            intervals: usize,
            lo: f32,
            hi: f32,
            model: *const f32,
            model_len: usize,
            inputs: *const f32,
            inputs_len: usize,
            first: *mut f32,
            first_len: usize,
            second: *mut f32,
            second_len: usize,
            map: *mut u8,
            map_len: usize,
            carried: *mut usize,
        ) -> u32;
    }

    #[link(name = "handwritten", kind = "static")]
    extern "C" {
        pub fn hand_predict(
            widths: *const usize,
            widths_len: usize,
            intervals: usize,
            lo: f32,
            hi: f32,
            model: *const f32,
            inputs: *const f32,
            rows: usize,
            first: *mut f32,
            second: *mut f32,
            outputs: *mut f32,
        ) -> u32;

        pub fn hand_train_step(
            widths: *const usize,
            widths_len: usize,
            intervals: usize,
            lo: f32,
            hi: f32,
            model: *mut f32,
            inputs: *const f32,
            targets: *const f32,
            rows: usize,
            rate: f32,
            gradients: *mut f32,
            work: *mut f32,
        ) -> u32;
    }
}

/// A network and a batch, flat and as the Rust has them, and the buffers that the flat calls work in.
struct Case {
    widths: Vec<usize>,
    grid: Grid,
    network: Kan,
    model: Vec<f32>,
    inputs: Vec<f32>,
    targets: Vec<f32>,
    input_rows: Vec<Vec<f32>>,
    target_rows: Vec<Vec<f32>>,
    first: Vec<f32>,
    second: Vec<f32>,
    gradients: Vec<f32>,
    work: Vec<f32>,
    outputs: Vec<f32>,
    map: Vec<u8>,
}

/// The grid of all tables but those of wide knots.
fn ordinary_grid(intervals: usize) -> Grid {
    Grid::new(intervals, -1.0, 1.0)
}

/// A grid of `WIDE`. Stops the program unless its knots are finite and their span, in f32, is not.
fn wide_grid(intervals: usize, domain: [f32; 2]) -> Grid {
    let grid = Grid::new(intervals, domain[0], domain[1]);
    let knots = grid.knots();
    let finite = knots.iter().all(|knot| knot.is_finite());
    let span = knots[knots.len() - 1] - knots[0];
    assert!(finite && span == f32::INFINITY, "not wide: {grid:?}");
    grid
}

impl Case {
    fn new(widths: &[usize], grid: Grid, rows: usize) -> Self {
        let mut draws = Draws::new(7);
        let mut some =
            |count: usize| -> Vec<f32> { (0..count).map(|_| draws.between(-1.2, 1.2)).collect() };
        let edges: usize = widths.windows(2).map(|ends| ends[0] * ends[1]).sum();
        let (ins, outs) = (widths[0], widths[widths.len() - 1]);
        let model: Vec<f32> = some(edges * (grid.intervals + 5));
        // Small enough that hidden nodes stay near the domain.
        let model: Vec<f32> = model.iter().map(|x| x / ins as f32).collect();
        let (inputs, targets) = (some(rows * ins), some(rows * outs));
        let widest = *widths.iter().max().expect("there are widths");
        let nodes: usize = widths.iter().sum();
        Case {
            network: models::network(widths, &grid, &model),
            input_rows: inputs.chunks(ins).map(<[f32]>::to_vec).collect(),
            target_rows: targets.chunks(outs).map(<[f32]>::to_vec).collect(),
            first: vec![0.0; widest],
            second: vec![0.0; widest],
            gradients: vec![0.0; model.len()],
            work: vec![0.0; 2 * nodes],
            outputs: vec![0.0; rows * outs],
            map: vec![0; model.len()],
            widths: widths.to_vec(),
            grid,
            model,
            inputs,
            targets,
        }
    }

    fn rows(&self) -> usize {
        self.input_rows.len()
    }

    fn edges(&self) -> usize {
        self.widths.windows(2).map(|ends| ends[0] * ends[1]).sum()
    }
}

/// The processor time that this thread has had: time spent on other programs does not count.
fn own_time() -> Duration {
    #[repr(C)]
    struct Timespec {
        seconds: i64,
        nanoseconds: i64,
    }
    extern "C" {
        fn clock_gettime(clock: i32, time: *mut Timespec) -> i32;
    }
    const THREAD_CPUTIME: i32 = 3; // CLOCK_THREAD_CPUTIME_ID of Linux
    let mut time = Timespec {
        seconds: 0,
        nanoseconds: 0,
    };
    let status = unsafe { clock_gettime(THREAD_CPUTIME, &mut time) };
    assert_eq!(status, 0, "no clock for this thread");
    Duration::new(time.seconds as u64, time.nanoseconds as u32)
}

// One call of each program. Each answers the time and all numbers that the call wrote: outputs, or the model after a step.
type Call = fn(&mut Case) -> (Duration, Vec<f32>);

fn predict_of_rust(case: &mut Case) -> (Duration, Vec<f32>) {
    let start = own_time();
    let answer = case.network.predict_batch(black_box(&case.input_rows));
    let time = own_time() - start;
    (time, answer.expect("predicted").concat())
}

fn predict_of_library(case: &mut Case) -> (Duration, Vec<f32>) {
    let mut carried = 0;
    let start = own_time();
    // Every buffer is lent with its own length.
    let number = unsafe {
        linked::kan_predict(
            case.widths.as_ptr(),
            case.widths.len(),
            case.grid.intervals,
            case.grid.lo,
            case.grid.hi,
            case.model.as_ptr(),
            case.model.len(),
            case.inputs.as_ptr(),
            case.inputs.len(),
            case.first.as_mut_ptr(),
            case.first.len(),
            case.second.as_mut_ptr(),
            case.second.len(),
            case.outputs.as_mut_ptr(),
            case.outputs.len(),
            &mut carried,
        )
    };
    let time = own_time() - start;
    assert_eq!(number, 0, "kan_predict refused");
    (time, case.outputs.clone())
}

fn predict_by_hand(case: &mut Case) -> (Duration, Vec<f32>) {
    let start = own_time();
    // The buffers have the lengths that the shape asks for.
    let number = unsafe {
        linked::hand_predict(
            case.widths.as_ptr(),
            case.widths.len(),
            case.grid.intervals,
            case.grid.lo,
            case.grid.hi,
            case.model.as_ptr(),
            case.inputs.as_ptr(),
            case.input_rows.len(),
            case.first.as_mut_ptr(),
            case.second.as_mut_ptr(),
            case.outputs.as_mut_ptr(),
        )
    };
    let time = own_time() - start;
    assert_eq!(number, 0, "hand_predict refused");
    (time, case.outputs.clone())
}

fn train_of_rust(case: &mut Case) -> (Duration, Vec<f32>) {
    let mut network = case.network.clone();
    let start = own_time();
    let answer = network.train_step(black_box(&case.input_rows), &case.target_rows, RATE);
    let time = own_time() - start;
    answer.expect("trained");
    (time, models::parameters(&network))
}

fn train_of_library(case: &mut Case) -> (Duration, Vec<f32>) {
    let mut model = case.model.clone();
    let mut carried = 0;
    let start = own_time();
    // Every buffer is lent with its own length.
    let number = unsafe {
        linked::kan_train_step(
            case.widths.as_ptr(),
            case.widths.len(),
            case.grid.intervals,
            case.grid.lo,
            case.grid.hi,
            model.as_mut_ptr(),
            model.len(),
            case.inputs.as_ptr(),
            case.inputs.len(),
            case.targets.as_ptr(),
            case.targets.len(),
            RATE,
            case.gradients.as_mut_ptr(),
            case.gradients.len(),
            case.work.as_mut_ptr(),
            case.work.len(),
            &mut carried,
        )
    };
    let time = own_time() - start;
    assert_eq!(number, 0, "kan_train_step refused");
    (time, model)
}

fn train_by_hand(case: &mut Case) -> (Duration, Vec<f32>) {
    let mut model = case.model.clone();
    let start = own_time();
    // The buffers have the lengths that the shape asks for.
    let number = unsafe {
        linked::hand_train_step(
            case.widths.as_ptr(),
            case.widths.len(),
            case.grid.intervals,
            case.grid.lo,
            case.grid.hi,
            model.as_mut_ptr(),
            case.inputs.as_ptr(),
            case.targets.as_ptr(),
            case.input_rows.len(),
            RATE,
            case.gradients.as_mut_ptr(),
            case.work.as_mut_ptr(),
        )
    };
    let time = own_time() - start;
    assert_eq!(number, 0, "hand_train_step refused");
    (time, model)
}

/// The time of `kan_accumulate` from gradients all +0.0.
fn accumulate(case: &mut Case) -> Duration {
    case.gradients.fill(0.0);
    let mut carried = 0;
    let start = own_time();
    // Every buffer is lent with its own length.
    let number = unsafe {
        linked::kan_accumulate(
            case.widths.as_ptr(),
            case.widths.len(),
            case.grid.intervals,
            case.grid.lo,
            case.grid.hi,
            case.model.as_ptr(),
            case.model.len(),
            case.inputs.as_ptr(),
            case.inputs.len(),
            case.targets.as_ptr(),
            case.targets.len(),
            case.targets.len(),
            case.gradients.as_mut_ptr(),
            case.gradients.len(),
            case.work.as_mut_ptr(),
            case.work.len(),
            &mut carried,
        )
    };
    let time = own_time() - start;
    assert_eq!(number, 0, "kan_accumulate refused");
    time
}

/// The time of `kan_apply`, and the model.
fn apply(case: &mut Case) -> (Duration, Vec<f32>) {
    let mut model = case.model.clone();
    let mut carried = 0;
    let start = own_time();
    // Every buffer is lent with its own length.
    let number = unsafe {
        linked::kan_apply(
            case.widths.as_ptr(),
            case.widths.len(),
            case.grid.intervals,
            case.grid.lo,
            case.grid.hi,
            model.as_mut_ptr(),
            model.len(),
            case.gradients.as_ptr(),
            case.gradients.len(),
            RATE,
            &mut carried,
        )
    };
    let time = own_time() - start;
    assert_eq!(number, 0, "kan_apply refused");
    (time, model)
}

fn accumulate_of_two(case: &mut Case) -> (Duration, Vec<f32>) {
    let time = accumulate(case);
    (time, apply(case).1)
}

fn apply_of_two(case: &mut Case) -> (Duration, Vec<f32>) {
    accumulate(case);
    apply(case)
}

/// The numbers are the map's bytes.
fn visits_of_library(case: &mut Case) -> (Duration, Vec<f32>) {
    let mut carried = 0;
    let start = own_time();
    // Every buffer is lent with its own length.
    let number = unsafe {
        linked::kan_visits(
            case.widths.as_ptr(),
            case.widths.len(),
            case.grid.intervals,
            case.grid.lo,
            case.grid.hi,
            case.model.as_ptr(),
            case.model.len(),
            case.inputs.as_ptr(),
            case.inputs.len(),
            case.first.as_mut_ptr(),
            case.first.len(),
            case.second.as_mut_ptr(),
            case.second.len(),
            case.map.as_mut_ptr(),
            case.map.len(),
            &mut carried,
        )
    };
    let time = own_time() - start;
    assert_eq!(number, 0, "kan_visits refused");
    (time, case.map.iter().copied().map(f32::from).collect())
}

const SPLIT: [Call; 3] = [train_of_library, accumulate_of_two, apply_of_two];
const PREDICT: [Call; 3] = [predict_of_rust, predict_of_library, predict_by_hand];
const TRAIN: [Call; 3] = [train_of_rust, train_of_library, train_by_hand];
const WIDE_PREDICT: [Call; 2] = [predict_of_rust, predict_of_library];
const WIDE_TRAIN: [Call; 2] = [train_of_rust, train_of_library];

/// The shortest time of each program, in nanoseconds, and whether all answers had the same bits.
fn timed<const N: usize>(case: &mut Case, calls: [Call; N], time: Duration) -> ([f64; N], bool) {
    let start = Instant::now();
    let mut shortest = [f64::INFINITY; N];
    let mut alike = true;
    let mut turns = 0;
    while turns < FEWEST_TURNS || start.elapsed() < time {
        let mut expected: Option<Vec<u32>> = None;
        for (shortest, call) in shortest.iter_mut().zip(calls) {
            let (time, numbers) = call(case);
            *shortest = shortest.min(time.as_nanos() as f64);
            let bits: Vec<u32> = numbers.iter().map(|x| x.to_bits()).collect();
            alike &= *expected.get_or_insert_with(|| bits.clone()) == bits;
        }
        turns += 1;
    }
    (shortest, alike)
}

fn verdict(alike: bool) -> &'static str {
    if alike {
        "same"
    } else {
        "DIFFERENT"
    }
}

struct Bench {
    time: Duration,
    alike: bool,
}

impl Bench {
    fn head(&self, title: &str) {
        println!("\n{title}\n");
        println!("{HEAD}");
        println!("|---|---|---|---|---|---|---|---|---|---|---|---|");
    }

    fn line(&mut self, widths: &[usize], intervals: usize, rows: usize, calls: [Call; 3]) {
        let mut case = Case::new(widths, ordinary_grid(intervals), rows);
        let (times, alike) = timed(&mut case, calls, self.time);
        let [rust, proved, hand] = times.map(|time| time / case.rows() as f64);
        let edges = case.edges() as f64;
        println!(
            "| {widths:?} | {intervals} | {edges} | {rust:.0} | {proved:.0} | {hand:.0} | {:.1} | {:.1} | {:.1} | {:.1} | {:.2} | {} |",
            rust / edges,
            proved / edges,
            hand / edges,
            rust / proved,
            proved / hand,
            verdict(alike)
        );
        self.alike &= alike;
    }

    fn shapes(&mut self, title: &str, rows: usize, calls: [Call; 3]) {
        self.head(title);
        for widths in SHAPES {
            for intervals in GRIDS {
                self.line(widths, intervals, rows, calls);
            }
        }
    }

    /// A training step beside the two calls that make the same step.
    fn split(&mut self) {
        println!("\nTraining in two calls on 64 rows, by the library\n\n{SPLIT_HEAD}");
        println!("|---|---|---|---|---|---|---|---|---|---|");
        for widths in SHAPES {
            for intervals in GRIDS {
                self.split_line(widths, intervals);
            }
        }
    }

    fn split_line(&mut self, widths: &[usize], intervals: usize) {
        let mut case = Case::new(widths, ordinary_grid(intervals), TRAINED_ROWS);
        let (times, alike) = timed(&mut case, SPLIT, self.time);
        let [step, gathered, applied] = times.map(|time| time / case.rows() as f64);
        let edges = case.edges() as f64;
        print!("| {widths:?} | {intervals} | {edges} | {step:.0} | {gathered:.0} | {applied:.1} ");
        println!(
            "| {:.1} | {:.2} | {:.2} | {} |",
            gathered / edges,
            gathered / (step - applied),
            (gathered + applied) / step,
            verdict(alike)
        );
        self.alike &= alike;
    }

    fn growth(&mut self) {
        self.head("Prediction of 256 rows, wider layers");
        for width in [1, 2, 4, 8, 16, 32, 64] {
            self.line(&[width, width], 5, PREDICTED_ROWS, PREDICT);
        }
        self.head("Prediction of 256 rows, more layers");
        for layers in [1, 2, 4, 8] {
            self.line(&vec![8; layers + 1], 5, PREDICTED_ROWS, PREDICT);
        }
    }

    fn ordinary_tables(&mut self, training: bool) {
        self.shapes("Prediction of 256 rows", PREDICTED_ROWS, PREDICT);
        if training {
            self.shapes("One training step on 64 rows", TRAINED_ROWS, TRAIN);
            self.split();
        }
        self.growth();
    }

    fn wide_tables(&mut self, training: bool) {
        self.wide_shapes("Prediction of 256 rows", PREDICTED_ROWS, WIDE_PREDICT);
        if training {
            self.wide_shapes("One training step on 64 rows", TRAINED_ROWS, WIDE_TRAIN);
        }
        self.wide_visits();
        print!("\nThe domains of these tables:");
        for (widths, intervals, domain) in WIDE {
            print!(" {widths:?} g {intervals} {domain:?};");
        }
        println!(" inputs from -1.2 to 1.2.");
    }

    fn wide_shapes(&mut self, title: &str, rows: usize, calls: [Call; 2]) {
        println!("\n{title}, knots that span more than the largest float\n\n{WIDE_HEAD}");
        println!("|---|---|---|---|---|---|---|---|---|");
        for (widths, intervals, domain) in WIDE {
            let mut case = Case::new(widths, wide_grid(intervals, domain), rows);
            let (times, alike) = timed(&mut case, calls, self.time);
            let [rust, proved] = times.map(|time| time / case.rows() as f64);
            let edges = case.edges() as f64;
            println!(
                "| {widths:?} | {intervals} | {edges} | {rust:.0} | {proved:.0} | {:.1} | {:.1} | {:.2} | {} |",
                rust / edges,
                proved / edges,
                rust / proved,
                verdict(alike)
            );
            self.alike &= alike;
        }
    }

    /// The library alone: the Rust has no visit map.
    fn wide_visits(&self) {
        println!("\nThe visit map of 64 rows, knots that span more than the largest float\n");
        println!("| shape | g | edges | library, ns a row | library, ns an edge |");
        println!("|---|---|---|---|---|");
        for (widths, intervals, domain) in WIDE {
            let mut case = Case::new(widths, wide_grid(intervals, domain), TRAINED_ROWS);
            let ([time], _) = timed(&mut case, [visits_of_library], self.time);
            let (edges, row) = (case.edges() as f64, time / case.rows() as f64);
            println!(
                "| {widths:?} | {intervals} | {edges} | {row:.0} | {:.1} |",
                row / edges
            );
        }
    }
}

/// Each call once on a few rows of [8, 16, 1], for an instruction counter.
fn once(grid: Grid, rows: usize, calls: &[Call]) -> ExitCode {
    let mut case = Case::new(&[8, 16, 1], grid, rows);
    for call in calls {
        black_box(call(&mut case));
    }
    ExitCode::SUCCESS
}

fn once_ordinary(intervals: usize, rows: usize, training: u64) -> ExitCode {
    let calls: &[Call] = match training {
        0 => &PREDICT,
        1 => &TRAIN,
        _ => &[train_of_library, accumulate_of_two],
    };
    once(ordinary_grid(intervals), rows, calls)
}

fn once_wide(intervals: usize, rows: usize, training: u64) -> ExitCode {
    let calls: &[Call] = match training {
        0 => &WIDE_PREDICT,
        1 => &WIDE_TRAIN,
        _ => &[visits_of_library],
    };
    let known = WIDE.iter().find(|(_, g, _)| *g == intervals);
    let (_, _, domain) = known.expect("a wide domain is chosen for this g");
    once(wide_grid(intervals, *domain), rows, calls)
}

fn main() -> ExitCode {
    let [milliseconds, training, wide, intervals, rows] = arguments::numbers([
        ("--milliseconds", 400),
        ("--training", 1),
        ("--wide", 0),
        ("--once-intervals", 0),
        ("--once-rows", 16),
    ]);
    // First of all: it also has E's table made.
    demand_e();
    if intervals > 0 {
        let once = if wide == 1 { once_wide } else { once_ordinary };
        return once(intervals as usize, rows as usize, training);
    }
    let mut bench = Bench {
        time: Duration::from_millis(milliseconds),
        alike: true,
    };
    if wide == 1 {
        bench.wide_tables(training == 1);
    } else {
        bench.ordinary_tables(training == 1);
    }
    if bench.alike {
        ExitCode::SUCCESS
    } else {
        eprintln!("bench: answers differ in their bits");
        ExitCode::FAILURE
    }
}
