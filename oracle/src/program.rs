//! One run of a program that compares calls: the chosen ones, then drawn ones, counted and printed.

use crate::compared::{Compared, Line};
use crate::drawn_calls::Maker;
use crate::models::demand_exact;
use crate::nans::{chosen, demand_kept};
use crate::outcomes::Outcomes;
use crate::ported::demand_e;
use crate::rounds::{Comparison, Round};
use crate::settled::Chosen;
use std::process::ExitCode;
use std::thread;
use std::time::Instant;

const THREADS: u64 = 2;
/// From so many rounds on, every number that a call can give must have come.
const ENOUGH_ROUNDS: u64 = 2000;

/// What tells one program from another.
pub struct Program<C: Compared> {
    pub kinds: &'static [C::Kind],
    /// Whether a call of a kind can end on a line here; then one does so in every long run.
    pub gives: fn(C::Kind, Line) -> bool,
    /// The chosen calls; the large ones too where they are asked for. Nothing where other programs make them.
    pub chosen: Option<fn(bool) -> Chosen<C>>,
    /// Draws the calls of one round and has each of them compared.
    pub round: fn(&mut Maker, &mut Comparison<C>),
    /// What rounds look for besides: every long run meets it.
    pub sights: &'static [&'static str],
    /// The call as the archive makes it.
    pub made: fn(C) -> C,
}

struct Arguments {
    rounds: u64,
    seed: u64,
    large: bool,
    /// The only round to make.
    round: Option<u64>,
}

impl Arguments {
    fn given() -> Option<Self> {
        let mut arguments = Arguments {
            rounds: 20_000,
            seed: 1,
            large: false,
            round: None,
        };
        let mut words = std::env::args().skip(1);
        while let Some(name) = words.next() {
            match name.as_str() {
                "--rounds" => arguments.rounds = words.next()?.parse().ok()?,
                "--seed" => arguments.seed = words.next()?.parse().ok()?,
                "--large" => arguments.large = true,
                "--round" => arguments.round = Some(words.next()?.parse().ok()?),
                _ => return None,
            }
        }
        Some(arguments)
    }
}

impl<C: Compared + 'static> Program<C> {
    pub fn run(&self) -> ExitCode {
        let Some(arguments) = Arguments::given() else {
            eprintln!(
                "understood are (with defaults): [--rounds 20000] [--seed 1] [--large] [--round R]"
            );
            return ExitCode::from(2);
        };
        demand_e();
        demand_exact();
        demand_kept();
        let (outcomes, missing) = match arguments.round {
            Some(number) => self.one_round(Round {
                seed: arguments.seed,
                number,
            }),
            None => self.all_rounds(&arguments),
        };
        if outcomes.different() > 0 || missing {
            ExitCode::FAILURE
        } else {
            ExitCode::SUCCESS
        }
    }

    /// The chosen calls, then the drawn ones; and whether something did not come that should have.
    fn all_rounds(&self, arguments: &Arguments) -> (Outcomes<C>, bool) {
        let start = Instant::now();
        let mut outcomes = self.chosen_calls(arguments.large);
        let (chosen, chosen_nans) = (outcomes.calls(), outcomes.kept().all());
        let no_nan = self.chosen.is_some() && outcomes.kept().print_missing(self.kinds);
        let chosen_time = start.elapsed().as_secs_f64();
        let start = Instant::now();
        for part in self.drawn_in_threads(arguments) {
            outcomes.absorb(part);
        }
        let drawn_time = start.elapsed().as_secs_f64();
        outcomes.print();
        let drawn = outcomes.calls() - chosen;
        println!(
            "{chosen} chosen calls in {chosen_time:.1} s, {drawn} drawn calls in {drawn_time:.1} s"
        );
        let drawn_nans = outcomes.kept().all() - chosen_nans;
        println!("{chosen_nans} NaN left alone by chosen calls, {drawn_nans} by drawn calls");
        if outcomes.steps() > 0 {
            println!("{} training steps", outcomes.steps());
        }
        for sight in self.sights {
            println!("{} {sight}", outcomes.met(sight));
        }
        println!("{} differences", outcomes.different());
        let is_long = arguments.rounds >= ENOUGH_ROUNDS;
        let no_answer = is_long && outcomes.print_missing();
        let no_sight = is_long && self.print_unseen(&outcomes);
        (outcomes, no_nan || no_answer || no_sight)
    }

    /// Names what no round met; whether there is any.
    fn print_unseen(&self, outcomes: &Outcomes<C>) -> bool {
        let sights = self.sights.iter();
        let unseen: Vec<_> = sights.filter(|sight| outcomes.met(sight) == 0).collect();
        for sight in &unseen {
            println!("no {sight}");
        }
        !unseen.is_empty()
    }

    fn outcomes(&self) -> Outcomes<C> {
        Outcomes::new(self.kinds, self.gives, self.made)
    }

    /// Each chosen call as it is, and again with NaN in what it leaves alone, so often that every cell has held one of each
    /// kind: quiet and signalling, of both signs. Large ones are made with one quiet and one signalling at most.
    fn chosen_calls(&self, large: bool) -> Outcomes<C> {
        let mut outcomes = self.outcomes();
        let chosen_calls = self.chosen.into_iter().flat_map(|chosen| chosen(large));
        for (place, settled) in chosen_calls.enumerate() {
            outcomes.compare_settled(&settled, || format!("chosen call {place}"));
            let times = if settled.is_large() { 2 } else { 4 };
            for passed in 0..times {
                if let Some(settled) = settled.with_nans(&mut chosen(passed)) {
                    let at = || format!("chosen call {place} with NaN from {passed} on");
                    outcomes.compare_settled(&settled, at);
                }
            }
        }
        outcomes
    }

    fn drawn_in_threads(&self, arguments: &Arguments) -> Vec<Outcomes<C>> {
        let Arguments { rounds, seed, .. } = *arguments;
        let threads: Vec<_> = (0..THREADS)
            .map(|first| {
                let program = Program { ..*self };
                thread::spawn(move || program.drawn(seed, first, rounds))
            })
            .collect();
        threads
            .into_iter()
            .map(|thread| thread.join().expect("a comparison ends"))
            .collect()
    }

    fn drawn(&self, seed: u64, first: u64, rounds: u64) -> Outcomes<C> {
        let mut outcomes = self.outcomes();
        let mut maker = Maker::new();
        let mut number = first;
        while number < rounds {
            let mut comparison = Comparison {
                round: Round { seed, number },
                outcomes: &mut outcomes,
                printed: false,
            };
            (self.round)(&mut maker, &mut comparison);
            number += THREADS;
        }
        outcomes
    }

    /// The calls of one round, with all arguments; nothing is missing among them.
    fn one_round(&self, round: Round) -> (Outcomes<C>, bool) {
        let mut outcomes = self.outcomes();
        let mut comparison = Comparison {
            round,
            outcomes: &mut outcomes,
            printed: true,
        };
        (self.round)(&mut Maker::new(), &mut comparison);
        outcomes.print_differences();
        (outcomes, false)
    }
}
