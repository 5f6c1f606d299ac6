//! Arguments of the oracle's programs: pairs of a name and a whole number.

use std::env;
use std::process;

/// The numbers given for the names, in the names' order, each with its default.
pub fn numbers<const N: usize>(defaults: [(&str, u64); N]) -> [u64; N] {
    let mut numbers = defaults.map(|(_, default)| default);
    let mut words = env::args().skip(1);
    while let Some(name) = words.next() {
        let place = defaults.iter().position(|(known, _)| *known == name);
        let number = words.next().and_then(|word| word.parse().ok());
        match (place, number) {
            (Some(place), Some(number)) => numbers[place] = number,
            _ => {
                let known = defaults.map(|(name, default)| format!("[{name} {default}]"));
                eprintln!("understood are (with defaults): {}", known.join(" "));
                process::exit(2);
            }
        }
    }
    numbers
}
