//! Times several ways to do the same, turn by turn.

use std::fmt::Debug;
use std::hint::black_box;
use std::time::{Duration, Instant};

/// Once a row has taken this long, and has three rounds, it gets no more.
const ENOUGH: Duration = Duration::from_secs(60);
const FEWEST: usize = 3;

/// The times of one way, round by round.
pub struct Times(Vec<Duration>);

impl Times {
    pub fn best(&self) -> Duration {
        self.sorted()[0]
    }

    pub fn median(&self) -> Duration {
        self.sorted()[self.0.len() / 2]
    }

    /// The ratio of the bests.
    pub fn by_best(&self, other: &Times) -> f64 {
        ratio(self.best(), other.best())
    }

    /// The median of the ratios of neighbouring turns.
    pub fn by_turns(&self, other: &Times) -> f64 {
        let turns = self.0.iter().zip(&other.0);
        let mut ratios: Vec<f64> = turns.map(|(&x, &y)| ratio(x, y)).collect();
        ratios.sort_by(f64::total_cmp);
        ratios[ratios.len() / 2]
    }

    fn sorted(&self) -> Vec<Duration> {
        let mut times = self.0.clone();
        times.sort();
        times
    }
}

fn ratio(x: Duration, y: Duration) -> f64 {
    x.as_secs_f64() / y.as_secs_f64()
}

/// Runs each way `rounds` times, in turn forwards and backwards from another
/// one on, so that each goes first and comes after every other.
pub fn turns<const N: usize>(rounds: usize, ways: [&dyn Fn(); N]) -> [Times; N] {
    let mut times = [const { Times(Vec::new()) }; N];
    let start = Instant::now();
    for round in 0..rounds {
        if round >= FEWEST && start.elapsed() > ENOUGH {
            break;
        }
        for turn in 0..N {
            let step = if round % 2 == 0 { turn } else { N - 1 - turn };
            let way = (round / 2 + step) % N;
            times[way].0.push(time(ways[way]));
        }
    }
    times
}

fn time(way: &dyn Fn()) -> Duration {
    let start = Instant::now();
    way();
    start.elapsed()
}

/// Holds the answers of both against each other, runs them turn by turn, and
/// prints a line of times and ratios.
pub fn compare<T: PartialEq + Debug>(
    name: &str,
    rounds: usize,
    library: impl Fn() -> T,
    plain: impl Fn() -> T,
) {
    assert_eq!(library(), plain(), "{name}: the two differ");
    let [library, plain] = turns(rounds, [&|| run(&library), &|| run(&plain)]);
    row(name, &library, &plain);
}

/// Runs a way whose answer is not looked at.
pub fn run<T>(way: impl Fn() -> T) {
    black_box(way());
}

/// Prints what the columns of a row are.
pub fn head() {
    println!(
        "{:12} {:>12} {:>12} {:>12} {:>12} {:>7} {:>7}",
        "", "best", "", "median", "", "ratio", "ratio"
    );
    println!(
        "{:12} {:>12} {:>12} {:>12} {:>12} {:>7} {:>7} {:>7}",
        "", "library", "plain", "library", "plain", "best", "turns", "rounds"
    );
}

/// Prints a line of times and ratios.
pub fn row(name: &str, library: &Times, other: &Times) {
    println!(
        "{name:12} {:>12} {:>12} {:>12} {:>12} {:>7.2} {:>7.2} {:>7}",
        micros(library.best()),
        micros(other.best()),
        micros(library.median()),
        micros(other.median()),
        library.by_best(other),
        library.by_turns(other),
        library.0.len()
    );
}

fn micros(time: Duration) -> String {
    format!("{} us", time.as_micros())
}
