//! Rounds that alternate between the sides, and a fixed loop in each of them
//! that tells whether the machine was disturbed.

use std::time::Instant;

/// Steps of the fixed loop.
const STEPS: usize = 16_000;

/// On a quiet machine the fixed loop's average lies at most so far above its
/// median, and its slow times so far above its quick ones.
const AVERAGE: f64 = 0.05;
const SLOW: f64 = 0.10;

/// The times of the fixed loop so far.
pub struct Rounds {
    loops: Vec<f64>,
    /// What the fixed loop has come to.
    numbers: [u64; 4],
}

impl Rounds {
    pub fn new() -> Rounds {
        Rounds {
            loops: Vec::new(),
            numbers: [1, 2, 3, 4],
        }
    }

    /// So many rounds; the median of what each side gives. Each round starts
    /// with another side, so that none always follows the same one.
    pub fn medians<const SIDES: usize>(
        &mut self,
        rounds: usize,
        mut side: impl FnMut(usize) -> f64,
    ) -> [f64; SIDES] {
        let mut figures = [(); SIDES].map(|()| Vec::with_capacity(rounds));
        for round in 0..rounds {
            self.fixed_loop();
            for place in 0..SIDES {
                let number = (round + place) % SIDES;
                figures[number].push(side(number));
            }
        }
        figures.map(median)
    }

    /// Numbers that do not wait for one another keep the processor busy, so
    /// that whoever shares it shows. What comes out is kept, and the next loop
    /// starts from it.
    fn fixed_loop(&mut self) {
        let start = Instant::now();
        let [mut a, mut b, mut c, mut d] = self.numbers;
        let next = |number: u64| (number ^ number >> 29).wrapping_mul(0x9E37_79B9_7F4A_7C15);
        for _ in 0..STEPS {
            (a, b, c, d) = (next(a), next(b), next(c), next(d));
        }
        self.numbers = [a, b, c, d];
        self.loops.push(start.elapsed().as_nanos() as f64);
    }

    /// One line. Who slows the processor shows in the slow times, who takes it
    /// away for a while in the average.
    pub fn verdict(&self) -> String {
        let mut loops = self.loops.clone();
        loops.sort_by(f64::total_cmp);
        let at = |percent: usize| loops[(loops.len() - 1) * percent / 100] / 1000.0;
        let (quick, middle, slow) = (at(10), at(50), at(90));
        let average = loops.iter().sum::<f64>() / loops.len() as f64 / 1000.0;
        let quiet = average <= middle * (1.0 + AVERAGE) && slow <= quick * (1.0 + SLOW);
        let word = if quiet { "quiet" } else { "disturbed" };
        let rounds = loops.len();
        format!(
            "The machine was {word}: a fixed loop, timed in each of {rounds} rounds, took \
            {middle:.1} µs at the median, {quick:.1} at the 10th of a hundred, {slow:.1} at the \
            90th, and {average:.1} on average."
        )
    }
}

fn median(mut figures: Vec<f64>) -> f64 {
    figures.sort_by(f64::total_cmp);
    figures[figures.len() / 2]
}
