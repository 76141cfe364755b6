//! Tables of several ways to do the same for all numbers; the others are compared with the first.
use crate::{keep, Inputs, Spread, ROUNDS};
use std::time::Instant;

/// A way, which answers a sum over all numbers, and the nanoseconds for a number in each round.
pub struct Way<'a> {
    name: &'static str,
    run: Box<dyn FnMut() -> usize + 'a>,
    times: Vec<f64>,
}

impl<'a> Way<'a> {
    pub fn new(name: &'static str, run: impl FnMut() -> usize + 'a) -> Way<'a> {
        Way {
            name,
            run: Box::new(run),
            times: Vec::new(),
        }
    }

    /// By what each number adds to the sum.
    pub fn each(name: &'static str, inputs: &'a Inputs, mut one: impl FnMut(&[u8]) -> usize + 'a) -> Way<'a> {
        Way::new(name, move || inputs.numbers.iter().map(|number| one(number)).sum())
    }

    /// The numbers several times over between two looks at the clock.
    fn round(&mut self, numbers: usize, passes: usize) {
        let start = Instant::now();
        for _ in 0..passes {
            keep(&(self.run)());
        }
        let time = start.elapsed().as_nanos() as f64;
        self.times.push(time / (passes * numbers) as f64);
    }
}

/// What is timed is done: all ways answer this sum.
pub fn agree(ways: &mut [Way], sum: usize) {
    for way in ways {
        assert_eq!((way.run)(), sum, "{}", way.name);
    }
}

/// Times all ways on these inputs, and prints a table for each size.
pub fn print(title: &str, passes: usize, sizes: &[Inputs], ways: for<'a> fn(&'a Inputs) -> Vec<Way<'a>>) {
    let mut tables: Vec<Vec<Way>> = sizes.iter().map(ways).collect();
    for round in 0..ROUNDS {
        for (inputs, table) in sizes.iter().zip(&mut tables) {
            for i in 0..table.len() {
                let next = (round + i) % table.len();
                table[next].round(inputs.numbers.len(), passes);
            }
        }
    }
    println!("\n{}: {} rounds, {} times over the numbers", title, ROUNDS, passes);
    for (inputs, table) in sizes.iter().zip(&mut tables) {
        println!(
            "\n{:<24} {:>17} {:>19} {:>18}",
            format!("numbers of {} bytes", inputs.bytes),
            "ns a number",
            "times as long",
            "millions a second"
        );
        println!(
            "{:<24} {:>8} {:>8} {:>10} {:>8} {:>18}",
            "way", "best", "median", "best", "median", "median"
        );
        let first = Spread::of(&mut table[0].times);
        for way in table {
            let own = Spread::of(&mut way.times);
            println!(
                "{:<24} {:>8.1} {:>8.1} {:>10.2} {:>8.2} {:>18.1}",
                way.name,
                own.best,
                own.median,
                own.best / first.best,
                own.median / first.median,
                1e3 / own.median
            );
        }
    }
}
