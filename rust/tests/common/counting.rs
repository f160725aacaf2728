//! Two checkers compared on many texts, and the verdicts counted.

use lofashunge::host::VERDICTS;
use lofashunge::independent::Answer;

pub type Counts = [u64; VERDICTS.len()];

/// How often each verdict is given over every `step`-th of so many texts, split over the machine's cores. `compare` makes the text
/// with a number, looks at it and gives its answer.
pub fn count(texts: u64, step: u64, compare: impl Fn(u64) -> Answer + Sync) -> Counts {
    let cores = std::thread::available_parallelism().map_or(1, |n| n.get()) as u64;
    let share = |core: u64| {
        let mut counts = Counts::default();
        for number in (core * step..texts).step_by((cores * step) as usize) {
            counts[compare(number).verdict as usize] += 1;
        }
        counts
    };
    std::thread::scope(|scope| {
        let threads: Vec<_> = (0..cores).map(|core| scope.spawn(move || share(core))).collect();
        let counts: Vec<Counts> = threads.into_iter().map(|t| t.join().expect("a text differs")).collect();
        std::array::from_fn(|v| counts.iter().map(|c| c[v]).sum())
    })
}

pub fn print(title: &str, counts: Counts) {
    let rows: Vec<String> = counts.iter().zip(VERDICTS).enumerate().map(|(v, (n, (name, _)))| format!("{v:2} {name:10} {n:7}\n")).collect();
    println!("{title}: {} texts\n{}", counts.iter().sum::<u64>(), rows.concat());
}

/// Every verdict so many times, but for those that can't come up.
pub fn each_comes_up(least: u64, never: &[u64], counts: Counts) {
    for (verdict, n) in counts.into_iter().enumerate() {
        assert!(if never.contains(&(verdict as u64)) { n == 0 } else { n >= least }, "verdict {verdict}: {n} texts");
    }
}
