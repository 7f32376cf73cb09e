// Jobs timed in turn.
use std::hint::black_box;
use std::time::Instant;

// What is timed. Its answer is kept, so that it has to be worked out.
pub type Job<'a> = Box<dyn FnMut() -> u64 + 'a>;

pub struct Races {
    // Of each job by how many percent its second best run took longer than the best.
    spreads: Vec<f64>,
}

impl Races {
    pub fn new() -> Races {
        Races { spreads: Vec::new() }
    }

    // Runs each job so many times, all in turn, so that noise meets each; in each round another is first. Answers the
    // shortest times, in nanoseconds.
    pub fn race<const N: usize>(&mut self, rounds: usize, mut jobs: [Option<Job>; N]) -> [Option<f64>; N] {
        let mut times: [Vec<f64>; N] = std::array::from_fn(|_| Vec::new());
        for round in 0..rounds {
            for turn in 0..N {
                let at = (round + turn) % N;
                if let Some(job) = &mut jobs[at] {
                    let begin = Instant::now();
                    black_box(job());
                    times[at].push(begin.elapsed().as_nanos() as f64);
                }
            }
        }
        times.map(|mut times| {
            times.sort_by(f64::total_cmp);
            if let [best, second, ..] = times[..] {
                self.spreads.push(100.0 * (second - best) / best);
            }
            times.first().copied()
        })
    }

    pub fn noise(mut self) -> String {
        self.spreads.sort_by(f64::total_cmp);
        match self.spreads.last() {
            Some(most) => format!(
                "noise of the machine: the second best run took at most {most:.1} % longer than the best, and in half \
                 the jobs not more than {:.1} %",
                self.spreads[self.spreads.len() / 2]
            ),
            None => "noise of the machine: one run does not tell".to_string(),
        }
    }
}
