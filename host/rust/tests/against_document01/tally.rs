//! How often each answer arose.

/// How often a call gave each answer; 0 stands for accepted.
#[derive(Default)]
pub struct Tally {
    answers: [usize; 13],
}

impl Tally {
    pub fn add(&mut self, answer: u32) {
        self.answers[answer as usize] += 1;
    }

    /// Fails unless each of these answers arose at least so often, and no other arose at all.
    pub fn reaches(&self, call: &str, answers: &[u32], least: usize) {
        for answer in 0..13 {
            let times = self.answers[answer as usize];
            if answers.contains(&answer) {
                assert!(times >= least, "{call}: {answer} arose {times} times");
            } else {
                assert_eq!(times, 0, "{call}: {answer} must not arise");
            }
        }
    }
}

/// One line with the sum of the tallies of a test, and what was counted.
pub fn report(test: &str, what: &str, tallies: &[&Tally]) {
    let mut sum = [0; 13];
    for tally in tallies {
        for (total, times) in sum.iter_mut().zip(tally.answers) {
            *total += times;
        }
    }
    let calls: usize = sum.iter().sum();
    let answers: Vec<String> =
        sum.iter().enumerate().map(|(answer, times)| format!("{answer}:{times}")).collect();
    println!("{test}: {calls} {what}, {}", answers.join(" "));
}
