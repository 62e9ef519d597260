//! The command line: a subject, the program's words, `--cases N` and `--seed S` in any place behind it.

pub struct Arguments {
    pub subject: String,
    pub program: Vec<String>,
    pub cases: usize,
    pub seed: u64,
}

impl Arguments {
    pub fn parse(given: &[String]) -> Option<Arguments> {
        let (subject, rest) = given.split_first()?;
        let mut parsed = Arguments { subject: subject.clone(), program: Vec::new(), cases: 1000, seed: 1 };
        let mut rest = rest.iter();
        while let Some(word) = rest.next() {
            match word.as_str() {
                "--cases" => parsed.cases = rest.next()?.parse().ok()?,
                "--seed" => parsed.seed = rest.next()?.parse().ok()?,
                _ => parsed.program.push(word.clone()),
            }
        }
        let wants_program = ["schedules", "load-text"].contains(&parsed.subject.as_str());
        (wants_program != parsed.program.is_empty()).then_some(parsed)
    }

    /// A seed of its own for each input of a run.
    pub fn seed_of(&self, input: usize) -> u64 {
        self.seed.wrapping_mul(1 << 32).wrapping_add(input as u64)
    }
}
