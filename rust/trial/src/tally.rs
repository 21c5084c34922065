//! How often each answer occurred, by the kind of input that met it.

use std::collections::BTreeMap;

/// One input in how many is tried: each, or fewer by the environment variable `KHUMSAFIL_ONE_IN`, for a checker under
/// which every call takes longer.
pub fn one_in() -> usize {
    let said = std::env::var("KHUMSAFIL_ONE_IN").ok();
    said.map_or(1, |n| n.parse().expect("KHUMSAFIL_ONE_IN is a number"))
}

/// So many inputs, or the part of them that is tried.
pub fn share(count: usize) -> usize {
    (count / one_in()).max(1)
}

/// Fails where something is seldom that is to be common, unless only a part is tried.
pub fn common(count: u64, least: u64) {
    assert!(one_in() > 1 || count >= least, "{count}, not {least}");
}

/// Counts by kind and answer. An answer is a number of refusal, or 0.
#[derive(Default)]
pub struct Tally {
    counts: BTreeMap<(&'static str, u8), u64>,
}

impl Tally {
    pub fn note(&mut self, kind: &'static str, answer: u8) {
        *self.counts.entry((kind, answer)).or_default() += 1;
    }

    /// How often the answer occurred, under all kinds.
    pub fn of(&self, answer: u8) -> u64 {
        let one = self.counts.iter().filter(|((_, a), _)| *a == answer);
        one.map(|(_, n)| n).sum()
    }

    /// How often a kind of input met the answer.
    pub fn met(&self, kind: &'static str, answer: u8) -> u64 {
        self.counts.get(&(kind, answer)).copied().unwrap_or(0)
    }

    pub fn total(&self) -> u64 {
        self.counts.values().sum()
    }

    /// Prints a row for each kind and one for all, and fails where one of the answers never occurred, or an
    /// answer that is none of them did.
    pub fn show(&self, title: &str, answers: &[u8]) {
        println!("{title}: {} inputs", self.total());
        print!("{:>24}", "answer");
        answers.iter().for_each(|a| print!("{a:>9}"));
        println!();
        let mut kinds: Vec<_> = self.counts.keys().map(|(kind, _)| *kind).collect();
        kinds.dedup();
        for kind in kinds {
            print!("{kind:>24}");
            answers
                .iter()
                .for_each(|a| print!("{:>9}", self.met(kind, *a)));
            println!();
        }
        print!("{:>24}", "all");
        answers.iter().for_each(|a| print!("{:>9}", self.of(*a)));
        println!();
        for a in answers {
            assert!(
                one_in() > 1 || self.of(*a) != 0,
                "no input was answered {a}"
            );
        }
        let known: u64 = answers.iter().map(|a| self.of(*a)).sum();
        assert_eq!(known, self.total(), "an answer that is none of these");
    }
}

/// How often each of some cases was met, which are not answers.
#[derive(Default)]
pub struct Cases {
    counts: BTreeMap<&'static str, u64>,
}

impl Cases {
    pub fn note(&mut self, case: &'static str) {
        *self.counts.entry(case).or_default() += 1;
    }

    pub fn note_if(&mut self, met: bool, case: &'static str) {
        if met {
            self.note(case);
        }
    }

    /// Prints a row for each case, and fails where one was met more seldom than so often, or is none of these.
    pub fn show(&self, title: &str, cases: &[&'static str], least: u64) {
        println!("{title}:");
        for case in cases {
            println!("{:>12} {case}", self.counts.get(case).unwrap_or(&0));
        }
        for case in cases {
            common(self.counts.get(case).copied().unwrap_or(0), least);
        }
        let known = |case: &&str| cases.contains(case);
        assert!(
            self.counts.keys().all(known),
            "a case that is none of these"
        );
    }
}
