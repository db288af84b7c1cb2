//! Differences that do not stop the program at once: where each call stands by itself, they are
//! counted by kind, so that a run tells all that differs.

use std::collections::BTreeMap;

#[derive(Default)]
pub struct Gathered {
    on: bool,
    /// Only counted: nothing is told of a subject or of a difference.
    pub quiet: bool,
    kinds: BTreeMap<String, u64>,
}

impl Gathered {
    pub fn begin(&mut self) {
        self.on = true;
    }

    pub fn is_on(&self) -> bool {
        self.on
    }

    /// Counts one, and says whether it is to be shown: the first of its kind is.
    pub fn count(&mut self, kind: String) -> bool {
        let n = self.kinds.entry(kind).or_default();
        *n += 1;
        *n == 1 && !self.quiet
    }

    pub fn total(&self) -> u64 {
        self.kinds.values().sum()
    }

    /// Each kind and how often it was met, in words.
    pub fn by_kind(&self) -> String {
        let kinds = self.kinds.iter();
        let told: Vec<String> = kinds.map(|(kind, n)| format!("{n} {kind}")).collect();
        told.join(", ")
    }

    /// From now on a difference stops the program again; whether there has been none.
    pub fn end(&mut self) -> bool {
        self.on = false;
        if self.kinds.is_empty() {
            return true;
        }
        println!("{} DIFFERENCES, by kind:", self.total());
        for (kind, n) in &self.kinds {
            println!("  {n:>7} times {kind}");
        }
        false
    }
}
