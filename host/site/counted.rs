//! How many commands came, and what became of them.

/// Since the start.
pub struct Counted {
    pub handed: u64,
    pub not_taken: u64,
    /// Where a program is run for them.
    pub ran: Option<Ran>,
}

pub struct Ran {
    pub done: u64,
    pub failed: u64,
    pub runs: bool,
    pub waiting: u64,
}

impl Counted {
    pub fn said(&self) -> String {
        let handed = format!("{} handed over", self.handed);
        match &self.ran {
            None => handed,
            Some(Ran { done, failed, runs, waiting }) => {
                let runs = if *runs { "one runs" } else { "none runs" };
                format!("{}: {} done, {} failed, {}, {} wait; {} not taken", handed, done, failed, runs, waiting, self.not_taken)
            }
        }
    }

    /// The name of each number, of what kind it is, what it is, and the number.
    pub fn each(&self) -> Vec<(&'static str, &'static str, &'static str, u64)> {
        let mut each = vec![("handed_total", "counter", "Commands that supervisors gave since the process began.", self.handed)];
        if let Some(ran) = &self.ran {
            each.extend([
                ("done_total", "counter", "Of them those whose program ended with status 0.", ran.done),
                ("failed_total", "counter", "Of them those whose program did not, or was not run.", ran.failed),
                ("running", "gauge", "1 while a program runs.", u64::from(ran.runs)),
                ("waiting", "gauge", "Commands that wait for their turn.", ran.waiting),
                ("not_taken_total", "counter", "Commands that found no room; their message was not answered.", self.not_taken),
            ]);
        }
        each
    }

    pub fn json(&self) -> String {
        let each: Vec<String> =
            self.each().iter().map(|(name, _, _, number)| format!("\"{}\":{}", name.trim_end_matches("_total"), number)).collect();
        format!("{{{}}}", each.join(","))
    }
}
