//! The two files of a program that runs a tool on bodies: crates/quarrel_run and crates/shortest_run.
use quarrel::Form;

/// The most bytes that such a program reads.
const MOST: usize = 65_536;
/// The marks of a name that lend a table one cell too short, and those that lend longer tables or another log.
const SHORT: &str = "RCNVTEM";
const OTHER: &str = "L0234";

pub struct Files {
    /// A head, a blank and the body's text each. The head is a name, and what else the tool takes.
    pub stdin: String,
    /// The head, and what the tool gives in both forms, `/` for a line feed.
    pub stdout: String,
}

impl Files {
    /// The comment lines alone.
    pub fn new(comment: &str) -> Files {
        Files { stdin: comment.to_string(), stdout: String::new() }
    }

    /// A body, and the answer line and the text for each form.
    pub fn add(&mut self, head: &str, text: &str, given: impl Fn(Form) -> String) {
        self.stdin += &format!("{head} {text}\n");
        let slashed = |form| given(form).replace('\n', "/");
        self.stdout += &format!("{head} {} {}\n", slashed(Form::Number), slashed(Form::Where));
    }

    /// A body on tables of other lengths: too short ones are answered 2. `head` makes the head of a name.
    pub fn add_lent(
        &mut self,
        name: &str,
        head: impl Fn(String) -> String,
        text: &str,
        given: impl Fn(Form) -> String,
    ) {
        for mark in SHORT.chars() {
            self.add(&head(format!("{name}!{mark}")), text, |_| "answer=2,-\n".to_string());
        }
        for mark in OTHER.chars() {
            self.add(&head(format!("{name}!{mark}")), text, &given);
        }
    }

    /// The files, unless the program would not read all of it.
    pub fn whole(self) -> Result<Files, String> {
        match self.stdin.len() {
            0..=MOST => Ok(self),
            bytes => Err(format!("{bytes} bytes of bodies: the program reads {MOST}")),
        }
    }

    pub fn write(&self, dir: &str) -> Result<(), String> {
        for (name, text) in [("stdin", &self.stdin), ("stdout", &self.stdout)] {
            let path = format!("{dir}/{name}");
            std::fs::write(&path, text).map_err(|e| format!("{path}: {e}"))?;
        }
        Ok(())
    }
}
