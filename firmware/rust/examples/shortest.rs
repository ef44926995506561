//! Prints a shortest conflict of each file named on the command line, as far as a search of 100,000 subsets finds one: a line with the
//! answer, a line with the place of each equation, and a line `below=`; on standard error how short it is.
use nunthila::{Checker, Lines};
use std::io::Write;
use std::process::ExitCode;

const NUMBER: u64 = 100_000;

fn main() -> ExitCode {
    let mut checker = Checker::new();
    let mut out = vec![0u8; 65_536];
    for path in std::env::args().skip(1) {
        let body = match std::fs::read(&path) {
            Ok(body) => body,
            Err(e) => {
                eprintln!("{path}: {e}");
                return ExitCode::FAILURE;
            }
        };
        let searched = checker.shortest(&body, &mut out, Lines::Places, NUMBER);
        let place = searched.place().map_or("-".to_string(), |p| p.to_string());
        let answer = format!("answer={},{place}\n", searched.answer());
        let text = &out[..searched.length().unwrap_or(0)];
        if std::io::stdout().write_all(&[answer.as_bytes(), text].concat()).is_err() {
            return ExitCode::FAILURE;
        }
        if let Some(below) = searched.below(&out) {
            eprintln!("{path}: {} equations conflict, and no fewer than {below} do", searched.conflict(&out).count());
        }
    }
    ExitCode::SUCCESS
}
