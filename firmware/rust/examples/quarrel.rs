//! Prints the minimal conflict of each file named on the command line: a line with the answer, and a line with the place of each equation;
//! their nodes on standard error.
use nunthila::{Checker, Lines};
use std::io::Write;
use std::process::ExitCode;

fn main() -> ExitCode {
    let mut checker = Checker::new();
    let mut out = vec![0u8; 65_536];
    for path in std::env::args().skip(1) {
        let body = match std::fs::read(&path) {
            Ok(body) => body,
            Err(e) => {
                eprintln!("{path}: {e}");
                return ExitCode::FAILURE;
            }
        };
        let quarreled = checker.quarrel(&body, &mut out, Lines::Places);
        let place = quarreled.place().map_or("-".to_string(), |p| p.to_string());
        let answer = format!("answer={},{place}\n", quarreled.answer());
        let text = &out[..quarreled.length().unwrap_or(0)];
        if std::io::stdout().write_all(&[answer.as_bytes(), text].concat()).is_err() {
            return ExitCode::FAILURE;
        }
        let nodes: Vec<u16> = quarreled.conflict(&out).filter_map(|e| e.place).map(|p| p.node).collect();
        if !nodes.is_empty() {
            eprintln!("{path}: {} equations conflict, raised at the nodes {nodes:?}", nodes.len());
        }
    }
    ExitCode::SUCCESS
}
