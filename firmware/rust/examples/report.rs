//! Prints the type report of each file named on the command line, the summary of its types and errors on standard error.
use nunthila::{answer, Checker, Made};
use std::io::Write;
use std::process::ExitCode;

fn main() -> ExitCode {
    let mut checker = Checker::with_log(16);
    let mut out = vec![0u8; 65_536];
    for path in std::env::args().skip(1) {
        let body = match std::fs::read(&path) {
            Ok(body) => body,
            Err(e) => {
                eprintln!("{path}: {e}");
                return ExitCode::FAILURE;
            }
        };
        let reported = checker.report(&body, &mut out);
        let text = reported.length().map_or(&b"answer=9,-\n"[..], |n| &out[..n]);
        if std::io::stdout().write_all(text).is_err() {
            return ExitCode::FAILURE;
        }
        if reported.checked().answer() == answer::CHECKED {
            let lambdas = reported.types().filter(|t| matches!(t, Made::Lambda { .. })).count();
            let open = reported.vars().filter(|v| v.bound.is_none()).count();
            let typed = reported.nodes().filter(|n| n.fin.is_some()).count();
            let (errors, equations) = (reported.errors().len(), reported.equations().len());
            eprintln!("{path}: {typed} nodes typed, {lambdas} lambdas, {open} open variables, {errors} errors, {equations} equations kept");
        }
    }
    ExitCode::SUCCESS
}
