//! A tool that adds two numbers.
mod toolbus;
use toolbus::{Answer, Bus, Term, Term::Int, Tool};

struct Plus;

impl Tool for Plus {
    fn on_eval(&mut self, _bus: &Bus, term: Term) -> Answer {
        Ok(Some(match term.parts() {
            ("plus", [Int(a), Int(b)]) => Int(a + b),
            _ => Term::name("unknown"),
        }))
    }
}

fn main() -> std::process::ExitCode {
    toolbus::run(Plus)
}
