//! Says what it was told.
mod toolbus;
use toolbus::{Answer, Bus, Error, Term, Tool};

struct Echo;

impl Tool for Echo {
    fn on_eval(&mut self, bus: &Bus, term: Term) -> Answer {
        match term.parts() {
            ("look-up", [word, place]) => Ok(Some(Term::appl("found", [word.clone(), place.clone()]))),
            ("status", []) => bus.value(&Term::name("ready")).map(|()| None),
            _ => Ok(Some(term)),
        }
    }

    fn on_do(&mut self, bus: &Bus, term: Term) -> Result<(), Error> {
        if let ("say", [Term::Str(text)]) = term.parts() {
            eprintln!("{text}");
            return bus.event(&[Term::name("said")]);
        }
        bus.event(&[Term::appl("did", [term])])
    }

    fn on_ack_event(&mut self, bus: &Bus, terms: Vec<Term>) -> Result<(), Error> {
        if let ("bid", [price]) = terms[0].parts() {
            return bus.event(&[Term::appl("bid-acked", [price.clone(), terms[1..].to_vec().into()])]);
        }
        bus.event(&[Term::appl("acked", [terms.into()])])
    }

    fn on_terminate(&mut self, bus: &Bus, reason: Term) -> Result<(), Error> {
        bus.event(&[Term::appl("ends", [reason])])
    }
}

fn main() -> std::process::ExitCode {
    toolbus::run(Echo)
}
