//! Reads texts, a line each in hexadecimal, and says what each reads as: with the argument `terms` in the words of terms.txt, with
//! `lines` in those of to-tool.txt. With `refuse NAME`, sends the wrong line of this name in kits/test.
//! With `bare`, is a tool without handlers.
mod toolbus;
use std::io::BufRead;
use std::process::ExitCode;
use toolbus::{Bus, Error, Term, Tool};

fn decoded(text: &str) -> Vec<u8> {
    let digit = |byte: u8| (byte as char).to_digit(16).expect("a digit") as u8;
    text.as_bytes().chunks(2).map(|pair| 16 * digit(pair[0]) + digit(pair[1])).collect()
}

fn hexadecimal(text: &str) -> String {
    text.bytes().map(|byte| format!("{byte:02x}")).collect()
}

fn kind(error: &Error) -> String {
    match error {
        Error::Syntax(at) => format!("syntax {at}"),
        Error::Real(at) => format!("real {at}"),
        Error::Integer(at) => format!("integer {at}"),
        Error::Large => "large".to_owned(),
        Error::Deep => "deep".to_owned(),
        Error::Value(_) => "value".to_owned(),
        Error::Gone(_) | Error::Tool(_) => error.to_string(),
    }
}

fn term_answer(text: &[u8]) -> String {
    match Term::read(text) {
        Ok(term) => format!("term\t{}", hexadecimal(&term.to_string())),
        Err(error) => format!("{}\t", kind(&error)),
    }
}

fn line_answer(text: &[u8]) -> String {
    match toolbus::read_line(text) {
        Ok((word, terms)) => {
            let texts = toolbus::texts(&terms).expect("terms within the limits");
            format!("{word}\t{}", hexadecimal(&format!("{word}({texts})")))
        }
        Err(_) => "bad\t".to_owned(),
    }
}

struct Bare;

impl Tool for Bare {}

fn refused(wrong: &str) -> Result<(), Error> {
    let letters = |count| Term::from("a".repeat(count));
    let deep = (1..65).fold(Term::Int(1), |term, _| vec![term].into());
    match wrong {
        "longest" => Bus.event(&[letters(65_523)]),
        "control" => Bus.event(&["\x01".into()]),
        "upper-name" => Bus.event(&[Term::name("A")]),
        "blank-name" => Bus.event(&[Term::name("a b")]),
        "empty-name" => Bus.event(&[Term::name("")]),
        "newline-name" => Bus.event(&[Term::name("a\n")]),
        "deep" => Bus.value(&deep),
        "long" => Bus.event(&[letters(65_524)]),
        "large" => Bus.event(&[letters(65_536)]),
        "connect-upper" => Bus.connect("Ed"),
        "connect-term" => Bus.connect("ed(1)"),
        "none" => Bus.event(&[]),
        _ => panic!("{wrong}"),
    }
}

fn main() -> ExitCode {
    let words: Vec<String> = std::env::args().collect();
    if words[1] == "bare" {
        return toolbus::run(Bare);
    }
    if words[1] == "refuse" {
        return refused(&words[2]).map_or_else(
            |error| {
                eprintln!("{}", kind(&error));
                ExitCode::FAILURE
            },
            |()| ExitCode::SUCCESS,
        );
    }
    for text in std::io::stdin().lock().lines() {
        let bytes = decoded(&text.expect("a line"));
        println!("{}", if words[1] == "lines" { line_answer(&bytes) } else { term_answer(&bytes) });
    }
    ExitCode::SUCCESS
}
