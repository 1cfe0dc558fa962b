//! run BUNDLE STEPS PRELUDE FLAGS ROOT..: as c/run.c. For tests/embedding.
use std::io::Write;
use std::process::ExitCode;

fn main() -> ExitCode {
    let words: Vec<String> = std::env::args().collect();
    let bundle = std::fs::read(&words[1]).expect("a bundle");
    let roots: Vec<&str> = words[5..].iter().map(String::as_str).collect();
    let options = starload::Options {
        prelude: (words[3] != "-").then_some(words[3].as_str()),
        steps: words[2].parse().unwrap_or(0),
        values: words[4].contains('v'),
        loads: words[4].contains('l'),
        paid: words[4].contains('s'),
        only_roots: words[4].contains('r'),
    };
    match starload::load(&bundle, &roots, &options) {
        Ok(report) => {
            std::io::stdout().write_all(&report.json).expect("a reader");
            ExitCode::from(u8::from(!report.ok))
        }
        Err(why) => {
            eprintln!("starload: {why}");
            ExitCode::from(2)
        }
    }
}
