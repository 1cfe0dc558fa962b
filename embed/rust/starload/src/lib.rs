//! Runs Starlark files, and tells what each of them defines.
//!
//! ```no_run
//! let report = starload::load(br#"{"//:a.star": "x = 1"}"#, &["//:a.star"], &starload::Options::default())?;
//! assert!(report.ok);
//! # Ok::<(), starload::Refused>(())
//! ```
use starload_sys::{starload_asked, starload_bytes, starload_run, starload_words};
use std::fmt;

/// Why there is no report: its number in `starload.h`.
#[derive(Clone, Copy, PartialEq, Eq)]
pub struct Refused(pub u32);

/// The number and the text, as a `main` that returns the refusal shows it.
impl fmt::Debug for Refused {
    fn fmt(&self, out: &mut fmt::Formatter<'_>) -> fmt::Result {
        write!(out, "Refused({}): {self}", self.0)
    }
}

impl fmt::Display for Refused {
    fn fmt(&self, out: &mut fmt::Formatter<'_>) -> fmt::Result {
        out.write_str(match self.0 {
            2 => "bundle too big",
            3 => "not a JSON object of texts",
            4 => "bad label in the bundle",
            5 => "too many files",
            6 => "file too long",
            7 => "bad root",
            8 => "no such root",
            9 => "bad prelude",
            10 => "no such prelude",
            11 => "out of memory",
            13 => "module not published",
            17 => "steps are not from 1 to 100000000",
            18 => "no roots, or a word that is not UTF-8",
            _ => "no report",
        })
    }
}

impl std::error::Error for Refused {}

/// How the files are run, and what is wanted of each.
#[derive(Clone, Copy, Debug)]
pub struct Options<'a> {
    /// The label of the file whose names every other file sees.
    pub prelude: Option<&'a str>,
    /// How many steps each file may take, from 1 to 100,000,000.
    pub steps: u32,
    /// Whether each module has the values of its globals as JSON, its loads, and the steps that it has paid.
    pub values: bool,
    pub loads: bool,
    pub paid: bool,
    /// Whether of the modules that are ok the roots alone are reported.
    pub only_roots: bool,
}

impl Default for Options<'_> {
    fn default() -> Self {
        Options { prelude: None, steps: 1_000_000, values: false, loads: false, paid: false, only_roots: false }
    }
}

/// A report: a line of JSON, and whether every file is ok.
#[derive(Clone, Debug, PartialEq, Eq)]
pub struct Report {
    pub json: Vec<u8>,
    pub ok: bool,
}

fn bytes(it: &[u8]) -> starload_bytes {
    starload_bytes { at: it.as_ptr(), length: it.len() }
}

/// The report of a bundle, which is a JSON object from labels to texts, for these roots.
pub fn load(bundle: &[u8], roots: &[&str], options: &Options) -> Result<Report, Refused> {
    let words: Vec<starload_bytes> = roots.iter().map(|it| bytes(it.as_bytes())).collect();
    let asked = starload_asked {
        bundle: bytes(bundle),
        roots: starload_words { at: words.as_ptr(), length: words.len() },
        prelude: bytes(options.prelude.unwrap_or("").as_bytes()),
        steps: options.steps,
        has_prelude: options.prelude.is_some(),
        with_values: options.values,
        with_loads: options.loads,
        with_steps: options.paid,
        only_roots: options.only_roots,
    };
    let mut out = vec![0u8; 4096 + 4 * bundle.len()];
    loop {
        // SAFETY: each pointer and length is that of a slice that lives during the call, and none is null; `out` is
        // nobody else's.
        let answer = unsafe { starload_run(&asked, out.as_mut_ptr(), out.len()) };
        match answer.status {
            2 => return Err(Refused(answer.refusal)),
            3 => out.resize(answer.length, 0),
            status => {
                out.truncate(answer.length);
                return Ok(Report { json: out, ok: status == 0 });
            }
        }
    }
}
