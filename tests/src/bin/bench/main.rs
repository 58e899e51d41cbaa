//! Compares the library's times with those of the other implementation in
//! its quickest form: one table, ratios of medians. The first argument picks
//! one group: files, runs, planning, compiling, program or hostile, of which the table
//! has the slowest file alone. Beside the table:
//! `worst [FAMILY]` has the files made to be slow, `nets` nets and chains of
//! effect rows at many counts, `search [SEED [SECONDS]]` looks for more,
//! `counts` makes each call of the table once, for callgrind.
//!
//! Both sides work on the same buffers and clear them; the calls of both are
//! taken in turns, so that the machine's changes meet both.

#[allow(dead_code)]
#[path = "../differential/calls/mod.rs"]
mod calls;
#[cfg(feature = "compiling")]
mod compiling;
#[cfg(feature = "reading")]
mod files;
#[cfg(feature = "planning")]
mod planning;
mod program;
#[cfg(feature = "running")]
mod runs;
#[allow(dead_code)]
mod tasks;
#[allow(dead_code)]
mod times;
#[cfg(feature = "compiling")]
mod worst;

use times::Report;

fn main() -> std::io::Result<()> {
    let words: Vec<String> = std::env::args().skip(1).collect();
    let word = |place: usize| words.get(place).map(String::as_str);
    match word(0) {
        #[cfg(feature = "compiling")]
        Some("worst") => worst::print_families(word(1)),
        #[cfg(feature = "compiling")]
        Some("nets") => worst::nets::print(),
        #[cfg(feature = "compiling")]
        Some("search") => worst::search::print(word(1), word(2)),
        Some("counts") => table(Report::Counts, word(1))?,
        group => table(Report::Times, group)?,
    }
    Ok(())
}

fn table(report: Report, group: Option<&str>) -> std::io::Result<()> {
    let asked = |name| group.is_none_or(|group| group == name);
    report.print_head();
    #[cfg(feature = "compiling")]
    if asked("compiling") {
        compiling::compare(report);
    }
    #[cfg(feature = "reading")]
    if asked("files") {
        files::compare(report);
    }
    #[cfg(feature = "running")]
    if asked("runs") {
        runs::compare(report);
    }
    #[cfg(feature = "planning")]
    if asked("planning") {
        planning::compare(report);
    }
    if asked("program") {
        program::compare(report)?;
    }
    #[cfg(feature = "compiling")]
    if asked("hostile") && report == Report::Times {
        worst::hostile::print(group.is_some());
    }
    Ok(())
}
