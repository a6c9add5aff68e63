// Runs a program on each ticket of a folder, one process after another, and keeps each report in another folder: `batch PROGRAM TICKETS REPORTS`.
// Prints the milliseconds that all of them took.
use std::ffi::OsString;
use std::fs::{self, File};
use std::io;
use std::path::Path;
use std::process::{Command, exit};
use std::time::Instant;

fn run(program: &str, ticket: &Path, report: &Path) -> io::Result<()> {
    let status = Command::new(program).stdin(File::open(ticket)?).stdout(File::create(report)?).status()?;
    if status.success() { Ok(()) } else { Err(io::Error::other(format!("{program} fails with {}: {status}", ticket.display()))) }
}

fn main() -> io::Result<()> {
    let args: Vec<String> = std::env::args().skip(1).collect();
    let [program, tickets, reports] = args.as_slice() else {
        eprintln!("batch PROGRAM TICKETS REPORTS");
        exit(2);
    };
    let names: io::Result<Vec<OsString>> = fs::read_dir(tickets)?.map(|entry| Ok(entry?.file_name())).collect();
    let mut names = names?;
    names.sort();
    fs::create_dir_all(reports)?;
    let start = Instant::now();
    for name in &names {
        run(program, &Path::new(tickets).join(name), &Path::new(reports).join(name))?;
    }
    println!("{}", start.elapsed().as_millis());
    Ok(())
}
