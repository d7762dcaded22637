//! The oracle as a program.

use std::path::Path;
use std::process::ExitCode;

use oracle::{prints, vectors, writes};

const HELP: &str = "\
usage: oracle vectors DIR
       oracle prints DIR RULEFILE..
       oracle writes DIR [SIGNALS TEXTFILE]..

Writes the test vectors for rule files, table files, built tables and rule texts:
  DIR/rule_vectors/stdin    DIR/rule_vectors/stdout
  DIR/table_vectors/stdin   DIR/table_vectors/stdout
  DIR/build_vectors/stdin   DIR/build_vectors/stdout
  DIR/text_vectors/stdin    DIR/text_vectors/stdout
Missing folders are made. Every run writes the same bytes. Built tables are
certified by a search for traces first, and a summary of it is printed; if one
fails, nothing is written and the exit status is 1.

The second command writes inputs of the table printer, the rule files among them,
and what it must print for each: DIR/NAME.in and DIR/NAME.expected.

The third writes inputs of the writer of rule files, the text files among them, with
their numbers of signals, and what it must write and say for each: DIR/NAME.in and
DIR/NAME.signals, DIR/NAME.rule and DIR/NAME.said.";

fn main() -> ExitCode {
    let arguments: Vec<String> = std::env::args().skip(1).collect();
    match arguments.iter().map(String::as_str).collect::<Vec<_>>()[..] {
        ["vectors", folder] => write_vectors(Path::new(folder)),
        ["prints", folder, ref files @ ..] => write_prints(Path::new(folder), files),
        ["writes", folder, ref given @ ..] => write_writes(Path::new(folder), given),
        ["help" | "--help" | "-h"] => {
            println!("{HELP}");
            ExitCode::SUCCESS
        }
        _ => {
            eprintln!("{HELP}");
            ExitCode::from(2)
        }
    }
}

fn write_vectors(folder: &Path) -> ExitCode {
    match vectors::write_all(folder) {
        Ok(summary) => {
            println!("{summary}");
            ExitCode::SUCCESS
        }
        Err(reason) => {
            eprintln!("no vectors: {reason}");
            ExitCode::FAILURE
        }
    }
}

fn write_prints(folder: &Path, files: &[&str]) -> ExitCode {
    let files: Vec<&Path> = files.iter().map(Path::new).collect();
    match prints::write_all(folder, &files) {
        Ok(count) => {
            println!("{count} inputs of the printer");
            ExitCode::SUCCESS
        }
        Err(reason) => {
            eprintln!("no inputs: {reason}");
            ExitCode::FAILURE
        }
    }
}

fn write_writes(folder: &Path, given: &[&str]) -> ExitCode {
    match writes::write_all(folder, given) {
        Ok(count) => {
            println!("{count} inputs of the writer");
            ExitCode::SUCCESS
        }
        Err(reason) => {
            eprintln!("no inputs: {reason}");
            ExitCode::FAILURE
        }
    }
}
