//! Transcripts: lines of a shell, what they print and their exit status. `<any>` stands for any letters of a line, `! `
//! for standard error. With ACCEPT=1 a transcript that differs is written anew.

use std::env;
use std::fs;
use std::path::{Path, PathBuf};

use crate::program::{repeat, shell, FOLDER};

/// A line of a shell and what it has to print.
struct Case {
    line: String,
    due: Vec<String>,
}

impl Case {
    fn difference(&self, printed: &[String]) -> String {
        let [due, got] = [&self.due, printed].map(|lines| lines.join("\n"));
        format!("repeat it with\n{}\n$ {}\nprints\n{got}\nand not\n{due}\n", repeat(&self.line), self.line)
    }
}

fn path(name: &str) -> PathBuf {
    Path::new(FOLDER).join("transcripts").join(format!("{name}.txt"))
}

/// The lines before the first case, and the cases.
fn read(text: &str) -> (Vec<String>, Vec<Case>) {
    let mut head = Vec::new();
    let mut cases: Vec<Case> = Vec::new();
    for line in text.lines() {
        match (line.strip_prefix("$ "), cases.last_mut()) {
            (Some(line), _) => cases.push(Case { line: line.into(), due: vec![] }),
            (None, Some(case)) => case.due.push(line.into()),
            (None, None) => head.push(line.into()),
        }
    }
    (head, cases)
}

/// What a line prints: standard output, standard error, status.
fn printed(line: &str, name: &str) -> Vec<String> {
    let output = shell(line, name);
    let [out, errors] = [output.stdout, output.stderr].map(|bytes| String::from_utf8_lossy(&bytes).into_owned());
    assert!(out.is_empty() || out.ends_with('\n'), "{line}: the last line has no end");
    let status = output.status.code().map_or("status none".into(), |status| format!("status {status}"));
    let errors = errors.lines().map(|line| format!("! {line}"));
    out.lines().map(String::from).chain(errors).chain([status]).collect()
}

fn is_alike(due: &[String], printed: &[String]) -> bool {
    due.len() == printed.len() && due.iter().zip(printed).all(|(due, line)| matches(due, line))
}

/// Whether a line has the parts between `<any>`, in their order, from its start to its end.
fn matches(due: &str, line: &str) -> bool {
    let Some((start, rest)) = due.split_once("<any>") else {
        return due == line;
    };
    line.strip_prefix(start)
        .is_some_and(|line| (0..=line.len()).any(|i| line.is_char_boundary(i) && matches(rest, &line[i..])))
}

/// Holds the command to a transcript of at least so many lines.
fn hold(name: &str, least: usize) {
    let (head, mut cases) = read(&fs::read_to_string(path(name)).expect("a transcript"));
    let mut wrong = Vec::new();
    for case in &mut cases {
        let printed = printed(&case.line, name);
        if !is_alike(&case.due, &printed) {
            wrong.push(case.difference(&printed));
            case.due = printed;
        }
    }
    if env::var_os("ACCEPT").is_some() {
        return accept(name, &head, &cases);
    }
    let count = cases.len();
    assert!(wrong.is_empty(), "{} of {count} lines differ\n{}", wrong.len(), wrong.join("\n"));
    assert!(count >= least, "{count} lines, {least} are due");
}

/// Writes a transcript anew.
fn accept(name: &str, head: &[String], cases: &[Case]) {
    let cases = cases.iter().map(|case| format!("$ {}\n{}\n", case.line, case.due.join("\n")));
    let head = head.iter().map(|line| format!("{line}\n"));
    fs::write(path(name), head.chain(cases).collect::<String>()).expect("a transcript is written");
}

#[test]
fn the_sample_rules_are_answered_as_written_down() {
    hold("samples", 40);
}

#[test]
fn every_refusal_is_told_in_words() {
    hold("refusals", 50);
}

#[test]
fn every_misuse_is_told_with_what_to_do() {
    hold("misuse", 35);
}

#[test]
fn a_solver_that_lies_or_fails_is_not_believed() {
    hold("solvers", 14);
}

#[test]
fn every_answer_is_json_that_python_reads() {
    hold("json", 21);
}
