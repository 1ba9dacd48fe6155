//! Standard output that cannot be written.

use std::fs;
use std::io::Write;
use std::process::{Command, Stdio};

use dreelish_tests::program::{command, wait};

use crate::*;

/// Sends a ping to a program that cannot write; it must end by itself and say so, though its input stays open.
fn assert_complains(command: &mut Command) {
    let piped = command.stdin(Stdio::piped()).stderr(Stdio::piped());
    let mut child = piped.spawn().expect("bench starts");
    let mut input = child.stdin.take().expect("input is piped");
    input.write_all(&PING).expect("bench reads");
    let status = wait(&mut child);
    let said = child.wait_with_output().expect("it has ended").stderr;
    assert!(status.code().is_some(), "bench ended with {status}");
    assert!(!said.is_empty(), "bench said nothing about its output");
    drop(input);
}

#[test]
fn full_output_ends_the_program() {
    let folder = Folder::with_links(&LINKS);
    let full = fs::OpenOptions::new().write(true).open("/dev/full");
    assert_complains(command(&folder).stdout(full.expect("there is /dev/full")));
}

/// A shell that does `first`, then becomes the program.
fn shell(first: &str, folder: &Folder) -> Command {
    let bench = command(folder);
    let mut shell = Command::new("sh");
    shell.args(["-c", &format!("{first} \"$@\""), "sh"]);
    shell.arg(bench.get_program()).args(bench.get_args());
    shell.current_dir(bench.get_current_dir().expect("it has a folder"));
    shell
}

#[test]
fn closed_output_ends_the_program() {
    let folder = Folder::with_links(&LINKS);
    assert_complains(&mut shell("exec >&-; exec", &folder));
}

/// With the signal for such pipes ignored, as many a parent leaves it, the write fails.
#[test]
fn output_that_nobody_reads_ends_the_program() {
    let folder = Folder::with_links(&LINKS);
    let (reader, writer) = std::io::pipe().expect("there are pipes");
    drop(reader);
    assert_complains(shell("trap '' PIPE; exec", &folder).stdout(writer));
}
