//! links.bin: missing, unfit, and never written.

use std::fs;
use std::thread::sleep;
use std::time::SystemTime;

use crate::*;

#[test]
fn missing_links_count_as_none() {
    let folder = Folder::without_links();
    let mut bench = Bench::start(&folder);
    bench.send(&PING);
    bench.send(&standard(0x0F, 0x10, 0x00));
    bench.send(&mixed_stream());
    assert_same(&bench.finish(), &[]);
    assert!(!folder.links().exists());
}

#[test]
fn unfit_links_answer_nothing() {
    for length in [0, 7, 2056, 100_000] {
        let links = LINKS.repeat(length / LINKS.len() + 1);
        assert_same(&output(&links[..length], &mixed_stream()), &[]);
    }
}

#[test]
fn links_are_never_written() {
    let folder = Folder::with_links(&LINKS);
    let before = last_written(&folder);
    sleep(PAUSE);
    let mut bench = Bench::start(&folder);
    bench.send(&write_record_1());
    assert_same(&bench.receive(11), &answer(0x2F, 0x00));
    bench.finish();
    assert_same(&fs::read(folder.links()).expect("it is there"), &LINKS);
    assert_eq!(last_written(&folder), before);
}

fn last_written(folder: &Folder) -> SystemTime {
    let about = fs::metadata(folder.links()).expect("links.bin is there");
    about.modified().expect("folders know times")
}
