//! Long random streams, held against the second reading of the paper.

use dreelish_tests::messages::{message, pieces, stream, that_fits, Scene};
use dreelish_tests::paper::{self, ModuleKind, LONGEST_REPLY};
use dreelish_tests::program::{command, expected, Bench, Folder};
use dreelish_tests::random::Random;

use crate::assert_same;

const SEED: u64 = 0x0002_5000_0251;

/// Random streams, and frames in each; a new stream begins from a fresh module and other links.
const STREAMS: u64 = 12;
const FRAMES: usize = 600;

#[test]
fn long_random_streams() {
    compare(ModuleKind::Dimmer, &[]);
}

/// The program started with `words`, which should give it a module of that kind.
pub fn compare(kind: ModuleKind, words: &[&str]) {
    for number in 0..STREAMS {
        println!("seed {SEED:#X}, stream {number}, {kind:?}");
        let mut random = Random::new(SEED, number);
        let mut scene = Scene::bench(kind, &mut random);
        let links = scene.links.clone();
        let stream = random_stream(&mut random, &mut scene, FRAMES);
        let folder = Folder::with_links(&links);
        let mut bench = Bench::start_command(command(&folder).args(words));
        for piece in pieces(&mut random, &stream) {
            bench.send(piece);
        }
        let expected = expected(kind, &links, &stream);
        assert!(
            expected.len() > 11 * FRAMES / 4,
            "there is too little to compare"
        );
        assert_same(&bench.finish(), &expected);
    }
}

/// Frames of all kinds of messages; `scene` goes along so that the messages suit.
fn random_stream(random: &mut Random, scene: &mut Scene, frames: usize) -> Vec<u8> {
    stream(random, frames, |random| {
        let message = that_fits(random, |random| message(random, scene.seat()));
        let mut room = [0; LONGEST_REPLY];
        paper::step(&mut scene.module, &mut scene.links, &message, &mut room);
        message
    })
}
