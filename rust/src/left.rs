//! All that a call leaves behind, by the library or by the second reading, so that two calls can be compared as a whole.

use crate::library;
use crate::paper::{self, Module, Outcome};

#[derive(Clone, PartialEq)]
pub struct Left {
    pub outcome: Outcome,
    /// The image of a module, or the images of a class.
    pub images: Vec<u8>,
    pub links: Vec<u8>,
    pub room: Vec<u8>,
}

impl Left {
    /// By the library, at a module.
    pub fn by_library(
        image: &mut [u8],
        links: &mut [u8],
        message: &[u8],
        mut room: Vec<u8>,
    ) -> Self {
        let outcome = library::step(image, links, message, &mut room);
        Self::new(outcome, image.to_vec(), links, room)
    }

    /// By the second reading, at a module.
    pub fn by_paper(
        module: &mut Module,
        links: &mut [u8],
        message: &[u8],
        mut room: Vec<u8>,
    ) -> Self {
        let outcome = paper::step(module, links, message, &mut room);
        Self::new(outcome, library::image(module).to_vec(), links, room)
    }

    /// By the library, in a class of `count` seats.
    pub fn by_class_library(
        images: &mut [u8],
        count: usize,
        links: &mut [u8],
        message: &[u8],
        mut room: Vec<u8>,
    ) -> Self {
        let outcome = library::class_step(images, count, links, message, &mut room);
        Self::new(outcome, images.to_vec(), links, room)
    }

    /// By the second reading, in a class.
    pub fn by_class_paper(
        row: &mut [Module],
        links: &mut [u8],
        message: &[u8],
        mut room: Vec<u8>,
    ) -> Self {
        let outcome = paper::class_step(row, links, message, &mut room);
        Self::new(outcome, library::images(row), links, room)
    }

    fn new(outcome: Outcome, images: Vec<u8>, links: &[u8], room: Vec<u8>) -> Self {
        Self {
            outcome,
            images,
            links: links.to_vec(),
            room,
        }
    }

    /// Compares part by part, so that a failure shows the part.
    pub fn assert_is(&self, expected: &Self, what: &str) {
        assert_eq!(self.outcome, expected.outcome, "{what}");
        assert_eq!(self.images, expected.images, "{what}");
        assert_eq!(self.links, expected.links, "{what}");
        assert_eq!(self.room, expected.room, "{what}");
    }

    fn describe(&self, links_before: &[u8]) -> String {
        let altered: Vec<usize> = (0..links_before.len())
            .filter(|&at| self.links[at] != links_before[at])
            .collect();
        let shown = self.room.len().min(self.outcome.length.max(64));
        format!(
            "{:?}\nmodules  {:02X?}\nbytes of link memory altered {altered:?}\nroom of {}: {:02X?}",
            self.outcome,
            self.images,
            self.room.len(),
            &self.room[..shown],
        )
    }
}

/// What there was before a call, and what the two made of it.
pub fn difference(
    images: &[u8],
    links: &[u8],
    message: &[u8],
    library: &Left,
    paper: &Left,
) -> String {
    format!(
        "message  {message:02X?}\nmodules  {images:02X?}\nlinks    {links:02X?}\n\nlibrary: {}\n\npaper:   {}",
        library.describe(links),
        paper.describe(links),
    )
}
