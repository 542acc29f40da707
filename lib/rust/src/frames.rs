//! Which frames of a region are in use.
use crate::ffi::Answer;

/// The bits of a word.
const WORD_BITS: u32 = 64;

/// A bit for each frame of a region: whether a page has it.
///
/// The answers of requests say so of each frame that changes: a request gives a frame to the page that it names alone, and calls freed
/// the one that this page had and no page has now. A domain's loans and releases say the same of its frames.
#[derive(Debug)]
pub(crate) struct FramesInUse {
    words: Vec<u64>,
}

impl FramesInUse {
    /// No frame of so many is in use.
    pub(crate) fn new(frames: u32) -> FramesInUse {
        FramesInUse {
            words: vec![0; frames.div_ceil(WORD_BITS) as usize],
        }
    }

    /// Whether a page has this frame.
    pub(crate) fn contains(&self, frame: u32) -> bool {
        let (word, bit) = FramesInUse::place(frame);
        self.words.get(word).is_some_and(|word| word & bit != 0)
    }

    /// Notes what a request's answer says of frames.
    pub(crate) fn note(&mut self, answer: &Answer) {
        self.note_free(answer.freed);
        self.note_used(answer.frame);
    }

    /// Notes that a page has this frame.
    pub(crate) fn note_used(&mut self, frame: u32) {
        self.set(frame, true);
    }

    /// Notes that no page has this frame any more.
    pub(crate) fn note_free(&mut self, frame: u32) {
        self.set(frame, false);
    }

    /// Numbers that are of no frame, such as that for none, are passed over.
    fn set(&mut self, frame: u32, is_used: bool) {
        let (word, bit) = FramesInUse::place(frame);
        if let Some(word) = self.words.get_mut(word) {
            if is_used {
                *word |= bit;
            } else {
                *word &= !bit;
            }
        }
    }

    fn place(frame: u32) -> (usize, u64) {
        ((frame / WORD_BITS) as usize, 1 << (frame % WORD_BITS))
    }
}
