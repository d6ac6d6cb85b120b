//! The executor of SCOOP separate blocks, called from Rust by way of the static library that `bindings/build` makes.

use std::ffi::OsStr;
use std::os::unix::ffi::OsStrExt;

type Call = unsafe extern "C" fn(*const u8, usize, *const u8, usize, *mut u8, usize, *mut u8) -> usize;

unsafe extern "C" {
    fn qs_check(_: *const u8, _: usize, _: *const u8, _: usize, _: *mut u8, _: usize, _: *mut u8) -> usize;
    fn qs_graph(_: *const u8, _: usize, _: *const u8, _: usize, _: *mut u8, _: usize, _: *mut u8) -> usize;
    fn qs_rules(_: *const u8, _: usize, _: *const u8, _: usize, _: *mut u8, _: usize, _: *mut u8) -> usize;
    fn qs_play(_: *const u8, _: usize, _: *const u8, _: usize, _: *mut u8, _: usize, _: *mut u8) -> usize;
    fn qs_syncs(_: *const u8, _: usize, _: *const u8, _: usize, _: *mut u8, _: usize, _: *mut u8) -> usize;
    fn qs_outcomes(_: *const u8, _: usize, _: *const u8, _: usize, _: *mut u8, _: usize, _: *mut u8) -> usize;
    fn qs_ask(_: *const u8, _: usize, _: *const u8, _: usize, _: *mut u8, _: usize, _: *mut u8) -> usize;
    fn qs_fronts(_: *const u8, _: usize, _: *const u8, _: usize, _: *mut u8, _: usize, _: *mut u8) -> usize;
    fn qs_estimate(_: *const u8, _: usize, _: *const u8, _: usize, _: *mut u8, _: usize, _: *mut u8) -> usize;
}

/// A word of the program that has a call here: all but `run`, which takes threads.
#[derive(Clone, Copy)]
pub enum Word {
    Check,
    Graph,
    Rules,
    Play,
    Syncs,
    Outcomes,
    Ask,
    Fronts,
    Estimate,
}

impl Word {
    /// The word of a text, if there is one.
    pub fn named(text: &OsStr) -> Option<Word> {
        match text.as_bytes() {
            b"check" => Some(Word::Check),
            b"graph" => Some(Word::Graph),
            b"rules" => Some(Word::Rules),
            b"play" => Some(Word::Play),
            b"syncs" => Some(Word::Syncs),
            b"outcomes" => Some(Word::Outcomes),
            b"ask" => Some(Word::Ask),
            b"fronts" => Some(Word::Fronts),
            b"estimate" => Some(Word::Estimate),
            _ => None,
        }
    }

    fn function(self) -> Call {
        match self {
            Word::Check => qs_check,
            Word::Graph => qs_graph,
            Word::Rules => qs_rules,
            Word::Play => qs_play,
            Word::Syncs => qs_syncs,
            Word::Outcomes => qs_outcomes,
            Word::Ask => qs_ask,
            Word::Fronts => qs_fronts,
            Word::Estimate => qs_estimate,
        }
    }
}

/// What the program writes on its standard output for a word, a script and further words, and its exit status. A word
/// that has a line feed in it counts as two.
pub fn call<W: AsRef<OsStr>>(word: Word, script: &[u8], words: &[W]) -> (Vec<u8>, u8) {
    let words: Vec<&[u8]> = words.iter().map(|it| it.as_ref().as_bytes()).collect();
    let line = words.join(&b'\n');
    let (mut room, mut status) = (vec![0; 1 << 14], 0);
    loop {
        // SAFETY: the declarations above are those of bindings/qs.h; each pointer and length are of one slice, which is
        // borrowed for the call, and the room and the status are borrowed from nobody else.
        let length = unsafe {
            word.function()(
                script.as_ptr(),
                script.len(),
                line.as_ptr(),
                line.len(),
                room.as_mut_ptr(),
                room.len(),
                &mut status,
            )
        };
        if length <= room.len() {
            room.truncate(length);
            return (room, status);
        }
        room.resize(length, 0);
    }
}
