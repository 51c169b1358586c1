//! The library's buffer and log beside the model's mesh: what a call left is compared with what it has to leave, word
//! for word where the call may not touch a word. The first difference ends the program.

use super::account;
use super::bad_tables::Refused;
use super::layout::{link_at, mesh_in, words_for, HELD, LINK, PLACE, PLACES_AT};
use super::lending::Lender;
use super::model::{Done, Mesh};
use crate::interface::Added;
use std::fmt::Debug;

pub struct Pair {
    /// The sequence's name, for the line that reports a difference.
    name: String,
    /// Whether each call is printed before it is made.
    prints: bool,
    calls: u32,
    call: &'static str,
    /// What the buffer holds, if the words that are lent hold a mesh.
    pub mesh: Option<Mesh>,
    /// The first `lent` words are lent, the others are a canary; so too with the log.
    pub words: Vec<u32>,
    pub lent: usize,
    pub log: Vec<u32>,
    /// What words and log have to be if a call changes nothing.
    pub before: Vec<u32>,
    log_before: Vec<u32>,
    /// The room for groups.
    pub lender: Lender,
}

impl Pair {
    pub fn new(name: String, prints: bool, words: Vec<u32>, lent: usize, log: Vec<u32>) -> Pair {
        let mesh = mesh_in(&words[..lent]);
        let (before, log_before) = (words.clone(), log.clone());
        let lender = Lender::new(&name);
        Pair { name, prints, calls: 0, call: "", mesh, words, lent, log, before, log_before, lender }
    }

    /// The words were changed from outside, or others of them are lent: what they hold is read anew.
    pub fn read_anew(&mut self) {
        self.mesh = mesh_in(&self.words[..self.lent]);
        self.before.copy_from_slice(&self.words);
    }

    /// A link holds packets of these types and words, without payload, as calls may have left it.
    pub fn hold(&mut self, chip: u32, link: u32, packets: &[(u32, u32)]) {
        let words = &mut self.words[link_at(chip as usize, link as usize)..][..LINK];
        words[HELD] = packets.len() as u32;
        for (place, &(kind, word)) in words[PLACES_AT..].chunks_exact_mut(PLACE).zip(packets) {
            let even = kind << 6;
            let parity = 1 ^ (even.count_ones() + word.count_ones()) & 1;
            place.copy_from_slice(&[even | parity, word, 0]);
        }
        self.read_anew();
    }

    pub fn begin(&mut self, call: &'static str, given: impl Fn() -> String) {
        self.calls += 1;
        self.call = call;
        if self.prints {
            println!("call {}: {call} {}", self.calls, given());
        }
    }

    pub fn same<Answer: Debug + PartialEq + ?Sized>(&self, what: &str, model: &Answer, library: &Answer) {
        if model != library {
            self.differs(what, &format!("model   {model:x?}\nlibrary {library:x?}"));
        }
    }

    /// After an injection or a round.
    pub fn settle_moved(&mut self, refused: Refused, done: &Done, answer: Added) {
        let Refused { number: refusal, place } = refused;
        self.same("answer", &Added { refusal, added: done.records.len() as u32, place }, &answer);
        self.logs(&done.records);
        self.settle(refusal);
    }

    /// The account closes over what was done, which found so much in flight, by weight.
    pub fn settle_account(&self, before: u32, done: &Done) {
        let (came, ended) = account::came_and_ended(done);
        let after = account::in_flight(self.mesh.as_ref());
        self.same(
            "account (in flight before and what came, in flight after and what ended)",
            &(before + came),
            &(after + ended),
        );
    }

    /// The log has to begin with these records now.
    pub fn logs(&mut self, records: &[[u32; 6]]) {
        for (place, record) in self.log_before.chunks_mut(6).zip(records) {
            place.copy_from_slice(record);
        }
    }

    /// After every call: log and buffer are what they have to be. An accepted call leaves the words of the model's mesh, and
    /// all words behind them as they were; a refused one leaves all as it was.
    pub fn settle(&mut self, refusal: u32) {
        self.same_words("log", &self.log_before, &self.log);
        if refusal != 0 {
            return self.settle_exactly();
        }
        let needed = self.mesh.as_ref().map_or(0, |mesh| words_for(mesh.width, mesh.height));
        self.same_words("buffer behind the mesh", &self.before[needed..], &self.words[needed..]);
        let left = mesh_in(&self.words[..self.lent]);
        if left != self.mesh {
            self.mesh_differs(left.as_ref());
        }
        self.before.copy_from_slice(&self.words);
    }

    /// After a call that was lent room for groups: it holds what it has to hold, and what is about it is as it was.
    pub fn settle_room(&self) {
        let (expected, room) = self.lender.both();
        self.same_words("room for groups", expected, room);
    }

    /// No word but those that were also set in `before` has changed.
    pub fn settle_exactly(&self) {
        self.same_words("log", &self.log_before, &self.log);
        self.same_words("buffer", &self.before, &self.words);
    }

    pub fn same_words(&self, what: &str, model: &[u32], library: &[u32]) {
        if model != library {
            let at = model.iter().zip(library).position(|(model, library)| model != library);
            let at = at.unwrap_or(model.len().min(library.len()));
            let words = format!("word {at}: model {:x?}, library {:x?}", model.get(at), library.get(at));
            self.differs(what, &words);
        }
    }

    fn mesh_differs(&self, left: Option<&Mesh>) -> ! {
        let (Some(model), Some(left)) = (&self.mesh, left) else {
            self.differs("mesh", &format!("model has one: {}, library {}", self.mesh.is_some(), left.is_some()))
        };
        if model.look() != left.look() {
            self.same("mesh", &model.look(), &left.look());
        }
        let both = model.chips.iter().zip(&left.chips);
        for (number, (model, left)) in both.enumerate().filter(|(_, (model, left))| model != left) {
            self.same(&format!("registers of chip {number}"), &model.registers, &left.registers);
            self.same(&format!("counters of chip {number}"), &model.counters, &left.counters);
            for (link, (model, left)) in model.links.iter().zip(&left.links).enumerate() {
                self.same(&format!("link {link} of chip {number}"), model, left);
            }
        }
        self.differs("mesh", "")
    }

    fn differs(&self, what: &str, how: &str) -> ! {
        println!("{}, call {}, {}: {what} differs; numbers in hexadecimal", self.name, self.calls, self.call);
        println!("{how}");
        std::process::exit(1);
    }
}
