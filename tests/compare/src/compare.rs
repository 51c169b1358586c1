//! One call of the library beside one of the model. The first difference ends the program.

use crate::interface::{Fields, Pass};
use crate::pass_case::PassCase;
use crate::random::Random;
use crate::tally::Tally;
use crate::{lib_calls, model};
use std::cell::RefCell;
use std::fmt::Debug;

pub fn read(tally: &mut Tally, bytes: &[u8]) {
    let answer = model::read(bytes);
    same("read", &bytes, &answer, &lib_calls::read(bytes));
    tally.read(&answer);
}

pub fn pack(tally: &mut Tally, fields: &Fields) {
    let answer = model::pack(fields);
    same("pack", fields, &answer, &lib_calls::pack(fields));
    tally.pack(fields, &answer);
}

pub fn pass(tally: &mut Tally, case: &PassCase) {
    let answer = model::pass::<false>(&case.call());
    same("pass", case, &answer, &pass_in_room(case));
    tally.pass(&case.call(), &answer);
}

/// Numbers behind the room, which no call may touch.
const CANARY: usize = 16;

thread_local! {
    /// What is lent for groups, and what it has to be after: a pass leaves it as it came.
    static ROOM: RefCell<[Vec<u32>; 2]> = const { RefCell::new([vec![], vec![]]) };
}

fn pass_in_room(case: &PassCase) -> Pass {
    ROOM.with_borrow_mut(|[room, before]| {
        if room.len() < case.room + CANARY {
            let mut random = Random::new(case.room as u64);
            room.resize_with(case.room + CANARY, || random.word());
            before.clone_from(room);
        }
        let answer = lib_calls::pass_in(&case.call(), &mut room[..case.room]);
        if case.room != 0 && room[..case.room + CANARY] != before[..case.room + CANARY] {
            println!("pass: its room for groups differs; it has to stay as it came");
            println!("input   {case:x?}");
            std::process::exit(1);
        }
        answer
    })
}

pub fn same<Input: Debug, Answer: Debug + PartialEq>(call: &str, input: &Input, model: &Answer, library: &Answer) {
    if model != library {
        println!("{call} differs; numbers in hexadecimal");
        println!("input   {input:x?}");
        println!("model   {model:x?}");
        println!("library {library:x?}");
        std::process::exit(1);
    }
}
