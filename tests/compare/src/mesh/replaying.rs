//! A replay by the library beside one by the model: answer, mesh and log are compared as after every call. What a refused
//! record came after has to stand, word for word, as if the trace had ended there.

use super::account;
use super::bad_tables::Refused;
use super::pair::Pair;
use super::replay::{replay, Played};
use super::replay_tally::ReplayCase;
use super::tally::{Call, MeshTally};
use crate::interface::{LentTables, Replayed};
use crate::trace_calls;

impl Pair {
    /// `room` words of the log are lent.
    pub fn replay(&mut self, tally: &mut MeshTally, room: usize, trace: &[u8], tables: &LentTables) -> Played {
        let tables = &self.lender.lend(tables);
        self.begin("replay", || format!("log {room:x}, {trace:x?}, {tables:x?}"));
        let begun = ReplayCase::begun(self.mesh.as_ref(), room, trace, tables);
        let phase = self.mesh.as_ref().map(|mesh| mesh.phase);
        let (mut words, mut log, mut groups) = (self.words.clone(), self.log.clone(), self.lender.room().to_vec());
        let in_flight = account::in_flight(self.mesh.as_ref());
        let played = replay(&mut self.mesh, room, trace, tables, self.lender.expected());
        let (lent, lent_log) = (&mut self.words[..self.lent], &mut self.log[..room]);
        let answer = trace_calls::replay_in(lent, lent_log, trace, tables, self.lender.room());
        self.same("answer", &played.answer, &answer);
        self.logs(&played.done.records);
        if played.calls.is_empty() {
            self.settle_exactly();
        } else {
            self.settle(0);
        }
        if answer.refusal != 0 {
            let (lent, lent_log) = (&mut words[..self.lent], &mut log[..room]);
            let until = trace_calls::replay_in(lent, lent_log, &trace[..answer.at], tables, &mut groups);
            self.same("answer of the trace up to there", &Replayed { refusal: 0, place: 0, ..answer }, &until);
            self.same_words("buffer beside that of the trace up to there", &words, &self.words);
            self.same_words("log beside that of the trace up to there", &log, &self.log);
            let left = self.lender.room().to_vec();
            self.same_words("room for groups beside that of the trace up to there", &groups, &left);
        }
        self.settle_room();
        tally.rooms.lent(Call::Replay, tables, self.mesh.as_ref(), answer.refusal, room);
        tally.rooms.written(Call::Replay, &played.written);
        self.settle_account(in_flight, &played.done);
        tally.refusal(Call::Replay, answer.refusal);
        let refused = Refused { number: answer.refusal, place: answer.place };
        tally.places.replay.tables(self.mesh.as_ref(), tables, refused);
        tally.moved(&played.done, self.mesh.as_ref());
        let phase_steps = phase != self.mesh.as_ref().map(|mesh| mesh.phase);
        tally.replays.count(&begun.over(&played, phase_steps));
        played
    }
}
