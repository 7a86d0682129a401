//! Calls on a state that is damaged in one known way.

use super::{GossipSides, Lent};
use crate::both_sides::same_answer;
use crate::gossip::damage::{damaged, damaged_table, Harmed};
use crate::tally::Tally;
use vocabulary::gossip::*;
use vocabulary::{Answer, GossipCall, GossipState, Original, Port, Reads, Shape, Subject, Words};

impl GossipSides {
    /// A call on a state that is damaged in one known way. Words: the damage, then those of a call but for the operation, the
    /// operation, and what chooses the place of the damage. Calls that don't read what is damaged are compared as usual.
    pub fn step_damaged(
        &mut self,
        words: &Words,
        original: &mut dyn Original,
        port: &dyn Port,
        tally: &mut Tally,
        expect: &mut dyn FnMut(Answer, &mut Tally),
    ) -> Result<(), String> {
        let mut call = self.call(&with_operation(words, self.subject));
        let mut lent = self.lent.clone();
        let Some(harmed) = damaged(words, &self.state, &mut call, &mut lent) else {
            return Ok(());
        };
        let before = std::mem::replace(&mut self.lent, lent.clone());
        let result = match harmed {
            Harmed::Refused(number) => {
                let answer = Answer::plain(number);
                expect(answer, tally);
                let answered = self.port(port, &call);
                let changed = self.lent != lent;
                same_answer(answer, answered).and(if changed {
                    Err("a refused call changed the words or a table".into())
                } else {
                    Ok(())
                })
            }
            Harmed::Unread => self.step_beside_damage(&call, lent, original, port, tally, expect),
        };
        self.lent = before;
        result
    }

    /// The damage is in what the call doesn't read: it must answer and change what it would without the damage.
    fn step_beside_damage(
        &mut self,
        call: &GossipCall,
        mut lent: Lent,
        original: &mut dyn Original,
        port: &dyn Port,
        tally: &mut Tally,
        expect: &mut dyn FnMut(Answer, &mut Tally),
    ) -> Result<(), String> {
        let (state, expected) = (self.state.clone(), self.expected.clone());
        let answer = self.ask(call, original, tally)?;
        if let Reads::Table(table) = call.reads() {
            let shape = &self.subject.shapes()[table];
            lay_half(table, shape, &self.before, &self.state, &mut lent);
        }
        (self.state, self.expected) = (state, expected);
        original.set_gossip(self.subject, &self.state);
        expect(answer, tally);
        let answered = self.port(port, call);
        same_answer(answer, answered)?;
        if self.lent != lent {
            return Err("a call beside the damage left other words or bytes than without it".into());
        }
        Ok(())
    }
}

/// Word 5 of a call on damage chooses its operation, which makes nothing and mostly reads what is damaged.
pub fn with_operation(words: &Words, subject: Subject) -> Words {
    let operations = match (subject, damaged_table(subject, words[0])) {
        (Subject::Gossip, 0) if words[5] % 8 > 2 => 2..5,
        (Subject::Gossip, 1) if words[5] % 8 > 2 => 5..11,
        _ => 2..subject.operations().len() as u64,
    };
    let mut call = *words;
    call[0] = operations.start + words[5] / 8 % (operations.end - operations.start);
    call
}

/// Writes what one half of a state became over the damaged other one.
fn lay_half(table: usize, shape: &Shape, before: &GossipState, after: &GossipState, lent: &mut Lent) {
    let (words, from) = (&mut lent.words, &after.words);
    match table {
        0 => {
            words.longs[..=ROWS].copy_from_slice(&from.longs[..=ROWS]);
            words.shorts[MOST] = from.shorts[MOST];
        }
        _ => {
            words.longs[ROWS + 1..].copy_from_slice(&from.longs[ROWS + 1..]);
            words.shorts[GLOBAL_SIGN..].copy_from_slice(&from.shorts[GLOBAL_SIGN..]);
        }
    }
    shape.lay(&mut lent.tables[table], before.rows[table].len(), &after.rows[table]);
}
