use crate::calls::{self, ANSWER, WORK};
use crate::model::{List, Model};
use crate::refusal::Refusal;

/// Words to which [`lower`] lets a list grow: 256 MB.
pub const LONGEST: usize = 1 << 26;

/// Words that a list is tried with first.
const FIRST: usize = 16_384;

/// The model of a netlist.
pub fn lower(words: &[u32]) -> Result<Model, Refusal> {
    lower_within(words, LONGEST)
}

/// The model of a netlist, in lists of at most so many words each. Longer ones are
/// refused with 2.
pub fn lower_within(words: &[u32], longest: usize) -> Result<Model, Refusal> {
    let mut lists: [Vec<u32>; 3] = std::array::from_fn(|_| vec![0; FIRST.min(longest)]);
    let mut works: [Vec<u32>; 5] = std::array::from_fn(|_| vec![0; WORK]);
    let mut answer = [0; ANSWER];
    loop {
        let lent = lists.each_mut().map(Vec::as_mut_slice);
        calls::lower(words, lent, works.each_mut().map(Vec::as_mut_slice), &mut answer);
        let Err(refusal) = Refusal::check(&answer) else { break };
        let full = lists.get_mut(refusal.place as usize).filter(|_| refusal.number == 2);
        let Some(full) = full.filter(|list| list.len() < longest) else { return Err(refusal) };
        let length = (2 * full.len()).min(longest);
        // The old one goes first: nothing in it is needed.
        *full = Vec::new();
        *full = vec![0; length];
    }
    let [_, _, numbers @ ..] = answer.map(|number| number as usize);
    let mut at = 0;
    let [signals, exprs, stmts] = lists.map(|mut words| {
        let (count, used) = (numbers[at], numbers[at + 1]);
        at += 2;
        words.truncate(used);
        words.shrink_to_fit();
        List { words, count }
    });
    Ok(Model { signals, exprs, stmts })
}
