//! The faults put in on purpose into the joining, and the wrong readings of it: all must be found.

use super::case::Couple;
use super::memo::Memo;
use super::{known, long, Joins, RANDOM_COUPLES};
use crate::faults::join::{all, Misjoined, Wrong, OTHER_ANSWERS};
use crate::incremental::Incremental;
use crate::raising::{wrong, Misread};
use crate::second::join::join;
use crate::second::Second;
use std::rc::Rc;

/// What is said of a joined journal that does not bear the two that it was made from.
const HELD: &str = "joined, against the two runs";

/// Every wrong joining must be found by the comparison, and where the second implementation has it too by the
/// joinings known beforehand; those to which a run gives other answers also by the joined journals that are held
/// against the two. Every wrong reading must be found by right joinings that are held. The right joining must
/// not be found. Gives how often one was found.
pub fn found(seed: u64) -> Result<usize, String> {
    let couples = [known(), long()].concat();
    let memo = Rc::new(Memo::default());
    let mut right = without_reading(("nothing wrong", join), &memo);
    right.couples(&couples, seed);
    right.result()?;
    let mut found = 0;
    for wrong in all() {
        let mut joins = without_reading(wrong, &memo);
        joins.couples(&couples, seed);
        said(", second has", wrong.0, &joins)?;
        let mut joins = without_reading(wrong, &memo);
        joins.second = Second::with_misjoin(wrong.1);
        joins.couples(&couples, seed);
        said("known beforehand", wrong.0, &joins)?;
        found += 2;
    }
    for wrong in OTHER_ANSWERS {
        found += by_answers(wrong, &memo, seed)?;
    }
    for misread in wrong() {
        found += by_reading(&misread, &couples, seed)?;
    }
    Ok(found)
}

/// An engine with a wrong joining, and nothing held.
fn without_reading((_, wrong): Wrong, memo: &Rc<Memo>) -> Joins {
    let engine = Misjoined { memo: memo.clone(), wrong };
    Joins { reading: None, ..Joins::by(Box::new(engine), memo.clone()) }
}

fn said(words: &str, name: &str, joins: &Joins) -> Result<(), String> {
    match &joins.fault {
        Some(fault) if fault.contains(words) => Ok(()),
        Some(fault) => Err(format!("{name} is not found as it must be: {fault}")),
        None => Err(format!("not found: {name}, which must be said to be {words}")),
    }
}

/// A wrong joining that both have, found by what is held.
fn by_answers((name, wrong): Wrong, memo: &Rc<Memo>, seed: u64) -> Result<usize, String> {
    let engine = Misjoined { memo: memo.clone(), wrong };
    let mut joins = Joins::by(Box::new(engine), memo.clone());
    joins.second = Second::with_misjoin(wrong);
    joins.random(seed, RANDOM_COUPLES);
    said(HELD, name, &joins).map(|()| 1)
}

/// A wrong reading, found where right joinings are held.
fn by_reading((name, reading): &Misread, couples: &[Couple], seed: u64) -> Result<usize, String> {
    let mut joins = Joins::new(Box::new(Incremental));
    joins.reading = Some(*reading);
    for couple in couples {
        if let (Some(joining), None) = (couple.joinings.first(), &joins.fault) {
            joins.fault = joins.hold(couple, joining).err();
        }
    }
    joins.random(seed, RANDOM_COUPLES);
    said(HELD, name, &joins).map(|()| 1)
}
