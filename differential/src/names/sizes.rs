//! The sizes as a planner knows them: how many cabinets of its name list bear a name. The answers 83 and 84
//! must follow from the list, and what they tell of a district and its rings must add up.

use super::Answer;
use crate::kinds::{ByKind, Kind};
use crate::second::command::Command;
use std::collections::BTreeMap;

#[derive(Default)]
pub struct Sizes {
    /// The sizes told since the last cabinet or span, by name.
    told: ByKind<BTreeMap<usize, usize>>,
    /// How many answers 83 there were, and how many answers 84.
    pub answers: [usize; 2],
    /// How often all sizes of a district of several rings were told, and added up.
    pub added_up: usize,
}

impl Sizes {
    /// Takes an accepted command and its answer, given the names by then.
    pub fn check(
        &mut self,
        command: Command,
        answer: &Answer,
        names: &ByKind<Vec<usize>>,
    ) -> Result<(), String> {
        let (kind, cabinet) = match command {
            Command::DistrictName(cabinet) => (Kind::District, cabinet),
            Command::RingName(cabinet) => (Kind::Ring, cabinet),
            Command::AddCabinet | Command::AddSpan(..) | Command::AddInDuct(..) => {
                self.told = ByKind::default();
                return Ok(());
            }
            _ => return Ok(()),
        };
        let Answer::Name { name, size } = *answer else {
            return Err(format!("{answer:?} is no answer to {command:?}"));
        };
        let district = names.district.get(cabinet).ok_or(format!("no cabinet {cabinet}"))?;
        self.answers[usize::from(kind == Kind::Ring)] += 1;
        self.told[kind].insert(name, size);
        self.check_sum(*district, names)?;
        check_listed(kind, cabinet, [name, size], &names[kind])
    }

    /// The sizes of the rings of a district, each counted once, add up to the district's, where all of these
    /// are told.
    fn check_sum(&mut self, district: usize, names: &ByKind<Vec<usize>>) -> Result<(), String> {
        let Some(&size) = self.told.district.get(&district) else {
            return Ok(());
        };
        let mut counted = vec![false; names.ring.len()];
        let (mut rings, mut sum) = (0, 0);
        let all = names.ring.iter().zip(&names.district);
        for (&ring, _) in all.filter(|(_, &of)| of == district) {
            let Some(told) = self.told.ring.get(&ring) else {
                return Ok(());
            };
            if !counted[ring] {
                counted[ring] = true;
                rings += 1;
                sum += told;
            }
        }
        if sum != size {
            return Err(format!("the rings of district {district} add up to {sum}, not {size}"));
        }
        self.added_up += usize::from(rings > 1);
        Ok(())
    }
}

/// The name is that of the cabinet in the list, the size how many cabinets of the list bear it.
fn check_listed(
    kind: Kind,
    cabinet: usize,
    told: [usize; 2],
    names: &[usize],
) -> Result<(), String> {
    let name = names[cabinet];
    let listed = [name, names.iter().filter(|&&other| other == name).count()];
    if told != listed {
        return Err(format!(
            "the {kind:?} of {cabinet} is answered by {told:?}, the list has {listed:?}"
        ));
    }
    Ok(())
}
