//! Engines that are wrong on purpose. The comparison must find each of them.

pub mod exact;
mod forecast;
pub mod join;
mod rewrite;

use crate::engine::exact::Exact;
use crate::engine::join::Join;
use crate::engine::{work_needed, Call, Engine};
use crate::kinds::KINDS;
use crate::second::book::Fault;
use crate::second::exchanges::Misfeed;
use crate::second::mates::Misduct;
use crate::second::routes::Misroute;
use crate::second::sizes::Missize;
use crate::second::surveys::Mismeasure;
use crate::second::Second;
use std::ops::BitXor;

pub use forecast::TOO_SMALL;
pub use rewrite::{all as rewritings, OTHER_ANSWERS};

/// What a right run left, with the number that it returned.
struct Left<'a> {
    call: Call<'a>,
    number: u32,
}

impl Left<'_> {
    fn refused_at_start(&self) -> bool {
        (1..=3).contains(&self.number)
    }

    /// This place, if the run was refused at the start.
    fn refused(&self, at: usize) -> Option<usize> {
        self.refused_at_start().then_some(at)
    }

    /// This place, if the run was not refused at the start.
    fn ran(&self, at: usize) -> Option<usize> {
        (!self.refused_at_start()).then_some(at)
    }

    /// The place behind the last answer byte.
    fn behind_answers(&self) -> Option<usize> {
        self.ran(3).map(|at| self.call.report[at] as usize)
    }

    /// The last byte of the answer buffer, if more than one is behind the answers.
    fn end_of_answers(&self) -> Option<usize> {
        let end = self.call.answers.len().checked_sub(1);
        end.filter(|&end| self.behind_answers().is_some_and(|behind| behind < end))
    }

    /// Returns 11 for a refusal with this number where no room is left.
    fn room_before(&mut self, number: u32) {
        if self.number == number && self.behind_answers() == Some(self.call.answers.len()) {
            self.number = 11;
            self.call.report[0] = 11;
        }
    }

    /// W.
    fn work(&self) -> usize {
        work_needed(self.call.c, self.call.s)
    }
}

/// Changes the entry at this place, if there is one.
fn change<T: Copy + From<u8> + BitXor<Output = T>>(at: Option<usize>, buffer: &mut [T]) {
    if let Some(entry) = at.and_then(|at| buffer.get_mut(at)) {
        *entry = *entry ^ T::from(1);
    }
}

/// What is wrong, and how it is made so.
type Spoil = (&'static str, fn(&mut Left));

const SPOILS: [Spoil; 21] = [
    ("another number returned", |left| left.number += 1),
    ("11 before 7", |left| left.room_before(7)),
    ("11 before 12", |left| left.room_before(12)),
    ("11 before 13", |left| left.room_before(13)),
    ("11 before 14", |left| left.room_before(14)),
    ("another refusal reported", |left| change(left.ran(0), left.call.report)),
    ("another place reported", |left| change(left.ran(1), left.call.report)),
    ("another count of commands", |left| change(left.ran(2), left.call.report)),
    ("another count of answer bytes", |left| change(left.ran(3), left.call.report)),
    ("another count of cabinets", |left| change(left.ran(4), left.call.report)),
    ("another count of spans", |left| change(left.ran(5), left.call.report)),
    ("a number beyond the report's six", |left| change(left.ran(6), left.call.report)),
    ("the last answer byte", |left| {
        change(left.behind_answers().and_then(|at| at.checked_sub(1)), left.call.answers)
    }),
    ("the byte behind the answers", |left| change(left.behind_answers(), left.call.answers)),
    ("the end of the answer buffer", |left| change(left.end_of_answers(), left.call.answers)),
    ("a table not cleared at first", |left| change(left.ran(0), left.call.work)),
    ("a table not cleared at last", |left| change(left.ran(left.work() - 1), left.call.work)),
    ("a number beyond W", |left| change(left.ran(left.work()), left.call.work)),
    ("a report after refusal at the start", |left| change(left.refused(0), left.call.report)),
    ("a table after refusal at the start", |left| change(left.refused(0), left.call.work)),
    ("an answer after refusal at the start", |left| change(left.refused(0), left.call.answers)),
];

/// A right engine whose outcome is spoiled.
struct Spoiled(Spoil);

impl Engine for Spoiled {
    fn name(&self) -> &'static str {
        self.0 .0
    }

    fn run(&self, mut call: Call) -> u32 {
        let number = Second::new().run(call.lend());
        let mut left = Left { call, number };
        (self.0 .1)(&mut left);
        left.number
    }

    fn forecast(&self, journal: &[u8], place: &mut u32, length: &mut u32) -> u32 {
        Second::new().forecast(journal, place, length)
    }

    fn rewrite(&self, journal: &[u8], out: &mut [u8], place: &mut u32, length: &mut u32) -> u32 {
        Second::new().rewrite(journal, out, place, length)
    }

    fn join(&self, call: Join) -> u32 {
        Second::new().join(call)
    }

    fn forecast_exact(&self, call: Exact) -> u32 {
        Second::new().forecast_exact(call)
    }
}

type Named = (String, Box<dyn Engine>);

/// Engines that the comparison with the second implementation must find by their runs.
pub fn engines() -> Vec<Named> {
    let mut engines: Vec<Named> = Vec::new();
    let against = against_demand_3().into_iter().map(|(fault, _)| fault);
    for fault in KINDS.into_iter().map(Fault::GreatestName).chain(against) {
        engines.push((format!("{fault:?}"), Box::new(Second::with_fault(fault))));
    }
    for (fault, _) in IN_EXCHANGES {
        engines.push((format!("{fault:?}"), Box::new(Second::with_misfeed(fault))));
    }
    for fault in IN_DUCTS {
        engines.push((format!("{fault:?}"), Box::new(Second::with_misduct(fault))));
    }
    for (fault, _) in IN_REFUSALS_OF_ROUTES {
        engines.push((format!("{fault:?}"), Box::new(Second::with_misroute(fault))));
    }
    for fault in IN_SURVEYS {
        engines.push((format!("{fault:?}"), Box::new(Second::with_mismeasure(fault))));
    }
    for fault in IN_SIZES {
        engines.push((format!("{fault:?}"), Box::new(Second::with_missize(fault))));
    }
    for spoil in SPOILS {
        engines.push((spoil.0.to_string(), Box::new(Spoiled(spoil))));
    }
    engines
}

/// Engines that the comparison with the second implementation must find by their forecasts.
pub fn forecasts() -> Vec<Named> {
    let wrong = forecast::TOO_SMALL.into_iter().chain(forecast::WRONG);
    let mut engines: Vec<Named> = Vec::new();
    for (name, misforecast) in wrong {
        engines.push((name.to_string(), Box::new(Second::with_misforecast(misforecast))));
    }
    engines.push((forecast::Unfilled.name().to_string(), Box::new(forecast::Unfilled)));
    engines
}

/// Engines that the comparison with the second implementation must find by their rewritings.
pub fn rewriters() -> Vec<Named> {
    let mut engines: Vec<Named> = Vec::new();
    for (name, misrewrite) in rewrite::all() {
        engines.push((name.to_string(), Box::new(Second::with_misrewrite(misrewrite))));
    }
    for refused in [true, false] {
        let unfilled = rewrite::Unfilled { refused };
        engines.push((unfilled.name().to_string(), Box::new(unfilled)));
    }
    engines
}

/// Faults in the exchanges that a planner's own marks must find where the second implementation has
/// them too, and what is said then.
pub const IN_EXCHANGES: [(Misfeed, &str); 11] = [
    (Misfeed::LostInJoins, "answers 0, its ring holds"),
    (Misfeed::ByDistrict, "answers 1, its ring holds 0"),
    (Misfeed::ShareOfRings, "cabinets are fed"),
    (Misfeed::ShareOfExchanges, "cabinets are fed"),
    (Misfeed::ShareAmongExchanges, "cabinets are fed"),
    (Misfeed::RoundedUp, "cabinets are fed"),
    (Misfeed::RoundedDown, "cabinets are fed"),
    (Misfeed::HalvesUp, "cabinets are fed"),
    (Misfeed::HalvesDown, "cabinets are fed"),
    (Misfeed::HalvesToOdd, "cabinets are fed"),
    (Misfeed::MarkedTwice, "commands 09 accepted"),
];

/// Faults in the ducts that the histories worked out by hand must find where the second
/// implementation has them too.
pub const IN_DUCTS: [Misduct; 23] = [
    Misduct::ByDuctAlone,
    Misduct::ByEndsAlone,
    Misduct::OneDirection,
    Misduct::LowByte,
    Misduct::NoMateBy02,
    Misduct::By02Alone,
    Misduct::OneDirectionBy02,
    Misduct::MatesOf0B,
    Misduct::By02InDuctOne,
    Misduct::By02InLastDuct,
    Misduct::LowByteNought,
    Misduct::LostAlone,
    Misduct::ApartInMeshes,
    Misduct::RingOfMates,
    Misduct::SoleInverted,
    Misduct::EveryMate,
    Misduct::GreatestMate,
    Misduct::MeasuredInSets,
    Misduct::TakenWithoutMates,
    Misduct::AnsweredByItsOwn,
    Misduct::DuctFirst,
    Misduct::DuctBeforeEnds,
    Misduct::DuctAfterCapacity,
];

/// Those of them that a planner must find besides, by its name list and by its own mates, and what is
/// said then.
pub const IN_DUCTS_BY_PLANNER: [(Misduct, &str); 12] = [
    (Misduct::OneDirection, "has notices"),
    (Misduct::NoMateBy02, "has notices"),
    (Misduct::OneDirectionBy02, "has notices"),
    (Misduct::LostAlone, "has notices"),
    (Misduct::ApartInMeshes, "are in two meshes"),
    (Misduct::RingOfMates, "does not double"),
    (Misduct::SoleInverted, "is sole: "),
    (Misduct::EveryMate, "is less"),
    (Misduct::GreatestMate, "is less"),
    (Misduct::MeasuredInSets, "does not double"),
    (Misduct::TakenWithoutMates, "are in two meshes"),
    (Misduct::AnsweredByItsOwn, "begins no answer"),
];

/// Faults in what refuses 0C that the histories worked out by hand must find where the second
/// implementation has them too, and what is said then: no pair serves where there is none.
pub const IN_REFUSALS_OF_ROUTES: [(Misroute, &str); 5] = [
    (Misroute::Always14, "known beforehand"),
    (Misroute::Never14, "is answered by no pair"),
    (Misroute::ByDistrict, "is answered by no pair"),
    (Misroute::TenAcross, "known beforehand"),
    (Misroute::EqualAnswered, "known beforehand"),
];

/// Faults in the routes, and what is said then. Which pair is given is the engine's to say, so that
/// the second implementation has no part in finding them.
pub const IN_ROUTES: [(Misroute, &str); 16] = [
    (Misroute::SpanInBoth, "is in both routes"),
    (Misroute::MateInOther, "are in the two routes"),
    (Misroute::Loop, "is met twice"),
    (Misroute::ThereAndBack, "is met twice"),
    (Misroute::FromTheEnd, "does not go on from"),
    (Misroute::OutOfOrder, "does not go on from"),
    (Misroute::SecondTwice, "is in both routes"),
    (Misroute::OneRoute, "a route ends at"),
    (Misroute::EndsEarly, "a route ends at"),
    (Misroute::OtherWay, "does not go on from"),
    (Misroute::CountTooGreat, "is answered by no pair"),
    (Misroute::CountTooSmall, "is answered by no pair"),
    (Misroute::CountOfBoth, "is answered by no pair"),
    (Misroute::ByRoom, "answers differs at"),
    (Misroute::ThatFits, ", second returns 11"),
    (Misroute::ByHistory, "was before"),
];

/// Faults in the routes between spans with records, and what is said then, of the histories worked out by
/// hand too. The second implementation has no part in finding them, as above.
pub const IN_ROUTES_BY_RECORDS: [(Mismeasure, &str); 2] = [
    (Mismeasure::FlaggedInRoutes, "are in the two routes"),
    (Mismeasure::FlagForDuctInRoutes, "is answered by no pair"),
];

/// Faults in the survey lengths that the histories worked out by hand must find where the second
/// implementation has them too.
pub const IN_SURVEYS: [Mismeasure; 46] = [
    Mismeasure::LastEntered,
    Mismeasure::FirstEntered,
    Mismeasure::LastOfDay,
    Mismeasure::EarliestDay,
    Mismeasure::MostMetres,
    Mismeasure::FewestMetres,
    Mismeasure::MostOfDay,
    Mismeasure::FewestOfDay,
    Mismeasure::NoMetresNone,
    Mismeasure::NoMetresPassed,
    Mismeasure::DayNoughtNone,
    Mismeasure::AllNoughtNone,
    Mismeasure::SignedDay,
    Mismeasure::LowByteOfDay,
    Mismeasure::HighByteOfDay,
    Mismeasure::LowByteOfMetres,
    Mismeasure::DayTold,
    Mismeasure::Exchanged,
    Mismeasure::AgainstLast,
    Mismeasure::AgainstAll,
    Mismeasure::OfAnotherSpan,
    Mismeasure::OfAnySpan,
    Mismeasure::LowByteOfSpan,
    Mismeasure::OfMates,
    Mismeasure::LostInJoins,
    Mismeasure::LostToMates,
    Mismeasure::LostToRecords,
    Mismeasure::LostToCabinets,
    Mismeasure::LostToMarks,
    Mismeasure::LostToRoutes,
    Mismeasure::DaysLostToRoutes,
    Mismeasure::EightKept,
    Mismeasure::FlagInverted,
    Mismeasure::OnesForNone,
    Mismeasure::ShortNone,
    Mismeasure::MetresRecorded,
    Mismeasure::FlaggedDuct,
    Mismeasure::DuctLost,
    Mismeasure::DayForDuct,
    Mismeasure::Never7,
    Mismeasure::WithinCapacity,
    Mismeasure::KnownAsCabinet,
    Mismeasure::SixForSeven,
    Mismeasure::NoLengthRefused,
    Mismeasure::SameDayRefused,
    Mismeasure::EarlierDayRefused,
];

/// What a planner says of such a fault, by its own records, spans and name list; none where it cannot
/// find it: the refusals are not the planner's to judge.
pub fn said_of_surveys(fault: Mismeasure) -> Option<&'static str> {
    match fault {
        Mismeasure::MetresRecorded => Some("begins no answer"),
        Mismeasure::FlaggedDuct | Mismeasure::DuctLost => Some("has notices"),
        Mismeasure::DayForDuct => Some("has notices"),
        Mismeasure::Never7 | Mismeasure::WithinCapacity | Mismeasure::KnownAsCabinet => {
            Some("spans are there")
        }
        Mismeasure::SixForSeven
        | Mismeasure::NoLengthRefused
        | Mismeasure::SameDayRefused
        | Mismeasure::EarlierDayRefused => None,
        _ => Some("its records have"),
    }
}

/// Faults in the sizes that the histories worked out by hand, and a planner by its name list, must find where
/// the second implementation has them too.
pub const IN_SIZES: [Missize; 14] = [
    Missize::RingInDistrict,
    Missize::DistrictInRing,
    Missize::OtherKind,
    Missize::BeforeLastJoin,
    Missize::BeforeLastSpan,
    Missize::ByItem,
    Missize::SizeFirst,
    Missize::LowByteFirst,
    Missize::LowByteAlone,
    Missize::OneByte,
    Missize::PlusOne,
    Missize::InSpans,
    Missize::InRings,
    Missize::NoSize,
];

/// Those of them that tell a district's size alone wrong: where its rings are asked about first, the planner
/// finds that these do not add up to it.
pub const IN_SUMS: [Missize; 2] = [Missize::RingInDistrict, Missize::InRings];

/// Faults that demand 3 must find where the second implementation has them too, and what is said
/// then.
pub fn against_demand_3() -> Vec<(Fault, &'static str)> {
    let of_kind = |kind| {
        [
            (Fault::SmallestGroup(kind), "does not double"),
            (Fault::NoNotices(kind), "the name list differs from the naming book"),
            (Fault::TenNotices(kind), "allowed"),
        ]
    };
    KINDS.into_iter().flat_map(of_kind).collect()
}
