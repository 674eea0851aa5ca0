//! The survey lengths of document 02's sixth request: every record that 0D has entered is kept, and each
//! question goes through all of them. Also the faults that can be put into what is made of them.

use super::book::Book;
use super::command::{Capacities, Command};
use super::groups::Network;
use super::State;
use std::borrow::Cow;
use std::rc::Rc;

/// A length of a span, measured on a day.
#[derive(Clone, Copy, PartialEq, Eq, Debug)]
pub struct Record {
    pub span: usize,
    pub day: usize,
    pub metres: usize,
}

/// The records of the accepted 0D commands, in their order.
#[derive(Clone, Default)]
pub struct Surveys {
    records: Vec<Record>,
    fault: Option<Mismeasure>,
}

impl Surveys {
    pub fn none(fault: Option<Mismeasure>) -> Surveys {
        Surveys { records: Vec::new(), fault }
    }

    /// With these records.
    pub fn of(records: &[Record]) -> Surveys {
        Surveys { records: records.to_vec(), fault: None }
    }

    /// The length of a span, which is told by the record that holds; none while no record exists.
    pub fn length(&self, span: usize) -> Option<usize> {
        match self.fault {
            None => holding(&self.records, span).map(|record| record.metres),
            Some(fault) => fault.length(&self.records, span),
        }
    }

    /// The same with one record more, of a span of this network.
    pub fn with(&self, network: &Network, record: Record) -> Surveys {
        let mut surveys = self.clone();
        surveys.records.push(record);
        if let Some(fault) = self.fault {
            fault.after_record(&mut surveys.records, network);
        }
        surveys
    }

    /// The same after a span, given the book before it and after it.
    pub fn after_span(&self, before: &Book, after: &Book) -> Surveys {
        let mut surveys = self.clone();
        if let Some(fault) = self.fault {
            fault.after_span(&mut surveys.records, before, after);
        }
        surveys
    }

    /// The book after a record, which changes nothing in it.
    pub fn book_after(&self, book: &Rc<Book>, record: Record) -> Rc<Book> {
        match self.fault {
            None => book.clone(),
            Some(fault) => fault.book_after(book, record),
        }
    }

    /// The network in which 0C looks for routes: the one that there is, whatever is recorded.
    pub fn network_of_routes<'a>(&self, network: &'a Network) -> Cow<'a, Network> {
        match self.fault {
            None => Cow::Borrowed(network),
            Some(fault) => fault.network_of_routes(&self.records, network),
        }
    }

    /// The same after a command that is neither a span's nor a record's, where a fault changes that.
    pub fn spoiled_by(&self, command: Command) -> Option<Surveys> {
        let records = self.fault?.after_other(&self.records, command)?;
        Some(Surveys { records, fault: self.fault })
    }
}

/// The record of the latest day holds; of records with one day, the one entered first.
fn holding(records: &[Record], span: usize) -> Option<Record> {
    let of_span = || records.iter().filter(|record| record.span == span);
    let latest = of_span().map(|record| record.day).max()?;
    of_span().find(|record| record.day == latest).copied()
}

/// Above every duct: the flag of a record, where a fault keeps it with the duct.
const FLAG: usize = 0x10000;

/// A fault put in on purpose, to see that it is found.
#[derive(Clone, Copy, PartialEq, Eq, Debug)]
pub enum Mismeasure {
    /// The record entered last holds.
    LastEntered,
    /// The record entered first holds.
    FirstEntered,
    /// Of records with one day, the one entered last holds.
    LastOfDay,
    /// The record of the earliest day holds.
    EarliestDay,
    /// The record with the most metres holds.
    MostMetres,
    /// The record with the fewest metres holds.
    FewestMetres,
    /// Of records with one day, the one with the most metres holds.
    MostOfDay,
    /// Of records with one day, the one with the fewest metres holds.
    FewestOfDay,
    /// There is no length where the metres are 0.
    NoMetresNone,
    /// Records with 0 metres are passed over.
    NoMetresPassed,
    /// There is no length where the day is 0.
    DayNoughtNone,
    /// There is no length where day and metres are 0.
    AllNoughtNone,
    /// Days from 32,768 on are taken for negative.
    SignedDay,
    /// Days are told apart by their low byte alone.
    LowByteOfDay,
    /// Days are told apart by their high byte alone.
    HighByteOfDay,
    /// Metres are kept in one byte.
    LowByteOfMetres,
    /// The day is answered in place of the metres.
    DayTold,
    /// Day and metres are exchanged.
    Exchanged,
    /// A record holds if its day is later than that of the span's record entered before it.
    AgainstLast,
    /// A record holds only if its day is later than that of every record before it, of any span.
    AgainstAll,
    /// A span without a record is answered with the record entered last.
    OfAnotherSpan,
    /// Every span is answered with the record of the latest day of all.
    OfAnySpan,
    /// Spans are told apart by their low byte alone.
    LowByteOfSpan,
    /// A record is one of the span's mates too.
    OfMates,
    /// The records of a span are lost when its mesh takes another name.
    LostInJoins,
    /// The records of a span are lost when a mate of it is entered.
    LostToMates,
    /// A record takes those of the span before it away.
    LostToRecords,
    /// All records are lost when a cabinet is added.
    LostToCabinets,
    /// The records of a span are lost when the cabinet with its number is marked.
    LostToMarks,
    /// All records are lost when 0C is answered.
    LostToRoutes,
    /// All days are lost when 0C is answered.
    DaysLostToRoutes,
    /// No more than the newest eight records are kept.
    EightKept,
    /// The byte before the metres is inverted.
    FlagInverted,
    /// FFFF is answered while no record exists.
    OnesForNone,
    /// While no record exists, the answer ends behind its second byte.
    ShortNone,
    /// 8D is followed by the metres.
    MetresRecorded,
    /// A record is flagged in its span's duct, and the flag taken for a part of the duct.
    FlaggedDuct,
    /// The flag of a record is taken for a part of its span's duct in 0C alone, where it is from 0B.
    FlaggedInRoutes,
    /// The flag of a record is taken for its span's duct in 0C alone, where it is from 02.
    FlagForDuctInRoutes,
    /// A record takes its span out of its duct.
    DuctLost,
    /// The day of a record becomes its span's duct.
    DayForDuct,
    /// 0D and 0E of an unknown span are accepted.
    Never7,
    /// A span number is known if it is below the capacity.
    WithinCapacity,
    /// A span number is known if it is that of a cabinet.
    KnownAsCabinet,
    /// An unknown span meets 6.
    SixForSeven,
    /// 0E meets 7 while no record exists.
    NoLengthRefused,
    /// 0D meets 12 where there is a record of the span with its day.
    SameDayRefused,
    /// 0D meets 12 where there is a record of the span with a later day.
    EarlierDayRefused,
}

impl Mismeasure {
    /// The length that is told in place of the right one.
    fn length(self, records: &[Record], span: usize) -> Option<usize> {
        let right = holding(records, span);
        let own: Vec<Record> = records.iter().copied().filter(|r| r.span == span).collect();
        let told = match self {
            Mismeasure::LastEntered => own.last().copied(),
            Mismeasure::FirstEntered => own.first().copied(),
            Mismeasure::LastOfDay => own.into_iter().max_by_key(|r| r.day),
            Mismeasure::EarliestDay => own.into_iter().min_by_key(|r| r.day),
            Mismeasure::MostMetres => own.into_iter().max_by_key(|r| r.metres),
            Mismeasure::FewestMetres => own.into_iter().min_by_key(|r| r.metres),
            Mismeasure::MostOfDay => own.into_iter().max_by_key(|r| (r.day, r.metres)),
            Mismeasure::FewestOfDay => first_greatest(&own, |r| (r.day, usize::MAX - r.metres)),
            Mismeasure::NoMetresNone => right.filter(|r| r.metres != 0),
            Mismeasure::NoMetresPassed => {
                let counted: Vec<Record> = own.into_iter().filter(|r| r.metres != 0).collect();
                holding(&counted, span)
            }
            Mismeasure::DayNoughtNone => right.filter(|r| r.day != 0),
            Mismeasure::AllNoughtNone => right.filter(|r| r.day != 0 || r.metres != 0),
            Mismeasure::SignedDay => first_greatest(&own, |r| r.day as u16 as i16),
            Mismeasure::LowByteOfDay => first_greatest(&own, |r| r.day % 256),
            Mismeasure::HighByteOfDay => first_greatest(&own, |r| r.day / 256),
            Mismeasure::LowByteOfMetres => right.map(|r| Record { metres: r.metres % 256, ..r }),
            Mismeasure::DayTold => right.map(|r| Record { metres: r.day, ..r }),
            Mismeasure::Exchanged => {
                let turned = |r: Record| Record { day: r.metres, metres: r.day, ..r };
                first_greatest(&own, |r| r.metres).map(turned)
            }
            Mismeasure::AgainstLast => {
                let later = |i: &usize| *i == 0 || own[*i].day > own[i - 1].day;
                (0..own.len()).rev().find(later).map(|i| own[i])
            }
            Mismeasure::AgainstAll => {
                let later = |i: &usize| records[..*i].iter().all(|r| r.day < records[*i].day);
                let held = (0..records.len()).filter(|&i| records[i].span == span);
                held.rev().find(later).map(|i| records[i])
            }
            Mismeasure::OfAnotherSpan => right.or(records.last().copied()),
            Mismeasure::OfAnySpan => first_greatest(records, |r| r.day),
            Mismeasure::LowByteOfSpan => {
                let low = |r: &Record| Record { span: r.span % 256, ..*r };
                let records: Vec<Record> = records.iter().map(low).collect();
                holding(&records, span % 256)
            }
            _ => right,
        };
        told.map(|record| record.metres)
    }

    /// Changes the records after a new one, which is the last of them.
    fn after_record(self, records: &mut Vec<Record>, network: &Network) {
        let Some(&newest) = records.last() else {
            return;
        };
        match self {
            Mismeasure::OfMates => {
                let others = (0..network.spans.len()).filter(|&span| span != newest.span);
                let mates = others.filter(|&span| network.rightly_mates(span, newest.span));
                records.extend(mates.map(|span| Record { span, ..newest }));
            }
            Mismeasure::LostToRecords => records.retain(|r| r.span + 1 != newest.span),
            Mismeasure::EightKept => drop(records.drain(..records.len().saturating_sub(8))),
            _ => {}
        }
    }

    /// Changes the records after a span.
    fn after_span(self, records: &mut Vec<Record>, before: &Book, after: &Book) {
        let network = &after.network;
        let newest = network.spans.len() - 1;
        let names = |book: &Book, r: &Record| book.names.mesh.get(r.span).copied();
        match self {
            Mismeasure::LostInJoins => records.retain(|r| names(before, r) == names(after, r)),
            Mismeasure::LostToMates => records.retain(|r| !network.rightly_mates(r.span, newest)),
            _ => {}
        }
    }

    /// The book after a record: its groups are found anew with the next cabinet or span.
    fn book_after(self, book: &Rc<Book>, record: Record) -> Rc<Book> {
        let mut changed = (**book).clone();
        let Some(span) = changed.network.spans.get_mut(record.span) else {
            return book.clone();
        };
        match self {
            Mismeasure::FlaggedDuct => span.duct |= FLAG,
            Mismeasure::DuctLost => span.duct = 0,
            Mismeasure::DayForDuct => span.duct = record.day,
            _ => return book.clone(),
        }
        Rc::new(changed)
    }

    /// The network in which 0C looks for routes, given the records.
    fn network_of_routes<'a>(self, records: &[Record], network: &'a Network) -> Cow<'a, Network> {
        let flagged: fn(usize) -> bool = match self {
            Mismeasure::FlaggedInRoutes => |duct| duct != 0,
            Mismeasure::FlagForDuctInRoutes => |duct| duct == 0,
            _ => return Cow::Borrowed(network),
        };
        let mut changed = network.clone();
        for record in records.iter().filter(|r| flagged(network.spans[r.span].duct)) {
            changed.spans[record.span].duct |= FLAG;
        }
        Cow::Owned(changed)
    }

    /// The records after a command that is neither a span's nor a record's; none if they are as before.
    fn after_other(self, records: &[Record], command: Command) -> Option<Vec<Record>> {
        let left = records.iter().copied();
        match (self, command) {
            (Mismeasure::LostToCabinets, Command::AddCabinet) => Some(Vec::new()),
            (Mismeasure::LostToMarks, Command::Mark(a)) => {
                Some(left.filter(|r| r.span != a).collect())
            }
            (Mismeasure::LostToRoutes, Command::Routes(..)) => Some(Vec::new()),
            (Mismeasure::DaysLostToRoutes, Command::Routes(..)) => {
                Some(left.map(|r| Record { day: 0, ..r }).collect())
            }
            _ => None,
        }
    }

    /// The refusal of a command, given the right one.
    pub fn refusal(
        self,
        command: Command,
        state: &State,
        capacities: Capacities,
        right: Option<u32>,
    ) -> Option<u32> {
        let (span, entered) = match command {
            Command::Record(record) => (record.span, Some(record)),
            Command::Length(span) => (span, None),
            _ => return right,
        };
        let records = &state.surveys.records;
        let before = |later: fn(&Record, Record) -> bool| {
            entered.is_some_and(|new| records.iter().any(|r| r.span == span && later(r, new)))
        };
        match self {
            Mismeasure::Never7 => None,
            Mismeasure::WithinCapacity => (span >= capacities.spans).then_some(7),
            Mismeasure::KnownAsCabinet => (span >= state.book.network.cabinets).then_some(7),
            Mismeasure::SixForSeven => right.map(|_| 6),
            Mismeasure::NoLengthRefused if entered.is_none() => {
                right.or(state.surveys.length(span).is_none().then_some(7))
            }
            Mismeasure::SameDayRefused => {
                right.or(before(|old, new| old.day == new.day).then_some(12))
            }
            Mismeasure::EarlierDayRefused => {
                right.or(before(|old, new| old.day > new.day).then_some(12))
            }
            _ => right,
        }
    }

    /// Changes an answer 8D or 8E; other answers are as before.
    pub fn spoil(self, command: Command, answer: &mut Vec<u8>) {
        match (self, command) {
            (Mismeasure::MetresRecorded, Command::Record(record)) => {
                answer.extend((record.metres as u16).to_be_bytes());
            }
            (Mismeasure::FlagInverted, Command::Length(_)) => answer[1] = 1 - answer[1],
            (Mismeasure::OnesForNone, Command::Length(_)) if answer[1] == 0 => {
                answer[2..].fill(0xFF);
            }
            (Mismeasure::ShortNone, Command::Length(_)) if answer[1] == 0 => answer.truncate(2),
            _ => {}
        }
    }
}

/// Of the records with the greatest key, the one entered first.
fn first_greatest<K: Ord>(records: &[Record], key: impl Fn(&Record) -> K) -> Option<Record> {
    let greatest = records.iter().map(&key).max()?;
    records.iter().find(|record| key(record) == greatest).copied()
}
