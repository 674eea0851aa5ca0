//! The joining of document 02's ninth request: the first journal, then the second with its cabinet and span
//! numbers raised, then a 0B for each seam. Both journals are run, for what refuses them and for what they
//! count.

use super::command::{read, Capacities, Command};
use super::routes::Asked;
use super::surveys::Record;
use super::Second;
use crate::engine::join::{Join, Seam, JOIN_WORK};
use crate::engine::{LONGEST_JOURNAL, MOST_CABINETS, MOST_SPANS};
use crate::pairs::Pair;

/// What a run of a journal comes to, with capacities 4,096 and 8,192 and ample answer room.
#[derive(Clone, Copy, PartialEq, Eq, Debug)]
pub struct Judged {
    /// 0 if the whole of it is accepted, 3 if it is too long.
    pub refusal: u32,
    /// The cabinets and spans by its end, or by the command that is refused.
    pub cabinets: usize,
    pub spans: usize,
}

/// The first journal and the second.
pub type Both = [Judged; 2];

impl Second {
    /// Which routes 0C is answered with makes no difference where there is room for any.
    pub fn judge(&self, journal: &[u8]) -> Judged {
        if journal.len() > LONGEST_JOURNAL {
            return Judged { refusal: 3, cabinets: 0, spans: 0 };
        }
        let capacities = Capacities::new(MOST_CABINETS, MOST_SPANS);
        let choose = &mut |_: &Asked| Pair::default();
        let run = self.walk(capacities, journal, usize::MAX, choose, &mut |_| ());
        Judged { refusal: run.refusal, cabinets: run.cabinets, spans: run.spans }
    }
}

/// Each number with whether its cause is there, in the order in which they are tested.
pub fn lines(both: Both, call: &Join) -> [(u32, bool); 4] {
    let exceeds = call.size() > LONGEST_JOURNAL || call.size() > call.out.len();
    [
        (2, call.work.len() < JOIN_WORK),
        (17, both.iter().any(|judged| judged.refusal != 0)),
        (18, call.seams.iter().any(|&seam| is_bad(both, seam))),
        (19, exceeds),
    ]
}

/// Does a seam name a cabinet that its journal lacks, or duct 0?
pub fn is_bad([first, second]: Both, seam: Seam) -> bool {
    usize::from(seam.first) >= first.cabinets
        || usize::from(seam.second) >= second.cabinets
        || seam.duct == 0
}

/// The first number whose cause is there; 0 if there is none.
pub fn number(lines: &[(u32, bool)]) -> u32 {
    lines.iter().find(|line| line.1).map_or(0, |line| line.0)
}

/// The commands of a journal, up to the first that cannot be read.
pub fn commands(journal: &[u8]) -> Vec<Command> {
    let mut commands = Vec::new();
    let mut rest = journal;
    while !rest.is_empty() {
        let Ok((command, length)) = read(rest) else {
            break;
        };
        commands.push(command);
        rest = &rest[length..];
    }
    commands
}

/// A command with its cabinet numbers and its span numbers raised by so many; a duct, a day and metres are
/// as they were.
pub fn raised(command: Command, cabinets: usize, spans: usize) -> Command {
    let (a, s) = (|a: usize| a + cabinets, |s: usize| s + spans);
    match command {
        Command::AddCabinet | Command::Share => command,
        Command::AddSpan(one, other) => Command::AddSpan(a(one), a(other)),
        Command::DistrictName(one) => Command::DistrictName(a(one)),
        Command::RingName(one) => Command::RingName(a(one)),
        Command::SharedMesh(one, other) => Command::SharedMesh(a(one), a(other)),
        Command::SoleSpans(one, other) => Command::SoleSpans(a(one), a(other)),
        Command::CutCabinets(one, other) => Command::CutCabinets(a(one), a(other)),
        Command::IsSole(span) => Command::IsSole(s(span)),
        Command::Mark(one) => Command::Mark(a(one)),
        Command::IsFed(one) => Command::IsFed(a(one)),
        Command::AddInDuct(one, other, duct) => Command::AddInDuct(a(one), a(other), duct),
        Command::Routes(one, other) => Command::Routes(a(one), a(other)),
        Command::Record(record) => Command::Record(Record { span: s(record.span), ..record }),
        Command::Length(span) => Command::Length(s(span)),
    }
}

/// The span that a seam becomes: a cabinet of the first network, a raised one of the second, and the duct.
pub fn sewn(seam: Seam, [first, _]: Both) -> Command {
    let second = usize::from(seam.second) + first.cabinets;
    Command::AddInDuct(seam.first.into(), second, seam.duct.into())
}

/// A command as it stands in a journal.
pub fn spelled(command: Command) -> Vec<u8> {
    let (byte, operands) = match command {
        Command::AddCabinet => (0x01, vec![]),
        Command::AddSpan(a, b) => (0x02, vec![a, b]),
        Command::DistrictName(a) => (0x03, vec![a]),
        Command::RingName(a) => (0x04, vec![a]),
        Command::SharedMesh(a, b) => (0x05, vec![a, b]),
        Command::SoleSpans(a, b) => (0x06, vec![a, b]),
        Command::CutCabinets(a, b) => (0x07, vec![a, b]),
        Command::IsSole(s) => (0x08, vec![s]),
        Command::Mark(a) => (0x09, vec![a]),
        Command::IsFed(a) => (0x0A, vec![a]),
        Command::AddInDuct(a, b, duct) => (0x0B, vec![a, b, duct]),
        Command::Routes(a, b) => (0x0C, vec![a, b]),
        Command::Record(Record { span, day, metres }) => (0x0D, vec![span, day, metres]),
        Command::Length(s) => (0x0E, vec![s]),
        Command::Share => (0x0F, vec![]),
    };
    let fields = operands.into_iter().flat_map(|operand| (operand as u16).to_be_bytes());
    [byte].into_iter().chain(fields).collect()
}

/// The result, where nothing refuses it.
pub fn result(both: Both, call: &Join) -> Vec<u8> {
    let Judged { cabinets, spans, .. } = both[0];
    let second = commands(call.second).into_iter().map(|one| raised(one, cabinets, spans));
    let seams = call.seams.iter().map(|&seam| sewn(seam, both));
    let behind = second.chain(seams).flat_map(spelled);
    call.first.iter().copied().chain(behind).collect()
}

/// Writes the result, or nothing.
pub fn join(both: Both, call: Join) -> u32 {
    match number(&lines(both, &call)) {
        0 => {
            let result = result(both, &call);
            call.ends(0, &result)
        }
        refusal => call.ends(refusal, &[]),
    }
}
