//! The joining of the second implementation against another reading: a journal is a list of commands whose
//! operands say what they are, so that nothing is read from bytes; what a run accepts is told by the definitions
//! word for word.

use differential::engine::join::{Join, Seam, JOIN_WORK};
use differential::engine::Engine;
use differential::incremental::Incremental;
use differential::literal::{share_district, share_ring, Plant};
use differential::random::Random;
use differential::second::groups::Network;
use differential::second::Second;
use differential::spans::Span;

#[derive(Clone, Copy, Debug)]
enum Operand {
    Cabinet(usize),
    Span(usize),
    Other(usize),
}

use Operand::{Cabinet, Other};

type Command = (u8, Vec<Operand>);

/// The bytes of a journal whose cabinets and spans are raised by so many.
fn bytes(journal: &[Command], cabinets: usize, spans: usize) -> Vec<u8> {
    let mut bytes = Vec::new();
    for (byte, operands) in journal {
        bytes.push(*byte);
        for operand in operands {
            let number = match operand {
                Operand::Cabinet(number) => number + cabinets,
                Operand::Span(number) => number + spans,
                Operand::Other(number) => *number,
            };
            bytes.extend([(number / 256) as u8, (number % 256) as u8]);
        }
    }
    bytes
}

/// A network as far as it decides what is accepted.
#[derive(Default)]
struct State {
    cabinets: usize,
    spans: Vec<Span>,
    marked: Vec<usize>,
}

impl State {
    /// Is this command accepted, where capacities and room are ample?
    fn accepts(&self, (byte, operands): &Command) -> bool {
        let known = operands.iter().all(|operand| match operand {
            Operand::Cabinet(number) => *number < self.cabinets,
            Operand::Span(number) => *number < self.spans.len(),
            Operand::Other(_) => true,
        });
        if !known {
            return false;
        }
        let network = Network::new(self.cabinets, self.spans.clone());
        match (byte, &operands[..]) {
            (0x02 | 0x05, [Cabinet(a), Cabinet(b)]) => a != b,
            (0x0B, [Cabinet(a), Cabinet(b), Other(duct)]) => a != b && *duct != 0,
            (0x09, [Cabinet(a)]) => !self.marked.contains(a),
            (0x06 | 0x07, [Cabinet(a), Cabinet(b)]) => share_district(Plant::of(&network), *a, *b),
            (0x0C, [Cabinet(a), Cabinet(b)]) => a != b && share_ring(Plant::of(&network), *a, *b),
            _ => true,
        }
    }

    fn take(&mut self, (byte, operands): &Command) {
        match (byte, &operands[..]) {
            (0x01, _) => self.cabinets += 1,
            (0x02, [Cabinet(a), Cabinet(b)]) => self.spans.push(Span::new(*a, *b)),
            (0x0B, [Cabinet(a), Cabinet(b), Other(d)]) => {
                self.spans.push(Span::in_duct(*a, *b, *d))
            }
            (0x09, [Cabinet(a)]) => self.marked.push(*a),
            _ => {}
        }
    }
}

/// The network of a journal, or none if one of its commands is refused.
fn accepted(journal: &[Command]) -> Option<State> {
    let mut state = State::default();
    for command in journal {
        if !state.accepts(command) {
            return None;
        }
        state.take(command);
    }
    Some(state)
}

/// What a joining must return and write, with an output buffer of so many bytes.
fn wanted(first: &[Command], second: &[Command], seams: &[Seam], room: usize) -> (u32, Vec<u8>) {
    let (Some(one), Some(other)) = (accepted(first), accepted(second)) else {
        return (17, Vec::new());
    };
    let mut result = bytes(first, 0, 0);
    result.extend(bytes(second, one.cabinets, one.spans.len()));
    for seam in seams {
        let (a, b) = (usize::from(seam.first), usize::from(seam.second));
        if a >= one.cabinets || b >= other.cabinets || seam.duct == 0 {
            return (18, Vec::new());
        }
        let operands = vec![Other(a), Other(one.cabinets + b), Other(seam.duct.into())];
        result.extend(bytes(&[(0x0B, operands)], 0, 0));
    }
    if result.len() > room {
        return (19, Vec::new());
    }
    (0, result)
}

/// What an engine returns and writes; all that is left besides is as it must be.
fn got(
    engine: &dyn Engine,
    [first, second]: [&[Command]; 2],
    seams: &[Seam],
    room: usize,
    work: &mut [u32],
) -> (u32, Vec<u8>) {
    let [first, second] = [bytes(first, 0, 0), bytes(second, 0, 0)];
    let (mut out, mut length) = (vec![0xAA; room + 3], 7);
    (work[0], work[JOIN_WORK - 1], work[JOIN_WORK]) = (5, 6, 7);
    let number = engine.join(Join {
        first: &first,
        second: &second,
        seams,
        work,
        out: &mut out[..room],
        length: &mut length,
    });
    assert_eq!([work[0], work[JOIN_WORK - 1], work[JOIN_WORK]], [0, 0, 7], "the table");
    let rest = out.split_off(length as usize);
    assert!(rest.iter().all(|&byte| byte == 0xAA), "the rest of the output buffer");
    (number, out)
}

/// Some command, most of whose operands are there in a small network.
fn any(random: &mut Random) -> Command {
    let a = || Cabinet(0);
    let shapes: [(u8, &[Operand]); 15] = [
        (0x01, &[]),
        (0x02, &[a(), a()]),
        (0x03, &[a()]),
        (0x04, &[a()]),
        (0x05, &[a(), a()]),
        (0x06, &[a(), a()]),
        (0x07, &[a(), a()]),
        (0x08, &[Operand::Span(0)]),
        (0x09, &[a()]),
        (0x0A, &[a()]),
        (0x0B, &[a(), a(), Other(0)]),
        (0x0C, &[a(), a()]),
        (0x0D, &[Operand::Span(0), Other(0), Other(0)]),
        (0x0E, &[Operand::Span(0)]),
        (0x0F, &[]),
    ];
    let (byte, operands) = shapes[if random.chance(40) { 0 } else { random.below(15) }];
    let fill = |operand: &Operand| match operand {
        Operand::Cabinet(_) => Cabinet(random.below(4)),
        Operand::Span(_) => Operand::Span(random.below(3)),
        Operand::Other(_) => Other(random.below(3)),
    };
    (byte, operands.iter().map(fill).collect())
}

/// A journal of up to so many commands; most of those that would be refused are left out.
fn journal(random: &mut Random, most: usize) -> Vec<Command> {
    let mut state = State::default();
    let mut journal = Vec::new();
    for _ in 0..random.below(most + 1) {
        let command = any(random);
        if state.accepts(&command) {
            state.take(&command);
            journal.push(command);
        } else if random.chance(2) {
            journal.push(command);
        }
    }
    journal
}

fn seams(random: &mut Random) -> Vec<Seam> {
    let mut any = |most: usize| random.below(most) as u16;
    let count = [0, 0, 1, 2, 3][usize::from(any(5))];
    (0..count).map(|_| Seam::new(any(3), any(3), any(40).min(3))).collect()
}

#[test]
fn joinings_are_as_commands_have_them() {
    let random = &mut Random::new(9);
    let mut work = vec![0; JOIN_WORK + 1];
    let mut came = [0; 20];
    for _ in 0..12_000 {
        let most = *random.pick(&[0, 1, 3, 8, 24]);
        let [first, second] = [journal(random, most), journal(random, 16)];
        let seams = seams(random);
        let size = bytes(&first, 0, 0).len() + bytes(&second, 0, 0).len() + 7 * seams.len();
        let room = if random.chance(20) { random.below(size + 1) } else { size + random.below(3) };
        let wanted = wanted(&first, &second, &seams, room);
        for engine in [&Second::new() as &dyn Engine, &Incremental] {
            let got = got(engine, [&first, &second], &seams, room, &mut work);
            assert_eq!(got, wanted, "{first:?} {second:?} {seams:?} {room}");
        }
        came[wanted.0 as usize] += 1;
    }
    assert!([0, 17, 18, 19].iter().all(|&number| came[number] > 300), "{came:?}");
}
