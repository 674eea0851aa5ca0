//! The register by the method of the proved one, written by hand over ordinary arrays: names with
//! sizes and ranges, one block forest, a count of exchanges for each ring, one survey record for each
//! span, and searches for two routes over lists of the spans at each cabinet. Not proved.

mod forecast;
mod forest;
mod join;
mod naming;
mod rewrite;
mod routes;

use crate::engine::exact::Exact;
use crate::engine::join::Join;
use crate::engine::{Call, Engine, Forecast, REPORT_NUMBERS};
use forecast::forecast;
use forest::{Forest, Survey};
use join::join;
use rewrite::rewrite;
use routes::Routes;

pub struct Incremental;

/// The answer buffer, the room for answers, and how much of it is taken. Answers beyond the buffer are counted
/// and dropped.
struct Out<'a> {
    bytes: &'a mut [u8],
    room: usize,
    written: usize,
}

impl<'a> Out<'a> {
    fn into(bytes: &'a mut [u8]) -> Out<'a> {
        let room = bytes.len();
        Out { bytes, room, written: 0 }
    }

    /// Room without end, and no buffer.
    fn dropped() -> Out<'a> {
        Out { bytes: &mut [], room: usize::MAX, written: 0 }
    }

    /// Refusal 11 if fewer bytes than `length` are left.
    fn need(&self, length: usize) -> Result<(), u32> {
        if length > self.room - self.written {
            return Err(11);
        }
        Ok(())
    }

    fn byte(&mut self, byte: u8) {
        if let Some(entry) = self.bytes.get_mut(self.written) {
            *entry = byte;
        }
        self.written += 1;
    }

    fn field(&mut self, value: u32) {
        self.byte((value >> 8) as u8);
        self.byte(value as u8);
    }

    /// A first byte, the count of the items, and the items.
    fn list(&mut self, first: u8, items: impl Iterator<Item = u32> + Clone) -> Result<(), u32> {
        let count = items.clone().count();
        self.need(3 + 2 * count)?;
        self.byte(first);
        self.field(count as u32);
        items.for_each(|item| self.field(item));
        Ok(())
    }
}

/// A run under way.
struct Run<'a> {
    capacities: (u32, u32),
    journal: &'a [u8],
    place: usize,
    out: Out<'a>,
    forest: Forest,
    routes: Routes,
}

impl<'a> Run<'a> {
    fn new(capacities: (u32, u32), journal: &'a [u8], out: Out<'a>) -> Run<'a> {
        let forest = Forest::with_room(capacities.0 as usize, capacities.1 as usize);
        Run { capacities, journal, place: 0, out, forest, routes: Routes::default() }
    }

    fn operand(&self, i: usize) -> u32 {
        let at = self.place + 1 + 2 * i;
        u32::from(self.journal[at]) << 8 | u32::from(self.journal[at + 1])
    }

    fn known(&self, cabinet: u32) -> Result<u32, u32> {
        if cabinet < self.forest.cabinets() {
            Ok(cabinet)
        } else {
            Err(6)
        }
    }

    fn one_cabinet(&self) -> Result<u32, u32> {
        self.known(self.operand(0))
    }

    fn two_cabinets(&self) -> Result<(u32, u32), u32> {
        Ok((self.known(self.operand(0))?, self.known(self.operand(1))?))
    }

    fn two_different(&self) -> Result<(u32, u32), u32> {
        let (a, b) = self.two_cabinets()?;
        if a == b {
            return Err(8);
        }
        Ok((a, b))
    }

    fn two_of_one_district(&self) -> Result<(u32, u32), u32> {
        let (a, b) = self.two_cabinets()?;
        if self.forest.district(a) != self.forest.district(b) {
            return Err(10);
        }
        Ok((a, b))
    }

    /// Takes the command at the place reached and gives its length, or refuses it.
    fn step(&mut self) -> Result<usize, u32> {
        let byte = self.journal[self.place];
        let length = match byte {
            0x01 | 0x0F => 1,
            0x03 | 0x04 | 0x08..=0x0A | 0x0E => 3,
            0x02 | 0x05..=0x07 | 0x0C => 5,
            0x0B | 0x0D => 7,
            _ => return Err(4),
        };
        if self.journal.len() - self.place < length {
            return Err(5);
        }
        match byte {
            0x01 => self.add_cabinet()?,
            0x02 => self.add_span(None)?,
            0x03 => self.district()?,
            0x04 => self.ring()?,
            0x05 => self.shared_mesh()?,
            0x06 => self.sole_spans()?,
            0x07 => self.cut_cabinets()?,
            0x08 => self.is_sole()?,
            0x09 => self.mark()?,
            0x0A => {
                let is_fed = self.forest.is_fed(self.one_cabinet()?);
                self.flag_answer(0x8A, is_fed)?;
            }
            0x0B => self.add_span(Some(self.operand(2)))?,
            0x0C => self.two_routes()?,
            0x0D => self.record()?,
            0x0E => self.length()?,
            _ => {
                let share = thousandths(self.forest.fed(), self.forest.cabinets());
                self.field_answer(0x8F, share)?;
            }
        }
        Ok(length)
    }

    fn add_cabinet(&mut self) -> Result<(), u32> {
        let number = self.forest.cabinets();
        if number >= self.capacities.0 {
            return Err(9);
        }
        self.field_answer(0x81, number)?;
        self.forest.add_cabinet();
        Ok(())
    }

    fn field_answer(&mut self, first: u8, value: u32) -> Result<(), u32> {
        self.out.need(3)?;
        self.out.byte(first);
        self.out.field(value);
        Ok(())
    }

    fn district(&mut self) -> Result<(), u32> {
        let cabinet = self.one_cabinet()?;
        self.name_answer(0x83, self.forest.district(cabinet), self.forest.district_size(cabinet))
    }

    fn ring(&mut self) -> Result<(), u32> {
        let cabinet = self.one_cabinet()?;
        self.name_answer(0x84, self.forest.ring(cabinet), self.forest.ring_size(cabinet))
    }

    /// A name, and the size of the group that bears it.
    fn name_answer(&mut self, first: u8, name: u32, size: u32) -> Result<(), u32> {
        self.out.need(5)?;
        self.out.byte(first);
        self.out.field(name);
        self.out.field(size);
        Ok(())
    }

    /// By 02, or by 0B with a duct.
    fn add_span(&mut self, duct: Option<u32>) -> Result<(), u32> {
        let (a, b) = self.two_different()?;
        if duct == Some(0) {
            return Err(13);
        }
        let number = self.forest.spans();
        if number >= self.capacities.1 {
            return Err(9);
        }
        let mesh = self.forest.add_span(a, b, duct.unwrap_or(0));
        let count = self.forest.changed().map(|(_, changed)| changed.len()).sum::<usize>();
        self.out.need(7 + 5 * count)?;
        self.out.byte(0x82);
        self.out.field(number);
        self.out.field(mesh);
        self.out.field(count as u32);
        for (kind, changed) in self.forest.changed() {
            for &(item, name) in changed {
                self.out.byte(kind);
                self.out.field(item);
                self.out.field(name);
            }
        }
        Ok(())
    }

    fn shared_mesh(&mut self) -> Result<(), u32> {
        let (a, b) = self.two_different()?;
        let name = self.forest.shared_mesh(a, b);
        self.perhaps_answer(0x85, name)
    }

    /// One byte 1 and the value, or one byte 0 and 0000.
    fn perhaps_answer(&mut self, first: u8, value: Option<u32>) -> Result<(), u32> {
        self.out.need(4)?;
        self.out.byte(first);
        self.out.byte(value.is_some() as u8);
        self.out.field(value.unwrap_or(0));
        Ok(())
    }

    fn sole_spans(&mut self) -> Result<(), u32> {
        let (a, b) = self.two_of_one_district()?;
        self.forest.climb(a, b);
        self.out.list(0x86, self.forest.sole_spans())
    }

    fn cut_cabinets(&mut self) -> Result<(), u32> {
        let (a, b) = self.two_of_one_district()?;
        self.forest.climb(a, b);
        self.out.list(0x87, self.forest.cut_cabinets().iter().copied())
    }

    fn two_routes(&mut self) -> Result<(), u32> {
        let (a, b) = self.two_different()?;
        if self.forest.ring(a) != self.forest.ring(b) {
            return Err(14);
        }
        let (ends, duct) = self.forest.edges();
        self.routes.catch_up(self.forest.cabinets() as usize, ends, duct);
        let two = self.routes.between(a, b);
        let counts = two.each_ref().map(|route| route.clone().count());
        self.out.need(5 + 2 * (counts[0] + counts[1]))?;
        self.out.byte(0x8C);
        for (count, route) in counts.into_iter().zip(two) {
            self.out.field(count as u32);
            route.for_each(|span| self.out.field(span));
        }
        Ok(())
    }

    fn one_span(&self) -> Result<u32, u32> {
        let span = self.operand(0);
        if span >= self.forest.spans() {
            return Err(7);
        }
        Ok(span)
    }

    fn is_sole(&mut self) -> Result<(), u32> {
        let span = self.one_span()?;
        self.flag_answer(0x88, self.forest.is_sole(span))
    }

    fn record(&mut self) -> Result<(), u32> {
        let span = self.one_span()?;
        self.out.need(1)?;
        self.out.byte(0x8D);
        let survey = Survey { day: self.operand(1), metres: self.operand(2) };
        self.forest.record(span, survey);
        Ok(())
    }

    fn length(&mut self) -> Result<(), u32> {
        let span = self.one_span()?;
        self.perhaps_answer(0x8E, self.forest.length(span))
    }

    fn mark(&mut self) -> Result<(), u32> {
        let cabinet = self.one_cabinet()?;
        if self.forest.is_exchange(cabinet) {
            return Err(12);
        }
        self.out.need(1)?;
        self.out.byte(0x89);
        self.forest.mark(cabinet);
        Ok(())
    }

    fn flag_answer(&mut self, first: u8, flag: bool) -> Result<(), u32> {
        self.out.need(2)?;
        self.out.byte(first);
        self.out.byte(flag as u8);
        Ok(())
    }

    /// Takes commands up to the end or to the one refused; gives the report.
    fn all(&mut self) -> [u32; REPORT_NUMBERS] {
        let mut number = 0;
        let mut commands = 0;
        let mut counts = (0, 0);
        while self.place < self.journal.len() {
            match self.step() {
                Ok(length) => self.place += length,
                Err(refusal) => {
                    number = refusal;
                    break;
                }
            }
            commands += 1;
            counts = (self.forest.cabinets(), self.forest.spans());
        }
        let bytes = self.out.written as u32;
        [number, self.place as u32, commands, bytes, counts.0, counts.1]
    }
}

/// So many of so many in thousandths, rounded to the nearest, an exact half to the even one; 0 of 0 is 0.
/// With half a thousandth added it is rounded down. If nothing is left over it was an exact half, which so
/// goes up, and an odd number gives way to the even one below it.
pub fn thousandths(part: u32, whole: u32) -> u32 {
    let (sum, unit) = (2000 * part + whole, 2 * whole.max(1));
    let half_up = sum / unit;
    if sum.is_multiple_of(unit) {
        half_up & !1
    } else {
        half_up
    }
}

impl Engine for Incremental {
    fn name(&self) -> &'static str {
        "incremental"
    }

    fn run(&self, call: Call) -> u32 {
        let number = call.start_refusal();
        if number != 0 {
            return number;
        }
        let report = Run::new((call.c, call.s), call.journal, Out::into(call.answers)).all();
        call.ends(report)
    }

    fn forecast(&self, journal: &[u8], place: &mut u32, length: &mut u32) -> u32 {
        forecast(journal).tell(place, length)
    }

    fn rewrite(&self, journal: &[u8], out: &mut [u8], place: &mut u32, length: &mut u32) -> u32 {
        rewrite(journal, out).tell(place, length)
    }

    fn join(&self, call: Join) -> u32 {
        join(call)
    }

    /// A run that drops its answers.
    fn forecast_exact(&self, call: Exact) -> u32 {
        let number = call.start_refusal();
        if number != 0 {
            return call.ends(Forecast::refused(number, 0));
        }
        let [number, place, _, bytes, ..] =
            Run::new((call.c, call.s), call.journal, Out::dropped()).all();
        let length = if number == 0 { bytes } else { 0 };
        call.ends(Forecast { number, place, length })
    }
}
