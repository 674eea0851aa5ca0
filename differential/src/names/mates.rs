//! The mates as a planner knows them: the spans of the accepted 02 and 0B commands. The names of its
//! name list, and the answers 86, 88 and 8C, must fit them.

use super::Answer;
use crate::kinds::ByKind;
use crate::literal::of_one_duct;
use crate::pairs::{serve, Pair};
use crate::second::command::Command;
use crate::spans::Span;

#[derive(Default)]
pub struct Mates {
    spans: Vec<Span>,
}

impl Mates {
    /// Takes an accepted command and its answer, given the names by then.
    pub fn check(
        &mut self,
        command: Command,
        answer: &Answer,
        names: &ByKind<Vec<usize>>,
    ) -> Result<(), String> {
        if let Some(span) = command.span() {
            self.spans.push(span);
            self.check_newest(&names.mesh)?;
            self.check_quiet(answer)?;
        }
        match (command, answer) {
            (Command::SoleSpans(..), Answer::SoleSpans(listed)) => {
                listed.iter().try_for_each(|&span| self.check_listed(span, &names.ring))
            }
            (Command::IsSole(span), Answer::IsSole(byte)) => {
                self.check_sole(span, *byte == 1, &names.ring)
            }
            (Command::Routes(a, b), Answer::Routes(pair)) => {
                self.check_routes(a, b, pair, &names.ring)
            }
            _ => Ok(()),
        }
    }

    /// The mates of a span with a lesser number.
    fn lesser(&self, span: usize) -> impl Iterator<Item = usize> + '_ {
        (0..span).filter(move |&other| of_one_duct(self.spans[other], self.spans[span]))
    }

    /// Mates always share a mesh.
    fn check_newest(&self, meshes: &[usize]) -> Result<(), String> {
        let newest = self.spans.len() - 1;
        let name = |span: usize| meshes[span];
        match self.lesser(newest).find(|&mate| name(mate) != name(newest)) {
            Some(mate) => Err(format!("the mates {mate} and {newest} are in two meshes")),
            None => Ok(()),
        }
    }

    /// A mate protects nothing, so that a span with a lesser mate changes no name.
    fn check_quiet(&self, answer: &Answer) -> Result<(), String> {
        let newest = self.spans.len() - 1;
        match (self.lesser(newest).next(), answer) {
            (Some(mate), Answer::Span { notices, .. }) if !notices.is_empty() => {
                Err(format!("the span {newest}, a mate of {mate}, has notices"))
            }
            _ => Ok(()),
        }
    }

    /// A set of mates is listed by its least number, and its ends are in two rings.
    fn check_listed(&self, span: usize, rings: &[usize]) -> Result<(), String> {
        if let Some(mate) = self.lesser(span).next() {
            return Err(format!("06 lists {span}, its mate {mate} is less"));
        }
        self.check_sole(span, true, rings)
    }

    /// Two routes are given within a ring only, and must serve.
    fn check_routes(&self, a: usize, b: usize, pair: &Pair, rings: &[usize]) -> Result<(), String> {
        if rings[a] != rings[b] {
            return Err(format!("0C {a} {b} is answered across two rings"));
        }
        serve(of_one_duct, &self.spans, a, b, pair).map_err(|why| format!("0C {a} {b}: {why}"))
    }

    /// A span is sole between its ends exactly if these are in two rings.
    fn check_sole(&self, span: usize, sole: bool, rings: &[usize]) -> Result<(), String> {
        let Span { a, b, .. } = self.spans[span];
        if sole != (rings[a] != rings[b]) {
            return Err(format!(
                "span {span} is sole: {sole}, the rings {} and {}",
                rings[a], rings[b]
            ));
        }
        Ok(())
    }
}
