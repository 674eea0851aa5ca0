//! Runs of journals in the second implementation, each made once.

use crate::second::join::Judged;
use crate::second::Second;
use std::cell::RefCell;
use std::collections::HashMap;

#[derive(Default)]
pub struct Memo {
    judged: RefCell<HashMap<Vec<u8>, Judged>>,
}

impl Memo {
    /// What the run of a journal comes to.
    pub fn judge(&self, journal: &[u8]) -> Judged {
        if let Some(judged) = self.judged.borrow().get(journal) {
            return *judged;
        }
        let judged = Second::new().judge(journal);
        self.judged.borrow_mut().insert(journal.to_vec(), judged);
        judged
    }
}
