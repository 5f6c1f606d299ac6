//! A chosen call with the answer that is settled for it.

use crate::compared::Compared;
use crate::nans::NanAt;

const MANY_FLOATS: usize = 1 << 16;

pub struct Settled<C> {
    /// What the stored lists say of this call and of those that follow without such a line.
    pub heading: &'static str,
    pub call: C,
    pub number: u32,
    pub carried: usize,
    /// The bits of what is written, where the answer is settled by numbers.
    pub written: Option<Vec<u64>>,
}

impl<C: Compared> Settled<C> {
    /// Whether the call is lent so many floats that it costs time.
    pub fn is_large(&self) -> bool {
        let floats = self.call.floats();
        floats.iter().map(|(_, lent)| lent.len()).sum::<usize>() > MANY_FLOATS
    }

    /// The same with NaN in what the call leaves alone; nothing where it is lent no such memory. Settled bits that are those
    /// from before the call are left alone, so that they are the NaN's.
    pub fn with_nans(&self, nan_at: NanAt) -> Option<Self> {
        let before = self.call.written();
        let answer = (self.number, self.carried);
        let call = self.call.clone().with_nans(answer, nan_at);
        let floats = call.floats();
        let mut cells = floats.iter().flat_map(|(_, lent)| lent.contents());
        if !cells.any(|x| x.is_nan()) {
            return None;
        }
        let now = call.written();
        let moved = |settled: Vec<u64>| {
            let cells = settled.into_iter().zip(before).zip(now);
            let moved = cells.map(|((cell, old), new)| if cell == old { new } else { cell });
            moved.collect()
        };
        Some(Settled {
            written: self.written.clone().map(moved),
            call,
            ..*self
        })
    }

    /// What the reading has for this call beside what is settled; nothing where they agree.
    pub fn fault(&self, read: &C) -> Option<String> {
        let (own, written) = ((self.number, self.carried), read.written());
        let agrees = own == read.answer() && self.written.as_ref().map_or(true, |w| *w == written);
        (!agrees).then(|| {
            let answer = read.answer();
            format!(
                "settled {own:?} {:x?}, reading {answer:?} {written:x?}",
                self.written
            )
        })
    }
}

/// The chosen calls of a program.
pub type Chosen<C> = Box<dyn Iterator<Item = Settled<C>>>;
