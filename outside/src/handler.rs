//! Document 01, "The bus handler": the round robin by rotating the set, the lock as an option.

/// A request set above 255, or a lock owner or last unit above 7.
pub const BAD_STATE: u32 = 10;

/// Which request a grant answers.
#[derive(Clone, Copy, PartialEq, Debug)]
pub enum Line {
    High,
    Low,
}

#[derive(Clone, Copy, PartialEq, Debug)]
pub struct Handler {
    pub last_high: u32,
    pub last_low: u32,
    pub owner: Option<u32>,
}

/// The first member met counting upward from last + 1, 7 being followed by 0.
fn next(set: u32, last: u32) -> Option<u32> {
    let start = (last + 1) % 8;
    let turned = (set >> start | set << (8 - start)) & 0xFF;
    (turned != 0).then(|| (start + turned.trailing_zeros()) % 8)
}

impl Handler {
    pub fn fresh() -> Handler {
        Handler { last_high: 7, last_low: 7, owner: None }
    }

    /// One call; a refused one changes nothing.
    pub fn call(&mut self, high: u32, low: u32, lck: bool) -> Result<Option<(Line, u32)>, u32> {
        if high > 255 || low > 255 || self.last_high > 7 || self.last_low > 7 || self.owner.is_some_and(|unit| unit > 7) {
            return Err(BAD_STATE);
        }
        self.owner = if lck { self.owner.or(Some(self.last_low)) } else { None };
        if let Some(unit) = next(high, self.last_high) {
            self.last_high = unit;
            return Ok(Some((Line::High, unit)));
        }
        let granted = match self.owner {
            Some(unit) => (low >> unit & 1 == 1).then_some(unit),
            None => next(low, self.last_low),
        };
        if let Some(unit) = granted {
            self.last_low = unit;
        }
        Ok(granted.map(|unit| (Line::Low, unit)))
    }
}

#[cfg(test)]
mod tests {
    use super::*;

    #[test]
    fn values_of_document_01() {
        for (lck, second) in [(false, 7), (true, 0)] {
            let mut handler = Handler::fresh();
            assert_eq!(handler.call(0, 0x81, false), Ok(Some((Line::Low, 0))));
            assert_eq!(handler.call(0, 0x81, lck), Ok(Some((Line::Low, second))));
        }
    }
}
