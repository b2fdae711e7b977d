//! Where the records of an accepted page end, and no more: no byte is tested, no operand is judged, no position is kept.
//! What this takes is a floor for every check, which must read as much and then test it.

/// How many records an accepted page has.
pub fn count(page: &[u8]) -> usize {
    let mut ends = Ends { page, at: 0 };
    let mut records = 0;
    while ends.at < page.len() {
        ends.record();
        records += 1;
    }
    records
}

struct Ends<'a> {
    page: &'a [u8],
    at: usize,
}

impl Ends<'_> {
    /// A number of one byte: a kind, a form, a mark, a code or a count.
    fn byte(&mut self) -> u8 {
        let byte = self.page[self.at];
        self.at += 1;
        byte
    }

    fn number(&mut self) {
        while self.byte() >= 128 {}
    }

    /// A length of one or two bytes, and so many bytes.
    fn text(&mut self) {
        let low = usize::from(self.byte());
        let length = match low {
            0..128 => low,
            _ => low - 128 + 128 * usize::from(self.byte()),
        };
        self.at += length;
    }

    fn labels(&mut self) {
        for _ in 0..self.byte() {
            self.text();
        }
    }

    fn literal(&mut self) {
        match self.byte() {
            0 | 1 => self.number(),
            2..=4 => {}
            _ => {
                self.number();
                self.byte();
            }
        }
    }

    fn option(&mut self, some: impl Fn(&mut Self)) {
        if self.byte() == 1 {
            some(self);
        }
    }

    fn matcher(&mut self) {
        let is_pattern = self.byte() >= 2;
        self.text();
        self.text();
        self.at += usize::from(is_pattern);
    }

    fn modifier(&mut self) {
        self.byte();
        if self.byte() != 0 {
            self.labels();
        }
        if matches!(self.byte(), 1 | 2) {
            self.labels();
        }
        self.option(Self::literal);
        self.option(Self::literal);
    }

    fn function(&mut self) {
        self.text();
        self.at += usize::from(self.byte());
        if self.byte() == 2 {
            self.byte();
        }
        self.byte();
    }

    fn record(&mut self) {
        match self.byte() {
            0 => self.literal(),
            1 => self.text(),
            2 => {
                self.text();
                for _ in 0..self.byte() {
                    self.matcher();
                }
            }
            3 => self.number(),
            4 => {
                self.number();
                self.option(Self::number);
            }
            5 => {
                if self.byte() >= 2 {
                    self.number();
                }
            }
            6 => {
                self.byte();
                self.number();
            }
            7 | 8 => {}
            9 => {
                self.byte();
                self.option(Self::modifier);
            }
            10 => {
                self.byte();
                if self.byte() != 0 {
                    self.labels();
                }
                self.byte();
            }
            _ => {
                self.function();
                self.byte();
            }
        }
    }
}

#[cfg(test)]
mod tests {
    use super::count;
    use oracle::answer;
    use oracle::generate::{everyday, good, Scope};
    use oracle::random::Random;

    /// The count is the oracle's own.
    #[test]
    fn finds_every_record() {
        let random = &mut Random::new(1);
        for records in [1, 5, 40, 250] {
            for _ in 0..50 {
                let with_fractions = good(random, Scope::Fractions, records).0;
                for page in [everyday(random, records), with_fractions] {
                    let worked = answer::work(&page).expect("the Rust is foreseen");
                    assert_eq!(count(&page), worked.records.len());
                }
            }
        }
    }
}
