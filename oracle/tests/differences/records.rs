//! Every record of at most so many bytes, as bytes. Codes, forms, counts, kinds and flags have all their values; a text
//! is one of a given list, an upper extra 1, 2 or 16, places are 1 or 2, another number 0, 1, 2 or the first one of its
//! length.

pub type Strings = Vec<Vec<u8>>;

/// The kinds of records, as their first byte.
pub const KINDS: std::ops::RangeInclusive<u8> = 0..=11;

pub struct Records {
    pub limit: usize,
    /// What stands for labels, values, strings and metric names.
    pub texts: &'static [&'static str],
}

const FUNCTION_NAMES: &[&str] = &["f", "ln", "exp", "log2", "log10"];

fn any(values: impl Iterator<Item = u8>) -> Strings {
    values.map(|value| vec![value]).collect()
}

fn written(texts: &[&str]) -> Strings {
    let text = |text: &&str| [&[text.len() as u8], text.as_bytes()].concat();
    texts.iter().map(text).collect()
}

fn either<const N: usize>(choices: [Strings; N]) -> Strings {
    choices.into_iter().flatten().collect()
}

impl Records {
    /// One field after another, within the limit.
    fn sequence(&self, fields: &[&Strings]) -> Strings {
        let mut made: Strings = vec![Vec::new()];
        for field in fields {
            let longer = made.iter().flat_map(|head| {
                let fitting = field
                    .iter()
                    .filter(|tail| head.len() + tail.len() <= self.limit);
                fitting.map(move |tail| [head.as_slice(), tail].concat())
            });
            made = longer.collect();
        }
        made
    }

    /// A byte that says which form follows, and the fields of that form.
    fn form(&self, form: u8, fields: &[&Strings]) -> Strings {
        let form = any(std::iter::once(form));
        self.sequence(&[&[&form], fields].concat())
    }

    fn list(&self, element: &Strings) -> Strings {
        let of_count = |count: usize| self.form(count as u8, &vec![element; count]);
        (0..=self.limit.min(16)).flat_map(of_count).collect()
    }

    fn numbers(&self) -> Strings {
        let longer = (1..self.limit.min(8)).map(|groups| [vec![0x80; groups], vec![1]].concat());
        any(0..=2).into_iter().chain(longer).collect()
    }

    fn literals(&self) -> Strings {
        let numbers = &self.numbers();
        let whole = self.sequence(&[&any(0..=1), numbers]);
        let fractions = self.sequence(&[&any(5..=6), numbers, &any(1..=2)]);
        either([whole, any(2..=4), fractions])
    }

    fn optional(&self, value: &Strings) -> Strings {
        either([any(0..=0), self.form(1, &[value])])
    }

    fn labels(&self) -> Strings {
        self.list(&written(self.texts))
    }

    fn selectors(&self) -> Strings {
        let texts = &written(self.texts);
        let equal = self.sequence(&[&any(0..=1), texts, texts]);
        let regex = self.sequence(&[&any(2..=3), texts, texts, &any(0..=1)]);
        self.sequence(&[texts, &self.list(&either([equal, regex]))])
    }

    fn binaries(&self) -> Strings {
        let labels = &self.labels();
        let labelled = self.sequence(&[&any(1..=2), labels]);
        let matching = either([any(0..=0), labelled.clone()]);
        let cardinality = either([any(0..=0), labelled, any(3..=3)]);
        let fill = &self.optional(&self.literals());
        let modifier = self.sequence(&[&any(0..=1), &matching, &cardinality, fill, fill]);
        self.sequence(&[&any(1..=30), &self.optional(&modifier)])
    }

    fn aggregates(&self) -> Strings {
        let labelled = self.sequence(&[&any(1..=2), &self.labels()]);
        let grouping = either([any(0..=0), labelled]);
        self.sequence(&[&any(1..=30), &grouping, &any(0..=16)])
    }

    fn calls(&self) -> Strings {
        let upper = either([any(1..=2), any(16..=16)]);
        let extra = either([any(0..=1), self.form(2, &[&upper])]);
        let kinds = self.list(&any(0..=3));
        let names = written(FUNCTION_NAMES);
        self.sequence(&[&names, &kinds, &extra, &any(0..=3), &any(0..=16)])
    }

    /// All records of a kind.
    pub fn of_kind(&self, kind: u8) -> Strings {
        let numbers = self.numbers();
        let fields = match kind {
            0 => self.literals(),
            1 => written(self.texts),
            2 => self.selectors(),
            3 => numbers,
            4 => self.sequence(&[&numbers, &self.optional(&numbers)]),
            5 => either([any(0..=1), self.sequence(&[&any(2..=3), &numbers])]),
            6 => self.sequence(&[&any(0..=1), &numbers]),
            7 | 8 => vec![Vec::new()],
            9 => self.binaries(),
            10 => self.aggregates(),
            _ => self.calls(),
        };
        self.form(kind, &[&fields])
    }
}
