//! The table of refusals: each number and what it means.

use std::{error::Error, fmt};

/// The table as a type: from each line its case, its number and its one wording.
macro_rules! refusals {
    ($($name:ident = $number:literal, $text:literal;)*) => {
        /// Why an entry refused. The value of each case is its number in the table; a later edition of the library may have more of them. Those of a file, 5 to
        /// 11 and 13, come with an offset in it, in a [`LoadError`](crate::LoadError).
        ///
        /// ```
        /// use marks::{Mark, Refusal};
        ///
        /// // a header that declares four billion letters
        /// let refused = Mark::from_file([0x01, 0xFF, 0xFF, 0xFF, 0xFF, 0x0F]).unwrap_err().refusal;
        /// assert_eq!(refused, Refusal::BadLength);
        /// assert_eq!(refused.number(), 8);
        /// assert_eq!(refused.to_string(), "the file declares fewer than 2 letters, or more than 4,096 (8)");
        /// ```
        #[derive(Clone, Copy, Debug, PartialEq, Eq, Hash, PartialOrd, Ord)]
        #[repr(u32)]
        #[non_exhaustive]
        pub enum Refusal {
            $(#[doc = concat!("Given exactly when ", $text, ".")] $name = $number,)*
        }

        impl Refusal {
            const TABLE: &'static [Refusal] = &[$(Refusal::$name,)*];

            /// When it is given: one wording in every face of the library.
            #[must_use]
            pub const fn meaning(self) -> &'static str {
                match self {
                    $(Refusal::$name => $text,)*
                }
            }
        }
    };
}

// begin refusals: as tools/refusals writes them
refusals! {
    EmptyWord = 1, "the word is empty";
    LongWord = 2, "the word is longer than 4,096 bytes, for a storacle than 128, for a stream than 64";
    ShortRoom = 3, "too little room: 6(m+1) entries, storacle (m+1)(m+6), failure oracle 10(m+1), compact rows also 4(m+1) words, file m bytes, stream 134";
    LongText = 4, "the text is longer than 16,777,216 bytes, or the stream would be with this piece";
    CutFile = 5, "the file ends before or inside a number, or before the last of its letters or of its check";
    BadNumber = 6, "a number in the file is misspelled: the last of its several groups is zero, or its fifth byte is above 15";
    OtherEdition = 7, "the file's edition is neither 1 nor 2";
    BadLength = 8, "the file declares fewer than 2 letters, or more than 4,096";
    BadCount = 9, "the file declares more arrows than its letters less 1";
    WrongArrow = 10, "an arrow in the file is not its word's own at that place, or arrows are missing";
    Leftovers = 11, "bytes follow the file's last arrow, or in edition 2 its check";
    ShortOutput = 12, "the room lent for the file is below its size";
    BadCheck = 13, "the file's check is not that of the bytes before it";
    Unmade = 16, "opening and taking bytes could never have made the searcher";
    ShortWord = 17, "the word to be saved has one letter";
}
// end refusals

impl Refusal {
    /// Its number in the table.
    #[must_use]
    pub const fn number(self) -> u32 {
        self as u32
    }

    /// Whether it shows at a place in a file, which the entry then writes.
    pub(crate) const fn has_offset(self) -> bool {
        matches!(self.number(), 5..=11 | 13)
    }

    /// The refusal that has a number.
    pub(crate) fn of(number: u32) -> Refusal {
        let known = Refusal::TABLE.iter().copied().find(|refusal| refusal.number() == number);
        known.expect("an entry refuses with a number of the table")
    }
}

impl fmt::Display for Refusal {
    fn fmt(&self, f: &mut fmt::Formatter<'_>) -> fmt::Result {
        write!(f, "{} ({})", self.meaning(), self.number())
    }
}

impl Error for Refusal {}

#[cfg(test)]
mod tests {
    use super::Refusal;

    #[test]
    fn each_number_is_that_of_one_refusal() {
        let numbers: Vec<u32> = Refusal::TABLE.iter().map(|refusal| refusal.number()).collect();
        assert_eq!(numbers, [1, 2, 3, 4, 5, 6, 7, 8, 9, 10, 11, 12, 13, 16, 17]);
        assert!(numbers.iter().all(|&number| Refusal::of(number).number() == number));
    }

    #[test]
    fn each_is_told_by_a_text_of_its_own_and_its_number() {
        let told: Vec<String> = Refusal::TABLE.iter().map(ToString::to_string).collect();
        for (place, (text, refusal)) in told.iter().zip(Refusal::TABLE).enumerate() {
            assert!(text.ends_with(&format!(" ({})", refusal.number())), "{text}");
            assert!(!told[..place].contains(text), "{text}");
        }
    }
}
