//! An oracle, read from its table by the rule of docs/TABLE.md: entries are looked up, and nothing is worked out.

use marks::{
    compact_sets_room, compact_targets_room, entries, failure_table_room, storacle_table_room, table_room, LoadError, LONGEST_STORACLE,
    LONGEST_WORD,
};
use std::iter;

/// Which automaton of a word, and in which form.
#[derive(Clone, Copy, PartialEq)]
pub enum Kind {
    Factor,
    Failure,
    Storacle,
    /// The same oracle as the first, as compact rows.
    Compact,
}

pub struct Oracle {
    /// Rows of m+1 entries: six, or ten of a failure oracle or of compact rows, or m+6 of a storacle. The first has the letters in each.
    table: Vec<u16>,
    /// The sets of compact rows, four words for each state.
    sets: Vec<u64>,
    m: usize,
    pub kind: Kind,
}

impl Oracle {
    /// The oracle in a mark file, or the failure oracle, the storacle or the compact rows of the same word. The word may be too long
    /// for a storacle.
    pub fn of_file(file: &[u8], kind: Kind) -> Result<Oracle, LoadError> {
        let (mut word, mut table, mut sets) = (vec![0; LONGEST_WORD], vec![0; table_room(LONGEST_WORD)], Vec::new());
        let m = entries::load(file, &mut word, &mut table)?;
        let made = match kind {
            Kind::Factor => Ok(m),
            Kind::Failure => {
                table = vec![0; failure_table_room(m)];
                entries::failure_build(&word[..m], &mut table)
            }
            Kind::Storacle => {
                table = vec![0; storacle_table_room(m.min(LONGEST_STORACLE))];
                entries::storacle_build(&word[..m], &mut table)
            }
            Kind::Compact => {
                (sets, table) = (vec![0; compact_sets_room(m)], vec![0; compact_targets_room(m)]);
                entries::compact_build(&word[..m], &mut sets, &mut table)
            }
        };
        made.map_err(|refusal| LoadError { refusal, offset: None })?;
        Ok(Oracle { table, sets, m, kind })
    }

    fn entry(&self, row: usize, place: usize) -> usize {
        self.table[row * (self.m + 1) + place].into()
    }

    /// The states, 0 to m.
    pub fn states(&self) -> std::ops::RangeInclusive<usize> {
        0..=self.m
    }

    pub fn word(&self) -> Vec<u8> {
        self.states().filter_map(|state| self.letter(state)).collect()
    }

    /// The letter that every arrow into a state carries. No arrow leads to state 0.
    pub fn letter(&self, state: usize) -> Option<u8> {
        (state > 0).then(|| self.entry(0, state) as u8)
    }

    /// State 0 has none, and no state of a failure oracle or of a storacle.
    pub fn supply(&self, state: usize) -> Option<usize> {
        (matches!(self.kind, Kind::Factor | Kind::Compact) && state > 0).then(|| self.entry(1, state))
    }

    /// Where the failure arrow leads, which only states of a failure oracle have. None leads to state 0.
    pub fn failure(&self, state: usize) -> Option<usize> {
        Some(self.entry(1, state)).filter(|target| self.kind == Kind::Failure && *target > 0)
    }

    /// Where the arrow of the spine leads.
    pub fn spine(&self, state: usize) -> Option<usize> {
        (state < self.m).then_some(state + 1)
    }

    /// Where the targets of a state start in their row, which only compact rows tell.
    pub fn start(&self, state: usize) -> Option<usize> {
        (self.kind == Kind::Compact).then(|| self.entry(4, 4 * state))
    }

    /// Every arrow on a letter that leaves a state: the letter, and where it leads. The spine's is first, but in compact rows they are by rising letter.
    pub fn arrows(&self, state: usize) -> Vec<(u8, usize)> {
        match self.start(state) {
            Some(start) => (0..=u8::MAX).filter(|letter| self.is_in_set(state, *letter)).zip(self.targets(start)).collect(),
            None => self.spine(state).into_iter().chain(self.extra(state)).filter_map(|to| Some((self.letter(to)?, to))).collect(),
        }
    }

    fn is_in_set(&self, state: usize, letter: u8) -> bool {
        self.sets[4 * state + usize::from(letter / 64)] >> (letter % 64) & 1 == 1
    }

    /// The row of targets of compact rows, from a place on.
    fn targets(&self, start: usize) -> impl Iterator<Item = usize> + '_ {
        (start..).map(|place| self.entry(8, place))
    }

    /// Where the arrows on letters beside the spine lead: rising, in a failure oracle in the order in which they were added, in compact rows by letter.
    pub fn extra(&self, state: usize) -> Vec<usize> {
        match (self.kind, self.spine(state)) {
            (Kind::Factor, Some(next)) => (self.entry(2, state)..self.entry(2, next)).map(|slot| self.entry(3, slot)).collect(),
            (Kind::Factor, None) => Vec::new(),
            (Kind::Failure, _) => self.chain(state),
            (Kind::Storacle, spine) => self.row(state).into_iter().filter(|to| spine != Some(*to)).collect(),
            (Kind::Compact, spine) => self.arrows(state).into_iter().map(|(_, to)| to).filter(|to| spine != Some(*to)).collect(),
        }
    }

    /// The targets in the slots of a state, which lead from the newest to the oldest, turned round.
    fn chain(&self, state: usize) -> Vec<usize> {
        let slot = |number: usize| (number > 0).then_some(number);
        let slots = iter::successors(slot(self.entry(2, state)), |newer| slot(self.entry(3, *newer)));
        let mut targets: Vec<usize> = slots.map(|number| self.entry(4, number)).collect();
        targets.reverse();
        targets
    }

    /// The targets in the row of a state of a storacle, which are by column, sorted.
    fn row(&self, state: usize) -> Vec<usize> {
        let mut targets: Vec<usize> = self.states().map(|column| self.entry(2 + state, column)).filter(|to| *to > 0).collect();
        targets.sort_unstable();
        targets
    }
}

#[cfg(test)]
mod tests {
    use super::{Kind, Oracle};
    use marks::Mark;

    #[test]
    fn the_worked_example_is_read_as_it_is_published() {
        let oracle = Oracle::of_file(b"\x01\x07abbbaab\x04\0\0\x01\x03\x01\x01\x01\0", Kind::Factor).unwrap();
        assert_eq!(oracle.word(), b"abbbaab");
        assert_eq!(
            oracle.states().map(|x| oracle.extra(x)).collect::<Vec<_>>(),
            [vec![2], vec![6], vec![5], vec![5], vec![], vec![], vec![], vec![]]
        );
        assert_eq!(
            oracle.states().map(|x| oracle.supply(x)).collect::<Vec<_>>(),
            [None, Some(0), Some(0), Some(2), Some(3), Some(1), Some(1), Some(2)]
        );
    }

    fn made_of(word: &[u8], kind: Kind) -> Oracle {
        let finds: Vec<u8> = word.iter().rev().copied().collect();
        Oracle::of_file(&Mark::new(finds).unwrap().to_file().unwrap(), kind).unwrap()
    }

    #[test]
    fn so_are_those_of_the_failure_oracle() {
        let oracle = made_of(b"abcacdace", Kind::Failure);
        assert_eq!(oracle.word(), b"abcacdace");
        assert!(oracle.states().all(|x| oracle.extra(x).is_empty() && oracle.supply(x).is_none()));
        let failures = oracle.states().filter_map(|x| oracle.failure(x).map(|to| (x, to)));
        assert_eq!(failures.collect::<Vec<_>>(), [(0, 1), (1, 2), (2, 5), (3, 5), (5, 8)]);
        let with_a_circle = made_of(b"abadbcaabdbaba", Kind::Failure);
        let extra = with_a_circle.states().flat_map(|x| with_a_circle.extra(x).into_iter().map(move |to| (x, to)));
        assert_eq!(extra.collect::<Vec<_>>(), [(13, 13)]);
    }

    #[test]
    fn so_are_those_of_the_storacle() {
        let oracle = made_of(b"abcacdace", Kind::Storacle);
        assert_eq!(oracle.word(), b"abcacdace");
        assert!(oracle.states().all(|x| oracle.supply(x).is_none() && oracle.failure(x).is_none() && oracle.start(x).is_none()));
        let extra = oracle.states().flat_map(|x| oracle.extra(x).into_iter().map(move |to| (x, to)));
        assert_eq!(extra.collect::<Vec<_>>(), [(0, 2), (0, 3), (0, 6), (0, 9), (1, 3), (3, 6), (3, 9)]);
        // the column of c comes before that of a
        assert_eq!(made_of(b"cbbabc", Kind::Storacle).extra(2), [4, 6]);
    }

    #[test]
    fn compact_rows_have_the_arrows_of_the_oracle() {
        let every: Vec<u8> = (0..=255).chain(b"abbbaab".repeat(30)).collect();
        for word in [b"abbbaab".to_vec(), b"abcacdace".to_vec(), b"aa".to_vec(), every] {
            let file = Mark::new(&word).unwrap().to_file().unwrap();
            let [first, compact] = [Kind::Factor, Kind::Compact].map(|kind| Oracle::of_file(&file, kind).unwrap());
            assert_eq!(compact.word(), first.word());
            let mut before = 0;
            for state in first.states() {
                let mut arrows = first.arrows(state);
                arrows.sort_unstable();
                assert_eq!((compact.arrows(state), compact.start(state)), (arrows, Some(before)));
                let mut extra = compact.extra(state);
                extra.sort_unstable();
                assert_eq!((extra, compact.supply(state)), (first.extra(state), first.supply(state)));
                before += compact.arrows(state).len();
            }
        }
    }

    #[test]
    fn slots_are_followed_from_the_newest_to_the_oldest() {
        let mut table = vec![0; 10 * 3];
        // state 1 has slots 2 and 1, which lead to 2 and 1
        (table[2 * 3 + 1], table[3 * 3 + 2], table[4 * 3 + 2], table[4 * 3 + 1]) = (2, 1, 2, 1);
        let oracle = Oracle { table, sets: Vec::new(), m: 2, kind: Kind::Failure };
        assert_eq!(oracle.states().map(|x| oracle.extra(x)).collect::<Vec<_>>(), [vec![], vec![1, 2], vec![]]);
    }
}
