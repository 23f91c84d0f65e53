//! One search: its rooms, and how far it has come in the text at hand. It goes over a text in parts.

use crate::{entries, Engine, FailureTally, Mark, Tally};
use std::fmt;

/// How many finds are listed at a time; where that is more, so many for each letter of the word, as the table of a long word takes its time and is made for
/// each part. With a shorter list, parts full of finds would be too short for a search to prepare itself.
const LEAST_LIST: usize = 16_384;
const LIST_FOR_A_LETTER: usize = 16;

/// How many places the first part has for one who asks for one find; where that is more, so many for each letter of the word.
const LEAST_OF_THE_FIRST: usize = 4_096;
const OF_THE_FIRST_FOR_A_LETTER: usize = 64;

pub(crate) struct Search {
    engine: Engine,
    letters: u64,
    /// How many failure arrows were taken.
    failures: u64,
    tables: Vec<u16>,
    /// The sets of compact rows, whose targets are the tables.
    sets: Vec<u64>,
    list: Vec<u32>,
    /// The most finds that are listed at a time. The list gets so long when a part may have so many.
    most_listed: usize,
    /// The first place of the text that has not been looked at.
    at: usize,
    /// How many places the next part has.
    places: usize,
    /// Whether a part had more finds than the list.
    crowded: bool,
    /// Where the part that is listed starts, how many finds of it are listed, and how many of those were handed out.
    from: usize,
    listed: usize,
    next: usize,
}

impl Search {
    pub fn new(mark: &Mark) -> Search {
        let m = mark.word().len();
        let engine = mark.engine_asked_for().at_first(m);
        Search {
            engine,
            letters: 0,
            failures: 0,
            tables: vec![0; engine.table_room(m)],
            sets: vec![0; engine.sets_room(m)],
            list: Vec::new(),
            most_listed: LEAST_LIST.max(LIST_FOR_A_LETTER * m),
            at: 0,
            places: engine.first_places(m),
            crowded: false,
            from: 0,
            listed: 0,
            next: 0,
        }
    }

    /// A search that is asked for one find only: it begins with a short part, whatever the engine, and each is at most twice as long as the one before.
    pub fn of_the_first(mark: &Mark) -> Search {
        let places = LEAST_OF_THE_FIRST.max(OF_THE_FIRST_FOR_A_LETTER * mark.word().len());
        Search { most_listed: 1, places, crowded: true, ..Search::new(mark) }
    }

    pub fn letters(&self) -> u64 {
        self.letters
    }

    pub fn failures(&self) -> u64 {
        self.failures
    }

    pub fn engine(&self) -> Engine {
        self.engine
    }

    /// Whether the next find is at hand.
    #[inline]
    pub fn is_ready(&self) -> bool {
        self.next < self.listed
    }

    /// Goes on with another text.
    pub fn begin(&mut self) {
        (self.at, self.from, self.listed, self.next) = (0, 0, 0, 0);
    }

    /// The next find in a text, which is the same text until another begins.
    #[inline]
    pub fn next(&mut self, word: &[u8], text: &[u8]) -> Option<usize> {
        if !self.is_ready() && !self.list_more(word, text) {
            return None;
        }
        let at = self.list[self.next];
        self.next += 1;
        Some(self.from + at as usize)
    }

    /// Lists part after part until there is a find. Whether there is one.
    #[inline(never)]
    fn list_more(&mut self, word: &[u8], text: &[u8]) -> bool {
        while !self.is_ready() && self.is_left(word, text) {
            self.list_part(word, text);
        }
        self.is_ready()
    }

    /// How many finds of the text have not been handed out. None is left then.
    pub fn count(&mut self, word: &[u8], text: &[u8]) -> u64 {
        let mut count = (self.listed - self.next) as u64;
        self.next = self.listed;
        while self.is_left(word, text) {
            if self.engine != Engine::Auto {
                self.places = self.engine.most_places(word.len());
            }
            count += self.search_part(word, text, 0);
            self.places = self.engine.most_places(word.len());
        }
        count
    }

    /// Whether there are places that have not been looked at.
    fn is_left(&self, word: &[u8], text: &[u8]) -> bool {
        text.len() - self.at >= word.len()
    }

    /// The finds of the next part into the list. Where they do not all fit, the next part begins right behind the last that did.
    fn list_part(&mut self, word: &[u8], text: &[u8]) {
        let most = self.most_listed.min(self.places).min(text.len() - self.at);
        self.list.resize(most.max(self.list.len()), 0);
        let found = self.search_part(word, text, most);
        let searched = self.at - self.from;
        (self.listed, self.next) = (most, 0);
        match usize::try_from(found) {
            Ok(all) if all <= most => self.listed = all,
            _ => self.at = self.from + self.list[most - 1] as usize + 1,
        }
        self.size_next(word.len(), searched);
    }

    /// How long the next part is.
    ///
    /// Where all finds fitted: so long that they would fill half of the list if they stood as densely there, but, once a list was too short, at most twice as
    /// long as this part. Where they did not fit: as long as what was listed. So what is searched in vain by one part after the other is in all less than the
    /// first of them is long, and that is at most twice as long as a part that was not in vain, or the first that was.
    fn size_next(&mut self, letters: usize, searched: usize) {
        let covered = self.at - self.from;
        if covered < searched {
            (self.crowded, self.places) = (true, covered);
        } else if 2 * self.listed <= self.most_listed {
            let as_dense = searched.saturating_mul(self.most_listed).checked_div(2 * self.listed).unwrap_or(usize::MAX);
            let longest = if self.crowded { 2 * self.places } else { usize::MAX };
            self.places = self.places.max(as_dense).min(longest).min(self.engine.most_places(letters));
        }
    }

    /// Searches the next part, its first finds in the list, up to `most` of them. How many it has.
    fn search_part(&mut self, word: &[u8], text: &[u8], most: usize) -> u64 {
        let beyond = word.len() - 1;
        let places = self.places.min(self.engine.most_places(word.len()));
        let end = text.len().min(self.at + places + beyond);
        let part = &text[self.at..end];
        let (tables, list) = (&mut self.tables[..], &mut self.list[..most]);
        let told = match self.engine {
            Engine::Auto | Engine::Backward => entries::search(word, part, tables, list),
            Engine::Turbo => entries::turbo(word, part, tables, list),
            Engine::Failure => entries::failure_search(word, part, tables, list).map(|FailureTally { count, letters, failures }| {
                self.failures += failures;
                Tally { count, letters }
            }),
            Engine::Compact => entries::compact_search(word, part, &mut self.sets, tables, list),
        };
        let tally = told.expect("a mark's word, rooms and parts are within the limits");
        self.engine = self.engine.after(part.len(), tally.letters);
        self.letters += tally.letters;
        (self.from, self.at) = (self.at, end - beyond);
        tally.count
    }
}

impl fmt::Debug for Search {
    fn fmt(&self, f: &mut fmt::Formatter<'_>) -> fmt::Result {
        let Search { engine, letters, at, .. } = self;
        f.debug_struct("Search").field("engine", engine).field("letters", letters).field("at", at).finish_non_exhaustive()
    }
}

#[cfg(test)]
mod tests {
    use super::Search;
    use crate::{Engine, Mark};

    const ENGINES: [Engine; 5] = [Engine::Auto, Engine::Backward, Engine::Turbo, Engine::Failure, Engine::Compact];

    /// The first find, and how many letters were read for it.
    fn first(word: &[u8], text: &[u8], engine: Engine) -> (Option<usize>, u64) {
        let mut search = Search::of_the_first(&Mark::new(word).unwrap().engine(engine));
        (search.next(word, text), search.letters())
    }

    #[test]
    fn a_find_at_the_beginning_takes_no_reading_of_the_rest() {
        for m in [2, 64, 65, 1_024, 4_096] {
            let text = [&vec![b'a'; m][..], &vec![b'x'; 4_000_000]].concat();
            for engine in ENGINES {
                let (found, letters) = first(&text[..m], &text, engine);
                assert!(found == Some(0) && letters < 100_000 + 200 * m as u64, "{m} letters, {engine:?}: {letters}");
            }
        }
    }

    #[test]
    fn a_text_without_a_find_is_read_once_in_few_parts() {
        let text = vec![b'x'; 8_000_000];
        for m in [2, 64, 65, 1_024, 4_096] {
            for engine in ENGINES {
                let (found, letters) = first(&vec![b'a'; m], &text, engine);
                let once = Mark::new(vec![b'a'; m]).unwrap().engine(engine).tally(&text).letters;
                assert!(found.is_none() && letters <= once + once / 50 + 40, "{m} letters, {engine:?}: {letters}, {once}");
            }
        }
    }

    #[test]
    fn what_stands_further_behind_takes_a_few_times_the_reading_before_it() {
        let mut text = vec![b'x'; 8_000_000];
        text[1_000_000..1_000_004].fill(b'a');
        for engine in ENGINES {
            let (found, letters) = first(b"aaaa", &text, engine);
            let before = Mark::new("aaaa").unwrap().engine(engine).tally(&text[..1_000_004]).letters;
            assert!(found == Some(1_000_000) && letters <= 4 * before, "{engine:?}: {letters}, {before}");
        }
    }
}
