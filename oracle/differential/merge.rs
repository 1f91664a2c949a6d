// Rankings merged. What is expected is written here a second time, from 02 [14] alone; where every language is one of the crate's, the oracle's own merge_coherence_ratios, put in 02's order, is
// held to the same answer. Compared bit by bit: the answer, every entry of the output, and what stands beside the lent lists.
use crate::Run;
use crate::library::{self, Guarded, HostRead, WORD};
use crate::random::Random;
use drasumira::CoherenceMatch;
use oracle::assets::LANGUAGES;
use oracle::entity::{CoherenceMatch as Crates, Language};
use ordered_float::OrderedFloat;

const MOST: usize = 64;
const LONGEST: u32 = 63;

// An entry: the language's number and the score.
type Entry = (u32, f32);

fn refused(number: u32, place: usize) -> HostRead {
    HostRead { number, place: place as u32, count: 0 }
}

// The languages, in the order in which they first appear.
fn appearing(list: &[Entry]) -> Vec<u32> {
    let mut languages = Vec::new();
    for (language, _) in list {
        if !languages.contains(language) {
            languages.push(*language);
        }
    }
    languages
}

// The f32 sum of a language's scores, in the given order starting from +0.0, divided by how many there were.
fn mean(list: &[Entry], language: u32) -> f32 {
    let scores: Vec<f32> = list.iter().filter(|entry| entry.0 == language).map(|entry| entry.1).collect();
    let sum = scores.iter().fold(0.0, |sum, score| sum + score);
    sum / scores.len() as f32
}

// Falling score; a stable sort leaves ties by first appearance. No mean is a NaN or -0.0, so that this is the order of numbers.
fn merged(list: &[Entry]) -> Vec<Entry> {
    let mut told: Vec<Entry> = appearing(list).into_iter().map(|language| (language, mean(list, language))).collect();
    told.sort_by(|a, b| b.1.total_cmp(&a.1));
    told
}

// 18, then 4, then 3.
fn cause(list: &[Entry], lengths: &[u32], room: usize) -> Option<HostRead> {
    let total: u64 = lengths.iter().map(|n| *n as u64).sum();
    if lengths.len() > MOST || lengths.iter().any(|n| *n > LONGEST) || total != list.len() as u64 {
        return Some(refused(18, 0));
    }
    if let Some(place) = list.iter().position(|entry| !(0.0..=1.0).contains(&entry.1)) {
        return Some(refused(4, place));
    }
    (room < appearing(list).len()).then_some(refused(3, 0))
}

// The crate's languages, each once.
fn languages() -> Vec<&'static Language> {
    let mut each: Vec<&Language> = Vec::new();
    for row in LANGUAGES.iter() {
        if !each.contains(&&row.0) {
            each.push(&row.0);
        }
    }
    each
}

fn words(list: &[Entry]) -> Vec<u32> {
    list.iter().flat_map(|(language, score)| [*language, score.to_bits()]).collect()
}

// The crate's own merge, put in 02's order; its sum starts from -0.0, so that a mean of -0.0 is 02's +0.0.
fn crates_merge(list: &[Entry], lengths: &[u32]) -> Vec<Entry> {
    let each = languages();
    let known = |number: u32| each[number as usize];
    let mut left = list;
    let mut rankings = Vec::new();
    for n in lengths {
        let (these, rest) = left.split_at(*n as usize);
        rankings.push(these.iter().map(|(number, score)| Crates { language: known(*number), score: OrderedFloat(*score) }).collect());
        left = rest;
    }
    let order = appearing(list);
    let place = |language: &Language| order.iter().position(|number| known(*number) == language).expect("it is one of the list's");
    let mut told = oracle::cd::merge_coherence_ratios(&rankings);
    told.sort_by(|a, b| b.score.cmp(&a.score).then(place(a.language).cmp(&place(b.language))));
    told.into_iter().map(|m| (order[place(m.language)], if m.score.0 == 0.0 { 0.0 } else { m.score.0 })).collect()
}

// A score that meets an edge: few values, so that means tie; subnormal ones, -0.0, 1.0, and thirds, which round.
fn score(random: &mut Random) -> f32 {
    match random.below(4) {
        0 => *random.pick(&[0.0, -0.0, 1.0, 0.5, 0.25, 0.75, f32::from_bits(1), f32::MIN_POSITIVE, f32::from_bits(0x3F7F_FFFF), 1.0 / 3.0]),
        1 => random.below(9) as f32 / 8.0,
        2 => random.below(1 << 24) as f32 / (1u32 << 24) as f32,
        _ => f32::from_bits(random.below(0x3F80_0001) as u32),
    }
}

// One that is not from 0 to 1.
fn no_score(random: &mut Random) -> f32 {
    let edges =
        [0x3F80_0001, 0x8000_0001, 0x7F80_0000, 0xFF80_0000, 0x7FC0_0000, 0xFFC0_0000, 0x7F80_0001, 0xFFFF_FFFF, 0xBF80_0000, 0x4000_0000];
    f32::from_bits(*random.pick(&edges))
}

impl Run {
    fn merging(&mut self, list: &[Entry], lengths: &[u32], room: usize, odd: bool, known: bool) {
        self.counted();
        let before: Vec<u32> = (0..2 * room + odd as usize).map(|_| self.random.next() as u32).collect();
        let (given, told_lengths) = (Guarded::new(&words(list), WORD), Guarded::new(lengths, WORD));
        let mut out = Guarded::new(&before, WORD);
        let told = library::merge(given.list(), told_lengths.list(), out.list_mut());
        let mut holds = before;
        let expected = cause(list, lengths, room).unwrap_or_else(|| {
            let entries = merged(list);
            holds[..2 * entries.len()].copy_from_slice(&words(&entries));
            HostRead { number: 0, place: 0, count: entries.len() as u32 }
        });
        self.refused += (expected.number != 0) as u64;
        if told != expected || !out.holds(&holds) || !given.whole() || !told_lengths.whole() {
            self.fail(|| {
                format!(
                    "merge of {list:?} with {lengths:?}, room {room}: {told:?}, 02 says {expected:?}; {:08X?}, 02 says {holds:08X?}",
                    out.list()
                )
            });
        }
        if known && expected.number == 0 && words(&crates_merge(list, lengths)) != holds[..2 * expected.count as usize] {
            self.fail(|| format!("merge of {list:?} with {lengths:?}: {holds:08X?}, the crate {:?}", crates_merge(list, lengths)));
        }
    }

    // Lengths of rankings, and so many entries over so many languages; where they are known, those of the crate.
    fn rankings(&mut self, known: bool) -> (Vec<Entry>, Vec<u32>) {
        let rankings = *self.random.pick(&[0, 1, 1, 2, 3, 5, 8, MOST]);
        let longest = *self.random.pick(&[0, 1, 2, 5, LONGEST as usize]);
        let lengths: Vec<u32> = (0..rankings).map(|_| self.random.below(longest + 1) as u32).collect();
        let languages = if known { *self.random.pick(&[1, 2, 5, languages().len()]) } else { *self.random.pick(&[1, 2, 7, 63, 5_000]) };
        let total: u32 = lengths.iter().sum();
        let list = (0..total).map(|_| (self.random.below(languages) as u32, score(&mut self.random))).collect();
        (list, lengths)
    }

    fn merges(&mut self, times: usize, known: bool) {
        for _ in 0..times {
            let (mut list, mut lengths) = self.rankings(known);
            if !known && !list.is_empty() && self.random.below(4) == 0 {
                let at = self.random.below(list.len());
                list[at].1 = no_score(&mut self.random);
            }
            match self.random.below(12) {
                0 => lengths.push(self.random.below(65) as u32),
                1 if !lengths.is_empty() => lengths[0] = *self.random.pick(&[63, 64, 65, u32::MAX, 1 << 31]),
                2 => lengths.resize(MOST + self.random.below(3), 0),
                _ => {}
            }
            let languages = appearing(&list).len();
            let room =
                if self.random.below(3) == 0 { languages.saturating_sub(self.random.below(2)) } else { languages + self.random.below(5) };
            let odd = self.random.below(4) == 0;
            self.merging(&list, &lengths, room, odd, known);
        }
    }

    // What those draws do not meet: a length at 63 and past it that adds up; as many rankings of one entry as may be, and more; every set of causes, with one bad score or two.
    fn merge_edges(&mut self, times: usize) {
        for _ in 0..times {
            for n in [0, 1, LONGEST - 1, LONGEST, LONGEST + 1, 2 * LONGEST] {
                let list: Vec<Entry> = (0..n).map(|at| (at % 9, score(&mut self.random))).collect();
                for lengths in [vec![n], vec![0, n], vec![n, 0, 0]] {
                    self.merging(&list, &lengths, 9, false, false);
                }
            }
            for rankings in MOST - 1..=MOST + 2 {
                let list: Vec<Entry> = (0..rankings as u32).map(|at| (at % 9, score(&mut self.random))).collect();
                self.merging(&list, &vec![1; rankings], 9, false, false);
            }
            for (first, second) in (0..5).flat_map(|first| (first..5).map(move |second| (first, second))) {
                for causes in 0..8 {
                    let mut list: Vec<Entry> = (0..5).map(|at| (5 - at, score(&mut self.random))).collect();
                    for at in [first, second].into_iter().filter(|_| causes & 1 != 0) {
                        list[at].1 = no_score(&mut self.random);
                    }
                    let lengths = if causes & 2 == 0 { [3, 2] } else { *self.random.pick(&[[2, 2], [3, 3]]) };
                    let room = if causes & 4 == 0 { 5 } else { self.random.below(5) };
                    self.merging(&list, &lengths, room, false, false);
                }
            }
        }
    }

    // 64 rankings of 63: over 63 languages, over as many as there are entries, and one length more.
    fn longest_merges(&mut self, times: usize) {
        for _ in 0..times {
            for languages in [63, 4_032, usize::MAX] {
                let list: Vec<Entry> = (0..4_032)
                    .map(|at| (if languages == usize::MAX { at } else { self.random.below(languages) as u32 }, score(&mut self.random)))
                    .collect();
                self.merging(&list, &[LONGEST; MOST], 4_032, false, false);
                self.merging(&list, &[LONGEST; MOST + 1], 4_032, false, false);
            }
        }
    }

    // A list of an odd number of u32 is refused with 18.
    fn odd_lists(&mut self, times: usize) {
        for _ in 0..times {
            self.counted();
            let (list, lengths) = self.rankings(false);
            let mut given = words(&list);
            given.push(self.random.next() as u32);
            let mut out = Guarded::new(&given, WORD);
            let told = library::merge(&given, &lengths, out.list_mut());
            if told != refused(18, 0) || !out.whole() {
                self.fail(|| format!("merge of an odd list of {} u32: {told:?}", given.len()));
            }
        }
    }

    // The Rust package's merge, which lays the rankings end to end itself.
    fn package_merges(&mut self, times: usize) {
        for _ in 0..times {
            self.counted();
            let (list, lengths) = self.rankings(false);
            let mut left = &list[..];
            let mut rankings: Vec<Vec<CoherenceMatch>> = Vec::new();
            for n in &lengths {
                let (these, rest) = left.split_at(*n as usize);
                rankings.push(these.iter().map(|(language, score)| CoherenceMatch { language: *language, score: *score }).collect());
                left = rest;
            }
            if self.random.below(10) == 0 {
                rankings.resize(MOST + self.random.below(2), vec![CoherenceMatch::default(); self.random.below(66)]);
            }
            let lists: Vec<&[CoherenceMatch]> = rankings.iter().map(Vec::as_slice).collect();
            let all: Vec<Entry> = rankings.concat().iter().map(|m| (m.language, m.score)).collect();
            let sizes: Vec<u32> = rankings.iter().map(|ranking| ranking.len() as u32).collect();
            let told = drasumira::merge(&lists).map(|list| words(&list.iter().map(|m| (m.language, m.score)).collect::<Vec<_>>()));
            let expected = match cause(&all, &sizes, all.len()) {
                Some(r) => Err(drasumira::Refusal::new(r.number, r.place)),
                None => Ok(words(&merged(&all))),
            };
            if told != expected {
                self.fail(|| format!("the Rust package's merge of {rankings:?}: {told:?}, 02 says {expected:?}"));
            }
        }
    }

    pub fn all_merges(&mut self) {
        self.during("edges of rankings merged", |run| run.merge_edges(run.times(10, 200)));
        self.during("rankings merged", |run| run.merges(run.times(20_000, 400_000), false));
        self.during("rankings merged, the crate's languages", |run| run.merges(run.times(10_000, 200_000), true));
        self.during("longest rankings merged", |run| run.longest_merges(run.times(3, 60)));
        self.during("odd lists", |run| run.odd_lists(run.times(500, 10_000)));
        self.during("the Rust package's merges", |run| run.package_merges(run.times(3_000, 60_000)));
    }
}
