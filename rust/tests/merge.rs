// Rankings merged: none, one, means beside a plain f32 loop, the order of ties, refusals with their places, and -0.0.
use drasumira::{CoherenceMatch, Refusal, merge};

const LONGEST: usize = 63;
const MOST: usize = 64;

fn entry(language: u32, score: f32) -> CoherenceMatch {
    CoherenceMatch { language, score }
}

fn bits(list: &[CoherenceMatch]) -> Vec<(u32, u32)> {
    list.iter().map(|m| (m.language, m.score.to_bits())).collect()
}

fn merged(rankings: &[Vec<CoherenceMatch>]) -> Result<Vec<(u32, u32)>, Refusal> {
    let lists: Vec<&[CoherenceMatch]> = rankings.iter().map(Vec::as_slice).collect();
    merge(&lists).map(|list| bits(&list))
}

// The mean by a plain loop: from +0.0 on, in the given order, over as many scores as there are.
fn mean<'a>(rankings: impl Iterator<Item = &'a Vec<CoherenceMatch>>, language: u32) -> f32 {
    let (mut sum, mut count) = (0.0, 0.0);
    for m in rankings.flatten().filter(|m| m.language == language) {
        sum += m.score;
        count += 1.0;
    }
    sum / count
}

#[test]
fn nothing_to_merge() {
    assert_eq!(merge(&[]), Ok(vec![]));
    assert_eq!(merge(&[&[]]), Ok(vec![]));
    assert_eq!(merge(&[&[] as &[CoherenceMatch]; MOST]), Ok(vec![]));
}

#[test]
fn one_ranking_comes_back() {
    let few = vec![entry(7, 1.0), entry(0, 0.8), entry(u32::MAX, 0.8), entry(3, f32::from_bits(1)), entry(1, 0.0)];
    assert_eq!(merged(std::slice::from_ref(&few)), Ok(bits(&few)));
    assert_eq!(merged(&[vec![], few.clone(), vec![]]), Ok(bits(&few)));
    let longest: Vec<CoherenceMatch> = (0..LONGEST as u32).map(|at| entry(900 - at, 1.0 / (at + 1) as f32)).collect();
    assert_eq!(merged(std::slice::from_ref(&longest)), Ok(bits(&longest)));
}

#[test]
fn the_means_of_two() {
    let two = [vec![entry(4, 0.9), entry(2, 0.3), entry(9, 1.0 / 3.0)], vec![entry(9, 0.7), entry(4, 0.1), entry(5, 0.4)]];
    let expected: Vec<(u32, u32)> = [9, 4, 5, 2].map(|language| (language, mean(two.iter(), language).to_bits())).to_vec();
    assert_eq!(merged(&two), Ok(expected));
}

// Sums that round at each step: added from the last on, some of them would be others.
#[test]
fn the_means_of_many() {
    let score = |at: usize| (at * 7_919 % 10_007) as f32 / 10_007.0;
    let many: Vec<Vec<CoherenceMatch>> =
        (0..MOST).map(|i| (0..LONGEST).map(|j| entry((j % 50) as u32, score(i * LONGEST + j))).collect()).collect();
    let told = merged(&many).unwrap();
    assert_eq!(told.len(), 50);
    assert!(told.iter().all(|(language, score)| *score == mean(many.iter(), *language).to_bits()));
    assert!(told.is_sorted_by(|a, b| f32::from_bits(a.1) >= f32::from_bits(b.1)));
    assert!(told.iter().any(|(language, score)| *score != mean(many.iter().rev(), *language).to_bits()));
}

#[test]
fn a_language_twice_in_one_ranking() {
    let rankings = [vec![entry(3, 1.0), entry(8, 0.5), entry(3, 0.25)], vec![entry(8, 0.75)], vec![entry(3, 0.25)]];
    assert_eq!(merged(&rankings), Ok(bits(&[entry(8, 0.625), entry(3, 0.5)])));
}

#[test]
fn ties_by_first_appearance() {
    let rankings = [vec![entry(9, 0.5), entry(2, 0.25)], vec![entry(5, 0.5), entry(2, 0.75), entry(0, 0.75), entry(9, 0.5)]];
    assert_eq!(merged(&rankings), Ok(bits(&[entry(0, 0.75), entry(9, 0.5), entry(2, 0.5), entry(5, 0.5)])));
    let all = vec![(0..LONGEST as u32).rev().map(|language| entry(language, 1.0)).collect(); MOST];
    assert_eq!(merged(&all), Ok(bits(&all[0])));
}

#[test]
fn lengths_are_refused_first() {
    let of = |n: usize, score: f32| vec![entry(1, score); n];
    let refused = Err(Refusal::new(Refusal::BAD_LENGTHS, 0));
    assert_eq!(Refusal::BAD_LENGTHS, 18);
    assert!(merged(&vec![of(LONGEST, 0.5); MOST]).is_ok());
    assert_eq!(merged(&vec![of(1, 0.5); MOST + 1]), refused);
    assert_eq!(merged(&vec![vec![]; MOST + 1]), refused);
    assert_eq!(merged(&[of(1, 0.5), of(LONGEST + 1, 0.5)]), refused);
    assert_eq!(merged(&[of(1, f32::NAN), of(LONGEST + 1, 0.5)]), refused);
    assert_eq!(merged(&vec![of(1, 2.0); MOST + 1]), refused);
}

#[test]
fn a_score_that_is_none() {
    let over = f32::from_bits(1.0f32.to_bits() + 1);
    let below = f32::from_bits((-0.0f32).to_bits() + 1);
    for bad in [f32::NAN, -f32::NAN, f32::INFINITY, f32::NEG_INFINITY, over, below, 2.0, -1.0] {
        for (first, second) in (0..5).flat_map(|first| (first..5).map(move |second| (first, second))) {
            let mut rankings = [vec![entry(1, 1.0), entry(2, 0.0)], vec![], vec![entry(3, 0.5), entry(1, 0.5), entry(1, 0.0)]];
            for at in [first, second] {
                rankings[if at < 2 { 0 } else { 2 }][if at < 2 { at } else { at - 2 }].score = bad;
            }
            assert_eq!(merged(&rankings), Err(Refusal::new(4, first as u32)), "{bad} at {first} and {second}");
        }
    }
}

#[test]
fn minus_zero_is_zero() {
    assert_eq!(merged(&[vec![entry(6, -0.0)], vec![entry(6, -0.0)]]), Ok(vec![(6, 0)]));
    assert_eq!(merged(&[vec![entry(6, -0.0), entry(5, 0.0)]]), Ok(vec![(6, 0), (5, 0)]));
    assert_eq!(merged(&[vec![entry(6, -0.0), entry(6, 0.5)]]), Ok(bits(&[entry(6, 0.25)])));
}
