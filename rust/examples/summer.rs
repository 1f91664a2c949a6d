//! Which lines of a file are noise under the summer rule, which states its threshold, and which in the new rooms, which use the default:
//! `cargo run --example summer -- FILE`. Prints the lines on which the two disagree, with the ratios that are not 0 and their counts.
use drasumira::{NEW_ROOMS, SUMMER_RULE, Score, Tables, score_lines};

fn said(score: &Score) -> String {
    let told = score.shares().filter(|(_, share)| share.ratio > 0.0);
    told.map(|(detector, share)| format!("{detector}: {share}")).collect::<Vec<_>>().join("; ")
}

fn main() -> Result<(), Box<dyn std::error::Error>> {
    let file = std::env::args().nth(1).ok_or("usage: summer FILE")?;
    let (bytes, tables) = (std::fs::read(&file)?, Tables::full());
    let summer = score_lines(&bytes, Some(SUMMER_RULE), &tables)?;
    let rooms = score_lines(&bytes, None, &tables)?;
    for (at, told) in summer.iter().zip(&rooms).enumerate() {
        let (Ok(summer), Ok(rooms)) = told else { continue };
        if summer.sum < SUMMER_RULE && rooms.sum >= NEW_ROOMS {
            println!("{file}:{}: noise in the new rooms, readable under the summer rule ({})", at + 1, said(rooms));
        }
    }
    Ok(())
}
