// `drasumira compare`: which of two readings of a line is the more readable.
use crate::bursts::{Shared, Teller, Told};
use crate::input::{Burst, Lines};
use crate::options::Options;
use crate::score::put;
use crate::shown;
use drasumira::{RefusedText, Which, choose, verdict};
use std::borrow::Cow;

pub struct Compare;

impl Teller for Compare {
    fn head(&self, options: &Options) -> &'static str {
        if options.json { "" } else { "file\tline\tpage\ttext\n" }
    }

    fn tell(&self, shared: &Shared<'_>, burst: &Burst, _rows: &mut Vec<u32>, told: &mut Told) {
        for (number, line) in (burst.first..).zip(Lines(&burst.bytes)) {
            told.returns |= line.ends_with(b"\r");
            match judged(shared, line) {
                Ok((which, text)) => put_taken(&mut told.out, shared, burst, number, which, &text),
                Err(refused) => {
                    told.refused = true;
                    put_refused(&mut told.out, shared, burst, number, refused);
                }
            }
        }
    }
}

// The library's verdict on the two readings, and the text that it takes. Whatever the second is, the first is told where it is refused.
fn judged(shared: &Shared<'_>, line: &[u8]) -> Result<(Which, String), RefusedText> {
    let [first, second] = &shared.options.readings[..] else { unreachable!("compare has two readings") };
    let first = first.bytes(line).map_err(|refusal| RefusedText::new(Which::First, refusal))?;
    let second: Cow<'_, [u8]> = match second.bytes(line) {
        Ok(second) => second,
        Err(refusal) => return verdict(&*first, "", shared.tables).and(Err(RefusedText::new(Which::Second, refusal))),
    };
    let which = verdict(&*first, &*second, shared.tables)?;
    let part = choose(&*first, &*second, shared.tables);
    Ok((which, String::from_utf8_lossy(part).into_owned()))
}

fn page(shared: &Shared<'_>, which: Which) -> usize {
    if which == Which::First { 0 } else { shared.options.readings.len() - 1 }
}

fn put_taken(out: &mut Vec<u8>, shared: &Shared<'_>, burst: &Burst, number: u64, which: Which, text: &str) {
    let name = shared.options.readings[page(shared, which)].name;
    if shared.options.json {
        let text = shown::json(text);
        put(out, format_args!("{{\"file\":{},\"line\":{number},\"page\":\"{name}\",\"text\":{text}}}\n", burst.file.json));
    } else {
        put(out, format_args!("{}\t{number}\t{name}\t{}\n", burst.file.shown, shown::text(text)));
    }
}

fn put_refused(out: &mut Vec<u8>, shared: &Shared<'_>, burst: &Burst, number: u64, refused: RefusedText) {
    let reading = &shared.options.readings[page(shared, refused.which)];
    let (name, words) = (reading.name, reading.words(refused.refusal));
    if shared.options.json {
        let (file, cause, words) = (&burst.file.json, refused.refusal, shown::json(&words));
        put(out, format_args!("{{\"file\":{file},\"line\":{number},\"page\":\"{name}\",\"refused\":{}", cause.number));
        put(out, format_args!(",\"place\":{},\"words\":{words}}}\n", cause.place));
    } else {
        put(out, format_args!("{}\t{number}\t-\trefused as {name}: {words}\n", burst.file.shown));
    }
}
