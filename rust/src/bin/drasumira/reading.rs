// How the bytes of a line become text: as UTF-8, or by a code page of the library.
use crate::input::LONGEST_LINE;
use drasumira::{Page, Refusal};
use std::borrow::Cow;

#[derive(Debug)]
pub struct Reading {
    pub name: &'static str,
    page: Option<Page>,
}

impl Reading {
    pub fn utf_8() -> Reading {
        Reading { name: "utf-8", page: None }
    }

    pub fn named(name: &str) -> Option<Reading> {
        let of = |name, page| Some(Reading { name, page: Some(page) });
        match name {
            "utf-8" => Some(Reading::utf_8()),
            "windows-1251" => of("windows-1251", Page::windows_1251()),
            "windows-1252" => of("windows-1252", Page::windows_1252()),
            "iso-8859-2" => of("iso-8859-2", Page::iso_8859_2()),
            _ => None,
        }
    }

    /// Whether bytes are handed to the library as they stand.
    pub fn is_utf_8(&self) -> bool {
        self.page.is_none()
    }

    /// The UTF-8 of a line. Bytes that are to be read as UTF-8 are not looked at: the call that they are handed to refuses them.
    pub fn bytes<'a>(&self, line: &'a [u8]) -> Result<Cow<'a, [u8]>, Refusal> {
        match &self.page {
            None => Ok(Cow::Borrowed(line)),
            Some(page) => Ok(Cow::Owned(page.read(line)?.into_bytes())),
        }
    }

    /// The characters of a line.
    pub fn characters(&self, line: &[u8]) -> Result<Vec<char>, Refusal> {
        let text = self.bytes(line)?;
        let mut points = vec![0; if text.len() > LONGEST_LINE { 0 } else { text.len() }];
        let count = drasumira::read(&text, &mut points)?;
        points.truncate(count);
        Ok(points.into_iter().filter_map(char::from_u32).collect())
    }

    /// Why a line was refused, in words, with its place and what to try.
    pub fn words(&self, refusal: Refusal) -> String {
        let place = refusal.place;
        match (refusal.number, &self.page) {
            (Refusal::ILL_FORMED, None) => {
                format!("not UTF-8 at byte {place}, counted from 0; try --page windows-1252, windows-1251 or iso-8859-2")
            }
            (Refusal::ILL_FORMED, Some(_)) => {
                format!("byte {place}, counted from 0, stands for nothing in {}; try another --page", self.name)
            }
            (Refusal::TOO_LONG, None) => "over 65,536 characters or 262,144 bytes; try it split into shorter lines".to_string(),
            (Refusal::TOO_LONG, Some(_)) => "over 65,536 bytes; try it split into shorter lines".to_string(),
            (Refusal::UNCLASSED, _) => {
                format!(
                    "the character at index {place}, counted from 0, is in no class record: it is newer than the tables; try without it"
                )
            }
            _ => refusal.to_string(),
        }
    }
}
