// The oracle's program: document 01's tables, checks, cases and answers, all from the crate's own code.
//   oracle tables DIR     writes the lent tables and their readable twins
//   oracle builtin DIR    writes crate class_builtin's src/words.rt, specs/Words.antt and specs/Inner/Words.antt, as words.rt.txt, Words.antt.txt and Inner-Words.antt.txt
//   oracle check          holds the crate's data to the rules of 01, over every scalar value
//   oracle cases          runs cases (a) to (l) of 01 and the program's example
//   oracle serve          answers request lines (see serve.rs)
// `check` and `cases` end with status 1 where a rule fails or a case disagrees.
mod builtin;
mod cases;
mod check;
mod serve;
mod tables;

fn main() {
    let words: Vec<String> = std::env::args().skip(1).collect();
    let words: Vec<&str> = words.iter().map(String::as_str).collect();
    let good = match words[..] {
        ["tables", dir] => tables::write(dir).map(|()| true),
        ["builtin", dir] => builtin::write(dir).map(|()| true),
        ["check"] => Ok(check::run()),
        ["cases"] => Ok(cases::run()),
        ["serve"] => serve::run().map(|()| true),
        _ => {
            eprintln!("usage: oracle tables DIR | builtin DIR | check | cases | serve");
            std::process::exit(2)
        }
    };
    match good {
        Ok(true) => {}
        Ok(false) => std::process::exit(1),
        Err(e) => {
            eprintln!("oracle: {e}");
            std::process::exit(1)
        }
    }
}
