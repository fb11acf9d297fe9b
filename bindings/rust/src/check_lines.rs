//! Answers each line of standard input, a password, a tab and a stored text, with the word of `pwcheck_check`, as the
//! program `pwcheck check` does: a line that has no tab or isn't UTF-8 is "badline", one of more than 8,192 bytes
//! "toolong".
use pwcheck::{Answer, check};
use std::io::{self, BufRead, Write};

const LINE_MAX: usize = 8_192;

fn answer(line: &[u8]) -> String {
    if line.len() > LINE_MAX {
        return "toolong".into();
    }
    let Some(tab) = line.iter().rposition(|&b| b == b'\t') else {
        return "badline".into();
    };
    match check(&line[..tab], &line[tab + 1..]) {
        Answer::NotUtf8 => "badline".into(),
        checked => checked.word(),
    }
}

fn main() -> io::Result<()> {
    let mut out = io::stdout().lock();
    for line in io::stdin().lock().split(b'\n') {
        writeln!(out, "{}", answer(&line?))?;
    }
    Ok(())
}
