//! Calls of jl_lex.
use crate::fault::Fault;
use crate::words::{repeated, shown_units, shown_words, units_of};
use jl_lex::{LexRefusal, comments, lex};
use jl_text::List;
use jl_token::{Token, TokenKind, spelling};
use std::alloc::Global;

pub fn answer(alloc: Global, call: &str, source: &str) -> Result<String, Fault> {
    match call {
        "lex" => lexed(alloc, units_of(alloc, source)?.as_slice()),
        "comments" => commented(alloc, units_of(alloc, source)?.as_slice()),
        _ => of_long(alloc, call, source),
    }
}

/// A source that has one unit many times over between two texts.
fn of_long(alloc: Global, call: &str, source: &str) -> Result<String, Fault> {
    let words: Vec<&str> = source.split(' ').collect(alloc)?;
    let [before, unit, count, after] = words.as_slice() else {
        return Err(Fault::Unreadable);
    };
    let mut units = units_of(alloc, before)?;
    units.extend_from_slice(repeated(alloc, unit, count)?.as_slice())?;
    units.extend_from_slice(units_of(alloc, after)?.as_slice())?;
    match call {
        "long_lex" => counted(alloc, units.as_slice()),
        _ => Err(Fault::Unreadable),
    }
}

/// The tokens of the units, or where and why they have none.
fn tokens(alloc: Global, units: &[u16]) -> Result<Result<List<Token>, String>, Fault> {
    if units.len() > 4_000_000 {
        return Err(Fault::Unreadable);
    }
    match lex(alloc, units) {
        Ok(tokens) => Ok(Ok(tokens)),
        Err(LexRefusal::BadInput { at, kind }) => Ok(Err(format!(in alloc; "{kind:?}@{at}")?)),
        Err(LexRefusal::NoMemory) => Err(Fault::NoMemory),
    }
}

fn lexed(alloc: Global, units: &[u16]) -> Result<String, Fault> {
    match tokens(alloc, units)? {
        Ok(tokens) => {
            let mut words = Vec::new(alloc);
            for token in tokens.items() {
                words.push(shown(alloc, token)?)?;
            }
            shown_words(alloc, words)
        }
        Err(refusal) => Ok(refusal),
    }
}

/// The spans of the comments, after `/` where they go to the end of their line, and after `*` where not.
fn commented(alloc: Global, units: &[u16]) -> Result<String, Fault> {
    if units.len() > 4_000_000 {
        return Err(Fault::Unreadable);
    }
    let mut words = Vec::new(alloc);
    match comments(alloc, units) {
        Ok(found) => {
            for comment in &found {
                let mark = if comment.to_line_end { "/" } else { "*" };
                words.push(format!(in alloc; "{mark}{}-{}", comment.span.from, comment.span.to)?)?;
            }
        }
        Err(LexRefusal::BadInput { at, kind }) => words.push(format!(in alloc; "{kind:?}@{at}")?)?,
        Err(LexRefusal::NoMemory) => return Err(Fault::NoMemory),
    }
    shown_words(alloc, words)
}

/// A number alone, or else how many tokens there are.
fn counted(alloc: Global, units: &[u16]) -> Result<String, Fault> {
    match tokens(alloc, units)? {
        Ok(tokens) => match tokens.items() {
            [only] if matches!(&only.kind, TokenKind::Number(_)) => shown(alloc, only),
            many => Ok(format!(in alloc; "{}", many.len())?),
        },
        Err(refusal) => Ok(refusal),
    }
}

/// Its spelling and its span, `\` after a name with an escape or a string that isn't plain, `!` after a line break.
fn shown(alloc: Global, token: &Token) -> Result<String, Fault> {
    let spelled = shown_units(alloc, spelling(alloc, token)?.as_slice())?;
    let mark = match &token.kind {
        TokenKind::Name { escaped: true, .. } | TokenKind::Str { plain: false, .. } => "\\",
        _ => "",
    };
    let line = if token.line_before { "!" } else { "" };
    Ok(format!(in alloc;
        "{spelled}{mark}{line}@{}-{}",
        token.span.from, token.span.to
    )?)
}
