//! The grammar of the pattern text as it is worded, on lists of tokens: slow, by trying all splits.
//! A list of tokens can be completed if some short list behind it makes a whole text.

/// A whole pattern text: `ere`, `:`, an alternative, one or two handlers.
pub fn is_text(tokens: &[&str]) -> bool {
    if tokens.len() < 4 || tokens[0] != "ere" || tokens[1] != ":" {
        return false;
    }
    let handlers: [&[&str]; 4] = [&["@match"], &["@fail"], &["@match", "@fail"], &["@fail", "@match"]];
    handlers.iter().any(|handlers| tokens[2..].strip_suffix(*handlers).is_some_and(is_alternative))
}

/// Sequences separated by `|`.
fn is_alternative(tokens: &[&str]) -> bool {
    is_sequence(tokens) || bars(tokens).any(|i| is_sequence(&tokens[..i]) && is_alternative(&tokens[i + 1..]))
}

fn bars<'a>(tokens: &'a [&str]) -> impl Iterator<Item = usize> + 'a {
    (0..tokens.len()).filter(|&i| tokens[i] == "|")
}

/// Repetitions side by side.
fn is_sequence(tokens: &[&str]) -> bool {
    is_repetition(tokens) || (1..tokens.len()).any(|i| is_repetition(&tokens[..i]) && is_sequence(&tokens[i..]))
}

/// An atom and operators.
fn is_repetition(tokens: &[&str]) -> bool {
    match tokens {
        [front @ .., "*" | "+"] => is_repetition(front),
        _ => is_atom(tokens),
    }
}

fn is_atom(tokens: &[&str]) -> bool {
    match tokens {
        ["(", inside @ .., ")"] => is_alternative(inside),
        [name] => is_name(name),
        _ => false,
    }
}

pub fn is_name(token: &str) -> bool {
    token.as_bytes().first().is_some_and(u8::is_ascii_alphabetic)
}

/// Some text could complete these tokens: what is still missing is taken from the end of
/// `ere : a ) ... ) @match`, with as many `)` as there may be open.
pub fn can_be_completed(tokens: &[&str]) -> bool {
    (0..=tokens.len()).any(|closes| {
        let mut whole = vec!["ere", ":", "a"];
        whole.extend(vec![")"; closes]);
        whole.push("@match");
        (0..=whole.len()).any(|from| is_text(&[tokens, &whole[from..]].concat()))
    })
}

/// Some list of at most `length` tokens completes these.
pub fn completed_by_any(tokens: &[&str], length: usize) -> bool {
    const ALL: [&str; 9] = ["ere", ":", "a", "(", ")", "|", "*", "@match", "@fail"];
    is_text(tokens)
        || (length > 0 && ALL.iter().any(|token| completed_by_any(&[tokens, &[*token]].concat(), length - 1)))
}
