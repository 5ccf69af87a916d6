//! Names that a mistyped word may mean.

/// Words that ask for the name that is one letter away, where there is one.
pub fn meant<'a>(word: &str, mut names: impl Iterator<Item = &'a str>) -> String {
    let near = names.find(|name| is_near(word.as_bytes(), name.as_bytes()));
    near.map_or(String::new(), |name| format!(" (did you mean {name}?)"))
}

/// One letter is more, missing or another, or two are exchanged.
fn is_near(word: &[u8], name: &[u8]) -> bool {
    let same = word.iter().zip(name).take_while(|(one, other)| one == other).count();
    match (&word[same..], &name[same..]) {
        ([_, word @ ..], [_, name @ ..]) if word == name => true,
        ([a, b, word @ ..], [c, d, name @ ..]) if (a, b, word) == (d, c, name) => true,
        ([_, rest @ ..], name) if rest == name => true,
        (word, [_, rest @ ..]) => rest == word,
        _ => false,
    }
}

#[cfg(test)]
mod tests {
    use super::*;

    #[test]
    fn one_letter_away() {
        for word in ["chek", "checkk", "chock", "hceck", "chec"] {
            assert_eq!(meant(word, ["search", "check"].into_iter()), " (did you mean check?)");
        }
        for word in ["", "juggle", "chk", "chcek2"] {
            assert_eq!(meant(word, ["search", "check"].into_iter()), "", "{word}");
        }
    }
}
