//! The search for the known word that is nearest to a misspelt one.

/// The end of a message about an unknown word: the nearest known one, or nothing if none is near.
pub fn did_you_mean<'a>(word: &str, known: impl IntoIterator<Item = &'a str>) -> String {
    match nearest(word, known) {
        Some(name) if name.eq_ignore_ascii_case(word) => format!("; did you mean `{name}`? Only the case differs"),
        Some(name) => format!("; did you mean `{name}`?"),
        None => String::new(),
    }
}

/// The known word with the fewest slips, if they are few for the word's length; of several one that
/// the word begins with, else the first.
fn nearest<'a>(word: &str, known: impl IntoIterator<Item = &'a str>) -> Option<&'a str> {
    const LONGEST: usize = 40;
    let length = word.chars().count();
    if length > LONGEST {
        return None;
    }
    let allowed = if length < 4 { 1 } else { 2 };
    // Each letter more or fewer is a slip: what is far longer or shorter need not be looked at.
    let known = known.into_iter();
    let alike = known.filter(|name| name.chars().count().abs_diff(length) <= allowed);
    let near = alike.map(|name| (slips(word, name), name));
    near.filter(|(slips, _)| *slips <= allowed)
        .min_by_key(|(slips, name)| (*slips, !begins_with(word, name)))
        .map(|(_, name)| name)
}

/// Whether a word begins with another; upper and lower case count as equal.
fn begins_with(word: &str, start: &str) -> bool {
    word.to_lowercase().starts_with(&start.to_lowercase())
}

/// How many letters to add, drop, change or swap with the next turn one word into the other; upper
/// and lower case count as equal.
fn slips(left: &str, right: &str) -> usize {
    let [left, right] = [left, right].map(|word| word.to_lowercase().chars().collect::<Vec<char>>());
    let mut before: Vec<usize> = Vec::new();
    let mut above: Vec<usize> = (0..=right.len()).collect();
    for row in 1..=left.len() {
        let mut here = vec![row];
        for column in 1..=right.len() {
            let changed = usize::from(left[row - 1] != right[column - 1]);
            let mut least = (above[column] + 1)
                .min(here[column - 1] + 1)
                .min(above[column - 1] + changed);
            let swapped =
                row > 1 && column > 1 && left[row - 1] == right[column - 2] && left[row - 2] == right[column - 1];
            if swapped {
                least = least.min(before[column - 2] + 1);
            }
            here.push(least);
        }
        before = above;
        above = here;
    }
    above[right.len()]
}

#[cfg(test)]
mod tests {
    use super::*;

    #[test]
    fn slips_are_counted() {
        let table = [
            ("", "", 0),
            ("", "abc", 3),
            ("share", "Share", 0),
            ("shre", "share", 1),
            ("sharee", "share", 1),
            ("shere", "share", 1),
            ("shaer", "share", 1),
            ("ahser", "share", 3),
            ("mvoi", "movi", 1),
            ("relinkwish", "relinquish", 2),
            ("abc", "xyz", 3),
        ];
        for (left, right, expected) in table {
            assert_eq!(slips(left, right), expected, "{left} {right}");
            assert_eq!(slips(right, left), expected, "{right} {left}");
        }
    }

    #[test]
    fn nearest_takes_the_fewest_slips_and_not_too_many() {
        assert_eq!(nearest("loop", ["lop", "loops", "loop"]), Some("loop"));
        assert_eq!(nearest("lopps", ["poops", "lops"]), Some("lops"));
        assert_eq!(nearest("relinkwish", ["Reclaim", "Relinquish"]), Some("Relinquish"));
        assert_eq!(nearest("relinkwisch", ["Relinquish"]), None, "three slips");
        assert_eq!(nearest("ab", ["at"]), Some("at"));
        assert_eq!(nearest("move", ["movi", "movt", "mov"]), Some("mov"));
        assert_eq!(nearest("Move", ["movi", "mov"]), Some("mov"));
        assert_eq!(nearest("movx", ["movi", "movt"]), Some("movi"), "the first");
        assert_eq!(nearest("looop", ["loo", "loop"]), Some("loop"), "fewer slips go before");
        assert_eq!(nearest("xy", ["at"]), None, "two slips in so short a word");
        assert_eq!(
            nearest(&"x".repeat(41), [&*"x".repeat(41)]),
            None,
            "so long a word is no slip"
        );
    }
}
