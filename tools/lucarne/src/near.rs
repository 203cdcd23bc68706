//! The nearest known name to a word that nobody knows.

/// How many letters must be put in, taken out, changed or swapped with the next one to get from one word to the other.
pub fn distance(one: &str, other: &str) -> usize {
    let (one, other): (Vec<char>, Vec<char>) = (one.chars().collect(), other.chars().collect());
    let mut rows: Vec<Vec<usize>> = vec![(0..=other.len()).collect()];
    for (i, a) in one.iter().enumerate() {
        let mut row = vec![i + 1];
        for (j, b) in other.iter().enumerate() {
            let changed = rows[i][j] + usize::from(a != b);
            let is_swapped = i > 0 && j > 0 && a == &other[j - 1] && b == &one[i - 1];
            let swapped = if is_swapped { rows[i - 1][j - 1] + 1 } else { changed };
            row.push(changed.min(swapped).min(row[j] + 1).min(rows[i][j + 1] + 1));
        }
        rows.push(row);
    }
    rows[one.len()][other.len()]
}

/// The known name that is nearest, if it is near at all: up to a third of the letters differ.
pub fn nearest<'a>(word: &str, known: impl Iterator<Item = &'a str>) -> Option<&'a str> {
    let small = word.to_lowercase();
    let far = word.chars().count() / 3 + 1;
    let apart = |name: &str| distance(&small, &name.to_lowercase());
    known.map(|name| (apart(name), name)).filter(|&(apart, _)| apart <= far).min_by_key(|&(apart, _)| apart).map(|(_, name)| name)
}

/// "is it NAME?" for the nearest known name, or what to do otherwise.
pub fn hint<'a>(word: &str, known: impl Iterator<Item = &'a str>, otherwise: &str) -> String {
    nearest(word, known).map_or(otherwise.to_string(), |name| format!("is it {}?", name))
}
