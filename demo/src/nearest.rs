//! What a misspelt word was meant to be.

/// The known word that is at most two letters away, where just one is nearest.
pub fn nearest<'a>(word: &str, known: impl Iterator<Item = &'a str>) -> Option<&'a str> {
    let limit = if word.len() < 4 { 1 } else { 2 };
    let mut best: Option<(usize, &str, bool)> = None;
    for name in known.filter(|name| name.len().abs_diff(word.len()) <= limit) {
        let away = distance(word.as_bytes(), name.as_bytes(), limit);
        best = match best {
            Some(kept) if kept.0 < away => Some(kept),
            Some((least, kept, _)) if least == away => Some((least, kept, true)),
            _ => Some((away, name, false)),
        };
    }
    best.filter(|(away, _, several)| (1..=limit).contains(away) && !several)
        .map(|(_, name, _)| name)
}

/// Letters to add, to leave out or to change, where they are at most `limit`, else more than that; two that changed
/// places count once. As keys can be long, a row has only the places of `b` that are at most `limit` off.
fn distance(a: &[u8], b: &[u8], limit: usize) -> usize {
    let beyond = vec![limit + 1; 2 * limit + 3];
    let mut rows = [beyond.clone(), beyond.clone(), beyond.clone()];
    for i in 0..=a.len() {
        rows.rotate_left(1);
        rows[2].clone_from(&beyond);
        for j in i.saturating_sub(limit)..=(i + limit).min(b.len()) {
            rows[2][j + limit + 1 - i] = step(a, b, (i, j), &rows, j + limit + 1 - i);
        }
    }
    rows[2][b.len() + limit + 1 - a.len()]
}

/// The distance of the first `i` letters from the first `j`, which stand at `place`, from shorter ones.
fn step(a: &[u8], b: &[u8], (i, j): (usize, usize), rows: &[Vec<usize>; 3], place: usize) -> usize {
    if i == 0 || j == 0 {
        return i + j;
    }
    let [two_before, before, row] = rows;
    let changed = before[place] + usize::from(a[i - 1] != b[j - 1]);
    let least = changed.min(before[place + 1] + 1).min(row[place - 1] + 1);
    if i > 1 && j > 1 && a[i - 1] == b[j - 2] && a[i - 2] == b[j - 1] {
        least.min(two_before[place] + 1)
    } else {
        least
    }
}

#[cfg(test)]
mod tests {
    use super::*;

    #[test]
    fn one_is_meant() {
        let known = ["match", "admit", "pen-01", "pen-02"];
        let meant = |word| nearest(word, known.into_iter());
        assert_eq!(meant("mtach"), Some("match"));
        assert_eq!(meant("admitt"), Some("admit"));
        assert_eq!(meant("pen-03"), None);
        assert_eq!(meant("pen-01"), None);
        assert_eq!(meant("something"), None);
    }

    /// The same by recursion.
    fn slowly(a: &[u8], b: &[u8]) -> usize {
        let ([a_rest @ .., x], [b_rest @ .., y]) = (a, b) else {
            return a.len() + b.len();
        };
        let changed = slowly(a_rest, b_rest) + usize::from(x != y);
        let least = changed.min(slowly(a_rest, b) + 1).min(slowly(a, b_rest) + 1);
        match (a_rest, b_rest) {
            ([a_rest @ .., v], [b_rest @ .., w]) if v == y && w == x => {
                least.min(slowly(a_rest, b_rest) + 1)
            }
            _ => least,
        }
    }

    /// All words of up to four of three letters.
    fn words() -> Vec<Vec<u8>> {
        let mut words = vec![Vec::new()];
        for place in 0..40 {
            let longer = |letter| [&words[place][..], &[letter]].concat();
            let longer = b"abc".map(longer);
            words.extend(longer);
        }
        words
    }

    #[test]
    fn every_pair_of_short_words() {
        let words = words();
        assert_eq!(words.last().map(Vec::len), Some(4));
        for (a, b) in words.iter().flat_map(|a| words.iter().map(move |b| (a, b))) {
            let off = a.len().abs_diff(b.len());
            for limit in [1, 2].into_iter().filter(|limit| off <= *limit) {
                let most = |distance: usize| distance.min(limit + 1);
                assert_eq!(most(distance(a, b, limit)), most(slowly(a, b)), "{a:?} {b:?}");
            }
        }
    }

    /// Names of the largest size, without a table of all their letters.
    #[test]
    fn long_names_are_compared() {
        let name = |ends: [u8; 2]| [&ends[..1], &[b'-'; 4_094], &ends[1..]].concat();
        assert_eq!(distance(&name(*b"ab"), &name(*b"ab"), 2), 0);
        assert_eq!(distance(&name(*b"ab"), &name(*b"ac"), 2), 1);
        assert_eq!(distance(&name(*b"ab"), &name(*b"cd"), 2), 2);
        assert_eq!(distance(&name(*b"ab"), &name(*b"ab")[1..4_095], 2), 2);
    }
}
