//! Which items of two lists belong together: as many as possible, in order.

/// More cells than this are not searched; what differs then counts as replaced.
const MOST_CELLS: usize = 1 << 24;

/// Pairs of places of equal items, both ascending.
pub fn align<T: PartialEq>(old: &[T], new: &[T]) -> Vec<(usize, usize)> {
    let before = old.iter().zip(new).take_while(|(one, two)| one == two).count();
    let (old_rest, new_rest) = (&old[before..], &new[before..]);
    let after = old_rest.iter().rev().zip(new_rest.iter().rev()).take_while(|(one, two)| one == two).count();
    let old_middle = &old_rest[..old_rest.len() - after];
    let new_middle = &new_rest[..new_rest.len() - after];
    let mut pairs: Vec<(usize, usize)> = (0..before).map(|at| (at, at)).collect();
    let middle = longest(old_middle, new_middle);
    pairs.extend(middle.into_iter().map(|(one, two)| (one + before, two + before)));
    let ends = (old.len() - after, new.len() - after);
    pairs.extend((0..after).map(|at| (ends.0 + at, ends.1 + at)));
    pairs
}

/// A longest common subsequence.
fn longest<T: PartialEq>(old: &[T], new: &[T]) -> Vec<(usize, usize)> {
    let wide = new.len() + 1;
    if old.is_empty() || new.is_empty() || (old.len() + 1).saturating_mul(wide) > MOST_CELLS {
        return Vec::new();
    }
    let best = lengths(old, new);
    let (mut one, mut two, mut pairs) = (0, 0, Vec::new());
    while one < old.len() && two < new.len() {
        if old[one] == new[two] {
            pairs.push((one, two));
            (one, two) = (one + 1, two + 1);
        } else if best[(one + 1) * wide + two] >= best[one * wide + two + 1] {
            one += 1;
        } else {
            two += 1;
        }
    }
    pairs
}

/// How long a common subsequence can be from each pair of places on, row by row.
fn lengths<T: PartialEq>(old: &[T], new: &[T]) -> Vec<u32> {
    let wide = new.len() + 1;
    let mut best = vec![0u32; (old.len() + 1) * wide];
    let cells = (0..old.len()).rev().flat_map(|one| (0..new.len()).rev().map(move |two| (one, two)));
    for (one, two) in cells {
        best[one * wide + two] = if old[one] == new[two] {
            best[(one + 1) * wide + two + 1] + 1
        } else {
            best[(one + 1) * wide + two].max(best[one * wide + two + 1])
        };
    }
    best
}

/// Items that do not belong together: runs of both lists between two pairs.
#[derive(Clone, Debug, PartialEq, Eq)]
pub struct Hunk {
    pub old: std::ops::Range<usize>,
    pub new: std::ops::Range<usize>,
}

/// The runs between the pairs, where there is something.
pub fn hunks(pairs: &[(usize, usize)], old: usize, new: usize) -> Vec<Hunk> {
    let mut out = Vec::new();
    let mut next = (0, 0);
    for &(one, two) in pairs.iter().chain([&(old, new)]) {
        if (one, two) != next {
            out.push(Hunk { old: next.0..one, new: next.1..two });
        }
        next = (one + 1, two + 1);
    }
    out
}

#[cfg(test)]
mod tests {
    use super::*;

    fn changed(old: &str, new: &str) -> Vec<(String, String)> {
        let (old, new): (Vec<char>, Vec<char>) = (old.chars().collect(), new.chars().collect());
        let pairs = align(&old, &new);
        assert!(pairs.iter().all(|&(one, two)| old[one] == new[two]));
        let text = |list: &[char]| list.iter().collect::<String>();
        hunks(&pairs, old.len(), new.len())
            .iter()
            .map(|h| (text(&old[h.old.clone()]), text(&new[h.new.clone()])))
            .collect()
    }

    #[test]
    fn what_differs_is_found() {
        let pair = |old: &str, new: &str| (old.to_string(), new.to_string());
        assert_eq!(changed("abc", "abc"), []);
        assert_eq!(changed("abc", "axc"), [pair("b", "x")]);
        assert_eq!(changed("abcd", "bcxd"), [pair("a", ""), pair("", "x")]);
        assert_eq!(changed("", "ab"), [pair("", "ab")]);
        assert_eq!(changed("aab", "ab"), [pair("a", "")]);
    }
}
