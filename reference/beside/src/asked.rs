//! What a run is asked for: `COUNT [SEED [LEAST [TELLING]]]`.

#[derive(Clone, Copy, PartialEq, Eq, Debug)]
pub struct Asked {
    /// How many seeds, from `seed` on.
    pub count: u64,
    pub seed: u64,
    /// So many have to be compared, so that no run passes on nothing.
    pub least: u64,
    /// And so many have to tell what the run is for.
    pub telling: u64,
}

impl Asked {
    /// None for words that are no numbers, or too many; or where nothing would have to be compared.
    pub fn parse(words: &[&str]) -> Option<Asked> {
        let number = |at: usize, default| {
            let word = words.get(at);
            word.map_or(Some(default), |word| word.parse().ok())
        };
        let count = words.first()?.parse().ok()?;
        let asked = Asked {
            count,
            seed: number(1, 1)?,
            least: number(2, count)?,
            telling: number(3, 0)?,
        };
        (asked.least > 0 && words.len() <= 4).then_some(asked)
    }
}

#[cfg(test)]
mod tests {
    use super::*;

    #[test]
    fn what_is_not_said() {
        let asked = |count, seed, least, telling| {
            Some(Asked {
                count,
                seed,
                least,
                telling,
            })
        };
        assert_eq!(Asked::parse(&["9"]), asked(9, 1, 9, 0));
        assert_eq!(Asked::parse(&["9", "8"]), asked(9, 8, 9, 0));
        assert_eq!(Asked::parse(&["9", "8", "7"]), asked(9, 8, 7, 0));
        assert_eq!(Asked::parse(&["9", "8", "7", "6"]), asked(9, 8, 7, 6));
    }

    #[test]
    fn what_is_refused() {
        for words in [
            &[][..],
            &["0"],
            &["9", "8", "0"],
            &["9", "8", "7", "6", "5"],
            &["x"],
            &["9", "x"],
            &["9", "8", "-1"],
        ] {
            assert_eq!(Asked::parse(words), None, "{words:?}");
        }
    }
}
