//! Numbers, hours and classes, by their sets.

#[derive(Clone, Copy, PartialEq, Eq, Debug)]
pub struct Condition {
    pub form: u8,
    pub a: u32,
    pub b: u32,
}

const TOP: u32 = 999_999_999;
const DAY: u32 = 16_777_215;

/// The top code of a value letter.
pub fn top(letter: u8) -> Option<u32> {
    match letter {
        b'N' => Some(TOP),
        b'H' => Some(167),
        b'C' => Some(23),
        _ => None,
    }
}

/// The letter that a condition belongs to, if it is known.
pub fn letter(q: Condition) -> Option<u8> {
    match q.form {
        b'B' if q.a <= TOP && q.b <= TOP => Some(b'N'),
        b'X' if q.a <= TOP && q.b == 0 => Some(b'N'),
        b'W' if q.a <= 127 && q.b <= DAY => Some(b'H'),
        b'M' if q.a <= DAY && q.b == 0 => Some(b'C'),
        _ => None,
    }
}

/// Whether a code is in a known condition's set.
pub fn holds(q: Condition, code: u32) -> bool {
    let Some(l) = letter(q) else { return false };
    let Some(t) = top(l) else { return false };
    code <= t
        && match q.form {
            b'B' => q.a <= code && code <= q.b,
            b'X' => code != q.a,
            b'W' => (q.a >> (code / 24)) & 1 == 1 && (q.b >> (code % 24)) & 1 == 1,
            _ => (q.a >> code) & 1 == 1,
        }
}

/// The smallest value that meets all of the conditions. The smallest common code is 0, or a set begins there, or the code before
/// it is the one left out of a set; hours and classes are few enough to try each.
pub fn smallest(qs: &[Condition]) -> Option<(u8, u32)> {
    let l = letter(*qs.first()?)?;
    if qs.iter().any(|q| letter(*q) != Some(l)) {
        return None;
    }
    let mut codes: Vec<u32> = if l == b'N' {
        let mut codes = vec![0];
        for q in qs {
            codes.push(q.a);
            codes.push(q.a + 1);
        }
        codes
    } else {
        (0..=top(l)?).collect()
    };
    codes.sort_unstable();
    codes.into_iter().find(|c| qs.iter().all(|q| holds(*q, *c))).map(|c| (l, c))
}
