//! Numbers out of `Debug` forms, where the Rust shows what it keeps private. A float's `Debug` form
//! reads back as the same float, the sign of zero included; only which NaN it was is lost.

use std::fmt::Debug;
use std::str::FromStr;

/// The numbers of each list that a form shows under this name, however deep the brackets of a list go.
pub fn lists<T>(form: &str, name: &str) -> Vec<Vec<T>>
where
    T: FromStr,
    T::Err: Debug,
{
    let head = format!("{name}: [");
    let behind = form.split(&head).skip(1);
    behind.map(|rest| numbers(inside(rest))).collect()
}

/// The numbers of the only list under this name.
pub fn list<T>(form: &str, name: &str) -> Vec<T>
where
    T: FromStr,
    T::Err: Debug,
{
    let mut lists = lists(form, name);
    assert_eq!(lists.len(), 1, "one {name} in {form}");
    lists.remove(0)
}

/// The numbers, each alone, that a form shows under this name.
pub fn places(form: &str, name: &str) -> Vec<usize> {
    let head = format!("{name}: ");
    let behind = form.split(&head).skip(1);
    let digits = behind.map(|rest| rest.split(|c: char| !c.is_ascii_digit()).next());
    digits
        .map(|number| number.and_then(|n| n.parse().ok()).expect("a number"))
        .collect()
}

/// What stands before the bracket that closes a list.
fn inside(rest: &str) -> &str {
    let mut open = 1;
    for (place, c) in rest.bytes().enumerate() {
        match c {
            b'[' => open += 1,
            b']' => open -= 1,
            _ => {}
        }
        if open == 0 {
            return &rest[..place];
        }
    }
    panic!("a list that does not end: {rest}")
}

fn numbers<T>(list: &str) -> Vec<T>
where
    T: FromStr,
    T::Err: Debug,
{
    list.split(|c| "[], ".contains(c))
        .filter(|number| !number.is_empty())
        .map(|number| number.parse().expect("a list of numbers"))
        .collect()
}

#[cfg(test)]
mod tests {
    use super::{list, lists, places};

    #[test]
    fn every_float_comes_back() {
        let given = [[0.0, -0.0], [5e-324, f64::INFINITY], [-1e300, 0.1]];
        let form = format!("T {{ of: {given:?}, at: 12 }}");
        let back: Vec<f64> = list(&form, "of");
        let same = given
            .concat()
            .iter()
            .zip(&back)
            .all(|(a, b)| a.to_bits() == b.to_bits());
        assert!(same && back.len() == 6);
        assert_eq!(places(&form, "at"), [12]);
        assert!(lists::<f64>("x: [NaN], x: [1.0]", "x")[0][0].is_nan());
    }
}
