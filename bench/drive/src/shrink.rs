//! Makes a list shorter as long as it keeps a property.

/// A list that still has the property, and loses it when any single item is left out.
pub fn shrink<T: Copy>(list: &[T], keeps: impl Fn(&[T]) -> bool) -> Vec<T> {
    let mut list = list.to_vec();
    let mut piece = list.len().div_ceil(2);
    while piece > 0 {
        let mut from = 0;
        let before = list.len();
        while from < list.len() {
            let mut fewer = list.clone();
            fewer.drain(from..list.len().min(from + piece));
            if keeps(&fewer) {
                list = fewer;
            } else {
                from += piece;
            }
        }
        // What could not go at first may be able to go without the others that went since.
        if piece > 1 || list.len() == before {
            piece /= 2;
        }
    }
    list
}

#[cfg(test)]
mod tests {
    use super::shrink;

    #[test]
    fn keeps_what_is_needed() {
        let list: Vec<u32> = (0..1000).collect();
        let short = shrink(&list, |list| list.contains(&17) && list.contains(&900));
        assert_eq!(short, [17, 900]);
    }
}
