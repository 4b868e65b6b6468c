//! The shortest list found that still shows a difference.

/// Drops elements of `list`, in runs of ever fewer down to single ones, as long as the rest still `differs`.
pub fn shortest<T: Clone>(list: &[T], differs: impl Fn(&[T]) -> bool) -> Vec<T> {
    let mut list = list.to_vec();
    let mut run = list.len().div_ceil(2);
    while run > 0 {
        let mut dropped = false;
        let mut at = 0;
        while at < list.len() {
            let end = (at + run).min(list.len());
            let rest = [&list[..at], &list[end..]].concat();
            if differs(&rest) {
                list = rest;
                dropped = true;
            } else {
                at = end;
            }
        }
        // Single ones are tried again until none can go.
        if run > 1 {
            run /= 2;
        } else if !dropped {
            run = 0;
        }
    }
    list
}

#[cfg(test)]
mod tests {
    use super::shortest;

    #[test]
    fn keeps_what_is_needed_and_no_more() {
        let list: Vec<u32> = (0..1000).collect();
        let both = |list: &[u32]| list.contains(&17) && list.contains(&803);
        assert_eq!(shortest(&list, both), [17, 803]);
        let odd = |list: &[u32]| list.iter().sum::<u32>() % 2 == 1;
        assert_eq!(shortest(&list[..2], odd), [1]);
        assert_eq!(shortest(&list, |_| true), []);
    }
}
