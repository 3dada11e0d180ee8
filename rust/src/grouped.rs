//! Numbers for people. The command has this file as a module of its own, so that it is no part of what the package offers.

/// A number with a comma after each three digits.
pub fn grouped(n: u64) -> String {
    let digits = n.to_string();
    let comma = |i: usize| i > 0 && (digits.len() - i).is_multiple_of(3);
    digits.char_indices().flat_map(|(i, digit)| comma(i).then_some(',').into_iter().chain([digit])).collect()
}
