// Numbers without a pattern, the same in every run.
pub fn numbers() -> impl FnMut() -> u64 {
    let mut x: u64 = 88172645463325252;
    move || {
        x ^= x << 13;
        x ^= x >> 7;
        x ^= x << 17;
        x
    }
}
