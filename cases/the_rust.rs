// The Rust of texture2ddecoder 0.1.2, unchanged, found by a link `shared` beside this file.
#[path = "shared/docs/src/src"]
mod texture2ddecoder {
    pub(crate) mod crnlib;
    pub(crate) mod crunch;
    pub(crate) mod macros;
}
pub(crate) use texture2ddecoder::{crnlib, crunch, macros};
// In place of the crate's block decoders: they keep the blocks that they are handed.
mod bcn {
    thread_local!(pub static HANDED: std::cell::RefCell<Vec<u8>> = const { std::cell::RefCell::new(Vec::new()) });
    macro_rules! kept {
        ($($n:ident)*) => { $(pub fn $n(blocks: &[u8], _: usize, _: usize, _: &mut [u32]) -> Result<(), &'static str> { HANDED.set(blocks.to_vec()); Ok(()) })* };
    }
    kept!(decode_bc1 decode_bc3 decode_bc4 decode_bc5);
}
