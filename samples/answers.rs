// What the Rust crate unpacks of the sample files that are named: a line for each level, with the file, the level, the face, how many bytes and their hash (FNV-1a of
// 64 bits). Level 0 of one face is what `decode_crunch` hands to its block decoders. Of a cube map the Rust writes all faces over each other, from byte 4 on face 5.
include!("the_rust.rs");

fn hash(bytes: &[u8]) -> u64 {
    bytes.iter().fold(0xcbf29ce484222325, |h, b| (h ^ *b as u64).wrapping_mul(0x100000001b3))
}

fn main() {
    for path in std::env::args().skip(1) {
        let file = std::fs::read(&path).unwrap();
        let name = path.rsplit('/').next().unwrap();
        let (width, height) = (u16::from_be_bytes([file[12], file[13]]) as u32, u16::from_be_bytes([file[14], file[15]]) as u32);
        let (levels, faces) = (file[16] as u32, file[17] as u32);
        let bytes = if matches!(file[18], 0 | 9) { 8 } else { 16 };
        let mut crn = crunch::crn_decomp::crnd_unpack_begin(&file, file.len() as u32).ok().expect("the Rust opens it");
        for level in 0..levels {
            let blocks = |side: u32| ((side >> level).max(1) + 3) / 4;
            let pitch = blocks(width) * bytes;
            let mut unpacked = |extra: u32| crn.crnd_unpack_level(pitch * blocks(height) + extra, pitch, level).expect("the Rust unpacks it");
            let made = match (faces, level) {
                (1, 0) => {
                    crunch::decode_crunch(&file, width as usize, height as usize, &mut vec![0; (width * height) as usize]).expect("the Rust decodes it");
                    bcn::HANDED.take()
                }
                (1, _) => unpacked(0),
                _ => unpacked(4).split_off(4),
            };
            println!("{name} {level} {} {} {:016x}", faces - 1, made.len(), hash(&made));
        }
    }
}
