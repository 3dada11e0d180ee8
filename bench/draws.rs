// Draws of the proved crates and of the Rust's symbol_codec, in one process, on the same codes and bits. See bench/README.md.
include!("the_rust.rs");
use std::time::Instant;

mod random;

extern "C" {
    fn sum_of_draws(lengths: *const u8, count: usize, segment: *const u8, size: usize, n: usize) -> u64;
}

fn proved(lengths: &[u8], segment: &[u8], n: usize) -> u64 {
    unsafe { sum_of_draws(lengths.as_ptr(), lengths.len(), segment.as_ptr(), segment.len(), n) }
}

// The Rust's tables are built inside the time too, as the proved ones are.
fn rust(lengths: &[u8], segment: &[u8], n: usize) -> u64 {
    let mut model = crunch::crn_static_huffman_data_model::StaticHuffmanDataModel::default();
    model.code_sizes = lengths.to_vec();
    assert!(model.prepare_decoder_tables());
    let mut codec = crunch::crn_symbol_codec::symbol_codec::default();
    codec.start_decoding(segment, segment.len() as u32);
    (0..n).map(|_| codec.decode(&model).unwrap() as u64).sum()
}

// The best of many runs, the two sides by turns, so that neither has the machine to itself.
fn best(rounds: usize, mut sides: [&mut dyn FnMut() -> u64; 2]) -> [f64; 2] {
    let mut took = [f64::MAX; 2];
    let mut want = None;
    for _ in 0..rounds {
        for (k, side) in sides.iter_mut().enumerate() {
            let begun = Instant::now();
            let sum = side();
            took[k] = took[k].min(begun.elapsed().as_secs_f64());
            assert_eq!(*want.get_or_insert(sum), sum, "the sums of the symbols differ");
        }
    }
    took
}

fn main() {
    let mut random = random::numbers();
    // a code of `count` symbols, complete: leaves of a random tree, of which `lean` tries take the shallower
    let mut code = |count: usize, lean: usize| {
        let mut lengths = vec![0u8];
        while lengths.len() < count {
            let mut i = random() as usize % lengths.len();
            for _ in 1..lean {
                let j = random() as usize % lengths.len();
                if lengths[j] > lengths[i] {
                    i = j;
                }
            }
            if lengths[i] < 16 {
                lengths[i] += 1;
                lengths.push(lengths[i]);
            }
        }
        lengths
    };
    let codes = [(30, code(30, 1)), (300, code(300, 1)), (1000, code(1000, 2)), (3000, code(3000, 1)), (8000, code(8000, 1))];
    let mut y: u64 = 1234567;
    let segment: Vec<u8> = (0..2_000_000).map(|_| { y = y.wrapping_mul(6364136223846793005).wrapping_add(1442695040888963407); (y >> 56) as u8 }).collect();
    println!("| symbols | lengths | draws | the Rust, ns a symbol | proved, ns a symbol | times as fast |");
    println!("|---|---|---|---|---|---|");
    for (count, lengths) in &codes {
        for n in [1_000, 400_000] {
            let rounds = if n > 10_000 { 20 } else { 500 };
            let [r, p] = best(rounds, [&mut || rust(lengths, &segment, n), &mut || proved(lengths, &segment, n)]);
            println!("| {count} | {} to {} | {n} | {:.2} | {:.2} | {:.2} |", lengths.iter().min().unwrap(), lengths.iter().max().unwrap(), r / n as f64 * 1e9, p / n as f64 * 1e9, r / p);
        }
    }
}
