// The Rust's symbol_codec on the cases of crn_tables, for cases/tables.py. Built there beside a link `shared` to the folder that has docs/src.
// Input: as crn_tables reads it. Output: for each case a line with an entry for each operation: `n VALUE`, `t COUNT HASH`, `d NUMBER HASH`,
// or what ended the case: `refused`, `panicked`. Each segment is followed by bytes that do not belong to it: the Rust looks past a segment's end
// and panics where the file ends there too.
include!("the_rust.rs");
use crunch::crn_static_huffman_data_model::StaticHuffmanDataModel;
use crunch::crn_symbol_codec::symbol_codec;
use std::io::Read;
use std::panic::{catch_unwind, AssertUnwindSafe};

fn fnv(data: impl Iterator<Item = u8>) -> u64 {
    data.fold(0xcbf29ce484222325, |h, b| (h ^ b as u64).wrapping_mul(0x100000001b3))
}

fn main() {
    std::panic::set_hook(Box::new(|_| {}));
    let mut data = vec![];
    std::io::stdin().read_to_end(&mut data).unwrap();
    let mut at = 0;
    let mut take = |n: usize| { at += n; data[at - n..at].to_vec() };
    let number = |b: Vec<u8>| b.iter().rev().fold(0usize, |v, &x| v * 256 + x as usize);
    for _ in 0..number(take(4)) {
        let size = number(take(4));
        let mut segment = take(size);
        segment.extend([0xa5; 64]);
        let mut codec = symbol_codec::default();
        let mut model = StaticHuffmanDataModel::default();
        let mut said = vec![];
        let mut going = size > 0 && codec.start_decoding(&segment, size as u32);
        if !going { said.push("refused".to_string()); }
        for _ in 0..number(take(1)) {
            let (kind, argument) = (number(take(1)), number(take(4)));
            if !going { continue; }
            let answer = catch_unwind(AssertUnwindSafe(|| match kind {
                1 => codec.decode_bits(argument as u32).ok().map(|v| format!("n {v}")),
                2 => {
                    model = StaticHuffmanDataModel::default();
                    codec.decode_receive_static_data_model(&mut model).then(|| format!("t {} {:016x}", model.code_sizes.len(), fnv(model.code_sizes.iter().copied())))
                }
                _ => {
                    let mut symbols = vec![];
                    for _ in 0..argument {
                        match catch_unwind(AssertUnwindSafe(|| codec.decode(&model))) { Ok(Ok(s)) => symbols.push(s as u16), _ => break }
                    }
                    Some(format!("d {}{}", symbols.len(), symbols.iter().map(|s| format!(" {s}")).collect::<String>()))
                }
            }));
            match answer {
                Ok(Some(text)) => said.push(text),
                Ok(None) => { said.push("refused".into()); going = false; }
                Err(_) => { said.push("panicked".into()); going = false; }
            }
        }
        println!("{}", said.join("; "));
    }
}
