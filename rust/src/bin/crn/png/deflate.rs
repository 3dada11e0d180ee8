//! zlib streams (RFC 1950) of deflate blocks (RFC 1951): matches are found by chains of places whose bytes have one hash, and each block is
//! written in the shortest of three ways. What it keeps does not grow with the stream.
use std::cmp::Reverse;
use std::collections::BinaryHeap;

/// A match reaches back so far at most.
const WINDOW: usize = 1 << 15;
/// The bytes of a block: no more can be stored as they are.
pub const BLOCK: usize = 65_535;
/// A match is of so many bytes; shorter ones are not looked for, though deflate has them.
const SHORTEST: usize = 4;
const LONGEST: usize = 258;
/// After so many places no better match is looked for, nor after one of this length.
const TRIES: usize = 16;
const ENOUGH: usize = 64;

const HASH_BITS: u32 = 15;

/// The symbol that ends a block; those above it are lengths.
const END: usize = 256;
const SYMBOLS: usize = 286;
const DISTANCES: usize = 30;
/// The order in which the lengths of the code for lengths come.
const ORDER: [usize; 19] = [16, 17, 18, 0, 8, 7, 9, 6, 10, 5, 11, 4, 12, 3, 13, 2, 14, 1, 15];

/// Bits that come one after another, each byte's lowest first.
#[derive(Clone, Default)]
struct Bits {
    out: Vec<u8>,
    held: u64,
    count: u32,
}

impl Bits {
    fn put(&mut self, value: usize, bits: u32) {
        self.held |= (value as u64) << self.count;
        self.count += bits;
        while self.count >= 8 {
            self.out.push(self.held as u8);
            self.held >>= 8;
            self.count -= 8;
        }
    }

    /// The rest of a byte that has begun is zeros.
    fn whole_byte(&mut self) {
        self.put(0, (8 - self.count) % 8);
    }
}

/// A literal byte (the distance is 0, and the length the byte), or a match.
#[derive(Clone, Copy)]
struct Token {
    length: u16,
    distance: u16,
}

const NO_MATCH: Token = Token { length: 0, distance: 0 };

/// A number as deflate sends lengths and distances: a symbol that has its first bits, how many bits follow, and these.
fn split(number: usize, first: u32) -> (usize, u32, usize) {
    if number < 2 << first {
        return (number, 0, 0);
    }
    let bits = number.ilog2() - first;
    (((bits as usize) << first) + (number >> bits), bits, number % (1 << bits))
}

fn split_length(length: u16) -> (usize, u32, usize) {
    // the longest has a symbol of its own
    if length as usize == LONGEST {
        return (SYMBOLS - 1, 0, 0);
    }
    let (symbol, bits, rest) = split(length as usize - 3, 2);
    (END + 1 + symbol, bits, rest)
}

fn split_distance(distance: u16) -> (usize, u32, usize) {
    split(distance as usize - 1, 1)
}

/// A prefix code: of each symbol the length, 0 for one that has no code, and the bits, the first of them lowest.
struct Code {
    lengths: Vec<u8>,
    bits: Vec<u16>,
}

impl Code {
    /// The code of these lengths: shorter ones come first, and of one length those of lower symbols.
    fn of(lengths: Vec<u8>) -> Code {
        let mut bits = vec![0; lengths.len()];
        let mut next = 0u16;
        for length in 1..=15 {
            next <<= 1;
            for symbol in (0..lengths.len()).filter(|symbol| lengths[*symbol] == length) {
                bits[symbol] = next.reverse_bits() >> (16 - length);
                next = next.wrapping_add(1);
            }
        }
        Code { lengths, bits }
    }

    /// Huffman's code for symbols that come so often, of `most` bits at most: counts are halved until it is.
    fn fitted(counts: &[u32], most: u8) -> Code {
        let mut counts = counts.to_vec();
        loop {
            let lengths = depths(&counts);
            if lengths.iter().all(|length| *length <= most) {
                return Code::of(lengths);
            }
            counts.iter_mut().for_each(|count| *count = count.div_ceil(2));
        }
    }

    /// The codes that need no table in the stream: for literals and lengths, and for distances.
    fn fixed() -> [Code; 2] {
        let length = |symbol| match symbol {
            0..144 => 8,
            144..256 => 9,
            256..280 => 7,
            _ => 8,
        };
        [Code::of((0..288).map(length).collect()), Code::of(vec![5; DISTANCES])]
    }

    fn put(&self, bits: &mut Bits, symbol: usize) {
        bits.put(self.bits[symbol] as usize, self.lengths[symbol] as u32);
    }

    /// How many bits symbols take that come so often.
    fn cost(&self, counts: &[u32]) -> usize {
        counts.iter().zip(&self.lengths).map(|(count, length)| *count as usize * *length as usize).sum()
    }
}

/// How deep each symbol stands in Huffman's tree; one that is alone has a bit nevertheless.
fn depths(counts: &[u32]) -> Vec<u8> {
    let used = |symbol: &usize| counts[*symbol] > 0;
    let mut heap: BinaryHeap<_> = (0..counts.len()).filter(used).map(|symbol| Reverse((counts[symbol], symbol))).collect();
    // nodes behind the symbols, each above two that were there before
    let mut above = vec![0; counts.len()];
    while let (Some(Reverse((a, left))), Some(Reverse((b, right)))) = (heap.pop(), heap.pop()) {
        (above[left], above[right]) = (above.len(), above.len());
        heap.push(Reverse((a + b, above.len())));
        above.push(0);
    }
    let mut depths = vec![0; above.len()];
    for node in (0..above.len()).rev().filter(|node| above[*node] > 0) {
        depths[node] = depths[above[node]] + 1;
    }
    depths.truncate(counts.len());
    (0..counts.len()).filter(used).for_each(|symbol| depths[symbol] = depths[symbol].max(1));
    depths
}

/// Lengths of codes as they are sent: symbols, each with a number and its bits. 16 repeats the length before it, 17 and 18 are zeros.
fn runs(lengths: &[u8]) -> Vec<(usize, usize, u32)> {
    let (mut out, mut at) = (Vec::new(), 0);
    while at < lengths.len() {
        let length = lengths[at];
        let run = lengths[at..].iter().take_while(|other| **other == length).count();
        let (symbol, least, bits) = match length {
            0 if run >= 11 => (18, 11, 7),
            0 if run >= 3 => (17, 3, 3),
            1.. if run >= 3 && at > 0 && lengths[at - 1] == length => (16, 3, 2),
            _ => (length as usize, 1, 0),
        };
        let taken = run.min(least + (1 << bits) - 1);
        out.push((symbol, taken - least, bits));
        at += taken;
    }
    out
}

/// How many of these there are up to the last that is not 0; `least` of them at least.
fn needed(lengths: &[u8], least: usize) -> usize {
    lengths.iter().rposition(|length| *length > 0).map_or(0, |last| last + 1).max(least)
}

/// A block's own codes, and the table that tells them.
struct Table {
    codes: [Code; 2],
    counts: [usize; 2],
    runs: Vec<(usize, usize, u32)>,
    of_runs: Code,
    order: usize,
}

impl Table {
    fn new(symbols: &[u32], distances: &[u32]) -> Table {
        let codes = [Code::fitted(symbols, 15), Code::fitted(distances, 15)];
        let counts = [needed(&codes[0].lengths, END + 1), needed(&codes[1].lengths, 1)];
        let runs = runs(&[&codes[0].lengths[..counts[0]], &codes[1].lengths[..counts[1]]].concat());
        let mut often = [0; ORDER.len()];
        runs.iter().for_each(|run| often[run.0] += 1);
        let of_runs = Code::fitted(&often, 7);
        let order = needed(&ORDER.map(|symbol| of_runs.lengths[symbol]), 4);
        Table { codes, counts, runs, of_runs, order }
    }

    fn cost(&self) -> usize {
        let run = |run: &(usize, usize, u32)| self.of_runs.lengths[run.0] as usize + run.2 as usize;
        14 + 3 * self.order + self.runs.iter().map(run).sum::<usize>()
    }

    fn put(&self, bits: &mut Bits) {
        bits.put(self.counts[0] - (END + 1), 5);
        bits.put(self.counts[1] - 1, 5);
        bits.put(self.order - 4, 4);
        ORDER[..self.order].iter().for_each(|symbol| bits.put(self.of_runs.lengths[*symbol] as usize, 3));
        for (symbol, number, count) in &self.runs {
            self.of_runs.put(bits, *symbol);
            bits.put(*number, *count);
        }
    }
}

/// The sum of all bytes that ends a zlib stream.
#[derive(Clone)]
struct Adler(u32, u32);

impl Adler {
    fn add(&mut self, bytes: &[u8]) {
        // so many can be added before the second sum is too large for its type
        for bytes in bytes.chunks(5552) {
            for byte in bytes {
                self.0 += *byte as u32;
                self.1 += self.0;
            }
            self.0 %= 65_521;
            self.1 %= 65_521;
        }
    }
}

/// A zlib stream that is being written.
#[derive(Clone)]
pub struct Zlib {
    bits: Bits,
    sum: Adler,
    /// The bytes that a match may reach back to, and then those of a block that is being written.
    bytes: Vec<u8>,
    /// The first of `bytes` by its place in the stream. Places are counted modulo 2^32, for their distances alone.
    first: u32,
    /// How many of `bytes` are in the chains. `heads` has the last place of each hash, `links` the one before each place of the window.
    chained: usize,
    heads: Vec<u32>,
    links: Vec<u32>,
}

impl Zlib {
    pub fn new() -> Zlib {
        Zlib {
            bits: Bits { out: vec![0x78, 0x9C], ..Bits::default() },
            sum: Adler(1, 0),
            bytes: Vec::with_capacity(WINDOW + BLOCK),
            first: 0,
            chained: 0,
            heads: vec![0; 1 << HASH_BITS],
            links: vec![0; WINDOW],
        }
    }

    /// Writes bytes, as one block if they are no more than fit into one.
    pub fn write(&mut self, bytes: &[u8]) {
        self.sum.add(bytes);
        bytes.chunks(BLOCK).for_each(|bytes| self.block(bytes));
    }

    /// Ends the stream, by a block of nothing that is the last.
    pub fn finish(&mut self) {
        self.bits.put(0b011, 3);
        put_all(&mut self.bits, &[], &Code::fixed());
        self.bits.whole_byte();
        self.bits.out.extend(((self.sum.1 << 16) + self.sum.0).to_be_bytes());
    }

    /// What there is of the stream so far, for the caller to take away.
    pub fn out(&mut self) -> &mut Vec<u8> {
        &mut self.bits.out
    }

    /// Writes a block, in the shortest way, and keeps what matches may reach back to.
    fn block(&mut self, bytes: &[u8]) {
        let tokens = self.tokens(bytes);
        let (mut symbols, mut distances, mut extra) = ([0; SYMBOLS], [0; DISTANCES], 0);
        symbols[END] = 1;
        for token in &tokens {
            if token.distance == 0 {
                symbols[token.length as usize] += 1;
                continue;
            }
            let ((length, a, _), (distance, b, _)) = (split_length(token.length), split_distance(token.distance));
            symbols[length] += 1;
            distances[distance] += 1;
            extra += (a + b) as usize;
        }
        let cost = |codes: &[Code; 2]| codes[0].cost(&symbols) + codes[1].cost(&distances) + extra;
        let (fixed, table) = (Code::fixed(), Table::new(&symbols, &distances));
        let ways = [8 * (4 + bytes.len()), cost(&fixed), table.cost() + cost(&table.codes)];
        if ways[0] < ways[1].min(ways[2]) {
            self.bits.put(0b000, 3);
            self.bits.whole_byte();
            self.bits.out.extend((bytes.len() as u16).to_le_bytes());
            self.bits.out.extend((!bytes.len() as u16).to_le_bytes());
            self.bits.out.extend(bytes);
        } else if ways[1] <= ways[2] {
            self.bits.put(0b010, 3);
            put_all(&mut self.bits, &tokens, &fixed);
        } else {
            self.bits.put(0b100, 3);
            table.put(&mut self.bits);
            put_all(&mut self.bits, &tokens, &table.codes);
        }
        let gone = self.bytes.len().saturating_sub(WINDOW);
        self.bytes.drain(..gone);
        self.first = self.first.wrapping_add(gone as u32);
        self.chained -= gone;
    }

    /// The next bytes as literals and matches. A match gives way to a longer one that begins a byte later.
    fn tokens(&mut self, bytes: &[u8]) -> Vec<Token> {
        let (mut tokens, mut at) = (Vec::new(), self.bytes.len());
        self.bytes.extend_from_slice(bytes);
        let mut found = self.longest(at);
        while at < self.bytes.len() {
            let next = if (found.length as usize) < ENOUGH { self.longest(at + 1) } else { NO_MATCH };
            if found.length > 0 && found.length >= next.length {
                tokens.push(found);
                at += found.length as usize;
                found = self.longest(at);
            } else {
                tokens.push(Token { length: self.bytes[at] as u16, distance: 0 });
                at += 1;
                found = next;
            }
        }
        tokens
    }

    fn hash(&self, at: usize) -> usize {
        let bytes: [u8; SHORTEST] = self.bytes[at..at + SHORTEST].try_into().expect("so many");
        (u32::from_le_bytes(bytes).wrapping_mul(0x9E37_79B1) >> (32 - HASH_BITS)) as usize
    }

    /// Puts all bytes before this one into the chains, as far as they have enough behind them.
    fn chain(&mut self, to: usize) {
        for at in self.chained..to.min((self.bytes.len() + 1).saturating_sub(SHORTEST)) {
            let (hash, place) = (self.hash(at), self.first.wrapping_add(at as u32));
            self.links[place as usize % WINDOW] = std::mem::replace(&mut self.heads[hash], place);
            self.chained = at + 1;
        }
    }

    /// The longest match that was found for the bytes here, if any.
    fn longest(&mut self, at: usize) -> Token {
        self.chain(at);
        let mut best = NO_MATCH;
        let here = &self.bytes[at.min(self.bytes.len())..];
        let here = &here[..here.len().min(LONGEST)];
        if here.len() < SHORTEST {
            return best;
        }
        let place = self.first.wrapping_add(at as u32);
        let (mut other, mut before) = (self.heads[self.hash(at)], 0);
        for _ in 0..TRIES {
            // a chain's places lie further and further back; what is none of them was written over
            let distance = place.wrapping_sub(other) as usize;
            if distance <= before || distance > at.min(WINDOW) {
                break;
            }
            let there = &self.bytes[at - distance..];
            let longest = best.length as usize;
            if there[longest] == here[longest] {
                let length = here.iter().zip(there).take_while(|(a, b)| a == b).count();
                if length > longest && length >= SHORTEST {
                    best = Token { length: length as u16, distance: distance as u16 };
                    if length >= ENOUGH.min(here.len()) {
                        break;
                    }
                }
            }
            (other, before) = (self.links[other as usize % WINDOW], distance);
        }
        best
    }
}

fn put_all(bits: &mut Bits, tokens: &[Token], [symbols, distances]: &[Code; 2]) {
    for token in tokens {
        if token.distance == 0 {
            symbols.put(bits, token.length as usize);
            continue;
        }
        for (code, (symbol, count, rest)) in [(symbols, split_length(token.length)), (distances, split_distance(token.distance))] {
            code.put(bits, symbol);
            bits.put(rest, count);
        }
    }
    symbols.put(bits, END);
}

#[cfg(test)]
mod tests {
    use super::*;
    use std::io::Write;
    use std::process::{Command, Stdio};

    /// The stream of bytes that come at once, or in pieces of any size up to one.
    fn zlib(bytes: &[u8], most: usize) -> Vec<u8> {
        let (mut zlib, mut rest, mut roll) = (Zlib::new(), bytes, dice(7));
        while !rest.is_empty() {
            let (now, later) = rest.split_at(if most < rest.len() { roll(most) } else { rest.len() });
            zlib.write(now);
            rest = later;
        }
        zlib.finish();
        std::mem::take(zlib.out())
    }

    /// The streams of all of these, which Python's zlib reads back.
    fn read_back(all: &[Vec<u8>], most: usize) -> Vec<Vec<u8>> {
        let streams: Vec<Vec<u8>> = all.iter().map(|bytes| zlib(bytes, most)).collect();
        let program = "import sys, zlib\n\
            rest = sys.stdin.buffer.read()\n\
            while rest:\n \
            stream = zlib.decompressobj()\n \
            bytes = stream.decompress(rest)\n \
            assert stream.eof\n \
            sys.stdout.buffer.write(len(bytes).to_bytes(4, 'little') + bytes)\n \
            rest = stream.unused_data\n";
        let mut run = Command::new("python3").args(["-c", program]).stdin(Stdio::piped()).stdout(Stdio::piped()).spawn().unwrap();
        run.stdin.take().unwrap().write_all(&streams.concat()).unwrap();
        let run = run.wait_with_output().unwrap();
        let wanted = all.iter().flat_map(|bytes| [&(bytes.len() as u32).to_le_bytes()[..], bytes].concat());
        assert!(run.status.success() && wanted.eq(run.stdout));
        streams
    }

    /// Numbers without a pattern.
    fn dice(seed: u64) -> impl FnMut(usize) -> usize {
        let mut state = seed.wrapping_mul(0x9E37_79B9_7F4A_7C15) | 1;
        move |below| {
            state ^= state << 13;
            state ^= state >> 7;
            state ^= state << 17;
            (state >> 11) as usize % below
        }
    }

    fn noise(len: usize, values: usize) -> Vec<u8> {
        let mut roll = dice((len + values) as u64);
        (0..len).map(|_| roll(values) as u8).collect()
    }

    /// In which way a stream's first block is written.
    fn way(stream: &[u8]) -> u8 {
        stream[2] >> 1 & 3
    }

    #[test]
    fn another_zlib_reads_what_is_written() {
        let mut all: Vec<Vec<u8>> = (0..300).map(|len| noise(len, 1 + len % 7)).chain((0..40).map(|len| noise(len, 256))).collect();
        // around a block's end: one value, few of them, all of them
        for len in [BLOCK - 1, BLOCK, BLOCK + 1, 2 * BLOCK, 200_000] {
            all.extend([1, 2, 3, 20, 256].map(|values| noise(len, values)));
        }
        // runs, and copies of what came before, of any length and from any distance
        for seed in 0..40 {
            let (mut roll, mut bytes) = (dice(seed), vec![seed as u8]);
            while bytes.len() < 100_000 {
                match roll(3) {
                    0 => (0..roll(20)).for_each(|_| bytes.push(roll(256) as u8)),
                    1 => bytes.extend(vec![roll(256) as u8; roll(600)]),
                    _ => {
                        let far = bytes.len().min(1 << roll(17));
                        let back = 1 + roll(far);
                        (0..roll(300)).for_each(|_| bytes.push(bytes[bytes.len() - back]));
                    }
                }
            }
            all.push(bytes);
        }
        read_back(&all, 9000);
        let streams = read_back(&all, usize::MAX);
        for (bytes, stream) in all.iter().zip(&streams) {
            // what stands before, behind and at the end is 8 bytes, and each block has 5 where nothing could be made shorter
            assert!(stream.len() <= bytes.len() + 8 + 5 * bytes.len().div_ceil(BLOCK), "{} of {}", stream.len(), bytes.len());
        }
    }

    #[test]
    fn each_block_is_written_in_the_shortest_way() {
        let of = [noise(70_000, 256), b"abc".to_vec(), noise(70_000, 20)];
        let streams = read_back(&of, usize::MAX);
        assert_eq!(streams.iter().map(|stream| way(stream)).collect::<Vec<_>>(), [0, 1, 2]);
        // 20 values take 4.4 bits each
        assert!((37_500..41_000).contains(&streams[2].len()), "{}", streams[2].len());
    }

    /// A match is found from as far as it may come, and from no further.
    #[test]
    fn matches_reach_back_a_window() {
        let twice = |len: usize| [noise(len, 256), noise(len, 256)].concat();
        let [near, far] = [twice(WINDOW), twice(WINDOW + 1)].map(|bytes| read_back(&[bytes], usize::MAX).remove(0).len());
        assert!(near < WINDOW + 1000 && far > 2 * WINDOW, "{near} {far}");
        let zeros = read_back(&[vec![0; 1 << 20]], usize::MAX).remove(0).len();
        assert!(zeros < (1 << 20) / 500, "{zeros}");
    }

    #[test]
    fn no_code_is_longer_than_it_may_be() {
        // counts that grow as these do make the deepest tree
        let deep: Vec<u32> = std::iter::successors(Some((1, 1)), |(a, b)| Some((*b, a + b))).map(|pair| pair.0).take(30).collect();
        assert_eq!(depths(&deep).into_iter().max(), Some(29));
        for most in [5, 7, 15] {
            let code = Code::fitted(&deep, most);
            // all room is taken, and none twice
            assert_eq!(code.lengths.iter().map(|length| 1 << (most - length)).sum::<u32>(), 1 << most);
        }
        let alone = Code::fitted(&[0, 0, 9, 0], 15);
        assert_eq!((alone.lengths, Code::fitted(&[0; 4], 15).lengths), (vec![0, 0, 1, 0], vec![0; 4]));
    }

    /// As RFC 1951 lists them: the first length and the first distance of each symbol.
    #[test]
    fn lengths_and_distances_have_their_symbols() {
        let lengths = [3, 4, 5, 6, 7, 8, 9, 10, 11, 13, 15, 17, 19, 23, 27, 31, 35, 43, 51, 59, 67, 83, 99, 115, 131, 163, 195, 227, 258];
        for length in 3..=258 {
            let at = lengths.iter().rposition(|first| *first <= length).unwrap();
            let (symbol, bits, rest) = split_length(length);
            assert!((symbol, rest) == (257 + at, (length - lengths[at]) as usize) && rest < 1 << bits);
        }
        let mut firsts = vec![1, 2];
        (0..14).for_each(|bits| firsts.extend([(2 << bits) + 1, (3 << bits) + 1]));
        assert_eq!((firsts.len(), firsts[4], firsts[5], firsts[29]), (30, 5, 7, 24_577));
        for distance in 1..=32_768 {
            let at = firsts.iter().rposition(|first| *first <= distance).unwrap();
            let (symbol, bits, rest) = split_distance(distance);
            assert!((symbol, rest) == (at, (distance - firsts[at]) as usize) && rest < 1 << bits);
        }
    }

    #[test]
    fn the_sum_is_adlers() {
        let mut sum = Adler(1, 0);
        sum.add(b"Wikipedia");
        assert_eq!((sum.1 << 16) + sum.0, 0x11E6_0398);
    }
}
