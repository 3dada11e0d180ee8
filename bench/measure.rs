// A table of two sides: the time of each, by turns, and the memory that a call takes beyond what was there.
use std::alloc::{GlobalAlloc, Layout, System};
use std::sync::atomic::{AtomicUsize, Ordering::Relaxed};
use std::time::{Duration, Instant};

static NOW: AtomicUsize = AtomicUsize::new(0);
static PEAK: AtomicUsize = AtomicUsize::new(0);

// The system's heap, counted.
struct Counted;

unsafe impl GlobalAlloc for Counted {
    unsafe fn alloc(&self, layout: Layout) -> *mut u8 {
        PEAK.fetch_max(NOW.fetch_add(layout.size(), Relaxed) + layout.size(), Relaxed);
        System.alloc(layout)
    }

    // zeroed memory comes from the system as it is, and costs nothing until it is touched
    unsafe fn alloc_zeroed(&self, layout: Layout) -> *mut u8 {
        PEAK.fetch_max(NOW.fetch_add(layout.size(), Relaxed) + layout.size(), Relaxed);
        System.alloc_zeroed(layout)
    }

    unsafe fn dealloc(&self, at: *mut u8, layout: Layout) {
        NOW.fetch_sub(layout.size(), Relaxed);
        System.dealloc(at, layout)
    }
}

const STACK: usize = 4 << 20;

// A part of the stack below, filled with one byte; where it begins.
#[inline(never)]
fn painted() -> usize {
    let mut stack = [0u8; STACK];
    for byte in stack.iter_mut() {
        unsafe { std::ptr::write_volatile(byte, 0xA5) };
    }
    stack.as_ptr() as usize
}

// How many bytes of it a call has written over.
#[inline(never)]
fn untouched(from: usize) -> usize {
    (0..STACK).take_while(|i| unsafe { std::ptr::read_volatile((from + i) as *const u8) } == 0xA5).count()
}

// The bytes of heap and of stack that a call takes at most.
fn memory(side: &mut dyn FnMut()) -> usize {
    let (from, before) = (painted(), NOW.load(Relaxed));
    PEAK.store(before, Relaxed);
    side();
    PEAK.load(Relaxed) - before + STACK - untouched(from)
}

fn timed(repeats: u32, side: &mut dyn FnMut()) -> f64 {
    let begun = Instant::now();
    for _ in 0..repeats {
        side();
    }
    begun.elapsed().as_secs_f64() / repeats as f64
}

struct Table {
    least: Vec<(&'static str, f64, String)>,
}

impl Table {
    fn new() -> Table {
        println!("| what | kind | size | the Rust, µs | proved, µs | times as fast | the Rust, KB | proved, KB |");
        println!("|---|---|---|---|---|---|---|---|");
        Table { least: Vec::new() }
    }

    // The best time of each side over a second and a half and ten rounds at least; a short call is repeated, so that the clock's steps do not count.
    fn row(&mut self, group: &'static str, what: &str, mut rust: impl FnMut(), mut proved: impl FnMut()) {
        let taken = [memory(&mut rust), memory(&mut proved)];
        let repeats = (200e-6 / timed(1, &mut rust)).ceil().max(1.0) as u32;
        let (mut best, begun, mut rounds) = ([f64::MAX; 2], Instant::now(), 0);
        while rounds < 10 || begun.elapsed() < Duration::from_millis(1500) {
            best[0] = best[0].min(timed(repeats, &mut rust));
            best[1] = best[1].min(timed(repeats, &mut proved));
            rounds += 1;
        }
        let ratio = best[0] / best[1];
        println!("| {what} | {:.1} | {:.1} | {ratio:.2} | {} | {} |", best[0] * 1e6, best[1] * 1e6, taken[0].div_ceil(1000), taken[1].div_ceil(1000));
        match self.least.iter_mut().find(|l| l.0 == group) {
            Some(least) if least.1 <= ratio => {}
            Some(least) => *least = (group, ratio, what.into()),
            None => self.least.push((group, ratio, what.into())),
        }
    }

    fn end(&self) {
        println!();
        for (group, ratio, what) in &self.least {
            println!("least of the rows '{group}': {ratio:.2} ({what})");
        }
    }
}
