// Times weaving, proved and plain, on the same files, and compares answers and bytes on these files and
// on damaged variants of them.
#[allow(dead_code)]
mod baseline;

use std::hint::black_box;
use std::time::Instant;

#[repr(C)]
struct Weaving {
    number: u32,
    place: u64,
    length: u64,
}

unsafe extern "C" {
    fn station_weave(
        policy: *const u8,
        policy_len: usize,
        plain: *const u8,
        plain_len: usize,
        area: *mut u8,
        area_len: usize,
    ) -> Weaving;
}

/// The proved weave: a refusal's number and place, or zeros and the length.
fn proved(policy: &[u8], file: &[u8], area: &mut [u8]) -> (u32, u64, u64) {
    let (p, f) = (policy.as_ptr(), file.as_ptr());
    let w = unsafe { station_weave(p, policy.len(), f, file.len(), area.as_mut_ptr(), area.len()) };
    (w.number, w.place, w.length)
}

/// The plain weave, with the same answer.
fn plain(policy: &[u8], file: &[u8], area: &mut [u8]) -> (u32, u64, u64) {
    let woven = baseline::read_policies(policy, None).and_then(|p| baseline::weave(&p, file, area));
    match woven {
        Ok(n) => (0, 0, n as u64),
        Err(f) => ((f >> 32) as u32, f & 0xFFFF_FFFF, 0),
    }
}

/// A generator of numbers that is the same in each run.
struct Random(u64);

impl Random {
    fn below(&mut self, n: usize) -> usize {
        self.0 ^= self.0 << 13;
        self.0 ^= self.0 >> 7;
        self.0 ^= self.0 << 17;
        ((self.0 >> 33) as usize) % n
    }
}

fn field(tag: u8, contents: &[u8]) -> Vec<u8> {
    let mut f = vec![tag];
    f.extend((contents.len() as u16).to_be_bytes());
    f.extend(contents);
    f
}

/// One cell; calls 5 and 6 are watched. Before call 5, where a0 is less than 10, the cell becomes the
/// sum of itself and a0; after call 6 the cell becomes the answer.
fn policy() -> Vec<u8> {
    let guard = field(68, &[2, 0, 0, 0, 0, 10, 3, 0, 2]);
    let update = field(69, &[0, 1, 0, 0, 2, 0, 0, 3, 0, 0]);
    let before = field(67, &[vec![5, 0], guard, update].concat());
    let after = field(67, &[vec![6, 1], field(68, &[0, 0, 1]), field(69, &[0, 2, 0, 4])].concat());
    [field(65, &[1, 1]), field(66, &[0; 4]), before, after].concat()
}

/// How many of 100 instructions are watched calls.
#[derive(Clone, Copy)]
struct Watched(usize);

/// Code of every opcode below 20 (hexadecimal) but RET and END, which come last.
fn code(r: &mut Random, size: usize, methods: usize, watched: Watched) -> Vec<u8> {
    let mut code = Vec::new();
    while code.len() < 4 * size - 4 {
        let t = (r.below(size) as u16).to_be_bytes();
        let x = r.below(8) as u8;
        code.extend(if r.below(100) < watched.0 {
            [13, 5 + r.below(2) as u8, t[0], t[1]]
        } else {
            match 1 + r.below(12) as u8 {
                1 => [1, x, r.below(256) as u8, r.below(256) as u8],
                op @ (7 | 8) => [op, x, 0, r.below(64) as u8],
                9 => [9, 0, t[0], t[1]],
                10 => [10, x, t[0], t[1]],
                11 => [11, 0, 0, r.below(methods) as u8],
                12 => [13, 7 + r.below(57) as u8, t[0], t[1]],
                op => [op, x, 0, r.below(8) as u8],
            }
        });
    }
    code.extend([12 + 2 * r.below(2) as u8, 0, 0, 0]);
    code
}

/// A plain file that has about so many bytes once woven, in so many methods.
fn file(bytes: usize, methods: usize, watched: Watched) -> Vec<u8> {
    let mut r = Random(0x9E37_79B9_7F4A_7C15 + bytes as u64);
    let mut f = [field(1, &[1, methods as u8]), field(2, &[0, methods as u8 - 1]), field(3, &[])].concat();
    // a watched call becomes 16 or 12 instructions
    let size = (bytes - 20 - 3 * methods) * 100 / (4 * (100 + 13 * watched.0)) / methods;
    for _ in 0..methods {
        f.extend(field(4, &code(&mut r, size, methods, watched)));
    }
    f
}

/// Compares answers and areas.
fn compare(name: &str, policy: &[u8], file: &[u8], room: usize) -> u32 {
    let (mut a, mut b) = (vec![0xEE; room], vec![0xEE; room]);
    let answers = (proved(policy, file, &mut a), plain(policy, file, &mut b));
    assert_eq!(answers.0, answers.1, "{name}");
    assert!(a == b, "{name}: the areas differ");
    answers.0.0
}

/// Compares the two on a file with bytes changed, and on too short an area.
fn compare_damaged(name: &str, policy: &[u8], good: &[u8], rounds: usize) -> usize {
    let mut r = Random(0xD1B5_4A32_D192_ED03 + good.len() as u64);
    let mut refused = 0;
    for i in 0..rounds {
        let mut f = good.to_vec();
        let p = r.below(f.len());
        match i % 4 {
            0 => f[p] = [13, 32, 33, 9][r.below(4)],
            1 => f[p] = r.below(8) as u8,
            2 => f.truncate(p),
            _ => f[p] = r.below(256) as u8,
        }
        let room = if i % 8 == 7 { r.below(65536) } else { 65535 };
        refused += (compare(name, policy, &f, room) != 0) as usize;
    }
    refused
}

/// Seconds of one call: the least of 600 rounds of about a millisecond or less, the two in turn.
fn best(policy: &[u8], file: &[u8], bytes: usize) -> (f64, f64) {
    let mut area = vec![0; 65535];
    let turns = 200_000 / bytes + 1;
    let mut once = |weave: fn(&[u8], &[u8], &mut [u8]) -> (u32, u64, u64)| {
        let t = Instant::now();
        for _ in 0..turns {
            black_box(weave(black_box(policy), black_box(file), black_box(&mut area)));
        }
        t.elapsed().as_secs_f64() / turns as f64
    };
    let mut low = (f64::INFINITY, f64::INFINITY);
    for _ in 0..600 {
        low.0 = low.0.min(once(proved));
        low.1 = low.1.min(once(plain));
    }
    low
}

fn main() {
    let policy = policy();
    let mut cases = Vec::new();
    for (kind, watched) in [("no calls watched", 0), ("few", 2), ("mostly", 60)] {
        for (label, bytes, methods) in [("1 KB", 1024, 1), ("8 KB", 8192, 2), ("64 KB", 63_000, 5)] {
            cases.push((format!("{kind}, {label}"), file(bytes, methods, Watched(watched))));
        }
    }
    let mut refused = 0;
    for (name, f) in &cases {
        assert_eq!(compare(name, &policy, f, 65535), 0, "{name}");
        refused += compare_damaged(name, &policy, f, 1000);
    }
    println!("same answers and areas on {} files and {} variants, {refused} of them refused", cases.len(), 1000 * cases.len());
    println!(
        "{:<24} {:>7} {:>7} {:>12} {:>12} {:>7}",
        "weave", "bytes", "woven", "proved MB/s", "plain MB/s", "ratio"
    );
    for (name, f) in &cases {
        let mut area = vec![0; 65535];
        let bytes = proved(&policy, f, &mut area).2 as usize;
        let (a, b) = best(&policy, f, bytes);
        let rate = |s: f64| bytes as f64 / s / 1e6;
        println!("{:<24} {:>7} {:>7} {:>12.0} {:>12.0} {:>7.2}", name, f.len(), bytes, rate(a), rate(b), a / b);
    }
}
