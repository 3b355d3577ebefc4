// Times the proved reader and the plain one on the same files, and compares their answers on these
// files and on damaged variants of them.
#[allow(dead_code)]
mod baseline;

use std::hint::black_box;
use std::time::Instant;

#[repr(C)]
struct Reading {
    number: u32,
    place: u64,
}

unsafe extern "C" {
    fn station_read(file: *const u8, len: usize) -> Reading;
}

/// The proved reader: a refusal's number and place, zeros where the file reads.
fn proved(file: &[u8]) -> (u32, u64) {
    let r = unsafe { station_read(file.as_ptr(), file.len()) };
    (r.number, r.place)
}

/// The plain reader, with the same answer.
fn plain(file: &[u8]) -> (u32, u64) {
    match baseline::read_applet(file) {
        Ok(a) => {
            black_box(&a);
            (0, 0)
        }
        Err(f) => ((f >> 32) as u32, f & 0xFFFF_FFFF),
    }
}

/// A generator of numbers that is the same in each run.
struct Random(u64);

impl Random {
    fn below(&mut self, n: usize) -> usize {
        self.0 ^= self.0 << 13;
        self.0 ^= self.0 >> 7;
        self.0 ^= self.0 << 17;
        ((self.0 >> 33) as usize) % n
    }
}

/// Plain code: every opcode below 20 (hexadecimal) but RET and END, which come last.
fn plain_code(r: &mut Random, size: usize, methods: usize) -> Vec<[u8; 4]> {
    let mut code = Vec::new();
    while code.len() + 1 < size {
        let t = (r.below(size) as u16).to_be_bytes();
        let x = r.below(8) as u8;
        code.push(match 1 + r.below(12) as u8 {
            1 => [1, x, r.below(256) as u8, r.below(256) as u8],
            op @ (7 | 8) => [op, x, 0, r.below(64) as u8],
            9 => [9, 0, t[0], t[1]],
            10 => [10, x, t[0], t[1]],
            11 => [11, 0, 0, r.below(methods) as u8],
            12 => [13, r.below(64) as u8, t[0], t[1]],
            op => [op, x, 0, r.below(8) as u8],
        });
    }
    code.push([12 + 2 * r.below(2) as u8, 0, 0, 0]);
    code
}

/// Woven-like code: some plain instructions, then a site with a block, and so on.
fn woven_code(r: &mut Random, size: usize, methods: usize) -> Vec<[u8; 4]> {
    let mut code = Vec::new();
    loop {
        let start = 2 + r.below(6);
        if code.len() + start + 17 > size {
            let rest = size - code.len();
            code.extend(plain_code(r, rest, methods));
            return code;
        }
        let k = r.below(64) as u8;
        code.extend(plain_code(r, start + 1, methods).into_iter().take(start));
        let at = code.len();
        let raised = ((at + 14) as u16).to_be_bytes();
        let next = ((at + 16) as u16).to_be_bytes();
        code.extend([
            [0x20, k, 0, 0],
            [0x27, 0, 0, 0],
            [0x25, 1, 0, 10],
            [0x29, 0, 0, 2],
            [0x23, 0, 0, 5],
            [0x26, 0, 0, 3],
            [0x27, 1, 0, 1],
            [0x29, 0, 0, 0],
            [0x28, 0, 0, 3],
            [0x22, 0, 0, 1],
            [0x24, 0, 0, 0],
            [0x0D, k, raised[0], raised[1]],
            [0x21, 0, 0, 0],
            [0x22, 0, 0, 2],
            [0x21, 0, 0, 0],
            [0x09, 0, next[0], next[1]],
        ]);
    }
}

/// A file of just so many bytes or up to three fewer, in so many methods.
fn file(bytes: usize, methods: usize, woven: bool) -> Vec<u8> {
    let mut r = Random(0x9E37_79B9_7F4A_7C15 + bytes as u64);
    let mut f = vec![1, 0, 2, 1, methods as u8, 2, 0, 2, 0, methods as u8 - 1, 3, 0, 16];
    f.extend([0u8; 16]);
    let words = (bytes - f.len() - 3 * methods) / 4;
    for m in 0..methods {
        let size = words * (m + 1) / methods - words * m / methods;
        let code = if woven { woven_code(&mut r, size, methods) } else { plain_code(&mut r, size, methods) };
        f.push(4);
        f.extend(((4 * size) as u16).to_be_bytes());
        f.extend(code.concat());
    }
    f
}

/// Compares the answers on a file with a few bytes changed, cut off or added.
fn compare_damaged(name: &str, good: &[u8], rounds: usize) -> [usize; 5] {
    let mut r = Random(0xD1B5_4A32_D192_ED03 + good.len() as u64);
    let mut counts = [0; 5];
    for i in 0..rounds {
        let mut f = good.to_vec();
        match i % 8 {
            0 => f.truncate(r.below(good.len())),
            1 => f.push(r.below(256) as u8),
            2 => f[r.below(40)] = r.below(256) as u8,
            3 => {
                for _ in 0..3 {
                    let p = r.below(f.len());
                    f[p] = r.below(48) as u8;
                }
            }
            _ => {
                let p = r.below(f.len());
                f[p] = [r.below(256), r.below(48), r.below(9)][r.below(3)] as u8;
            }
        }
        let (a, b) = (proved(&f), plain(&f));
        assert_eq!(a, b, "{name}, damaged variant {i}");
        counts[if a.0 == 0 { 0 } else { a.0 as usize - 9 }] += 1;
    }
    counts
}

/// Seconds of one call: the least of 1,000 rounds of less than a millisecond each, the two in turn.
fn best(file: &[u8]) -> (f64, f64) {
    let turns = 500_000 / file.len();
    let once = |read: fn(&[u8]) -> (u32, u64)| {
        let t = Instant::now();
        for _ in 0..turns {
            black_box(read(black_box(file)));
        }
        t.elapsed().as_secs_f64() / turns as f64
    };
    let mut low = (f64::INFINITY, f64::INFINITY);
    for _ in 0..1000 {
        low.0 = low.0.min(once(proved));
        low.1 = low.1.min(once(plain));
    }
    low
}

fn main() {
    let mut cases = Vec::new();
    for (kind, woven) in [("plain", false), ("woven", true)] {
        for (label, bytes, methods) in [("1 KB", 1024, 1), ("8 KB", 8192, 2), ("64 KB", 65535, 5)] {
            cases.push((format!("{kind} {label}"), file(bytes, methods, woven)));
        }
    }
    cases.push(("32 methods".to_string(), file(2048, 32, false)));
    let mut counts = [0; 5];
    for (name, f) in &cases {
        assert_eq!((proved(f), plain(f)), ((0, 0), (0, 0)), "{name}");
        for (sum, n) in counts.iter_mut().zip(compare_damaged(name, f, 2000)) {
            *sum += n;
        }
    }
    let [read, c10, c11, c12, c13] = counts;
    println!("same answers on {} files and {} damaged variants:", cases.len(), counts.iter().sum::<usize>());
    println!("  {read} read, refused 10: {c10}, 11: {c11}, 12: {c12}, 13: {c13}");
    println!("{:<12} {:>7} {:>12} {:>12} {:>7}", "file", "bytes", "proved MB/s", "plain MB/s", "ratio");
    for (name, f) in &cases {
        let (a, b) = best(f);
        let rate = |s: f64| f.len() as f64 / s / 1e6;
        println!("{:<12} {:>7} {:>12.0} {:>12.0} {:>7.2}", name, f.len(), rate(a), rate(b), a / b);
    }
}
