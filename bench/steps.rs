// Times steps of policies and of the machine, proved and plain, on the same files, and compares how
// many of the steps were taken or worked.
#[allow(dead_code)]
mod baseline;

use std::hint::black_box;
use std::time::Instant;

unsafe extern "C" {
    fn station_steps(policy: *const u8, len: usize, call: u8, a0: i32, times: u32) -> u32;
    fn station_pair_steps(
        first: *const u8,
        first_len: usize,
        second: *const u8,
        second_len: usize,
        call: u8,
        a0: i32,
        times: u32,
    ) -> u32;
    fn station_run(applet: *const u8, len: usize, steps: u32) -> u64;
    fn station_run_in_turn(applet: *const u8, len: usize, last: u8, steps: u32) -> u64;
}

/// Before events of one call, over one policy or a pair.
struct Events {
    one: Vec<u8>,
    two: Option<Vec<u8>>,
    call: u8,
    a0: i32,
}

impl Events {
    fn proved(&self, times: u32) -> u64 {
        let (a, call, a0) = (&self.one, self.call, self.a0);
        let n = match &self.two {
            None => unsafe { station_steps(a.as_ptr(), a.len(), call, a0, times) },
            Some(b) => unsafe {
                station_pair_steps(a.as_ptr(), a.len(), b.as_ptr(), b.len(), call, a0, times)
            },
        };
        n as u64
    }

    fn plain(&self, times: u32) -> u64 {
        let Ok(p) = baseline::read_policies(&self.one, self.two.as_deref()) else {
            return 0;
        };
        let mut row = [0; 32];
        p.write_starts(&mut row);
        let args = [self.a0, 0, 0, 0, 0, 0, 0, 0];
        let mut n = 0;
        for _ in 0..times {
            n += matches!(p.step(0, self.call as u32, &args, &mut row), Ok(true)) as u64;
        }
        n
    }
}

/// Steps of the threads up to the last in turn.
fn run_proved(file: &[u8], last: u8, steps: u32) -> u64 {
    match last {
        0 => unsafe { station_run(file.as_ptr(), file.len(), steps) },
        _ => unsafe { station_run_in_turn(file.as_ptr(), file.len(), last, steps) },
    }
}

fn run_plain(file: &[u8], last: u8, steps: u32) -> u64 {
    let Ok(mut m) = baseline::Machine::load(file) else {
        return 0;
    };
    let (mut n, mut t) = (0, 0);
    for _ in 0..steps {
        match m.step_call(t) {
            baseline::Said::Refused(_) => {}
            baseline::Said::Call(..) => {
                let _ = m.answer(t, false, 0);
                n += 1;
            }
            _ => n += 1,
        }
        t = if t < last as usize { t + 1 } else { 0 };
    }
    n
}

fn field(tag: u8, contents: &[u8]) -> Vec<u8> {
    let mut f = vec![tag];
    f.extend((contents.len() as u16).to_be_bytes());
    f.extend(contents);
    f
}

const LESS: [u8; 3] = [3, 0, 2];
const PLUS: [u8; 3] = [3, 0, 0];

/// A rule for before events of a call: where a0 is less than a bound, a cell becomes the sum of itself
/// and a0.
fn rule(call: u8, bound: u8, cell: u8) -> Vec<u8> {
    let guard = [[2, 0, 0], [0, 0, bound], LESS].concat();
    let mut update = vec![cell];
    update.extend([[1, 0, cell], [2, 0, 0], PLUS].concat());
    field(67, &[vec![call, 0], field(68, &guard), field(69, &update)].concat())
}

fn policy(cells: u8, rules: &[Vec<u8>]) -> Vec<u8> {
    [field(65, &[1, cells]), field(66, &vec![0; 4 * cells as usize]), rules.concat()].concat()
}

/// An applet whose threads start in method 0, one for each zero.
fn applet(threads: &[u8], methods: &[Vec<[u8; 4]>]) -> Vec<u8> {
    let code: Vec<u8> = methods.iter().flat_map(|m| field(4, &m.concat())).collect();
    [field(1, &[1, methods.len() as u8]), field(2, threads), field(3, &[0; 16]), code].concat()
}

/// A method that begins anew behind its instructions.
fn again(mut code: Vec<[u8; 4]>) -> Vec<[u8; 4]> {
    code.push([0x09, 0, 0, 0]);
    code
}

/// Tests in mixed order, the same in each run; a stop is always passed over.
fn tests(size: usize) -> Vec<[u8; 4]> {
    let mut seed = 0x9E37_79B9_7F4A_7C15u64;
    let mut below = |n: u64| {
        seed ^= seed << 13;
        seed ^= seed >> 7;
        seed ^= seed << 17;
        ((seed >> 33) % n) as u8
    };
    let mut code = Vec::new();
    while code.len() < size {
        match below(8) {
            0 => code.extend([[0x22, 0, 0, 1], [0x24, 0, 0, 0]]),
            1 => code.push([0x23, below(8), 0, below(3)]),
            2 => code.push([0x25, below(8), 0, below(4)]),
            3 => code.push([0x26, below(8), 0, below(4)]),
            4 => code.push([0x27, below(8), 0, below(5)]),
            5 => code.push([0x28, below(8), 0, below(4)]),
            _ => code.push([0x29, below(7), 0, below(6)]),
        }
    }
    // so that nothing is passed over into a stop or out of the block
    let mut i = 0;
    while i < code.len() {
        if code[i][0] == 0x23 {
            let room = code[i + 1..].iter().take(2).take_while(|w| w[0] != 0x22).count() as u8;
            code[i][3] = code[i][3].min(room);
        }
        i += 1;
    }
    code
}

/// The block of a rule with an update, over and over.
fn guarded(size: usize) -> Vec<[u8; 4]> {
    let block = [
        [0x27, 0, 0, 0],
        [0x25, 1, 0, 100],
        [0x29, 0, 0, 2],
        [0x23, 0, 0, 5],
        [0x26, 0, 0, 0],
        [0x27, 1, 0, 0],
        [0x29, 0, 0, 0],
        [0x28, 0, 0, 0],
        [0x22, 0, 0, 1],
        [0x24, 0, 0, 0],
    ];
    block.repeat(size / block.len())
}

/// Seconds of one turn of so many: the least of 600 rounds of about a millisecond each, the two in turn.
fn best(turns: u32, proved: impl Fn(u32) -> u64, plain: impl Fn(u32) -> u64) -> (f64, f64) {
    let mut low = (f64::INFINITY, f64::INFINITY);
    for _ in 0..600 {
        let t = Instant::now();
        black_box(proved(black_box(turns)));
        low.0 = low.0.min(t.elapsed().as_secs_f64() / turns as f64);
        let t = Instant::now();
        black_box(plain(black_box(turns)));
        low.1 = low.1.min(t.elapsed().as_secs_f64() / turns as f64);
    }
    low
}

/// Compares the counts, then prints million turns per second and the ratio.
fn measure(name: &str, turns: u32, all: bool, proved: impl Fn(u32) -> u64, plain: impl Fn(u32) -> u64) {
    for n in [0, 1, 2, 7, 1000, turns] {
        let (a, b) = (proved(n), plain(n));
        assert_eq!(a, b, "{name}, {n} times");
        assert_eq!(a, if all { n as u64 } else { 0 }, "{name}, {n} times");
    }
    let (a, b) = best(turns, proved, plain);
    println!("{:<28} {:>12.1} {:>12.1} {:>7.2}", name, 1e-6 / a, 1e-6 / b, a / b);
}

fn heading(name: &str) {
    println!("{:<28} {:>12} {:>12} {:>7}", name, "proved M/s", "plain M/s", "ratio");
}

fn main() {
    heading("steps of a policy");
    let one = || policy(1, &[rule(5, 100, 0)]);
    let apart: Vec<_> = (0..64).map(|k| rule(k, 100, k % 16)).collect();
    let same: Vec<_> = (0..64).map(|k| rule(5, if k < 63 { 1 } else { 100 }, k % 16)).collect();
    let other = policy(2, &[rule(5, 50, 0)]);
    let cases = [
        ("one rule", one(), None, 5, 3, 30_000),
        ("one rule, refused", one(), None, 5, 100, 60_000),
        ("64 rules, first call", policy(16, &apart), None, 0, 3, 30_000),
        ("64 rules, first, refused", policy(16, &apart), None, 0, 100, 30_000),
        ("64 rules, last call", policy(16, &apart), None, 63, 3, 30_000),
        ("64 rules of one call", policy(16, &same), None, 5, 3, 1_000),
        ("pair of one rule each", one(), Some(other), 5, 3, 15_000),
    ];
    for (name, one, two, call, a0, turns) in cases {
        let e = Events { one, two, call, a0 };
        measure(name, turns, a0 < 100, |n| e.proved(n), |n| e.plain(n));
    }
    heading("steps of the machine");
    let counting = || vec![[0x01, 1, 0, 1], [0x03, 0, 0, 1], [0x05, 2, 0, 1], [0x0A, 2, 0, 0]];
    let calls = vec![[0x0B, 0, 0, 1]; 64];
    let cases = [
        ("SET, ADD, LT, BRZ, JUMP", applet(&[0], &[again(counting())]), 0),
        ("the same, 8 threads in turn", applet(&[0; 8], &[again(counting())]), 7),
        ("CALL and RET", applet(&[0], &[again(calls), vec![[0x0C, 0, 0, 0]]]), 0),
        ("tests of a rule's block", applet(&[0], &[again(guarded(4000))]), 0),
        ("tests in mixed order", applet(&[0], &[again(tests(4000))]), 0),
        ("HOST and its answer", applet(&[0], &[again(vec![[0x0D, 3, 0, 0]; 64])]), 0),
    ];
    for (name, file, last) in &cases {
        measure(name, 100_000, true, |n| run_proved(file, *last, n), |n| run_plain(file, *last, n));
    }
}
