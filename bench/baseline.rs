// The reader of applets, rule policies, weaving and the machine, written by hand in plain Rust for speed: unsafe
// where it pays, nothing proved. It is what the proved ones are measured against.

/// number << 32 | place; 0 is "accepted".
pub type Fault = u64;

#[inline(always)]
fn fault(number: u64, place: usize) -> Fault {
    number << 32 | place as u64
}

#[inline(always)]
fn u16_at(b: &[u8], p: usize) -> usize {
    (b[p] as usize) << 8 | b[p + 1] as usize
}

/// The word at instruction i of a method's code. i < code.len() / 4.
#[inline(always)]
fn word(code: &[u8], i: usize) -> u32 {
    debug_assert!(4 * i + 4 <= code.len());
    unsafe { u32::from_be((code.as_ptr().add(4 * i) as *const u32).read_unaligned()) }
}

/// Writes instruction i of the area. 4 * i + 4 <= area.len().
#[inline(always)]
fn put(area: &mut [u8], i: usize, w: u32) {
    debug_assert!(4 * i + 4 <= area.len());
    unsafe { (area.as_mut_ptr().add(4 * i) as *mut u32).write_unaligned(w.to_be()) }
}

#[inline(always)]
fn byte(b: &[u8], p: usize) -> u8 {
    debug_assert!(p < b.len());
    unsafe { *b.get_unchecked(p) }
}

/// A row of fields in file[pos..end]; broken is 10 or 20.
struct Fields<'a> {
    file: &'a [u8],
    pos: usize,
    end: usize,
    broken: u64,
}

impl<'a> Fields<'a> {
    /// Contents (start, end) of the next field, which must have this tag; its place is start - 3.
    #[inline]
    fn take(&mut self, tag: u8) -> Result<(usize, usize), Fault> {
        let p = self.pos;
        if self.end - p < 3 || self.file[p] != tag {
            return Err(fault(self.broken, p));
        }
        let stop = p + 3 + u16_at(self.file, p + 1);
        if stop > self.end {
            return Err(fault(self.broken, p));
        }
        self.pos = stop;
        Ok((p + 3, stop))
    }
}

const SET: u32 = 0x01;
const MOV: u32 = 0x02;
const ADD: u32 = 0x03;
const SUB: u32 = 0x04;
const LT: u32 = 0x05;
const EQ: u32 = 0x06;
const GET: u32 = 0x07;
const PUT: u32 = 0x08;
const JUMP: u32 = 0x09;
const BRZ: u32 = 0x0A;
const CALL: u32 = 0x0B;
const RET: u32 = 0x0C;
const HOST: u32 = 0x0D;
const END: u32 = 0x0E;
const LOCK: u32 = 0x20;
const UNLOCK: u32 = 0x21;
const SKIP: u32 = 0x22;
const SKZ: u32 = 0x23;
const VIOL: u32 = 0x24;
const MSET: u32 = 0x25;
const MCELL: u32 = 0x26;
const MARG: u32 = 0x27;
const STORE: u32 = 0x28;
const OP: u32 = 0x29;

#[inline(always)]
fn ins(op: u32, x: u32, y: u32) -> u32 {
    op << 24 | x << 16 | y
}

/// JUMP, BRZ or HOST; op < 32.
#[inline(always)]
fn targeted(op: u32) -> bool {
    (1u32 << JUMP | 1 << BRZ | 1 << HOST) >> (op & 31) & 1 != 0
}

/// x < x, y + (skip & (i + 1)) < y; unknown opcodes have x = 0.
#[derive(Clone, Copy)]
struct Limit {
    y: u32,
    x: u16,
    skip: u16,
}

const fn limits() -> [Limit; 64] {
    const fn l(x: u16, y: u32) -> Limit {
        Limit { y, x, skip: 0 }
    }
    const fn skip(x: u16) -> Limit {
        Limit { y: 65536, x, skip: 0xFFFF }
    }
    let mut t = [l(0, 0); 64];
    t[SET as usize] = l(8, 65536);
    t[MOV as usize] = l(8, 8);
    t[ADD as usize] = l(8, 8);
    t[SUB as usize] = l(8, 8);
    t[LT as usize] = l(8, 8);
    t[EQ as usize] = l(8, 8);
    t[GET as usize] = l(8, 64);
    t[PUT as usize] = l(8, 64);
    t[JUMP as usize] = l(1, 65536);
    t[BRZ as usize] = l(8, 65536);
    t[CALL as usize] = l(1, 65536);
    t[RET as usize] = l(1, 1);
    t[HOST as usize] = l(64, 65536);
    t[END as usize] = l(1, 1);
    t[LOCK as usize] = l(64, 1);
    t[UNLOCK as usize] = l(1, 1);
    t[SKIP as usize] = skip(1);
    t[SKZ as usize] = skip(8);
    t[VIOL as usize] = l(1, 1);
    t[MSET as usize] = l(8, 65536);
    t[MCELL as usize] = l(8, 32);
    t[MARG as usize] = l(8, 5);
    t[STORE as usize] = l(8, 32);
    t[OP as usize] = l(7, 6);
    t
}
static LIMITS: [Limit; 64] = limits();

#[derive(Clone, Copy)]
pub struct Method {
    pub off: u32, // of its code; the tag stands at off - 3
    pub count: u32,
}

pub struct Applet<'a> {
    file: &'a [u8],
    pub threads: (usize, usize), // contents of tag 2
    pub cells: (usize, usize),   // contents of tag 3
    pub count: usize,
    pub methods: [Method; 32],
}

impl<'a> Applet<'a> {
    #[inline(always)]
    fn code(&self, m: usize) -> &'a [u8] {
        let Method { off, count } = self.methods[m];
        let (off, len) = (off as usize, 4 * count as usize);
        debug_assert!(off + len <= self.file.len());
        unsafe { self.file.get_unchecked(off..off + len) }
    }
}

pub fn read_applet(file: &[u8]) -> Result<Applet<'_>, Fault> {
    if file.len() > 65535 {
        return Err(fault(10, 0));
    }
    let mut row = Fields { file, pos: 0, end: file.len(), broken: 10 };
    let (s, e) = row.take(1)?;
    if e - s != 2 || file[s] != 1 || file[s + 1] == 0 || file[s + 1] > 32 {
        return Err(fault(11, s - 3));
    }
    let count = file[s + 1] as usize;
    let threads = row.take(2)?;
    let (s, e) = threads;
    if e - s == 0 || e - s > 8 || file[s..e].iter().any(|&t| t as usize >= count) {
        return Err(fault(11, s - 3));
    }
    let cells = row.take(3)?;
    let (s, e) = cells;
    if (e - s) % 4 != 0 || e - s > 128 {
        return Err(fault(11, s - 3));
    }
    let mut ap = Applet { file, threads, cells, count, methods: [Method { off: 0, count: 0 }; 32] };
    for m in ap.methods[..count].iter_mut() {
        let (s, e) = row.take(4)?;
        let n = e - s;
        if n % 4 != 0 || n == 0 || n > 4 * 4096 {
            return Err(fault(11, s - 3));
        }
        *m = Method { off: s as u32, count: n as u32 / 4 };
    }
    if row.pos != file.len() {
        return Err(fault(10, row.pos));
    }
    let mut lim = LIMITS;
    lim[CALL as usize].y = count as u32;
    for m in 0..count {
        let n = ap.methods[m].count;
        for &op in [JUMP, BRZ, HOST, SKIP, SKZ].iter() {
            lim[op as usize].y = n;
        }
        if let Some(i) = first_bad(&lim, ap.code(m)) {
            let place = ap.methods[m].off as usize + 4 * i;
            let w = word(ap.code(m), i);
            let op = w >> 24;
            let x_bad = (w >> 16 & 255) >= lim[op.min(63) as usize].x as u32;
            let lands = op == JUMP || op == BRZ || op == HOST || op == SKIP || op == SKZ;
            return Err(fault(if !x_bad && lands { 13 } else { 12 }, place));
        }
        let last = word(ap.code(m), n as usize - 1) >> 24;
        if last != JUMP && last != RET && last != END {
            return Err(fault(13, ap.methods[m].off as usize + 4 * (n as usize - 1)));
        }
    }
    Ok(ap)
}

/// The first instruction outside its limits.
#[inline]
fn first_bad(lim: &[Limit; 64], code: &[u8]) -> Option<usize> {
    let n = code.len() / 4;
    for i in 0..n {
        let w = word(code, i);
        let l = lim[(w >> 24).min(63) as usize];
        let x = w >> 16 & 255;
        let y = (w & 0xFFFF) + (l.skip as u32 & (i as u32 + 1));
        if (x >= l.x as u32) | (y >= l.y) {
            return Some(i);
        }
    }
    None
}

const NONE: u8 = 255;

#[derive(Clone, Copy)]
struct Rule {
    guard: u16, // offset of its first token
    tokens: u8, // of the guard
    next: u8,   // the next rule of the same call and moment
    end: u16,   // of its field
    body: u16,  // instructions of the updates
}

/// One file of rules, as an index into the file.
struct Policy<'a> {
    file: &'a [u8],
    width: u8,
    watched: u64,
    len: [u16; 192], // block length of call * 3 + moment
    head: [u8; 192], // first rule of the same
    rules: [Rule; 64],
}

#[inline(always)]
fn at(call: usize, moment: usize) -> usize {
    call * 3 + moment
}

fn good_expression(tokens: &[u8], cells: u32, moment: u8) -> bool {
    let lim = [65536u32, cells, if moment == 0 { 4 } else { 5 }, 6];
    let mut held = 0;
    for t in tokens.chunks_exact(3) {
        if t[0] > 3 || (t[1] as u32) << 8 | t[2] as u32 >= lim[t[0] as usize & 3] {
            return false;
        }
        if t[0] == 3 {
            if held < 2 {
                return false;
            }
            held -= 1;
        } else {
            held += 1;
            if held > 8 {
                return false;
            }
        }
    }
    held == 1
}

#[inline(always)]
fn operate(o: u32, a: i32, b: i32) -> i32 {
    match o {
        0 => a.wrapping_add(b),
        1 => a.wrapping_sub(b),
        2 => (a < b) as i32,
        3 => (a == b) as i32,
        4 => (a != 0 && b != 0) as i32,
        _ => (a != 0 || b != 0) as i32,
    }
}

/// A good expression's value; args[4] is the answer.
#[inline]
fn evaluate(tokens: &[u8], cells: &[i32], args: &[i32; 8]) -> i32 {
    let mut held = [0i32; 8];
    let mut d = 0usize;
    for t in tokens.chunks_exact(3) {
        let v = (t[1] as u32) << 8 | t[2] as u32;
        if t[0] == 3 {
            d -= 1;
            held[d.wrapping_sub(1) & 7] = operate(v, held[d.wrapping_sub(1) & 7], held[d & 7]);
        } else {
            held[d & 7] = match t[0] {
                0 => v as u16 as i16 as i32,
                1 => cells[v as usize],
                _ => args[v as usize & 7],
            };
            d += 1;
        }
    }
    held[0]
}

/// The instructions of an expression, one by one.
#[inline(always)]
fn expression_code<F: FnMut(u32)>(tokens: &[u8], first: u32, f: &mut F) {
    let mut d = 0u32;
    for t in tokens.chunks_exact(3) {
        let v = (t[1] as u32) << 8 | t[2] as u32;
        let w = match t[0] {
            0 => ins(MSET, d, v),
            1 => ins(MCELL, d, first + v),
            2 => ins(MARG, d, v),
            _ => {
                d -= 2;
                ins(OP, d, v)
            }
        };
        d += 1;
        f(w);
    }
}

fn read_policy(file: &[u8]) -> Result<Policy<'_>, Fault> {
    if file.len() > 65535 {
        return Err(fault(20, 0));
    }
    let rule = Rule { guard: 0, tokens: 0, next: NONE, end: 0, body: 0 };
    let mut p = Policy { file, width: 0, watched: 0, len: [0; 192], head: [NONE; 192], rules: [rule; 64] };
    let mut row = Fields { file, pos: 0, end: file.len(), broken: 20 };
    let (s, e) = row.take(65)?;
    if e - s != 2 || file[s] != 1 || file[s + 1] > 16 {
        return Err(fault(21, s - 3));
    }
    let cells = file[s + 1];
    p.width = cells;
    let (s, e) = row.take(66)?;
    if e - s != 4 * cells as usize {
        return Err(fault(21, s - 3));
    }
    let mut bad = 0; // the first 22; all 20 and 21 come first
    let mut long = [0u32; 192];
    let mut tail = [NONE; 192];
    let mut n = 0;
    while row.pos != row.end {
        let (s, e) = row.take(67)?;
        if n == 64 || e - s < 2 || file[s] > 63 || file[s + 1] > 2 {
            return Err(fault(21, s - 3));
        }
        let (call, moment) = (file[s], file[s + 1]);
        let mut inner = Fields { file, pos: s + 2, end: e, broken: 20 };
        let (gs, ge) = inner.take(68)?;
        if (ge - gs) % 3 != 0 || ge == gs || ge - gs > 96 {
            return Err(fault(21, gs - 3));
        }
        if bad == 0 && !good_expression(&file[gs..ge], cells as u32, moment) {
            bad = fault(22, gs - 3);
        }
        let mut body = 0;
        let mut updates = 0;
        while inner.pos != inner.end {
            let (us, ue) = inner.take(69)?;
            let t = (ue - us).wrapping_sub(1);
            if updates == 8 || us == ue || file[us] >= cells || t % 3 != 0 || t == 0 || t > 96 {
                return Err(fault(21, us - 3));
            }
            if bad == 0 && !good_expression(&file[us + 1..ue], cells as u32, moment) {
                bad = fault(22, us - 3);
            }
            body += t / 3 + 1;
            updates += 1;
        }
        let tokens = (ge - gs) / 3;
        p.rules[n] =
            Rule { guard: gs as u16, tokens: tokens as u8, next: NONE, end: e as u16, body: body as u16 };
        let i = at(call as usize, moment as usize);
        if tail[i] == NONE {
            p.head[i] = n as u8;
            long[i] = 1;
        } else {
            p.rules[tail[i] as usize].next = n as u8;
        }
        tail[i] = n as u8;
        long[i] += (tokens + body + 2) as u32;
        p.watched |= 1 << call;
        n += 1;
    }
    if bad != 0 {
        return Err(bad);
    }
    for i in 0..192 {
        if long[i] > 1000 {
            return Err(fault(24, 0));
        }
        p.len[i] = long[i] as u16;
    }
    Ok(p)
}

impl<'a> Policy<'a> {
    fn starts(&self) -> &[u8] {
        &self.file[8..8 + 4 * self.width as usize]
    }

    /// Hands the block out instruction by instruction.
    #[inline(always)]
    fn block<F: FnMut(u32)>(&self, i: usize, first: u32, f: &mut F) {
        let mut j = self.head[i];
        if j == NONE {
            return;
        }
        let mut left = self.len[i] as u32; // from here to the block's end
        while j != NONE {
            let r = self.rules[j as usize & 63];
            let g = r.guard as usize;
            let mut p = g + 3 * r.tokens as usize;
            expression_code(&self.file[g..p], first, f);
            f(ins(SKZ, 0, r.body as u32 + 1));
            while p != r.end as usize {
                let n = u16_at(self.file, p + 1);
                let cell = self.file[p + 3] as u32;
                expression_code(&self.file[p + 4..p + 3 + n], first, f);
                f(ins(STORE, 0, first + cell));
                p += 3 + n;
            }
            left -= r.tokens as u32 + r.body as u32 + 2;
            f(ins(SKIP, 0, left));
            j = r.next;
        }
        f(ins(VIOL, 0, 0))
    }

    /// Steps the cells in place; false and unchanged if refused. cells.len() == width.
    #[inline]
    fn step(&self, i: usize, args: &[i32; 8], cells: &mut [i32]) -> bool {
        let mut j = self.head[i];
        if j == NONE {
            return true;
        }
        while j != NONE {
            let r = self.rules[j as usize & 63];
            let g = r.guard as usize;
            let mut p = g + 3 * r.tokens as usize;
            if evaluate(&self.file[g..p], cells, args) != 0 {
                while p != r.end as usize {
                    let n = u16_at(self.file, p + 1);
                    cells[self.file[p + 3] as usize] = evaluate(&self.file[p + 4..p + 3 + n], cells, args);
                    p += 3 + n;
                }
                return true;
            }
            j = r.next;
        }
        false
    }
}

/// One policy, or two as a pair.
pub struct Policies<'a> {
    one: Policy<'a>,
    two: Option<Policy<'a>>,
    width: usize,
    watched: u64,
}

pub fn read_policies<'a>(one: &'a [u8], two: Option<&'a [u8]>) -> Result<Policies<'a>, Fault> {
    let one = read_policy(one)?;
    let two = match two {
        None => None,
        Some(b) => Some(read_policy(b)?),
    };
    let width = one.width as usize + two.as_ref().map_or(0, |t| t.width as usize);
    let watched = one.watched | two.as_ref().map_or(0, |t| t.watched);
    Ok(Policies { one, two, width, watched })
}

impl<'a> Policies<'a> {
    #[inline(always)]
    fn watches(&self, call: u32) -> bool {
        self.watched >> (call & 63) & 1 != 0
    }

    #[inline]
    fn len(&self, i: usize) -> usize {
        self.one.len[i] as usize + self.two.as_ref().map_or(0, |t| t.len[i] as usize)
    }

    /// Site lengths of all watched calls, 1 for the others.
    fn site_lengths(&self) -> [u16; 64] {
        let mut out = [1u16; 64];
        let mut left = self.watched;
        while left != 0 {
            let k = left.trailing_zeros() as usize;
            left &= left - 1;
            out[k] = 6 + (self.len(3 * k) + self.len(3 * k + 1) + self.len(3 * k + 2)) as u16;
        }
        out
    }

    #[inline(always)]
    fn block<F: FnMut(u32)>(&self, call: usize, moment: usize, f: &mut F) {
        let i = at(call, moment);
        self.one.block(i, 0, f);
        if let Some(ref two) = self.two {
            two.block(i, self.one.width as u32, f)
        }
    }

    /// The site of a call with its LOCK at index i, all but the last JUMP.
    #[inline(always)]
    fn site<F: FnMut(u32)>(&self, k: usize, i: usize, f: &mut F) {
        let leg = self.len(at(k, 2)) + 2;
        let raised = i + self.len(at(k, 0)) + self.len(at(k, 1)) + 4;
        f(ins(LOCK, k as u32, 0));
        self.block(k, 0, f);
        f(ins(HOST, k as u32, raised as u32 & 0xFFFF));
        self.block(k, 1, f);
        f(ins(UNLOCK, 0, 0));
        f(ins(SKIP, 0, leg as u32));
        self.block(k, 2, f);
        f(ins(UNLOCK, 0, 0))
    }

    pub fn write_starts(&self, row: &mut [i32]) {
        let a = self.one.starts();
        let b = self.two.as_ref().map_or(&[][..], |t| t.starts());
        for (c, s) in row.iter_mut().zip(a.chunks_exact(4).chain(b.chunks_exact(4))) {
            *c = i32::from_be_bytes([s[0], s[1], s[2], s[3]]);
        }
    }

    /// call < 64, moment < 3, row.len() >= width. args[4] is the answer.
    #[inline]
    fn taken(&self, moment: usize, call: usize, args: &[i32; 8], row: &mut [i32]) -> bool {
        let i = at(call, moment);
        match self.two {
            None => self.one.step(i, args, &mut row[..self.width]),
            Some(ref two) => {
                let w = self.one.width as usize;
                let mut kept = [0i32; 16];
                kept[..w].copy_from_slice(&row[..w]);
                if !self.one.step(i, args, &mut row[..w]) {
                    return false;
                }
                if !two.step(i, args, &mut row[w..self.width]) {
                    row[..w].copy_from_slice(&kept[..w]);
                    return false;
                }
                true
            }
        }
    }

    /// Steps a row by an event, through a real call: what a caller in another unit pays.
    #[inline(never)]
    pub fn step(&self, moment: u32, call: u32, args: &[i32; 8], row: &mut [i32]) -> Result<bool, Fault> {
        if call > 63 || moment > 2 {
            return Err(fault(8, 0));
        }
        if row.len() < self.width {
            return Err(fault(1, 0));
        }
        Ok(self.taken(moment as usize, call as usize, args, row))
    }
}

/// The length written, or the refusal; out is untouched then and past the file.
pub fn weave(p: &Policies, file: &[u8], out: &mut [u8]) -> Result<usize, Fault> {
    let ap = read_applet(file)?;
    let (cs, ce) = ap.cells;
    if cs != ce {
        return Err(fault(14, cs - 3));
    }
    let lengths = p.site_lengths();
    let mut counts = [0u32; 32];
    let mut long = 0;
    let mut size = cs + 4 * p.width;
    for m in 0..ap.count {
        let code = ap.code(m);
        let n = code.len() / 4;
        let mut total = 0u32;
        for i in 0..n {
            let w = word(code, i);
            if w >> 24 >= 0x20 {
                return Err(fault(14, ap.methods[m].off as usize + 4 * i));
            }
            total += if w >> 24 == HOST { lengths[(w >> 16 & 63) as usize] as u32 } else { 1 };
        }
        if total > 4096 && long == 0 {
            long = fault(15, ap.methods[m].off as usize - 3);
        }
        counts[m] = total;
        size += 3 + 4 * total as usize;
    }
    if long != 0 {
        return Err(long);
    }
    if size > 65535 {
        return Err(fault(16, 0));
    }
    if out.len() < size {
        return Err(fault(1, 0));
    }
    let out = &mut out[..size];
    // tags 1 to 3
    out[..cs - 3].copy_from_slice(&file[..cs - 3]);
    out[cs - 3] = 3;
    out[cs - 2] = 0;
    out[cs - 1] = 4 * p.width as u8;
    let mut o = cs;
    for part in [Some(&p.one), p.two.as_ref()].iter() {
        if let Some(part) = *part {
            let s = part.starts();
            out[o..o + s.len()].copy_from_slice(s);
            o += s.len();
        }
    }
    // the methods; seen: where in out a site of this call stands already
    let mut seen = [0u32; 64];
    let mut map = [0u16; 4096];
    for m in 0..ap.count {
        let code = ap.code(m);
        let n = code.len() / 4;
        let total = counts[m] as usize;
        out[o] = 4;
        out[o + 1] = (4 * total >> 8) as u8;
        out[o + 2] = (4 * total) as u8;
        o += 3;
        if total == n {
            // no site: nothing moves
            out[o..o + 4 * n].copy_from_slice(code);
            o += 4 * n;
            continue;
        }
        let mut at = 0u32;
        for (i, slot) in map[..n].iter_mut().enumerate() {
            *slot = at as u16;
            let w = word(code, i);
            at += if w >> 24 == HOST { lengths[(w >> 16 & 63) as usize] as u32 } else { 1 };
        }
        let mut j = 0; // woven index
        for i in 0..n {
            let w = word(code, i);
            let op = w >> 24;
            if op == HOST && p.watches(w >> 16) {
                let k = (w >> 16 & 63) as usize;
                let len = lengths[k] as usize;
                let at = o + 4 * j;
                if seen[k] != 0 {
                    out.copy_within(seen[k] as usize..seen[k] as usize + 4 * len, at);
                    let host = 1 + p.len(3 * k);
                    let raised = j + host + 3 + p.len(3 * k + 1);
                    put(&mut out[at..], host, ins(HOST, k as u32, raised as u32));
                } else {
                    seen[k] = at as u32;
                    let area = &mut out[at..at + 4 * len];
                    let mut i = 0;
                    p.site(k, j, &mut |w| {
                        put(area, i, w);
                        i += 1;
                    });
                }
                let t = map[w as usize & 0xFFF] as u32;
                put(&mut out[at..at + 4 * len], len - 1, ins(JUMP, 0, t));
                j += len;
            } else {
                let is = targeted(op);
                let t = map[if is { w as usize & 0xFFF } else { 0 }] as u32;
                put(&mut out[o..], j, if is { w & 0xFFFF_0000 | t } else { w });
                j += 1;
            }
        }
        o += 4 * total;
    }
    Ok(size)
}

const READY: u8 = 0;
const AWAITING: u8 = 1;
const ENDED: u8 = 2;

#[derive(Clone, Copy)]
struct Frame {
    r: [i32; 8],
    at: u32,   // offset in the file of the instruction
    base: u32, // of the method's code
}

#[derive(Clone, Copy)]
struct Thread {
    state: u8,
    top: u8,
    cur: Frame, // the topmost frame; those below it stand in frames[..top]
    frames: [Frame; 15],
}

pub struct Machine<'a> {
    file: &'a [u8],
    base: [u32; 32], // of each method's code
    count: usize,    // threads
    stopped: bool,
    holder: u8, // NONE: free
    m: [i32; 8],
    a: [i32; 8], // a0 to a4 in use
    s: [i32; 32],
    g: [i32; 64],
    threads: [Thread; 8],
}

#[derive(Clone, Copy)]
pub enum Said {
    Moved,
    Call(u8, [i32; 4]),
    Ended(u8),
    Stop,
    Refused(u8),
}

impl<'a> Machine<'a> {
    pub fn load(file: &'a [u8]) -> Result<Machine<'a>, Fault> {
        let ap = read_applet(file)?;
        let frame = Frame { r: [0; 8], at: 0, base: 0 };
        let mut m = Machine {
            file,
            base: [0; 32],
            count: 0,
            stopped: false,
            holder: NONE,
            m: [0; 8],
            a: [0; 8],
            s: [0; 32],
            g: [0; 64],
            threads: [Thread { state: READY, top: 0, cur: frame, frames: [frame; 15] }; 8],
        };
        for i in 0..ap.count {
            m.base[i] = ap.methods[i].off;
        }
        for (c, s) in m.s.iter_mut().zip(file[ap.cells.0..ap.cells.1].chunks_exact(4)) {
            *c = i32::from_be_bytes([s[0], s[1], s[2], s[3]]);
        }
        for &t in &file[ap.threads.0..ap.threads.1] {
            let f = &mut m.threads[m.count].cur;
            f.base = ap.methods[t as usize].off;
            f.at = f.base;
            m.count += 1;
        }
        Ok(m)
    }

    #[inline(always)]
    fn step(&mut self, t: usize) -> Said {
        if t >= self.count {
            return Said::Refused(2);
        }
        let th = &mut self.threads[t & 7];
        if self.stopped | (th.state != READY) {
            return Said::Refused(if self.stopped { 6 } else if th.state == ENDED { 5 } else { 4 });
        }
        let f = &mut th.cur;
        debug_assert!(f.at as usize + 4 <= self.file.len());
        // reading has shown that every instruction reached lies in its method
        let w = unsafe {
            u32::from_be((self.file.as_ptr().add(f.at as usize) as *const u32).read_unaligned())
        };
        let x = (w >> 16) as usize & 7;
        let y = w as usize & 0xFFFF;
        match w >> 24 {
            SET => f.r[x] = w as i16 as i32,
            MOV => f.r[x] = f.r[y & 7],
            ADD => f.r[x] = f.r[x].wrapping_add(f.r[y & 7]),
            SUB => f.r[x] = f.r[x].wrapping_sub(f.r[y & 7]),
            LT => f.r[x] = (f.r[x] < f.r[y & 7]) as i32,
            EQ => f.r[x] = (f.r[x] == f.r[y & 7]) as i32,
            GET => f.r[x] = self.g[y & 63],
            PUT => self.g[y & 63] = f.r[x],
            JUMP => {
                f.at = f.base + 4 * y as u32;
                return Said::Moved;
            }
            BRZ => {
                f.at = if f.r[x] == 0 { f.base + 4 * y as u32 } else { f.at + 4 };
                return Said::Moved;
            }
            CALL => {
                if th.top >= 15 {
                    th.state = ENDED;
                    return Said::Ended(1);
                }
                th.frames[th.top as usize] = *f;
                th.top += 1;
                f.r[4..].fill(0);
                f.base = self.base[y & 31];
                f.at = f.base;
                return Said::Moved;
            }
            RET => {
                if th.top == 0 {
                    th.state = ENDED;
                    return Said::Ended(0);
                }
                let r0 = f.r[0];
                th.top -= 1;
                *f = th.frames[th.top as usize % 15];
                f.r[0] = r0;
            }
            HOST => {
                th.state = AWAITING;
                return Said::Call((w >> 16) as u8, [f.r[0], f.r[1], f.r[2], f.r[3]]);
            }
            END => {
                th.state = ENDED;
                return Said::Ended(0);
            }
            LOCK => {
                if self.holder != NONE {
                    return Said::Refused(7);
                }
                self.holder = t as u8;
                self.a[..4].copy_from_slice(&f.r[..4]);
            }
            UNLOCK => {
                if self.holder != t as u8 {
                    th.state = ENDED;
                    return Said::Ended(2);
                }
                self.holder = NONE;
            }
            SKIP => f.at += 4 * y as u32,
            SKZ => f.at += if self.m[x] == 0 { 4 * y as u32 } else { 0 },
            VIOL => {
                self.stopped = true;
                return Said::Stop;
            }
            MSET => self.m[x] = w as i16 as i32,
            MCELL => self.m[x] = self.s[y & 31],
            MARG => self.m[x] = self.a[y & 7],
            STORE => self.s[y & 31] = self.m[x],
            _ => self.m[x] = operate(y as u32, self.m[x], self.m[(x + 1) & 7]),
        }
        f.at += 4;
        Said::Moved
    }

    /// The same, not inlined: what a caller in another unit pays.
    #[inline(never)]
    pub fn step_call(&mut self, t: usize) -> Said {
        self.step(t)
    }

    #[inline(always)]
    pub fn answer(&mut self, t: usize, raised: bool, value: i32) -> Result<(), u8> {
        if t >= self.count {
            return Err(2);
        }
        if self.stopped {
            return Err(6);
        }
        let th = &mut self.threads[t & 7];
        if th.state != AWAITING {
            return Err(3);
        }
        let f = &mut th.cur;
        f.r[0] = value;
        if self.holder == t as u8 {
            self.a[4] = value;
        }
        f.at = if raised {
            let p = f.at as usize + 2;
            f.base + 4 * ((byte(self.file, p) as u32) << 8 | byte(self.file, p + 1) as u32)
        } else {
            f.at + 4
        };
        th.state = READY;
        Ok(())
    }
}
