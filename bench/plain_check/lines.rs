//! The machine's lines (docs/CONSTRAINTS.md; `zkw machine` prints them), an air a function. A row that isn't
//! selected has no line beyond the first ones, since each has `sel` as a factor or selector, and a product
//! modulo a prime is 0 where a factor is.
use crate::constants::Image;
use crate::{joined, total, Block, Buses, First, F, ONE, ZERO};

const REGISTERS: F = F(1 << 29);
const BYTE: u64 = 1 << 8;
const DIGIT: u64 = 1 << 16;
const LIMB: F = F(1 << 32);
const ALL_ONES: F = F((1 << 32) - 1);

/// k q[0] + (k + 1) q[1] + ..
#[inline(always)]
fn numbered(k: u64, flags: &[F]) -> F {
    (k..).zip(flags).fold(ZERO, |sum, (k, &flag)| sum + F(k) * flag)
}

pub fn main(block: &Block, image: &Image, first: &mut First, buses: &mut Buses) {
    for r in 0..block.rows {
        let row = block.row::<37>(r);
        let [sel, pc, rs1, rs2, rd, op, ilo, ihi, klo, khi, jt, kind, bi, wr, ld, st, jr, jp, br, inv, halt, uw, ..] = row;
        let [alo, ahi, slo, shi, clo, chi, flag, bit, wl, wh, off, olo, ohi, mlo, mhi] = *row[22..].first_chunk().unwrap();
        let last = r + 1 == block.rows;
        let step = F((block.instance * block.rows + r) as u64);
        let (blo, bhi) = (bi * ilo + (ONE - bi) * slo, bi * ihi + (ONE - bi) * shi);
        let ms = sel * (ld + st);
        let w = wl + F(DIGIT) * wh;
        let vlo = jr * klo + ld * mlo + (ONE - jr - ld) * clo;
        let vhi = jr * khi + ld * mhi + (ONE - jr - ld) * chi;
        let tk = flag + inv - F(2) * flag * inv;
        let next = pc + F(4);
        let nx = next + (jp + br * tk) * (jt - next) + jr * (clo - bit - next);
        let go = sel * (ONE - halt);

        let mut at = block.at(first, r);
        at.bit(1, sel);
        if block.instance == 0 && r == 0 {
            at.zero(2, sel - ONE);
            at.zero(3, pc - F(image.entry));
        } else if r == 0 {
            buses.steps.right.push([F(block.instance as u64), sel, sel * pc]);
        }
        if !last {
            let [after, after_pc] = block.row(r + 1);
            at.zero(4, after - go);
            at.holds(5, go == ZERO || after_pc == nx);
        } else if block.instance + 1 == block.instances {
            at.zero(6, go);
        } else {
            buses.steps.left.push([F(block.instance as u64 + 1), go, go * nx]);
        }
        if sel == ZERO {
            continue;
        }
        let known = image.rom.get(&pc.0).is_some_and(|known| known.iter().zip(&row[1..22]).all(|(a, b)| *a == b.0));
        at.holds(8, known);
        at.zero(9, halt * (alo - F(93)));
        at.zero(10, halt * ahi);
        at.zero(11, jr * chi);
        at.holds(12, jr == ZERO || bit.0 < 2);
        let accesses = &mut buses.accesses.left;
        let time = F(8) * step;
        if ms != ZERO {
            at.zero(13, chi);
            at.zero(14, clo - F(8) * w - off);
            at.short(15, wl);
            at.short(16, wh);
            at.short(17, F(8) * wh);
            buses.doublewords.left.push([kind, off, olo, ohi, slo, shi, mlo, mhi]);
            accesses.push([w, time + F(3), ZERO, olo, ohi]);
        }
        buses.operations.left.push([op, alo, (ONE - uw) * ahi, blo, bhi, clo, chi, flag]);
        accesses.push([REGISTERS + rs1, time + F(1), ZERO, alo, ahi]);
        accesses.push([REGISTERS + rs2, time + F(2), ZERO, slo, shi]);
        if st != ZERO {
            accesses.push([w, time + F(4), ONE, mlo, mhi]);
        }
        if wr != ZERO {
            accesses.push([REGISTERS + rd, time + F(5), ONE, vlo, vhi]);
        }
    }
}

pub fn mem(block: &Block, first: &mut First, buses: &mut Buses) {
    for r in 0..block.rows {
        let [sel, key, time, wr, lo, hi, same, g0, g1, g2, psel, pkey, ptime, plo, phi] = block.row(r);
        let start = block.instance == 0 && r == 0;
        let mut at = block.at(first, r);
        at.bit(21, sel);
        if r + 1 < block.rows {
            let after = block.row::<15>(r + 1);
            at.holds(23, after[10] == sel);
            at.holds(24, after[11] == key);
            at.holds(25, after[12] == time);
            at.holds(26, after[13] == lo);
            at.holds(27, after[14] == hi);
        } else if block.instance + 1 < block.instances {
            buses.rows.left.push([F(block.instance as u64 + 1), sel, key, time, lo, hi]);
        }
        if block.instance > 0 && r == 0 {
            buses.rows.right.push([F(block.instance as u64), psel, pkey, ptime, plo, phi]);
        }
        if sel == ZERO {
            continue;
        }
        at.bit(22, same);
        if start {
            at.zero(30, same);
        } else {
            let gap = g0 + F(DIGIT) * g1 + LIMB * g2;
            at.zero(29, ONE - psel);
            at.zero(31, same * (key - pkey));
            at.zero(32, gap - same * (time - ptime - ONE) - (ONE - same) * (key - pkey - ONE));
        }
        at.zero(33, (ONE - wr) * (lo - same * plo));
        at.zero(34, (ONE - wr) * (hi - same * phi));
        at.shorts(35, &[g0, g1, g2]);
        buses.accesses.right.push([key, time, wr, lo, hi]);
    }
}

/// The values that are published.
pub fn out(block: &Block, buses: &mut Buses) -> Vec<[F; 2]> {
    let published: Vec<[F; 2]> = (0..33).map(|r| block.row(r)).collect();
    for (r, [lo, hi]) in published.iter().enumerate() {
        let key = if r == 0 { REGISTERS + F(10) } else { F(0x5000_0000 / 8 + r as u64 - 1) };
        buses.accesses.left.push([key, F(1 << 35), ZERO, *lo, *hi]);
    }
    published
}

pub fn align(block: &Block, first: &mut First, buses: &mut Buses) {
    for r in 0..block.rows {
        let row = block.row::<38>(r);
        let sel = row[0];
        let mut at = block.at(first, r);
        at.bit(38, sel);
        if sel == ZERO {
            continue;
        }
        let (q, f, o, v) = (&row[1..12], &row[12..20], &row[20..28], &row[28..36]);
        let (ts, rs) = (row[36], row[37]);
        let chosen = |offset: usize, step: usize| (0..8).step_by(step).fold(ZERO, |sum, k| sum + f[k] * o[k + offset]);
        let e = [chosen(0, 1), chosen(1, 2), chosen(2, 4), chosen(3, 4)];
        // what byte k is after a store: the first of the stored bytes where the place is k, and so on
        let stored = |k: usize| {
            let put = |to: usize| v[to] - o[k];
            let quarter = k & 3;
            let first_of = (q[7] + q[8]) * f[k] * put(0);
            let second_of = if k > 0 { q[8] * f[k - 1] * put(1) } else { ZERO };
            o[k] + first_of + second_of + q[9] * f[k - quarter] * put(quarter) + q[10] * put(k)
        };
        let n: [F; 8] = std::array::from_fn(stored);
        let stores = q[7] + q[8] + q[9] + q[10];
        let (olo, ohi) = (joined(BYTE, &o[..4]), joined(BYTE, &o[4..]));
        let mlo = (q[0] + q[4]) * e[0]
            + (q[1] + q[5]) * joined(BYTE, &e[..2])
            + (q[2] + q[6] + q[3]) * joined(BYTE, &e)
            + q[0] * ts * F(0xffff_ff00)
            + q[1] * ts * F(0xffff_0000)
            + stores * joined(BYTE, &n[..4]);
        let mhi = q[3] * ohi + (q[0] + q[1] + q[2]) * ts * ALL_ONES + stores * joined(BYTE, &n[4..]);

        at.bits(39, q);
        at.bits(50, f);
        at.zero(58, total(q) - ONE);
        at.zero(59, total(f) - ONE);
        at.zero(60, (q[1] + q[5] + q[8]) * (f[1] + f[3] + f[5] + f[7]));
        at.zero(61, (q[2] + q[6] + q[9]) * (ONE - f[0] - f[4]));
        at.zero(62, (q[3] + q[10]) * (ONE - f[0]));
        at.zero(63, q[0] * e[0] + q[1] * e[1] + q[2] * e[3] - F(128) * ts - rs);
        at.bit(64, ts);
        at.short(65, rs);
        at.short(66, F(512) * rs);
        for k in 0..8 {
            at.holds(67 + k as u32, o[k].0 < 256 && v[k].0 < 256);
        }
        buses.doublewords.right.push([numbered(1, q), numbered(0, f), olo, ohi, joined(BYTE, &v[..4]), joined(BYTE, &v[4..]), mlo, mhi]);
    }
}

pub fn binary(block: &Block, first: &mut First, buses: &mut Buses) {
    for r in 0..block.rows {
        let row = block.row::<57>(r);
        let sel = row[0];
        let mut at = block.at(first, r);
        at.bit(75, sel);
        if sel == ZERO {
            continue;
        }
        let (q, x, a, b, n, z) = (&row[1..11], &row[11..16], &row[16..24], &row[24..32], &row[32..40], &row[40..44]);
        let [k0, k1, j0, j1, sa, ra, sb, rb, sw, rw, eq, e0, e1] = *row[44..].first_chunk().unwrap();
        let (alo, ahi) = (joined(BYTE, &a[..4]), joined(BYTE, &a[4..]));
        let (blo, bhi) = (joined(BYTE, &b[..4]), joined(BYTE, &b[4..]));
        let (nlo, nhi) = (joined(BYTE, &n[..4]), joined(BYTE, &n[4..]));
        let (zlo, zhi) = (joined(DIGIT, &z[..2]), joined(DIGIT, &z[2..]));
        let mi = q[1] + q[2] + q[3] + q[4] + q[9];
        let m = ONE + x[0] + F(3) * x[1] + F(7) * x[2];
        let sh = x[0] + x[1] + x[2];
        let cz = x[3] + x[4];
        let kp = x[3] * (ONE - eq) + x[4] * eq;
        let df = sa + sb - F(2) * sa * sb;
        let flag = q[2] * k1 + q[3] * (df * sa + (ONE - df) * k1) + q[4] * eq;
        let clo = (q[0] + q[1] + q[8] + q[9] + sh) * zlo + flag + kp * alo + q[5] * nlo + q[6] * (alo + blo - nlo) + q[7] * (alo + blo - F(2) * nlo);
        let chi = (q[0] + q[1] + sh) * zhi + kp * ahi + (q[8] + q[9]) * sw * ALL_ONES + q[5] * nhi + q[6] * (ahi + bhi - nhi) + q[7] * (ahi + bhi - F(2) * nhi);
        let s = total(z);
        let e = e0 + F(DIGIT) * e1;
        let of_b = total(b);

        at.bits(76, &row[1..16]);
        at.zero(91, total(&row[1..16]) - ONE);
        for k in 0..8 {
            at.holds(92 + k as u32, a[k].0 < 256 && b[k].0 < 256 && n[k].0 == a[k].0 & b[k].0);
        }
        at.shorts(100, z);
        at.bits(104, &[k0, k1, sa, sb, sw, eq]);
        at.shorts(110, &[ra, F(512) * ra, rb, F(512) * rb, rw, F(2) * rw, e0, e1, j0, j1]);
        at.zero(120, a[7] - F(128) * sa - ra);
        at.zero(121, b[7] - F(128) * sb - rb);
        at.zero(122, z[1] - F(32768) * sw - rw);
        at.zero(123, (ONE - mi) * (m * alo + blo - zlo - LIMB * (k0 + j0)) + mi * (blo + zlo - alo - LIMB * k0));
        at.zero(124, (ONE - mi) * (m * ahi + bhi + k0 + j0 - zhi - LIMB * (k1 + j1)) + mi * (bhi + zhi + k0 - ahi - LIMB * k1));
        at.zero(125, q[4] * eq * s);
        at.zero(126, q[4] * (ONE - eq) * (s - ONE - e));
        at.zero(127, cz * eq * of_b);
        at.zero(128, cz * (ONE - eq) * (of_b - ONE - e));
        buses.operations.right.push([numbered(1, q) + numbered(30, x), alo, ahi, blo, bhi, clo, chi, flag]);
    }
}

/// ShiftTab's row of an operation and an amount: RT, AR, WW, U0 to U3, M.
fn shift_row(op: u64, s: u64) -> Option<[u64; 8]> {
    if !(11..17).contains(&op) || s >= 64 {
        return None;
    }
    let (right, arithmetic, half) = (op != 11 && op != 14, op == 13 || op == 16, op >= 14);
    let amount = if half { s % 32 } else { s };
    let mut row = [right as u64, arithmetic as u64, half as u64, 0, 0, 0, 0, 0];
    row[3 + amount as usize / 16] = 1;
    row[7] = if right { 1 << (16 - amount % 16) } else { 1 << (amount % 16) };
    Some(row)
}

pub fn shift(block: &Block, first: &mut First, buses: &mut Buses) {
    for r in 0..block.rows {
        let row = block.row::<30>(r);
        let [sel, op, a0, a1, a2, a3, bhi, s, t0, t1, rt, ar, ww, u0, u1, u2, u3, m, sb, xr, ..] = row;
        let mut at = block.at(first, r);
        at.bit(129, sel);
        if sel == ZERO {
            continue;
        }
        let (h, l, ws, rr) = (&row[20..24], &row[24..28], row[28], row[29]);
        let left = ONE - rt;
        let f = ar * sb;
        let filled = ww * f * F(65535);
        let (e2, e3) = ((ONE - ww) * a2 + filled, (ONE - ww) * a3 + filled);
        let d0 = left * l[0] + rt * (h[0] + l[1]);
        let d1 = left * (l[1] + h[0]) + rt * (h[1] + l[2]);
        let d2 = left * (l[2] + h[1]) + rt * (h[2] + l[3]);
        let d3 = left * (l[3] + h[2]) + rt * (h[3] + f * (F(65536) - m));
        let x = f * F(65535);
        let r0 = u0 * d0 + rt * (u1 * d1 + u2 * d2 + u3 * d3);
        let r1 = u0 * d1 + left * u1 * d0 + rt * (u1 * d2 + u2 * d3 + u3 * x);
        let r2 = u0 * d2 + left * (u1 * d1 + u2 * d0) + rt * (u1 * d3 + (u2 + u3) * x);
        let r3 = u0 * d3 + left * (u1 * d2 + u2 * d1 + u3 * d0) + rt * (u1 + u2 + u3) * x;
        let clo = r0 + F(DIGIT) * r1;
        let chi = (ONE - ww) * (r2 + F(DIGIT) * r3) + ww * ws * ALL_ONES;

        at.holds(130, shift_row(op.0, s.0) == Some([rt, ar, ww, u0, u1, u2, u3, m].map(|v| v.0)));
        at.shorts(131, &[a0, a1, a2, a3, t0, t1, F(64) * t1]);
        at.bits(138, &[sb, ws]);
        at.shorts(140, &[xr, F(2) * xr, rr, F(2) * rr]);
        at.shorts(144, h);
        at.shorts(148, l);
        at.zero(152, ww * a1 + (ONE - ww) * a3 - F(32768) * sb - xr);
        for (k, part) in [a0, a1, e2, e3].into_iter().enumerate() {
            at.zero(153 + k as u32, part * m - F(DIGIT) * h[k] - l[k]);
        }
        at.zero(157, r1 - F(32768) * ws - rr);
        let (alo, ahi) = (a0 + F(DIGIT) * a1, a2 + F(DIGIT) * a3);
        let blo = s + F(64) * (t0 + F(DIGIT) * t1);
        buses.operations.right.push([op, alo, ahi, blo, bhi, clo, chi, ZERO]);
    }
}

/// The columns of Arith, and what its lines name.
struct Arith<'a> {
    q: &'a [F],
    a: &'a [F],
    b: &'a [F],
    x: &'a [F],
    y: &'a [F],
    r: &'a [F],
    w: &'a [F],
    g: &'a [F],
    z: &'a [F],
    cl: &'a [F],
    ch: &'a [F],
    n: F,
    one: [F; 13],
}

impl<'a> Arith<'a> {
    #[inline(always)]
    fn of(v: &'a [F; 79]) -> Self {
        let one = [v[56], v[57], v[58], v[59], v[60], v[61], v[62], v[65], v[70], v[75], v[76], v[77], v[78]];
        Arith {
            q: &v[1..14],
            a: &v[14..18],
            b: &v[18..22],
            x: &v[22..26],
            y: &v[26..30],
            r: &v[30..34],
            w: &v[34..42],
            cl: &v[42..49],
            ch: &v[49..56],
            n: v[63] + F(DIGIT) * v[64],
            g: &v[66..70],
            z: &v[71..75],
            one,
        }
    }
}

/// The column sums of x times y, and r below: each has the digit of w and the carry.
#[inline(always)]
fn product(at: &mut crate::At, v: &Arith) {
    let mut carry = ZERO;
    for k in 0..7 {
        let pairs = (k.max(3) - 3..=k.min(3)).fold(ZERO, |sum, i| sum + v.x[i] * v.y[k - i]);
        let sum = pairs + if k < 4 { v.r[k] } else { ZERO } + carry;
        carry = v.cl[k] + F(DIGIT) * v.ch[k];
        at.zero(249 + k as u32, sum - v.w[k] - F(DIGIT) * carry);
    }
    at.zero(256, carry - v.w[7]);
}

pub fn arith(block: &Block, first: &mut First, buses: &mut Buses) {
    for row in 0..block.rows {
        let columns = block.row::<79>(row);
        let sel = columns[0];
        let mut at = block.at(first, row);
        at.bit(158, sel);
        if sel == ZERO {
            continue;
        }
        let v = Arith::of(&columns);
        let [ta, ra, tb, rb, ka, kb, kn, zb, kg, k1, k2, sw, rw] = v.one;
        let q = v.q;
        at.bits(159, q);
        at.zero(172, total(q) - ONE);
        at.shorts(173, &columns[14..56]); // a, b, x, y, r, w, cl, ch
        at.shorts(215, &columns[63..65]);
        at.shorts(217, v.g);
        at.shorts(221, v.z);
        at.shorts(225, &[ra, F(2) * ra, rb, F(2) * rb, rw, F(2) * rw]);
        at.bits(231, &[ta, tb, ka, kb, kn, zb, kg, k1, k2, sw]);

        let pair = |digits: &[F], k: usize| digits[k] + F(DIGIT) * digits[k + 1];
        let ww = total(&q[8..13]);
        let hi = q[1] + q[2] + q[3];
        let lw = q[0] + q[8];
        let dq = q[4] + q[5] + q[9] + q[10];
        let dr = q[6] + q[7] + q[11] + q[12];
        let (mu, dv) = (hi + lw, dq + dr);
        let na = (q[1] + q[2] + q[4] + q[6] + q[9] + q[11]) * ta;
        let nb = (q[1] + q[4] + q[6] + q[9] + q[11]) * tb;
        let (alo, ahi, blo, bhi) = (pair(v.a, 0), pair(v.a, 2), pair(v.b, 0), pair(v.b, 2));
        let eahi = (ONE - ww) * ahi + ww * na * ALL_ONES;
        let ebhi = (ONE - ww) * bhi + ww * nb * ALL_ONES;
        let malo = mu * pair(v.x, 0) + dv * pair(v.w, 0);
        let mahi = mu * pair(v.x, 2) + dv * pair(v.w, 2);
        let (ylo, yhi) = (pair(v.y, 0), pair(v.y, 2));
        let df = na + nb - F(2) * na * nb;
        let nf = (hi + dq) * df + dr * na;
        let vlo = hi * pair(v.w, 4) + lw * pair(v.w, 0) + dq * pair(v.x, 0) + dr * pair(v.r, 0);
        let vhi = hi * pair(v.w, 6) + lw * pair(v.w, 2) + dq * pair(v.x, 2) + dr * pair(v.r, 2);
        let (zlo, zhi) = (pair(v.z, 0), pair(v.z, 2));
        let s = total(&v.w[..4]);
        let on = ONE - dq * zb;

        at.zero(241, ww * v.a[1] + (ONE - ww) * v.a[3] - F(32768) * ta - ra);
        at.zero(242, ww * v.b[1] + (ONE - ww) * v.b[3] - F(32768) * tb - rb);
        at.zero(243, na * (malo + alo - LIMB * ka) + (ONE - na) * (malo - alo));
        at.zero(244, na * (mahi + eahi + ka - LIMB) + (ONE - na) * (mahi - eahi));
        at.zero(245, nb * (ylo + blo - LIMB * kb) + (ONE - nb) * (ylo - blo));
        at.zero(246, nb * (yhi + ebhi + kb - LIMB) + (ONE - nb) * (yhi - ebhi));
        at.zero(247, mu * total(v.r));
        at.zero(248, dv * total(&v.w[4..]));
        product(&mut at, &v);
        at.zero(257, hi * (ONE - kn) * s);
        at.zero(258, hi * kn * (s - ONE - v.n));
        at.zero(259, zb * total(v.y));
        at.zero(260, dv * (ONE - zb) * (pair(v.r, 0) + pair(v.g, 0) + ONE - ylo - LIMB * kg));
        at.zero(261, dv * (ONE - zb) * (pair(v.r, 2) + pair(v.g, 2) + kg - yhi));
        at.zero(262, on * (nf * (vlo + zlo + hi * kn - LIMB * k1) + (ONE - nf) * (zlo - vlo)));
        at.zero(263, on * (nf * (vhi + zhi + k1 - LIMB * k2) + (ONE - nf) * (zhi - vhi)));
        at.zero(264, dq * zb * (zlo - ALL_ONES));
        at.zero(265, dq * zb * (zhi - ALL_ONES));
        at.zero(266, v.z[1] - F(32768) * sw - rw);
        let chi = (ONE - ww) * zhi + ww * sw * ALL_ONES;
        buses.operations.right.push([numbered(17, q), alo, ahi, blo, bhi, zlo, chi, ZERO]);
    }
}
