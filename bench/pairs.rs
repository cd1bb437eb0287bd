// The loops of the program `numbers_bench` over pairs of `i128`: what `bench/numbers.py` compares with. The operands
// are the same ones, and so is the check that is printed, since no result passes 127 bits.
use std::cmp::Ordering;
use std::env;

type Number = (i128, i128);

const SMALL: i128 = 1 << 63;

fn gcd(a: u128, b: u128) -> u128 {
    let (mut x, mut y) = (a, b);
    while y != 0 {
        (x, y) = (y, x % y);
    }
    x
}

fn reduced(n: i128, d: i128) -> Number {
    let g = gcd(n.unsigned_abs(), d.unsigned_abs()) as i128;
    (n / g, d / g)
}

fn is_small(a: Number) -> bool {
    a.1 == 1 && -SMALL < a.0 && a.0 < SMALL
}

fn add(a: Number, b: Number) -> Option<Number> {
    if is_small(a) && is_small(b) {
        return Some((a.0 + b.0, 1));
    }
    let g = gcd(a.1 as u128, b.1 as u128) as i128;
    let m = a.1.checked_mul(b.1 / g)?;
    let n = a.0.checked_mul(m / a.1)?.checked_add(b.0.checked_mul(m / b.1)?)?;
    Some(reduced(n, m))
}

fn mul(a: Number, b: Number) -> Option<Number> {
    if is_small(a) && is_small(b) {
        return Some((a.0 * b.0, 1));
    }
    let g = gcd(a.0.unsigned_abs(), b.1 as u128) as i128;
    let h = gcd(b.0.unsigned_abs(), a.1 as u128) as i128;
    Some(((a.0 / g).checked_mul(b.0 / h)?, (a.1 / h).checked_mul(b.1 / g)?))
}

fn wide(a: u128, b: u128) -> (u128, u128) {
    const HALF: u128 = u64::MAX as u128;
    let (a0, a1, b0, b1) = (a & HALF, a >> 64, b & HALF, b >> 64);
    let low = a0 * b0;
    let middle = a1 * b0 + (low >> 64);
    let cross = a0 * b1 + (middle & HALF);
    (a1 * b1 + (middle >> 64) + (cross >> 64), (cross << 64) | (low & HALF))
}

fn compare(a: Number, b: Number) -> Ordering {
    if a.1 == b.1 {
        return a.0.cmp(&b.0);
    }
    match (a.0 < 0, b.0 < 0) {
        (true, false) => Ordering::Less,
        (false, true) => Ordering::Greater,
        (false, false) => wide(a.0 as u128, b.1 as u128).cmp(&wide(b.0 as u128, a.1 as u128)),
        (true, true) => wide(b.0.unsigned_abs(), a.1 as u128).cmp(&wide(a.0.unsigned_abs(), b.1 as u128)),
    }
}

struct Draw(u64);

impl Draw {
    fn next(&mut self) -> i128 {
        self.0 = self.0.wrapping_mul(6364136223846793005).wrapping_add(1442695040888963407);
        (self.0 >> 32) as i128
    }
}

fn drawn(kind: &str, draw: &mut Draw) -> Number {
    let (first, second) = (draw.next(), draw.next());
    let small = first.rem_euclid(2_000_001) - 1_000_000;
    match kind {
        "small" => (small, 1),
        "short" => reduced(small, 10i128.pow(second.rem_euclid(7) as u32)),
        _ => {
            let high = draw.next() << 64;
            let middle = draw.next() << 32;
            reduced(high + middle + first + (1 << 99), second.rem_euclid(1_000) + 1)
        }
    }
}

fn shown(result: Option<Number>) -> i128 {
    result.map_or(1, |q| q.0 ^ q.1)
}

fn main() {
    let words: Vec<String> = env::args().collect();
    let (kind, operation) = (words[1].as_str(), words[2].as_str());
    let rounds = words[3].parse::<u64>().unwrap() / 1000;
    let mut draw = Draw(1);
    let pairs: Vec<(Number, Number)> = (0..1000)
        .map(|_| {
            let a = drawn(kind, &mut draw);
            let b = drawn(kind, &mut draw);
            (a, if kind == "wide" && operation == "mul" { (b.1, b.0) } else { b })
        })
        .collect();
    let mut check: i128 = 0;
    for _ in 0..rounds {
        for &(a, b) in &pairs {
            let new = match operation {
                "add" => shown(add(a, b)),
                "mul" => shown(mul(a, b)),
                _ => match compare(a, b) {
                    Ordering::Less => 1,
                    Ordering::Equal => 2,
                    Ordering::Greater => 4,
                },
            };
            check = check.rotate_left(1).wrapping_add(new);
        }
    }
    println!("{check}");
}
