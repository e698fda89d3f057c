// The check of bench/rows.py in plain Rust: `plain_rows TABLES`. Twenty columns x0 .. x9, y0 .. y9 of one
// instance; for each k `xk' = xk + yk` and `(xk + yk) * x(k+1) = xk' * x(k+1)` modulo p at every row.
include!("goldilocks.rs");

#[inline(always)]
fn mul(a: u64, b: u64) -> u64 {
    reduce(a as u128 * b as u128)
}

#[inline(always)]
fn add(a: u64, b: u64) -> u64 {
    let sum = a as u128 + b as u128;
    (if sum >= P as u128 { sum - P as u128 } else { sum }) as u64
}

fn main() {
    let bytes = std::fs::read(std::env::args().nth(1).unwrap()).unwrap();
    let number = |at: usize| u64::from_le_bytes(bytes[at..at + 8].try_into().unwrap());
    let rows = u32::from_le_bytes(bytes[28..32].try_into().unwrap()) as usize;
    let columns: Vec<Vec<u64>> = (0..20)
        .map(|k| (0..rows).map(|r| number(32 + 8 * (k * rows + r))).collect())
        .collect();
    assert!(columns.iter().flatten().all(|v| *v < P));
    for k in 0..10 {
        for r in 0..rows {
            let next = if r + 1 == rows { 0 } else { r + 1 };
            let sum = add(columns[k][r], columns[10 + k][r]);
            if columns[k][next] != sum {
                println!("broken line {} instance 0 row {r}", 2 * k + 1);
                return;
            }
        }
        for r in 0..rows {
            let next = if r + 1 == rows { 0 } else { r + 1 };
            let other = columns[(k + 1) % 10][r];
            let sum = add(columns[k][r], columns[10 + k][r]);
            if mul(sum, other) != mul(columns[k][next], other) {
                println!("broken line {} instance 0 row {r}", 2 * k + 2);
                return;
            }
        }
    }
    println!("accepted");
}
