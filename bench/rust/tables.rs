// The tables of the bench: sixteen of two columns, drawn from a fixed seed.

// With this seed the question without an answer has none, for tables of 256, 512, .. 4096 rows.
const SEED: u64 = 22_000_000;

struct Random(u64);

impl Random {
    // The generator splitmix64.
    fn next(&mut self) -> u64 {
        self.0 = self.0.wrapping_add(0x9e37_79b9_7f4a_7c15);
        let mut z = self.0;
        z = (z ^ (z >> 30)).wrapping_mul(0xbf58_476d_1ce4_e5b9);
        z = (z ^ (z >> 27)).wrapping_mul(0x94d0_49bb_1331_11eb);
        z ^ (z >> 31)
    }

    fn below(&mut self, n: u64) -> u64 {
        self.next() % n
    }
}

// Each of 1 to n once, in random order.
fn shuffled(random: &mut Random, n: u64) -> Vec<u64> {
    let mut values: Vec<u64> = (1..=n).collect();
    for i in (1..values.len()).rev() {
        values.swap(i, random.below(i as u64 + 1) as usize);
    }
    values
}

// Pairs 1 to n with 1 to n, in random order.
fn keys(random: &mut Random, n: u64) -> Vec<[u64; 2]> {
    let left = shuffled(random, n);
    let right = shuffled(random, n);
    left.into_iter().zip(right).map(|(a, b)| [a, b]).collect()
}

// The value k of 1 to n is drawn with a weight of 1 / k.
fn skewed(random: &mut Random, n: u64) -> Vec<[u64; 2]> {
    let mut sums = Vec::new();
    let mut sum = 0;
    for k in 1..=n {
        sum += 1_000_000_000 / k;
        sums.push(sum);
    }
    let mut draw = || {
        let at = random.below(sum);
        sums.partition_point(|s| *s <= at) as u64 + 1
    };
    (0..n).map(|_| [draw(), draw()]).collect()
}

fn even(random: &mut Random, n: u64, values: u64) -> Vec<[u64; 2]> {
    (0..n)
        .map(|_| [random.below(values) + 1, random.below(values) + 1])
        .collect()
}

// The sixteen tables, of n rows each.
pub fn tables(n: u64) -> Vec<Vec<[u64; 2]>> {
    (0..16)
        .map(|t| {
            let mut random = Random(SEED + 16 * n + t);
            match t / 4 {
                0 => keys(&mut random, n),
                1 => skewed(&mut random, n),
                2 => even(&mut random, n, 64),
                _ => even(&mut random, n, 256),
            }
        })
        .collect()
}

// The tables as they are lent: their count, then each one's number, rows, columns and cells.
pub fn lent(tables: &[Vec<[u64; 2]>]) -> Vec<u64> {
    let mut numbers = vec![tables.len() as u64];
    for (t, rows) in tables.iter().enumerate() {
        numbers.extend([t as u64, rows.len() as u64, 2]);
        numbers.extend(rows.iter().flatten());
    }
    numbers
}
