//! Reading a CVRP file of the plainest spelling, for the kernels beside it.
use std::io::Read;

pub struct Problem {
    pub n: usize,
    /// in units, as demands are
    pub capacity: usize,
    /// as the file has it
    pub whole: u64,
    pub unit: u64,
    pub symmetric: bool,
    pub demand: Vec<usize>,
    pub weight: Vec<u64>,
    pub least_in: Vec<u64>,
    pub least_home: u64,
}

fn root(x: u64) -> u64 {
    let mut k = (x as f64).sqrt() as u64;
    while k * k > x {
        k -= 1
    }
    while (k + 1) * (k + 1) <= x {
        k += 1
    }
    k
}
fn gcd(a: u64, b: u64) -> u64 {
    if b == 0 {
        a
    } else {
        gcd(b, a % b)
    }
}

/// from standard input
pub fn read() -> Problem {
    let mut text = String::new();
    std::io::stdin().read_to_string(&mut text).unwrap();
    let (mut n, mut capacity, mut section) = (0, 0u64, 0);
    let (mut points, mut demand, mut listed) = (vec![], vec![], vec![]);
    let (mut kind, mut format) = ("", "");
    for line in text.lines() {
        let line = line.trim();
        if line == "EOF" {
            break;
        }
        if line.ends_with("_SECTION") {
            section = if line.starts_with("NODE") {
                1
            } else if line.starts_with("DEMAND") {
                2
            } else if line.starts_with("EDGE") {
                3
            } else {
                4
            };
            continue;
        }
        if let Some((key, value)) = line.split_once(':') {
            match key.trim() {
                "DIMENSION" => {
                    n = value.trim().parse().unwrap();
                    points = vec![(0i64, 0i64); n];
                    demand = vec![0u64; n]
                }
                "CAPACITY" => capacity = value.trim().parse().unwrap(),
                "EDGE_WEIGHT_TYPE" => kind = value.trim(),
                "EDGE_WEIGHT_FORMAT" => format = value.trim(),
                _ => {}
            }
            continue;
        }
        let numbers: Vec<f64> = line.split_whitespace().map(|x| x.parse().unwrap()).collect();
        match section {
            1 => points[numbers[0] as usize - 1] = (numbers[1] as i64, numbers[2] as i64),
            2 => demand[numbers[0] as usize - 1] = numbers[1] as u64,
            3 => listed.extend(numbers.iter().map(|&x| x as u64)),
            _ => {}
        }
    }
    let mut listed = listed.into_iter();
    let mut weight = vec![0; n * n];
    for i in 0..n {
        for j in 0..n {
            let (x, y) = (points[i].0 - points[j].0, points[i].1 - points[j].1);
            let s = (x * x + y * y) as u64;
            let k = root(s);
            match (kind, format) {
                ("EUC_2D", _) => weight[i * n + j] = if s > k * k + k { k + 1 } else { k },
                ("CEIL_2D", _) => weight[i * n + j] = if s > k * k { k + 1 } else { k },
                ("EXPLICIT", "FULL_MATRIX") => weight[i * n + j] = listed.next().unwrap(),
                ("EXPLICIT", "LOWER_ROW") => {
                    if j < i {
                        let w = listed.next().unwrap();
                        weight[i * n + j] = w;
                        weight[j * n + i] = w
                    }
                }
                _ => panic!("{} {}", kind, format),
            }
        }
    }
    let symmetric = (0..n).all(|i| (0..i).all(|j| weight[i * n + j] == weight[j * n + i]));
    let unit = demand.iter().fold(0, |a, &b| gcd(a, b)).max(1);
    let least_in = (0..n)
        .map(|j| (0..n).filter(|&i| i != j).map(|i| weight[i * n + j]).min().unwrap_or(0))
        .collect();
    let least_home = (1..n).map(|i| weight[i * n]).min().unwrap_or(0);
    Problem {
        n,
        capacity: (capacity / unit) as usize,
        whole: capacity.max(1),
        unit,
        symmetric,
        demand: demand.iter().map(|d| (d / unit) as usize).collect(),
        weight,
        least_in,
        least_home,
    }
}
