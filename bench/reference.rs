// A plain reference in Rust for bench/read.sh: reads the named file, of points (EUC_2D) or of a full matrix, keeps the weight
// of each pair of nodes, and prints the cost of one truck for each customer. It trusts its input.
// Build: rustc -O bench/reference.rs

fn weight(from: (i64, i64), to: (i64, i64)) -> u64 {
    let east = from.0.abs_diff(to.0);
    let north = from.1.abs_diff(to.1);
    let square = east * east + north * north;
    let root = square.isqrt();
    if square - root * root > root { root + 1 } else { root }
}

// The numbers of a section: all tokens from its keyword to the next line that begins with a letter.
fn numbers(text: &str, keyword: &str) -> Vec<i64> {
    text.lines()
        .skip_while(|line| *line != keyword)
        .skip(1)
        .take_while(|line| !line.starts_with(|c: char| c.is_ascii_alphabetic()))
        .flat_map(|line| line.split_ascii_whitespace())
        .map(|token| token.parse().unwrap())
        .collect()
}

fn weights(text: &str, n: usize) -> Vec<u32> {
    if text.contains("EXPLICIT") {
        return numbers(text, "EDGE_WEIGHT_SECTION").into_iter().map(|weight| weight as u32).collect();
    }
    let points = numbers(text, "NODE_COORD_SECTION");
    let point = |k: usize| (points[3 * k + 1], points[3 * k + 2]);
    let mut weights = vec![0u32; n * n];
    for row in 0..n {
        for column in 0..row {
            let arc = weight(point(row), point(column)) as u32;
            weights[row * n + column] = arc;
            weights[column * n + row] = arc;
        }
    }
    weights
}

fn main() {
    let name = std::env::args().nth(1).unwrap();
    let text = std::fs::read_to_string(name).unwrap();
    let n = numbers(&text, "DEMAND_SECTION").len() / 2;
    let depot = numbers(&text, "DEPOT_SECTION")[0] as usize - 1;
    let weights = weights(&text, n);
    let mut cost = 0u64;
    for node in (0..n).filter(|node| *node != depot) {
        cost += u64::from(weights[depot * n + node]) + u64::from(weights[node * n + depot]);
    }
    println!("cost {cost}");
}
