//! A plain kernel of the search in Rust, by one thread, written for speed and not proved: beside it the proved search is timed.
//!
//!     rustc -O kernel.rs -o kernel
//!     ./kernel [BUDGET [RULES]] < file.vrp      prints: cost, looked, seconds, millions of partial plans looked at each second
//!
//! It reads feasible files of the plainest spelling alone: EUC_2D or CEIL_2D with whole coordinates, or a matrix as LOWER_ROW or
//! FULL_MATRIX; one depot, node 1. It opens with one route for each customer, looks at children by rising symbol, and does not
//! go below a child whose cost plus bound is above that plan's cost, or not under the cost of the last plan found.
//! Where there and back weigh the same between any two nodes, two more rules hold, or those that RULES names (`both`, `forward`,
//! `none`). `forward`: a route is closed only if its first customer is not above its last. The other: it does not go below a
//! dead child, one whose unserved customers are all below the first customer of the last route, so that no route can be opened
//! any more, and which leaves some unserved or has an open route whose last customer is below its first.
//! Demands are divided by their greatest common divisor. The bound is looked up in one flat table by place, room and rest; where
//! a customer demands nothing, or the numbers are large, there is no such table and the capacity bound stands alone.
mod problem;

use problem::{Problem, read};
use std::time::Instant;

const NONE: u32 = 1 << 30;
const MOST_STEPS: usize = 200_000_000;

/// what the arcs home of a load cost at least
fn arcs_home(p: &Problem, load: usize) -> u64 { (load as u64 * p.unit).div_ceil(p.whole) * p.least_home }

/// by place, room and rest: the least cost of a relaxed completion; at place 0 by rest alone; and what the arcs home of a load cost
struct Tables { rest: usize, room: usize, from: Vec<u32>, tours: Vec<u32>, home_for: Vec<u64> }

fn tables(p: &Problem) -> Option<Tables> {
    let rest: usize = p.demand.iter().sum();
    let room = rest.min(p.capacity);
    let unit = p.unit as usize;
    if p.demand[1..].contains(&0) || (room * unit + 1) * (p.n - 1) * (p.n - 1) > MOST_STEPS || rest * unit * room * unit > MOST_STEPS { return None }
    let mut walk = vec![NONE as u64; (room + 1) * p.n];
    for at in 1..p.n { walk[at] = p.weight[at * p.n] }
    for load in 1..=room { for at in 0..p.n {
        let best = (1..p.n).filter(|&c| c != at && p.demand[c] <= load).map(|c| p.weight[at * p.n + c] + walk[(load - p.demand[c]) * p.n + c]).min();
        walk[load * p.n + at] = best.unwrap_or(NONE as u64).min(NONE as u64);
    } }
    let mut tours = vec![NONE as u64; rest + 1];
    tours[0] = 0;
    for r in 1..=rest { tours[r] = (1..=room.min(r)).map(|t| walk[t * p.n] + tours[r - t]).min().unwrap().min(NONE as u64) }
    let mut from = vec![NONE; p.n * (room + 1) * (rest + 1)];
    for at in 1..p.n { for space in 0..=room { for r in 0..=rest {
        let less = if space > 0 { from[(at * (room + 1) + space - 1) * (rest + 1) + r] as u64 } else { NONE as u64 };
        let all = if space <= r { walk[space * p.n + at] + tours[r - space] } else { NONE as u64 };
        from[(at * (room + 1) + space) * (rest + 1) + r] = less.min(all).min(NONE as u64) as u32;
    } } }
    let home_for = (0..=rest + p.capacity).map(|x| arcs_home(p, x)).collect();
    Some(Tables { rest, room, from, tours: tours.iter().map(|&x| x as u32).collect(), home_for })
}

/// the last route, before each symbol; `high` is the highest unserved customer, 0 where there is none
#[derive(Clone, Copy)]
struct Step { symbol: usize, load: usize, first: usize, high: usize, cost: u64, inbound_sum: u64, rest: usize }

fn search(p: &Problem, t: Option<&Tables>, budget: u64, forward: bool, past_dead: bool) -> (u64, u64) {
    let m = p.n - 1;
    // what the plan of one route for each customer costs, and the last plan found
    let floor: u64 = (1..p.n).map(|c| p.weight[c] + p.weight[c * p.n]).sum();
    let mut own = u64::MAX;
    let mut free = vec![true; p.n];
    let mut stack = vec![Step { symbol: 0, load: 0, first: 0, high: m, cost: 0, inbound_sum: p.least_in[1..].iter().sum(), rest: p.demand.iter().sum() }];
    let mut next = 0;
    let mut left = m;
    let mut looked = 1;
    // an open route is one whose last symbol is a customer
    loop {
        let here = *stack.last().unwrap();
        let mut gone = false;
        while next <= m {
            let k = next;
            next += 1;
            let child = if k == 0 {
                if here.symbol == 0 || forward && here.symbol < here.first { continue }
                Step { symbol: 0, load: 0, first: here.first, high: here.high, cost: here.cost + p.weight[here.symbol * p.n], inbound_sum: here.inbound_sum, rest: here.rest }
            } else {
                if !free[k] { continue }
                let (load, first) = if here.symbol == 0 { if k <= here.first { continue } (0, k) } else { (here.load, here.first) };
                if load + p.demand[k] > p.capacity { continue }
                let mut high = here.high;
                if k == high { high -= 1; while !free[high] { high -= 1 } }
                Step { symbol: k, load: load + p.demand[k], first, high, cost: here.cost + p.weight[here.symbol * p.n + k], inbound_sum: here.inbound_sum - p.least_in[k], rest: here.rest - p.demand[k] }
            };
            if looked == budget { return (floor.min(own), looked) }
            looked += 1;
            let is_open = child.symbol != 0;
            if past_dead && child.high < child.first && (child.high > 0 || is_open && child.symbol < child.first) { continue }
            let out = is_open as u64 * p.least_home;
            let bound = match t {
                Some(t) => {
                    let q = if is_open {
                        let space = (p.capacity - child.load).min(t.room);
                        t.from[(child.symbol * (t.room + 1) + space) * (t.rest + 1) + child.rest]
                    } else { t.tours[child.rest] };
                    if q >= NONE { continue }
                    (q as u64).max(child.inbound_sum + t.home_for[child.load + child.rest].max(out))
                }
                None => child.inbound_sum + arcs_home(p, child.load + child.rest).max(out),
            };
            if child.cost + bound > floor || child.cost + bound >= own { continue }
            if !is_open && left == 0 { own = child.cost; continue }
            if is_open { free[child.symbol] = false; left -= 1 }
            stack.push(child);
            next = 0;
            gone = true;
            break;
        }
        if gone { continue }
        let done = stack.pop().unwrap();
        if stack.is_empty() { return (floor.min(own), looked) }
        if done.symbol != 0 { free[done.symbol] = true; left += 1 }
        next = done.symbol + 1;
    }
}

fn main() {
    let budget = std::env::args().nth(1).map_or(u64::MAX, |b| b.parse().unwrap());
    let rules = std::env::args().nth(2).unwrap_or("both".to_string());
    assert!(["both", "forward", "none"].contains(&rules.as_str()));
    let p = read();
    let t = tables(&p);
    let clock = Instant::now();
    let (cost, looked) = search(&p, t.as_ref(), budget, p.symmetric && rules != "none", p.symmetric && rules == "both");
    let seconds = clock.elapsed().as_secs_f64();
    println!("cost {cost} looked {looked} seconds {seconds:.3} million/s {:.1} unit {}", looked as f64 / seconds / 1e6, p.unit);
}
