// The butterfly's listing and routing in plain Rust, to be timed beside the proved program of the same name.
use std::io::Read;

#[derive(Clone, Copy, PartialEq)]
enum Setting {
    Straight,
    Swapped,
}

#[derive(Clone, Copy)]
struct Comparator {
    first: usize,
    second: usize,
}

#[derive(Clone, Copy, PartialEq)]
enum Half {
    Even,
    Odd,
}

impl Half {
    fn other(self) -> Half {
        match self {
            Half::Even => Half::Odd,
            Half::Odd => Half::Even,
        }
    }

    fn wire(self, place: usize) -> usize {
        match self {
            Half::Even => 2 * place,
            Half::Odd => 2 * place + 1,
        }
    }

    fn setting(self) -> Setting {
        match self {
            Half::Even => Setting::Straight,
            Half::Odd => Setting::Swapped,
        }
    }
}

fn width(levels: usize) -> usize {
    1 << levels
}

fn size(levels: usize) -> usize {
    levels * width(levels) + 1 - width(levels)
}

fn pair_of(i: usize) -> Comparator {
    Comparator { first: 2 * i, second: 2 * i + 1 }
}

fn on_wires(inner: Option<Comparator>, half: Half) -> Option<Comparator> {
    inner.map(|c| Comparator { first: half.wire(c.first), second: half.wire(c.second) })
}

fn listed(levels: usize, k: usize) -> Option<Comparator> {
    if levels == 0 {
        return None;
    }
    let pairs = width(levels - 1);
    let inner = size(levels - 1);
    if k < pairs {
        return Some(pair_of(k));
    }
    if k < pairs + inner {
        return on_wires(listed(levels - 1, k - pairs), Half::Even);
    }
    if k < pairs + 2 * inner {
        return on_wires(listed(levels - 1, k - pairs - inner), Half::Odd);
    }
    let i = k - pairs - 2 * inner;
    if i < pairs - 1 { Some(pair_of(i + 1)) } else { None }
}

fn inverted(permutation: &[usize]) -> Option<[u8; 64]> {
    let mut inverse = [64; 64];
    for (x, &y) in permutation.iter().enumerate() {
        if y >= permutation.len() || inverse[y] != 64 {
            return None;
        }
        inverse[y] = x as u8;
    }
    Some(inverse)
}

fn halves_by_end(pairs: usize, entries: &[u8; 64], inverse: &[u8; 64]) -> [Half; 64] {
    let mut table = [0; 64];
    for x in 0..2 * pairs {
        table[x] = inverse[(entries[x] ^ 1) as usize];
    }
    for j in (0..pairs).rev() {
        let a = table[2 * j];
        if (a as usize) < 2 * j {
            let b = table[2 * j + 1];
            table[a as usize] = b;
            table[b as usize] = a;
        }
    }
    let mut halves = [Half::Even; 64];
    for j in 0..pairs {
        let a = table[2 * j] as usize;
        let half = if a < 2 * j { halves[a].other() } else { Half::Even };
        halves[2 * j] = half;
        halves[2 * j + 1] = half.other();
    }
    halves
}

fn halve(pairs: usize, entries: &[u8; 64], halves: &[Half; 64], half: Half) -> [u8; 64] {
    let mut table = [0; 64];
    for i in 0..pairs {
        let seat = if halves[2 * i] == half { 2 * i } else { 2 * i + 1 };
        table[i] = entries[seat] / 2;
    }
    table
}

fn route_over(levels: usize, entries: &[u8; 64], inverse: &[u8; 64], settings: &mut [Setting]) {
    if levels == 0 {
        return;
    }
    let pairs = width(levels - 1);
    let inner = size(levels - 1);
    let ends = halves_by_end(pairs, entries, inverse);
    let mut starts = [Half::Even; 64];
    for y in 0..2 * pairs {
        starts[y] = ends[inverse[y] as usize];
    }
    for i in 0..pairs {
        settings[i] = starts[2 * i].setting();
    }
    let even = halve(pairs, entries, &ends, Half::Even);
    let even_back = halve(pairs, inverse, &starts, Half::Even);
    route_over(levels - 1, &even, &even_back, &mut settings[pairs..pairs + inner]);
    let odd = halve(pairs, entries, &ends, Half::Odd);
    let odd_back = halve(pairs, inverse, &starts, Half::Odd);
    route_over(levels - 1, &odd, &odd_back, &mut settings[pairs + inner..pairs + 2 * inner]);
    for i in 0..pairs - 1 {
        settings[pairs + 2 * inner + i] = ends[2 * (i + 1)].setting();
    }
}

fn route(levels: usize, permutation: &[usize], settings: &mut [Setting]) -> Option<()> {
    if permutation.len() != width(levels) || settings.len() != size(levels) {
        return None;
    }
    let inverse = inverted(permutation)?;
    let mut entries = [0; 64];
    for (entry, &wire) in entries.iter_mut().zip(permutation) {
        *entry = wire as u8;
    }
    route_over(levels, &entries, &inverse, settings);
    Some(())
}

fn mixed(sum: usize, part: usize) -> usize {
    sum.wrapping_mul(31).wrapping_add(part)
}

fn turned(work: &str, turns: usize) -> usize {
    let mut sum = 0;
    for turn in 0..turns {
        if work == "list" {
            for k in 0..size(6) {
                if let Some(c) = listed(6, k) {
                    sum = mixed(sum, c.first * 64 + c.second);
                }
            }
        } else {
            let step = 2 * (turn % 32) + 1;
            let permutation: [usize; 64] = std::array::from_fn(|i| (step * i + turn % 64) % 64);
            let mut settings = [Setting::Straight; 321];
            if route(6, &permutation, &mut settings).is_some() {
                for setting in settings {
                    sum = mixed(sum, if setting == Setting::Swapped { 1 } else { 0 });
                }
            }
        }
    }
    sum
}

fn main() {
    let mut text = String::new();
    std::io::stdin().read_to_string(&mut text).expect("input");
    for line in text.lines() {
        let (work, turns) = line.split_once(' ').expect("work");
        let turns = turns.parse().expect("turns");
        println!("{work} {turns} {}", turned(work, turns));
    }
}
