//! An independent implementation of orders and contractions over net masks, to measure the program against: independent PAGE TIMES
//! It splits so many times and prints the split and its price each time, as the program does for as many lines `p`.
use std::{env, fs, hint};

struct Net {
    mask: u64,
    price: u64,
}

fn bit(module: usize) -> u64 {
    1 << (63 - module)
}

struct Fields<'a> {
    bytes: &'a [u8],
    at: usize,
}

impl Fields<'_> {
    fn take(&mut self, width: usize) -> u64 {
        let mut value = 0;
        for _ in 0..width {
            value = value << 1 | u64::from(self.bytes[self.at / 8] >> (7 - self.at % 8) & 1);
            self.at += 1;
        }
        value
    }
}

fn read(bytes: &[u8]) -> (usize, Vec<Net>) {
    let mut fields = Fields { bytes, at: 0 };
    assert_eq!(fields.take(4), 1, "a page in wires");
    let modules = fields.take(7) as usize;
    let count = fields.take(11);
    let nets = (0..count)
        .map(|_| {
            let pins = fields.take(7);
            let mask = (0..pins).fold(0, |mask, _| mask | bit(fields.take(6) as usize));
            Net { mask, price: fields.take(32) }
        })
        .collect();
    (modules, nets)
}

/// The last two of the order of so many groups, and the price of parting off the last.
fn order(count: usize, nets: &[Net]) -> (usize, usize, u64) {
    let mut taken = bit(0);
    let (mut before, mut last, mut price) = (0, 0, 0);
    for _ in 1..count {
        let mut keys = [0u64; 64];
        for net in nets {
            let rest = net.mask & !taken;
            if net.mask & taken != 0 && rest.is_power_of_two() {
                let key = &mut keys[rest.leading_zeros() as usize];
                *key = key.saturating_add(net.price);
            }
        }
        let mut best = None;
        for group in (0..count).filter(|group| taken & bit(*group) == 0) {
            if best.map_or(true, |b: usize| keys[group] > keys[b]) {
                best = Some(group);
            }
        }
        before = last;
        last = best.unwrap();
        price = keys[last];
        taken |= bit(last);
    }
    (before, last, price)
}

fn split(modules: usize, nets: &[Net]) -> (u64, u64) {
    let mut nets: Vec<Net> = nets.iter().map(|net| Net { ..*net }).collect();
    let mut groups: Vec<u64> = (0..modules).map(bit).collect();
    let mut best = None;
    while groups.len() > 1 {
        let (before, last, price) = order(groups.len(), &nets);
        if best.map_or(true, |(_, least)| price < least) {
            best = Some((groups[last], price));
        }
        let (low, high) = (before.min(last), before.max(last));
        let gone = groups.remove(high);
        groups[low] |= gone;
        let kept = !(u64::MAX >> high);
        let moved = u64::MAX.checked_shr(high as u32 + 1).unwrap_or(0);
        for net in &mut nets {
            let had = net.mask & bit(high) != 0;
            net.mask = net.mask & kept | (net.mask & moved) << 1;
            if had {
                net.mask |= bit(low);
            }
        }
    }
    best.unwrap()
}

fn main() {
    let args: Vec<String> = env::args().collect();
    let (modules, nets) = read(&fs::read(&args[1]).unwrap());
    let times: u32 = args[2].parse().unwrap();
    for _ in 0..times {
        let found = split(modules, hint::black_box(&nets));
        println!("ok {:016x} {:016x}", found.0, found.1);
    }
}
