// Seeds and halving in plain Rust, for `seeds.rs` and `explain.rs`: sets as u32, and what is still to be settled in one stack of lists.

// The most lines of a listing.
pub const MOST_LINES: usize = 512;

#[derive(Clone, Copy)]
pub enum Line {
    Conflict(u32),
    Relaxation(u32),
}

// No unexplored set has more keep weight than top: at first that is the set of all requests, and then the last seed.
pub struct Search {
    stack: Vec<u32>,
    top: u32,
}

fn shortest(sets: &[u32], free: u32) -> Option<u32> {
    sets.iter().map(|set| set & free).min_by_key(|set| set.count_ones())
}

fn commonest(of: u32, sets: &[u32], others: &[u32]) -> u32 {
    let mut rest = of;
    let mut best = 0;
    let mut most = 0;
    while rest != 0 {
        let one = rest & rest.wrapping_neg();
        rest ^= one;
        let times = sets.iter().chain(others).filter(|set| **set & one != 0).count();
        if best == 0 || times > most {
            best = one;
            most = times;
        }
    }
    best
}

impl Search {
    pub fn new() -> Search {
        Search { stack: Vec::with_capacity(34 * MOST_LINES), top: u32::MAX }
    }

    // What is still to be settled: the conflicts and the drops lie on the stack, each from a place to another.
    fn settle(&mut self, free: u32, conflicts: (usize, usize), drops: (usize, usize)) -> Option<u32> {
        let conflict = shortest(&self.stack[conflicts.0..conflicts.1], free);
        let drop = shortest(&self.stack[drops.0..drops.1], free);
        if conflict == Some(0) || drop == Some(0) {
            return None;
        }
        let Some(conflict) = conflict else { return Some(free) };
        let Some(drop) = drop else { return Some(0) };
        let drop_first = drop.count_ones() <= conflict.count_ones();
        let of = if drop_first { drop } else { conflict };
        let one = commonest(of, &self.stack[conflicts.0..conflicts.1], &self.stack[drops.0..drops.1]);
        for with in [drop_first, !drop_first] {
            let found = if with { self.with(free, one, conflicts, drops) } else { self.without(free, one, conflicts, drops) };
            if found.is_some() {
                return found;
            }
        }
        None
    }

    fn lacking(&mut self, sets: (usize, usize), one: u32) -> (usize, usize) {
        let start = self.stack.len();
        for i in sets.0..sets.1 {
            if self.stack[i] & one == 0 {
                self.stack.push(self.stack[i]);
            }
        }
        (start, self.stack.len())
    }

    fn with(&mut self, free: u32, one: u32, conflicts: (usize, usize), drops: (usize, usize)) -> Option<u32> {
        let start = self.stack.len();
        let rest = self.lacking(drops, one);
        let found = self.settle(free & !one, conflicts, rest);
        self.stack.truncate(start);
        found.map(|set| set | one)
    }

    fn without(&mut self, free: u32, one: u32, conflicts: (usize, usize), drops: (usize, usize)) -> Option<u32> {
        let start = self.stack.len();
        let rest = self.lacking(conflicts, one);
        let found = self.settle(free & !one, rest, drops);
        self.stack.truncate(start);
        found
    }

    fn find(&mut self, lines: &[Line], kept: u32, free: u32) -> Option<u32> {
        self.stack.clear();
        for line in lines {
            if let Line::Conflict(conflict) = line {
                if conflict & !(kept | free) == 0 {
                    self.stack.push(*conflict);
                }
            }
        }
        let conflicts = (0, self.stack.len());
        for line in lines {
            if let Line::Relaxation(relaxation) = line {
                if kept & !relaxation == 0 {
                    self.stack.push(free & !relaxation);
                }
            }
        }
        let drops = (conflicts.1, self.stack.len());
        self.settle(free, conflicts, drops).map(|set| kept | set)
    }

    // Where the seed leaves top: the last request of top that can go while all before it are kept. What is kept, what is free, a set that was found, and the next request.
    fn leave(&mut self, width: u32, lines: &[Line], top: u32) -> Option<(u32, u32, u32, u32)> {
        let mut kept = top;
        let mut free = 0;
        for r in (0..width).rev() {
            let one = 1 << r;
            if kept & one != 0 {
                kept &= !one;
                if let Some(hand) = self.find(lines, kept, free) {
                    return Some((kept, free, hand, r + 1));
                }
            }
            free |= one;
        }
        None
    }

    // The unexplored set of greatest keep weight.
    pub fn seed(&mut self, width: u32, lines: &[Line]) -> Option<u32> {
        let top = if width == 32 { self.top } else { self.top & ((1 << width) - 1) };
        if !explored(lines, top) {
            return Some(top);
        }
        let (mut kept, mut free, mut hand, next) = self.leave(width, lines, top)?;
        for r in next..width {
            let one = 1 << r;
            free &= !one;
            if hand & one != 0 {
                kept |= one;
                continue;
            }
            let wider = hand | one;
            let better = if !explored(lines, wider) { Some(wider) } else { self.find(lines, kept | one, free) };
            if let Some(set) = better {
                kept |= one;
                hand = set;
            }
        }
        self.top = hand;
        Some(hand)
    }
}

fn explored(lines: &[Line], set: u32) -> bool {
    lines.iter().any(|line| match line {
        Line::Conflict(conflict) => conflict & !set == 0,
        Line::Relaxation(relaxation) => set & !relaxation == 0,
    })
}

fn lower_half(set: u32) -> u32 {
    let mut rest = set;
    for _ in 0..set.count_ones() / 2 {
        rest &= rest - 1;
    }
    set ^ rest
}

pub enum Halved<'a> {
    Asks(u32),
    Ends(u32, &'a [bool]),
}

// What comes next in the halving of a part, after these answers: the set to check, or the result with the answers that were not read.
pub fn halve(held: u32, added: u32, part: u32, answers: &[bool]) -> Halved<'_> {
    if added == 0 {
        return take_apart(held, part, answers);
    }
    match answers {
        [] => Halved::Asks(held),
        [true, rest @ ..] => take_apart(held, part, rest),
        [false, rest @ ..] => Halved::Ends(0, rest),
    }
}

fn take_apart(held: u32, part: u32, answers: &[bool]) -> Halved<'_> {
    if part.count_ones() <= 1 {
        return Halved::Ends(part, answers);
    }
    let first = lower_half(part);
    let second = part & !first;
    match halve(held | first, first, second, answers) {
        Halved::Asks(set) => Halved::Asks(set),
        Halved::Ends(upper, rest) => match halve(held | upper, upper, first, rest) {
            Halved::Asks(set) => Halved::Asks(set),
            Halved::Ends(below, rest) => Halved::Ends(below | upper, rest),
        },
    }
}
