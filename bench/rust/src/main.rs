//! The same dense saturation in plain safe Rust, to compare steps, raises, answers and times with.

use std::collections::VecDeque;
use std::time::Instant;

/// How large a session is. As in the checker, the sizes are known only when the program runs.
#[derive(Clone, Copy)]
struct Sizes {
    controls: usize,
    states: usize,
    symbols: usize,
    limit: usize,
}

trait Scale: Copy {
    fn none() -> Self;
    fn one() -> Self;
    fn combine(self, other: Self) -> Self;
    fn extend(self, other: Self) -> Self;
    fn same(self, other: Self) -> bool;
    fn sample(number: u32) -> Self;
    fn digest(self) -> u64;
}

#[derive(Clone, Copy)]
struct YesNo(bool);

impl Scale for YesNo {
    fn none() -> Self {
        YesNo(false)
    }
    fn one() -> Self {
        YesNo(true)
    }
    fn combine(self, other: Self) -> Self {
        YesNo(self.0 | other.0)
    }
    fn extend(self, other: Self) -> Self {
        YesNo(self.0 & other.0)
    }
    fn same(self, other: Self) -> bool {
        self.0 == other.0
    }
    fn sample(_number: u32) -> Self {
        YesNo(true)
    }
    fn digest(self) -> u64 {
        self.0 as u64
    }
}

#[derive(Clone, Copy, PartialEq)]
enum Minutes {
    None,
    Of(u32),
}

impl Scale for Minutes {
    fn none() -> Self {
        Minutes::None
    }
    fn one() -> Self {
        Minutes::Of(0)
    }
    fn combine(self, other: Self) -> Self {
        match (self, other) {
            (Minutes::None, w) | (w, Minutes::None) => w,
            (Minutes::Of(a), Minutes::Of(b)) => Minutes::Of(a.min(b)),
        }
    }
    fn extend(self, other: Self) -> Self {
        match (self, other) {
            (Minutes::Of(a), Minutes::Of(b)) => Minutes::Of(a.saturating_add(b).min(10_000)),
            _ => Minutes::None,
        }
    }
    fn same(self, other: Self) -> bool {
        self == other
    }
    fn sample(number: u32) -> Self {
        Minutes::Of(1 + number % 97)
    }
    fn digest(self) -> u64 {
        match self {
            Minutes::Of(count) => count as u64 + 1,
            Minutes::None => 0,
        }
    }
}

#[derive(Clone, Copy, PartialEq)]
enum Flags {
    None,
    Of { keep: u32, set: u32 },
}

impl Flags {
    fn new(keep: u32, set: u32) -> Flags {
        Flags::Of { keep: keep | set, set }
    }
}

impl Scale for Flags {
    fn none() -> Self {
        Flags::None
    }
    fn one() -> Self {
        Flags::new(u32::MAX, 0)
    }
    fn combine(self, other: Self) -> Self {
        match (self, other) {
            (Flags::None, w) | (w, Flags::None) => w,
            (Flags::Of { keep: k1, set: s1 }, Flags::Of { keep: k2, set: s2 }) => {
                Flags::new(k1 | k2, s1 | s2)
            }
        }
    }
    fn extend(self, other: Self) -> Self {
        match (self, other) {
            (Flags::Of { keep: k1, set: s1 }, Flags::Of { keep: k2, set: s2 }) => {
                Flags::new(k1 & k2, (s1 & k2) | s2)
            }
            _ => Flags::None,
        }
    }
    fn same(self, other: Self) -> bool {
        self == other
    }
    fn sample(number: u32) -> Self {
        Flags::new(!(1 << (number % 32)), 1 << (number / 32 % 32))
    }
    fn digest(self) -> u64 {
        match self {
            Flags::Of { keep, set } => keep.wrapping_mul(31).wrapping_add(set) as u64 + 1,
            Flags::None => 0,
        }
    }
}

trait Worklist {
    fn new() -> Self;
    fn put(&mut self, number: usize);
    fn take(&mut self) -> Option<usize>;
}

struct Marks([bool; 512]);

impl Worklist for Marks {
    fn new() -> Self {
        Marks([false; 512])
    }
    fn put(&mut self, number: usize) {
        self.0[number] = true;
    }
    fn take(&mut self) -> Option<usize> {
        let found = self.0.iter().position(|mark| *mark)?;
        self.0[found] = false;
        Some(found)
    }
}

struct Queue {
    marks: [bool; 512],
    waiting: VecDeque<usize>,
}

impl Worklist for Queue {
    fn new() -> Self {
        Queue { marks: [false; 512], waiting: VecDeque::with_capacity(512) }
    }
    fn put(&mut self, number: usize) {
        if !self.marks[number] {
            self.marks[number] = true;
            self.waiting.push_back(number);
        }
    }
    fn take(&mut self) -> Option<usize> {
        let first = self.waiting.pop_front()?;
        self.marks[first] = false;
        Some(first)
    }
}

struct Numbers(u32);

impl Numbers {
    fn next(&mut self) -> u32 {
        self.0 = self.0.wrapping_mul(1_103_515_245).wrapping_add(12_345);
        self.0 >> 16
    }
    fn below(&mut self, bound: usize) -> usize {
        self.next() as usize % bound
    }
    fn symbol(&mut self, sizes: Sizes) -> u8 {
        self.below(sizes.symbols) as u8
    }
}

#[derive(Clone, Copy)]
enum Word {
    Pop,
    Swap(u8),
    Push(u8, u8),
}

impl Word {
    fn has(self, symbol: u8) -> bool {
        match self {
            Word::Pop => false,
            Word::Swap(a) => a == symbol,
            Word::Push(a, b) => a == symbol || b == symbol,
        }
    }
}

#[derive(Clone, Copy)]
struct Rule {
    control: usize,
    symbol: u8,
    target: usize,
    word: Word,
}

fn place(sizes: Sizes, q: usize, g: u8, q2: usize) -> usize {
    (q * sizes.symbols + g as usize) * sizes.states + q2
}

fn value<S: Scale>(sizes: Sizes, edges: &[S], rule: Rule, f: S, q: usize) -> S {
    match rule.word {
        Word::Pop => {
            if q == rule.target {
                f
            } else {
                S::none()
            }
        }
        Word::Swap(a) => f.extend(edges[place(sizes, rule.target, a, q)]),
        Word::Push(a, b) => {
            let mut sum = S::none();
            for m in 0..sizes.states {
                let there = edges[place(sizes, rule.target, a, m)];
                if !there.same(S::none()) {
                    let on = edges[place(sizes, m, b, q)];
                    sum = sum.combine(f.extend(there).extend(on));
                }
            }
            sum
        }
    }
}

/// Combines a weight into an edge, and says whether that changed it.
fn raise<S: Scale>(edge: &mut S, weight: S) -> bool {
    let old = *edge;
    *edge = old.combine(weight);
    !old.same(*edge)
}

fn step<S: Scale>(sizes: Sizes, edges: &mut [S], rule: Rule, f: S) -> u64 {
    let mut raises = 0;
    for q in 0..sizes.states {
        let worth = value(sizes, edges, rule, f, q);
        if raise(&mut edges[place(sizes, rule.control, rule.symbol, q)], worth) {
            raises += 1;
        }
    }
    raises
}

fn put_readers<K: Worklist>(rules: &[Rule], symbol: u8, worklist: &mut K) {
    for (number, rule) in rules.iter().enumerate() {
        if rule.word.has(symbol) {
            worklist.put(number);
        }
    }
}

fn read<S: Scale>(sizes: Sizes, edges: &[S], finals: &[bool], from: usize, word: &[u8]) -> S {
    let mut row: Vec<S> = finals.iter().map(|f| if *f { S::one() } else { S::none() }).collect();
    for g in word.iter().rev() {
        row = (0..sizes.states)
            .map(|q| {
                let mut sum = S::none();
                for m in 0..sizes.states {
                    sum = sum.combine(edges[place(sizes, q, *g, m)].extend(row[m]));
                }
                sum
            })
            .collect();
    }
    row[from]
}

/// What a session starts from.
struct Session<S> {
    rules: Vec<Rule>,
    weights: Vec<S>,
    edges: Vec<S>,
    finals: Vec<bool>,
}

fn prepare<S: Scale, K: Worklist>(numbers: &mut Numbers, sizes: Sizes, worklist: &mut K) -> Session<S> {
    let mut edges = vec![S::none(); sizes.states * sizes.symbols * sizes.states];
    let mut rules = Vec::with_capacity(sizes.limit);
    let mut weights = Vec::with_capacity(sizes.limit);
    for number in 0..sizes.limit {
        let control = numbers.below(sizes.controls);
        let symbol = numbers.symbol(sizes);
        let target = numbers.below(sizes.controls);
        let (a, b) = (numbers.symbol(sizes), numbers.symbol(sizes));
        let word = match numbers.below(8) {
            0..=2 => Word::Pop,
            3 => Word::Swap(a),
            _ => Word::Push(a, b),
        };
        rules.push(Rule { control, symbol, target, word });
        weights.push(S::sample(numbers.next()));
        worklist.put(number);
    }
    for _ in 0..200 {
        let from = numbers.below(sizes.states);
        let by = numbers.symbol(sizes);
        let to = sizes.controls + numbers.below(sizes.states - sizes.controls);
        let weight = S::sample(numbers.next());
        if raise(&mut edges[place(sizes, from, by, to)], weight) {
            put_readers(&rules, by, worklist);
        }
    }
    let finals = (0..sizes.states).map(|q| q >= sizes.states - sizes.states / 3).collect();
    Session { rules, weights, edges, finals }
}

fn settle<S: Scale, K: Worklist>(sizes: Sizes, session: &mut Session<S>, worklist: &mut K) -> (u32, u64) {
    let mut steps = 0;
    let mut raises = 0;
    while let Some(number) = worklist.take() {
        let rule = session.rules[number];
        let more = step(sizes, &mut session.edges, rule, session.weights[number]);
        if more > 0 {
            put_readers(&session.rules, rule.symbol, worklist);
        }
        raises += more;
        steps += 1;
    }
    (steps, raises)
}

fn measure<S: Scale, K: Worklist>(name: &str, sizes: Sizes) {
    let mut numbers = Numbers(7);
    let mut worklist = K::new();
    let mut session: Session<S> = prepare(&mut numbers, sizes, &mut worklist);
    let begun = Instant::now();
    let (steps, raises) = settle(sizes, &mut session, &mut worklist);
    let micros = begun.elapsed().as_micros();
    let mut digest: u64 = 0;
    for control in 0..sizes.controls {
        let word = [numbers.symbol(sizes), numbers.symbol(sizes), numbers.symbol(sizes)];
        let answer: S = read(sizes, &session.edges, &session.finals, control, &word);
        digest = digest.wrapping_mul(31).wrapping_add(answer.digest());
    }
    let Sizes { states, limit, .. } = sizes;
    println!("{name},{states},{limit},{steps},{raises},{digest},{micros}");
}

fn main() {
    let sizes = |controls, states, limit| std::hint::black_box(Sizes { controls, states, symbols: 8, limit });
    measure::<YesNo, Marks>("yes,marks", sizes(32, 60, 512));
    measure::<Minutes, Marks>("minutes,marks", sizes(32, 60, 512));
    measure::<Flags, Marks>("flags,marks", sizes(32, 60, 512));
    for (controls, states, rules) in [(32, 60, 512), (32, 60, 256), (32, 60, 128), (16, 30, 512), (8, 15, 512)] {
        measure::<YesNo, Queue>("yes,ring", sizes(controls, states, rules));
        measure::<Minutes, Queue>("minutes,ring", sizes(controls, states, rules));
        measure::<Flags, Queue>("flags,ring", sizes(controls, states, rules));
    }
}
