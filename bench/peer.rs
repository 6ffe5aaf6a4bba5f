//! The peer of the benchmark: the same translation, loading, judging, comparing, merging and explaining in idiomatic
//! Rust, with the standard library alone. `bench/run` holds its answers against the library's while both are timed.
use std::borrow::Cow;

#[derive(Clone, Copy, PartialEq, Eq)]
pub struct Refusal {
    pub number: u8,
    pub place: usize,
}

type Answer<T> = Result<T, Refusal>;

fn refuse<T>(number: u8, place: usize) -> Answer<T> {
    Err(Refusal { number, place })
}

#[derive(Clone, Copy)]
struct Node {
    kind: u8,
    left: usize,
    right: usize,
}

impl Node {
    fn children(&self) -> impl Iterator<Item = usize> {
        let (left, right) = match self.kind {
            4 | 5 | 7 | 8 => (Some(self.left), Some(self.right)),
            6 => (Some(self.left), None),
            _ => (None, None),
        };
        left.into_iter().chain(right)
    }
}

/// Ordered by obligations, then must, then must_not.
#[derive(Clone, Copy, PartialEq, Eq, PartialOrd, Ord)]
struct Term {
    obligations: u32,
    must: u8,
    must_not: u8,
}

const NOTHING: Term = Term { obligations: 0, must: 0, must_not: 0 };

/// The join of two terms, unless it demands a proposition both ways; then it is dropped, and its conflicts are told.
fn join(x: Term, y: Term, conflicts: &mut u8) -> Option<Term> {
    let t = Term {
        obligations: x.obligations | y.obligations,
        must: x.must | y.must,
        must_not: x.must_not | y.must_not,
    };
    *conflicts |= t.must & t.must_not;
    (t.must & t.must_not == 0).then_some(t)
}

/// All joins of one of each.
fn joins(xs: &[Term], ys: &[Term], conflicts: &mut u8) -> Vec<Term> {
    let mut out = Vec::with_capacity(xs.len() * ys.len());
    for x in xs {
        out.extend(ys.iter().filter_map(|y| join(*x, *y, conflicts)));
    }
    out
}

/// A set: rising, with no repeats.
fn set<T: Ord>(items: impl Iterator<Item = T>) -> Vec<T> {
    let mut out: Vec<T> = items.collect();
    out.sort_unstable();
    out.dedup();
    out
}

fn union<T: Ord + Copy>(xs: &[T], ys: &[T]) -> Vec<T> {
    set(xs.iter().chain(ys).copied())
}

fn product(xs: &[Term], ys: &[Term], conflicts: &mut u8) -> Vec<Term> {
    set(joins(xs, ys, conflicts).into_iter())
}

/// 1 to 6.
fn well_formed(rule: &[u8]) -> Answer<Vec<Node>> {
    if rule.len() > 96 {
        return refuse(1, 0);
    }
    if rule.is_empty() || rule.len() % 3 != 0 {
        return refuse(2, 0);
    }
    let nodes: Vec<Node> = rule
        .chunks(3)
        .map(|c| Node { kind: c[0], left: c[1] as usize, right: c[2] as usize })
        .collect();
    for (n, node) in nodes.iter().enumerate() {
        if node.kind > 8 {
            return refuse(3, n);
        }
        let fits = match node.kind {
            0 | 1 => node.left == 0 && node.right == 0,
            2 | 3 => node.left <= 6 && node.right == 0,
            6 => node.right == 0,
            _ => true,
        };
        if !fits {
            return refuse(4, n);
        }
        if node.children().any(|c| c >= n) {
            return refuse(5, n);
        }
    }
    let mut places = vec![0; nodes.len()];
    for node in &nodes {
        for c in node.children() {
            places[c] += 1;
        }
    }
    for (n, node) in nodes.iter().enumerate() {
        if (n + 1 < nodes.len() && places[n] == 0) || (node.kind > 3 && places[n] > 1) {
            return refuse(6, n);
        }
    }
    Ok(nodes)
}

/// 7.
fn few_untils(nodes: Vec<Node>) -> Answer<Vec<Node>> {
    if nodes.iter().filter(|n| n.kind == 7).count() > 8 {
        return refuse(7, 0);
    }
    Ok(nodes)
}

fn parse(rule: &[u8]) -> Answer<Vec<Node>> {
    few_untils(well_formed(rule)?)
}

/// Two rules as one, and its length: the nodes of the first, those of the second moved up, and an and.
fn merge(first: &[u8], second: &[u8], merged: &mut [u8; 96]) -> Answer<usize> {
    let (first, second) = (well_formed(first)?, well_formed(second)?);
    let (up, root) = (first.len(), first.len() + second.len());
    let moved = second.iter().map(|n| match n.kind {
        4 | 5 | 7 | 8 => Node { left: n.left + up, right: n.right + up, ..*n },
        6 => Node { left: n.left + up, ..*n },
        _ => *n,
    });
    let and = Node { kind: 4, left: up - 1, right: root - 1 };
    if root + 1 > 32 {
        return refuse(27, 0);
    }
    let nodes = few_untils(first.iter().copied().chain(moved).chain([and]).collect())?;
    put(merged, nodes.iter().map(|n| [n.kind, n.left as u8, n.right as u8]));
    Ok(3 * nodes.len())
}

/// Covers and terms of every node, from those of its children, and the conflicts of all joins.
fn expand(nodes: &[Node]) -> Answer<(Vec<Vec<u32>>, Vec<Vec<Term>>, u8)> {
    let mut conflicts = 0;
    let mut covers: Vec<Vec<u32>> = Vec::with_capacity(nodes.len());
    let mut terms: Vec<Vec<Term>> = Vec::with_capacity(nodes.len());
    for (n, node) in nodes.iter().enumerate() {
        let own = Term { obligations: 1 << n, ..NOTHING };
        let (l, r) = (node.left, node.right);
        let cover = match node.kind {
            0 => vec![],
            1 => vec![0],
            4 => set(covers[l].iter().flat_map(|c| covers[r].iter().map(move |d| c | d))),
            5 => union(&covers[l], &covers[r]),
            _ => vec![1 << n],
        };
        // what owes the node itself is above all that its children owe
        let owing = |t: &Term| Term { obligations: t.obligations | own.obligations, ..*t };
        let term = match node.kind {
            0 => vec![],
            1 => vec![NOTHING],
            2 => vec![Term { must: 1 << l, ..NOTHING }],
            3 => vec![Term { must_not: 1 << l, ..NOTHING }],
            4 => product(&terms[l], &terms[r], &mut conflicts),
            5 => union(&terms[l], &terms[r]),
            6 => covers[l].iter().map(|&obligations| Term { obligations, ..NOTHING }).collect(),
            7 => terms[r].iter().copied().chain(terms[l].iter().map(owing)).collect(),
            _ => set(joins(&terms[r], &terms[l], &mut conflicts)
                .into_iter()
                .chain(terms[r].iter().map(owing))),
        };
        if term.len() > 64 || cover.len() > 64 {
            return refuse(20, n);
        }
        covers.push(cover);
        terms.push(term);
    }
    Ok((covers, terms, conflicts))
}

pub struct State {
    pub accepting: bool,
    /// An accepting state that a free transition leads back to.
    pub at_rest: bool,
    pub transitions: Vec<(u8, u8, u16)>,
}

pub struct Automaton {
    pub states: Vec<State>,
    pub initial: Vec<u16>,
}

fn fulfils(f: usize, terms: &[Term], t: Term) -> bool {
    t.obligations >> f & 1 == 0
        || terms.iter().any(|u| {
            u.must & !t.must == 0
                && u.must_not & !t.must_not == 0
                && u.obligations & !t.obligations == 0
                && u.obligations >> f & 1 == 0
        })
}

/// The terms of a state of the first walk: the product over its obligations, the first one's as they stand.
fn state_terms(state: u32, terms: &[Vec<Term>], place: usize, conflicts: &mut u8) -> Answer<Vec<Term>> {
    let mut owed = (0..terms.len()).filter(|n| state >> n & 1 == 1);
    let mut ts = match owed.next() {
        Some(n) => terms[n].clone(),
        None => vec![NOTHING],
    };
    for n in owed {
        ts = product(&ts, &terms[n], conflicts);
        if ts.len() > 128 {
            return refuse(21, place);
        }
    }
    Ok(ts)
}

/// The terms that no other dominates, each with a bit for every until that it fulfils. What dominates a term comes
/// before it, and of those that do, one is kept.
fn undominated(ts: Vec<Term>, untils: &[usize], terms: &[Vec<Term>]) -> Vec<(Term, u8)> {
    let mut kept: Vec<(Term, u8)> = Vec::with_capacity(ts.len());
    for t in ts {
        let fulfilled = untils
            .iter()
            .enumerate()
            .fold(0, |m, (k, &f)| m | (fulfils(f, &terms[f], t) as u8) << k);
        let dominated = kept.iter().any(|&(u, more)| {
            u.must & !t.must == 0
                && u.must_not & !t.must_not == 0
                && u.obligations & !t.obligations == 0
                && fulfilled & !more == 0
        });
        if !dominated {
            kept.push((t, fulfilled));
        }
    }
    kept
}

/// A transition of the first walk: its term, its target's number, and a bit for each until that it fulfils.
struct Step {
    term: Term,
    target: usize,
    fulfilled: u8,
}

/// The automaton of a rule, and the propositions for which some join was dropped.
pub fn translate(rule: &[u8]) -> Answer<(Automaton, u8)> {
    let nodes = parse(rule)?;
    let (covers, terms, mut conflicts) = expand(&nodes)?;
    let untils: Vec<usize> = (0..nodes.len()).filter(|&n| nodes[n].kind == 7).collect();
    let mut sets = covers[nodes.len() - 1].clone();
    let initial = sets.len();
    let mut rows: Vec<Vec<Step>> = Vec::new();
    let mut total = 0;
    while rows.len() < sets.len() {
        let place = rows.len();
        let ts = undominated(state_terms(sets[place], &terms, place, &mut conflicts)?, &untils, &terms);
        let mut row = Vec::with_capacity(ts.len());
        let mut last = 0;
        for (term, fulfilled) in ts {
            total += 1;
            if total > 1024 {
                return refuse(22, place);
            }
            // equal targets stand side by side
            let same = Some(last).filter(|&k| sets[k] == term.obligations);
            let target = match same.or_else(|| sets.iter().position(|&set| set == term.obligations)) {
                Some(target) => target,
                None if sets.len() == 128 => return refuse(23, place),
                None => {
                    sets.push(term.obligations);
                    sets.len() - 1
                }
            };
            last = target;
            row.push(Step { term, target, fulfilled });
        }
        rows.push(row);
    }
    let r = untils.len();
    let mut pairs: Vec<(usize, usize)> = (0..initial).map(|i| (i, 0)).collect();
    // a pair's number, by state and level
    let mut numbers: Vec<[Option<u16>; 9]> = vec![[None; 9]; rows.len()];
    for i in 0..initial {
        numbers[i][0] = Some(i as u16);
    }
    let mut states = Vec::new();
    while states.len() < pairs.len() {
        let place = states.len();
        let (state, level) = pairs[place];
        let mut transitions = Vec::with_capacity(rows[state].len());
        for step in &rows[state] {
            let from = if level == r { 0 } else { level };
            let next = r.min(from + (step.fulfilled >> from).trailing_ones() as usize);
            let number = match numbers[step.target][next] {
                Some(number) => number,
                None if pairs.len() == 96 => return refuse(24, place),
                None => {
                    pairs.push((step.target, next));
                    *numbers[step.target][next].insert(pairs.len() as u16 - 1)
                }
            };
            transitions.push((step.term.must, step.term.must_not, number));
        }
        let accepting = level == r;
        let at_rest = accepting && transitions.contains(&(0, 0, place as u16));
        states.push(State { accepting, at_rest, transitions });
    }
    Ok((Automaton { states, initial: (0..initial as u16).collect() }, conflicts))
}

/// The caller's three tables, as the library fills them: a record for each state, transition and initial number, and
/// zeros behind.
struct Tables {
    states: [u8; 384],
    transitions: [u8; 49152],
    initial: [u8; 192],
}

fn put<const N: usize>(table: &mut [u8], records: impl Iterator<Item = [u8; N]>) {
    let mut used = 0;
    for (place, record) in table.chunks_exact_mut(N).zip(records) {
        place.copy_from_slice(&record);
        used += N;
    }
    table[used..].fill(0);
}

impl Tables {
    fn fill(&mut self, a: &Automaton) {
        put(&mut self.states, a.states.iter().map(|s| {
            let [low, high] = (s.transitions.len() as u16).to_le_bytes();
            [low, high, s.accepting as u8, s.at_rest as u8]
        }));
        put(&mut self.transitions, a.states.iter().flat_map(|s| &s.transitions).map(|&(must, must_not, target)| {
            let [low, high] = target.to_le_bytes();
            [must, must_not, low, high]
        }));
        put(&mut self.initial, a.initial.iter().map(|i| i.to_le_bytes()));
    }
}

/// The runs that stand in a state: bit p for one that began the pass in state p; in `met` those that have met an
/// accepting state since.
#[derive(Clone, Copy, Default)]
struct Runs {
    all: u128,
    met: u128,
}

impl Runs {
    fn join(&mut self, other: Runs) {
        self.all |= other.all;
        self.met |= other.met;
    }
}

fn has(bits: u128, p: usize) -> bool {
    bits >> p & 1 == 1
}

fn lift(a: &Automaton, rows: &mut [Runs]) {
    for (row, state) in rows.iter_mut().zip(&a.states) {
        if state.accepting {
            row.met |= row.all;
        }
    }
}

/// The runs after the word, or false once none is left.
fn run(a: &Automaton, word: &[u8], rows: &mut Vec<Runs>) -> bool {
    let mut next = vec![Runs::default(); rows.len()];
    for &letter in word {
        next.fill(Runs::default());
        for (row, state) in rows.iter().zip(&a.states).filter(|(row, _)| row.all != 0) {
            for &(must, must_not, t) in &state.transitions {
                if must & !letter | must_not & letter == 0 {
                    next[t as usize].join(*row);
                }
            }
        }
        lift(a, &mut next);
        std::mem::swap(rows, &mut next);
        if rows.iter().all(|row| row.all == 0) {
            return false;
        }
    }
    true
}

/// Takes pairs of a position and a state that runs reach, breadth first: whether one at rest is taken, which is the
/// last, how many are taken, and which were met, by position and state.
fn take_pairs(a: &Automaton, stem: &[u8], cycle: &[u8]) -> (bool, usize, Vec<bool>) {
    let states = a.states.len();
    let word = [stem, cycle].concat();
    let mut met = vec![false; states * word.len()];
    // the states to take at one position and those met at the next, in the order in which they were met
    let mut level = a.initial.clone();
    let mut next = Vec::with_capacity(states);
    for &q in &level {
        met[q as usize] = true;
    }
    let mut taken = 0;
    let mut at = 0;
    while !level.is_empty() {
        let letter = word[at];
        at = if at + 1 < word.len() { at + 1 } else { stem.len() };
        let row = &mut met[states * at..states * (at + 1)];
        let mut unmet = row.iter().filter(|&&met| !met).count();
        for &q in &level {
            let state = &a.states[q as usize];
            taken += 1;
            if state.at_rest {
                return (true, taken, met);
            }
            if unmet == 0 {
                continue;
            }
            for &(must, must_not, t) in &state.transitions {
                if must & !letter | must_not & letter == 0 && !row[t as usize] {
                    row[t as usize] = true;
                    unmet -= 1;
                    next.push(t);
                }
            }
        }
        std::mem::swap(&mut level, &mut next);
        next.clear();
    }
    (false, taken, met)
}

/// Whether the lasso is kept, and how many pairs are taken.
pub fn judge(a: &Automaton, stem: &[u8], cycle: &[u8]) -> (bool, usize) {
    let (rests, taken, met) = take_pairs(a, stem, cycle);
    let first = a.states.len() * stem.len();
    (rests || comes_back(a, &met[first..first + a.states.len()], cycle), taken)
}

/// Some state in which a pass begins, one of those met there, comes back to itself through an accepting state.
fn comes_back(a: &Automaton, met: &[bool], cycle: &[u8]) -> bool {
    if !a.states.iter().any(|state| state.accepting) {
        return false;
    }
    let mut rows = vec![Runs::default(); a.states.len()];
    for (q, row) in rows.iter_mut().enumerate().filter(|&(q, _)| met[q]) {
        row.all |= 1 << q;
    }
    lift(a, &mut rows);
    if !run(a, cycle, &mut rows) {
        return false;
    }
    for m in 0..rows.len() {
        let mut via = rows[m];
        if has(via.met, m) {
            via.met |= via.all;
        }
        for row in &mut rows {
            if has(row.met, m) {
                row.met |= via.all;
            }
            if has(row.all, m) {
                row.join(via);
            }
        }
    }
    rows.iter().enumerate().any(|(q, row)| has(row.met, q))
}

fn number_at(bytes: &[u8], i: usize) -> usize {
    u16::from_le_bytes([bytes[i], bytes[i + 1]]) as usize
}

/// The records of states, transitions and initial numbers of an image, or its refusal by 10.
fn bodies(image: &[u8]) -> Answer<[&[u8]; 3]> {
    if image.len() < 18 {
        return refuse(10, 0);
    }
    let entry = |k: usize| [number_at(image, 6 * k), number_at(image, 6 * k + 2), number_at(image, 6 * k + 4)];
    let [[k1, a, o1], [k2, b, o2], [k3, c, o3]] = [entry(0), entry(1), entry(2)];
    if [k1, k2, k3] != [1, 2, 3]
        || a > 96
        || b > 12288
        || c > 96
        || [o1, o2, o3] != [18, 18 + 4 * a, 18 + 4 * a + 4 * b]
        || image.len() != o3 + 2 * c
    {
        return refuse(10, 0);
    }
    Ok([&image[o1..o2], &image[o2..o3], &image[o3..]])
}

fn state_fits(record: &[u8]) -> bool {
    number_at(record, 0) <= 128 && record[2] <= 1
}

/// The state records in one pass: the lowest that does not fit, or the sum of the counts.
fn in_one(records: &[u8]) -> Answer<usize> {
    let mut sum = 0;
    for (i, record) in records.chunks_exact(4).enumerate() {
        if !state_fits(record) {
            return refuse(11, i);
        }
        sum += number_at(record, 0);
    }
    Ok(sum)
}

/// The same in two passes, the first over the bytes and the second over the counts.
fn in_two(records: &[u8]) -> Answer<usize> {
    match records.chunks_exact(4).position(|record| !state_fits(record)) {
        Some(i) => refuse(11, i),
        None => Ok(records.chunks_exact(4).map(|record| number_at(record, 0)).sum()),
    }
}

/// The lowest state whose last byte does not say whether it is at rest, by its transition records as they stand.
fn wrong_rest(states: &[u8], mut transitions: &[u8]) -> Option<usize> {
    states.chunks_exact(4).enumerate().position(|(q, record)| {
        let (own, behind) = transitions.split_at(4 * number_at(record, 0));
        transitions = behind;
        let at_rest = record[2] == 1 && own.chunks_exact(4).any(|r| *r == [0, 0, q as u8, 0]);
        record[3] != at_rest as u8
    })
}

/// The three bodies of an image, or its refusal by 10 to 13; the state records are looked at by the function given.
fn check(image: &[u8], pass: impl Fn(&[u8]) -> Answer<usize>) -> Answer<[&[u8]; 3]> {
    let [states, transitions, initial] = bodies(image)?;
    let count = states.len() / 4;
    if pass(states)? != transitions.len() / 4 {
        return refuse(11, count);
    }
    if let Some(q) = wrong_rest(states, transitions) {
        return refuse(11, q);
    }
    let wrong = |r: &[u8]| number_at(r, 2) >= count || r[0] & r[1] != 0 || (r[0] | r[1]) & SKIPPED != 0;
    if let Some(i) = transitions.chunks_exact(4).position(wrong) {
        return refuse(12, i);
    }
    let mut least = 0;
    for (i, r) in initial.chunks_exact(2).enumerate() {
        let number = number_at(r, 0);
        if number >= count || number < least {
            return refuse(13, i);
        }
        least = number + 1;
    }
    Ok([states, transitions, initial])
}

/// The automaton of an image, or its refusal by 10 to 13.
pub fn read(image: &[u8]) -> Answer<Automaton> {
    let [states, transitions, initial] = check(image, in_one)?;
    let mut unread = transitions.chunks_exact(4).map(|r| (r[0], r[1], number_at(r, 2) as u16));
    let states = states
        .chunks_exact(4)
        .map(|r| State {
            accepting: r[2] == 1,
            at_rest: r[3] == 1,
            transitions: unread.by_ref().take(number_at(r, 0)).collect(),
        })
        .collect();
    Ok(Automaton { states, initial: initial.chunks_exact(2).map(|r| number_at(r, 0) as u16).collect() })
}

/// The image's records in the caller's tables, and how many there are of each.
fn load(image: &[u8], pass: impl Fn(&[u8]) -> Answer<usize>, tables: &mut Tables) -> Answer<[usize; 3]> {
    let [states, transitions, initial] = check(image, pass)?;
    for (table, body) in [
        (&mut tables.states[..], states),
        (&mut tables.transitions[..], transitions),
        (&mut tables.initial[..], initial),
    ] {
        table[..body.len()].copy_from_slice(body);
        table[body.len()..].fill(0);
    }
    Ok([states.len() / 4, transitions.len() / 4, initial.len() / 2])
}

/// Cases as `tests/host/serve.c` reads them, T, J, R, S, M, A, E and K alone; and r, which is R with two passes over state
/// records, and a, which is A with the image checked once and not at every step.
fn cases(bytes: &[u8]) -> Vec<(u8, Vec<&[u8]>)> {
    let mut out = Vec::new();
    let mut at = 0;
    while at < bytes.len() {
        let kind = bytes[at];
        at += 1;
        let mut slices = Vec::new();
        for _ in 0..match kind { b'S' => 4, b'J' | b'E' | b'K' => 3, b'M' | b'A' | b'a' => 2, _ => 1 } {
            let n = u32::from_le_bytes(bytes[at..at + 4].try_into().unwrap()) as usize;
            slices.push(&bytes[at + 4..at + 4 + n]);
            at += 4 + n;
        }
        out.push((kind, slices));
    }
    out
}

/// Bit 7 of a letter, which says that it is skipped.
const SKIPPED: u8 = 0x80;

/// The letters that remain; as they are lent if none is skipped.
fn remaining(letters: &[u8]) -> Cow<'_, [u8]> {
    if letters.iter().any(|letter| letter & SKIPPED != 0) {
        letters.iter().copied().filter(|letter| letter & SKIPPED == 0).collect()
    } else {
        letters.into()
    }
}

/// What remains of a stem and a cycle, or the lasso's refusal by 8, 9 or 28, at this place.
fn check_lasso<'a>(stem: &'a [u8], cycle: &'a [u8], place: usize) -> Answer<[Cow<'a, [u8]>; 2]> {
    match (stem.len(), cycle.len()) {
        (_, 0) => refuse(8, place),
        (s, c) if s + c > 336 => refuse(9, place),
        _ => match [remaining(stem), remaining(cycle)] {
            [_, cycle] if cycle.is_empty() => refuse(28, place),
            lasso => Ok(lasso),
        },
    }
}

/// Whether two lassos are one word: the letters of the longer stem agree, and as many behind it as both cycles have.
fn same_word(stem: &[u8], cycle: &[u8], other_stem: &[u8], other_cycle: &[u8]) -> Answer<bool> {
    let [stem, cycle] = check_lasso(stem, cycle, 0)?;
    let [other_stem, other_cycle] = check_lasso(other_stem, other_cycle, 1)?;
    let n = stem.len().max(other_stem.len()) + cycle.len() + other_cycle.len();
    let word = stem.iter().chain(cycle.iter().cycle());
    let other = other_stem.iter().chain(other_cycle.iter().cycle());
    Ok(word.zip(other).take(n).all(|(a, b)| a == b))
}

/// The states to which a step at the letter leads, a bit each.
fn step(states: &[u8], transitions: &[u8], set: u128, letter: u8) -> u128 {
    let (mut next, mut at) = (0, 0);
    for (q, record) in states.chunks_exact(4).enumerate() {
        let end = at + 4 * number_at(record, 0);
        if has(set, q) {
            let read = transitions[at..end].chunks_exact(4).filter(|r| letter & r[0] == r[0] && letter & r[1] == 0);
            next = read.fold(next, |bits, r| bits | 1 << number_at(r, 2));
        }
        at = end;
    }
    next
}

/// Starting the field unit and a step for each letter, with the image checked at every step if so asked: all answers
/// and the bytes of the last set in one sum.
fn watch(image: &[u8], letters: &[u8], each: bool) -> Answer<u64> {
    let [mut states, mut transitions, initial] = check(image, in_one)?;
    let mut set = initial.chunks_exact(2).fold(0u128, |bits, r| bits | 1 << number_at(r, 0));
    let mut alarms = (set == 0) as u64;
    for &letter in letters {
        if each {
            [states, transitions, _] = check(std::hint::black_box(image), in_one)?;
        }
        if letter & SKIPPED == 0 {
            set = step(states, transitions, set, letter);
        }
        alarms += (set == 0) as u64;
    }
    Ok(256 * alarms + set.to_le_bytes().iter().map(|&byte| byte as u64).sum::<u64>())
}

/// For each node, whether it holds at each letter of the lasso: an until or a release by two rounds backwards.
fn truth(nodes: &[Node], stem: &[u8], cycle: &[u8]) -> Vec<Vec<bool>> {
    let word = [stem, cycle].concat();
    let (s, total) = (stem.len(), word.len());
    let mut rows: Vec<Vec<bool>> = Vec::with_capacity(nodes.len());
    for node in nodes {
        let both = || rows[node.left].iter().zip(&rows[node.right]);
        let row = match node.kind {
            0 | 1 => vec![node.kind == 1; total],
            2 | 3 => word.iter().map(|letter| (letter >> node.left & 1 == 1) == (node.kind == 2)).collect(),
            4 => both().map(|(a, b)| a & b).collect(),
            5 => both().map(|(a, b)| a | b).collect(),
            6 => (1..total).chain([s]).map(|i| rows[node.left][i]).collect(),
            _ => {
                let (a, b, until) = (&rows[node.left], &rows[node.right], node.kind == 7);
                let here = |next, i: usize| if until { b[i] | (a[i] & next) } else { b[i] & (a[i] | next) };
                let mut next = (s..total).rev().fold(!until, here);
                let mut row = vec![false; total];
                for (i, flag) in row.iter_mut().enumerate().rev() {
                    next = here(next, i);
                    *flag = next;
                }
                row
            }
        };
        rows.push(row);
    }
    rows
}

/// The clauses of a node that do not hold at the first letter, left before right.
fn broken<'a>(nodes: &'a [Node], rows: &'a [Vec<bool>], n: usize) -> Box<dyn Iterator<Item = usize> + 'a> {
    match nodes[n] {
        Node { kind: 4, left, right } => Box::new(broken(nodes, rows, left).chain(broken(nodes, rows, right))),
        _ => Box::new((!rows[n][0]).then_some(n).into_iter()),
    }
}

/// At which index of the letters as lent the i-th that remains stands.
fn place(letters: &[u8], i: usize) -> usize {
    letters.iter().enumerate().filter(|(_, letter)| *letter & SKIPPED == 0).nth(i).unwrap().0
}

/// The broken clause and 1 more, in which slice it is shown, and from which index on, in one number; 0 for a lasso that
/// satisfies the rule.
fn explain(rule: &[u8], stem: &[u8], cycle: &[u8]) -> Answer<u64> {
    let nodes = parse(rule)?;
    let [first, second] = check_lasso(stem, cycle, 0)?;
    let rows = truth(&nodes, &first, &second);
    let Some(clause) = broken(&nodes, &rows, nodes.len() - 1).next() else {
        return Ok(0);
    };
    let node = nodes[clause];
    let shown = match node.kind {
        7 => rows[node.left].iter().zip(&rows[node.right]).position(|(a, b)| !a & !b),
        8 => rows[node.right].iter().position(|b| !b),
        _ => Some(0),
    };
    let part = shown.map_or(0, |i| match i.checked_sub(first.len()) {
        None => (1 << 16) + ((place(stem, i) as u64) << 24),
        Some(i) => (2 << 16) + ((place(cycle, i) as u64) << 24),
    });
    Ok(256 * (clause as u64 + 1) + part)
}

/// Whether a lasso satisfies a rule, which is of the first edition here.
fn satisfies(rule: &[u8], stem: &[u8], cycle: &[u8]) -> Answer<bool> {
    let nodes = parse(rule)?;
    let [stem, cycle] = check_lasso(stem, cycle, 0)?;
    Ok(truth(&nodes, &stem, &cycle)[nodes.len() - 1][0])
}

/// What a case comes to, as one number, so that both sides can be held against each other.
fn answer(kind: u8, slices: &[&[u8]], tables: &mut Tables) -> u64 {
    let refused = |r: Refusal| r.number as u64 + 256 * r.place as u64;
    let counted = |[states, transitions, initial]: [usize; 3]| {
        256 * states as u64 + 65536 * transitions as u64 + (1 << 32) * initial as u64
    };
    match kind {
        b'T' => translate(slices[0]).map_or_else(refused, |(a, conflicts)| {
            tables.fill(&a);
            counted([a.states.len(), a.states.iter().map(|s| s.transitions.len()).sum(), a.initial.len()])
                + ((conflicts as u64) << 40)
        }),
        b'R' => load(slices[0], in_one, tables).map_or_else(refused, counted),
        b'r' => load(slices[0], in_two, tables).map_or_else(refused, counted),
        b'M' => {
            let mut merged = [0; 96];
            let length = merge(slices[0], slices[1], std::hint::black_box(&mut merged));
            length.map_or_else(refused, |n| 256 * n as u64)
        }
        b'A' => watch(slices[0], slices[1], true).unwrap_or_else(refused),
        b'a' => watch(slices[0], slices[1], false).unwrap_or_else(refused),
        b'E' => explain(slices[0], slices[1], slices[2]).unwrap_or_else(refused),
        b'K' => satisfies(slices[0], slices[1], slices[2]).map_or_else(refused, |kept| 256 * kept as u64),
        b'S' => same_word(slices[0], slices[1], slices[2], slices[3]).map_or_else(refused, |same| 256 * same as u64),
        _ => {
            let lasso = |a| check_lasso(slices[1], slices[2], 0).map(|[stem, cycle]| (a, stem, cycle));
            read(slices[0]).and_then(lasso).map_or_else(refused, |(a, stem, cycle)| {
                let (kept, taken) = judge(&a, &stem, &cycle);
                256 * kept as u64 + 65536 * taken as u64
            })
        }
    }
}

/// peer FILE REPEAT: the sum of the answers and the nanoseconds of one round, the best of REPEAT.
fn main() {
    let words: Vec<String> = std::env::args().collect();
    let bytes = std::fs::read(&words[1]).unwrap();
    let repeat: usize = words[2].parse().unwrap();
    let cases = cases(&bytes);
    let mut tables = Box::new(Tables { states: [0; 384], transitions: [0; 49152], initial: [0; 192] });
    let mut best = u128::MAX;
    let mut sum = 0u64;
    for _ in 0..repeat {
        let start = std::time::Instant::now();
        sum = cases.iter().map(|(kind, slices)| std::hint::black_box(answer(*kind, slices, &mut tables))).fold(0, u64::wrapping_add);
        best = best.min(start.elapsed().as_nanos());
    }
    println!("{sum} {best}");
}
