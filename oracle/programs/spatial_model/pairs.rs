//! Two studies in space side by side: they agree on a closed set of bodies and differ in all else that document 01 allows; the same list of calls goes
//! through both, and what they share is compared after each call.

use crate::generator::{Generator, total};
use crate::library::{ORACLE, RENDERING, Side, same};
use crate::run::show_study;
use crate::spatial_model::{
    Answer, BODY, Call, ENABLED, FINITE, JOINT, KINDS, ROW, STORED, Study, WORDS, WORLD, refusal,
};
use std::process::exit;

/// What the pairs have met.
#[derive(Default)]
struct Tally {
    pairs: u64,
    calls: u64,
    granted: [u64; KINDS.len()],
    refused: [u64; KINDS.len()],
    /// Sets: empty, of some bodies, of all in both studies.
    sets: [u64; 3],
    /// Pairs that differ in their numbers of bodies or joints.
    other_counts: u64,
    /// Pairs whose list has no granted build, so that nothing is named.
    nameless: u64,
    /// Rows of the set's joints compared, and those at different places in the two storages.
    rows: u64,
    moved_rows: u64,
    /// Numbers of the set's joints that nothing names and that were drawn anew.
    unnamed: u64,
    /// Joints that are switched off: the set's, and those from the set to a body outside it.
    off: u64,
    across: u64,
    swaps: u64,
}

/// One call of a list, and the storage that each study is lent for it, where that is another one.
struct Step {
    call: Call,
    lent: [Option<Vec<f32>>; 2],
}

/// A list, and the ids that it names for each joint of the first study.
struct List {
    steps: Vec<Step>,
    named: Vec<Vec<u32>>,
    /// Whether it makes rows at all.
    made: bool,
}

struct Pair {
    studies: [Study; 2],
    /// Whether body i is in the set.
    set: Vec<bool>,
    /// Whether joint j is the set's.
    own: Vec<bool>,
    /// The places in the set's joints' numbers that must be equal throughout.
    shared: Vec<[bool; JOINT]>,
    list: Vec<Step>,
}

/// A shared thing that differs.
struct Difference {
    what: String,
    at: usize,
    before: [Study; 2],
    after: [Study; 2],
}

/// Each body's component, named by one of its bodies. A joint that is enabled ties its two bodies, the world nothing.
fn components(s: &Study) -> Vec<usize> {
    let mut of: Vec<usize> = (0..s.body_count()).collect();
    for j in 0..s.joint_count() {
        let [one, two] = [s.joint(j)[0], s.joint(j)[1]];
        if one != WORLD && two != WORLD && s.joint(j)[ENABLED] == 0 {
            let (from, to) = (of[one as usize], of[two as usize]);
            for c in &mut of {
                if *c == from {
                    *c = to;
                }
            }
        }
    }
    of
}

/// Whether each body of joint j is in the set or the world.
fn is_own(s: &Study, j: usize, set: &[bool]) -> bool {
    let inside = |b: u32| b == WORLD || set.get(b as usize) == Some(&true);
    inside(s.joint(j)[0]) && inside(s.joint(j)[1])
}

impl Pair {
    fn new(g: &mut Generator, t: &mut Tally) -> Pair {
        let mut one = loop {
            let size = g.small();
            let s = if g.d.one_in(8) {
                g.study_of(size)
            } else {
                g.parted(size)
            };
            if refusal(&with_room(&s), &Call::Load) == 0 {
                break s;
            }
        };
        let of = components(&one);
        // Some components; the one of a body drawn is among them, but for one set in 16.
        let chosen: Vec<bool> = of.iter().map(|_| g.d.one_in(3)).collect();
        let sure = g.d.below(of.len() as u64) as usize;
        let sure = (!g.d.one_in(16)).then_some(of[sure]);
        let set: Vec<bool> = of.iter().map(|c| sure == Some(*c) || chosen[*c]).collect();
        let own: Vec<bool> = (0..one.joint_count())
            .map(|j| is_own(&one, j, &set))
            .collect();
        let mut two = other_study(g, &one, &set, &own);
        let room = total(&one).max(total(&two));
        for s in [&mut one, &mut two] {
            s.rows = storage(g, room);
        }
        let List { steps, named, made } = draw_list(g, [one.clone(), two.clone()], t);
        let mut shared = Vec::new();
        for (j, own) in own.iter().enumerate() {
            let mut equal = [true; JOINT];
            if *own {
                t.unnamed += redraw_unnamed(g, &mut two, j, &named[j], &mut equal);
            }
            shared.push(equal);
        }

        // All NaNs are one.
        for (x, y) in two.bodies.iter_mut().zip(&one.bodies) {
            if x.is_nan() && y.is_nan() {
                *x = f32::from_bits(0xFFC0_0001);
            }
        }
        for s in [&mut one, &mut two] {
            g.leftovers(s);
            assert!(refusal(s, &Call::Load) == 0);
        }
        for j in 0..two.joint_count() {
            let own = own.get(j) == Some(&true);
            assert!(is_own(&two, j, &set) == own);
        }

        t.pairs += 1;
        t.nameless += !made as u64;
        for s in [&one, &two] {
            for j in (0..s.joint_count()).filter(|j| s.joint(*j)[ENABLED] != 0) {
                let inside = |b: u32| set.get(b as usize) == Some(&true);
                let touches = inside(s.joint(j)[0]) || inside(s.joint(j)[1]);
                if is_own(s, j, &set) {
                    t.off += 1;
                } else if touches {
                    t.across += 1;
                }
            }
        }
        let inside = set.iter().filter(|b| **b).count();
        let whole = one.body_count().max(two.body_count());
        t.sets[(inside > 0) as usize + (inside > 0 && inside == whole) as usize] += 1;
        t.other_counts +=
            (one.body_count() != two.body_count() || one.joint_count() != two.joint_count()) as u64;
        Pair {
            studies: [one, two],
            set,
            own,
            shared,
            list: steps,
        }
    }

    /// Whether what a call answers is about the set.
    fn is_about(&self, call: &Call) -> bool {
        match call {
            Call::Place { body, .. } | Call::ReadVelocity(body) => {
                self.set.get(*body as usize) == Some(&true)
            }
            Call::ReadRows(joint) => self.own.get(*joint as usize) == Some(&true),
            _ => false,
        }
    }

    /// The first shared thing in which the answers or the studies differ.
    fn differs(
        &self,
        call: &Call,
        now: &[Study; 2],
        answers: &[Answer; 2],
        made: bool,
        t: &mut Tally,
    ) -> Option<String> {
        let [one, two] = now;
        let [a, b] = answers;
        if a.outside || b.outside {
            return Some("something outside the lent storage".into());
        }
        if one.built != two.built {
            return Some("the mark".into());
        }
        if self.is_about(call) {
            if a.code != b.code || a.ids != b.ids || !same(&a.out, &b.out) {
                return Some("the answer about the set".into());
            }
        } else {
            // An index past the smaller count may be absent in one study alone.
            let count = |s: &Study| match call {
                Call::ReadRows(_) => s.joint_count(),
                _ => s.body_count(),
            };
            let index = match call {
                Call::Place { body: i, .. } | Call::ReadVelocity(i) | Call::ReadRows(i) => {
                    Some(*i as usize)
                }
                _ => None,
            };
            let present = |s: &Study| index.is_none_or(|i| i < count(s));
            let refused = |x: &Answer| if x.granted() { 0 } else { x.code };
            if present(one) == present(two) && refused(a) != refused(b) {
                return Some("the refusal".into());
            }
        }
        if let Call::Sweep(_) = call {
            for (j, own) in self.own.iter().enumerate() {
                if *own && a.ids.get(j) != b.ids.get(j) {
                    return Some(format!("the count of joint {j}"));
                }
            }
        }
        for (i, inside) in self.set.iter().enumerate() {
            let of = |s: &Study| s.bodies[i * BODY..][..BODY].to_vec();
            if *inside && !same(&of(one), &of(two)) {
                return Some(format!("body {i}"));
            }
        }
        for (j, own) in self.own.iter().enumerate() {
            if !*own {
                continue;
            }
            for k in 0..JOINT {
                let of = |s: &Study| [s.numbers[j * JOINT + k]];
                if self.shared[j][k] && !same(&of(one), &of(two)) {
                    return Some(format!("number {k} of joint {j}"));
                }
            }
            if one.built && made {
                let ids = one.ids(j);
                let (first, second) = (one.first_row(j), two.first_row(j));
                let of =
                    |s: &Study, first: usize| s.rows[first * ROW..][..ids.len() * ROW].to_vec();
                if !same(&of(one, first), &of(two, second)) {
                    return Some(format!("the rows of joint {j}"));
                }
                t.rows += ids.len() as u64;
                t.moved_rows += (first != second) as u64 * ids.len() as u64;
            }
        }
        None
    }

    /// The list through both studies.
    fn run(&self, side: Side, t: &mut Tally) -> Option<Box<Difference>> {
        let mut now = self.studies.clone();
        let mut made = false;
        for (at, Step { call, lent }) in self.list.iter().enumerate() {
            for (s, lent) in now.iter_mut().zip(lent) {
                if let Some(rows) = lent {
                    s.rows.clone_from(rows);
                }
            }
            let before = now.clone();
            let [one, two] = &mut now;
            let answers = [side(one, call), side(two, call)];
            t.calls += 1;
            let granted = answers[0].granted();
            made |= granted && matches!(call, Call::Build { .. });
            let by = if granted {
                &mut t.granted
            } else {
                &mut t.refused
            };
            by[call.kind()] += 1;
            if let Some(what) = self.differs(call, &now, &answers, made, t) {
                return Some(Box::new(Difference {
                    what,
                    at,
                    before,
                    after: now,
                }));
            }
        }
        None
    }
}

/// The study with storage for its rows.
fn with_room(s: &Study) -> Study {
    let mut s = s.clone();
    s.rows = vec![0.0; total(&s) * ROW];
    s
}

/// Storage for `room` rows or some more.
fn storage(g: &mut Generator, room: usize) -> Vec<f32> {
    let more = g.d.pick(&[0, 0, 1, 2, 4, 12]);
    g.storage(room + more)
}

/// A study with the set's bodies and joints as they stand, and all else drawn anew.
fn other_study(g: &mut Generator, one: &Study, set: &[bool], own: &[bool]) -> Study {
    let last = |of: &[bool]| of.iter().rposition(|x| *x).map_or(0, |i| i + 1);
    let (mut bodies, mut joints) = (one.body_count(), one.joint_count());
    if g.d.one_in(4) {
        bodies = last(set) + g.d.below(4) as usize;
        joints = last(own) + g.d.below(4) as usize;
    }
    let outside = |bodies: usize| {
        let far = |i: &usize| set.get(*i) != Some(&true);
        (0..bodies)
            .filter(far)
            .map(|i| i as u32)
            .collect::<Vec<_>>()
    };
    // Joints that are not the set's need a body outside it.
    let strangers = (0..joints).any(|j| own.get(j) != Some(&true));
    if strangers && outside(bodies).is_empty() {
        bodies += 1;
    }
    let outside = outside(bodies);
    let inside: Vec<u32> = (0..bodies as u32)
        .filter(|i| set.get(*i as usize) == Some(&true))
        .collect();

    let mut two = one.clone();
    two.bodies.clear();
    two.words.clear();
    two.numbers.clear();
    for i in 0..bodies {
        if set.get(i) == Some(&true) {
            two.bodies.extend(&one.bodies[i * BODY..][..BODY]);
        } else {
            let body = g.body(false);
            two.bodies.extend(body);
        }
    }
    for j in 0..joints {
        if own.get(j) == Some(&true) {
            two.words.extend(&one.words[j * WORDS..][..WORDS]);
            two.numbers.extend(&one.numbers[j * JOINT..][..JOINT]);
        } else {
            let mut ends = [g.d.pick(&outside), g.d.pick(&outside)];
            // One that is switched off may reach into the set.
            let across = !inside.is_empty() && g.d.one_in(4);
            if across {
                ends[g.d.below(2) as usize] = g.d.pick(&inside);
            } else if ends[0] == ends[1] {
                ends[g.d.below(2) as usize] = WORLD;
            }
            let (mut words, numbers) = g.joint(&two, ends, false);
            if across {
                words[ENABLED] = g.disabled();
            }
            two.words.extend(words);
            two.numbers.extend(numbers);
        }
    }
    g.mend(&mut two);
    two
}

/// Calls as they may come; each is drawn for the first study as the calls before it left it.
fn draw_list(g: &mut Generator, mut now: [Study; 2], t: &mut Tally) -> List {
    let builds = !g.d.one_in(8);
    let mut list = List {
        steps: Vec::new(),
        named: vec![Vec::new(); now[0].joint_count()],
        made: false,
    };
    for _ in 0..4 + g.d.below(28) {
        let call = g.call(&now[0]);
        if matches!(call, Call::Build { .. }) && !builds {
            continue;
        }
        let room = total(&now[0]).max(total(&now[1]));
        // A model that is not built may get any storage.
        let lent = [0, 1].map(|i| {
            (!now[i].built && g.d.one_in(3)).then(|| {
                now[i].rows = storage(g, room);
                now[i].rows.clone()
            })
        });
        let answers = [0, 1].map(|i| ORACLE(&mut now[i], &call));
        if answers[0].granted() && matches!(call, Call::Build { .. }) {
            list.made = true;
            for (j, named) in list.named.iter_mut().enumerate() {
                named.extend(now[0].ids(j));
            }
        }
        t.swaps += lent.iter().flatten().count() as u64;
        list.steps.push(Step { call, lent });
    }
    list
}

/// Draws anew what joint j does not name, and takes it off `equal`. Returns how many numbers.
fn redraw_unnamed(
    g: &mut Generator,
    s: &mut Study,
    j: usize,
    ids: &[u32],
    equal: &mut [bool; JOINT],
) -> u64 {
    let mut places = Vec::new();
    for axis in 0..6 {
        if !ids.contains(&(axis as u32)) {
            places.push(43 + axis);
        }
    }
    for axis in 0..3 {
        if !ids.contains(&(8 + axis as u32)) {
            places.extend(14 + 3 * axis..17 + 3 * axis);
        }
        if !ids.contains(&(16 + axis as u32)) {
            places.extend(23 + 6 * axis..29 + 6 * axis);
            s.words[j * WORDS + 6 + axis] = g.d.word() as u32;
        }
    }
    for place in &places {
        let any = g.d.number();
        let x = if FINITE.contains(place) {
            g.d.finite()
        } else if STORED.contains(place) || !any.is_nan() {
            any
        } else {
            f32::NEG_INFINITY
        };
        s.numbers[j * JOINT + place] = x;
        equal[*place] = false;
    }
    places.len() as u64
}

/// Runs up to `count` pairs; what stopped them.
fn run(side: Side, seed: u64, count: u64, t: &mut Tally) -> Option<(Pair, Box<Difference>)> {
    let g = &mut Generator::new(seed);
    while t.pairs < count {
        let pair = Pair::new(g, t);
        if let Some(difference) = pair.run(side, t) {
            return Some((pair, difference));
        }
    }
    None
}

pub fn pairs(side: Side, by: &str, seed: u64, count: u64) {
    let t = &mut Tally::default();
    if let Some((pair, d)) = run(side, seed, count, t) {
        println!(
            "pair {} in space by {by}: {} differs after {:?}",
            t.pairs, d.what, pair.list[d.at].call
        );
        println!("set {:?}, its joints {:?}", pair.set, pair.own);
        let before: Vec<_> = pair.list[..d.at].iter().map(|step| step.call).collect();
        println!("calls before: {before:?}");
        let names = ["first study", "second study"];
        for (when, studies) in [("before", &d.before), ("after", &d.after)] {
            for (name, s) in names.iter().zip(studies) {
                println!("{name}, {when} the call:");
                show_study(s);
            }
        }
        exit(1)
    }
    println!(
        "{} pairs in space by {by}, {} calls, no difference, seed {seed}",
        t.pairs, t.calls
    );
    let [empty, some, all] = t.sets;
    println!(
        "sets: {empty} empty, {some} of some bodies, {all} of all; {} pairs with other counts; {} lists that name nothing",
        t.other_counts, t.nameless
    );
    println!(
        "{} rows of sets compared, {} of them at other places; {} unnamed numbers drawn anew; {} storages swapped",
        t.rows, t.moved_rows, t.unnamed, t.swaps
    );
    println!(
        "{} joints of sets switched off, {} switched off from a set to a body outside it",
        t.off, t.across
    );
    for (kind, (granted, refused)) in KINDS.iter().zip(t.granted.iter().zip(t.refused)) {
        println!("  {kind:13} {granted} granted, {refused} refused");
    }
}

/// How many pairs it takes to see the fault that the second rendering carries.
pub fn seen(seed: u64, count: u64) -> Option<u64> {
    let t = &mut Tally::default();
    run(RENDERING, seed, count, t).map(|_| t.pairs)
}
