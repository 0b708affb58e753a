//! The states of joins after each of their steps: worked ones, and questions and candidates that are drawn.

use super::*;
use crate::drawing::*;
use crate::files::*;
use crate::rule::Pairs;

/// A question by the number of its items and by its links.
fn lay(script: &mut Script, items: usize, links: &[Link]) {
    let fields = graph_fields(&vec![0; items], links);
    script.bytes(QUESTION_PART, &write_pattern(&fields, PATTERN_BYTES, WORK_WORDS).unwrap());
}

fn say(script: &mut Script, name: &str) {
    script.name(&format!("{name}: "));
    script.steps();
    script.outcome();
}

/// A link and its candidates.
type Listed<'a> = (Link, &'a [(u32, u32)]);

/// A question, and for each of its links the candidates.
fn stepped(script: &mut Script, name: &str, items: usize, links: &[Listed]) {
    lay(script, items, &links.iter().map(|(link, _)| *link).collect::<Vec<Link>>());
    let mut pairs: Vec<(u32, u32)> = links.iter().flat_map(|(_, pairs)| pairs.iter().copied()).collect();
    pairs.sort();
    pairs.dedup();
    let mask = |pair| (0..links.len()).filter(|&e| links[e].1.contains(pair)).map(|e| 1u32 << e).sum();
    let fields: Vec<u32> = pairs.iter().flat_map(|pair| [pair.0 * 4_096 + pair.1, mask(pair)]).collect();
    script.content(&fields);
    say(script, name);
}

/// The pairs of each item and the next, as many as there are, for every link.
fn row(items: usize, count: usize) -> Pairs {
    Pairs { count, first: 1, step: items + 1, items, form: 3, ..Default::default() }
}

fn worked(script: &mut Script) {
    let cycle: [Listed; 3] = [((0, 1, 0), &[(0, 1)]), ((1, 2, 0), &[(1, 2)]), ((2, 0, 0), &[(2, 0)])];
    let tail: [Listed; 2] = [((3, 4, 0), &[(3, 4), (3, 6)]), ((4, 5, 0), &[(4, 5)])];
    let [a, b, c] = cycle;
    let [d, e] = tail;
    stepped(script, "a cycle of three feeds a tail", 6, &[a, b, c, ((2, 3, 0), &[(2, 3), (2, 7)]), d, e]);
    stepped(script, "a cycle of three feeds a tail that is lost to it", 6, &[a, b, c, ((2, 3, 0), &[(2, 7)]), d, e]);
    stepped(script, "a tail feeds a cycle of three", 6, &[d, e, ((5, 0, 0), &[(5, 0), (5, 1)]), a, b, c]);
    stepped(
        script,
        "two components that are independent",
        4,
        &[((2, 3, 0), &[(5, 6)]), ((3, 2, 0), &[(7, 5)]), ((0, 1, 0), &[(0, 1)]), ((1, 0, 0), &[(1, 0), (2, 0)])],
    );
    stepped(
        script,
        "an item linked to itself",
        2,
        &[((0, 1, 0), &[(0, 1), (0, 3)]), ((1, 1, 0), &[(1, 2), (2, 1), (3, 4)])],
    );
    stepped(script, "an item that no link leaves", 3, &[((0, 2, 0), &[(0, 5)]), ((1, 2, 0), &[(1, 5), (1, 6)])]);
    stepped(
        script,
        "a component that leads to one in two ways",
        5,
        &[
            ((0, 1, 0), &[(0, 1), (8, 1)]),
            ((1, 0, 0), &[(1, 0), (1, 8)]),
            ((0, 2, 0), &[(0, 2), (8, 9)]),
            ((1, 3, 0), &[(1, 3)]),
            ((2, 3, 0), &[(2, 3)]),
            ((3, 2, 0), &[(3, 2)]),
            ((2, 4, 0), &[(2, 4)]),
        ],
    );
    of_kinds(script);
    let ring: Vec<Link> = (0..16).map(|item| (item, (item + 1) % 16, 0)).collect();
    for (name, links) in [("sixteen items in one ring", &ring[..]), ("sixteen items in a chain", &ring[..15])] {
        lay(script, 16, links);
        for count in [15, 16, 64] {
            script.pairs(row(64, count));
            say(script, &format!("{name}, {count} items in a row"));
        }
        script.pairs(Pairs { seed: 7, count: 256, step: 1, items: 16, form: 2, ..Default::default() });
        say(script, &format!("{name}, all pairs of sixteen items"));
    }
    lay(script, 16, &ring);
    script.pairs(row(4_096, 4_095));
    say(script, "sixteen items in one ring, 4096 items in a row");
    script.name("the worked steps\n");
    script.group();
}

/// Links that differ in their kinds alone: each is settled by what it is left with, and both ends ask for all of them.
fn of_kinds(script: &mut Script) {
    stepped(
        script,
        "two kinds of one link",
        2,
        &[((0, 1, 0), &[(0, 1), (2, 3), (4, 5)]), ((0, 1, 1), &[(0, 1), (2, 6), (7, 5)])],
    );
    stepped(
        script,
        "two kinds to an item that goes on",
        3,
        &[((0, 1, 2), &[(0, 1), (0, 3)]), ((0, 1, 6), &[(0, 3), (0, 4)]), ((1, 2, 2), &[(1, 2), (4, 5)])],
    );
    stepped(
        script,
        "two kinds there and one back",
        2,
        &[((0, 1, 3), &[(0, 1), (2, 3)]), ((0, 1, 1), &[(0, 1), (2, 1)]), ((1, 0, 3), &[(1, 0), (3, 2), (1, 4)])],
    );
    stepped(
        script,
        "two kinds of a link to itself",
        1,
        &[((0, 0, 7), &[(0, 1), (1, 0), (2, 2)]), ((0, 0, 0), &[(0, 0), (1, 0), (2, 3)])],
    );
    stepped(
        script,
        "eight kinds of one link",
        2,
        &std::array::from_fn::<Listed, 8, _>(|kind| ((0, 1, kind as u32), &[(0, 1), (0, 2), (3, 1)][..1 + kind % 3])),
    );
}

/// The links of components of a few items, each a ring or a single item, of which some lead to others further on, all under
/// other numbers; some of them of two kinds.
fn draw_components(rule: &mut Rule, n: u32) -> Vec<Link> {
    let mut numbers: Vec<u32> = (0..n).collect();
    for item in 0..n {
        numbers.swap(item as usize, rule.draw(n) as usize);
    }
    let mut links = Vec::new();
    let mut first = 0;
    while first < n {
        let size = (1 + rule.draw(4)).min(n - first);
        if size > 1 || rule.draw(3) == 0 {
            links.extend((0..size).map(|item| (first + item, first + (item + 1) % size)));
        }
        first += size;
        if first < n {
            links.push((rule.draw(first), first + rule.draw(n - first)));
        }
    }
    for item in 0..n {
        if !links.iter().any(|&(from, to)| from == item || to == item) {
            links.push(if rule.draw(2) == 0 { (item, n - 1) } else { (0, item) });
        }
    }
    links.extend((0..rule.draw(4)).map(|_| {
        let from = rule.draw(n);
        (from, from + rule.draw(n - from))
    }));
    let kinds = [1, 2, 8][rule.draw(3) as usize];
    for _ in 0..rule.draw(2) * rule.draw(6) {
        links.push(links[rule.draw(links.len() as u32) as usize]);
    }
    let mut seen = Vec::new();
    for (from, to) in links {
        let link = (numbers[from as usize], numbers[to as usize], rule.draw(kinds));
        if !seen.contains(&link) {
            seen.push(link);
        }
    }
    seen.truncate(32);
    seen
}

/// Few pairs and many, of few items and more.
fn draw_pairs(rule: &mut Rule) -> Pairs {
    let items = [2, 3, 5, 8, 16, 32][rule.draw(6) as usize];
    let all = items * items;
    let gap = [0, 2, 4, 8][rule.draw(4) as usize];
    let form = if gap == 0 { 1 } else { rule.draw(4) as usize };
    Pairs { seed: rule.draw(65_536), count: all.min(400), first: rule.draw(2) as usize, step: 1, gap, items, form }
}

/// How many questions of each kind: of components that are drawn, and of any form.
const QUESTIONS: [u32; 2] = [120, 120];

pub fn write(script: &mut Script) {
    worked(script);
    let mut rule = Rule::new();
    let mut states = 0;
    for (form, questions) in QUESTIONS.into_iter().enumerate() {
        for _ in 0..questions {
            let n = 2 + rule.draw(15);
            if form == 0 {
                lay(script, n as usize, &draw_components(&mut rule, n));
            } else {
                let kinds = draw_kinds(&mut rule);
                let fields = draw_pattern(&mut rule, kinds);
                script.bytes(QUESTION_PART, &write_pattern(&fields, PATTERN_BYTES, WORK_WORDS).unwrap());
            }
            for _ in 0..2 {
                script.pairs(draw_pairs(&mut rule));
                script.steps();
                states += script.lengths().0;
            }
        }
    }
    let questions: u32 = QUESTIONS.iter().sum();
    script.name(&format!("steps of joins: {questions} questions, {states} states\n"));
    script.group();
}
