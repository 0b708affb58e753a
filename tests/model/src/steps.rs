//! The order in which an answer's pairs are pruned: from the ends inward, by the item that a link leaves; then both ways.

use crate::answering::{greatest_choice, Choice};
use crate::files::Pattern;
use crate::matching::Ways;
use std::collections::BTreeSet;

/// Items of a question.
pub type Items = BTreeSet<u32>;

fn items(question: &Pattern) -> Items {
    (0..question.kinds.len() as u32).collect()
}

/// What an item leads to, directly or through others.
fn led_to(question: &Pattern, item: u32) -> Items {
    let mut reached = Items::new();
    loop {
        let before = reached.len();
        for &(from, to, _) in &question.links {
            if from == item || reached.contains(&from) {
                reached.insert(to);
            }
        }
        if reached.len() == before {
            return reached;
        }
    }
}

/// An item and those that it leads to and that lead to it.
fn component(question: &Pattern, item: u32) -> Items {
    let both_ways = |&other: &u32| led_to(question, item).contains(&other) && led_to(question, other).contains(&item);
    items(question).into_iter().filter(|other| *other == item || both_ways(other)).collect()
}

/// The component that the next step settles: all that its items lead to, but for the component itself, is settled before.
/// Which of several such components comes next is the program's choice: the one that has the lowest item.
fn next_component(question: &Pattern, settled: &Items) -> Option<Items> {
    let is_ready = |&item: &u32| {
        let own = component(question, item);
        led_to(question, item).iter().all(|other| settled.contains(other) || own.contains(other))
    };
    let item = items(question).difference(settled).copied().find(is_ready)?;
    Some(component(question, item))
}

/// What stands where these items are settled: for the links that leave them the greatest choice for these links alone, for
/// all others their candidates.
fn state(question: &Pattern, candidates: &Choice, settled: &Items) -> Choice {
    let leaves: Vec<bool> = question.links.iter().map(|(from, ..)| settled.contains(from)).collect();
    let links = question.links.iter().zip(&leaves).filter(|(_, leaves)| **leaves).map(|(link, _)| *link).collect();
    let alone = Pattern { kinds: question.kinds.clone(), links };
    let own = candidates.iter().zip(&leaves).filter(|(_, leaves)| **leaves).map(|(pairs, _)| pairs.clone()).collect();
    let mut greatest = greatest_choice(&alone, own, Ways::Leaving).into_iter();
    let stands = |(pairs, leaves): (&BTreeSet<(u32, u32)>, &bool)| match leaves {
        true => greatest.next().unwrap(),
        false => pairs.clone(),
    };
    candidates.iter().zip(&leaves).map(stands).collect()
}

/// The settled items after each step, and what then stands, up to the last step, before any zeroing.
pub fn steps(question: &Pattern, candidates: &Choice) -> Vec<(Items, Choice)> {
    let mut settled = Items::new();
    let mut steps = Vec::new();
    while let Some(component) = next_component(question, &settled) {
        settled.extend(component);
        steps.push((settled.clone(), state(question, candidates, &settled)));
    }
    steps
}

/// What is left of a state when it is pruned both ways.
pub fn pruned(question: &Pattern, state: &Choice) -> Choice {
    greatest_choice(question, state.clone(), Ways::Both)
}

#[cfg(test)]
mod tests {
    use super::*;
    use crate::drawing::{draw_kinds, draw_pattern, Rule};

    fn question(items: usize, links: &[(u32, u32)]) -> Pattern {
        Pattern { kinds: vec![0; items], links: links.iter().map(|&(from, to)| (from, to, 0)).collect() }
    }

    fn ring(n: u32) -> Vec<(u32, u32)> {
        (0..n).map(|item| (item, (item + 1) % n)).collect()
    }

    fn settled(question: &Pattern) -> Vec<Vec<u32>> {
        let none = vec![BTreeSet::new(); question.links.len()];
        steps(question, &none).into_iter().map(|(items, _)| items.into_iter().collect()).collect()
    }

    fn choice(lists: &[&[(u32, u32)]]) -> Choice {
        lists.iter().map(|pairs| pairs.iter().copied().collect()).collect()
    }

    #[test]
    fn a_cycle_of_three_that_feeds_a_tail() {
        let question = question(6, &[(0, 1), (1, 2), (2, 0), (2, 3), (3, 4), (4, 5)]);
        assert_eq!(settled(&question), [vec![5], vec![4, 5], vec![3, 4, 5], vec![0, 1, 2, 3, 4, 5]]);
        // Nothing goes on at 6, so the tail's (3, 6) goes with item 3. No link of the tail begins at 7, so (2, 7) goes with
        // the cycle; without (2, 3) the whole cycle goes, and the tail stays.
        let tail: [&[(u32, u32)]; 2] = [&[(3, 4), (3, 6)], &[(4, 5)]];
        let candidates = choice(&[&[(0, 1)], &[(1, 2)], &[(2, 0)], &[(2, 3), (2, 7)], tail[0], tail[1]]);
        let states: Vec<Choice> = steps(&question, &candidates).into_iter().map(|(_, state)| state).collect();
        assert_eq!(states[..2], [candidates.clone(), candidates]);
        assert_eq!(states[2], choice(&[&[(0, 1)], &[(1, 2)], &[(2, 0)], &[(2, 3), (2, 7)], &[(3, 4)], &[(4, 5)]]));
        assert_eq!(states[3], choice(&[&[(0, 1)], &[(1, 2)], &[(2, 0)], &[(2, 3)], &[(3, 4)], &[(4, 5)]]));
        let lost = choice(&[&[(0, 1)], &[(1, 2)], &[(2, 0)], &[(2, 7)], tail[0], tail[1]]);
        assert_eq!(steps(&question, &lost)[3].1, choice(&[&[], &[], &[], &[], &[(3, 4)], &[(4, 5)]]));
    }

    #[test]
    fn two_components_that_are_independent() {
        let question = question(4, &[(2, 3), (3, 2), (0, 1), (1, 0)]);
        assert_eq!(settled(&question), [vec![0, 1], vec![0, 1, 2, 3]]);
        let candidates = choice(&[&[(5, 6)], &[(7, 5)], &[(0, 1)], &[(2, 0)]]);
        let states = steps(&question, &candidates);
        assert_eq!(states[0].1, choice(&[&[(5, 6)], &[(7, 5)], &[], &[]]));
        assert_eq!(states[1].1, choice(&[&[], &[], &[], &[]]));
    }

    #[test]
    fn a_link_to_itself() {
        let question = question(2, &[(0, 1), (1, 1)]);
        assert_eq!(settled(&question), [vec![1], vec![0, 1]]);
        let candidates = choice(&[&[(0, 1), (0, 3)], &[(1, 2), (2, 1), (3, 4)]]);
        let states = steps(&question, &candidates);
        assert_eq!(states[0].1, choice(&[&[(0, 1), (0, 3)], &[(1, 2), (2, 1)]]));
        assert_eq!(states[1].1, choice(&[&[(0, 1)], &[(1, 2), (2, 1)]]));
    }

    #[test]
    fn an_item_that_no_link_leaves() {
        let question = question(3, &[(0, 2), (1, 2)]);
        assert_eq!(settled(&question), [vec![2], vec![0, 2], vec![0, 1, 2]]);
        let candidates = choice(&[&[(0, 5)], &[(1, 6)]]);
        assert!(steps(&question, &candidates).iter().all(|(_, state)| *state == candidates));
    }

    #[test]
    fn sixteen_items_in_one_ring_and_in_a_chain() {
        assert_eq!(settled(&question(16, &ring(16))), [(0..16).collect::<Vec<u32>>()]);
        let chain: Vec<Vec<u32>> = (0..16).map(|step| (15 - step..16).collect()).collect();
        assert_eq!(settled(&question(16, &ring(16)[..15])), chain);
        let up: Vec<(u32, u32)> = (0..15).map(|item| (item + 1, item)).collect();
        let upward: Vec<Vec<u32>> = (0..16).map(|step| (0..=step).collect()).collect();
        assert_eq!(settled(&question(16, &up)), upward);
    }

    #[test]
    fn the_lowest_ready_item_comes_first() {
        // Items 1 and 3 are ready; then 0, which leads to 3, and 2, which leads to 1.
        assert_eq!(settled(&question(4, &[(0, 3), (2, 1)])), [vec![1], vec![1, 2], vec![1, 2, 3], vec![0, 1, 2, 3]]);
    }

    #[test]
    fn a_settled_link_stays_as_it_is() {
        let question = question(3, &[(0, 1), (1, 2), (1, 1), (2, 2)]);
        let candidates = choice(&[&[(0, 0), (0, 1)], &[(0, 1), (1, 1)], &[(0, 0), (1, 2)], &[(1, 1), (2, 3)]]);
        let states = steps(&question, &candidates);
        for (before, after) in states.iter().zip(&states[1..]) {
            for (e, (from, ..)) in question.links.iter().enumerate() {
                if before.0.contains(from) {
                    assert_eq!(before.1[e], after.1[e]);
                }
            }
        }
        let all = &states.last().unwrap().1;
        assert_eq!(*all, greatest_choice(&question, candidates.clone(), Ways::Leaving));
    }

    #[test]
    fn links_that_differ_in_their_kinds_alone() {
        let mut question = question(3, &[(0, 1), (0, 1), (1, 2)]);
        question.links[1].2 = 1;
        assert_eq!(settled(&question), [vec![2], vec![1, 2], vec![0, 1, 2]]);
        // (0, 1) goes on at 1, (0, 3) doesn't. Item 4 lacks the second kind.
        let candidates = choice(&[&[(0, 1), (4, 1)], &[(0, 1), (0, 3)], &[(1, 2)]]);
        let states = steps(&question, &candidates);
        assert_eq!(states[1].1, candidates);
        assert_eq!(states[2].1, choice(&[&[(0, 1)], &[(0, 1)], &[(1, 2)]]));
    }

    #[test]
    fn a_pair_that_nothing_arrives_at() {
        // (3, 2) goes on from no first link, so it stays through the steps and goes in the pruning.
        let question = question(3, &[(0, 1), (1, 2)]);
        let candidates = choice(&[&[(0, 1)], &[(1, 2), (3, 2)]]);
        let states = steps(&question, &candidates);
        assert_eq!(states[2].1, candidates);
        assert_eq!(pruned(&question, &candidates), choice(&[&[(0, 1)], &[(1, 2)]]));
        // A reading needs both runs.
        let reading = Pattern { kinds: vec![0; 3], links: vec![(0, 2, 0), (1, 2, 0)] };
        let candidates = choice(&[&[(0, 5), (1, 6)], &[(2, 6), (3, 7)]]);
        assert_eq!(pruned(&reading, &candidates), choice(&[&[(1, 6)], &[(2, 6)]]));
    }

    #[test]
    fn from_every_state_the_same_is_left() {
        let mut rule = Rule::new();
        let mut fewer = 0;
        for _ in 0..200 {
            let kinds = draw_kinds(&mut rule);
            let fields = draw_pattern(&mut rule, kinds);
            let (items, links) = (fields[0] as usize, fields[2 + fields[0] as usize..].chunks(3));
            let links: Vec<_> = links.map(|link| (link[0], link[1], link[2])).collect();
            let question = Pattern { kinds: vec![0; items], links };
            let nodes = 2 + rule.draw(5);
            let most = 1 + rule.draw(16);
            let candidates: Choice = question
                .links
                .iter()
                .map(|_| (0..most).map(|_| (rule.draw(nodes), rule.draw(nodes))).collect())
                .collect();
            let left = pruned(&question, &candidates);
            let states = steps(&question, &candidates);
            assert!(states.iter().all(|(_, state)| pruned(&question, state) == left));
            fewer += u32::from(states.last().is_some_and(|(_, state)| *state != left));
        }
        assert!(fewer > 40, "{fewer}");
    }
}
