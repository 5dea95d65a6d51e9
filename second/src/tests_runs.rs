//! Properties of runs from fresh, tried on many random tables.

use crate::call;
use crate::draft::Draft;
use crate::image;
use crate::log;
use crate::random::Random;
use crate::shape;
use crate::state::State;
use crate::step;
use crate::upload::{self, Table};

/// The largest set of nodes in which every node has at least two links to
/// members: nodes with fewer are taken out until none is left.
fn stuck_set(table: &Table) -> Vec<bool> {
    let mut member = vec![true; table.nodes];
    let inner_links = |member: &[bool], node: usize| {
        let joins =
            |&&(x, y): &&(usize, usize)| (x == node && member[y]) || (y == node && member[x]);
        table.links.iter().filter(joins).count()
    };
    while let Some(node) =
        (0..table.nodes).find(|&node| member[node] && inner_links(&member, node) < 2)
    {
        member[node] = false;
    }
    member
}

/// Runs from fresh by random choice to the end and checks each state.
fn check_run(random: &mut Random, draft: &Draft) {
    let table = draft.table();
    let n = table.nodes;
    let mut state = State::fresh(&table);
    let mut actions = Vec::new();
    let mut resolved = 0;
    loop {
        let roots = state.nodes.iter().filter(|node| node.root).count();
        assert!(roots <= 1, "two roots");
        assert_eq!(
            State::of_image(&table, &state.image()).as_ref(),
            Some(&state)
        );
        let report = step::report(&table, &state);
        assert_ne!(report.outcome, 4);
        let steps = step::list(&table, &state);
        assert_eq!(report.outcome == 1, !steps.is_empty());
        if steps.is_empty() {
            break;
        }
        let chosen = random.pick(&steps);
        resolved += usize::from(matches!(chosen, step::Step::Resolve { .. }));
        actions.push(step::bytes(&table, chosen));
        step::take(&table, &mut state, chosen);
        assert!(actions.len() <= 3 * n, "more than 3n steps");
    }
    check_end(&table, &state, actions.len(), resolved);
    check_replay(draft, &state, actions);
}

fn check_end(table: &Table, state: &State, steps: usize, resolved: usize) {
    let n = table.nodes;
    let report = step::report(table, state);
    let stuck = stuck_set(table);
    let k = stuck.iter().filter(|&&s| s).count();
    let t = table
        .links
        .iter()
        .filter(|&&(x, y)| stuck[x] != stuck[y])
        .count();
    assert_eq!(k == 0, table.links.len() + 1 == n, "a loop has a stuck set");
    if k == 0 {
        assert_eq!(report.outcome, 2);
        assert!(resolved <= 1);
        assert_eq!(steps, 3 * n - 1 + resolved);
        assert_eq!(report.waiting, 0);
    } else {
        assert_eq!(report.outcome, 3);
        assert_eq!(report.root, 255);
        assert_eq!(resolved, 0);
        assert_eq!(steps, 3 * (n - k) - t);
        assert_eq!(report.waiting as usize, k);
        let waiting: Vec<bool> = state.nodes.iter().map(|node| node.waiting).collect();
        assert_eq!(waiting, stuck);
    }
}

/// The run as a log: the replay takes all of it and reports the end.
fn check_replay(draft: &Draft, end: &State, actions: Vec<[u8; 3]>) {
    let table = draft.table();
    let with_log = Draft {
        actions,
        ..draft.clone()
    };
    let answer = call::replay(&with_log.bytes());
    assert_eq!(answer.refusal, 0);
    assert_eq!(answer.steps as usize, with_log.actions.len());
    assert_eq!(answer.report, step::report(&table, end));
    // The same by single steps.
    let upload = draft.bytes();
    let mut image = image::fresh(&table);
    for &action in &with_log.actions {
        assert_eq!(call::single_step(&upload, &mut image, action).steps, 1);
    }
    assert_eq!(image, end.image());
}

#[test]
fn random_complete_runs() {
    let mut random = Random::new(20);
    for _ in 0..3000 {
        let draft = shape::any(&mut random);
        assert!(upload::read(&draft.bytes()).is_ok());
        check_run(&mut random, &draft);
    }
}

#[test]
fn both_lengths_of_run_happen_on_a_pair() {
    let mut random = Random::new(21);
    let table = shape::chain(2).table();
    let lengths: Vec<usize> = (0..200)
        .map(|_| log::complete(&mut random, &table).len())
        .collect();
    assert!(lengths.contains(&5) && lengths.contains(&6));
}

#[test]
fn the_runner_ends_as_every_run_does() {
    let mut random = Random::new(22);
    for _ in 0..500 {
        let draft = shape::any(&mut random);
        let table = draft.table();
        let mut end = vec![255; table.image_length()];
        let answer = call::run(&draft.bytes(), &mut end);
        assert_eq!(answer.refusal, 0);
        let Some(state) = State::of_image(&table, &end) else {
            panic!("the runner leaves an unsound image");
        };
        assert_eq!(answer.report, step::report(&table, &state));
        let resolved = if stuck_set(&table).contains(&true) {
            0
        } else {
            answer.steps as usize + 1 - 3 * table.nodes
        };
        check_end(&table, &state, answer.steps as usize, resolved);
    }
}

/// The list against every action that three bytes can name, on any image.
#[test]
fn the_list_holds_just_the_possible_steps() {
    let mut random = Random::new(23);
    let mut tried = 0;
    while tried < 400 {
        let draft = shape::any(&mut random);
        if draft.nodes > 7 {
            continue;
        }
        tried += 1;
        let table = draft.table();
        let upload = draft.bytes();
        let image = image::any_sound(&mut random, &table);
        let mut buffer = vec![0; 3 * (2 * table.nodes + 3 * table.directions())];
        let listed = call::list(&upload, &image, &mut buffer);
        assert_eq!(listed.refusal, 0);
        buffer.truncate(3 * listed.steps as usize);

        let mut possible = Vec::new();
        for kind in 0..=6 {
            for x in 0..=draft.nodes {
                for y in (0..=draft.nodes).chain([255]) {
                    let mut after = image.clone();
                    let answer = call::single_step(&upload, &mut after, [kind, x, y]);
                    if answer.refusal == 0 {
                        assert_eq!(call::report(&upload, &after).report, answer.report);
                        possible.extend([kind, x, y]);
                    } else {
                        assert_eq!(after, image);
                        assert_eq!(answer.report, listed.report);
                    }
                }
            }
        }
        assert_eq!(buffer, possible);
    }
}

/// The makers of images keep their promises.
#[test]
fn made_images_are_as_named() {
    let mut random = Random::new(24);
    for _ in 0..1000 {
        let draft = shape::any(&mut random);
        let table = draft.table();
        let image = image::any_sound(&mut random, &table);
        assert!(State::of_image(&table, &image).is_some());
        let image = image::quiet(&mut random, &table);
        let state = State::of_image(&table, &image);
        assert!(state.is_some_and(|s| step::list(&table, &s).is_empty()));
        let image = image::unsound(&mut random, &table);
        assert_eq!(image.len(), table.image_length());
        assert!(State::of_image(&table, &image).is_none());
        let image = image::wrong_length(&mut random, &table);
        assert_ne!(image.len(), table.image_length());
    }
}
