//! The cases of document 01, each number of refusal with its place, and the
//! files of cases.

use crate::answer::Answer;
use crate::batch;
use crate::call;
use crate::command;
use crate::draft::{BatchDraft, Draft};
use crate::fault::{too_many_actions, too_many_links};
use crate::make_batches;
use crate::make_calls;
use crate::make_damage;
use crate::make_parts;
use crate::paper;
use crate::shape;

fn numbers(answer: Answer) -> [u32; 6] {
    let report = answer.report;
    [
        answer.refusal,
        answer.place,
        answer.steps,
        report.outcome,
        report.root,
        report.waiting,
    ]
}

fn replay(upload: &[u8]) -> [u32; 6] {
    numbers(call::replay(upload))
}

/// The six numbers of a refusal that is not of an action.
fn plain(number: u32, place: u32) -> [u32; 6] {
    [number, place, 0, 0, 255, 0]
}

#[test]
fn p1_to_p11() {
    let expected = [
        [0, 0, 2, 2, 0, 0],
        [0, 0, 2, 2, 0, 0],
        [0, 0, 5, 2, 1, 0],
        [0, 0, 6, 2, 1, 0],
        [11, 5, 5, 2, 1, 0],
        [11, 0, 0, 1, 255, 2],
        [0, 0, 0, 3, 255, 3],
        [11, 0, 0, 3, 255, 3],
        [0, 0, 2, 3, 255, 3],
        [0, 0, 8, 2, 1, 0],
        [7, 1, 0, 0, 255, 0],
        [8, 0, 0, 0, 255, 0],
    ];
    let answers: Vec<[u32; 6]> = paper::replays()
        .iter()
        .map(|p| replay(&p.bytes()))
        .collect();
    assert_eq!(answers, expected);
}

#[test]
fn p12() {
    let upload = paper::pair(&[]).bytes();
    assert_eq!(numbers(call::report(&upload, &[1, 1, 2, 0])), plain(12, 0));
    assert_eq!(
        numbers(call::report(&upload, &[1, 1, 0, 0])),
        [0, 0, 0, 1, 255, 2]
    );
    let mut image = [9; 4];
    assert_eq!(
        numbers(call::fresh(&upload, &mut image)),
        [0, 0, 0, 1, 255, 2]
    );
    assert_eq!(image, [1, 1, 0, 0]);
}

#[test]
fn whole_batch() {
    let bytes = paper::whole_batch();
    assert_eq!(bytes.len(), 44);
    assert_eq!(
        &bytes[..20],
        [0, 0, 0, 2, 0, 0, 0, 20, 0, 0, 0, 21, 0, 0, 0, 41, 0, 0, 0, 3]
    );
    assert_eq!(batch::lines(&bytes), "0 0 0 5 2 1 0\n1 3 0 0 0 255 0\n");
}

#[test]
fn refusal_1() {
    for bytes in [
        &[][..],
        &[0, 0, 0],
        &[0, 0, 0, 0],
        &[0, 0, 0, 1, 0, 0, 0, 12, 0, 0, 0],
    ] {
        assert_eq!(batch::lines(bytes), "refused 1\n");
        assert_eq!(numbers(batch::entry(bytes, 0)), plain(1, 0));
    }
    let empty_spans = |count: usize| {
        let offset = batch::header_length(count) as u32;
        BatchDraft {
            count: count as u32,
            entries: vec![(offset, 0); count],
            body: Vec::new(),
        }
        .bytes()
    };
    assert_eq!(numbers(batch::entry(&empty_spans(64), 63)), plain(3, 0));
    assert_eq!(numbers(batch::entry(&empty_spans(65), 0)), plain(1, 0));
    let largest = make_batches::of_length(65_536);
    assert_eq!(largest.len(), 65_536);
    assert_eq!(numbers(batch::entry(&largest, 3)), [0, 0, 5, 2, 1, 0]);
    assert_eq!(
        numbers(batch::entry(&make_batches::of_length(65_537), 3)),
        plain(1, 0)
    );
}

#[test]
fn refusal_2() {
    let upload = paper::pair(&paper::P2_LOG).bytes();
    let with_span = |offset: u32, length: u32| {
        let draft = BatchDraft {
            count: 1,
            entries: vec![(offset, length)],
            body: upload.clone(),
        };
        numbers(batch::entry(&draft.bytes(), 0))
    };
    // The header ends at 12 and the batch at 33.
    assert_eq!(with_span(12, 21), [0, 0, 5, 2, 1, 0]);
    assert_eq!(with_span(12, 0), plain(3, 0));
    assert_eq!(with_span(33, 0), plain(3, 0));
    let outside = [
        (11, 0),
        (0, 0),
        (12, 22),
        (33, 1),
        (34, 0),
        (u32::MAX, 2),
        (13, u32::MAX),
        (16, 1 << 31),
    ];
    for (offset, length) in outside {
        assert_eq!(
            with_span(offset, length),
            plain(2, 0),
            "span {offset} {length}"
        );
    }
    for number in [2, 64, 65_535] {
        assert_eq!(
            numbers(batch::entry(&paper::whole_batch(), number)),
            plain(2, 0)
        );
    }
}

#[test]
fn refusal_3() {
    for upload in [
        &[][..],
        &[0],
        &[64, 255, 255],
        &[1, 0, 0, 0, 0],
        &[2, 1, 0, 0, 9],
    ] {
        assert_eq!(replay(upload), plain(3, 0));
    }
}

#[test]
fn refusal_4() {
    for upload in [
        [0, 0, 0, 0],
        [64, 0, 0, 0],
        [1, 127, 0, 0],
        [1, 0, 4, 1],
        [1, 0, 255, 255],
    ] {
        assert_eq!(replay(&upload), plain(4, 0));
    }
    assert_eq!(replay(&too_many_links(126))[0], 0);
    assert_eq!(replay(&too_many_links(127)), plain(4, 0));
    // The second action of a lone node cannot be its first one again.
    assert_eq!(replay(&too_many_actions(1024)), [11, 1, 1, 1, 255, 0]);
    assert_eq!(replay(&too_many_actions(1025)), plain(4, 0));
    assert_eq!(replay(&shape::chain(63).bytes()), [0, 0, 0, 1, 255, 63]);
    assert_eq!(replay(&shape::chain(64).bytes()), plain(4, 0));
}

#[test]
fn refusals_5_to_8() {
    let links = |nodes: u8, links: &[(u8, u8)]| replay(&Draft::new(nodes, links, &[]).bytes());
    assert_eq!(links(2, &[(0, 1), (0, 2)]), plain(5, 1));
    assert_eq!(links(2, &[(2, 0), (0, 0)]), plain(5, 0));
    assert_eq!(links(2, &[(2, 2)]), plain(5, 0));
    assert_eq!(links(3, &[(0, 1), (1, 2), (2, 2)]), plain(6, 2));
    assert_eq!(links(3, &[(0, 0), (9, 9)]), plain(6, 0));
    assert_eq!(links(3, &[(0, 1), (1, 2), (0, 1)]), plain(7, 2));
    assert_eq!(links(4, &[(0, 1), (1, 0), (9, 9)]), plain(7, 1));
    assert_eq!(links(4, &[(0, 1), (2, 3)]), plain(8, 0));
    assert_eq!(
        links(6, &[(0, 1), (1, 2), (2, 0), (3, 4), (4, 5), (5, 3)]),
        plain(8, 0)
    );
}

#[test]
fn refusals_9_to_11() {
    // The state before the refused action: node 0 has sent its request.
    let after_one =
        |action: [u8; 3]| replay(&Draft::new(3, &[(0, 1), (1, 2)], &[[1, 0, 255], action]).bytes());
    let bad_bytes = [
        [0, 0, 255],
        [6, 0, 1],
        [255, 0, 1],
        [1, 3, 255],
        [5, 3, 255],
        [1, 1, 0],
        [5, 1, 254],
        [2, 3, 0],
        [3, 0, 3],
        [4, 255, 255],
        [2, 0, 255],
    ];
    for action in bad_bytes {
        assert_eq!(after_one(action), [9, 1, 1, 1, 255, 2], "{action:?}");
    }
    for action in [[2, 0, 2], [3, 2, 0], [4, 1, 1], [2, 0, 0]] {
        assert_eq!(after_one(action), [10, 1, 1, 1, 255, 2], "{action:?}");
    }
    for action in [
        [1, 0, 255],
        [1, 1, 255],
        [2, 1, 0],
        [3, 0, 1],
        [4, 0, 1],
        [5, 0, 255],
    ] {
        assert_eq!(after_one(action), [11, 1, 1, 1, 255, 2], "{action:?}");
    }
    assert_eq!(after_one([2, 0, 1]), [0, 0, 2, 1, 255, 2]);
}

#[test]
fn single_steps() {
    let upload = paper::pair(&[]).bytes();
    let step = |image: [u8; 4], action: [u8; 3]| {
        let mut after = image;
        let answer = numbers(call::single_step(&upload, &mut after, action));
        (answer, after)
    };
    assert_eq!(
        step([1, 1, 0, 0], [1, 0, 255]),
        ([0, 0, 1, 1, 255, 1], [0, 1, 2, 0])
    );
    assert_eq!(
        step([0, 1, 2, 0], [2, 0, 1]),
        ([0, 0, 1, 1, 255, 1], [0, 1, 1, 0])
    );
    assert_eq!(
        step([0, 1, 1, 0], [1, 1, 255]),
        ([0, 0, 1, 1, 255, 0], [0, 0, 1, 4])
    );
    // An acknowledgement clears contention and a request sets it.
    assert_eq!(
        step([2, 0, 1, 4], [3, 1, 0]),
        ([0, 0, 1, 1, 255, 0], [0, 0, 1, 0])
    );
    assert_eq!(
        step([0, 4, 0, 2], [3, 1, 0]),
        ([0, 0, 1, 2, 1, 0], [2, 4, 0, 0])
    );
    assert_eq!(
        step([2, 2, 0, 0], [4, 1, 0]),
        ([0, 0, 1, 1, 255, 0], [0, 0, 0, 1])
    );
    assert_eq!(
        step([0, 0, 1, 0], [5, 1, 255]),
        ([0, 0, 1, 2, 1, 0], [0, 4, 1, 0])
    );
    // Refused by 9 to 11: the place is 0, and the report is of the image.
    assert_eq!(
        step([0, 4, 1, 0], [5, 1, 255]),
        ([11, 0, 0, 2, 1, 0], [0, 4, 1, 0])
    );
    assert_eq!(
        step([0, 4, 1, 0], [4, 1, 1]),
        ([10, 0, 0, 2, 1, 0], [0, 4, 1, 0])
    );
    assert_eq!(
        step([0, 4, 1, 0], [7, 1, 0]),
        ([9, 0, 0, 2, 1, 0], [0, 4, 1, 0])
    );
    assert_eq!(step([1, 1, 2, 0], [7, 1, 0]), (plain(12, 0), [1, 1, 2, 0]));
}

#[test]
fn refusal_12() {
    let upload = paper::pair(&[]).bytes();
    for image in [
        [8, 0, 0, 0],
        [0, 255, 0, 0],
        [0, 0, 6, 0],
        [0, 0, 0, 7],
        [0, 1, 0, 4],
    ] {
        assert_eq!(
            numbers(call::report(&upload, &image)),
            plain(12, 0),
            "{image:?}"
        );
    }
    for image in [[7, 0, 1, 5], [0, 3, 5, 1], [6, 6, 5, 5]] {
        assert_eq!(call::report(&upload, &image).refusal, 0, "{image:?}");
    }
    for length in [0, 3, 5, 316] {
        let mut image = vec![1; length];
        assert_eq!(numbers(call::fresh(&upload, &mut image)), plain(12, 0));
        assert_eq!(numbers(call::run(&upload, &mut image)), plain(12, 0));
        assert_eq!(numbers(call::report(&upload, &image)), plain(12, 0));
        assert_eq!(numbers(call::list(&upload, &image, &mut [])), plain(12, 0));
        assert_eq!(
            numbers(call::single_step(&upload, &mut image, [1, 0, 255])),
            plain(12, 0)
        );
        assert_eq!(image, vec![1; length]);
    }
}

#[test]
fn refusal_13() {
    let upload = paper::pair(&[]).bytes();
    let list = |length: usize| {
        let mut buffer = vec![7; length];
        let answer = numbers(call::list(&upload, &[1, 1, 0, 0], &mut buffer));
        (answer, buffer)
    };
    let text = [1, 0, 255, 1, 1, 255];
    assert_eq!(list(0), (plain(13, 0), vec![]));
    assert_eq!(list(5), (plain(13, 0), vec![7; 5]));
    assert_eq!(list(6), ([0, 0, 2, 1, 255, 2], text.to_vec()));
    assert_eq!(
        list(8),
        ([0, 0, 2, 1, 255, 2], [&text[..], &[7, 7]].concat())
    );

    let lines = |bytes: &[u8], length: usize| {
        let mut buffer = vec![b'.'; length];
        let answer = numbers(batch::write_lines(bytes, &mut buffer));
        (answer, String::from_utf8(buffer).unwrap_or_default())
    };
    assert_eq!(lines(&[], 9), (plain(13, 0), ".........".to_string()));
    assert_eq!(
        lines(&[], 11),
        ([0, 0, 10, 0, 255, 0], "refused 1\n.".to_string())
    );
    let whole = paper::whole_batch();
    assert_eq!(lines(&whole, 29).0, plain(13, 0));
    let (answer, text) = lines(&whole, 30);
    assert_eq!(answer, [0, 0, 30, 0, 255, 0]);
    assert_eq!(text, batch::lines(&whole));
}

#[test]
fn lists_ascend_by_kind_then_source_then_target() {
    let upload = Draft::new(3, &[(2, 1), (1, 0), (0, 2)], &[]).bytes();
    let mut buffer = [0; 30];
    // All contend; 2 has sent to 1 and 0; 0 waits and has heard 1 and 2.
    let image = [3, 2, 2, 2, 0, 1, 0, 0, 3];
    let answer = numbers(call::list(&upload, &image, &mut buffer));
    let steps = [
        [1, 0, 255],
        [2, 2, 0],
        [3, 2, 1],
        [4, 0, 1],
        [4, 0, 2],
        [4, 1, 0],
        [4, 1, 2],
        [4, 2, 0],
        [4, 2, 1],
        [5, 0, 255],
    ];
    assert_eq!(answer, [0, 0, 10, 1, 255, 1]);
    assert_eq!(buffer.to_vec(), steps.concat());
}

#[test]
fn outcomes_of_still_images() {
    let outcome =
        |draft: &Draft, image: &[u8]| numbers(call::report(&draft.bytes(), image))[3..].to_vec();
    let pair = paper::pair(&[]);
    assert_eq!(outcome(&pair, &[0, 0, 0, 0]), [4, 255, 0]);
    assert_eq!(outcome(&pair, &[4, 4, 0, 0]), [4, 0, 0]);
    assert_eq!(outcome(&pair, &[0, 4, 0, 0]), [2, 1, 0]);
    let ring = shape::ring(3);
    assert_eq!(outcome(&ring, &[0, 0, 1, 0, 0, 0, 0, 0, 0]), [3, 255, 1]);
    assert_eq!(outcome(&ring, &[0, 0, 0, 0, 0, 0, 0, 0, 0]), [4, 255, 0]);
    assert_eq!(outcome(&ring, &[1, 5, 1, 0, 0, 0, 0, 0, 0]), [2, 1, 3]);
    assert_eq!(outcome(&ring, &[1, 5, 5, 0, 0, 0, 0, 0, 0]), [4, 1, 3]);
    // A tree whose middle node waits: no loop.
    assert_eq!(
        outcome(&shape::chain(3), &[0, 1, 0, 0, 0, 0, 0]),
        [4, 255, 1]
    );
}

/// A case file in memory.
fn file(
    generate: impl Fn(u64, u64, &mut dyn std::io::Write) -> std::io::Result<()>,
    count: u64,
) -> Vec<u8> {
    let mut bytes = Vec::new();
    assert!(generate(11, count, &mut bytes).is_ok());
    let mut again = Vec::new();
    assert!(generate(11, count, &mut again).is_ok());
    assert!(bytes == again, "one seed gives one file");
    bytes
}

fn answers(
    answer_one: fn(
        &mut crate::record::Reader<'_>,
        usize,
        &mut dyn std::io::Write,
    ) -> Result<(), command::Trouble>,
    bytes: &[u8],
) -> (Result<(), String>, String) {
    let mut out = Vec::new();
    let result = command::answer_records(answer_one, bytes, &mut out);
    (result, String::from_utf8(out).unwrap_or_default())
}

/// The numbers that stand at a place of each line.
fn column(text: &str, place: usize) -> std::collections::BTreeSet<String> {
    text.lines()
        .filter_map(|line| line.split(' ').nth(place))
        .map(String::from)
        .collect()
}

#[test]
fn calls_files_meet_every_refusal_and_outcome() {
    let (result, text) = answers(command::answer_call, &file(make_calls::generate, 1500));
    assert_eq!(result, Ok(()));
    assert_eq!(text.lines().count(), 1500);
    for number in [0, 3, 4, 5, 6, 7, 8, 9, 10, 11, 12, 13] {
        assert!(
            column(&text, 0).contains(&number.to_string()),
            "refusal {number}"
        );
    }
    for outcome in 0..=4 {
        assert!(
            column(&text, 3).contains(&outcome.to_string()),
            "outcome {outcome}"
        );
    }
}

#[test]
fn batch_files_meet_every_refusal() {
    let (result, text) = answers(command::answer_batch, &file(make_batches::generate, 300));
    assert_eq!(result, Ok(()));
    for number in 0..=11 {
        assert!(
            column(&text, 1).contains(&number.to_string()),
            "refusal {number}"
        );
    }
    let (result, text) = answers(
        command::answer_entry,
        &file(make_parts::generate_entries, 400),
    );
    assert_eq!(result, Ok(()));
    for number in 0..=11 {
        assert!(
            column(&text, 0).contains(&number.to_string()),
            "refusal {number}"
        );
    }
    let (result, text) = answers(
        command::answer_lines,
        &file(make_parts::generate_lines, 200),
    );
    assert_eq!(result, Ok(()));
    assert_eq!(column(&text, 0), ["0", "13"].map(String::from).into());
}

#[test]
fn damage_files_are_answered() {
    let (result, text) = answers(command::answer_call, &file(make_damage::generate, 4));
    assert_eq!(result, Ok(()));
    assert!(text.lines().count() > 9_000);
}

#[test]
fn damaged_files_stop_cleanly() {
    let calls = file(make_calls::generate, 220);
    for length in (1..calls.len()).step_by(97) {
        answers(command::answer_call, &calls[..length]).0.err();
        answers(command::answer_batch, &calls[length..]).0.err();
        answers(command::answer_lines, &calls[length..]).0.err();
        answers(command::answer_entry, &calls[length..]).0.err();
    }
    let short = [6, 0, 0, 0, 0, 4, 1, 0, 0];
    assert_eq!(
        answers(command::answer_call, &short).0,
        Err("record 0: the file ends inside it".to_string())
    );
    assert_eq!(
        answers(command::answer_call, &[7; 20]).0,
        Err("record 0: there is no call 7".to_string())
    );
    assert!(answers(command::answer_batch, &[255; 20]).0.is_err());
}
