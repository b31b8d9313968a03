//! The leading words: what begin writes, and refusal 24.

mod common;

use common::*;
use second::manager::{self, Answer};
use second::plan::{self, Records, NONE};
use second::record;
use second::rules::{self, Moved};
use testing::generate::rng::Rng;

/// The sample plan with a change to its records.
fn changed(change: impl FnOnce(&mut Records)) -> Vec<u8> {
    let mut plan = sample_records();
    change(&mut plan);
    plan.encode()
}

/// As long as the sample plan, with another sum: one code is another.
fn neighbour() -> Vec<u8> {
    changed(|p| p.transitions[0].code = 60)
}

/// As many tracks as the sample plan, and one transition more.
fn longer() -> Vec<u8> {
    changed(|p| p.transitions.push(step(0, 15, 0, 0)))
}

/// Alike with the sample plan in both words: two codes are exchanged.
fn alike() -> Vec<u8> {
    changed(|p| {
        p.transitions[2].code = 52;
        p.transitions[3].code = 51;
    })
}

/// The words that a begin and then events leave, each event moving a track.
fn worked(plan: &[u8], events: &[u16]) -> Vec<u16> {
    let mut words = vec![0xABCD; 206];
    assert_eq!(manager::begin(MAIN, plan, &mut words), Answer::Done(()));
    for &event in events {
        let answer = manager::event(MAIN, plan, &mut words, event, 0, 1);
        assert!(matches!(answer, Answer::Done(m) if m.moved == 1));
    }
    words
}

/// The ledger's words with two others in front.
fn led_by(leading: [u16; 2], words: &[u16]) -> Vec<u16> {
    [&leading[..], &words[2..]].concat()
}

/// A call's refusal, 0 where it is none.
fn number<Figures>(answer: Answer<Figures>) -> u8 {
    match answer {
        Answer::Done(_) => 0,
        Answer::Refused(refusal) => refusal.number(),
    }
}

/// Every call but begin is refused with this number, whatever its argument,
/// and changes no word.
fn refused(plan: &[u8], words: &[u16], refusal: u8) {
    let mut lent = words.to_vec();
    for event in [0, 10, 13] {
        assert_eq!(
            number(manager::event(MAIN, plan, &mut lent, event, 0, 1)),
            refusal
        );
    }
    assert_eq!(number(manager::signal(MAIN, plan, &mut lent, 1)), refusal);
    for track in [0, 1, 99] {
        assert_eq!(
            number(manager::fire(MAIN, plan, &mut lent, track, 1)),
            refusal
        );
        assert!(manager::entries(MAIN, plan, &lent, track).is_empty());
    }
    assert_eq!(number(manager::ready(MAIN, plan, &lent)), refusal);
    assert_eq!(lent, words);
}

#[test]
fn the_sample_has_length_182_and_sum_633() {
    let plan = plan::read(&sample()).expect("accepted");
    assert_eq!((plan.length(), plan.sum()), (182, 633));
    assert_eq!(sample().len(), 182);
    assert_eq!(record::sum(&sample()), 633);
}

#[test]
fn begin_writes_both_words_over_any_others() {
    for lent in [0, 633, 0xABCD, 65535] {
        let mut words = vec![lent; 206];
        assert_eq!(
            manager::begin(MAIN, &sample(), &mut words),
            Answer::Done(())
        );
        assert_eq!(words[..7], [182, 633, 21_499, 65_534, 1, 0, 0]);
        assert_eq!(words[205], lent);
    }
    let plan = plan::read(&sample()).expect("accepted");
    assert_eq!(
        rules::begin(MAIN, &plan).words(),
        worked(&sample(), &[])[..205]
    );
}

#[test]
fn begin_takes_a_neighbours_ledger() {
    let mut words = worked(&longer(), &[10, 11]);
    assert_eq!(
        manager::begin(MAIN, &sample(), &mut words),
        Answer::Done(())
    );
    assert_eq!(words, worked(&sample(), &[]));
}

#[test]
fn calls_keep_both_words() {
    let plan = sample();
    let mut words = worked(&plan, &[10, 11, 12]);
    assert_eq!(words[..2], [182, 633]);
    assert_eq!(manager::signal(MAIN, &plan, &mut words, 1), Answer::Done(3));
    assert_eq!(number(manager::fire(MAIN, &plan, &mut words, 1, 1)), 0);
    assert_eq!(words[..2], [182, 633]);
}

#[test]
fn every_byte_counts_in_the_sum() {
    for at in 0..sample().len() {
        let mut bytes = sample();
        bytes[at] = bytes[at].wrapping_add(1);
        assert_ne!(record::sum(&bytes), 633, "byte {at}");
    }
}

#[test]
fn the_bytes_of_a_word_exchanged_give_another_sum() {
    let mut exchanged = 0;
    for at in (0..sample().len()).step_by(2) {
        let mut bytes = sample();
        if bytes[at] != bytes[at + 1] {
            bytes.swap(at, at + 1);
            assert_ne!(record::sum(&bytes), 633, "bytes {at} and {}", at + 1);
            exchanged += 1;
        }
    }
    assert!(exchanged > 50);
}

#[test]
fn the_sum_is_modulo_65536_and_a_single_last_byte_counts_as_itself() {
    assert_eq!(record::sum(&[]), 0);
    assert_eq!(record::sum(&[255, 255, 2, 0]), 1);
    assert_eq!(record::sum(&[1, 2, 3]), 0x0201 + 3);
    assert_eq!(record::sum(&[7]), 7);
}

/// The sum as the paper says it, two bytes after two.
fn plain_sum(bytes: &[u8]) -> u16 {
    let mut sum = 0;
    for two in bytes.chunks(2) {
        let (low, high) = (two[0], two.get(1).copied().unwrap_or(0));
        sum = (sum + u32::from(low) + 256 * u32::from(high)) % 65_536;
    }
    sum as u16
}

/// So many bytes, each from 0 to `highest`.
fn random_bytes(count: usize, highest: usize) -> Vec<u8> {
    let mut rng = Rng::for_case(7, 14, count as u64);
    (0..count).map(|_| rng.below(highest + 1) as u8).collect()
}

/// The bytes of these words.
fn bytes(words: &[u16]) -> Vec<u8> {
    let mut bytes = Vec::new();
    record::put_words(&mut bytes, words);
    bytes
}

#[test]
fn the_sum_is_the_plain_one_for_every_length_and_start() {
    for length in 0..=400 {
        for bytes in [random_bytes(length + 8, 255), vec![255; length + 8]] {
            for start in 0..8 {
                let part = &bytes[start..][..length];
                assert_eq!(record::sum(part), plain_sum(part), "{length} from {start}");
            }
        }
    }
}

#[test]
fn each_byte_of_a_round_and_of_each_tail_counts_by_1_or_256() {
    // No round, one and two, and 0 to 7 bytes after them.
    for length in 0..24 {
        let random = random_bytes(length, 254);
        for plain in [random, vec![0; length], vec![254; length]] {
            for at in 0..length {
                let mut bytes = plain.clone();
                bytes[at] += 1;
                let weight = if at % 2 == 0 { 1 } else { 256 };
                let change = record::sum(&bytes).wrapping_sub(record::sum(&plain));
                assert_eq!(change, weight, "byte {at} of {length}");
            }
        }
    }
}

#[test]
fn the_sum_passes_65535_within_a_round() {
    assert_eq!(record::sum(&bytes(&[65_535, 1, 0, 0])), 0);
    assert_eq!(record::sum(&bytes(&[0, 40_000, 0, 25_537])), 1);
    // Three times: 4 times 65,535 is 262,140.
    assert_eq!(record::sum(&[255; 8]), 65_532);
}

#[test]
fn the_sum_passes_65535_between_rounds() {
    let (first, second) = ([16_383; 4], [2, 0, 0, 3]);
    assert_eq!(record::sum(&bytes(&first)), 65_532);
    assert_eq!(record::sum(&bytes(&second)), 5);
    assert_eq!(record::sum(&bytes(&[first, second].concat())), 1);
}

#[test]
fn the_sum_passes_65535_in_the_tail_alone() {
    let round = bytes(&[65_530, 0, 0, 4]);
    assert_eq!(record::sum(&round), 65_534);
    let tails: [(&[u8], u16); 4] = [
        (&[3], 1),
        (&[0, 1], 254),
        (&[1, 0, 9, 0], 8),
        (&[0, 0, 1, 0, 2, 1], 257),
    ];
    for (tail, sum) in tails {
        assert_eq!(record::sum(&[&round[..], tail].concat()), sum, "{tail:?}");
    }
}

/// The sample plan with up to three transitions more, and so plans that rounds
/// of eight leave 6, 4, 2 and 0 bytes of.
fn by_tails() -> [Vec<u8>; 4] {
    let more = |count: u16| (0..count).map(|n| step(0, 15 + n, 0, 0));
    [0, 1, 2, 3].map(|count| changed(|p| p.transitions.extend(more(count))))
}

#[test]
fn begin_writes_the_plain_sum_whatever_rounds_of_eight_leave() {
    assert_eq!(by_tails().map(|plan| plan.len() % 8), [6, 4, 2, 0]);
    for plan in by_tails() {
        let leading = [plan.len() as u16, plain_sum(&plan)];
        assert_eq!(worked(&plan, &[])[..2], leading);
    }
}

#[test]
fn a_sum_without_the_last_bytes_is_24() {
    for plan in by_tails() {
        let words = worked(&plan, &[10, 11]);
        for kept in [8, 6, 4, 2].map(|cut| &plan[..plan.len() - cut]) {
            let leading = [words[0], plain_sum(kept)];
            refused(&plan, &led_by(leading, &words), 24);
        }
        assert_eq!(number(manager::ready(MAIN, &plan, &words)), 0);
    }
}

#[test]
fn either_word_alone_is_24() {
    let words = worked(&sample(), &[10, 11]);
    for length in [0, 180, 181, 183, 184, 182 << 8, 633, 65535] {
        refused(&sample(), &led_by([length, 633], &words), 24);
    }
    for sum in [0, 632, 634, 633 - 512, 633u16.swap_bytes(), 182, 65535] {
        refused(&sample(), &led_by([182, sum], &words), 24);
    }
    refused(&sample(), &led_by([633, 182], &words), 24);
    assert_eq!(number(manager::ready(MAIN, &sample(), &words)), 0);
}

#[test]
fn a_ledger_begun_under_a_neighbours_plan_is_24() {
    let same_length = plan::read(&neighbour()).expect("accepted");
    assert_eq!((same_length.length(), same_length.sum()), (182, 643));
    for other in [neighbour(), longer()] {
        for events in [&[][..], &[10], &[10, 11, 12], &[10, 11, 12, 14]] {
            refused(&sample(), &worked(&other, events), 24);
            refused(&other, &worked(&sample(), events), 24);
        }
    }
}

#[test]
fn entries_of_a_neighbours_ledger_are_the_empty_part() {
    let words = worked(&sample(), &[10, 11]);
    assert_eq!(manager::entries(MAIN, &sample(), &words, 1), [51, NONE]);
    assert!(manager::entries(MAIN, &neighbour(), &words, 1).is_empty());
}

#[test]
fn zeros_are_24_and_over_with_the_words() {
    let zeros = [0; 205];
    refused(&sample(), &zeros, 24);
    let mut over = led_by([182, 633], &zeros);
    assert_eq!(number(manager::signal(MAIN, &sample(), &mut over, 1)), 20);
    assert_eq!(manager::ready(MAIN, &sample(), &over), Answer::Done(0));
}

#[test]
fn an_over_ledger_keeps_the_words_and_is_24_under_another_plan() {
    let over = worked(&sample(), &[10, 11, 12, 14, 13]);
    assert_eq!(over[..2], [182, 633]);
    assert_eq!(over[4..205], [0; 201]);
    assert_eq!(
        number(manager::signal(MAIN, &sample(), &mut over.clone(), 1)),
        20
    );
    refused(&neighbour(), &over, 24);
    refused(&longer(), &over, 24);
}

#[test]
fn unsound_and_of_another_plan_is_24_and_not_18() {
    let mut words = worked(&sample(), &[10]);
    words[4] = 3;
    refused(&neighbour(), &words, 24);
    refused(&sample(), &words, 18);
}

#[test]
fn too_few_words_are_17_and_not_24() {
    let own = worked(&sample(), &[10]);
    for words in [own, worked(&longer(), &[10]), vec![0; 206]] {
        for kept in [0, 1, 2, 3, 4, 5, 66, 67, 70, 71, 201, 203, 204] {
            refused(&sample(), &words[..kept], 17);
            let mut lent = words[..kept].to_vec();
            assert_eq!(number(manager::begin(MAIN, &sample(), &mut lent)), 17);
            assert_eq!(lent, words[..kept]);
        }
    }
}

#[test]
fn a_refused_plan_is_named_before_24() {
    refused(&[4, 0, 4, 0], &worked(&sample(), &[10]), 8);
}

#[test]
fn plans_alike_in_both_words_pass_for_each_other() {
    assert_ne!(sample(), alike());
    let mut words = worked(&sample(), &[10]);
    assert_eq!(words[..2], worked(&alike(), &[])[..2]);
    let moved = manager::event(MAIN, &alike(), &mut words, 11, 0, 1);
    let one = Moved {
        moved: 1,
        closed: 0,
    };
    assert_eq!(moved, Answer::Done(one));
    assert_eq!(manager::entries(MAIN, &sample(), &words, 1), [52, NONE]);
}
