//! What holds of every generated table.

use second::damage::{empty_heap, outer_damage};
use second::faults::damages;
use second::frame::GREATEST_LENGTH;
use second::generate::random_meaning;
use second::layout::{lay_out_freely, with_tail, Style};
use second::random::Random;
use second::read::Reading;
use second::retell::{calls, make_all, Call};
use second::samples::{machine, small};
use second::state::FINISHED;
use second::vectors::vectors;
use second::{check, form, form_length, meaning, rewrite, Answer, State};
use std::collections::{BTreeSet, HashSet};

fn rewritten(table: &[u8]) -> Vec<u8> {
    let mut output = vec![0; GREATEST_LENGTH];
    let (answer, length) = rewrite(table, &mut output);
    assert_eq!(answer, Answer::DONE);
    output.truncate(length);
    output
}

#[test]
fn forms_are_good_say_the_same_and_stay() {
    let mut random = Random::seeded(1);
    for _ in 0..600 {
        let told = random_meaning(&mut random);
        let table = lay_out_freely(&mut random, &told, Style::WILD);
        let table = with_tail(&mut random, table);
        assert_eq!(check(&table), Answer::DONE);
        let said = meaning(&table);
        if form_length(&said) > GREATEST_LENGTH {
            continue;
        }
        let formed = rewritten(&table);
        assert_eq!(formed, form(&said));
        assert_eq!(formed.len(), form_length(&said));
        assert_eq!(check(&formed), Answer::DONE);
        assert_eq!(meaning(&formed), said);
        assert_eq!(rewritten(&formed), formed);
    }
}

/// Records, fields and objects read the same from a table and its form.
#[test]
fn reads_give_the_meaning() {
    let mut random = Random::seeded(9);
    for _ in 0..20 {
        let told = random_meaning(&mut random);
        let table = lay_out_freely(&mut random, &told, Style::SHARED);
        let formed = form(&told);
        let (first, second) = (Reading::of(&table), Reading::of(&formed));
        for (kind, position) in (0..=11).flat_map(|kind| (0..=5).map(move |p| (kind, p))) {
            assert_eq!(first.record(kind, position), second.record(kind, position));
            for offset in 0..=128 {
                let field = first.field(kind, position, offset);
                assert_eq!(field, second.field(kind, position, offset));
                let (answer, place) = first.object(kind, position, offset);
                let (same, other) = second.object(kind, position, offset);
                assert_eq!(answer, same);
                assert_eq!(place.map(|p| &table[p]), other.map(|p| &formed[p]));
            }
        }
    }
}

#[test]
fn layouts_of_a_meaning_have_its_form() {
    let mut random = Random::seeded(2);
    for _ in 0..300 {
        let told = random_meaning(&mut random);
        for style in [Style::SEPARATE, Style::SHARED] {
            let table = lay_out_freely(&mut random, &told, style);
            assert_eq!(check(&table), Answer::DONE);
            assert_eq!(meaning(&table), told);
            assert_eq!(rewritten(&table), form(&told));
        }
    }
}

/// A few bytes of a good table changed at random, from the major revision on, with the checksum right.
fn mutated(random: &mut Random) -> Vec<u8> {
    let told = random_meaning(random);
    let mut table = lay_out_freely(random, &told, Style::WILD);
    for _ in 0..=random.below(4) {
        let within = *random.pick(&[128, table.len()]);
        let place = 8 + random.below(within - 8);
        let byte = random.byte();
        table[place] = *random.pick(&[0, 1, 3, 255, byte]);
    }
    second::form::put_checksum(&mut table);
    table
}

#[test]
fn changed_tables_are_refused_or_say_something_else() {
    let mut random = Random::seeded(10);
    let mut answers = BTreeSet::new();
    for _ in 0..3000 {
        let table = mutated(&mut random);
        let mut output = vec![0; GREATEST_LENGTH];
        let (answer, length) = rewrite(&table, &mut output);
        answers.insert(check(&table).number);
        if answer == Answer::DONE {
            output.truncate(length);
            assert_eq!(meaning(&output), meaning(&table));
            assert_eq!(rewritten(&output), output);
        } else if answer != Answer::plain(17) {
            assert_eq!(check(&table), answer);
        }
    }
    let expected = [0, 6, 7, 8, 9, 10, 11, 12, 13, 18, 20];
    assert_eq!(answers, BTreeSet::from(expected));
}

#[test]
fn different_meanings_have_different_forms() {
    let mut random = Random::seeded(3);
    for _ in 0..200 {
        let first = random_meaning(&mut random);
        let mut table = form(&first);
        let place = 10 + random.below(table.len() - 10);
        table[place] ^= 1 << random.below(8);
        second::form::put_checksum(&mut table);
        if check(&table) == Answer::DONE {
            let same = meaning(&table) == first;
            assert_eq!(same, form(&meaning(&table)) == form(&first));
        }
    }
}

#[test]
fn a_builder_run_leaves_exactly_the_form() {
    let mut random = Random::seeded(4);
    for _ in 0..300 {
        let told = random_meaning(&mut random);
        let expected = form(&told);
        let mut buffer = vec![0xEE; expected.len() + random.below(9)];
        let (answer, state) = make_all(&calls(&mut random, &told), &mut buffer);
        assert_eq!(answer, Answer::DONE);
        assert_eq!((state.turn, state.end()), (FINISHED, expected.len()));
        assert_eq!(state.minor, u32::from(expected[50]));
        assert_eq!(buffer[..expected.len()], expected);
        assert!(buffer[expected.len()..].iter().all(|byte| *byte == 0xEE));
    }
}

/// Every other sort of call in every state of a run.
#[test]
fn calls_out_of_turn_change_nothing() {
    let sort = std::mem::discriminant::<Call>;
    let mut random = Random::seeded(5);
    let run = calls(&mut random, &machine());
    let mut buffer = vec![0xEE; 2000];
    let mut state = State::EMPTY;
    for call in &run {
        let mut others: Vec<&Call> = run.iter().filter(|o| sort(o) != sort(call)).collect();
        if !state.is_in_list() {
            others.push(&Call::Leave);
        }
        for other in others {
            let before = buffer.clone();
            let refused = other.make(&mut buffer, state);
            assert_eq!(refused, (Answer::plain(15), state));
            assert_eq!(buffer, before);
        }
        state = call.make(&mut buffer, state).1;
    }
    for call in run.iter().chain([&Call::Leave]) {
        let refused = call.make(&mut buffer, state);
        assert_eq!(refused, (Answer::plain(15), state));
    }
}

#[test]
fn sixteen_bytes_and_states_say_the_same() {
    let state = State {
        turn: 4,
        position: 0x0102,
        counts: [5, 6, 7, 8],
        used: 0x0A0B_FEDC,
        minor: 0x0102_0304,
    };
    let bytes = [4, 0, 2, 1, 5, 6, 7, 8, 0xDC, 0xFE, 11, 10, 4, 3, 2, 1];
    assert_eq!(state.to_bytes(), bytes);
    assert_eq!(State::from_bytes([0; 16]), State::EMPTY);
    let mut random = Random::seeded(11);
    for _ in 0..100 {
        let any = random.array();
        assert_eq!(State::from_bytes(any).to_bytes(), any);
    }
}

#[test]
fn a_buffer_one_byte_short_is_refused_and_unchanged() {
    let mut random = Random::seeded(6);
    let told = machine();
    let expected = form(&told);
    let mut state = State::EMPTY;
    let mut buffer = vec![0xEE; expected.len()];
    for call in calls(&mut random, &told) {
        let needed = call.make(&mut buffer.clone(), state).1.end();
        let before = buffer.clone();
        let refused = call.make(&mut buffer[..needed - 1], state);
        assert_eq!(refused, (Answer::plain(14), state));
        assert_eq!(buffer, before);
        state = call.make(&mut buffer, state).1;
    }
    let mut short = vec![0xEE; expected.len() - 1];
    assert_eq!(rewrite(&expected, &mut short), (Answer::plain(14), 0));
    assert!(short.iter().all(|byte| *byte == 0xEE));
}

#[test]
fn finish_gives_the_reader_s_answer_and_writes_nothing() {
    let mut random = Random::seeded(7);
    let mut told = machine();
    told.interfaces.pop();
    let mut buffer = vec![0; 2000];
    let mut run = calls(&mut random, &told);
    run.pop();
    let (answer, state) = make_all(&run, &mut buffer);
    assert_eq!(answer, Answer::DONE);
    let before = buffer.clone();
    let refused = Call::Finish.make(&mut buffer, state);
    assert_eq!(refused, (Answer::at(13, 4, 1), state));
    assert_eq!(buffer, before);
}

#[test]
fn damaged_tables_get_their_answers() {
    let mut random = Random::seeded(8);
    for _ in 0..40 {
        let told = random_meaning(&mut random);
        let good = lay_out_freely(&mut random, &told, Style::SEPARATE);
        let empty = empty_heap(&good);
        assert_eq!(check(&empty.table), empty.answer);
        let all = damages(&good);
        for damage in &all {
            let sample = damage.apply(&good);
            assert_eq!(check(&sample.table), sample.answer, "{}", sample.name);
        }
        for _ in 0..100 {
            let (first, second) = (random.pick(&all), random.pick(&all));
            if let Some(sample) = first.before(second, &good) {
                assert_eq!(check(&sample.table), sample.answer, "{}", sample.name);
            }
        }
    }
}

#[test]
fn refused_rewrites_change_nothing() {
    for kind in [2, 3, 4, 5, 6, 7, 10] {
        let good = form(&small(kind, 1));
        let all = damages(&good);
        let inner = all.iter().map(|damage| damage.apply(&good));
        for sample in inner.chain(outer_damage(&good)) {
            let mut output = [0xEE; 1000];
            assert_eq!(rewrite(&sample.table, &mut output), (sample.answer, 0));
            assert_eq!(output, [0xEE; 1000]);
        }
    }
}

/// Counts the bits of a part, outside its references, whose flip keeps the
/// form.
fn reserved_bits(table: &[u8], part: std::ops::Range<usize>, references: &[usize]) -> usize {
    let form = rewritten(table);
    let start = part.start;
    let in_reference = |place: usize| {
        references
            .iter()
            .any(|field| (*field..field + 6).contains(&(place - start)))
    };
    let flips = part
        .filter(|place| !in_reference(*place))
        .flat_map(|place| (0..8).map(move |bit| (place, 1u8 << bit)));
    let keeps_form = |(place, bit): &(usize, u8)| {
        let mut changed = table.to_vec();
        changed[*place] ^= bit;
        second::form::put_checksum(&mut changed);
        check(&changed) == Answer::DONE && rewritten(&changed) == form
    };
    flips.filter(keeps_form).count()
}

fn offset_at(table: &[u8], at: usize) -> usize {
    second::wire::u32_at(table, at) as usize
}

/// The numbers are counted by hand from the layouts of full records.
#[test]
fn exactly_the_reserved_bits_of_front_and_subsystem_count_for_nothing() {
    let all = form(&small(4, 1));
    assert_eq!(reserved_bits(&all, 0..64, &[0, 4, 44]), 8 + 13 * 8);
    let control = 8 + 8 + 7 + 8 + 8 + 16 * 8;
    assert_eq!(reserved_bits(&all, 64..128, &[]), control);
    assert_eq!(reserved_bits(&all, 128..160, &[18]), 3 + 8 * 8);
    let ssns = offset_at(&all, 88);
    let expected = 7 + 13 + 8 + 8 + 62 * 8;
    let fields = [10, 16, 48, 54, 60];
    assert_eq!(reserved_bits(&all, ssns..ssns + 128, &fields), expected);
    let extended = offset_at(&all, ssns + 60);
    assert_eq!(reserved_bits(&all, extended..extended + 18, &[12]), 30);
}

#[test]
fn exactly_the_reserved_bits_of_other_records_count_for_nothing() {
    let table = form(&small(3, 1));
    let hfi = offset_at(&table, 80);
    let expected = 7 + 12 * 8 + 10 * 8;
    assert_eq!(reserved_bits(&table, hfi..hfi + 32, &[16]), expected);
    let info = offset_at(&table, hfi + 16);
    let expected = 5 + 8 + 18 * 8;
    assert_eq!(reserved_bits(&table, info..info + 128, &[104]), expected);
    let table = form(&small(10, 1));
    let info = offset_at(&table, hfi + 16);
    let fields = [104, 110];
    let expected = 4 + 8 + 12 * 8;
    assert_eq!(reserved_bits(&table, info..info + 128, &fields), expected);
    let identity = offset_at(&table, info + 110);
    let fields = [8, 14];
    assert_eq!(reserved_bits(&table, identity..identity + 20, &fields), 30);
    let table = form(&small(5, 1));
    let security = offset_at(&table, 96);
    let fields = [6, 12, 18, 24, 30, 36];
    let expected = 4 + 7 + 8 + 22 * 8;
    assert_eq!(
        reserved_bits(&table, security..security + 64, &fields),
        expected
    );
    let table = form(&small(6, 1));
    let discovery = offset_at(&table, 104);
    let expected = 7 + 8 + 14 * 8;
    assert_eq!(
        reserved_bits(&table, discovery..discovery + 32, &[6, 12]),
        expected
    );
}

#[test]
fn goods_that_differ_in_nothing_that_counts_have_one_form() {
    for sample in second::goods::goods() {
        let kind = match sample.name.split('-').next() {
            Some("interface" | "info") => 3,
            Some("identity") => 10,
            Some("subsystem" | "extended") => 4,
            Some("security") => 5,
            Some("discovery") => 6,
            _ => 2,
        };
        let idle = ["reserved", "list-garbage", "minor"];
        if idle.iter().any(|word| sample.name.contains(word)) {
            assert_eq!(
                rewritten(&sample.table),
                form(&small(kind, 1)),
                "{}",
                sample.name
            );
        }
    }
}

#[test]
fn vectors_carry_every_number_with_every_kind() {
    let all = vectors();
    assert!(all.len() >= 300);
    let names: HashSet<&str> = all.iter().map(|vector| vector.name.as_str()).collect();
    assert_eq!(names.len(), all.len());
    let answers = all.iter().map(|v| (v.answer.number, v.answer.kind));
    let found: BTreeSet<(u8, u8)> = answers.collect();
    let mut expected: BTreeSet<(u8, u8)> = (0..=6).map(|number| (number, 0)).collect();
    expected.extend((7..=9).map(|number| (number, 1)));
    expected.extend((2..=6).map(|kind| (10, kind)));
    expected.extend([0, 2, 3, 4, 5, 6].map(|kind| (11, kind)));
    expected.extend([(12, 3), (12, 4), (13, 4), (13, 6)]);
    expected.extend([2, 3, 4, 6].map(|kind| (18, kind)));
    expected.insert((20, 4));
    assert_eq!(found, expected);
}

#[test]
fn cases_leave_out_only_the_number_that_takes_a_long_table() {
    let pairs = |vectors: Vec<second::vectors::Vector>| -> BTreeSet<(u8, u8)> {
        let answers = vectors.iter().map(|v| (v.answer.number, v.answer.kind));
        answers.collect()
    };
    let sampled = second::cases::tables::sampled();
    assert!(sampled.len() >= 80);
    let mut all = pairs(vectors());
    all.remove(&(4, 0));
    assert_eq!(pairs(sampled), all);
}

#[test]
fn builder_cases_carry_every_number() {
    let steps = second::cases::builds::steps().into_iter();
    let answers: Vec<Answer> = steps
        .flat_map(|(_, s)| s)
        .map(|step| step.made().0)
        .collect();
    let found: BTreeSet<u8> = answers.iter().map(|answer| answer.number).collect();
    let expected = [0, 2, 6, 7, 8, 9, 10, 11, 12, 13, 14, 15, 17, 18, 20];
    assert_eq!(found, BTreeSet::from(expected));
    let done = answers.iter().filter(|answer| answer.is_done()).count();
    assert!(done >= 50 && answers.len() - done >= 100);
}
