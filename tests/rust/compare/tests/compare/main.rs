//! The library against the second implementation. Prints the seeds and the
//! count of calls; a failing case prints the call and how to run it again.

#![forbid(unsafe_code)]

mod blanks;
mod blocks;
mod choose;
mod edits;
mod forecasts;
mod gcm;
mod joins;
mod journals;
mod lists;
mod long;
mod slips;
mod states;
mod wholes;

use compare::case::{run, Part};

/// The parts in the order of their numbers, with their counts of cases.
const PARTS: &[Part] = &[
    ("products of single bits", 128, blocks::single_bits),
    ("encrypt and multiply", 8_000, blocks::blocks),
    ("ghash and gmac, edge lengths", 23, blocks::edge_lengths),
    (
        "ghash and gmac, random lengths",
        2_000,
        blocks::random_lengths,
    ),
    ("block calls, wrong lengths", 13, blocks::wrong_lengths),
    ("start", 13, states::start),
    ("read", 23, states::read),
    ("every small edit", 50, edits::every_small_edit),
    ("edits of edge lengths", 23, edits::edge_lengths),
    ("edits near the limit", 60, edits::near_the_limit),
    ("arbitrary states", 4_000, states::arbitrary),
    ("lists of true calls", 800, lists::true_calls),
    ("lists of calls true or not", 600, lists::calls_true_or_not),
    ("lists on a long file", 400, lists::on_a_long_file),
    ("slips with one bit turned", 40, slips::one_bit_turned),
    ("slips of wrong lengths", 85, slips::wrong_lengths),
    ("slips made by hand", 300, slips::made_by_hand),
    ("the last numbers", 50, slips::last_numbers),
    ("long inputs", 9, long::inputs),
    ("a file of 3 MiB", 1, long::file),
    ("journals of edits", 400, journals::of_edits),
    ("journals on a long file", 150, journals::on_a_long_file),
    ("journals cut short", 10, journals::cut_short),
    ("heads with one bit turned", 10, journals::one_bit_turned),
    ("every kind of head", 112, journals::every_head),
    ("journals of any records", 3_000, journals::of_any_records),
    ("a journal of many records", 1, journals::of_many_records),
    ("gcm, texts of every length", 1_060, gcm::every_text),
    ("gcm, edge lengths", 31, gcm::edge_lengths),
    ("gcm, nonces of every length", 50, gcm::every_nonce),
    ("gcm, random lengths", 2_000, gcm::random_lengths),
    ("gcm, no text", 300, gcm::no_text),
    ("gcm, one bit turned", 12, gcm::one_bit_turned),
    ("gcm, one bit of many turned", 1, gcm::one_bit_of_many),
    ("gcm, borders moved", 40, gcm::borders_moved),
    ("gcm, wrong lengths", 13, gcm::wrong_lengths),
    ("gcm, sets of causes", 32, gcm::sets_of_causes),
    ("gcm, counters that wrap", 54, gcm::counters_wrap),
    ("encryptions of single bits", 130, blocks::plain_blocks),
    ("gcm, around whole batches", 32, gcm::around_batches),
    ("gcm, counters of single bits", 130, gcm::plain_counters),
    ("products of runs of ones", 128, blocks::runs_of_ones),
    ("whole inputs of every length", 1_100, wholes::every_length),
    ("batches of single bits", 130, wholes::plain_batches),
    ("batches of ones", 5, wholes::ones),
    ("blank files of every length", 1_100, blanks::every_length),
    ("blank files of every fill", 256, blanks::every_fill),
    ("blank files of some MiB", 9, blanks::some_mebibytes),
    (
        "blank files around powers of two",
        61,
        blanks::powers_of_two,
    ),
    ("blank files of any length", 600, blanks::any_length),
    ("slips of every number", 48, slips::every_number),
    ("lists of a card's week", 300, lists::a_week),
    ("lists of every verdict", 1, lists::every_verdict),
    ("joins of few parts", 420, joins::of_few_parts),
    ("joins of every count", 160, joins::of_every_count),
    ("joins of many parts", 4, joins::of_many_parts),
    ("joins of joins", 210, joins::of_joins),
    ("joins of a file", 700, joins::of_a_file),
    ("joins of blank files", 210, joins::of_blank_files),
    ("joins of powers of two", 58, joins::of_powers_of_two),
    ("joins under a sum", 20, joins::under_a_sum),
    ("joins of single bits", 130, joins::of_plain_sums),
    ("joins of long parts", 540, joins::of_long_parts),
    ("joins, wrong lengths", 13, joins::of_wrong_lengths),
    ("joins, sets of causes", 16, joins::of_sets_of_causes),
    (
        "forecasts of every small edit",
        50,
        forecasts::of_every_small_edit,
    ),
    (
        "forecasts around powers of two",
        58,
        forecasts::around_powers_of_two,
    ),
    ("forecasts of any length", 200, forecasts::of_any_length),
    ("forecasts, other bodies", 500, forecasts::of_other_bodies),
    ("a forecast of many records", 1, forecasts::of_many_records),
];

fn main() {
    run(PARTS, 100_000);
}
