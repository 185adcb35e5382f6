//! All families, in the order in which they are tried.

pub mod bit_edges;
pub mod bit_lengths;
pub mod block_edges;
pub mod both_paths;
pub mod both_widths;
pub mod checks;
pub mod compressions;
pub mod descriptors;
pub mod echosum_words;
pub mod every_length;
pub mod listed_and_written;
pub mod null_pointers;
pub mod program_counters;
pub mod program_pieces;
pub mod program_tables;
pub mod random_messages;
pub mod readings;
pub mod refusals;
pub mod rounds_backward;
pub mod rounds_forward;
pub mod same;
pub mod side_by_side;
pub mod table_texts;
pub mod table_words;
pub mod tables;
pub mod tags;
pub mod there_and_back;
pub mod version;
pub mod whole_bytes;
pub mod wide_compressions;
pub mod wide_rounds;
pub mod writings;
pub mod written_and_read;

use crate::family::Family;

pub const ALL: [Family; 33] = [
    block_edges::FAMILY,
    every_length::FAMILY,
    random_messages::FAMILY,
    bit_edges::FAMILY,
    bit_lengths::FAMILY,
    whole_bytes::FAMILY,
    tags::FAMILY,
    checks::FAMILY,
    same::FAMILY,
    rounds_forward::FAMILY,
    rounds_backward::FAMILY,
    there_and_back::FAMILY,
    compressions::FAMILY,
    wide_rounds::FAMILY,
    wide_compressions::FAMILY,
    both_widths::FAMILY,
    refusals::FAMILY,
    null_pointers::FAMILY,
    version::FAMILY,
    tables::FAMILY,
    readings::FAMILY,
    writings::FAMILY,
    written_and_read::FAMILY,
    both_paths::FAMILY,
    program_counters::FAMILY,
    program_tables::FAMILY,
    program_pieces::FAMILY,
    echosum_words::FAMILY,
    table_words::FAMILY,
    table_texts::FAMILY,
    listed_and_written::FAMILY,
    descriptors::FAMILY,
    side_by_side::FAMILY,
];
