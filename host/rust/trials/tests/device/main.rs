//! The static library against the device model: each result field, each record field, each lent byte.
mod cases;
mod catch_words;
mod guards;
mod lengths;
mod list;
mod order;
mod patrols;
mod patterns;
mod random_lists;
mod states;
mod tasks;
mod wide_ranks;
