//! The safe calls, held against documents 01 and 02 and against described sections.

mod asset_list;
mod by_hand;
mod described;
mod edges;
mod models;
mod nans;
mod records;
mod refusals;
mod sections;
mod stack;
mod strip_bytes;
mod strip_keys;
mod strip_refusals;
mod tracks;
