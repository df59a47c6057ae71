//! The reference by itself: the specimens of docs/01-scope.md ('the page' in these files) and of
//! docs/02-change-requests.md, and consistency over random cases. Needs no archive.

#[path = "../common/mod.rs"]
mod common;
#[path = "../reference/mod.rs"]
mod reference;

mod codec_model;
mod full_list;
mod judge_cuts;
mod naive2;
mod naive3;
mod naive6;
mod naive_ndef;
mod naive_uri;
mod reading;
mod records;
mod specimens;
mod specimens6;
mod specimens_left_out;
mod specimens_ndef;
mod specimens_uri;
mod uris;
mod writing;

/// Random cases of each kind.
const CASES: u64 = 20_000;
