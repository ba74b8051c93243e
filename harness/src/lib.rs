//! The proved search of Golfcedar, through its C interface, against a second implementation.
//!
//! `reference` is written from the product's scope document and the requests made after it (01 and
//! 02 in comments here), its twelve calls from include/golfcedar.h. It shares neither code nor data
//! layout with the proved search.

pub mod answer;
pub mod brute;
pub mod call;
pub mod cases;
pub mod fast;
pub mod library;
pub mod panels;
pub mod random;
pub mod reference;
pub mod scenarios;
pub mod timing;
