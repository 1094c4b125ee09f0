//! A second implementation of the webfuse2 message layer, written from
//! documents 01 and 02 and the protocol page, to compare another one with.

pub mod answer;
pub mod compare;
pub mod cursor;
pub mod filled;
pub mod front;
pub mod hash;
pub mod hex;
pub mod listing;
pub mod make;
pub mod methods;
pub mod names;
pub mod outstanding;
pub mod record_bytes;
pub mod refusal;
pub mod reply;
pub mod request;
pub mod store;
pub mod text;
pub mod value;
pub mod write_reply;
pub mod write_request;
