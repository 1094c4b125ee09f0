//! All 256 types, on both sides and in the writers that take one.

use crate::make::case::{
    again, front, listing, read, write_failure, write_unknown, Case, Filled, Side,
};
use crate::store::header;

pub fn add(out: &mut Vec<Case>) {
    for kind in 0..=255u8 {
        let id = 0x0a0b_0c00 + u32::from(kind);
        let bare = Filled::exact(&header(id, kind));
        // With enough zeros for the fields of every method.
        let behind = Filled::padded(&bare.prefix, 110, 0);
        for side in [Side::Request, Side::Reply] {
            out.push(read(side, &bare));
            out.push(read(side, &behind));
        }
        out.push(front(12, &bare));
        out.push(write_unknown(7, id, kind));
        out.push(write_failure(12, id, kind, -22));
    }
    for kind in (0x00..=0x19).chain(0x7e..=0x99).chain([0x42, 0xff]) {
        let behind = Filled::padded(&header(0xfedc_ba98, kind), 110, 0);
        out.push(again(Side::Request, 120, &behind));
        out.push(again(Side::Reply, 120, &behind));
        out.push(listing(300, &behind));
        out.push(front(5, &behind));
    }
}
