//! Stands in for ours.rs where only the tuned program is run.
//! Nothing here is ever called; the table has dashes in its place.

pub const THERE: bool = false;

pub fn count(_: u32, _: u32, _: &[u32]) -> u32 {
    unreachable!()
}

pub fn plan(_: u32, _: u32, _: &[u32], _: &mut [u32]) -> u32 {
    unreachable!()
}

pub fn check(_: u32, _: &[u32], _: &[u32]) -> u32 {
    unreachable!()
}

pub fn feed_all(_: u32, _: u32, _: &[u32], _: &mut [u32], _: &mut [u32]) -> u32 {
    unreachable!()
}

pub fn sound(_: &[u32]) -> bool {
    unreachable!()
}

pub fn frames_of(_: &[u32], _: &[u32], _: &mut [u32]) -> u32 {
    unreachable!()
}

pub fn report(_: &[u8]) -> String {
    unreachable!()
}
