//! The archive's calls. A test links only those that it uses.
#![allow(dead_code)]

/// The size of a struct and the place of each field are those that include/burial_register.h has.
macro_rules! layout {
    ($name:ty: $size:literal, $($field:ident $at:literal),+) => {
        const _: () = {
            assert!(std::mem::size_of::<$name>() == $size);
            $(assert!(std::mem::offset_of!($name, $field) == $at);)+
        };
    };
}

layout!(crate::model::entry::Entry: 80, office 0, serial 4, plot 8, value 12, clock 16, deps 48);
layout!(crate::model::codec::Frame: 88, offices 0, hops 4, entry 8);
layout!(crate::model::session::Session: 1360, offices 0, clock 4, read 36, count 72, own 80);

pub mod forms;
pub mod frames;
pub mod lent;
pub mod office;
pub mod tokens;
