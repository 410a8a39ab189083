//! The calls of include/burial_register.h, and the two sides that have them: the archive and the fast version.
//! Both are called as C calls them, so that a session or a frame that crosses by value costs both the same.
// Several programs share this file, and not each uses all of it.
#![allow(dead_code)]

use crate::archive::frames::{self, FrameRead, Written};
use crate::archive::lent::{self, PlotFound};
use crate::archive::office::{self, JointRead, Need, PlotRead, Settings, Wrote};
use crate::archive::tokens::{self, TokenRead};
use crate::fast_exports as fast;
use crate::model::codec::Frame;
use crate::model::session::Session;

pub struct Side {
    pub store_need: unsafe extern "C" fn(u32, u32, u32) -> Need,
    pub store_settings: unsafe extern "C" fn(*const u32, usize) -> Settings,
    pub lent_read_plot: unsafe extern "C" fn(*mut u32, usize, *mut Session, u32) -> PlotFound,
    pub read_plot: unsafe extern "C" fn(*mut u32, usize, Session, u32) -> PlotRead,
    pub lent_read_joint:
        unsafe extern "C" fn(*mut u32, usize, *mut Session, *const u32, usize, *mut u32, usize) -> u32,
    pub read_joint:
        unsafe extern "C" fn(*mut u32, usize, Session, *const u32, usize, *mut u32, usize) -> JointRead,
    pub lent_write:
        unsafe extern "C" fn(*mut u32, usize, *mut Session, u32, u32, *mut u32, usize) -> Written,
    pub write: unsafe extern "C" fn(*mut u32, usize, Session, u32, u32, *mut u32, usize) -> Wrote,
    pub receive: unsafe extern "C" fn(*mut u32, usize, *const u32, usize, *mut u32, usize) -> Written,
    pub join_sessions: unsafe extern "C" fn(u32, u32, Session, Session) -> TokenRead,
    pub read_token: unsafe extern "C" fn(*const u32, usize, u32, u32) -> TokenRead,
    pub write_token: unsafe extern "C" fn(Session, *mut u32, usize) -> Written,
    pub read_frame: unsafe extern "C" fn(*const u32, usize, u32, u32) -> FrameRead,
    pub write_frame: unsafe extern "C" fn(Frame, *mut u32, usize) -> Written,
}

pub static ARCHIVE: Side = Side {
    store_need: office::burial_store_need,
    store_settings: office::burial_store_settings,
    lent_read_plot: lent::burial_lent_read_plot,
    read_plot: office::burial_read_plot,
    lent_read_joint: lent::burial_lent_read_joint,
    read_joint: office::burial_read_joint,
    lent_write: lent::burial_lent_write,
    write: office::burial_write,
    receive: office::burial_receive,
    join_sessions: tokens::burial_join_sessions,
    read_token: tokens::burial_read_token,
    write_token: tokens::burial_write_token,
    read_frame: frames::burial_read_frame,
    write_frame: frames::burial_write_frame,
};

pub static FAST: Side = Side {
    store_need: fast::store_need,
    store_settings: fast::store_settings,
    lent_read_plot: fast::lent_read_plot,
    read_plot: fast::read_plot,
    lent_read_joint: fast::lent_read_joint,
    read_joint: fast::read_joint,
    lent_write: fast::lent_write,
    write: fast::write,
    receive: fast::receive,
    join_sessions: fast::join_sessions,
    read_token: fast::read_token,
    write_token: fast::write_token,
    read_frame: fast::read_frame,
    write_frame: fast::write_frame,
};
