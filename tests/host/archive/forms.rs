//! The calls of a session, by value and lent: both have these shapes here.

use crate::model::entry::Entry;
use crate::model::session::Session;

pub type PlotRead = fn(&mut [u32], &mut Session, u32) -> (u32, (u32, Entry));
pub type JointRead = fn(&mut [u32], &mut Session, &[u32], &mut [u32]) -> u32;
pub type Write = fn(&mut [u32], &mut Session, u32, u32, &mut [u32]) -> (u32, usize);
