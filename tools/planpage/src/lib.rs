//! A page that draws a plan: stations as lines, slots as columns, contacts as arrows, loads as bars. Its numbers are
//! those of the archive libjoftaki_c.a.

pub mod data;
pub mod decimals;
pub mod desk;
pub mod layered;
pub mod layout;
pub mod page;
pub mod picture;
pub mod plan;
pub mod survey;
pub mod text;
