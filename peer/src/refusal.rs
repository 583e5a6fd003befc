//! The refusal numbers of docs/RULES.md, by name.

/// No refusal.
pub const NONE: u32 = 0;
/// n, k, b or the count of DCell(1)s fitted is outside its range, or the planner is asked for a hall that is not filled by DCell(1)s.
pub const HALL: u32 = 1;
/// A uid is not below t(k).
pub const UID: u32 = 2;
/// A tuple entry, level or sub-cell index is outside its range, or the two sub-cells of a link are equal.
pub const RANGE: u32 = 3;
/// A table or section count has the wrong length.
pub const LENGTH: u32 = 4;
/// An unknown code, in the table check or a sheet.
pub const CODE: u32 = 5;
/// Lent room is shorter than what would be written.
pub const ROOM: u32 = 6;
/// A frame is shorter than 20 bytes, DHL or payload says.
pub const SHORT_FRAME: u32 = 7;
/// A retry is above its range, in a header to write, a step or a sheet.
pub const RETRY: u32 = 8;
/// The checksum field is not the one worked out.
pub const CHECKSUM: u32 = 9;
/// A sheet is cut, too long or has bytes left over.
pub const SHEET: u32 = 10;
/// An address is of the wrong kind, or a broadcast has a proxy.
pub const ADDRESS: u32 = 11;
/// The scope of a broadcast call is too high; it shares the number of an address of the wrong kind.
pub const SCOPE: u32 = ADDRESS;
/// The planner is asked for a hall that is full.
pub const FULL: u32 = 12;
/// The version of a frame is not the one there is.
pub const VERSION: u32 = 13;
/// The DHL of a frame is neither 5 nor 6.
pub const DHL: u32 = 14;
/// A flag of a frame other than PF is set.
pub const FLAGS: u32 = 15;
/// PF and DHL of a frame disagree.
pub const PF: u32 = 16;
