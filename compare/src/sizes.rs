//! The fixed sizes of the three tables.
pub const IDENTITIES: usize = 64;
pub const DECLARATIONS: usize = 256;
pub const LINKS: usize = 512;
