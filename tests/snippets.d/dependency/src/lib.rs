pub const NINE: u32 = 9;
