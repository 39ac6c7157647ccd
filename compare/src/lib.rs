// Ours against the published bodies: cases by 01's rule, both asked, every answer compared.
pub mod case;
pub mod judge;
pub mod order;
pub mod ours;
pub mod port;
pub mod random;
pub mod replay;
pub mod sample;
pub mod small;
pub mod theirs;
