//! The proved library beside the second implementation, on the same files and buffers.

pub mod boards;
pub mod check;
pub mod damage;
pub mod files;
pub mod handed;
pub mod mistakes;
pub mod order_mistakes;
pub mod orders;
pub mod random;
pub mod record;
pub mod refusal;
pub mod run;
pub mod sought;
pub mod tally;
