//! The bodies that are measured: made anew at each start, always the same.
pub mod adversarial;
pub mod conflicts;
mod draft;
mod ordinary;
pub mod shapes;
pub mod shortcuts;
mod statements;

pub use statements::NODES;

/// Numbers of nodes of the ordinary bodies.
pub const SIZES: [usize; 5] = [8, 32, 128, 512, 1_024];
/// Ordinary bodies of each size.
pub const PER_SIZE: u64 = 32;

/// The ordinary bodies of a size.
pub fn ordinary(nodes: usize) -> Vec<Vec<u8>> {
    (0..PER_SIZE).map(|i| ordinary::draft(1_000 * nodes as u64 + i, nodes).text()).collect()
}
