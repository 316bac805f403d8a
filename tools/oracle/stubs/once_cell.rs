//! The one type of once_cell that the published sources use; the standard library has its like.

pub mod sync {
    pub use std::sync::LazyLock as Lazy;
}
