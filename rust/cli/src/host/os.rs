//! What only some systems have.

/// Unix.
pub mod unix {
    /// Its files.
    pub mod fs {
        /// How a file is made.
        pub trait OpenOptionsExt {
            /// With these permissions.
            fn mode(&mut self, mode: u32) -> &mut Self;
        }
    }
}
