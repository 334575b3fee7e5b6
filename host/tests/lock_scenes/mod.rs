//! Scenes of the lock table. Each plays messages or lists on the calls under test beside the model.

pub mod damage;
pub mod drawn;
pub mod edges;
pub mod limits;
pub mod lists;
pub mod sessions;
