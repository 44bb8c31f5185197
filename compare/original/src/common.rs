//! Upstream's `common`.

pub(crate) use crate::missing::format;

#[path = "../../../docs/src/runtime/src/common/math.rs"]
pub(crate) mod math;
