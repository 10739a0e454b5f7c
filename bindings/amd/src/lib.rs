//! The interface of the crate `amd` 0.2.2, by the package `rimopaku-amd`, under the name and the version of that crate:
//! for programs that depend on it through another one. The README says how it is patched in.

pub use rimopaku_amd::*;
