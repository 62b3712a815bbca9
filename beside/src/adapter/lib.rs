//! One library as a shared object, called by the present passes. Its entries may take other
//! parameters than the present ones do: `ENTRIES` names the file, written by `adapter`, that has
//! the present entries over the library's own.

#[allow(dead_code)]
#[path = "../ours/bare.rs"]
mod bare;
#[path = "../ours/frame/bare.rs"]
mod frame_bare;
#[path = "../ours/passes.rs"]
mod passes;

mod frame {
    pub(crate) use crate::frame_bare as bare;
}

#[allow(dead_code, unused_variables)]
mod entries {
    include!(env!("ENTRIES"));
}

use support::library::Library;

/// The only symbol that is exported. Caller and shared object are compiled by one compiler with
/// one crate `support`, so that a trait object can be passed between them.
#[unsafe(no_mangle)]
pub fn library() -> &'static dyn Library {
    &passes::Linked
}
