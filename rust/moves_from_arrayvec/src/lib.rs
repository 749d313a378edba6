//! Nothing but its test, which is beside the crate `arraystring` so that this has no dependency.
