//! Nothing of this module takes part.
