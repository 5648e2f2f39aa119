//! The model behind the C interface, as an archive of the same name: the
//! functions that the self-test spoils, with no fault put in.

#[path = "../../src/model.rs"]
#[allow(dead_code)]
mod model;
#[path = "../../src/wrong.rs"]
mod wrong;
