//! Rules that the original does not have, or breaks, stated plainly: limits and refusals, the columns of long labels, and
//! which lines of history are readable. Where the original has a rule of its own, it is asked and not modelled.

pub mod columns;
pub mod readable;
pub mod refusals;
