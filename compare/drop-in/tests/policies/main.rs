//! What the drop-in does beyond the library's limits, by policy. The types are the client's.

#[path = "../../../client/src/primitives.rs"]
mod primitives;
#[allow(dead_code)]
#[path = "../../../generate/src/random.rs"]
mod random;
#[allow(dead_code)]
#[path = "../../../client/src/types.rs"]
mod types;

#[cfg(feature = "outside-limits")]
mod counts;
#[cfg(feature = "outside-limits")]
#[path = "../../../client/src/edges.rs"]
mod edges;
#[cfg(not(feature = "outside-limits"))]
mod refusals;
#[cfg(feature = "outside-limits")]
#[path = "../../../client/src/report.rs"]
mod report;
#[cfg(feature = "outside-limits")]
#[path = "../../../client/src/values.rs"]
mod values;
