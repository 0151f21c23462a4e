//! The days and logs to compare on.
mod cases;
mod chance;
mod damage;
mod edges;
mod fields;
mod logs;
mod random;
mod records;

pub use cases::{case, dew_point_edges, far_from_equation, halves, sweep, without_dew_point};
pub use damage::{damaged, loose_bytes};
pub use edges::{crop_edges, dew_point_logs, month_edges, station_edges};
pub use logs::{answered_log, log_of_length, monthly_log, sound_log};
pub use random::Random;
pub use records::{crop_record, day_record, limited_record, station_record};

use crate::{Day, Earlier, Station};

/// A day handed in alone.
#[derive(Clone, Copy, Debug)]
pub struct Case {
    pub station: Station,
    pub day: Day,
    pub earlier: Earlier,
}
