//! The records of a log.
use crate::{Crop, Day, Station, ROUTINE_LIMIT};

/// Kind 1 for a station with the routine's limit, and kind 8 for one that has another.
pub fn station_record(station: &Station) -> Vec<u8> {
    let limited = limited_record(station);
    if station.wind_limit == ROUTINE_LIMIT {
        [&[1], &limited[1..19]].concat()
    } else {
        limited.to_vec()
    }
}

/// Kind 8, whatever the limit.
pub fn limited_record(station: &Station) -> [u8; 21] {
    let mut record = [8; 21];
    record[1..5].copy_from_slice(&station.code);
    let [c1, c2, c3, c4, c5] = station.c.map(|c| c as u16);
    let further = [station.minimum, station.elevation, station.wind_limit];
    fill(&mut record[5..15], &[c1, c2, c3, c4, c5]);
    fill(&mut record[15..], &further);
    record
}

pub fn day_record(day: &Day) -> [u8; 17] {
    let mut record = [2; 17];
    let readings = [
        day.maximum,
        day.minimum,
        day.mean,
        day.dewpoint,
        day.radiation,
        day.wind,
    ];
    fill(&mut record[1..5], &[day.year, day.d]);
    fill(&mut record[5..], &readings.map(|reading| reading as u16));
    record
}

pub fn crop_record(crop: &Crop) -> [u8; 22] {
    let mut record = [6; 22];
    record[1..5].copy_from_slice(&crop.code);
    fill(&mut record[5..11], &[crop.year, crop.start, crop.full]);
    record[11..].copy_from_slice(&crop.percentages);
    record
}

pub(super) fn fill(body: &mut [u8], numbers: &[u16]) {
    for (place, number) in body.chunks_exact_mut(2).zip(numbers) {
        place.copy_from_slice(&number.to_be_bytes());
    }
}
