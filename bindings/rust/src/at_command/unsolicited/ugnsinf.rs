use crate::values::{float, option, reader, Answer, Lent, Values};

/// The report of the satellite receiver.
#[derive(Debug, Clone, Copy, PartialEq)]
pub enum GnssReport {
    /// The receiver is off.
    NotEnabled,
    /// It is on, and does not know where it is.
    NoFix {
        /// How many GPS satellites are in view, where the line says so.
        sat_gps_view: Option<u32>,
    },
    /// It knows where it is.
    Fix(GnssFix),
}

/// A date of the Gregorian calendar and a time of day, in UTC. In a fix the date exists, and lies in 1980 to 2099.
#[derive(Debug, Default, Clone, Copy, PartialEq, Eq)]
pub struct DateTime {
    /// The year in full.
    pub year: u16,
    /// The month, from 1.
    pub month: u8,
    /// The day of the month, from 1.
    pub day: u8,
    /// The hour, at most 23.
    pub hour: u8,
    /// The minute, at most 59.
    pub minute: u8,
    /// The second, at most 59; fractions of it are not kept.
    pub second: u8,
}

/// Where and when a fix was. What the line leaves empty is 0; latitude, longitude and altitude it must have.
#[derive(Debug, Clone, Copy, PartialEq)]
pub struct GnssFix {
    /// When, in UTC.
    pub date_time: DateTime,
    /// In degrees, positive in the north.
    pub latitude: f32,
    /// In degrees, positive in the east.
    pub longitude: f32,
    /// In metres above mean sea level.
    pub altitude: f32,
    /// The horizontal dilution of precision, a plain number.
    pub hdop: f32,
    /// The dilution of precision of the position, a plain number.
    pub pdop: f32,
    /// The vertical dilution of precision, a plain number.
    pub vdop: f32,
    /// In kilometres per hour.
    pub speed_over_ground: f32,
    /// In degrees.
    pub course_over_ground: f32,
    /// How many GPS satellites are in view. Which satellites this and the next two counts are of, the modem's manual leaves unclear.
    pub sat_gps_in_view: u32,
    /// How many satellites were used.
    pub sat_gnss_used: u32,
    /// How many GLONASS satellites were used.
    pub sat_glonass_used: u32,
    /// The greatest carrier to noise density, C/N0, in dBHz.
    pub signal_noise_ratio: u32,
}

impl<'a> Answer<'a> for GnssReport {
    const READER: u64 = reader::GNSS_REPORT;
    fn of(v: &Values, _: impl Lent<'a>) -> Self {
        match v[1] {
            0 => GnssReport::NotEnabled,
            1 => GnssReport::NoFix { sat_gps_view: option(v[2], v[3] as u32) },
            _ => GnssReport::Fix(GnssFix {
                date_time: DateTime {
                    year: v[2] as u16,
                    month: v[3] as u8,
                    day: v[4] as u8,
                    hour: v[5] as u8,
                    minute: v[6] as u8,
                    second: v[7] as u8,
                },
                latitude: float(v[8]),
                longitude: float(v[9]),
                altitude: float(v[10]),
                speed_over_ground: float(v[11]),
                course_over_ground: float(v[12]),
                hdop: float(v[13]),
                pdop: float(v[14]),
                vdop: float(v[15]),
                sat_gps_in_view: v[16] as u32,
                sat_gnss_used: v[17] as u32,
                sat_glonass_used: v[18] as u32,
                signal_noise_ratio: v[19] as u32,
            }),
        }
    }
}

from_line! { GnssReport "1, 13 where a fix has no date that exists, or 3" }
