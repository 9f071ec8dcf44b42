//! The three numbers the caller gives (refusal 1).

use crate::refusal::Refusal;
use crate::values::is_date;

const CONTROL_NUMBERS: std::ops::RangeInclusive<u32> = 1..=999_999_999;

/// The caller's date, time and control number, found good and written out.
#[derive(Debug, Clone, PartialEq, Eq)]
pub struct CallerNumbers {
    /// CCYYMMDD
    pub date: String,
    /// HHMM
    pub time: String,
    pub control: u32,
}

impl CallerNumbers {
    pub fn check(date: u32, time: u32, control: u32) -> Result<Self, Refusal> {
        // A date above 99991231 has a ninth digit or breaks rule DT.
        let date = format!("{date:08}");
        let good_time = time / 100 <= 23 && time % 100 <= 59;
        if !is_date(date.as_bytes()) || !good_time || !CONTROL_NUMBERS.contains(&control) {
            return Err(Refusal::CallerNumbers);
        }
        Ok(CallerNumbers {
            date,
            time: format!("{time:04}"),
            control,
        })
    }

    /// The date as ISA09 has it: YYMMDD.
    pub fn short_date(&self) -> &str {
        &self.date[2..]
    }

    /// The control number as ISA13 and IEA02 have it: nine digits.
    pub fn long_control(&self) -> String {
        format!("{:09}", self.control)
    }
}
