//! Stand-in for `chrono`: whole seconds since 1970, no more.
use std::marker::PhantomData;
use std::time::{SystemTime, UNIX_EPOCH};

#[derive(Clone, Copy, Debug)]
pub struct Utc;
impl Utc {
    pub fn now() -> DateTime<Utc> {
        DateTime(SystemTime::now().duration_since(UNIX_EPOCH).unwrap().as_secs() as i64, PhantomData)
    }
}

#[derive(Clone, Copy, Debug)]
pub struct DateTime<Z>(i64, PhantomData<Z>);
impl<Z> DateTime<Z> {
    pub fn timestamp(&self) -> i64 {
        self.0
    }
    pub fn signed_duration_since(self, other: DateTime<Z>) -> Duration {
        Duration(self.0 - other.0)
    }
}
impl<Z> std::ops::Add<Duration> for DateTime<Z> {
    type Output = DateTime<Z>;
    fn add(self, d: Duration) -> Self {
        DateTime(self.0 + d.0, PhantomData)
    }
}

#[derive(Debug)]
pub struct OutOfRange;

#[derive(Clone, Copy, Debug)]
pub struct Duration(i64);
impl Duration {
    pub fn try_seconds(s: i64) -> Option<Self> {
        Some(Duration(s))
    }
    pub fn to_std(&self) -> Result<std::time::Duration, OutOfRange> {
        u64::try_from(self.0).map(std::time::Duration::from_secs).map_err(|_| OutOfRange)
    }
}
