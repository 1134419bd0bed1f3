//! Routinator's payload code as it stands, and what it expects of the rest of Routinator.

pub mod payload {
    include!(concat!(env!("OUT_DIR"), "/payload.rs"));

    pub mod validation {
        use super::snapshot::PayloadSnapshot;

        /// A report that already is its snapshot, so that `SharedHistory::update` can be driven.
        pub struct ValidationReport(pub PayloadSnapshot);

        impl ValidationReport {
            pub fn into_snapshot(
                self,
                _: &crate::slurm::LocalExceptions,
                _: &mut crate::metrics::Metrics,
            ) -> PayloadSnapshot {
                self.0
            }
        }
    }
}

pub mod config {
    use std::num::NonZeroUsize;
    use std::time::Duration;

    #[derive(Clone, Copy, Debug)]
    pub enum FilterPolicy {
        Accept,
    }

    pub struct Config {
        pub history_size: NonZeroUsize,
        pub refresh: Duration,
        pub min_refresh: Option<Duration>,
        pub unsafe_vrps: FilterPolicy,
        pub retry: Duration,
        pub expire: Duration,
    }
}

pub mod metrics {
    #[derive(Debug, Default)]
    pub struct Metrics;
}

pub mod slurm {
    #[derive(Clone, Debug)]
    pub struct ExceptionInfo;
    pub struct LocalExceptions;
}
