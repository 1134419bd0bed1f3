//! Stand-in for the `rpki` crate: record fields, record order and serials as document 01 fixes them.

pub mod uri {
    #[derive(Clone, Debug)]
    pub struct Rsync;
    impl Rsync {
        pub fn unshare(&mut self) {}
    }
}

pub mod repository {
    pub mod x509 {
        #[derive(Clone, Copy, Debug)]
        pub struct Time(pub std::time::SystemTime);
        impl From<Time> for std::time::SystemTime {
            fn from(t: Time) -> Self {
                t.0
            }
        }
        #[derive(Clone, Copy, Debug)]
        pub struct Validity;
        impl Validity {
            pub fn trim(self, _: Validity) -> Self {
                self
            }
        }
    }
    pub mod tal {
        #[derive(Clone, Debug)]
        pub struct TalInfo;
        impl TalInfo {
            pub fn name(&self) -> &str {
                ""
            }
        }
    }
    pub mod cert {
        use super::tal::TalInfo;
        use super::x509::Validity;
        use std::sync::Arc;
        pub struct Cert;
        impl Cert {
            pub fn validity(&self) -> Validity {
                Validity
            }
        }
        pub struct ResourceCert {
            tal: Arc<TalInfo>,
            uri: Option<crate::uri::Rsync>,
        }
        impl ResourceCert {
            pub fn tal(&self) -> &Arc<TalInfo> {
                &self.tal
            }
            pub fn signed_object(&self) -> Option<&crate::uri::Rsync> {
                self.uri.as_ref()
            }
            pub fn validity(&self) -> Validity {
                Validity
            }
        }
    }
}

pub mod rtr {
    pub use self::payload::Timing;
    pub use self::payload::{Action, PayloadRef, PayloadType};
    pub use self::state::{Serial, State};

    pub mod payload {
        use super::pdu::ProviderAsns;
        use std::fmt;
        use std::sync::Arc;

        #[derive(Clone, Copy, Debug, Eq, PartialEq)]
        pub enum Action {
            Announce,
            Withdraw,
        }

        #[derive(Clone, Copy, Debug, Eq, PartialEq)]
        pub enum PayloadType {
            Origin,
            RouterKey,
            Aspa,
        }

        /// Document 01: the 23 bytes of the body, compared byte by byte.
        #[derive(Clone, Copy, Eq, Ord, PartialEq, PartialOrd)]
        pub struct RouteOrigin(pub [u8; 23]);

        /// Key identifier, AS number, key info; compared in this order, which is that of the body.
        #[derive(Clone, Eq, Ord, PartialEq, PartialOrd)]
        pub struct RouterKey {
            pub key_identifier: [u8; 20],
            pub asn: u32,
            pub key_info: Arc<[u8]>,
        }

        /// `from_vec` sorts by customer, then providers; `key` is the customer alone.
        #[derive(Clone, Eq, Ord, PartialEq, PartialOrd)]
        pub struct Aspa {
            pub customer: u32,
            pub providers: ProviderAsns,
        }
        impl Aspa {
            pub fn key(&self) -> u32 {
                self.customer
            }
            pub fn withdraw(&self) -> Self {
                Aspa { customer: self.customer, providers: ProviderAsns::empty() }
            }
        }

        pub fn hex(f: &mut fmt::Formatter<'_>, b: &[u8]) -> fmt::Result {
            b.iter().try_for_each(|x| write!(f, "{:02x}", x))
        }
        // `Debug` writes the body in hex: `PayloadDelta` derives `Debug`, which is the one way to see
        // an `AspaAction`'s former providers with delta.rs unchanged.
        impl fmt::Debug for RouteOrigin {
            fn fmt(&self, f: &mut fmt::Formatter<'_>) -> fmt::Result {
                f.write_str("#")?;
                hex(f, &self.0)
            }
        }
        impl fmt::Debug for RouterKey {
            fn fmt(&self, f: &mut fmt::Formatter<'_>) -> fmt::Result {
                f.write_str("#")?;
                hex(f, &self.key_identifier)?;
                hex(f, &self.asn.to_be_bytes())?;
                hex(f, &self.key_info)
            }
        }
        impl fmt::Debug for Aspa {
            fn fmt(&self, f: &mut fmt::Formatter<'_>) -> fmt::Result {
                f.write_str("#")?;
                hex(f, &self.customer.to_be_bytes())?;
                hex(f, &self.providers.0)
            }
        }

        #[derive(Clone, Copy, Debug)]
        pub enum PayloadRef<'a> {
            Origin(RouteOrigin),
            RouterKey(&'a RouterKey),
            Aspa(&'a Aspa),
        }
        impl From<RouteOrigin> for PayloadRef<'_> {
            fn from(x: RouteOrigin) -> Self {
                PayloadRef::Origin(x)
            }
        }
        impl<'a> From<&'a RouteOrigin> for PayloadRef<'a> {
            fn from(x: &'a RouteOrigin) -> Self {
                PayloadRef::Origin(*x)
            }
        }
        impl<'a> From<&'a RouterKey> for PayloadRef<'a> {
            fn from(x: &'a RouterKey) -> Self {
                PayloadRef::RouterKey(x)
            }
        }
        impl<'a> From<&'a Aspa> for PayloadRef<'a> {
            fn from(x: &'a Aspa) -> Self {
                PayloadRef::Aspa(x)
            }
        }

        #[derive(Clone, Copy, Debug)]
        pub struct Timing {
            pub refresh: u32,
            pub retry: u32,
            pub expire: u32,
        }
    }

    pub mod pdu {
        use std::fmt;
        use std::sync::Arc;
        /// The provider AS numbers as bytes, four each.
        #[derive(Clone, Eq, Ord, PartialEq, PartialOrd)]
        pub struct ProviderAsns(pub Arc<[u8]>);
        impl ProviderAsns {
            pub fn empty() -> Self {
                ProviderAsns(Arc::from(&[][..]))
            }
        }
        impl fmt::Debug for ProviderAsns {
            fn fmt(&self, f: &mut fmt::Formatter<'_>) -> fmt::Result {
                f.write_str("#")?;
                super::payload::hex(f, &self.0)
            }
        }
    }

    pub mod state {
        use std::cell::Cell;
        use std::cmp::Ordering;

        thread_local! {
            /// What the number 0 of history.rs stands for: 0, unless a test starts a history elsewhere
            /// (K7, the wrap). Only `0.into()` and `serial == 0` of history.rs read it.
            pub static ZERO: Cell<u32> = const { Cell::new(0) };
        }

        #[derive(Clone, Copy, Debug, Eq, Hash, PartialEq)]
        pub struct Serial(pub u32);
        impl Serial {
            /// RFC 1982, section 3.1.
            #[allow(clippy::should_implement_trait)]
            pub fn add(self, n: u32) -> Self {
                assert!(n <= 0x7FFF_FFFF);
                Serial(self.0.wrapping_add(n))
            }
        }
        impl From<u32> for Serial {
            fn from(x: u32) -> Self {
                Serial(x.wrapping_add(ZERO.with(|z| z.get())))
            }
        }
        impl PartialEq<u32> for Serial {
            fn eq(&self, x: &u32) -> bool {
                *self == Serial::from(*x)
            }
        }
        /// RFC 1982, section 3.2, with its own cases.
        impl PartialOrd for Serial {
            fn partial_cmp(&self, other: &Self) -> Option<Ordering> {
                let (i1, i2) = (self.0, other.0);
                if i1 == i2 {
                    Some(Ordering::Equal)
                } else if (i1 < i2 && i2 - i1 < 0x8000_0000) || (i1 > i2 && i1 - i2 > 0x8000_0000) {
                    Some(Ordering::Less)
                } else if (i1 < i2 && i2 - i1 > 0x8000_0000) || (i1 > i2 && i1 - i2 < 0x8000_0000) {
                    Some(Ordering::Greater)
                } else {
                    None
                }
            }
        }

        #[derive(Clone, Copy, Debug, Eq, PartialEq)]
        pub struct State {
            session: u16,
            serial: Serial,
        }
        impl State {
            pub fn from_parts(session: u16, serial: Serial) -> Self {
                State { session, serial }
            }
            pub fn session(self) -> u16 {
                self.session
            }
            pub fn serial(self) -> Serial {
                self.serial
            }
        }
    }

    pub mod server {
        use super::payload::Timing;
        use super::{Action, PayloadRef, State};
        pub trait PayloadSet {
            fn next(&mut self) -> Option<PayloadRef<'_>>;
        }
        pub trait PayloadDiff {
            fn next(&mut self) -> Option<(PayloadRef<'_>, Action)>;
        }
        pub trait PayloadSource {
            type Set: PayloadSet;
            type Diff: PayloadDiff;
            fn ready(&self) -> bool;
            fn notify(&self) -> State;
            fn full(&self) -> (State, Self::Set);
            fn diff(&self, state: State) -> Option<(State, Self::Diff)>;
            fn timing(&self) -> Timing;
        }
    }
}
