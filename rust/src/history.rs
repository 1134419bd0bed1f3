use crate::{raw, Delta, Refusal, Serial, Session, Timing, Version, QUERY_LIMIT};

/// The newest snapshot and the last deltas, and what a router is to be sent.
///
/// A history owns its two stores. Their sizes are fixed when it is made: an update that needs more
/// is refused with [`Refusal::StoreFull`] and changes nothing.
///
/// ```
/// use taplevung::{History, Refusal, Serial, Session, Updated};
///
/// // ASPA fields: customer 1 with provider 2, then with provider 3.
/// let one = b"\x03\x00\x08\x00\x00\x00\x01\x00\x00\x00\x02";
/// let two = b"\x03\x00\x08\x00\x00\x00\x01\x00\x00\x00\x03";
///
/// let mut history = History::new(77, 10, 1000, 1000)?;
/// assert_eq!(history.update(one)?, Updated::First);
/// assert!(matches!(history.update(two)?, Updated::Changed(_)));
/// assert_eq!(history.full()?.snapshot, two);
///
/// let mut out = [0; 100];
/// let served = history.query(Session(77), Serial(0), &mut out)?;
/// assert_eq!((served.delta.serial, served.delta.announced), (Serial(1), 1));
/// assert_eq!(out[0], 0x33); // an update
/// assert_eq!(history.query(Session(77), Serial(9), &mut out), Err(Refusal::NotServed));
/// # Ok::<(), Refusal>(())
/// ```
#[derive(Clone, Debug)]
pub struct History {
    state: raw::State,
    snapshots: Vec<u8>,
    deltas: Vec<u8>,
}

/// What an update did.
#[derive(Clone, Copy, Debug, Eq, PartialEq)]
pub enum Updated {
    /// The history's first snapshot; the serial stays the one that the history started with.
    First,
    /// The snapshot is the one that is held already.
    Unchanged,
    /// This delta was added, and its serial is the newest.
    Changed(Delta),
}

/// The answer to a query: the session to name to the router, and the delta that was written.
#[derive(Clone, Copy, Debug, Eq, PartialEq)]
pub struct Served {
    pub session: Session,
    pub delta: Delta,
}

/// Everything: the session and serial to name to the router, and the held snapshot.
#[derive(Clone, Copy, Debug, Eq, PartialEq)]
pub struct Full<'a> {
    pub session: Session,
    pub serial: Serial,
    pub snapshot: &'a [u8],
}

/// Router messages that were written to the first `length` bytes of the output.
#[derive(Clone, Copy, Debug, Eq, PartialEq)]
pub enum Sent {
    /// What was asked for.
    Data(Messages),
    /// A Cache Reset: the deltas since the router's serial are not held.
    CacheReset { length: usize },
    /// An Error Report: the router named another session.
    ErrorReport { length: usize },
}

/// What the messages from the Cache Response to the End of Data say.
#[derive(Clone, Copy, Debug, Eq, PartialEq)]
pub struct Messages {
    pub session: Session,
    pub serial: Serial,
    pub length: usize,
    /// How many of them announce an item.
    pub announced: u64,
    /// How many of them withdraw one.
    pub withdrawn: u64,
    /// How many items there is no message for.
    pub router_keys_skipped: u64,
    pub aspas_skipped: u64,
}

impl Messages {
    fn of(sent: &raw::Sent) -> Self {
        Messages {
            session: sent.session,
            serial: sent.answer.serial,
            length: sent.answer.length as usize,
            announced: sent.answer.announced,
            withdrawn: sent.answer.withdrawn,
            router_keys_skipped: sent.router_keys_skipped,
            aspas_skipped: sent.aspas_skipped,
        }
    }
}

impl Sent {
    /// How many bytes to send to the router.
    pub fn length(&self) -> usize {
        match self {
            Sent::Data(messages) => messages.length,
            Sent::CacheReset { length } | Sent::ErrorReport { length } => *length,
        }
    }
}

/// The replies to the queries of an appliance: the session and serial to name to the routers, and
/// how much of the output is used.
#[derive(Clone, Debug)]
pub struct Replies {
    pub session: Session,
    pub serial: Serial,
    pub length: usize,
    raw: Box<raw::Replies>,
}

/// What one query gets: where in the output its delta starts, and the delta.
#[derive(Clone, Copy, Debug, Eq, PartialEq)]
pub struct Reply {
    pub offset: usize,
    pub delta: Delta,
}

impl Replies {
    /// A reply for each query, in order.
    pub fn iter(&self) -> impl ExactSizeIterator<Item = Result<Reply, Refusal>> + '_ {
        self.raw.replies[..self.raw.count as usize].iter().map(|reply| {
            if reply.kind == 0 {
                return Err(Refusal::of(reply.number, 0, 0));
            }
            let (serial, length) = (self.serial, reply.length as usize);
            let (announced, withdrawn) = (reply.announced, reply.withdrawn);
            let delta = Delta { serial, length, announced, withdrawn };
            Ok(Reply { offset: reply.offset as usize, delta })
        })
    }
}

impl History {
    /// Makes a history with no snapshot yet, which keeps up to `keep` deltas. Its first serial is 0.
    ///
    /// Refused if `keep` is not 1 to 64 or a store is over its limit
    /// ([`SNAPSHOT_LIMIT`](crate::SNAPSHOT_LIMIT), [`DELTA_LIMIT`](crate::DELTA_LIMIT)).
    pub fn new(
        session: u64,
        keep: u32,
        snapshot_store_len: usize,
        delta_store_len: usize,
    ) -> Result<Self, Refusal> {
        Self::starting_at(session, keep, Serial(0), snapshot_store_len, delta_store_len)
    }

    /// The same with `start` as its first serial, so that after a planned restart serials go on.
    /// The session should be a new one, so that routers with older data reload.
    pub fn starting_at(
        session: u64,
        keep: u32,
        start: Serial,
        snapshot_store_len: usize,
        delta_store_len: usize,
    ) -> Result<Self, Refusal> {
        let (snapshots, deltas) = (vec![0; snapshot_store_len], vec![0; delta_store_len]);
        let made = raw::create(session, keep, start, &snapshots, &deltas);
        Refusal::check(&made.answer)?;
        Ok(History { state: made.state, snapshots, deltas })
    }

    /// Takes a new snapshot. If it differs from the held one, their difference becomes the newest
    /// delta, and the oldest is dropped if there are too many.
    pub fn update(&mut self, new: &[u8]) -> Result<Updated, Refusal> {
        let made = raw::update(self.state, new, &mut self.snapshots, &mut self.deltas);
        Refusal::check(&made.answer)?;
        self.state = made.state;
        Ok(match made.answer.kind {
            1 => Updated::First,
            2 => Updated::Unchanged,
            _ => Updated::Changed(Delta::of(&made.answer)),
        })
    }

    /// Writes the delta for a router that is at `serial` of `session`. It is empty if the router is
    /// up to date.
    ///
    /// A router may be as many steps behind as deltas are held; one further behind, or ahead, is
    /// refused with [`Refusal::NotServed`].
    pub fn query(&self, session: Session, serial: Serial, out: &mut [u8]) -> Result<Served, Refusal> {
        let told = raw::query(self.state, session, serial, &self.snapshots, &self.deltas, out);
        Refusal::check(&told.answer)?;
        Ok(Served { session: told.session, delta: Delta::of(&told.answer) })
    }

    /// Answers up to 384 queries as [`query`](Self::query) does, one by one, each with the output that
    /// is still unused. The history is checked once, and routers at the same serial share one walk.
    ///
    /// A query that does not fit gets [`Refusal::NoRoom`] and uses nothing; later ones are still tried.
    /// More than 384 queries are refused with [`Refusal::BadList`].
    ///
    /// ```
    /// use taplevung::{History, Refusal, Serial, Session};
    ///
    /// let mut history = History::new(77, 10, 1000, 1000)?;
    /// history.update(b"\x03\x00\x08\x00\x00\x00\x01\x00\x00\x00\x02")?;
    /// history.update(b"\x03\x00\x08\x00\x00\x00\x01\x00\x00\x00\x03")?;
    ///
    /// let mut out = [0; 100];
    /// let asked = [(Session(77), Serial(0)), (Session(78), Serial(0)), (Session(77), Serial(0))];
    /// let replies = history.query_all(&asked, &mut out)?;
    /// let [one, other, two] = replies.iter().collect::<Vec<_>>()[..] else { panic!() };
    /// assert_eq!(other, Err(Refusal::OtherSession));
    /// let (one, two) = (one?, two?);
    /// assert_eq!((one.offset, two.offset), (0, one.delta.length));
    /// assert_eq!(out[..two.offset], out[two.offset..replies.length]);
    /// # Ok::<(), Refusal>(())
    /// ```
    pub fn query_all(&self, asked: &[(Session, Serial)], out: &mut [u8]) -> Result<Replies, Refusal> {
        let mut queries = [0; 6 * QUERY_LIMIT];
        let Some(queries) = queries.get_mut(..6 * asked.len()) else { return Err(Refusal::BadList) };
        for (query, (session, serial)) in queries.chunks_exact_mut(6).zip(asked) {
            query[..2].copy_from_slice(&session.0.to_be_bytes());
            query[2..].copy_from_slice(&serial.0.to_be_bytes());
        }
        let raw = Box::new(raw::query_all(self.state, &self.snapshots, &self.deltas, queries, out));
        Refusal::check(&raw.answer)?;
        let (session, serial) = (raw.session, raw.answer.serial);
        Ok(Replies { session, serial, length: raw.answer.length as usize, raw })
    }

    /// What a router is sent that asks for everything. The snapshot is empty before the first
    /// update.
    pub fn full(&self) -> Result<Full<'_>, Refusal> {
        let told = raw::full(self.state, &self.snapshots, &self.deltas);
        Refusal::check(&told.answer)?;
        Ok(Full {
            session: told.session,
            serial: told.answer.serial,
            snapshot: &self.snapshots[..told.answer.length as usize],
        })
    }

    /// The session and serial to notify routers of.
    pub fn notify(&self) -> (Session, Serial) {
        let notice = raw::notify(self.state);
        (notice.session, notice.serial)
    }

    /// Whether the history has a snapshot yet.
    pub fn ready(&self) -> bool {
        raw::ready(self.state)
    }

    /// Writes the messages of a version that answer the Serial Query of a router at `serial` of `session`:
    /// what [`query`](History::query) says, or a Cache Reset or an Error Report where it refuses with
    /// [`Refusal::NotServed`] or [`Refusal::OtherSession`]. The times are brought into their ranges as
    /// [`timing`](crate::timing) does; version 0 tells none. There is no message for ASPAs, in version 0
    /// none for router keys either: these are skipped and counted.
    ///
    /// ```
    /// use taplevung::{History, Refusal, Sent, Serial, Session, Timing, Version::Rfc8210};
    ///
    /// // 192.0.2.0/24, maximum length 24, AS 64496.
    /// let origin = b"\x01\x00\x17\x04\xc0\x00\x02\x00\0\0\0\0\0\0\0\0\0\0\0\0\x18\x18\x00\x00\xfb\xf0";
    /// let mut history = History::new(77, 10, 1000, 1000)?;
    /// history.update(b"")?;
    /// history.update(origin)?;
    ///
    /// let times = Timing { refresh: 3600, retry: 600, expire: 7200 };
    /// let mut out = [0; 100];
    /// let sent = history.query_messages(Rfc8210, Session(77), Serial(0), times, &mut out)?;
    /// let Sent::Data(messages) = sent else { panic!() };
    /// assert_eq!((messages.serial, messages.announced, messages.length), (Serial(1), 1, 8 + 20 + 24));
    /// assert_eq!(out[8..28], *b"\x01\x04\0\0\0\0\0\x14\x01\x18\x18\0\xc0\x00\x02\x00\x00\x00\xfb\xf0");
    /// let away = history.query_messages(Rfc8210, Session(77), Serial(9), times, &mut out)?;
    /// assert_eq!(away, Sent::CacheReset { length: 8 });
    /// # Ok::<(), Refusal>(())
    /// ```
    pub fn query_messages(
        &self,
        version: Version,
        session: Session,
        serial: Serial,
        times: Timing,
        out: &mut [u8],
    ) -> Result<Sent, Refusal> {
        let (number, snapshots, deltas) = (version.number(), &self.snapshots, &self.deltas);
        let sent = raw::query_messages(number, self.state, session, serial, times, snapshots, deltas, out);
        Refusal::check(&sent.answer)?;
        let length = sent.answer.length as usize;
        Ok(match sent.answer.kind {
            1 => Sent::Data(Messages::of(&sent)),
            2 => Sent::CacheReset { length },
            _ => Sent::ErrorReport { length },
        })
    }

    /// Writes the messages that answer a Reset Query: the held snapshot's items, announced. Before the
    /// first update there are none between Cache Response and End of Data; [`ready`](History::ready)
    /// tells.
    pub fn full_messages(
        &self,
        version: Version,
        times: Timing,
        out: &mut [u8],
    ) -> Result<Messages, Refusal> {
        let (number, snapshots, deltas) = (version.number(), &self.snapshots, &self.deltas);
        let sent = raw::full_messages(number, self.state, times, snapshots, deltas, out);
        Refusal::check(&sent.answer)?;
        Ok(Messages::of(&sent))
    }

    /// Writes the Serial Notify, and says how long it is.
    pub fn notify_message(&self, version: Version, out: &mut [u8]) -> Result<usize, Refusal> {
        let sent = raw::notify_message(version.number(), self.state, out);
        Refusal::check(&sent.answer)?;
        Ok(sent.answer.length as usize)
    }

    /// The state, for a program that stores it beside the bytes of both stores.
    pub fn state(&self) -> raw::State {
        self.state
    }
}
