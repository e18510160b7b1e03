//! A safe broker over the calls of broker.h. A `Broker` frees its handle when it is dropped. `&mut self` keeps two calls
//! from using it at once, and it may go to another thread. Each has a name, without which its numbers say nothing.
use crate::calls::*;
use std::{error, fmt, fs::File, io::Read, ptr};

/// Why a call is refused: its code, with the two numbers that go with it.
#[derive(Debug)]
pub struct Error {
    pub code: Code,
    pub why: [u64; 2],
}

impl fmt::Display for Error {
    fn fmt(&self, f: &mut fmt::Formatter<'_>) -> fmt::Result {
        let mut words = [0; 64];
        let len = unsafe { broker_message(self.code as i32, &mut words, 64) } as usize;
        f.write_str(&String::from_utf8_lossy(&words[..len - 1]))
    }
}

impl error::Error for Error {}

/// Where a replica's file stands: the last entry that it has, and the name of the broker that placed it. The file stores
/// both in the transaction that changes its rows.
pub struct Place {
    pub broker: String,
    pub number: u64,
}

/// A broker in this process, and its name: 128 random bits in hexadecimal.
pub struct Broker(Handle, String);

unsafe impl Send for Broker {}

impl Drop for Broker {
    fn drop(&mut self) {
        unsafe { broker_free(self.0) }
    }
}

impl Broker {
    /// Opens a broker for tables: of each the name, and for each column its place in the primary key, or 0.
    pub fn open(limits: &Limits, tables: &[(&str, &[u8])]) -> Result<Broker, Error> {
        let (mut handle, mut why, mut bits) = (ptr::null_mut(), [0; 2], [0; 16]);
        File::open("/dev/urandom").and_then(|mut file| file.read_exact(&mut bits)).expect("no random bits");
        let name = bits.iter().map(|byte| format!("{byte:02x}")).collect();
        let tables: Vec<Table> =
            tables.iter().map(|(name, key)| Table(name.as_ptr(), name.len(), key.as_ptr(), key.len())).collect();
        match unsafe { broker_open(&mut handle, limits, tables.as_ptr(), tables.len(), &mut why) } {
            0 => Ok(Broker(handle, name)),
            code => Err(Error { code: Code::of(code), why }),
        }
    }

    // nothing, or why a call is refused
    fn done(&mut self, result: i32) -> Result<(), Error> {
        let mut why = [0; 2];
        match result {
            0.. => return Ok(()),
            -2.. => {}
            _ => drop(unsafe { broker_why(self.0, &mut why) }),
        }
        Err(Error { code: Code::of(result), why })
    }

    // the number that a call sets
    fn number(&mut self, call: impl FnOnce(Handle, &mut u64) -> i32) -> Result<u64, Error> {
        let mut number = 0;
        self.done(call(self.0, &mut number)).map(|_| number)
    }

    /// Where a file stands that has all up to an entry.
    pub fn at(&self, number: u64) -> Place {
        Place { broker: self.1.clone(), number }
    }

    pub fn publisher(&mut self) -> Result<u64, Error> {
        self.number(|b, publisher| unsafe { broker_publisher(b, publisher) })
    }

    /// Places a whole changeset, and returns the number of its entry.
    pub fn place(&mut self, publisher: u64, text: &[u8]) -> Result<u64, Error> {
        self.number(|b, entry| unsafe { broker_place(b, publisher, text.as_ptr(), text.len(), entry) })
    }

    /// The number and the link of a new subscription to the entries after `start`.
    pub fn subscribe(&mut self, start: u64) -> Result<(u64, u64), Error> {
        let (mut subscription, mut link) = (0, 0);
        self.done(unsafe { broker_subscribe(self.0, start, &mut subscription, &mut link) })?;
        Ok((subscription, link))
    }

    /// A subscription's next ready entries; `None` if nothing is ready.
    pub fn take(&mut self, subscription: u64, now: u64) -> Result<Option<Delivery>, Error> {
        let mut delivery = Delivery::default();
        match self.done(unsafe { broker_take(self.0, subscription, now, &mut delivery) }) {
            Err(Error { code: Code::Empty, .. }) => Ok(None),
            result => result.map(|_| Some(delivery)),
        }
    }

    pub fn accept(&mut self, delivery: u64) -> Result<u64, Error> {
        self.number(|b, cursor| unsafe { broker_accept(b, delivery, cursor) })
    }

    pub fn ack(&mut self, delivery: u64) -> Result<u64, Error> {
        self.number(|b, floor| unsafe { broker_ack(b, delivery, floor) })
    }

    pub fn cursor(&mut self, subscription: u64) -> Result<u64, Error> {
        self.number(|b, cursor| unsafe { broker_cursor(b, subscription, cursor) })
    }

    pub fn reconnect(&mut self, subscription: u64, cursor: u64) -> Result<u64, Error> {
        self.number(|b, link| unsafe { broker_reconnect(b, subscription, cursor, link) })
    }

    /// What a file lacks of what a subscription has accepted, as a changeset. `None` if the file is of another broker: it
    /// must become a copy.
    pub fn lacking(&mut self, file: &Place, subscription: u64) -> Result<Option<Vec<u8>>, Error> {
        let cursor = self.cursor(subscription)?;
        match file {
            Place { broker, .. } if *broker != self.1 => Ok(None),
            Place { number, .. } if *number == cursor => Ok(Some(Vec::new())),
            Place { number, .. } => self.combined(number + 1, cursor).map(Some),
        }
    }

    /// The canonical text of the entries `first` to `last` as one changeset.
    pub fn combined(&mut self, first: u64, last: u64) -> Result<Vec<u8>, Error> {
        let mut text = Vec::new();
        loop {
            let len = unsafe { broker_combined(self.0, first, last, text.as_mut_ptr(), text.len()) };
            match usize::try_from(len) {
                Err(_) => return Err(Error { code: Code::of(len as i32), why: [0; 2] }),
                Ok(len) if len == text.len() => return Ok(text),
                Ok(len) => text.resize(len, 0),
            }
        }
    }
}
