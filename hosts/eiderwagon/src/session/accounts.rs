use crate::call::words;
use crate::soup::left_justified;
use crate::{raw, Ground, Refusal};
use std::borrow::Cow;
use std::error::Error;
use std::fmt;

/// How many records a table may have.
const MOST: usize = 1024;

/// The accounts that may log in: at most 1,024 records.
///
/// A login compares with the first record that has its username; upper and lower case are the same.
/// Tables themselves don't compare, and aren't shown, since they have passwords in them.
#[derive(Clone)]
pub struct Accounts<'a> {
    records: Cow<'a, [u8]>,
}

/// Which pair of a table can't be an account, and why. It shows nothing of the pair itself.
///
/// ```
/// use eiderwagon::session::Accounts;
///
/// let bad = Accounts::new([("reader", "opensesame"), ("clerk", "desk 5")]).unwrap_err();
/// assert_eq!(bad.place(), 1);
/// assert_eq!(bad.refusal().number(), 46);
/// assert!(bad.to_string().starts_with("the pair at place 1 (from 0): refusal 46: "));
/// ```
#[derive(Clone, Copy, Debug, PartialEq, Eq)]
pub struct BadAccount {
    place: usize,
    refusal: Refusal,
}

impl Accounts<'static> {
    /// Makes a table of usernames and passwords, each one or more letters and digits.
    ///
    /// A pair with an unsound field is refused with 46, and the first pair of more than 1,024 with
    /// 19.
    pub fn new<'p>(
        pairs: impl IntoIterator<Item = (&'p str, &'p str)>,
    ) -> Result<Self, BadAccount> {
        let mut records = Vec::new();
        for (place, (username, password)) in pairs.into_iter().enumerate() {
            let record = if place < MOST {
                record(username, password)
            } else {
                Err(Refusal::of_caller(Ground::BadSetting))
            };
            records.extend(record.map_err(|refusal| BadAccount { place, refusal })?);
        }
        Ok(Accounts { records: records.into() })
    }
}

impl<'a> Accounts<'a> {
    /// Takes records that are laid out already: username (6 bytes) and password (10), each padded
    /// with spaces on the right. Unsound records are skipped, and bytes left over are no record.
    pub fn from_bytes(records: &'a [u8]) -> Self {
        Accounts { records: records.into() }
    }

    /// The records, 16 bytes each.
    pub fn as_bytes(&self) -> &[u8] {
        &self.records
    }
}

/// One record. The login writer takes exactly the sound fields, so it says which ones those are.
fn record(username: &str, password: &str) -> Result<[u8; raw::ACCOUNT_SIZE], Refusal> {
    let username: [u8; raw::USERNAME_SIZE] = left_justified(username)?;
    let password: [u8; raw::PASSWORD_SIZE] = left_justified(password)?;
    let any = [b' '; raw::SESSION_SIZE];
    let out = &mut [0; 64];
    let _: [u64; 1] = words(|w| raw::soup_write_login(&username, &password, &any, 0, out, w))?;

    let mut record = [0; raw::ACCOUNT_SIZE];
    let (name, rest) = record.split_at_mut(raw::USERNAME_SIZE);
    name.copy_from_slice(&username);
    rest.copy_from_slice(&password);
    Ok(record)
}

/// Passwords aren't shown: only how many records there are.
impl fmt::Debug for Accounts<'_> {
    fn fmt(&self, f: &mut fmt::Formatter<'_>) -> fmt::Result {
        f.debug_struct("Accounts")
            .field("records", &(self.records.len() / raw::ACCOUNT_SIZE))
            .finish_non_exhaustive()
    }
}

impl BadAccount {
    /// The place of the pair among those given, from 0.
    pub const fn place(&self) -> usize {
        self.place
    }

    /// Why it can't be an account.
    pub const fn refusal(&self) -> Refusal {
        self.refusal
    }
}

impl fmt::Display for BadAccount {
    fn fmt(&self, f: &mut fmt::Formatter<'_>) -> fmt::Result {
        write!(f, "the pair at place {} (from 0): {}", self.place, self.refusal)
    }
}

impl Error for BadAccount {}
