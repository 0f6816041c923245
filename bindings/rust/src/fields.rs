//! Header and trailer fields.

use crate::ffi;
use std::fmt;
use std::marker::PhantomData;
use std::slice;

/// A borrowed field: a name, a value, and whether it is sensitive.
///
/// ```
/// use belkjoef::Field;
///
/// let length = 12.to_string();
/// let field = Field::new("content-length", &length);
/// assert_eq!(field.name(), b"content-length");
/// assert_eq!(field.value(), b"12");
/// ```
///
/// It lives no longer than what it borrows:
///
/// ```compile_fail,E0597
/// use belkjoef::Field;
///
/// let field = {
///     let length = 12.to_string();
///     Field::new("content-length", &length)
/// };
/// assert_eq!(field.value(), b"12");
/// ```
// It has the layout of `bj_field`, so a slice of fields is passed without a copy.
#[repr(C)]
#[derive(Clone, Copy)]
pub struct Field<'a> {
    name: *const u8,
    name_length: usize,
    value: *const u8,
    value_length: usize,
    sensitive: u32,
    lent: PhantomData<&'a [u8]>,
}

// SAFETY: it consists of two shared slices.
unsafe impl Send for Field<'_> {}
// SAFETY: as above.
unsafe impl Sync for Field<'_> {}

impl<'a> Field<'a> {
    /// A field that is not sensitive. Names are in lower case.
    pub fn new<N, V>(name: &'a N, value: &'a V) -> Self
    where
        N: AsRef<[u8]> + ?Sized,
        V: AsRef<[u8]> + ?Sized,
    {
        let (name, value) = (name.as_ref(), value.as_ref());
        Field {
            name: name.as_ptr(),
            name_length: name.len(),
            value: value.as_ptr(),
            value_length: value.len(),
            sensitive: 0,
            lent: PhantomData,
        }
    }

    /// The same field, sensitive: it is sent as a never-indexed field (RFC 7541, section 7.1.3).
    pub fn sensitive(self) -> Self {
        Field { sensitive: 1, ..self }
    }

    /// Its name.
    pub fn name(&self) -> &'a [u8] {
        // SAFETY: it was made of such a slice, or an end lends it.
        unsafe { ffi::lent(self.name, self.name_length) }
    }

    /// Its value.
    pub fn value(&self) -> &'a [u8] {
        // SAFETY: as for the name.
        unsafe { ffi::lent(self.value, self.value_length) }
    }

    /// Whether it is never indexed.
    pub fn is_sensitive(&self) -> bool {
        self.sensitive != 0
    }
}

impl PartialEq for Field<'_> {
    fn eq(&self, other: &Self) -> bool {
        self.name() == other.name()
            && self.value() == other.value()
            && self.is_sensitive() == other.is_sensitive()
    }
}

impl Eq for Field<'_> {}

/// Shows the name and the value, which is hidden if it is sensitive.
impl fmt::Debug for Field<'_> {
    fn fmt(&self, f: &mut fmt::Formatter<'_>) -> fmt::Result {
        let name = self.name().escape_ascii();
        match self.is_sensitive() {
            true => write!(f, "{name}: (sensitive)"),
            false => write!(f, "{name}: {}", self.value().escape_ascii()),
        }
    }
}

/// A list of fields that an endpoint has handed out, and lends.
///
/// ```
/// # use belkjoef::{Client, Config, Event, Field, Server};
/// # let mut client = Client::new(&Config::default())?;
/// # let head = [
/// #     Field::new(":method", "GET"),
/// #     Field::new(":scheme", "http"),
/// #     Field::new(":path", "/"),
/// # ];
/// # client.request(&head, b"")?;
/// # let mut octets = [0; 1024];
/// # let count = client.put_out(&mut octets)?;
/// # let mut server = Server::new(&Config::default())?;
/// # let mut rest = &octets[..count];
/// # loop {
/// #     let taken = server.take(rest)?;
/// #     rest = &rest[taken.used..];
/// #     if let Some(Event::Head { fields, .. }) = taken.event {
/// for field in fields {
///     println!("{}: {}", field.name().escape_ascii(), field.value().escape_ascii());
/// }
/// assert_eq!(fields.value(":path"), Some(b"/".as_slice()));
/// #         break;
/// #     }
/// # }
/// # Ok::<(), belkjoef::Error>(())
/// ```
#[derive(Clone, Copy, PartialEq, Eq)]
pub struct Fields<'a> {
    list: &'a [Field<'a>],
}

impl<'a> Fields<'a> {
    pub(crate) fn new(list: &'a [Field<'a>]) -> Self {
        Fields { list }
    }

    /// The number of fields.
    pub fn len(&self) -> usize {
        self.list.len()
    }

    /// Whether the list is empty.
    pub fn is_empty(&self) -> bool {
        self.list.is_empty()
    }

    /// The field at an index, from 0.
    pub fn get(&self, place: usize) -> Option<Field<'a>> {
        self.list.get(place).copied()
    }

    /// The value of the first field with exactly this name.
    pub fn value(&self, name: impl AsRef<[u8]>) -> Option<&'a [u8]> {
        let name = name.as_ref();
        self.iter().find(|field| field.name() == name).map(|field| field.value())
    }

    /// The values of all fields with exactly this name.
    pub fn values<'n>(&self, name: &'n [u8]) -> impl Iterator<Item = &'a [u8]> + 'n
    where
        'a: 'n,
    {
        self.iter().filter(move |field| field.name() == name).map(|field| field.value())
    }

    /// The fields, in order.
    pub fn iter(&self) -> Iter<'a> {
        Iter { rest: self.list.iter() }
    }
}

impl fmt::Debug for Fields<'_> {
    fn fmt(&self, f: &mut fmt::Formatter<'_>) -> fmt::Result {
        f.debug_list().entries(*self).finish()
    }
}

impl<'a> IntoIterator for Fields<'a> {
    type Item = Field<'a>;
    type IntoIter = Iter<'a>;

    fn into_iter(self) -> Iter<'a> {
        self.iter()
    }
}

impl<'a> IntoIterator for &Fields<'a> {
    type Item = Field<'a>;
    type IntoIter = Iter<'a>;

    fn into_iter(self) -> Iter<'a> {
        self.iter()
    }
}

/// The fields of a list, in order.
#[derive(Clone, Debug)]
pub struct Iter<'a> {
    rest: slice::Iter<'a, Field<'a>>,
}

impl<'a> Iterator for Iter<'a> {
    type Item = Field<'a>;

    fn next(&mut self) -> Option<Field<'a>> {
        self.rest.next().copied()
    }

    fn size_hint(&self) -> (usize, Option<usize>) {
        self.rest.size_hint()
    }
}

impl DoubleEndedIterator for Iter<'_> {
    fn next_back(&mut self) -> Option<Self::Item> {
        self.rest.next_back().copied()
    }
}

impl ExactSizeIterator for Iter<'_> {}
