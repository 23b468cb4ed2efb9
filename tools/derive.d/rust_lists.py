"""Writes the lists of a library in Rust: a type of lists that lie in bytes, and how items are taken from these."""

LISTS = '''
/// A list as the library shows it.
#[derive(Clone, Copy)]
#[repr(C)]
struct RawList {
    items: RawBytes,
    count: usize,
    order: u32,
}

impl RawList {
    /// The list. It lies in the bytes that were read, for as long as these are borrowed.
    unsafe fn list<'a, T>(self) -> List<'a, T> {
        let order = if self.order == 0 { Order::LittleEndian } else { Order::BigEndian };
        // SAFETY: as `get`.
        List { bytes: unsafe { self.items.get() }, count: self.count, order, items: PhantomData }
    }

    /// Where a list lies.
    fn of<T>(list: List<'_, T>) -> RawList {
        RawList { items: RawBytes::of(list.bytes), count: list.count, order: list.order as u32 }
    }
}

/// A list that lies in bytes: the encodings of its items, one after another. Each item is decoded when it is asked for.
#[derive(Clone, Copy)]
pub struct List<'a, T> {
    bytes: &'a [u8],
    count: usize,
    order: Order,
    items: PhantomData<T>,
}

impl<'a, T: Item<'a>> List<'a, T> {
    /// How many items there are.
    pub fn len(&self) -> usize {
        self.count
    }

    /// Whether there is none.
    pub fn is_empty(&self) -> bool {
        self.count == 0
    }

    /// The items.
    pub fn iter(&self) -> Items<'a, T> {
        Items { left: *self }
    }
}

impl<T> Default for List<'_, T> {
    fn default() -> Self {
        List { bytes: &[], count: 0, order: Order::LittleEndian, items: PhantomData }
    }
}

impl<'a, T: Item<'a> + fmt::Debug> fmt::Debug for List<'a, T> {
    fn fmt(&self, f: &mut fmt::Formatter<'_>) -> fmt::Result {
        f.debug_list().entries(self.iter()).finish()
    }
}

impl<'a, T: Item<'a> + PartialEq> PartialEq for List<'a, T> {
    fn eq(&self, other: &Self) -> bool {
        self.count == other.count && self.iter().eq(other.iter())
    }
}

impl<'a, T: Item<'a>> IntoIterator for List<'a, T> {
    type Item = T;
    type IntoIter = Items<'a, T>;

    fn into_iter(self) -> Items<'a, T> {
        Items { left: self }
    }
}

/// The items of a list, from the first on.
#[derive(Clone)]
pub struct Items<'a, T> {
    left: List<'a, T>,
}

impl<'a, T: Item<'a>> Iterator for Items<'a, T> {
    type Item = T;

    fn next(&mut self) -> Option<T> {
        let left = &mut self.left;
        left.count = left.count.checked_sub(1)?;
        // A list is one that was read, or whose items were written, so these are there.
        Some(T::take(&mut left.bytes, left.order).expect("an item of a list"))
    }

    fn size_hint(&self) -> (usize, Option<usize>) {
        (self.left.count, Some(self.left.count))
    }
}

impl<'a, T: Item<'a>> ExactSizeIterator for Items<'a, T> {}

/// What lists hold.
pub trait Item<'a>: Copy {
    /// Takes an item from the front of bytes.
    fn take(bytes: &mut &'a [u8], order: Order) -> Result<Self, Refused>;
}
'''

MAKING_LISTS = '''
impl<'a, T: Item<'a> + Put> List<'a, T> {
    /// A list of these items, whose encodings take the place of what stands in the buffer.
    pub fn of(items: &[T], buffer: &'a mut Vec<u8>) -> Result<Self, Refused> {
        buffer.clear();
        for item in items {
            item.put(buffer)?;
        }
        Ok(List { bytes: buffer, count: items.len(), order: Order::LittleEndian, items: PhantomData })
    }
}

/// What lists that are written hold.
pub trait Put {
    /// Appends an item to a buffer, in little endian.
    fn put(&self, buffer: &mut Vec<u8>) -> Result<(), Refused>;
}
'''

NUMBERS = '''
macro_rules! items_of_numbers {{
    ($($number:ty)*) => {{ $(
        impl Item<'_> for $number {{
            fn take(bytes: &mut &[u8], order: Order) -> Result<Self, Refused> {{
                let Some((number, left)) = bytes.split_first_chunk() else {{
                    return Err(Refused {{ kind: Kind::UnexpectedEndOfInput, at: 0 }});
                }};
                *bytes = left;
                Ok(match order {{
                    Order::LittleEndian => Self::from_le_bytes(*number),
                    Order::BigEndian => Self::from_be_bytes(*number),
                }})
            }}
        }}
{put}    )* }};
}}

items_of_numbers! {{ {numbers} }}
'''

PUT_NUMBERS = '''
        impl Put for $number {
            fn put(&self, buffer: &mut Vec<u8>) -> Result<(), Refused> {
                buffer.extend_from_slice(&self.to_le_bytes());
                Ok(())
            }
        }
'''

# How the items are taken that are made of numbers, and how they are written. Each stands on the one before.
MADE = {"bytes": '''
impl<'a> Item<'a> for &'a [u8] {
    fn take(bytes: &mut &'a [u8], order: Order) -> Result<Self, Refused> {
        let length = u32::take(bytes, order)? as usize;
        let Some((item, left)) = bytes.split_at_checked(length) else {
            return Err(Refused { kind: Kind::UnexpectedEndOfInput, at: 0 });
        };
        *bytes = left;
        Ok(item)
    }
}
''', "text": '''
impl<'a> Item<'a> for &'a str {
    fn take(bytes: &mut &'a [u8], order: Order) -> Result<Self, Refused> {
        std::str::from_utf8(<&[u8]>::take(bytes, order)?).map_err(|_| Refused { kind: Kind::InvalidUtf8, at: 0 })
    }
}
''', "flag": '''
impl Item<'_> for bool {
    fn take(bytes: &mut &[u8], order: Order) -> Result<Self, Refused> {
        Ok(u8::take(bytes, order)? != 0)
    }
}
''', "char": '''
impl Item<'_> for char {
    fn take(bytes: &mut &[u8], order: Order) -> Result<Self, Refused> {
        char::from_u32(u32::take(bytes, order)?).ok_or(Refused { kind: Kind::InvalidChar, at: 0 })
    }
}
'''}
PUT_MADE = {"bytes": '''
impl Put for &[u8] {
    fn put(&self, buffer: &mut Vec<u8>) -> Result<(), Refused> {
        let Ok(length) = u32::try_from(self.len()) else {
            return Err(Refused { kind: Kind::OutOfRangeLength, at: 0 });
        };
        length.put(buffer)?;
        buffer.extend_from_slice(self);
        Ok(())
    }
}
''', "text": '''
impl Put for &str {
    fn put(&self, buffer: &mut Vec<u8>) -> Result<(), Refused> {
        self.as_bytes().put(buffer)
    }
}
''', "flag": '''
impl Put for bool {
    fn put(&self, buffer: &mut Vec<u8>) -> Result<(), Refused> {
        u8::from(*self).put(buffer)
    }
}
''', "char": '''
impl Put for char {
    fn put(&self, buffer: &mut Vec<u8>) -> Result<(), Refused> {
        u32::from(*self).put(buffer)
    }
}
'''}
# What each of them is made of.
MADE_OF = {"bytes": "u32", "text": "u32", "flag": "u8", "char": "u32"}

ITEM = '''
impl{life} Item<{a}> for {path}{life} {{
    fn take(bytes: &mut &{of}[u8], order: Order) -> Result<Self, Refused> {{
        let all = *bytes;
        let (value, size) = {snake}::read(all, order)?;
        *bytes = &all[size..];
        Ok(value)
    }}
}}
'''

PUT = '''
impl Put for {path}{anonymous} {{
    fn put(&self, buffer: &mut Vec<u8>) -> Result<(), Refused> {{
        append(buffer, |room| self.write_to(room, Order::LittleEndian))
    }}
}}
'''


def list_lines(is_written):
    """The type of lists, and what makes one where some are written."""
    return (LISTS + MAKING_LISTS * is_written).split("\n")[:-1]


def listed_lines(kinds, is_written):
    """How items are taken that are of no type of the file."""
    if not kinds:
        return []
    made = {it.what for it in kinds} & set(MADE)
    made |= {"bytes"} if "text" in made else set()
    numbers = {it.of for it in kinds if it.what in ("number", "float")} | {MADE_OF[it] for it in made}
    found = NUMBERS.format(numbers=" ".join(sorted(numbers)), put=PUT_NUMBERS * is_written)
    for it in MADE:
        found += (MADE[it] + PUT_MADE[it] * is_written) * (it in made)
    return found.split("\n")[:-1]


def item_lines(view, is_written):
    """How values of a type are taken."""
    path = f"{view.snake}::{view.camel}"
    life, a, of, anonymous = ("<'a>", "'a", "'a ", "<'_>") if view.borrows else ("", "'_", "", "")
    found = ITEM.format(life=life, a=a, of=of, path=path, snake=view.snake)
    return (found + PUT.format(path=path, anonymous=anonymous) * is_written).split("\n")[:-1]
