use crate::handle::Handle;
use crate::{Error, Level, Name, Report};
use peachanchor_sys::{self as sys, tlsf_kind, tlsf_pools};

mod kind;
pub use kind::{Kind, RowCounts};

/// Rows of a table, at most.
const ROWS: usize = 64;
/// Bytes that are copied by one call, by way of the stack.
const PART: usize = 256;

/// Heaps for a table of kinds of requests, in memory from `malloc`. While no row has more blocks than it may, each request is
/// served, in whatever order they come. Pools may go to another thread, and are closed when they are dropped, with all blocks.
///
/// ```
/// use peachanchor::{Error, Kind, Level, Pools};
/// let table = [Kind { most: 2, len: 64 }, Kind { most: 1, len: 65_536 }];
/// let mut pools = Pools::open(Level::Four, 1, &table)?; // heaps with numbers 1 to 8, at most
/// let names = [pools.allocate(64)?, pools.allocate(10)?];
/// assert_eq!(pools.allocate(64), Err(Error::RowFull));
/// pools.write(names[0], 4, b"note on")?;
/// let mut bytes = [0; 8];
/// pools.read(names[0], 4, &mut bytes)?;
/// assert_eq!(&bytes, b"note on\0");
/// pools.release(names[0])?;
/// assert!(pools.allocate(64).is_ok());
/// # Ok::<(), peachanchor::Error>(())
/// ```
#[derive(Debug)]
pub struct Pools {
    handle: Handle<'static, tlsf_pools>,
}

// SAFETY: as for `Heap`.
unsafe impl Send for Pools {}

impl Pools {
    /// Opens pools for a table of at most 64 rows, which rise in `len`. Their heaps are of that level, and have the numbers from
    /// `number` on, for eight heaps at most: give each heap of a program another one.
    ///
    /// # Errors
    ///
    /// [`Error::BadSize`] for more rows, where a row is no longer than the one before it, where numbers would go past 2^32, or
    /// where no region is large enough. [`Error::NoMemory`].
    pub fn open(level: Level, number: u32, table: &[Kind]) -> Result<Self, Error> {
        let mut rows = [tlsf_kind::default(); ROWS];
        let own = rows.get_mut(..table.len()).ok_or(Error::BadSize)?;
        own.iter_mut().zip(table).for_each(|(row, kind)| *row = tlsf_kind { most: kind.most, len: kind.len });
        let handle = Handle::from_malloc(tlsf_pools::CLOSED)?;
        // SAFETY: the handle is closed and lies still (rule 1), and the rows lie on this stack (rule 3).
        Error::check(unsafe { sys::tlsf_pools_open(handle.get(), level as u32, number, own.as_ptr(), own.len()) })?;
        Ok(Self { handle })
    }

    /// Allocates a block of `len` bytes, all zero. It counts for the first row that is long enough.
    ///
    /// # Errors
    ///
    /// [`Error::BadSize`] where no row is so long, [`Error::RowFull`] where as many blocks of the row are held as may be,
    /// [`Error::Worn`]. It is never [`Error::NoFit`].
    pub fn allocate(&mut self, len: usize) -> Result<Name, Error> {
        let mut name = sys::tlsf_name::default();
        // SAFETY: rules 1 and 3: the name lies on this stack.
        Error::check(unsafe { sys::tlsf_pools_allocate(self.handle.get(), len, &mut name) })?;
        Ok(Name(name))
    }

    /// Releases a block.
    ///
    /// # Errors
    ///
    /// [`Error::Stale`] where no live block has that name, [`Error::Foreign`] where it has a number of no heap here,
    /// [`Error::Worn`].
    pub fn release(&mut self, name: Name) -> Result<(), Error> {
        // SAFETY: rule 1. No reference into a payload is there at any time.
        Error::check(unsafe { sys::tlsf_pools_release(self.handle.get(), name.0) })
    }

    /// Copies bytes into a block, from its byte `at` on.
    ///
    /// # Errors
    ///
    /// [`Error::Stale`], [`Error::Foreign`], and [`Error::Range`] where they go past its end; then none is copied.
    pub fn write(&mut self, name: Name, at: usize, bytes: &[u8]) -> Result<(), Error> {
        self.look(name, at, bytes.len())?;
        for (k, part) in bytes.chunks(PART).enumerate() {
            let mut own = [0; PART];
            own[..part.len()].copy_from_slice(part);
            let from = (at + k * PART).try_into().map_err(|_| Error::Range)?;
            // SAFETY: rules 1 and 3: so many bytes lie on this stack.
            let answer = unsafe { sys::tlsf_pools_write(self.handle.get(), name.0, from, own.as_ptr(), part.len()) };
            Error::check(answer)?;
        }
        Ok(())
    }

    /// Copies bytes out of a block, from its byte `at` on.
    ///
    /// # Errors
    ///
    /// As [`write`](Self::write).
    pub fn read(&self, name: Name, at: usize, out: &mut [u8]) -> Result<(), Error> {
        self.look(name, at, out.len())?;
        for (k, part) in out.chunks_mut(PART).enumerate() {
            let mut own = [0; PART];
            let from = (at + k * PART).try_into().map_err(|_| Error::Range)?;
            // SAFETY: as in `write`.
            let answer = unsafe { sys::tlsf_pools_read(self.handle.get(), name.0, from, own.as_mut_ptr(), part.len()) };
            Error::check(answer)?;
            part.copy_from_slice(&own[..part.len()]);
        }
        Ok(())
    }

    /// Whether a live block of that name has `n` bytes from its byte `at` on: none is copied before that is known.
    fn look(&self, name: Name, at: usize, n: usize) -> Result<(), Error> {
        let end = at.checked_add(n).and_then(|end| end.try_into().ok()).ok_or(Error::Range)?;
        let mut none = 0;
        // SAFETY: as in `write`; no byte is copied.
        Error::check(unsafe { sys::tlsf_pools_read(self.handle.get(), name.0, end, &mut none, 0) })
    }

    /// Sums over all blocks of the heap of one part, by its number in the order of the table. So a walk from 0 on meets all.
    ///
    /// # Errors
    ///
    /// [`Error::Stale`] where there is no such part.
    pub fn report(&self, part: u32) -> Result<Report, Error> {
        let mut report = sys::tlsf_heap_report::default();
        // SAFETY: rules 1 and 3.
        Error::check(unsafe { sys::tlsf_pools_report(self.handle.get(), part, &mut report) })?;
        Ok(report.into())
    }

    /// How many blocks are held of a row, by its number in the table from 0 on, and how many may be. It takes the same time
    /// however many are held.
    ///
    /// # Errors
    ///
    /// [`Error::Stale`] where the table has no such row.
    ///
    /// ```
    /// use peachanchor::{Error, Kind, Level, Pools, RowCounts};
    /// let mut pools = Pools::open(Level::Four, 1, &[Kind { most: 2, len: 64 }])?;
    /// pools.allocate(10)?;
    /// assert_eq!(pools.counts(0)?, RowCounts { held: 1, most: 2 });
    /// assert_eq!(pools.counts(1), Err(Error::Stale));
    /// # Ok::<(), peachanchor::Error>(())
    /// ```
    pub fn counts(&self, row: u32) -> Result<RowCounts, Error> {
        let mut counts = RowCounts { held: 0, most: 0 };
        // SAFETY: rules 1 and 3: both numbers lie on this stack.
        let answer = unsafe { sys::tlsf_pools_counts(self.handle.get(), row, &mut counts.held, &mut counts.most) };
        Error::check(answer)?;
        Ok(counts)
    }

    /// Looks whether all headers of one part agree, as [`Heap::check`](crate::Heap::check) does of a heap. The part has the number
    /// that it has for [`report`](Self::report). The time grows with its blocks.
    ///
    /// # Errors
    ///
    /// [`Error::Stale`] where there is no such part; [`Error::Damaged`]: only [`drop`] is then to be called.
    ///
    /// ```
    /// use peachanchor::{Error, Kind, Level, Pools};
    /// let pools = Pools::open(Level::Four, 1, &[Kind { most: 2, len: 64 }])?;
    /// assert_eq!((pools.check(0), pools.check(1)), (Ok(()), Err(Error::Stale)));
    /// # Ok::<(), peachanchor::Error>(())
    /// ```
    pub fn check(&self, part: u32) -> Result<(), Error> {
        let (mut from, mut next, mut damaged) = (0, 0, 0);
        loop {
            // SAFETY: rules 1 and 3: both numbers lie on this stack.
            let answer = unsafe { sys::tlsf_pools_check(self.handle.get(), part, from, 1024, &mut next, &mut damaged) };
            Error::check(answer)?;
            if next == 0 {
                return Ok(());
            }
            from = next;
        }
    }
}

impl Drop for Pools {
    fn drop(&mut self) {
        // SAFETY: rule 1: nobody else reaches the handle.
        if unsafe { sys::tlsf_pools_close(self.handle.get()) } != sys::TLSF_OK {
            self.handle.keep();
        }
    }
}

#[cfg(test)]
mod tests {
    use super::{sys, Error, Kind, Level, Pools};

    // More blocks than one call of a check looks at. No pointer of a safe call reaches a payload here, so the handle tells where it is.
    #[test]
    fn an_overrun_is_told_in_its_part() {
        const MANY: u32 = 3000;
        let table = [Kind { most: MANY, len: 16 }, Kind { most: 1, len: 100_000 }];
        let mut pools = Pools::open(Level::Four, 1, &table).unwrap();
        let last = (0..MANY).map(|_| pools.allocate(16).unwrap()).last().unwrap();
        pools.allocate(100_000).unwrap();
        assert_eq!([0, 1, 2].map(|part| pools.check(part)), [Ok(()), Ok(()), Err(Error::Stale)]);
        let (mut base, mut number) = (core::ptr::null_mut(), 0);
        // SAFETY: none: it is what `check` has to tell.
        unsafe {
            assert_eq!(sys::tlsf_pools_part(pools.handle.get(), 0, &mut base, &mut number), sys::TLSF_OK);
            base.add(last.0.at as usize + 2).write(u64::MAX);
        }
        assert_eq!([0, 1].map(|part| pools.check(part)), [Err(Error::Damaged), Ok(())]);
    }
}
