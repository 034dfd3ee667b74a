//! Lines of fields, read: what the text of a grid and the text of a mesh share.

/// The text that is not read yet, and the number of lines read.
pub(crate) struct Lines<'a> {
    rest: &'a [u8],
    read: usize,
}

impl<'a> Lines<'a> {
    /// No line of the text is read.
    pub(crate) fn of(text: &'a [u8]) -> Lines<'a> {
        Lines {
            rest: text,
            read: 0,
        }
    }

    /// What `parse` takes the next line for, without its LF; the number of the
    /// line if it has no LF or `parse` does not take it.
    pub(crate) fn next<T>(
        &mut self,
        parse: impl FnOnce(&'a [u8]) -> Option<T>,
    ) -> Result<T, usize> {
        self.read += 1;
        self.cut().and_then(parse).ok_or(self.read)
    }

    /// The bytes up to the next LF.
    fn cut(&mut self) -> Option<&'a [u8]> {
        let end = self.rest.iter().position(|&byte| byte == b'\n')?;
        let line = &self.rest[..end];
        self.rest = &self.rest[end + 1..];
        Some(line)
    }

    /// Nothing follows the lines read; else the number after theirs.
    pub(crate) fn end(&self) -> Result<(), usize> {
        if self.rest.is_empty() {
            Ok(())
        } else {
            Err(self.read + 1)
        }
    }
}

/// "fields parted by tabs"
pub(crate) fn fields(line: &[u8]) -> impl Iterator<Item = &[u8]> {
    line.split(|&byte| byte == b'\t')
}

/// The fields after the letter of a line that starts with this letter and has
/// `COUNT` fields more.
pub(crate) fn fields_after<const COUNT: usize>(letter: u8, line: &[u8]) -> Option<[&[u8]; COUNT]> {
    let mut fields = fields(line);
    if fields.next()? != [letter] {
        return None;
    }
    let mut after = [&[][..]; COUNT];
    for field in &mut after {
        *field = fields.next()?;
    }
    fields.next().is_none().then_some(after)
}

/// "Numbers have no sign and no needless zero": a number that `N` holds.
pub(crate) fn number<N: TryFrom<u64>>(field: &[u8]) -> Option<N> {
    if field.is_empty() || !field.iter().all(u8::is_ascii_digit) {
        return None;
    }
    if field[0] == b'0' && field.len() > 1 {
        return None;
    }
    let value = field.iter().try_fold(0_u64, |value, digit| {
        value.checked_mul(10)?.checked_add(u64::from(digit - b'0'))
    })?;
    N::try_from(value).ok()
}

/// The numbers of these fields, if each of them is one.
pub(crate) fn numbers<N: TryFrom<u64> + Default + Copy, const COUNT: usize>(
    fields: [&[u8]; COUNT],
) -> Option<[N; COUNT]> {
    let mut list = [N::default(); COUNT];
    for (place, field) in list.iter_mut().zip(fields) {
        *place = number(field)?;
    }
    Some(list)
}
