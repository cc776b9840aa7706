//! A comma-separated tab, read in place from field to field.

/// The bytes not read yet.
pub struct Tab<'a> {
    rest: &'a [u8],
}

impl<'a> Tab<'a> {
    /// Behind the header; nothing if it is missing.
    pub fn behind_header(bytes: &'a [u8]) -> Option<Tab<'a>> {
        let mut tab = Tab { rest: bytes };
        tab.name(b"level")?;
        tab.byte(b',')?;
        tab.name(b"moves")?;
        tab.byte(b',')?;
        tab.name(b"goal")?;
        tab.line_end()?;
        Some(tab)
    }

    pub fn at_end(&self) -> bool {
        self.rest.is_empty()
    }

    /// The three numbers of the next line; nothing if it is malformed.
    #[inline]
    pub fn row(&mut self) -> Option<[u32; 3]> {
        let level = self.number()?;
        self.byte(b',')?;
        let moves = self.number()?;
        self.byte(b',')?;
        let goal = self.number()?;
        self.line_end()?;
        Some([level, moves, goal])
    }

    /// A name, quoted or not.
    fn name(&mut self, name: &[u8]) -> Option<()> {
        let quoted = self.byte(b'"').is_some();
        self.rest = self.rest.strip_prefix(name)?;
        self.closed(quoted)
    }

    /// A decimal number below 2^32, quoted or not, with any number of leading zeros.
    #[inline]
    fn number(&mut self) -> Option<u32> {
        let quoted = self.byte(b'"').is_some();
        let mut value = u64::from(self.digit()?);
        while let Some(digit) = self.digit() {
            value = value * 10 + u64::from(digit);
            if value > u64::from(u32::MAX) {
                return None;
            }
        }
        self.closed(quoted)?;
        Some(value as u32)
    }

    #[inline]
    fn digit(&mut self) -> Option<u8> {
        let (&byte, rest) = self.rest.split_first()?;
        let digit = byte.wrapping_sub(b'0');
        if digit > 9 {
            return None;
        }
        self.rest = rest;
        Some(digit)
    }

    fn closed(&mut self, quoted: bool) -> Option<()> {
        if quoted {
            self.byte(b'"')
        } else {
            Some(())
        }
    }

    fn byte(&mut self, wanted: u8) -> Option<()> {
        let (&byte, rest) = self.rest.split_first()?;
        if byte != wanted {
            return None;
        }
        self.rest = rest;
        Some(())
    }

    /// LF, CRLF or the end of the tab.
    fn line_end(&mut self) -> Option<()> {
        match self.rest {
            [] => {}
            [b'\n', rest @ ..] | [b'\r', b'\n', rest @ ..] => self.rest = rest,
            _ => return None,
        }
        Some(())
    }
}
