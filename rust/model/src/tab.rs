//! A tab by the grammar of RFC 4180, widened as requests 1 and 6 say: a line ends in LF or CRLF, no bytes are a tab.
//!
//! A line is read by the grammar alone, whatever its fields are. Only then it is asked whether they are the
//! header's or three numbers.

/// Level, moves, goal.
pub type Row = [u32; 3];

/// What a reading gives: the rows up to the first one that is malformed.
#[derive(Clone, Debug, PartialEq, Eq)]
pub struct Reading {
    pub rows: Vec<Row>,
    /// The header is there, and no row is malformed; or there are no bytes at all.
    pub whole: bool,
}

/// "A header `level,moves,goal`, then rows, if any, of three decimal numbers below 2^32"; by request 6 also "a file of no
/// bytes", which has no row.
pub fn read_tab(tab: &[u8]) -> Reading {
    let mut reading = Reading {
        rows: Vec::new(),
        whole: tab.is_empty(),
    };
    let Some((header, mut rest)) = read_line(tab) else {
        return reading;
    };
    if header != [b"level".as_slice(), b"moves", b"goal"] {
        return reading;
    }
    // "The last ending optional and opening no row": where nothing is left, there is no row.
    while !rest.is_empty() {
        let Some((fields, behind)) = read_line(rest) else {
            return reading;
        };
        let Some(row) = row_of(&fields) else {
            return reading;
        };
        reading.rows.push(row);
        rest = behind;
    }
    reading.whole = true;
    reading
}

/// Where in a line the next byte stands.
enum Place {
    FieldStart,
    /// In `non-escaped = *TEXTDATA`, behind its first byte.
    Plain,
    /// In `escaped = DQUOTE *(TEXTDATA / COMMA / CR / LF / 2DQUOTE) DQUOTE`, behind the first quote.
    Quoted,
    /// There, behind another quote: it is the last one or the first of two.
    SecondQuote,
    /// Behind the CR of a CRLF.
    Return,
}

/// `record = field *(COMMA field)`: the values of the fields of the first line, and the text behind its ending.
/// Nothing if the text does not begin with a line.
fn read_line(text: &[u8]) -> Option<(Vec<Vec<u8>>, &[u8])> {
    use Place::*;
    let mut fields = Vec::new();
    let mut field = Vec::new();
    let mut place = FieldStart;
    for (at, &byte) in text.iter().enumerate() {
        place = match (place, byte) {
            (Quoted, b'"') => SecondQuote,
            (Quoted, b',' | b'\r' | b'\n') | (SecondQuote, b'"') => {
                field.push(byte);
                Quoted
            }
            (Quoted, _) if is_text_data(byte) => {
                field.push(byte);
                Quoted
            }
            (FieldStart, b'"') => Quoted,
            (FieldStart | Plain, _) if is_text_data(byte) => {
                field.push(byte);
                Plain
            }
            (FieldStart | Plain | SecondQuote, b',') => {
                fields.push(std::mem::take(&mut field));
                FieldStart
            }
            (FieldStart | Plain | SecondQuote, b'\r') => Return,
            (FieldStart | Plain | SecondQuote | Return, b'\n') => {
                fields.push(field);
                return Some((fields, &text[at + 1..]));
            }
            _ => return None,
        };
    }
    match place {
        Quoted | Return => None,
        FieldStart | Plain | SecondQuote => {
            fields.push(field);
            Some((fields, &[]))
        }
    }
}

/// `TEXTDATA = %x20-21 / %x23-2B / %x2D-7E`
fn is_text_data(byte: u8) -> bool {
    matches!(byte, 0x20..=0x21 | 0x23..=0x2B | 0x2D..=0x7E)
}

fn row_of(fields: &[Vec<u8>]) -> Option<Row> {
    match fields {
        [level, moves, goal] => Some([number(level)?, number(moves)?, number(goal)?]),
        _ => None,
    }
}

/// "Decimal numbers below 2^32, leading zeros allowed", however many.
fn number(digits: &[u8]) -> Option<u32> {
    if digits.is_empty() || !digits.iter().all(u8::is_ascii_digit) {
        return None;
    }
    digits.iter().try_fold(0u32, |value, digit| {
        value.checked_mul(10)?.checked_add(u32::from(digit - b'0'))
    })
}
