//! Records of rows, kinds 10 and 11 of `inspect`, as the crate's records. The crate has no record with a place outside the bytes, and none with a topic that is
//! not UTF-8: such rows are played in C alone.

use pradulins::Record;

/// Where something stands: its start and its end.
type Span = (u64, u64);

/// A row as it stands in a record.
struct Row {
    kind: u8,
    own: Span,
    number: Option<u64>,
    fields: [Option<Span>; 5],
}

/// The content of a record of rows.
pub struct Lists<'a> {
    /// How many bytes are lent to write to.
    pub room: usize,
    rows: Vec<Row>,
    bytes: &'a [u8],
}

/// The numbers of a record, the lowest byte first, from its front on.
struct Reader<'a>(&'a [u8]);

impl Reader<'_> {
    fn number(&mut self, size: usize) -> Option<u64> {
        let number = self.0.get(..size)?.iter().rev().fold(0, |v, byte| v << 8 | u64::from(*byte));
        self.0 = &self.0[size..];
        Some(number)
    }

    fn span(&mut self) -> Option<Span> {
        Some((self.number(8)?, self.number(8)?))
    }

    fn row(&mut self) -> Option<Row> {
        let (kind, mask) = (self.number(1)? as u8, self.number(1)?);
        if mask > 63 {
            return None;
        }
        let mut row = Row { kind, own: self.span()?, number: None, fields: [None; 5] };
        if mask & 1 == 1 {
            row.number = Some(self.number(8)?);
        }
        for (i, field) in row.fields.iter_mut().enumerate() {
            if mask >> (i + 1) & 1 == 1 {
                *field = Some(self.span()?);
            }
        }
        Some(row)
    }
}

/// The content of a record; nothing where it is none.
pub fn lists(content: &[u8]) -> Option<Lists<'_>> {
    let mut reader = Reader(content);
    let (room, count) = (reader.number(4)?, reader.number(2)?);
    if room > 65600 || count > 640 {
        return None;
    }
    let rows = (0..count).map(|_| reader.row()).collect::<Option<Vec<_>>>()?;
    Some(Lists { room: room as usize, rows, bytes: reader.0 })
}

impl<'a> Lists<'a> {
    /// The records that the rows are; nothing where the crate does not have one of them.
    pub fn records(&self) -> Option<Vec<Record<'a>>> {
        self.rows.iter().map(|row| record(row, self.bytes)).collect()
    }
}

/// The bytes at a place that counts from `base`.
fn part(bytes: &[u8], base: u64, (start, end): Span) -> Option<&[u8]> {
    bytes.get(usize::try_from(base.checked_add(start)?).ok()?..usize::try_from(base.checked_add(end)?).ok()?)
}

fn record<'a>(row: &Row, bytes: &'a [u8]) -> Option<Record<'a>> {
    let own = part(bytes, 0, row.own)?;
    let field = |i: usize| row.fields[i].map_or(Some(None), |span| part(bytes, row.own.0, span).map(Some));
    let text = |bytes: &'a [u8]| std::str::from_utf8(bytes).ok();
    let topic_id = || field(0)?.map_or(Some(None), |bytes| text(bytes).map(Some));
    Some(match row.kind {
        1 => Record::SubOpts { subscribe: row.number.map(|number| number != 0), topic_id: topic_id()? },
        2 => Record::Message { raw: own, from: field(0)?, data: field(1)?, seqno: field(2)?, signature: field(3)?, key: field(4)? },
        3 => Record::Topic(text(own)?),
        5 => Record::IHave { topic_id: topic_id()? },
        6 => Record::IWant,
        7 => Record::MessageId(own),
        8 => Record::Graft { topic_id: topic_id()? },
        9 => Record::Prune { topic_id: topic_id()?, backoff: row.number },
        10 => Record::PeerInfo { peer_id: field(0)?, signed_peer_record: field(1)? },
        11 => Record::IDontWant,
        _ => return None,
    })
}
