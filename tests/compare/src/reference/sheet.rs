//! "Sheet bytes" and "Refusals", with request #101's lags, #104's greatest measure, #105's walkway and #106's pieces that may be turned: reading
//! and writing instances, and the records of their items.

use std::ops::Range;

pub const MOST_ITEMS: usize = 10;
pub const MOST_PRECEDENCES: usize = 90;
/// "Make 4,095 the greatest measure of halls and pieces."
pub const GREATEST_MEASURE: u32 = 4095;
/// "The longest sheet is 352 bytes"
pub const LONGEST_SHEET: usize = 352;

/// A number of the table of refusals, with the place that is returned beside it.
#[derive(Clone, Copy, PartialEq, Eq, Debug)]
pub struct Refusal {
    pub number: u32,
    pub place: usize,
}

pub fn refuse<T>(number: u32, place: usize) -> Result<T, Refusal> {
    Err(Refusal { number, place })
}

#[derive(Clone, PartialEq, Eq, Debug)]
pub struct Instance {
    /// Width, depth, shifts.
    pub container: [u32; 3],
    pub items: Vec<[u32; 3]>,
    /// One for each item.
    pub may_turn: Vec<bool>,
    pub precedences: Vec<(usize, usize)>,
    /// "one .. for each order in its sequence"
    pub lags: Vec<u32>,
    pub yard_number: u32,
    /// "left out means 0 and pieces may touch"
    pub walkway: u32,
}

impl Instance {
    /// The lag of the order u, v; 0 where the sheet has no such order.
    pub fn lag(&self, u: usize, v: usize) -> u32 {
        let at = self.precedences.iter().position(|&order| order == (u, v));
        at.map_or(0, |at| self.lags[at])
    }
}

/// What is left to read: "Reading goes left to right and gives the first fault".
struct Reader<'a> {
    sheet: &'a [u8],
    at: usize,
}

impl Reader<'_> {
    fn byte(&mut self) -> Result<u8, Refusal> {
        // 1: "it ends before a byte that is due, the first map byte included"
        match self.sheet.get(self.at) {
            None => refuse(1, self.sheet.len()),
            Some(&byte) => {
                self.at += 1;
                Ok(byte)
            }
        }
    }

    /// "A field .. is judged once all its bytes are read": 3 where it is below `least`.
    fn field(&mut self, least: u32) -> Result<u32, Refusal> {
        let place = self.at;
        let low = self.byte()? as u32;
        let high = self.byte()? as u32;
        let value = low + 256 * high;
        if value < least {
            return refuse(3, place);
        }
        Ok(value)
    }

    /// 12: "a written measure above 4,095, at the field's place, after 3"
    fn measure(&mut self) -> Result<u32, Refusal> {
        let place = self.at;
        let measure = self.field(2)?;
        if measure > GREATEST_MEASURE {
            return refuse(12, place);
        }
        Ok(measure)
    }

    /// 2: "a bit stands that has no meaning". The first map byte has none without one.
    fn map(&mut self, bits: usize) -> Result<Vec<bool>, Refusal> {
        let place = self.at;
        let byte = self.byte()?;
        let standing: Vec<bool> = (0..8).map(|bit| byte & (1 << bit) != 0).collect();
        if standing[bits..].contains(&true) {
            return refuse(2, place);
        }
        Ok(standing)
    }

    /// "bits 0, 1, 2: width, depth, shifts", "left out means 1"
    fn size(&mut self, standing: &[bool]) -> Result<[u32; 3], Refusal> {
        let mut size = [1; 3];
        for axis in 0..3 {
            if standing[axis] {
                size[axis] = self.measure()?;
            }
        }
        Ok(size)
    }

    /// 4: "count 0, over 10 pieces, over 90 orders"
    fn count(&mut self, most: usize) -> Result<usize, Refusal> {
        let place = self.at;
        let count = self.byte()? as usize;
        if count == 0 || count > most {
            return refuse(4, place);
        }
        Ok(count)
    }

    /// "one byte for each order in its sequence"; 11: "a lag field in which no lag is above 0, an empty field included, at its first byte's
    /// place, after its bytes are read and, when it is empty, before anything that follows it"
    fn lags(&mut self, orders: usize) -> Result<Vec<u32>, Refusal> {
        let place = self.at;
        let mut lags = Vec::new();
        for _ in 0..orders {
            lags.push(self.byte()? as u32);
        }
        if lags.iter().all(|&lag| lag == 0) {
            return refuse(11, place);
        }
        Ok(lags)
    }

    /// "its width, one byte, 1 to 255"; "3 covers a written width of 0"
    fn walkway(&mut self) -> Result<u32, Refusal> {
        let place = self.at;
        let width = self.byte()? as u32;
        if width == 0 {
            return refuse(3, place);
        }
        Ok(width)
    }
}

/// The instance, and the part of the sheet that is each item's record.
pub fn read_with_records(sheet: &[u8]) -> Result<(Instance, Vec<Range<usize>>), Refusal> {
    let mut reader = Reader { sheet, at: 0 };
    let standing = reader.map(8)?;
    let container = reader.size(&standing)?;
    let (mut items, mut may_turn) = (Vec::new(), Vec::new());
    let mut records = Vec::new();
    if standing[3] {
        for _ in 0..reader.count(MOST_ITEMS)? {
            let start = reader.at;
            // "Bit 3 of a piece's map, with no field"
            let standing = reader.map(4)?;
            items.push(reader.size(&standing)?);
            may_turn.push(standing[3]);
            records.push(start..reader.at);
        }
    }
    let mut precedences: Vec<(usize, usize)> = Vec::new();
    if standing[4] {
        for _ in 0..reader.count(MOST_PRECEDENCES)? {
            let place = reader.at;
            let u = reader.byte()? as usize;
            let v = reader.byte()? as usize;
            if !names_items(items.len(), (u, v)) {
                return refuse(5, place);
            }
            if precedences.last().is_some_and(|&last| (u, v) <= last) {
                return refuse(6, place);
            }
            precedences.push((u, v));
        }
    }
    let yard_number = if standing[5] { reader.field(1)? } else { 0 };
    // "The field follows the yard number"; "left out, they are all 0"
    let lags = if standing[6] { reader.lags(precedences.len())? } else { vec![0; precedences.len()] };
    // "last on the sheet"
    let walkway = if standing[7] { reader.walkway()? } else { 0 };
    if reader.at < sheet.len() {
        return refuse(7, reader.at);
    }
    let instance = Instance { container, items, may_turn, precedences, lags, yard_number, walkway };
    Ok((instance, records))
}

/// Not 5: "a piece not on the sheet, or u = v in an order".
pub fn names_items(items: usize, (u, v): (usize, usize)) -> bool {
    u < items && v < items && u != v
}

pub fn read(sheet: &[u8]) -> Result<Instance, Refusal> {
    read_with_records(sheet).map(|(instance, _)| instance)
}

/// "a piece's record, map byte and fields, is handed out as that part of the lent sheet itself"
pub fn item_record(sheet: &[u8], item: usize) -> Result<&[u8], Refusal> {
    let (_, records) = read_with_records(sheet)?;
    match records.get(item) {
        None => refuse(5, 0),
        Some(record) => Ok(&sheet[record.clone()]),
    }
}

/// The map's low three bits, and the fields.
fn size_bytes(size: &[u32; 3]) -> (u8, Vec<u8>) {
    let mut map = 0;
    let mut fields = Vec::new();
    for axis in 0..3 {
        if size[axis] > 1 {
            map |= 1 << axis;
            fields.extend((size[axis] as u16).to_le_bytes());
        }
    }
    (map, fields)
}

/// "A map byte comes first, then only the fields whose bit stands, by rising bit."
pub fn encode(instance: &Instance) -> Vec<u8> {
    let (mut map, mut fields) = size_bytes(&instance.container);
    if !instance.items.is_empty() {
        map |= 8;
        fields.push(instance.items.len() as u8);
        for (size, &may_turn) in instance.items.iter().zip(&instance.may_turn) {
            let (bits, measures) = size_bytes(size);
            fields.push(if may_turn { bits | 8 } else { bits });
            fields.extend(measures);
        }
    }
    if !instance.precedences.is_empty() {
        map |= 16;
        fields.push(instance.precedences.len() as u8);
        for &(u, v) in &instance.precedences {
            fields.extend([u as u8, v as u8]);
        }
    }
    if instance.yard_number != 0 {
        map |= 32;
        fields.extend((instance.yard_number as u16).to_le_bytes());
    }
    if instance.lags.iter().any(|&lag| lag > 0) {
        map |= 64;
        fields.extend(instance.lags.iter().map(|&lag| lag as u8));
    }
    if instance.walkway > 0 {
        map |= 128;
        fields.push(instance.walkway as u8);
    }
    fields.insert(0, map);
    fields
}

/// "Writing returns the sheet's length, and fills that many bytes and no byte after them."
pub fn write(instance: &Instance, room: &mut [u8]) -> Result<usize, Refusal> {
    let sheet = encode(instance);
    if room.len() < sheet.len() {
        return refuse(8, 0);
    }
    room[..sheet.len()].copy_from_slice(&sheet);
    Ok(sheet.len())
}
