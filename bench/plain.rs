//! The frame reader and writer as an ordinary careful Rust programmer writes them: slices with their
//! bounds checks, enums, `Result` and `?`. Nothing here is proved; the benchmark compares it, answer for
//! answer, with the proved library.

#[derive(Clone, Copy, Debug, PartialEq)]
pub enum FaultKind {
    FrameSize = 20,
    Nodes = 21,
    Stamp = 22,
    MessageType = 23,
    Identifier = 24,
    Length = 25,
    Contents = 26,
    Trailing = 27,
    Buffer = 28,
}

#[derive(Clone, Copy, Debug, PartialEq)]
pub struct Fault {
    pub kind: FaultKind,
    pub place: usize,
}

fn fault<T>(kind: FaultKind, place: usize) -> Result<T, Fault> {
    Err(Fault { kind, place })
}

#[derive(Clone, Copy, Debug, PartialEq)]
pub struct Imsi {
    pub digits: u8,
    pub value: u64,
}

type Area = [u8; 5];

#[derive(Clone, Copy, Debug, PartialEq)]
pub enum Cause {
    NotAttached = 1,
    MovedToAnotherVlr = 2,
}

#[derive(Clone, Copy, Debug, PartialEq)]
pub enum UpdateType {
    ImsiAttach = 1,
    Normal = 2,
}

#[derive(Clone, Copy, Debug, PartialEq)]
pub enum Class {
    A = 1,
    B = 2,
}

#[derive(Clone, Copy, Debug, PartialEq)]
pub enum GprsDetachType {
    ByNetwork = 1,
    ByMobile = 2,
}

#[derive(Clone, Copy, Debug, PartialEq)]
pub enum ImsiDetachType {
    Unacknowledged = 1,
    Acknowledged = 2,
}

#[derive(Clone, Copy, Debug, PartialEq)]
pub enum Message {
    Paging { imsi: Imsi, tmsi: Option<u32>, channel: Option<u8> },
    PagingFailure { imsi: Imsi, cause: Cause },
    MobileStatus { imsi: Imsi, cause: Cause },
    LuRequest { imsi: Imsi, update: UpdateType, old_area: Area, new_area: Area, class: Class },
    LuAccept { imsi: Imsi, new_area: Area },
    LuReject { imsi: Imsi, cause: u8 },
    Reset { entity: u8 },
    ResetAcknowledge { entity: u8 },
    GprsDetachIndication { imsi: Imsi, detach: GprsDetachType },
    GprsDetachAcknowledge { imsi: Imsi, detach: GprsDetachType },
    ImsiDetachIndication { imsi: Imsi, detach: ImsiDetachType },
    ImsiDetachAcknowledge { imsi: Imsi, detach: ImsiDetachType },
}

#[derive(Clone, Copy, Debug, PartialEq)]
pub struct Frame {
    pub source: u8,
    pub destination: u8,
    pub stamp: u32,
    pub answers: u32,
    pub message: Message,
}

const IMSI: u8 = 0x01;
const TMSI: u8 = 0x02;
const CAUSE: u8 = 0x03;
const UPDATE_TYPE: u8 = 0x04;
const OLD_AREA: u8 = 0x05;
const NEW_AREA: u8 = 0x06;
const CLASS: u8 = 0x07;
const REJECT_CAUSE: u8 = 0x08;
const GPRS_DETACH_TYPE: u8 = 0x09;
const IMSI_DETACH_TYPE: u8 = 0x0A;
const ENTITY: u8 = 0x0B;
const CHANNEL: u8 = 0x0C;

fn lawful_node(number: u8) -> bool {
    (1..=254).contains(&number)
}

fn cause(octet: u8) -> Option<Cause> {
    match octet {
        1 => Some(Cause::NotAttached),
        2 => Some(Cause::MovedToAnotherVlr),
        _ => None,
    }
}

fn update_type(octet: u8) -> Option<UpdateType> {
    match octet {
        1 => Some(UpdateType::ImsiAttach),
        2 => Some(UpdateType::Normal),
        _ => None,
    }
}

fn class(octet: u8) -> Option<Class> {
    match octet {
        1 => Some(Class::A),
        2 => Some(Class::B),
        _ => None,
    }
}

fn gprs_detach_type(octet: u8) -> Option<GprsDetachType> {
    match octet {
        1 => Some(GprsDetachType::ByNetwork),
        2 => Some(GprsDetachType::ByMobile),
        _ => None,
    }
}

fn imsi_detach_type(octet: u8) -> Option<ImsiDetachType> {
    match octet {
        1 => Some(ImsiDetachType::Unacknowledged),
        2 => Some(ImsiDetachType::Acknowledged),
        _ => None,
    }
}

fn reject_cause(octet: u8) -> Option<u8> {
    (octet != 0).then_some(octet)
}

fn entity(octet: u8) -> Option<u8> {
    lawful_node(octet).then_some(octet)
}

// ---- reading ----

struct Reader<'a> {
    octets: &'a [u8],
    at: usize,
}

impl<'a> Reader<'a> {
    fn is_next(&self, identifier: u8) -> bool {
        self.octets.get(self.at) == Some(&identifier)
    }

    /// The contents of the next element, and the place where they begin.
    fn element(&mut self, identifier: u8, least: usize, most: usize) -> Result<(&'a [u8], usize), Fault> {
        let at = self.at;
        if !self.is_next(identifier) {
            return fault(FaultKind::Identifier, at);
        }
        let Some(&count) = self.octets.get(at + 1) else {
            return fault(FaultKind::Length, at + 1);
        };
        let count = count as usize;
        if count < least || count > most {
            return fault(FaultKind::Length, at + 1);
        }
        let Some(contents) = self.octets.get(at + 2..at + 2 + count) else {
            return fault(FaultKind::Length, at + 1);
        };
        self.at = at + 2 + count;
        Ok((contents, at + 2))
    }

    fn coded<T>(&mut self, identifier: u8, from_octet: impl Fn(u8) -> Option<T>) -> Result<T, Fault> {
        let (contents, place) = self.element(identifier, 1, 1)?;
        from_octet(contents[0]).ok_or(Fault { kind: FaultKind::Contents, place })
    }

    fn imsi(&mut self) -> Result<Imsi, Fault> {
        let (contents, place) = self.element(IMSI, 1, 8)?;
        imsi_in(contents).ok_or(Fault { kind: FaultKind::Contents, place })
    }

    fn tmsi(&mut self) -> Result<Option<u32>, Fault> {
        if !self.is_next(TMSI) {
            return Ok(None);
        }
        let (contents, _) = self.element(TMSI, 4, 4)?;
        Ok(Some(u32::from_be_bytes(contents.try_into().unwrap())))
    }

    fn channel(&mut self) -> Result<Option<u8>, Fault> {
        if !self.is_next(CHANNEL) {
            return Ok(None);
        }
        let number = self.coded(CHANNEL, |octet| (octet <= 3).then_some(octet))?;
        Ok(Some(number))
    }

    fn area(&mut self, identifier: u8) -> Result<Area, Fault> {
        let (contents, _) = self.element(identifier, 5, 5)?;
        Ok(contents.try_into().unwrap())
    }

    fn end(&self) -> Result<(), Fault> {
        if self.at < self.octets.len() {
            return fault(FaultKind::Trailing, self.at);
        }
        Ok(())
    }
}

fn imsi_in(contents: &[u8]) -> Option<Imsi> {
    let (first, rest) = contents.split_first()?;
    let odd = match first & 0x0F {
        9 => true,
        1 => false,
        _ => return None,
    };
    let mut digits = 0u8;
    let mut value = 0u64;
    let mut push = |half: u8| {
        if half > 9 {
            return None;
        }
        digits += 1;
        value = value * 10 + half as u64;
        Some(())
    };
    if odd {
        push(first >> 4)?;
        for octet in rest {
            push(octet & 0x0F)?;
            push(octet >> 4)?;
        }
    } else {
        let (last, middle) = rest.split_last()?;
        if last >> 4 != 0x0F {
            return None;
        }
        push(first >> 4)?;
        for octet in middle {
            push(octet & 0x0F)?;
            push(octet >> 4)?;
        }
        push(last & 0x0F)?;
    }
    Some(Imsi { digits, value })
}

fn read_message(octets: &[u8], at: usize) -> Result<Message, Fault> {
    let Some(&type_octet) = octets.get(at) else {
        return fault(FaultKind::MessageType, at);
    };
    let mut reader = Reader { octets, at: at + 1 };
    let message = match type_octet {
        0x00 => {
            let imsi = reader.imsi()?;
            let tmsi = reader.tmsi()?;
            let channel = reader.channel()?;
            Message::Paging { imsi, tmsi, channel }
        }
        0x01 => Message::PagingFailure { imsi: reader.imsi()?, cause: reader.coded(CAUSE, cause)? },
        0x02 => Message::MobileStatus { imsi: reader.imsi()?, cause: reader.coded(CAUSE, cause)? },
        0x06 => Message::LuRequest {
            imsi: reader.imsi()?,
            update: reader.coded(UPDATE_TYPE, update_type)?,
            old_area: reader.area(OLD_AREA)?,
            new_area: reader.area(NEW_AREA)?,
            class: reader.coded(CLASS, class)?,
        },
        0x07 => Message::LuAccept { imsi: reader.imsi()?, new_area: reader.area(NEW_AREA)? },
        0x08 => Message::LuReject { imsi: reader.imsi()?, cause: reader.coded(REJECT_CAUSE, reject_cause)? },
        0x09 => Message::Reset { entity: reader.coded(ENTITY, entity)? },
        0x0A => Message::ResetAcknowledge { entity: reader.coded(ENTITY, entity)? },
        0x0E => Message::GprsDetachIndication {
            imsi: reader.imsi()?,
            detach: reader.coded(GPRS_DETACH_TYPE, gprs_detach_type)?,
        },
        0x0F => Message::GprsDetachAcknowledge {
            imsi: reader.imsi()?,
            detach: reader.coded(GPRS_DETACH_TYPE, gprs_detach_type)?,
        },
        0x11 => Message::ImsiDetachIndication {
            imsi: reader.imsi()?,
            detach: reader.coded(IMSI_DETACH_TYPE, imsi_detach_type)?,
        },
        0x12 => Message::ImsiDetachAcknowledge {
            imsi: reader.imsi()?,
            detach: reader.coded(IMSI_DETACH_TYPE, imsi_detach_type)?,
        },
        _ => return fault(FaultKind::MessageType, at),
    };
    reader.end()?;
    Ok(message)
}

fn number(octets: &[u8]) -> u32 {
    u32::from_be_bytes(octets.try_into().unwrap())
}

pub fn read_frame(octets: &[u8]) -> Result<Frame, Fault> {
    if octets.len() < 11 {
        return fault(FaultKind::FrameSize, octets.len());
    }
    if octets.len() > 64 {
        return fault(FaultKind::FrameSize, 64);
    }
    let (source, destination) = (octets[0], octets[1]);
    if !lawful_node(source) {
        return fault(FaultKind::Nodes, 0);
    }
    if !lawful_node(destination) {
        return fault(FaultKind::Nodes, 1);
    }
    if source == destination {
        return fault(FaultKind::Nodes, 0);
    }
    let stamp = number(&octets[2..6]);
    if stamp == 0 {
        return fault(FaultKind::Stamp, 2);
    }
    let answers = number(&octets[6..10]);
    let message = read_message(octets, 10)?;
    Ok(Frame { source, destination, stamp, answers, message })
}

// ---- writing ----

fn lawful_imsi(imsi: &Imsi) -> bool {
    (1..=15).contains(&imsi.digits) && imsi.value < 10u64.pow(imsi.digits as u32)
}

fn lawful_message(message: &Message) -> bool {
    match message {
        Message::Paging { imsi, channel, .. } => lawful_imsi(imsi) && channel.is_none_or(|number| number <= 3),
        Message::LuReject { imsi, cause } => lawful_imsi(imsi) && *cause != 0,
        Message::Reset { entity } | Message::ResetAcknowledge { entity } => lawful_node(*entity),
        Message::PagingFailure { imsi, .. }
        | Message::MobileStatus { imsi, .. }
        | Message::LuRequest { imsi, .. }
        | Message::LuAccept { imsi, .. }
        | Message::GprsDetachIndication { imsi, .. }
        | Message::GprsDetachAcknowledge { imsi, .. }
        | Message::ImsiDetachIndication { imsi, .. }
        | Message::ImsiDetachAcknowledge { imsi, .. } => lawful_imsi(imsi),
    }
}

struct Writer<'a> {
    buffer: &'a mut [u8],
    at: usize,
}

impl Writer<'_> {
    fn put(&mut self, octets: &[u8]) {
        self.buffer[self.at..self.at + octets.len()].copy_from_slice(octets);
        self.at += octets.len();
    }

    fn octet(&mut self, identifier: u8, octet: u8) {
        self.put(&[identifier, 1, octet]);
    }

    fn area(&mut self, identifier: u8, area: &Area) {
        self.put(&[identifier, 5]);
        self.put(area);
    }

    fn imsi(&mut self, imsi: &Imsi) {
        let count = imsi.digits as usize / 2 + 1;
        let mut halves = [0x0Fu8; 16];
        halves[0] = if imsi.digits % 2 == 1 { 9 } else { 1 };
        let mut left = imsi.value;
        for half in halves[1..=imsi.digits as usize].iter_mut().rev() {
            *half = (left % 10) as u8;
            left /= 10;
        }
        self.put(&[IMSI, count as u8]);
        for pair in halves[..2 * count].chunks_exact(2) {
            self.buffer[self.at] = pair[0] | pair[1] << 4;
            self.at += 1;
        }
    }

    fn imsi_and(&mut self, imsi: &Imsi, identifier: u8, octet: u8) {
        self.imsi(imsi);
        self.octet(identifier, octet);
    }
}

fn type_octet(message: &Message) -> u8 {
    match message {
        Message::Paging { .. } => 0x00,
        Message::PagingFailure { .. } => 0x01,
        Message::MobileStatus { .. } => 0x02,
        Message::LuRequest { .. } => 0x06,
        Message::LuAccept { .. } => 0x07,
        Message::LuReject { .. } => 0x08,
        Message::Reset { .. } => 0x09,
        Message::ResetAcknowledge { .. } => 0x0A,
        Message::GprsDetachIndication { .. } => 0x0E,
        Message::GprsDetachAcknowledge { .. } => 0x0F,
        Message::ImsiDetachIndication { .. } => 0x11,
        Message::ImsiDetachAcknowledge { .. } => 0x12,
    }
}

fn put_message(writer: &mut Writer, message: &Message) {
    writer.put(&[type_octet(message)]);
    match message {
        Message::Paging { imsi, tmsi, channel } => {
            writer.imsi(imsi);
            if let Some(number) = tmsi {
                writer.put(&[TMSI, 4]);
                writer.put(&number.to_be_bytes());
            }
            if let Some(number) = channel {
                writer.octet(CHANNEL, *number);
            }
        }
        Message::PagingFailure { imsi, cause } | Message::MobileStatus { imsi, cause } => {
            writer.imsi_and(imsi, CAUSE, *cause as u8)
        }
        Message::LuRequest { imsi, update, old_area, new_area, class } => {
            writer.imsi(imsi);
            writer.octet(UPDATE_TYPE, *update as u8);
            writer.area(OLD_AREA, old_area);
            writer.area(NEW_AREA, new_area);
            writer.octet(CLASS, *class as u8);
        }
        Message::LuAccept { imsi, new_area } => {
            writer.imsi(imsi);
            writer.area(NEW_AREA, new_area);
        }
        Message::LuReject { imsi, cause } => writer.imsi_and(imsi, REJECT_CAUSE, *cause),
        Message::Reset { entity } | Message::ResetAcknowledge { entity } => writer.octet(ENTITY, *entity),
        Message::GprsDetachIndication { imsi, detach } | Message::GprsDetachAcknowledge { imsi, detach } => {
            writer.imsi_and(imsi, GPRS_DETACH_TYPE, *detach as u8)
        }
        Message::ImsiDetachIndication { imsi, detach } | Message::ImsiDetachAcknowledge { imsi, detach } => {
            writer.imsi_and(imsi, IMSI_DETACH_TYPE, *detach as u8)
        }
    }
}

pub fn write_frame(frame: &Frame, buffer: &mut [u8]) -> Result<usize, Fault> {
    let Frame { source, destination, stamp, answers, message } = frame;
    if !lawful_node(*source) || !lawful_node(*destination) || source == destination {
        return fault(FaultKind::Nodes, 0);
    }
    if *stamp == 0 {
        return fault(FaultKind::Stamp, 0);
    }
    if !lawful_message(message) {
        return fault(FaultKind::Contents, 0);
    }
    if buffer.len() < 64 {
        return fault(FaultKind::Buffer, 0);
    }
    let mut writer = Writer { buffer, at: 0 };
    writer.put(&[*source, *destination]);
    writer.put(&stamp.to_be_bytes());
    writer.put(&answers.to_be_bytes());
    put_message(&mut writer, message);
    Ok(writer.at)
}

// ---- rows of numbers ----

pub const FIELDS: usize = 15;
pub const TOO_FEW_FIELDS: u64 = 256;

fn refusal(fault: Fault) -> u64 {
    256 * fault.kind as u64 + fault.place as u64
}

fn area_number(area: &Area) -> u64 {
    area.iter().fold(0, |number, octet| number << 8 | *octet as u64)
}

fn fill(frame: &Frame, fields: &mut [u64]) {
    let mut row = [0u64; FIELDS];
    row[0] = frame.source as u64;
    row[1] = frame.destination as u64;
    row[2] = frame.stamp as u64;
    row[3] = frame.answers as u64;
    row[4] = type_octet(&frame.message) as u64;
    let mut put_imsi = |imsi: &Imsi| {
        row[5] = imsi.digits as u64;
        row[6] = imsi.value;
    };
    match &frame.message {
        Message::Paging { imsi, tmsi, channel } => {
            put_imsi(imsi);
            if let Some(number) = tmsi {
                row[7] = 1;
                row[8] = *number as u64;
            }
            if let Some(number) = channel {
                row[9] = 1;
                row[10] = *number as u64;
            }
        }
        Message::PagingFailure { imsi, cause } | Message::MobileStatus { imsi, cause } => {
            put_imsi(imsi);
            row[11] = *cause as u64;
        }
        Message::LuRequest { imsi, update, old_area, new_area, class } => {
            put_imsi(imsi);
            row[11] = *update as u64;
            row[12] = area_number(old_area);
            row[13] = area_number(new_area);
            row[14] = *class as u64;
        }
        Message::LuAccept { imsi, new_area } => {
            put_imsi(imsi);
            row[13] = area_number(new_area);
        }
        Message::LuReject { imsi, cause } => {
            put_imsi(imsi);
            row[11] = *cause as u64;
        }
        Message::Reset { entity } | Message::ResetAcknowledge { entity } => row[11] = *entity as u64,
        Message::GprsDetachIndication { imsi, detach } | Message::GprsDetachAcknowledge { imsi, detach } => {
            put_imsi(imsi);
            row[11] = *detach as u64;
        }
        Message::ImsiDetachIndication { imsi, detach } | Message::ImsiDetachAcknowledge { imsi, detach } => {
            put_imsi(imsi);
            row[11] = *detach as u64;
        }
    }
    fields[..FIELDS].copy_from_slice(&row);
}

fn octet(number: u64, kind: FaultKind) -> Result<u8, Fault> {
    u8::try_from(number).map_err(|_| Fault { kind, place: 0 })
}

fn word(number: u64, kind: FaultKind) -> Result<u32, Fault> {
    u32::try_from(number).map_err(|_| Fault { kind, place: 0 })
}

fn code<T>(number: u64, from_octet: impl Fn(u8) -> Option<T>) -> Result<T, Fault> {
    from_octet(octet(number, FaultKind::Contents)?).ok_or(Fault { kind: FaultKind::Contents, place: 0 })
}

fn present(flag: u64) -> Result<bool, Fault> {
    match flag {
        0 => Ok(false),
        1 => Ok(true),
        _ => fault(FaultKind::Contents, 0),
    }
}

fn area(number: u64) -> Result<Area, Fault> {
    let octets = number.to_be_bytes();
    if octets[..3] != [0, 0, 0] {
        return fault(FaultKind::Contents, 0);
    }
    Ok(octets[3..].try_into().unwrap())
}

fn frame_from(row: &[u64]) -> Result<Frame, Fault> {
    let source = octet(row[0], FaultKind::Nodes)?;
    let destination = octet(row[1], FaultKind::Nodes)?;
    let stamp = word(row[2], FaultKind::Stamp)?;
    let answers = word(row[3], FaultKind::Stamp)?;
    let imsi = || -> Result<Imsi, Fault> {
        Ok(Imsi { digits: octet(row[5], FaultKind::Contents)?, value: row[6] })
    };
    let message = match row[4] {
        0x00 => {
            let imsi = imsi()?;
            let tmsi = if present(row[7])? { Some(word(row[8], FaultKind::Contents)?) } else { None };
            let channel = if present(row[9])? { Some(octet(row[10], FaultKind::Contents)?) } else { None };
            Message::Paging { imsi, tmsi, channel }
        }
        0x01 => Message::PagingFailure { imsi: imsi()?, cause: code(row[11], cause)? },
        0x02 => Message::MobileStatus { imsi: imsi()?, cause: code(row[11], cause)? },
        0x06 => Message::LuRequest {
            imsi: imsi()?,
            update: code(row[11], update_type)?,
            old_area: area(row[12])?,
            new_area: area(row[13])?,
            class: code(row[14], class)?,
        },
        0x07 => Message::LuAccept { imsi: imsi()?, new_area: area(row[13])? },
        0x08 => Message::LuReject { imsi: imsi()?, cause: code(row[11], reject_cause)? },
        0x09 => Message::Reset { entity: code(row[11], entity)? },
        0x0A => Message::ResetAcknowledge { entity: code(row[11], entity)? },
        0x0E => Message::GprsDetachIndication { imsi: imsi()?, detach: code(row[11], gprs_detach_type)? },
        0x0F => Message::GprsDetachAcknowledge { imsi: imsi()?, detach: code(row[11], gprs_detach_type)? },
        0x11 => Message::ImsiDetachIndication { imsi: imsi()?, detach: code(row[11], imsi_detach_type)? },
        0x12 => Message::ImsiDetachAcknowledge { imsi: imsi()?, detach: code(row[11], imsi_detach_type)? },
        _ => return fault(FaultKind::MessageType, 0),
    };
    Ok(Frame { source, destination, stamp, answers, message })
}

/// As `gs_read_frame`. Not inlined into the measured loop, since the library's function cannot be either.
#[inline(never)]
pub fn read(octets: &[u8], fields: &mut [u64]) -> u64 {
    if fields.len() < FIELDS {
        return TOO_FEW_FIELDS;
    }
    match read_frame(octets) {
        Ok(frame) => {
            fill(&frame, fields);
            0
        }
        Err(fault) => refusal(fault),
    }
}

/// As `gs_write_frame`.
#[inline(never)]
pub fn write(fields: &[u64], buffer: &mut [u8]) -> u64 {
    if fields.len() < FIELDS {
        return TOO_FEW_FIELDS;
    }
    match frame_from(fields).and_then(|frame| write_frame(&frame, buffer)) {
        Ok(count) => count as u64,
        Err(fault) => refusal(fault),
    }
}
