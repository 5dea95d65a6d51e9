//! Records of case files: how they lie in bytes, written and read.

/// Takes numbers and byte strings from the front of a file's bytes.
pub struct Reader<'a> {
    rest: &'a [u8],
}

/// The file ends inside a record, or a record holds an unknown call.
#[derive(Debug, PartialEq, Eq)]
pub enum Damage {
    EndsInside,
    UnknownCall(u8),
}

impl<'a> Reader<'a> {
    pub fn new(bytes: &'a [u8]) -> Reader<'a> {
        Reader { rest: bytes }
    }

    pub fn is_empty(&self) -> bool {
        self.rest.is_empty()
    }

    fn bytes(&mut self, count: usize) -> Result<&'a [u8], Damage> {
        if count > self.rest.len() {
            return Err(Damage::EndsInside);
        }
        let (front, rest) = self.rest.split_at(count);
        self.rest = rest;
        Ok(front)
    }

    /// A number of two or four bytes, high byte first.
    fn number(&mut self, width: usize) -> Result<usize, Damage> {
        let number = self
            .bytes(width)?
            .iter()
            .fold(0u64, |number, &b| number * 256 + u64::from(b));
        // A number too large for this machine is longer than the file too.
        usize::try_from(number).map_err(|_| Damage::EndsInside)
    }

    /// A byte string after its length, which takes `width` bytes.
    fn string(&mut self, width: usize) -> Result<&'a [u8], Damage> {
        let length = self.number(width)?;
        self.bytes(length)
    }

    pub fn batch(&mut self) -> Result<&'a [u8], Damage> {
        self.string(4)
    }

    pub fn batch_and_buffer(&mut self) -> Result<(&'a [u8], Vec<u8>), Damage> {
        Ok((self.string(4)?, self.string(2)?.to_vec()))
    }

    pub fn batch_and_entry(&mut self) -> Result<(&'a [u8], usize), Damage> {
        Ok((self.string(4)?, self.number(2)?))
    }

    pub fn call(&mut self) -> Result<Call, Damage> {
        let code = self.bytes(1)?[0];
        let name = Name::of_code(code).ok_or(Damage::UnknownCall(code))?;
        let action = self.bytes(3)?;
        Ok(Call {
            name,
            action: [action[0], action[1], action[2]],
            upload: self.string(2)?.to_vec(),
            image: self.string(2)?.to_vec(),
            buffer: self.string(2)?.to_vec(),
        })
    }
}

#[derive(Clone, Copy, Debug, PartialEq, Eq)]
pub enum Name {
    Fresh,
    Report,
    List,
    Step,
    Run,
    Replay,
}

impl Name {
    fn of_code(code: u8) -> Option<Name> {
        match code {
            1 => Some(Name::Fresh),
            2 => Some(Name::Report),
            3 => Some(Name::List),
            4 => Some(Name::Step),
            5 => Some(Name::Run),
            6 => Some(Name::Replay),
            _ => None,
        }
    }

    fn code(self) -> u8 {
        match self {
            Name::Fresh => 1,
            Name::Report => 2,
            Name::List => 3,
            Name::Step => 4,
            Name::Run => 5,
            Name::Replay => 6,
        }
    }
}

/// One record of a calls file.
#[derive(Clone, Debug, PartialEq, Eq)]
pub struct Call {
    pub name: Name,
    pub action: [u8; 3],
    pub upload: Vec<u8>,
    pub image: Vec<u8>,
    pub buffer: Vec<u8>,
}

impl Call {
    pub fn new(name: Name, upload: Vec<u8>, image: Vec<u8>) -> Call {
        Call {
            name,
            action: [0, 0, 0],
            upload,
            image,
            buffer: Vec::new(),
        }
    }

    pub fn replay(upload: Vec<u8>) -> Call {
        Call::new(Name::Replay, upload, Vec::new())
    }

    pub fn record(&self) -> Vec<u8> {
        let mut out = vec![self.name.code()];
        out.extend(self.action);
        put_short(&mut out, &self.upload);
        put_short(&mut out, &self.image);
        put_short(&mut out, &self.buffer);
        out
    }
}

pub fn batch_record(batch: &[u8]) -> Vec<u8> {
    let mut out = (batch.len() as u32).to_be_bytes().to_vec();
    out.extend(batch);
    out
}

pub fn lines_record(batch: &[u8], buffer: &[u8]) -> Vec<u8> {
    let mut out = batch_record(batch);
    put_short(&mut out, buffer);
    out
}

pub fn entry_record(batch: &[u8], entry: u16) -> Vec<u8> {
    let mut out = batch_record(batch);
    out.extend(entry.to_be_bytes());
    out
}

/// A byte string after its two-byte length; no case is longer than 65,535.
fn put_short(out: &mut Vec<u8>, bytes: &[u8]) {
    out.extend((bytes.len() as u16).to_be_bytes());
    out.extend(bytes);
}
