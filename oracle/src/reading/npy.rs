//! The NPY file of one layer's coefficients: its bytes, and the checks of its reader and its writer. The header is read
//! by descent from its first byte, one function for each thing that it is made of.

use super::{is_finite, refuse, Configuration, Refusal};

/// What a file begins with: NumPy's name, and version 1.0.
pub const MAGIC: &[u8; 8] = b"\x93NUMPY\x01\x00";
/// Where the body of a written file begins.
pub const FRONT: usize = 128;
/// A header's text begins behind the magic and the two bytes of its length.
pub const TEXT: usize = MAGIC.len() + 2;

/// A layer of an accepted configuration.
#[derive(Clone, Copy, Debug)]
pub struct Layer {
    pub inputs: usize,
    pub outputs: usize,
    /// Of each edge, g + 3.
    pub coefficients: usize,
    /// Where its first parameter stands in the model.
    first: usize,
}

impl Layer {
    /// The layer of this number, counted from 0; nothing where the network has none.
    pub fn of(config: &Configuration, number: usize) -> Option<Self> {
        let mut first = 0;
        for (place, ends) in config.widths.windows(2).enumerate() {
            let (inputs, outputs) = (ends[0], ends[1]);
            if place == number {
                return Some(Layer {
                    inputs,
                    outputs,
                    coefficients: config.grid.intervals + 3,
                    first,
                });
            }
            first += inputs * outputs * (config.grid.intervals + 5);
        }
        None
    }

    /// The bytes of all coefficients.
    pub fn body(&self) -> usize {
        4 * self.outputs * self.inputs * self.coefficients
    }

    pub fn shape(&self) -> [usize; 3] {
        [self.outputs, self.inputs, self.coefficients]
    }

    /// Where in the model each coefficient stands, in the file's order: an edge has two weights before them.
    fn places(self) -> impl Iterator<Item = usize> {
        let edges = 0..self.outputs * self.inputs;
        edges.flat_map(move |edge| {
            let begin = self.first + edge * (self.coefficients + 2) + 2;
            begin..begin + self.coefficients
        })
    }
}

/// The dictionary as the writer has it.
pub fn dictionary([outputs, inputs, coefficients]: [usize; 3]) -> String {
    let shape = format!("({outputs}, {inputs}, {coefficients})");
    format!("{{'descr': '<f4', 'fortran_order': False, 'shape': {shape}, }}")
}

/// All bytes of a file with this header and body.
pub fn file(text: &[u8], body: &[u8]) -> Vec<u8> {
    let length = (text.len() as u16).to_le_bytes();
    [&MAGIC[..], &length, text, body].concat()
}

/// The written file of a layer.
pub fn written(layer: Layer, model: &[f32]) -> Vec<u8> {
    let width = FRONT - TEXT - 1;
    let text = format!("{:<width$}\n", dictionary(layer.shape()));
    let words = layer.places().map(|place| model[place].to_bits());
    let body: Vec<u8> = words.flat_map(u32::to_le_bytes).collect();
    file(text.as_bytes(), &body)
}

/// Both calls begin with the configuration, 8 and 37.
fn admit(config: &Configuration, model: &[f32], layer: usize) -> Result<Layer, Refusal> {
    config.accepted()?;
    if model.len() != config.parameters() {
        return refuse(8);
    }
    Layer::of(config, layer).map_or_else(|| refuse(37), Ok)
}

/// The writer refuses in the order configuration, 8, 37, 10, 11.
pub fn write(
    config: &Configuration,
    model: &[f32],
    layer: usize,
    bytes: &mut [u8],
) -> Result<(), Refusal> {
    let layer = admit(config, model, layer)?;
    if bytes.len() != FRONT + layer.body() {
        return refuse(10);
    }
    if !is_finite(model) {
        return refuse(11);
    }
    bytes.copy_from_slice(&written(layer, model));
    Ok(())
}

/// The reader's checks in their order; then the layer's coefficients are replaced.
pub fn read(
    config: &Configuration,
    model: &mut [f32],
    layer: usize,
    bytes: &[u8],
) -> Result<(), Refusal> {
    let layer = admit(config, model, layer)?;
    if !is_finite(model) {
        return refuse(11);
    }
    let Some((header, body)) = parted(bytes) else {
        return refuse(29);
    };
    if !header.is_of(layer) {
        return refuse(30);
    }
    if body.len() != layer.body() {
        return refuse(29);
    }
    let words = body
        .chunks(4)
        .map(|word| [word[0], word[1], word[2], word[3]]);
    let numbers: Vec<f32> = words.map(f32::from_le_bytes).collect();
    if !is_finite(&numbers) {
        return refuse(11);
    }
    for (place, number) in layer.places().zip(numbers) {
        model[place] = number;
    }
    Ok(())
}

/// A size of the shape; nothing where it is 2^64 or more, and so no size of a layer.
type Size = Option<u64>;

/// What a well-formed header says.
#[derive(Default)]
struct Header<'a> {
    descr: Option<&'a [u8]>,
    is_fortran: Option<bool>,
    shape: Option<Vec<Size>>,
}

impl Header<'_> {
    fn is_of(&self, layer: Layer) -> bool {
        let shape = layer.shape().map(|size| Some(size as u64));
        self.descr == Some(&b"<f4"[..])
            && self.is_fortran == Some(false)
            && self.shape.as_deref() == Some(&shape)
    }
}

/// The header and the body of a file; nothing where the header is malformed.
fn parted(bytes: &[u8]) -> Option<(Header<'_>, &[u8])> {
    let rest = bytes.strip_prefix(MAGIC)?;
    let length = u16::from_le_bytes([*rest.first()?, *rest.get(1)?]);
    let behind = &rest[2..];
    let text = behind.get(..usize::from(length))?;
    Some((Cursor { rest: text }.header()?, &behind[text.len()..]))
}

/// What is still to be read of a header's text. Where something else stands there than is asked for, there is nothing.
struct Cursor<'a> {
    rest: &'a [u8],
}

impl<'a> Cursor<'a> {
    fn header(mut self) -> Option<Header<'a>> {
        // No space stands before it, unlike before any other token.
        self.rest = self.rest.strip_prefix(b"{")?;
        let mut header = Header::default();
        for entry in 0..3 {
            if entry > 0 {
                self.demand(b",")?;
            }
            self.entry(&mut header)?;
        }
        self.accept(b",");
        self.demand(b"}")?;
        self.demand(b"\n")?;
        self.rest.is_empty().then_some(header)
    }

    /// A key that was not there before, and its value.
    fn entry(&mut self, header: &mut Header<'a>) -> Option<()> {
        let key = self.string()?;
        self.demand(b":")?;
        match key {
            b"descr" => put(&mut header.descr, self.string()?),
            b"fortran_order" => put(&mut header.is_fortran, self.boolean()?),
            b"shape" => put(&mut header.shape, self.shape()?),
            _ => None,
        }
    }

    fn skip_spaces(&mut self) {
        while let [b' ', rest @ ..] = self.rest {
            self.rest = rest;
        }
    }

    /// Whether these bytes stand next, behind spaces; then they are read.
    fn accept(&mut self, token: &[u8]) -> bool {
        self.skip_spaces();
        let rest = self.rest.strip_prefix(token);
        self.rest = rest.unwrap_or(self.rest);
        rest.is_some()
    }

    fn demand(&mut self, token: &[u8]) -> Option<()> {
        self.accept(token).then_some(())
    }

    /// What stands between two quotes of one kind.
    fn string(&mut self) -> Option<&'a [u8]> {
        self.skip_spaces();
        let (&quote, behind) = self.rest.split_first()?;
        if quote != b'\'' && quote != b'"' {
            return None;
        }
        let end = behind.iter().position(|&byte| byte == quote)?;
        let (content, rest) = behind.split_at(end);
        self.rest = &rest[1..];
        let is_plain = |byte: &u8| (0x20..=0x7e).contains(byte) && *byte != b'\\';
        content.iter().all(is_plain).then_some(content)
    }

    fn boolean(&mut self) -> Option<bool> {
        if self.accept(b"True") {
            return Some(true);
        }
        self.demand(b"False").map(|()| false)
    }

    fn shape(&mut self) -> Option<Vec<Size>> {
        let mut sizes = Vec::new();
        self.demand(b"(")?;
        while !self.accept(b")") {
            sizes.push(self.size()?);
            if !self.accept(b",") {
                self.demand(b")")?;
                break;
            }
        }
        Some(sizes)
    }

    /// Digits, of which the first is 0 only where it is the only one.
    fn size(&mut self) -> Option<Size> {
        self.skip_spaces();
        let count = self.rest.iter().take_while(|byte| byte.is_ascii_digit());
        let (digits, rest) = self.rest.split_at(count.count());
        self.rest = rest;
        if digits.is_empty() || digits.len() > 1 && digits[0] == b'0' {
            return None;
        }
        let mut values = digits.iter().map(|digit| u64::from(digit - b'0'));
        Some(values.try_fold(0_u64, |size, digit| {
            size.checked_mul(10)?.checked_add(digit)
        }))
    }
}

/// Puts a value into an empty place; nothing where there is one already.
fn put<T>(place: &mut Option<T>, value: T) -> Option<()> {
    place.replace(value).is_none().then_some(())
}
