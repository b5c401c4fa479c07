//! Document 01's download bundle with the run that document 02's K2 adds and the edition that K6 adds: what writing one
//! answers, and which bundles a rebuild refuses.

use crate::code::{Place, Profile, Refusal, EDITIONS};

/// K2: "A recording is a scenario and a run, two bytes more, after the scenario number."
#[derive(Clone, Copy, PartialEq, Debug, Default)]
pub struct Recording {
    pub scenario: u32,
    pub run: u16,
}

impl Recording {
    /// "four-byte numbers high byte first too", and K2: "The run goes high byte first".
    pub fn bytes(&self) -> [u8; 6] {
        let ([a, b, c, d], [high, low]) = (self.scenario.to_be_bytes(), self.run.to_be_bytes());
        [a, b, c, d, high, low]
    }
}

/// What a bundle is cut for, and what a rebuild is given beside it.
#[derive(Clone, Copy, PartialEq, Debug)]
pub struct Wanted {
    pub profile: Profile,
    pub lost: usize,
    pub recording: Recording,
}

/// A tag and a content. In a bundle the content's length stands between them.
pub struct Field {
    pub tag: u8,
    pub content: Vec<u8>,
}

impl Wanted {
    /// Refusals 1, 2, 3, 13 and 4, in this order.
    fn refusal(&self) -> Option<Refusal> {
        self.profile.refusal().or((self.lost >= self.profile.n).then_some(Refusal::OutOfRange))
    }

    /// The same for another run of the scenario.
    pub fn with_run(&self, run: u16) -> Wanted {
        Wanted { recording: Recording { run, ..self.recording }, ..*self }
    }

    /// The same in this edition.
    pub fn in_edition(&self, edition: usize) -> Wanted {
        Wanted { profile: self.profile.in_edition(edition), ..*self }
    }

    /// The same in each edition.
    pub fn in_either_edition(&self) -> [Wanted; 2] {
        EDITIONS.map(|edition| self.in_edition(edition))
    }

    /// The same in the other edition than this accepted one.
    pub fn in_other_edition(&self) -> Wanted {
        self.in_edition(if self.profile.edition == 1 { 2 } else { 1 })
    }

    /// K2: "a bundle 19 + P(11+S)", P the number of places. K6: "Field 01 gets a last byte, edition 2", so that it is
    /// 20 + P(11+S) there. This and all that follow are for numbers that are accepted, or small.
    pub fn bundle_length(&self) -> usize {
        let head = if self.profile.edition == 2 { 20 } else { 19 };
        head + self.profile.number_of_places() * (11 + self.profile.s)
    }

    /// Document 01's length of a bundle without a run: "17 + P(9+S), P the number of places."
    pub fn old_bundle_length(&self) -> usize {
        17 + self.profile.number_of_places() * (9 + self.profile.s)
    }

    /// Where field 02 starts: tag, length and content of field 01 are before it.
    pub fn lost_field_start(&self) -> usize {
        3 + self.profile_field().content.len()
    }

    /// Where the field 03 of a strip starts, its index counted from 0. Tag, length and content of field 02 are ten
    /// bytes.
    pub fn strip_field_start(&self, index: usize) -> usize {
        self.lost_field_start() + 10 + index * self.strip_field_length()
    }

    /// With the tag and the length.
    pub fn strip_field_length(&self) -> usize {
        11 + self.profile.s
    }

    pub fn places(&self) -> Vec<Place> {
        self.profile.planned_places(self.lost)
    }

    /// "01, length 6: n, k, A, t, S in two bytes." K6: "Field 01 gets a last byte, edition 2, and length 7; a field of
    /// length 6 is edition 1."
    fn profile_field(&self) -> Field {
        let Profile { n, k, rows, t, s, edition } = self.profile;
        let mut content = vec![n as u8, k as u8, rows as u8, t as u8, (s >> 8) as u8, s as u8];
        if edition == 2 {
            content.push(2);
        }
        Field { tag: 1, content }
    }

    /// "02 ..: lost node, scenario number in four bytes", and K2's run: "Field 02 has length 7".
    fn lost_field(&self) -> Field {
        Field { tag: 2, content: [&[self.lost as u8][..], &self.recording.bytes()].concat() }
    }

    /// "03 ..: node, row, scenario number, strip", and K2's run: "field 03 length 8+S".
    fn strip_field(&self, place: Place, strip: &[u8]) -> Field {
        let place = [place.node as u8, place.row as u8];
        Field { tag: 3, content: [&place, &self.recording.bytes()[..], strip].concat() }
    }

    /// The fields of a bundle with these strips, given in plan order.
    pub fn fields(&self, strips: &[Vec<u8>]) -> Vec<Field> {
        let strip_fields = self.places().into_iter().zip(strips).map(|(place, strip)| self.strip_field(place, strip));
        [self.profile_field(), self.lost_field()].into_iter().chain(strip_fields).collect()
    }

    pub fn bundle(&self, strips: &[Vec<u8>]) -> Vec<u8> {
        joined(&self.fields(strips))
    }

    /// A bundle as it was before K2, without a run, and so in edition 1. Document 01: "02, length 5: lost node,
    /// scenario number in four bytes." "03, length 6+S, once a planned place in plan order: node, row, scenario number,
    /// strip."
    pub fn old_bundle(&self, strips: &[Vec<u8>]) -> Vec<u8> {
        // the run taken out of each content: it stands after the scenario number
        let mut fields = self.in_edition(1).fields(strips);
        fields[1].content.drain(5..7);
        for field in &mut fields[2..] {
            field.content.drain(6..8);
        }
        joined(&fields)
    }

    /// "it takes its strips from the planned places and the scenario number from the caller", from whom the run comes
    /// as well.
    pub fn cut(&self, array: &[u8]) -> Vec<u8> {
        let strip = |place| array[self.profile.strip_start(place)..][..self.profile.s].to_vec();
        self.bundle(&self.places().into_iter().map(strip).collect::<Vec<_>>())
    }

    /// What writing a bundle answers: the bundle, or the first refusal that applies.
    pub fn write_bundle(&self, array: &[u8], bundle_length: usize) -> Result<Vec<u8>, Refusal> {
        if let Some(refusal) = self.refusal() {
            return Err(refusal);
        }
        if array.len() != self.profile.array_length() || bundle_length != self.bundle_length() {
            return Err(Refusal::BufferLength);
        }
        Ok(self.cut(array))
    }

    /// What a rebuild rebuilds from: the strips in plan order, or the first refusal that applies. "also where a stale
    /// strip stands before a misplaced one" 8 goes before 9.
    pub fn strips_for_rebuild(&self, bundle: &[u8], column_length: usize) -> Result<Vec<Vec<u8>>, Refusal> {
        if let Some(refusal) = self.refusal() {
            return Err(refusal);
        }
        if column_length != self.profile.column_length() {
            return Err(Refusal::BufferLength);
        }
        let fields = self.formed_fields(bundle).ok_or(Refusal::BundleForm)?;
        // K2: "7 and 9 compare both numbers", the scenario and the run. K6: "6 and 7 read the edition too".
        if fields[0].content != self.profile_field().content || fields[1].content != self.lost_field().content {
            return Err(Refusal::BundleHead);
        }
        let (places, strips) = (self.places(), &fields[2..]);
        let misplaced = |&index: &usize| {
            let Place { node, row } = places[index];
            strips[index].content[..2] != [node as u8, row as u8]
        };
        let stale = |&index: &usize| strips[index].content[2..8] != self.recording.bytes();
        if let Some(index) = (0..strips.len()).find(misplaced) {
            return Err(Refusal::Misplaced(index));
        }
        if let Some(index) = (0..strips.len()).find(stale) {
            return Err(Refusal::Stale(index));
        }
        Ok(strips.iter().map(|field| field.content[8..].to_vec()).collect())
    }

    /// The fields of a bundle whose total length, tags and field lengths are those wanted; nothing of another, so that,
    /// as K2 says, "old bundles get 6".
    fn formed_fields(&self, bundle: &[u8]) -> Option<Vec<Field>> {
        let fields = parted(bundle)?;
        let mut wanted = vec![(1, if self.profile.edition == 2 { 7 } else { 6 }), (2, 7)];
        wanted.resize(2 + self.profile.number_of_places(), (3, 8 + self.profile.s));
        let given: Vec<(u8, usize)> = fields.iter().map(|field| (field.tag, field.content.len())).collect();
        (bundle.len() == self.bundle_length() && given == wanted).then_some(fields)
    }
}

/// "Fields of a one-byte tag, a two-byte length (high byte first) and content".
pub fn joined(fields: &[Field]) -> Vec<u8> {
    let mut bytes = Vec::new();
    for Field { tag, content } in fields {
        bytes.push(*tag);
        bytes.extend((content.len() as u16).to_be_bytes());
        bytes.extend(content);
    }
    bytes
}

/// The fields that these bytes are; nothing where they end inside a field.
fn parted(bytes: &[u8]) -> Option<Vec<Field>> {
    let mut fields = Vec::new();
    let mut rest = bytes;
    while let [tag, high, low, after @ ..] = rest {
        let length = u16::from_be_bytes([*high, *low]) as usize;
        if after.len() < length {
            return None;
        }
        fields.push(Field { tag: *tag, content: after[..length].to_vec() });
        rest = &after[length..];
    }
    rest.is_empty().then_some(fields)
}
