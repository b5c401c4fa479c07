//! Document 01's profile, row code, coupling, encoding and rebuild plan, each written down from its sentence there, and
//! the edition that document 02's K6 gives a profile.

use crate::field::{inverse, product, sum};

pub const MOST_NODES: usize = 24;
pub const MOST_ROWS: usize = 4;
pub const MOST_STRIP_BYTES: usize = 512;

/// The refusals in the order in which they are tried, 8 and 9 with the index of the first such strip. OutOfRange is
/// "lost node not below n; node list not k strictly rising numbers below n; survey start above the number of sets".
#[derive(Clone, Copy, PartialEq, Debug)]
pub enum Refusal {
    NodesOrRows,
    Constant,
    StripLength,
    Edition,
    OutOfRange,
    BufferLength,
    BundleForm,
    BundleHead,
    Misplaced(usize),
    Stale(usize),
    Ambiguous,
}

impl Refusal {
    pub fn number(self) -> u8 {
        match self {
            Refusal::NodesOrRows => 1,
            Refusal::Constant => 2,
            Refusal::StripLength => 3,
            Refusal::Edition => 13,
            Refusal::OutOfRange => 4,
            Refusal::BufferLength => 5,
            Refusal::BundleForm => 6,
            Refusal::BundleHead => 7,
            Refusal::Misplaced(_) => 8,
            Refusal::Stale(_) => 9,
            Refusal::Ambiguous => 10,
        }
    }

    /// "8 and 9 come with the index of the first such strip, from 0; the others with 0."
    pub fn index(self) -> usize {
        match self {
            Refusal::Misplaced(index) | Refusal::Stale(index) => index,
            _ => 0,
        }
    }
}

/// The numbers of a profile as a caller gives them, accepted or not.
#[derive(Clone, Copy, PartialEq, Debug)]
pub struct Profile {
    pub n: usize,
    pub k: usize,
    pub rows: usize,
    pub t: usize,
    pub s: usize,
    pub edition: usize,
}

impl std::fmt::Display for Profile {
    fn fmt(&self, to: &mut std::fmt::Formatter) -> std::fmt::Result {
        let Profile { n, k, rows, t, s, edition } = self;
        write!(to, "n={n} k={k} A={rows} t={t} S={s} edition={edition}")
    }
}

/// K6: "an edition other than 1 or 2 is 13".
pub const EDITIONS: [usize; 2] = [1, 2];

/// A place in an array: node first, then row.
#[derive(Clone, Copy, PartialEq, Debug)]
pub struct Place {
    pub node: usize,
    pub row: usize,
}

/// "Accepted: k at least 1; n above k; 2 <= A <= 4; A at most n-k; A divides n; n at most 24".
pub fn nodes_and_rows_accepted(n: usize, k: usize, rows: usize) -> bool {
    k >= 1 && n > k && (2..=MOST_ROWS).contains(&rows) && rows <= n - k && n % rows == 0 && n <= MOST_NODES
}

/// Every accepted (n, k, A).
pub fn all_accepted() -> Vec<(usize, usize, usize)> {
    let mut accepted = Vec::new();
    for n in 0..=MOST_NODES {
        for k in 0..=n {
            let rows = (0..=MOST_ROWS).filter(|&rows| nodes_and_rows_accepted(n, k, rows));
            accepted.extend(rows.map(|rows| (n, k, rows)));
        }
    }
    accepted
}

impl Profile {
    /// Refusals 1, 2, 3 and 13, which K6 has "tried after 3".
    pub fn refusal(&self) -> Option<Refusal> {
        if !nodes_and_rows_accepted(self.n, self.k, self.rows) {
            Some(Refusal::NodesOrRows)
        } else if !(2..=255).contains(&self.t) {
            Some(Refusal::Constant)
        } else if self.s == 0 || self.s > MOST_STRIP_BYTES {
            Some(Refusal::StripLength)
        } else if !EDITIONS.contains(&self.edition) {
            Some(Refusal::Edition)
        } else {
            None
        }
    }

    /// The same in this edition.
    pub fn in_edition(&self, edition: usize) -> Profile {
        Profile { edition, ..*self }
    }

    /// kAS. This and all that follow are for numbers that are accepted, or small.
    pub fn data_length(&self) -> usize {
        self.k * self.rows * self.s
    }

    /// nAS.
    pub fn array_length(&self) -> usize {
        self.n * self.rows * self.s
    }

    /// AS.
    pub fn column_length(&self) -> usize {
        self.rows * self.s
    }

    /// "In memory, strip (row i, node j) starts at (jA+i)S".
    pub fn strip_start(&self, place: Place) -> usize {
        (place.node * self.rows + place.row) * self.s
    }

    /// A node's column in an array.
    pub fn column_of<'a>(&self, array: &'a [u8], node: usize) -> &'a [u8] {
        &array[self.strip_start(Place { node, row: 0 })..][..self.column_length()]
    }

    /// The place that the byte at this position of an array belongs to.
    pub fn place_of_byte(&self, position: usize) -> Place {
        let strip = position / self.s;
        Place { node: strip / self.rows, row: strip % self.rows }
    }

    fn local_column(&self, place: Place) -> usize {
        place.node % self.rows
    }

    /// "The partner of row i, node j is row l, node gA+i."
    pub fn partner(&self, place: Place) -> Place {
        let group = place.node / self.rows;
        Place { node: group * self.rows + place.row, row: self.local_column(place) }
    }

    /// All places of an array, in its order.
    pub fn places(&self) -> Vec<Place> {
        (0..self.n).flat_map(|node| (0..self.rows).map(move |row| Place { node, row })).collect()
    }

    /// The nodes in the order in which steps 2 and 3 each look for their candidates. In edition 1 they are "rising".
    /// K6: "Edition 2 walks the candidates of steps 2 and 3 from the node after the lost one, rising and wrapping past
    /// n-1 to 0, each step on its own".
    fn walk(&self, lost: usize) -> impl Iterator<Item = usize> {
        let first = if self.edition == 2 { lost + 1 } else { 0 };
        (first..self.n).chain(0..first)
    }

    /// The three steps of the plan for a lost node below n: row c of the nodes given, c the lost node's local
    /// column, with the partner beside it in the third. K6: "Step 1 stays", and "step 2 is still finished before step 3
    /// begins".
    pub fn planned_places(&self, lost: usize) -> Vec<Place> {
        let column = lost % self.rows;
        let in_row = |node: usize| Place { node, row: column };
        let in_own_group = |node: usize| node / self.rows == lost / self.rows;
        let in_own_column = |node: usize| node % self.rows == column;
        let own: Vec<usize> = (0..self.n).filter(|&node| in_own_group(node) && node != lost).collect();
        let singles: Vec<usize> =
            self.walk(lost).filter(|&node| !in_own_group(node) && in_own_column(node)).take(self.k).collect();
        let pairs = self.walk(lost).filter(|&node| !in_own_group(node) && !in_own_column(node));

        let missing = self.k - singles.len();
        let mut places: Vec<Place> = own.into_iter().chain(singles).map(in_row).collect();
        for place in pairs.take(missing).map(in_row) {
            places.extend([place, self.partner(place)]);
        }
        places
    }

    /// "The number of places is A-1 + k + max(0, k-(G-1))", G = n div A.
    pub fn number_of_places(&self) -> usize {
        let other_groups = self.n / self.rows - 1;
        self.rows - 1 + self.k + self.k.saturating_sub(other_groups)
    }

    /// The base symbols of one row at one byte offset, of the nodes 0..n-1.
    pub fn base_row(&self, base: &[u8], row: usize, offset: usize) -> Vec<u8> {
        (0..self.n).map(|node| base[self.strip_start(Place { node, row }) + offset]).collect()
    }
}

/// Lagrange's formula: what to multiply the values at `points` with, so that the sum is the value at the
/// point `at` of the polynomial of degree below the number of points. The points are different.
pub fn lagrange(points: &[u8], at: u8) -> Vec<u8> {
    let weight = |own: usize| {
        let mut above = 1;
        let mut below = 1;
        for (other, &point) in points.iter().enumerate() {
            if other != own {
                above = product(above, sum(at, point));
                below = product(below, sum(points[own], point));
            }
        }
        product(above, inverse(below).expect("the points are different"))
    };
    (0..points.len()).map(weight).collect()
}

/// The sum of the products of values and weights.
pub fn weighted(values: &[u8], weights: &[u8]) -> u8 {
    values.iter().zip(weights).fold(0, |total, (&value, &weight)| sum(total, product(value, weight)))
}

/// "Node j has the point j, the field element with that number."
pub fn point(node: usize) -> u8 {
    node as u8
}

/// All base symbols, in the array's order: the data, and past them the values of each row's polynomial.
pub fn base_of(profile: &Profile, data: &[u8]) -> Vec<u8> {
    let mut base = data.to_vec();
    let data_points: Vec<u8> = (0..profile.k).map(point).collect();
    for node in profile.k..profile.n {
        let weights = lagrange(&data_points, point(node));
        for row in 0..profile.rows {
            base.extend((0..profile.s).map(|offset| {
                let free = (0..profile.k).map(|node| data[profile.strip_start(Place { node, row }) + offset]);
                weighted(&free.collect::<Vec<u8>>(), &weights)
            }));
        }
    }
    base
}

/// The stored strips of these base symbols.
pub fn couple(profile: &Profile, base: &[u8]) -> Vec<u8> {
    let mut stored = vec![0; profile.array_length()];
    for place in profile.places() {
        let (own, other) = (profile.strip_start(place), profile.strip_start(profile.partner(place)));
        let column = profile.local_column(place);
        for offset in 0..profile.s {
            let (a, partner) = (base[own + offset], base[other + offset]);
            stored[own + offset] = if place.row == column {
                a
            } else if place.row < column {
                sum(a, partner)
            } else {
                sum(a, product(profile.t as u8, partner))
            };
        }
    }
    stored
}

/// The base symbols of these stored strips, each pair solved from its two strips: with u the base symbol where
/// row < column and v its partner, the strips are u + v and v + t·u, so that their sum is (1 + t)·u.
pub fn decouple(profile: &Profile, stored: &[u8]) -> Vec<u8> {
    let mut base = stored.to_vec();
    let scale = inverse(sum(1, profile.t as u8)).expect("t is not 1");
    for place in profile.places().into_iter().filter(|&place| place.row < profile.local_column(place)) {
        let (own, other) = (profile.strip_start(place), profile.strip_start(profile.partner(place)));
        for offset in 0..profile.s {
            let (x, y) = (stored[own + offset], stored[other + offset]);
            base[own + offset] = product(scale, sum(x, y));
            base[other + offset] = sum(x, base[own + offset]);
        }
    }
    base
}

/// What encoding answers: the array that the data give, or the first refusal that applies.
pub fn encode(profile: &Profile, data: &[u8], array_length: usize) -> Result<Vec<u8>, Refusal> {
    if let Some(refusal) = profile.refusal() {
        return Err(refusal);
    }
    if data.len() != profile.data_length() || array_length != profile.array_length() {
        return Err(Refusal::BufferLength);
    }
    Ok(couple(profile, &base_of(profile, data)))
}

/// A plan as it is written: "two bytes a place", node then row.
pub fn plan_bytes(places: &[Place]) -> Vec<u8> {
    places.iter().flat_map(|place| [place.node as u8, place.row as u8]).collect()
}

/// What planning answers: the places of the plan, or the first refusal that applies.
pub fn plan(profile: &Profile, lost: usize, places_length: usize) -> Result<Vec<Place>, Refusal> {
    if let Some(refusal) = profile.refusal() {
        return Err(refusal);
    }
    if lost >= profile.n {
        return Err(Refusal::OutOfRange);
    }
    let places = profile.planned_places(lost);
    if places_length < 2 * places.len() {
        return Err(Refusal::BufferLength);
    }
    Ok(places)
}
