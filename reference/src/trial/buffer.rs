//! A lent buffer between guards.

/// Places before and after each lent buffer that no call may touch: more than an entry of a file has bytes.
const GUARD: usize = 16;
const CANARY: i64 = -0x5EED_CA9A_417C_0DE5;
const CANARY_BYTE: u8 = 0xA5;

/// A lent buffer between its guards.
#[derive(Clone, Debug, PartialEq)]
pub struct Buffer {
    pub name: &'static str,
    places: Places,
}

#[derive(Clone, Debug, PartialEq)]
enum Places {
    Numbers(Vec<i64>),
    Bytes(Vec<u8>),
}

fn guarded<T: Copy>(content: &[T], canary: T) -> Vec<T> {
    let guard = [canary; GUARD];
    [&guard, content, &guard].concat()
}

impl Buffer {
    pub fn of(name: &'static str, content: &[i64]) -> Self {
        Buffer { name, places: Places::Numbers(guarded(content, CANARY)) }
    }

    /// An output, filled with numbers that no answer has.
    pub fn output(name: &'static str, length: usize) -> Self {
        let content: Vec<i64> = (0..length as i64).map(|i| -7_000_000_000_000_000 - i).collect();
        Buffer::of(name, &content)
    }

    /// A file to be written, filled with bytes that differ from one place to the next.
    pub fn file(name: &'static str, length: usize) -> Self {
        let content: Vec<u8> = (0..length).map(|i| 0x5C ^ i as u8).collect();
        Buffer { name, places: Places::Bytes(guarded(&content, CANARY_BYTE)) }
    }

    /// The numbers lent, without the guards; of a file none.
    pub fn numbers(&self) -> &[i64] {
        match &self.places {
            Places::Numbers(places) => &places[GUARD..places.len() - GUARD],
            Places::Bytes(_) => &[],
        }
    }

    pub fn numbers_mut(&mut self) -> &mut [i64] {
        match &mut self.places {
            Places::Numbers(places) => {
                let end = places.len() - GUARD;
                &mut places[GUARD..end]
            }
            Places::Bytes(_) => &mut [],
        }
    }

    /// The bytes lent, without the guards; of numbers none.
    pub fn bytes(&self) -> &[u8] {
        match &self.places {
            Places::Bytes(places) => &places[GUARD..places.len() - GUARD],
            Places::Numbers(_) => &[],
        }
    }

    pub fn bytes_mut(&mut self) -> &mut [u8] {
        match &mut self.places {
            Places::Bytes(places) => {
                let end = places.len() - GUARD;
                &mut places[GUARD..end]
            }
            Places::Numbers(_) => &mut [],
        }
    }

    /// How many places are lent.
    pub fn count(&self) -> usize {
        self.numbers().len() + self.bytes().len()
    }

    /// Every place, guards too, as a number.
    fn all(&self) -> Vec<i64> {
        match &self.places {
            Places::Numbers(places) => places.clone(),
            Places::Bytes(places) => places.iter().map(|&byte| byte as i64).collect(),
        }
    }

    /// Where two states of one buffer differ: place (from 0, guards below and above) and both numbers.
    pub fn differences(&self, other: &Buffer) -> Vec<(i64, i64, i64)> {
        let places = (-(GUARD as i64)..).zip(self.all().into_iter().zip(other.all()));
        places.filter(|(_, (x, y))| x != y).map(|(place, (x, y))| (place, x, y)).collect()
    }
}
