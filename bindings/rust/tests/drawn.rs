//! Drawn operations on a bytearray and on views of it, each beside the same one on a plain `Vec<u8>`.
use pybuf::{Be, ByteArray, Error, Le, Slice};
use std::collections::hash_map::DefaultHasher;
use std::hash::{Hash, Hasher};

/// Numbers by Knuth's linear congruence, the same in each run.
struct Draws(u64);

impl Draws {
    fn below(&mut self, end: usize) -> usize {
        self.0 = self.0.wrapping_mul(6364136223846793005).wrapping_add(1442695040888963407);
        (self.0 >> 33) as usize % end
    }

    fn byte(&mut self) -> u8 {
        self.below(256) as u8
    }

    fn bytes(&mut self, most: usize) -> Vec<u8> {
        (0..self.below(most + 1)).map(|_| self.byte()).collect()
    }

    /// A range that lies within so many places.
    fn range(&mut self, length: usize) -> (usize, usize) {
        let start = self.below(length + 1);
        (start, start + self.below(length - start + 1))
    }
}

fn hash_of(value: &impl Hash) -> u64 {
    let mut hasher = DefaultHasher::new();
    value.hash(&mut hasher);
    hasher.finish()
}

/// An operation on the length or the order.
fn edit(draws: &mut Draws, array: &mut ByteArray, model: &mut Vec<u8>) {
    let length = model.len();
    let (start, stop) = draws.range(length);
    let range = start as i64..stop as i64;
    match draws.below(11) {
        0 => {
            let byte = draws.byte();
            array.push(byte);
            model.push(byte);
        }
        1 => {
            let (at, byte) = (draws.below(length + 1), draws.byte());
            array.insert(at as i64, byte).unwrap();
            model.insert(at, byte);
        }
        2 => assert_eq!(array.pop().ok(), model.pop()),
        3 if length > 0 => {
            let back = draws.below(length) + 1;
            assert_eq!(array.pop_at(-(back as i64)), Ok(model.remove(length - back)));
        }
        4 => {
            let byte = draws.byte();
            match model.iter().position(|&other| other == byte) {
                Some(at) => assert_eq!((array.remove(byte), model.remove(at)), (Ok(()), byte)),
                None => assert_eq!(array.remove(byte), Err(Error::Value)),
            }
        }
        5 => {
            let bytes = draws.bytes(9);
            array.set_slice(range, &bytes).unwrap();
            model.splice(start..stop, bytes);
        }
        6 => {
            array.delete(range).unwrap();
            model.drain(start..stop);
        }
        7 => {
            let bytes = draws.bytes(9);
            Extend::extend(array, &bytes);
            model.extend(&bytes);
        }
        8 => {
            array.reverse().unwrap();
            model.reverse();
        }
        9 if length < 40 => {
            array.repeat(2).unwrap();
            model.extend_from_within(..);
        }
        10 if length > 60 => {
            array.clear().unwrap();
            model.clear();
        }
        _ => {}
    }
}

/// A write through a view.
fn write(draws: &mut Draws, array: &mut ByteArray, model: &mut Vec<u8>) {
    let (start, stop) = draws.range(model.len());
    let range = start as i64..stop as i64;
    let byte = draws.byte();
    match draws.below(4) {
        0 => {
            let items: Vec<u8> = (start..stop).map(|_| draws.byte()).collect();
            array.as_view_mut().unwrap().slice_mut(range).unwrap().copy_from(&items).unwrap();
            model[start..stop].copy_from_slice(&items);
        }
        1 if (stop - start) % 2 == 0 && start < stop => {
            let at = draws.below((stop - start) / 2);
            let number = u16::from(byte) * 257 - 1;
            let numbers = array.as_cells().unwrap().slice(range).unwrap();
            numbers.cast::<Be<u16>>().unwrap().set(at as i64, Be(number)).unwrap();
            assert_eq!(numbers.cast::<Le<u16>>().unwrap().get(at as i64), Ok(Le(number.swap_bytes())));
            model[start + 2 * at..start + 2 * at + 2].copy_from_slice(&number.to_be_bytes());
        }
        2 => {
            let step = draws.below(4) + 1;
            let all = array.as_cells().unwrap();
            let some = all.slice(Slice::stepped(range, step as i64)).unwrap();
            for (index, at) in (start..stop).step_by(step).enumerate() {
                some.set(index as i64, byte).unwrap();
                assert_eq!(all.get(at as i64), Ok(byte));
                model[at] = byte;
            }
            assert_eq!(some.set(some.len() as i64, byte), Err(Error::Index));
        }
        _ => {
            let refused = array.as_view_mut().unwrap().set(model.len() as i64, byte);
            assert_eq!(refused, Err(Error::Index));
        }
    }
}

fn read(draws: &mut Draws, array: &ByteArray, model: &[u8]) {
    let (start, stop) = draws.range(model.len());
    let step = draws.below(4) + 1;
    let view = array.as_view().unwrap();
    let (forward, range) = (start as i64..stop as i64, &model[start..stop]);
    assert_eq!(view.slice(forward.clone()).unwrap(), range);
    let stepped: Vec<u8> = range.iter().copied().step_by(step).collect();
    assert_eq!(view.slice(Slice::stepped(forward, step as i64)).unwrap(), &stepped[..]);
    let back: Vec<u8> = range.iter().rev().copied().step_by(step).collect();
    if start < stop {
        let backward = Slice::stepped(stop as i64 - 1..=start as i64, -(step as i64));
        assert_eq!(array.slice(backward).unwrap(), back);
        assert_eq!(view.slice(backward).unwrap().iter().collect::<Vec<u8>>(), back);
        let last = stop as i64 - 1 - model.len() as i64;
        assert_eq!(view.slice(start as i64..=last).unwrap(), range);
    }
    let whole = range.len() / 4 * 4;
    let numbers = view.slice(start as i64..(start + whole) as i64).unwrap().cast::<Le<u32>>().unwrap();
    let wanted: Vec<_> = range.chunks_exact(4).map(|four| Le(u32::from_le_bytes(four.try_into().unwrap()))).collect();
    assert_eq!(numbers.to_vec().unwrap(), wanted);
    assert_eq!(numbers.to_bytes().unwrap(), range[..whole]);
}

#[test]
fn drawn_operations_do_what_they_do_to_a_vec() {
    for seed in 1..=6 {
        let mut draws = Draws(seed);
        let mut model = draws.bytes(20);
        let mut array = ByteArray::from(&model[..]);
        let mut before = array.clone();
        for _ in 0..120 {
            match draws.below(3) {
                0 => edit(&mut draws, &mut array, &mut model),
                1 => write(&mut draws, &mut array, &mut model),
                _ => read(&mut draws, &array, &model),
            }
            assert_eq!(array, model);
            assert_eq!(array.exports(), Ok(0));
            let old = before.to_bytes().unwrap();
            assert_eq!((array.cmp(&before), array == before), (model.cmp(&old), model == old));
            assert_eq!(hash_of(&array), hash_of(&model));
            if draws.below(4) == 0 {
                before = array.clone();
            }
        }
    }
}
