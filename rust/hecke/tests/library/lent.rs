//! Slices between guards, and answer slices of several sizes.

use std::fmt::Debug;
use std::ptr::null_mut;

const GUARDS: usize = 16;

/// The sizes of the answer slices that every raw call is tried with.
pub const ROOMS: [usize; 5] = [0, 1, 2, 3, 5];

/// A slice to lend to a raw call, with guards before and after it.
pub struct Lent<T> {
    all: Vec<T>,
}

impl<T: Copy + Debug + From<u8> + PartialEq> Lent<T> {
    pub fn new(content: &[T]) -> Lent<T> {
        let guards: Vec<T> = (0..GUARDS as u8).map(|index| T::from(0xa5 ^ index)).collect();
        Lent { all: [&guards, content, &guards].concat() }
    }

    pub fn len(&self) -> usize {
        self.all.len() - 2 * GUARDS
    }

    /// Null for an empty slice. The safe calls lend an empty slice by a pointer that is not null.
    pub fn ptr(&mut self) -> *mut T {
        match self.len() {
            0 => null_mut(),
            _ => self.all[GUARDS..].as_mut_ptr(),
        }
    }

    /// Sees that the slice holds this content and that its guards are as they were.
    pub fn assert_holds(&self, content: &[T]) {
        let due = Lent::new(content).all;
        assert_eq!(self.all.len(), due.len());
        if let Some(at) = (0..due.len()).find(|&at| self.all[at] != due[at]) {
            let index = at as i64 - GUARDS as i64;
            panic!("{:?} stands at index {index} of {}, and {:?} is due", self.all[at], self.len(), due[at]);
        }
    }
}

/// What a call is due to answer: the words for its answer slice, or the number and place of its refusal.
pub type Answer = Result<Vec<u64>, (u8, u64)>;

/// The word that a call with this answer returns.
pub fn returned(due: &Answer) -> u64 {
    match due {
        Ok(_) => 0,
        Err((number, place)) => *number as u64 + 256 * place,
    }
}

/// Makes a raw call with an answer slice of this size, and judges the word that it returns and what then stands in the slice.
pub fn judge(due: &Answer, room: usize, call: impl FnOnce(*mut u64, usize) -> u64) {
    let mut content: Vec<u64> = (0..room as u64).map(|index| !index).collect();
    let mut answer = Lent::new(&content);
    assert_eq!(call(answer.ptr(), room), returned(due));
    if let Ok(words) = due {
        content.iter_mut().zip(words).for_each(|(word, &new)| *word = new);
    }
    answer.assert_holds(&content);
}
