//! The C host's two calls, on numbers and byte runs: a word is four bytes, lowest first.

use crate::calls::whole_list;
use crate::pla::write_pla;
use crate::refusal::{require, Answer, Refusal};
use crate::sheets::well_formed;
use crate::words::{inputs_in_form, order_in_form};

/// The words of a byte run; one to three bytes left over are not among them.
pub fn words_of(bytes: &[u8]) -> Vec<u32> {
    bytes.chunks_exact(4).map(|four| u32::from_le_bytes(four.try_into().unwrap())).collect()
}

/// The bytes of words.
pub fn bytes_of(words: &[u32]) -> Vec<u8> {
    words.iter().flat_map(|word| word.to_le_bytes()).collect()
}

/// A word run of signed numbers.
pub fn signed(words: &[u32]) -> Vec<i32> {
    words.iter().map(|&word| word as i32).collect()
}

/// A run of signed numbers as words.
pub fn unsigned(numbers: &[i32]) -> Vec<u32> {
    numbers.iter().map(|&number| number as u32).collect()
}

/// Whether no bytes are left over.
fn whole_words(bytes: &[u8]) -> bool {
    bytes.chunks_exact(4).remainder().is_empty()
}

/// An answer as one number: the refusal times 2^32, and the payload.
fn packed(answer: Answer<usize>) -> u64 {
    match answer {
        Ok(payload) => payload as u64,
        Err(Refusal::Collision(setting)) => (6 << 32) + u64::from(setting),
        Err(Refusal::Number(number)) => u64::from(number) << 32,
    }
}

/// The whole list on byte runs.
fn list_on_bytes(n: u32, order: &[u8], on: &[u8], off: &[u8], care: &mut [u8], value: &mut [u8]) -> Answer<usize> {
    let order_words = words_of(order);
    let on_numbers = signed(&words_of(on));
    let off_numbers = signed(&words_of(off));
    require(1, inputs_in_form(n))?;
    require(2, whole_words(order) && order_in_form(n, &order_words))?;
    require(3, whole_words(on) && well_formed(n, &on_numbers))?;
    require(4, whole_words(off) && well_formed(n, &off_numbers))?;
    let mut care_words = words_of(care);
    let mut value_words = words_of(value);
    let count = whole_list(n, &order_words, &on_numbers, &off_numbers, &mut care_words, &mut value_words)?;
    care[..4 * count].copy_from_slice(&bytes_of(&care_words[..count]));
    value[..4 * count].copy_from_slice(&bytes_of(&value_words[..count]));
    Ok(count)
}

/// List building for the C host: refusal * 2^32 + the count of rows, or for 6 the setting.
pub fn host_list(n: u32, order: &[u8], on: &[u8], off: &[u8], care: &mut [u8], value: &mut [u8]) -> u64 {
    packed(list_on_bytes(n, order, on, off, care, value))
}

/// PLA writing for the C host: refusal * 2^32 + the text's length.
pub fn host_pla(n: u32, count: u32, care: &[u8], value: &[u8], text: &mut [u8]) -> u64 {
    packed(write_pla(n, count as usize, &words_of(care), &words_of(value), text))
}
