//! Refusals by their numbers.

/// A refusal: its number, or the collision (number 6) with the smallest setting that both sheets ask for.
#[derive(Clone, Copy, PartialEq, Eq, Debug)]
pub enum Refusal {
    Number(u32),
    Collision(u32),
}

impl Refusal {
    /// The refusal's number in document 01's table.
    pub fn number(self) -> u32 {
        match self {
            Refusal::Number(number) => number,
            Refusal::Collision(_) => 6,
        }
    }
}

/// A call's answer: its result, or a refusal.
pub type Answer<T> = Result<T, Refusal>;

/// Refused by this number unless the condition holds.
pub fn require(number: u32, condition: bool) -> Answer<()> {
    if condition {
        Ok(())
    } else {
        Err(Refusal::Number(number))
    }
}
