//! Document 01, "Refusal numbers".

#[derive(Clone, Copy, Debug, PartialEq, Eq)]
pub struct Refusal(pub u32);

/// Refuses with the number unless the condition holds, so that an order of refusals reads as a list.
pub fn demand(holds: bool, number: u32) -> Result<(), Refusal> {
    if holds {
        Ok(())
    } else {
        Err(Refusal(number))
    }
}
