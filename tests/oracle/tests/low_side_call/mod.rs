//! The call of the low side in the archive of the crate `reactive_c`, as C makes it.

/// The two numbers lent lie among others, so that a number written beside them shows.
pub type Words = [u32; 5];

#[link(name = "reactive", kind = "static")]
extern "C" {
    fn reactive_low_side(
        active: i32,
        reactive: i32,
        rated_power: u32,
        short_circuit_voltage: u32,
        no_load_current: u32,
        copper_losses: u32,
        take: *mut u32,
        supply: *mut u32,
    ) -> u32;
}

/// With take and supply at these places of the words.
pub fn call(n: [i64; 6], words: &mut Words, [take, supply]: [usize; 2]) -> u32 {
    let words = words.as_mut_ptr();
    // The pointers are those of two words, which nothing else holds.
    unsafe {
        let (take, supply) = (words.add(take), words.add(supply));
        reactive_low_side(n[0] as i32, n[1] as i32, n[2] as u32, n[3] as u32, n[4] as u32, n[5] as u32, take, supply)
    }
}
