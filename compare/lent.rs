// The balance as the library has it, where the reference gives its numbers back: they are written where the caller keeps
// them. build.rs puts it behind the reference's source, and src/judges.rs beside the reference.

pub fn balance_into(piece: &[u8], balances: &mut [i32; 64]) -> u8 {
    let (answer, numbers) = balance(piece);
    *balances = numbers;
    answer
}
