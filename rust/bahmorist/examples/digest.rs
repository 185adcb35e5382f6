//! Prints the 256-bit digest of "abc" without a salt, and what is refused.

fn main() -> Result<(), bahmorist::Refusal> {
    let mut digest = [0; 32];
    bahmorist::digest(256, &[0; 16], b"abc", &mut digest)?;
    for byte in digest {
        print!("{byte:02x}");
    }
    println!();
    let refused = bahmorist::digest(512, &[0; 16], b"abc", &mut digest);
    println!("512 bits into 32 bytes: {}", refused.unwrap_err());
    Ok(())
}
