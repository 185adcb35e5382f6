//! Cases that are refused: for the digest length, for the salt, and for both,
//! where the lower number has to win. Each at once and over a session.

use super::record::Case;
use seeded::Generator;

/// Digest lengths that are not admitted.
const BITS: [u16; 9] = [0, 8, 120, 127, 129, 252, 513, 520, 65535];

/// Lengths of a salt that are not 16.
const SALT_LENGTHS: [u8; 2] = [0, 15];

const PIECES: [u16; 2] = [0, 5];

pub fn cases(generator: &mut Generator) -> Vec<Case> {
    let mut cases = refused(generator, &BITS, &[16]);
    cases.extend(refused(generator, &[128, 256, 264, 512], &SALT_LENGTHS));
    cases.extend(refused(generator, &BITS, &SALT_LENGTHS));
    cases
}

/// Every digest length with every length of the salt.
fn refused(generator: &mut Generator, bits: &[u16], salt_lengths: &[u8]) -> Vec<Case> {
    let mut cases = Vec::new();
    for &bits in bits {
        for &salt_length in salt_lengths {
            for piece in PIECES {
                let length = generator.below(1024) as u16;
                let case = Case::new(generator, bits, length, piece);
                cases.push(Case {
                    salt_length,
                    ..case
                });
            }
        }
    }
    cases
}
