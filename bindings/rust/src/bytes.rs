//! Digests, public keys and signatures.

use crate::error::error_texts;
use crate::ffi;
use std::fmt;
use std::str::FromStr;

/// Makes a type for bytes that print in hex.
macro_rules! bytes {
    ($(#[$about:meta])* $name:ident, $size:literal) => {
        $(#[$about])*
        #[derive(Clone, Copy, PartialEq, Eq, PartialOrd, Ord, Hash)]
        #[repr(transparent)]
        pub struct $name(pub [u8; $size]);

        impl From<[u8; $size]> for $name {
            fn from(bytes: [u8; $size]) -> $name {
                $name(bytes)
            }
        }

        impl TryFrom<&[u8]> for $name {
            type Error = std::array::TryFromSliceError;

            fn try_from(bytes: &[u8]) -> Result<$name, Self::Error> {
                bytes.try_into().map($name)
            }
        }

        impl AsRef<[u8]> for $name {
            fn as_ref(&self) -> &[u8] {
                &self.0
            }
        }

        impl FromStr for $name {
            type Err = HexError;

            fn from_str(text: &str) -> Result<$name, HexError> {
                bytes_of(text).map($name)
            }
        }

        impl fmt::Display for $name {
            fn fmt(&self, f: &mut fmt::Formatter<'_>) -> fmt::Result {
                self.0.iter().try_for_each(|byte| write!(f, "{byte:02x}"))
            }
        }

        impl fmt::Debug for $name {
            fn fmt(&self, f: &mut fmt::Formatter<'_>) -> fmt::Result {
                write!(f, "{}({self})", stringify!($name))
            }
        }
    };
}

bytes! {
    /// A SHA-256 digest. The digest of a block is that of its body.
    ///
    /// It prints as 64 lowercase hex digits and parses from them.
    ///
    /// ```
    /// use narwhal_store::Digest;
    ///
    /// let digest = Digest::of(b"abc");
    /// let hex = "ba7816bf8f01cfea414140de5dae2223b00361a396177a9cb410ff61f20015ad";
    /// assert_eq!(digest.to_string(), hex);
    /// assert_eq!(hex.parse(), Ok(digest));
    /// ```
    Digest, 32
}

bytes! {
    /// An Ed25519 public key (RFC 8032).
    ///
    /// Any 32 bytes make a value. A key that does not encode a point of the curve verifies no
    /// signature.
    ///
    /// ```
    /// use narwhal_store::PublicKey;
    ///
    /// let hex = "b1e281447549fd943d16645ad3dc9eadac410bf57b088568b28330f362eb6440";
    /// let key: PublicKey = hex.parse()?;
    /// assert_eq!(key.to_string(), hex);
    /// # Ok::<(), narwhal_store::HexError>(())
    /// ```
    PublicKey, 32
}

bytes! {
    /// An Ed25519 signature (RFC 8032).
    ///
    /// The crate verifies signatures and makes none. Sign with a library of your choice.
    Signature, 64
}

impl Digest {
    /// Returns the SHA-256 digest of the bytes.
    #[must_use]
    pub fn of(bytes: &[u8]) -> Digest {
        ffi::digest_of(bytes)
    }
}

/// The error of parsing bytes from hex.
#[derive(Clone, Copy, Debug, PartialEq, Eq, Hash)]
#[non_exhaustive]
pub enum HexError {
    /// The text has `found` bytes instead of `expected`.
    Length {
        /// The number of hex digits of the type.
        expected: usize,
        /// The number of bytes of the text.
        found: usize,
    },
    /// The byte at this index is not a hex digit.
    Digit {
        /// The index, from 0.
        index: usize,
    },
}

error_texts!(HexError {
    HexError::Length { expected, found } => "expected {expected} hex digits, found {found} bytes",
    HexError::Digit { index } => "the byte at index {index} is not a hex digit",
});

/// The bytes that the hex digits encode.
fn bytes_of<const N: usize>(text: &str) -> Result<[u8; N], HexError> {
    let (expected, found) = (2 * N, text.len());
    if found != expected {
        return Err(HexError::Length { expected, found });
    }
    let mut bytes = [0; N];
    for (index, digit) in text.bytes().enumerate() {
        let value = char::from(digit)
            .to_digit(16)
            .ok_or(HexError::Digit { index })?;
        bytes[index / 2] = bytes[index / 2] << 4 | value as u8;
    }
    Ok(bytes)
}

#[cfg(test)]
mod tests {
    use super::{Digest, HexError, PublicKey, Signature};

    #[test]
    fn hex_of_a_wrong_length_or_digit_is_refused() {
        let short = "ab".parse::<Digest>();
        let (expected, found) = (64, 2);
        assert_eq!(short, Err(HexError::Length { expected, found }));
        let text = format!("{}g", "0".repeat(63));
        assert_eq!(text.parse::<Digest>(), Err(HexError::Digit { index: 63 }));
        for byte in 0..=127 {
            let parsed = format!("{}{}", "0".repeat(63), char::from(byte)).parse::<Digest>();
            assert_eq!(parsed.is_ok(), byte.is_ascii_hexdigit(), "{byte}");
        }
        let not_ascii = format!("{}é", "0".repeat(62));
        assert_eq!(
            not_ascii.parse::<Digest>(),
            Err(HexError::Digit { index: 62 })
        );
    }

    #[test]
    fn keys_and_signatures_print_in_hex() {
        assert_eq!(PublicKey([0x0b; 32]).to_string(), "0b".repeat(32));
        assert_eq!("CD".repeat(64).parse(), Ok(Signature([0xcd; 64])));
    }
}
