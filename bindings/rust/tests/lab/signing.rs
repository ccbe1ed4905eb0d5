//! Ed25519 signatures (RFC 8032) without arithmetic on the curve, for tests only.
//!
//! The secret scalar of member i is i + 1, and each signature has the nonce 1. So anybody can forge these signatures. A signature needs
//! SHA-512 and arithmetic modulo the order of the base point only, because `keys.txt` has the points.

use narwhal_store::{PublicKey, Signature};

/// The order of the base point, from the lowest limb.
const ORDER: Scalar = Scalar([0x5812_631a_5cf5_d3ed, 0x14de_f9de_a2f7_9cd6, 0, 1 << 60]);

/// The keys of 100 members. `keys.py` made them.
pub fn keys() -> Vec<PublicKey> {
    let lines = include_str!("keys.txt").lines();
    lines
        .map(|line| line.parse().expect("a key in hex"))
        .collect()
}

/// The signature of the text by a member, whose key is one of `keys`.
///
/// The first half is the nonce times the base point, which is the key of member 0. The second half is 1 + k * a modulo the order, with
/// the member's secret scalar a.
pub fn sign(keys: &[PublicKey], member: u16, text: &[u8]) -> Signature {
    let (nonce, key) = (&keys[0].0, &keys[usize::from(member)].0);
    let k = Scalar::of(&sha512(&[&nonce[..], &key[..], text].concat()));
    let s = k.times(u64::from(member) + 1).plus(Scalar::ONE);
    let mut signature = [0; 64];
    signature[..32].copy_from_slice(nonce);
    signature[32..].copy_from_slice(&s.bytes());
    Signature(signature)
}

/// A number below the order, from the lowest limb.
#[derive(Clone, Copy, Debug, PartialEq, Eq)]
struct Scalar([u64; 4]);

impl Scalar {
    const ZERO: Scalar = Scalar([0; 4]);
    const ONE: Scalar = Scalar([1, 0, 0, 0]);

    /// The little-endian number of these bytes, modulo the order.
    fn of(bytes: &[u8]) -> Scalar {
        let mut sum = Scalar::ZERO;
        for byte in bytes.iter().rev() {
            for bit in (0..8).rev() {
                sum = sum.plus(sum);
                if byte >> bit & 1 == 1 {
                    sum = sum.plus(Scalar::ONE);
                }
            }
        }
        sum
    }

    /// The sum modulo the order.
    fn plus(self, other: Scalar) -> Scalar {
        let mut sum = Scalar::ZERO;
        let mut carry = false;
        for (at, limb) in sum.0.iter_mut().enumerate() {
            let (once, over) = self.0[at].overflowing_add(other.0[at]);
            let (twice, again) = once.overflowing_add(u64::from(carry));
            (*limb, carry) = (twice, over | again);
        }
        sum.minus(ORDER).unwrap_or(sum)
    }

    /// The difference, or `None` if it is negative.
    fn minus(self, other: Scalar) -> Option<Scalar> {
        let mut difference = Scalar::ZERO;
        let mut borrow = false;
        for (at, limb) in difference.0.iter_mut().enumerate() {
            let (once, under) = self.0[at].overflowing_sub(other.0[at]);
            let (twice, again) = once.overflowing_sub(u64::from(borrow));
            (*limb, borrow) = (twice, under | again);
        }
        (!borrow).then_some(difference)
    }

    /// The product modulo the order.
    fn times(self, factor: u64) -> Scalar {
        (0..64).rev().fold(Scalar::ZERO, |product, bit| {
            let double = product.plus(product);
            match factor >> bit & 1 {
                1 => double.plus(self),
                _ => double,
            }
        })
    }

    /// The 32 bytes in little-endian order.
    fn bytes(self) -> [u8; 32] {
        let mut bytes = [0; 32];
        for (chunk, limb) in bytes.chunks_exact_mut(8).zip(self.0) {
            chunk.copy_from_slice(&limb.to_le_bytes());
        }
        bytes
    }
}

/// SHA-512 (FIPS 180-4) of the bytes.
fn sha512(bytes: &[u8]) -> [u8; 64] {
    let bits = 8 * bytes.len() as u128;
    let zeros = (111 - bytes.len() as isize).rem_euclid(128) as usize;
    let padded = [bytes, &[0x80], &vec![0; zeros], &bits.to_be_bytes()].concat();
    let mut state = START;
    for block in padded.chunks_exact(128) {
        compress(&mut state, block);
    }
    let mut digest = [0; 64];
    for (chunk, word) in digest.chunks_exact_mut(8).zip(state) {
        chunk.copy_from_slice(&word.to_be_bytes());
    }
    digest
}

fn compress(state: &mut [u64; 8], block: &[u8]) {
    let mut words = [0u64; 80];
    for (word, chunk) in words.iter_mut().zip(block.chunks_exact(8)) {
        *word = u64::from_be_bytes(chunk.try_into().expect("8 bytes"));
    }
    for at in 16..80 {
        let (low, high) = (words[at - 15], words[at - 2]);
        let low = low.rotate_right(1) ^ low.rotate_right(8) ^ low >> 7;
        let high = high.rotate_right(19) ^ high.rotate_right(61) ^ high >> 6;
        let sum = words[at - 16].wrapping_add(words[at - 7]);
        words[at] = sum.wrapping_add(low).wrapping_add(high);
    }
    let [mut a, mut b, mut c, mut d, mut e, mut f, mut g, mut h] = *state;
    for (word, constant) in words.iter().zip(ROUNDS) {
        let turned = e.rotate_right(14) ^ e.rotate_right(18) ^ e.rotate_right(41);
        let chosen = e & f ^ !e & g;
        let first = [turned, chosen, constant, *word]
            .into_iter()
            .fold(h, u64::wrapping_add);
        let turned = a.rotate_right(28) ^ a.rotate_right(34) ^ a.rotate_right(39);
        let second = turned.wrapping_add(a & b ^ a & c ^ b & c);
        (h, g, f, e) = (g, f, e, d.wrapping_add(first));
        (d, c, b, a) = (c, b, a, first.wrapping_add(second));
    }
    for (word, added) in state.iter_mut().zip([a, b, c, d, e, f, g, h]) {
        *word = word.wrapping_add(added);
    }
}

/// The fractions of the square roots of the first 8 primes.
const START: [u64; 8] = [
    0x6a09_e667_f3bc_c908,
    0xbb67_ae85_84ca_a73b,
    0x3c6e_f372_fe94_f82b,
    0xa54f_f53a_5f1d_36f1,
    0x510e_527f_ade6_82d1,
    0x9b05_688c_2b3e_6c1f,
    0x1f83_d9ab_fb41_bd6b,
    0x5be0_cd19_137e_2179,
];

/// The fractions of the cube roots of the first 80 primes.
#[rustfmt::skip]
const ROUNDS: [u64; 80] = [
    0x428a_2f98_d728_ae22, 0x7137_4491_23ef_65cd, 0xb5c0_fbcf_ec4d_3b2f, 0xe9b5_dba5_8189_dbbc,
    0x3956_c25b_f348_b538, 0x59f1_11f1_b605_d019, 0x923f_82a4_af19_4f9b, 0xab1c_5ed5_da6d_8118,
    0xd807_aa98_a303_0242, 0x1283_5b01_4570_6fbe, 0x2431_85be_4ee4_b28c, 0x550c_7dc3_d5ff_b4e2,
    0x72be_5d74_f27b_896f, 0x80de_b1fe_3b16_96b1, 0x9bdc_06a7_25c7_1235, 0xc19b_f174_cf69_2694,
    0xe49b_69c1_9ef1_4ad2, 0xefbe_4786_384f_25e3, 0x0fc1_9dc6_8b8c_d5b5, 0x240c_a1cc_77ac_9c65,
    0x2de9_2c6f_592b_0275, 0x4a74_84aa_6ea6_e483, 0x5cb0_a9dc_bd41_fbd4, 0x76f9_88da_8311_53b5,
    0x983e_5152_ee66_dfab, 0xa831_c66d_2db4_3210, 0xb003_27c8_98fb_213f, 0xbf59_7fc7_beef_0ee4,
    0xc6e0_0bf3_3da8_8fc2, 0xd5a7_9147_930a_a725, 0x06ca_6351_e003_826f, 0x1429_2967_0a0e_6e70,
    0x27b7_0a85_46d2_2ffc, 0x2e1b_2138_5c26_c926, 0x4d2c_6dfc_5ac4_2aed, 0x5338_0d13_9d95_b3df,
    0x650a_7354_8baf_63de, 0x766a_0abb_3c77_b2a8, 0x81c2_c92e_47ed_aee6, 0x9272_2c85_1482_353b,
    0xa2bf_e8a1_4cf1_0364, 0xa81a_664b_bc42_3001, 0xc24b_8b70_d0f8_9791, 0xc76c_51a3_0654_be30,
    0xd192_e819_d6ef_5218, 0xd699_0624_5565_a910, 0xf40e_3585_5771_202a, 0x106a_a070_32bb_d1b8,
    0x19a4_c116_b8d2_d0c8, 0x1e37_6c08_5141_ab53, 0x2748_774c_df8e_eb99, 0x34b0_bcb5_e19b_48a8,
    0x391c_0cb3_c5c9_5a63, 0x4ed8_aa4a_e341_8acb, 0x5b9c_ca4f_7763_e373, 0x682e_6ff3_d6b2_b8a3,
    0x748f_82ee_5def_b2fc, 0x78a5_636f_4317_2f60, 0x84c8_7814_a1f0_ab72, 0x8cc7_0208_1a64_39ec,
    0x90be_fffa_2363_1e28, 0xa450_6ceb_de82_bde9, 0xbef9_a3f7_b2c6_7915, 0xc671_78f2_e372_532b,
    0xca27_3ece_ea26_619c, 0xd186_b8c7_21c0_c207, 0xeada_7dd6_cde0_eb1e, 0xf57d_4f7f_ee6e_d178,
    0x06f0_67aa_7217_6fba, 0x0a63_7dc5_a2c8_98a6, 0x113f_9804_bef9_0dae, 0x1b71_0b35_131c_471b,
    0x28db_77f5_2304_7d84, 0x32ca_ab7b_40c7_2493, 0x3c9e_be0a_15c9_bebc, 0x431d_67c4_9c10_0d4c,
    0x4cc5_d4be_cb3e_42b6, 0x597f_299c_fc65_7e2a, 0x5fcb_6fab_3ad6_faec, 0x6c44_198c_4a47_5817,
];

#[test]
fn sha512_has_the_digests_of_the_standard() {
    let hex = |bytes: &[u8]| -> String { bytes.iter().map(|byte| format!("{byte:02x}")).collect() };
    let abc = "ddaf35a193617abacc417349ae20413112e6fa4e89a97ea20a9eeee64b55d39a\
               2192992a274fc1a836ba3c23a3feebbd454d4423643ce80e2a9ac94fa54ca49f";
    assert_eq!(hex(&sha512(b"abc")), abc);
    let two_blocks = b"abcdefghbcdefghicdefghijdefghijkefghijklfghijklmghijklmnhijklmnoijklmnopjklmnopqklmnopqrlmnopqrsmnopqrstnopqrstu";
    let digest = "8e959b75dae313da8cf4f72814fc143f8f7779c6eb9f7fa17299aeadb6889018\
                  501d289e4900f7e4331b99dec4b5433ac7d329eeb6dd26545e96e55b874be909";
    assert_eq!(hex(&sha512(two_blocks)), digest);
}
