#!/usr/bin/env python3
"""A reference implementation of Ed25519's verification, and the test vectors that it answers.

    bench/ed25519.py DIR    writes DIR/stdin (lines `key message signature` in hex) and DIR/stdout (`yes` or `no` for each)

python3-cryptography, which is OpenSSL, makes the keys and signatures; this file computes the answers. It uses Python's integers and other
formulas than the program: sums of points are the curve's law for x and y, with divisions, and multiples start with the lowest bit.
"""
import hashlib
import random
import sys

P = 2**255 - 19
L = 2**252 + 27742317777372353535851937790883648493
D = -121665 * pow(121666, -1, P) % P
I = pow(2, (P - 1) // 4, P)


def added(a, b):
    m = D * a[0] * b[0] * a[1] * b[1] % P
    both = pow(1 - m * m, -1, P)  # the inverse of (1 + m)(1 - m)
    x = (a[0] * b[1] + b[0] * a[1]) * (1 - m) * both % P
    y = (a[1] * b[1] + a[0] * b[0]) * (1 + m) * both % P
    return x, y


def multiple(n, a):
    total = (0, 1)
    while n:
        if n & 1:
            total = added(total, a)
        a = added(a, a)
        n >>= 1
    return total


def root(square):
    r = pow(square, (P + 3) // 8, P)
    if (r * r - square) % P:
        r = r * I % P
    return None if (r * r - square) % P else r


def decoded(text):
    n = int.from_bytes(text, "little")
    y, sign = n % 2**255, n >> 255
    if y >= P:
        return None
    x = root((y * y - 1) * pow(D * y * y + 1, -1, P) % P)
    if x is None or x == 0 and sign:
        return None
    return (x if x & 1 == sign else -x % P), y


def encoded(a):
    return (a[1] + ((a[0] & 1) << 255)).to_bytes(32, "little")


BASE = decoded((4 * pow(5, -1, P) % P).to_bytes(32, "little"))
DOUBLED = [BASE]
while len(DOUBLED) < 256:
    DOUBLED.append(added(DOUBLED[-1], DOUBLED[-1]))


def base_multiple(n):
    total = (0, 1)
    for bit, a in enumerate(DOUBLED):
        if n >> bit & 1:
            total = added(total, a)
    return total


def verified(key, message, signature):
    s = int.from_bytes(signature[32:], "little")
    a = decoded(key)
    if s >= L or a is None:
        return False
    k = int.from_bytes(hashlib.sha512(signature[:32] + key + message).digest(), "little") % L
    r = added(base_multiple(s), multiple(k, (-a[0] % P, a[1])))
    return signature[:32] == encoded(r)


def flipped(text, bit):
    changed = bytearray(text)
    changed[bit // 8] ^= 1 << bit % 8
    return bytes(changed)


def number(n):
    return n.to_bytes(32, "little")


def signed(seed, message):
    from cryptography.hazmat.primitives.asymmetric.ed25519 import Ed25519PrivateKey
    from cryptography.hazmat.primitives.serialization import Encoding, PublicFormat

    private = Ed25519PrivateKey.from_private_bytes(seed)
    key = private.public_key().public_bytes(Encoding.Raw, PublicFormat.Raw)
    return key, message, private.sign(message)


def torsion():
    """The eight points whose order divides 8."""
    y = 2
    while True:
        a = decoded(number(y))
        y += 1
        if a is None:
            continue
        t = multiple(L, a)
        if multiple(4, t) != (0, 1):
            return [multiple(n, t) for n in range(8)]


def small_orders(draw):
    """Keys and R of small order, also in encodings that are not canonical."""
    points = torsion()
    forms = {encoded(t) for t in points}
    forms |= {flipped(f, 255) for f in forms}
    forms |= {number(P + y + sign) for y in range(19) for sign in (0, 2**255)}
    forms = sorted(forms)
    for key in forms:
        for s in (0, 1, L, draw.randrange(L)):
            a = decoded(key) or (0, 1)
            for r in forms[:6] if s == 0 else []:
                yield key, draw.randbytes(draw.randrange(9)), r + number(s)
            for _ in range(2):
                message = draw.randbytes(draw.randrange(40))
                n = draw.randrange(8)
                r = encoded(added(base_multiple(s % L), multiple(n, points[1])))
                yield key, message, r + number(s)


# The standard's vector with a message of 1,023 bytes (RFC 8032, 7.1): its key, message and signature.
LONG = (
    "278117fc144c72340f67d0f2316e8386ceffbf2b2428c9c51fef7c597f1d426e",
    (
        "08b8b2b733424243760fe426a4b54908632110a66c2f6591eabd3345e3e4eb98fa6e264bf09efe12ee50f8f54e9f77b1e355f6c50544"
        "e23fb1433ddf73be84d879de7c0046dc4996d9e773f4bc9efe5738829adb26c81b37c93a1b270b20329d658675fc6ea534e0810a4432"
        "826bf58c941efb65d57a338bbd2e26640f89ffbc1a858efcb8550ee3a5e1998bd177e93a7363c344fe6b199ee5d02e82d522c4feba15"
        "452f80288a821a579116ec6dad2b3b310da903401aa62100ab5d1a36553e06203b33890cc9b832f79ef80560ccb9a39ce767967ed628"
        "c6ad573cb116dbefefd75499da96bd68a8a97b928a8bbc103b6621fcde2beca1231d206be6cd9ec7aff6f6c94fcd7204ed3455c68c83"
        "f4a41da4af2b74ef5c53f1d8ac70bdcb7ed185ce81bd84359d44254d95629e9855a94a7c1958d1f8ada5d0532ed8a5aa3fb2d17ba70e"
        "b6248e594e1a2297acbbb39d502f1a8c6eb6f1ce22b3de1a1f40cc24554119a831a9aad6079cad88425de6bde1a9187ebb6092cf67bf"
        "2b13fd65f27088d78b7e883c8759d2c4f5c65adb7553878ad575f9fad878e80a0c9ba63bcbcc2732e69485bbc9c90bfbd62481d9089b"
        "eccf80cfe2df16a2cf65bd92dd597b0707e0917af48bbb75fed413d238f5555a7a569d80c3414a8d0859dc65a46128bab27af87a7131"
        "4f318c782b23ebfe808b82b0ce26401d2e22f04d83d1255dc51addd3b75a2b1ae0784504df543af8969be3ea7082ff7fc9888c144da2"
        "af58429ec96031dbcad3dad9af0dcbaaaf268cb8fcffead94f3c7ca495e056a9b47acdb751fb73e666c6c655ade8297297d07ad1ba5e"
        "43f1bca32301651339e22904cc8c42f58c30c04aafdb038dda0847dd988dcda6f3bfd15c4b4c4525004aa06eeff8ca61783aacec57fb"
        "3d1f92b0fe2fd1a85f6724517b65e614ad6808d6f6ee34dff7310fdc82aebfd904b01e1dc54b2927094b2db68d6f903b68401adebf5a"
        "7e08d78ff4ef5d63653a65040cf9bfd4aca7984a74d37145986780fc0b16ac451649de6188a7dbdf191f64b5fc5e2ab47b57f7f7276c"
        "d419c17a3ca8e1b939ae49e488acba6b965610b5480109c8b17b80e1b7b750dfc7598d5d5011fd2dcc5600a32ef5b52a1ecc820e308a"
        "a342721aac0943bf6686b64b2579376504ccc493d97e6aed3fb0f9cd71a43dd497f01f17c0e2cb3797aa2a2f256656168e6c496afc5f"
        "b93246f6b1116398a346f1a641f3b041e989f7914f90cc2c7fff357876e506b50d334ba77c225bc307ba537152f3f1610e4eafe595f6"
        "d9d90d11faa933a15ef1369546868a7f3a45a96768d40fd9d03412c091c6315cf4fde7cb68606937380db2eaaa707b4c4185c32eddcd"
        "d306705e4dc1ffc872eeee475a64dfac86aba41c0618983f8741c5ef68d3a101e8a3b8cac60c905c15fc910840b94c00a0b9d0"
    ),
    (
        "0aab4c900501b3e24d7cdf4663326a3a87df5e4843b2cbdb67cbf6e460fec350"
        "aa5371b1508f9f4528ecea23c436d94b5e8fcd4f681e30a6ac00a9704a188a03"
    ),
)


def vectors():
    draw = random.Random(25519)
    true = [signed(hashlib.sha256(b"%d" % i).digest(), draw.randbytes(i % 97)) for i in range(300)]
    true.append(signed(bytes(32), draw.randbytes(3000)))
    yield from true
    key, message, signature = true[33]
    for bit in range(512):
        yield key, message, flipped(signature, bit)
    for bit in range(256):
        yield flipped(key, bit), message, signature
    for bit in range(8 * len(message)):
        yield key, flipped(message, bit), signature
    for i, (key, message, signature) in enumerate(true[:40]):
        s = int.from_bytes(signature[32:], "little")
        yield key, message, signature[:32] + number(s + (1 + i % 15) * L)
        yield key, message, signature[:32] + number((L - s) % L)
        yield key, message, number(int.from_bytes(signature[:32], "little") ^ (1 << 255)) + signature[32:]
        t = torsion_once[1 + i % 7]
        yield key, message, encoded(added(decoded(signature[:32]), t)) + signature[32:]
        yield encoded(added(decoded(key), t)), message, signature
        yield true[i + 1][0], message, signature
        yield number(draw.randrange(2**256)), message, signature
        yield key, message, draw.randbytes(64)
    yield from small_orders(draw)
    yield tuple(bytes.fromhex(it) for it in LONG)


torsion_once = torsion()


def main(where):
    with open(where + "/stdin", "w") as lines, open(where + "/stdout", "w") as answers:
        counts = [0, 0]
        for key, message, signature in vectors():
            lines.write("%s %s %s\n" % (key.hex(), message.hex() or "-", signature.hex()))
            yes = verified(key, message, signature)
            counts[yes] += 1
            answers.write("yes\n" if yes else "no\n")
    print("%d vectors: %d yes, %d no" % (sum(counts), counts[1], counts[0]))


if __name__ == "__main__":
    main(sys.argv[1])
