# FNV-1a, XXH64 and XXH3 with seed 0 by their specifications, in plain python, and the text of a digest by the name of
# its algorithm.
import functools
import hashlib

MASK = 2 ** 64 - 1
P1, P2, P3, P4, P5 = (0x9E3779B185EBCA87, 0xC2B2AE3D27D4EB4F, 0x165667B19E3779F9, 0x85EBCA77C2B2AE63, 0x27D4EB2F165667C5)
Q1, Q2, Q3 = 0x9E3779B1, 0x85EBCA77, 0xC2B2AE3D
SECRET = bytes.fromhex(
    'b8fe6c3923a44bbe7c01812cf721ad1cded46de9839097db7240a4a4b7b3671fcb79e64eccc0e578825ad07dccff7221b8084674f743248ee03590e6813a264c'
    '3c2852bb91c300cb88d0658b1b532ea371644897a20df94e3819ef46a9deacd8a8fa763fe39c343ff9dcbbc7c70b4f1d8a51e04bcdb45931c89f7ec9d9787364'
    'eac5ac8334d3ebc3c581a0fffa1363eb170ddd51b7f0da49d316552629d4689e2b16be587d47a1fc8ff8b8d17ad031ce45cb3a8f95160428afd7fbcabb4b407e')


def rotl(x, n):
    return ((x << n) | (x >> (64 - n))) & MASK


def word(b, i, n=8):
    return int.from_bytes(b[i:i + n], 'little')


def fnv1a(data):
    h = 14695981039346656037
    for byte in data:
        h = ((h ^ byte) * 1099511628211) & MASK
    return h


def last_mix(h):
    h = ((h ^ (h >> 33)) * P2) & MASK
    h = ((h ^ (h >> 29)) * P3) & MASK
    return h ^ (h >> 32)


def xxh64(data):
    def round(a, l):
        return (rotl((a + l * P2) & MASK, 31) * P1) & MASK
    n, at = len(data), 0
    if n >= 32:
        v = [(P1 + P2) & MASK, P2, 0, (-P1) & MASK]
        while at + 32 <= n:
            v = [round(v[i], word(data, at + 8 * i)) for i in range(4)]
            at += 32
        h = (rotl(v[0], 1) + rotl(v[1], 7) + rotl(v[2], 12) + rotl(v[3], 18)) & MASK
        for lane in v:
            h = ((h ^ round(0, lane)) * P1 + P4) & MASK
    else:
        h = P5
    h = (h + n) & MASK
    while at + 8 <= n:
        h = (rotl(h ^ round(0, word(data, at)), 27) * P1 + P4) & MASK
        at += 8
    if at + 4 <= n:
        h = (rotl(h ^ (word(data, at, 4) * P1 & MASK), 23) * P2 + P3) & MASK
        at += 4
    for byte in data[at:]:
        h = (rotl(h ^ (byte * P5 & MASK), 11) * P1) & MASK
    return last_mix(h)


def fold(a, b):
    product = a * b
    return (product & MASK) ^ (product >> 64)


def avalanche(h):
    h &= MASK
    h = ((h ^ (h >> 37)) * 0x165667919E3779F9) & MASK
    return h ^ (h >> 32)


def s64(i):
    return word(SECRET, i)


def mix(data, i, j):
    return fold(word(data, i) ^ s64(j), word(data, i + 8) ^ s64(j + 8))


def short(data):
    n = len(data)
    if n == 0:
        return last_mix(s64(56) ^ s64(64))
    if n <= 3:
        combined = data[0] << 16 | data[n // 2] << 24 | data[n - 1] | n << 8
        return last_mix(combined ^ word(SECRET, 0, 4) ^ word(SECRET, 4, 4))
    if n <= 8:
        k = (word(data, n - 4, 4) + (word(data, 0, 4) << 32)) ^ s64(8) ^ s64(16)
        k ^= rotl(k, 49) ^ rotl(k, 24)
        k = (k * 0x9FB21C651E98DF25) & MASK
        k ^= ((k >> 35) + n) & MASK
        k = (k * 0x9FB21C651E98DF25) & MASK
        return k ^ (k >> 28)
    low = word(data, 0) ^ s64(24) ^ s64(32)
    high = word(data, n - 8) ^ s64(40) ^ s64(48)
    return avalanche(n + int.from_bytes(low.to_bytes(8, 'big'), 'little') + high + fold(low, high))


def middle(data):
    n = len(data)
    h = n * P1 + mix(data, 0, 0) + mix(data, n - 16, 16)
    for above, i, j in [(32, 16, 32), (64, 32, 64), (96, 48, 96)]:
        if n > above:
            h += mix(data, i, j) + mix(data, n - 16 - i, j + 16)
    if n <= 128:
        return avalanche(h)
    a = avalanche(n * P1 + sum(mix(data, 16 * i, 16 * i) for i in range(8)))
    return avalanche(a + sum(mix(data, 16 * i, 16 * (i - 8) + 3) for i in range(8, n // 16)) + mix(data, n - 16, 119))


def long(data):
    n = len(data)
    lanes = [Q3, P1, P2, P3, P4, Q2, P5, Q1]

    def stripe(at, place):
        for i in range(8):
            d = word(data, at + 8 * i)
            k = d ^ s64(place + 8 * i)
            lanes[i ^ 1] = (lanes[i ^ 1] + d) & MASK
            lanes[i] = (lanes[i] + (k & 0xFFFFFFFF) * (k >> 32)) & MASK
    for m in range((n - 1) // 64):
        stripe(64 * m, 8 * (m % 16))
        if m % 16 == 15:
            for i in range(8):
                lanes[i] = ((lanes[i] ^ (lanes[i] >> 47) ^ s64(128 + 8 * i)) * Q1) & MASK
    stripe(n - 64, 121)
    return avalanche(n * P1 + sum(fold(lanes[2 * i] ^ s64(11 + 16 * i), lanes[2 * i + 1] ^ s64(19 + 16 * i)) for i in range(4)))


def xxh3(data):
    if len(data) <= 16:
        return short(data)
    return middle(data) if len(data) <= 240 else long(data)


def md5(data):
    return hashlib.md5(data).hexdigest().upper()


@functools.lru_cache(4096)
def digest(algorithm, data):
    """The text of some bytes under an algorithm."""
    if algorithm == 'md5':
        return md5(data)
    number = {'fnv1a': fnv1a, 'fnv1a-decimal': fnv1a, 'xxh64': xxh64, 'xxh3': xxh3}[algorithm](data)
    return str(number) if algorithm == 'fnv1a-decimal' else f'{number:016X}'
