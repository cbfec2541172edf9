//! Published values of FNV-1a 64 and SplitMix64, the 256 byte values, and
//! the way from bytes to a place.

use crate::oracle;
use reference::answer::Answer;
use reference::identifier::*;
use reference::rng::Rng;

#[test]
fn fnv1a_64_published() {
    // From the test suite of the FNV authors.
    let vectors: [(&[u8], u64); 12] = [
        (b"", 0xcbf29ce484222325),
        (b"a", 0xaf63dc4c8601ec8c),
        (b"b", 0xaf63df4c8601f1a5),
        (b"c", 0xaf63de4c8601eff2),
        (b"d", 0xaf63d94c8601e773),
        (b"e", 0xaf63d84c8601e5c0),
        (b"f", 0xaf63db4c8601ead9),
        (b"fo", 0x08985907b541d342),
        (b"foo", 0xdcb27518fed9d577),
        (b"foob", 0xdd120e790c2512af),
        (b"fooba", 0xcac165afa2fef40a),
        (b"foobar", 0x85944171f73967e8),
    ];
    for (bytes, hash) in vectors {
        assert_eq!(fnv1a64(bytes), hash, "{bytes:?}");
        assert_eq!(oracle::fnv(bytes), hash, "{bytes:?}");
    }
}

#[test]
fn splitmix64_published() {
    // The first outputs of the generator; its state grows by GAMMA, and S
    // takes the state before that.
    const GAMMA: u64 = 0x9e3779b97f4a7c15;
    let sequences: [(u64, [u64; 5]); 2] = [
        (
            1234567,
            [
                6457827717110365317,
                3203168211198807973,
                9817491932198370423,
                4593380528125082431,
                16408922859458223821,
            ],
        ),
        (
            0,
            [
                0xe220a8397b1dcdaf,
                0x6e789e6aa1b965f4,
                0x06c45d188009454f,
                0xf88bb8a8724c81ec,
                0x1b39896a51a8749b,
            ],
        ),
    ];
    for (seed, outputs) in sequences {
        let mut state = seed;
        for output in outputs {
            assert_eq!(s(state), output);
            assert_eq!(oracle::mix(state), output);
            assert_eq!(s_inverse(output), state);
            state = state.wrapping_add(GAMMA);
        }
    }
}

#[test]
fn s_and_its_inverse() {
    let mut rng = Rng::new(1);
    let mut numbers: Vec<u64> = vec![
        0,
        1,
        u64::MAX,
        1 << 63,
        0u64.wrapping_sub(0x9e3779b97f4a7c15),
    ];
    numbers.extend((0..64).map(|i| 1 << i));
    numbers.extend((0..10_000).map(|_| rng.next()));
    for n in numbers {
        assert_eq!(s(n), oracle::mix(n));
        assert_eq!(s_inverse(s(n)), n);
        assert_eq!(s(s_inverse(n)), n);
        assert_eq!(word_of_level2(level2_vector(n)), n);
        assert_eq!(level2_vector(word_of_level2(n)), n);
        assert_eq!(level1_vector(n), n);
    }
}

#[test]
fn every_byte_value() {
    let others = "*-_=:+|@.";
    let mut allowed = 0;
    for byte in 0..=255u8 {
        let c = char::from(byte);
        let expected = if c.is_ascii_alphanumeric() || others.contains(c) {
            Some(c.to_ascii_uppercase() as u8)
        } else {
            None
        };
        assert_eq!(fold(byte), expected, "byte {byte}");
        assert_eq!(oracle::fold(byte), expected, "byte {byte}");
        for kind in 1..=7 {
            let checked = check(kind, &[byte]);
            match expected {
                Some(_) => assert_eq!(checked, Ok(())),
                None => assert_eq!(checked, Err(Answer { cause: 2, value: 0 })),
            }
        }
        allowed += u32::from(expected.is_some());
    }
    assert_eq!(allowed, 26 + 26 + 10 + 9);
}

#[test]
fn lengths_and_first_index() {
    let refused = |cause, value| Err(Answer { cause, value });
    assert_eq!(check(2, b""), refused(1, 0));
    assert_eq!(check(2, b"x"), Ok(()));
    assert_eq!(check(2, &[b'x'; 20]), Ok(()));
    assert_eq!(check(2, &[b'x'; 21]), Ok(()));
    assert_eq!(check(2, &[b'x'; 36]), Ok(()));
    assert_eq!(check(2, &[b'x'; 37]), refused(1, 37));
    // The length comes first.
    assert_eq!(check(2, &[b'/'; 37]), refused(1, 37));
    assert_eq!(check(2, &[0; 1000]), refused(1, 1000));
    for index in 0..36 {
        let mut bytes = [b'q'; 36];
        bytes[index] = b' ';
        bytes[35] = b'/';
        assert_eq!(check(2, &bytes), refused(2, index as u64));
        assert_eq!(word(2, &bytes).map(|_| ()), refused(2, index as u64));
    }
}

#[test]
fn words_and_places() {
    assert_eq!(word(2, b"foobar"), Ok(s(fnv1a64(b"\x02FOOBAR"))));
    assert_eq!(word(2, b"Bus-17"), word(2, b"bUS-17"));
    assert_ne!(word(2, b"a0*"), word(2, b"a\x10*"));
    let mut rng = Rng::new(2);
    for _ in 0..20_000 {
        let kind = oracle::any_kind(&mut rng);
        let len = rng.below(40) as usize;
        let bytes = if rng.one_in(4) {
            rng.bytes(len)
        } else {
            oracle::random_identifier(&mut rng, len)
        };
        assert_eq!(word(kind, &bytes), oracle::word(kind, &bytes));
    }
    for _ in 0..1000 {
        let p = rng.next();
        for buckets in 1..=48 {
            assert_eq!(threshold(p), p & 7);
            assert_eq!(bucket(p, buckets), (p >> 3) % buckets);
        }
    }
    assert_eq!(place(0), 0xe220a8397b1dcdaf);
}
