//! The paper's "Both sides of each line": CSS images and CPD blobs.

use model::css::{self, Image, NOWHERE};
use model::{cpd, generate::Rng};

/// A CSS blob with these sizes: h, s, k, m, e.
fn image(sizes: [u32; 5], bytes: usize) -> Vec<u8> {
    let mut blob = Rng::new(1).bytes(bytes.max(128));
    for (index, value) in [1, 6, 7, 8, 9].into_iter().zip(sizes) {
        blob[4 * index..4 * index + 4].copy_from_slice(&value.to_le_bytes());
    }
    blob[64..68].copy_from_slice(&0xFF07_0903u32.to_le_bytes());
    blob.truncate(bytes);
    blob
}

const SIZES: [u32; 5] = [161, 1161, 64, 64, 1];

#[test]
fn css_places() {
    let shown = Image {
        code: 0,
        truncated: false,
        ucode: (128, 4128),
        rsa: (4128, 4384),
        modulus: (4384, 4640),
        exponent: (4640, 4644),
    };
    let cut = Image { truncated: true, modulus: NOWHERE, exponent: NOWHERE, ..shown };
    assert_eq!(css::locate(&image(SIZES, 4383)), Image::refused(17));
    assert_eq!(css::version(&image(SIZES, 4383)), Err(17));
    // 4,640: the modulus alone fits, and still isn't shown.
    for bytes in [4384, 4640, 4643] {
        assert_eq!(css::locate(&image(SIZES, bytes)), cut);
    }
    for bytes in [4644, 4645, 9000] {
        assert_eq!(css::locate(&image(SIZES, bytes)), shown);
    }
    assert_eq!(css::version(&image(SIZES, 4384)), Ok((7, 9, 3)));
    assert_eq!(css::judge(&image(SIZES, 127)), (15, false));
    assert_eq!(css::judge(&image(SIZES, 128)), (17, false));
}

#[test]
fn css_sizes() {
    let code = |sizes| css::judge(&image(sizes, 5000)).0;
    assert_eq!(code([160, 1161, 64, 64, 1]), 16);
    assert_eq!(code([162, 1161, 64, 64, 1]), 16);
    assert_eq!(code([161, 161, 64, 64, 1]), 16, "s = h");
    assert_eq!(code([161, 162, 64, 64, 1]), 0);
    assert_eq!(code([97, 1161, 0, 64, 1]), 16, "k = 0");
    assert_eq!(code([98, 1161, 1, 64, 1]), 0);
    assert_eq!(code([33, 34, 1, 0, 0]), 0, "m and e may be 0");
    // 32 + 1 + (2^32 - 1) + 1 = 2^32 + 33: agrees with wrap only.
    assert_eq!(code([33, 1161, 1, u32::MAX, 1]), 16);
    // 4s = 2^32 + 16: agrees, but truncated.
    let huge = (1u32 << 30) + 3 - 33;
    assert_eq!(css::judge(&image([33 + huge, (1 << 30) + 4, 1, huge, 0], 500)), (0, true));
    // 4(s - h) = 2^32 + 4.
    assert_eq!(code([33, 33 + (1 << 30) + 1, 1, 0, 0]), 17);
}

/// A directory with H 20 and these entries, cut or filled to `bytes`.
fn directory(entries: &[(&[u8], u32, u32)], bytes: usize) -> Vec<u8> {
    let mut blob = vec![0x24, 0x43, 0x50, 0x44];
    blob.extend((entries.len() as u32).to_le_bytes());
    blob.extend([1, 1, 20, 0, 9, 9, 9, 9, 9, 9, 9, 9]);
    for (name, offset, length) in entries {
        let mut padded = name.to_vec();
        padded.resize(12, 0);
        blob.extend(padded);
        blob.extend(offset.to_le_bytes());
        blob.extend(length.to_le_bytes());
        blob.extend([7; 4]);
    }
    blob.resize(bytes, 0xAA);
    blob
}

#[test]
fn cpd_ends() {
    let two = |offset: u32, length: u32, bytes| {
        directory(&[(b"other", 0, 0), (b"part", offset, length)], bytes)
    };
    assert_eq!(cpd::seek(&two(68, 0, 67), b"part"), (19, 0, 0));
    assert_eq!(cpd::seek(&two(68, 1, 68), b"part"), (21, 0, 0));
    assert_eq!(cpd::seek(&two(68, 0, 68), b"part"), (0, 68, 68));
    assert_eq!(cpd::seek(&two(69, 0, 68), b"part"), (21, 0, 0));
    assert_eq!(cpd::seek(&two(68, 1, 69), b"part"), (0, 68, 69));
    assert_eq!(cpd::seek(&two(0xFE00_0044, 1, 69), b"part"), (0, 68, 69), "bits 24:0 count");
    assert_eq!(cpd::seek(&two(68, u32::MAX - 67, 68), b"part"), (21, 0, 0), "no wrap");
}

#[test]
fn cpd_numbers() {
    let blob = directory(&[(b"huc_fw2", 1, 0), (b"huc_fw", 2, 1), (b"other", 3, 1)], 100);
    assert_eq!(cpd::seek(&blob, b"huc_fw"), (0, 2, 3), "no prefix");
    assert_eq!(cpd::seek(&blob, b"huc_f"), (20, 0, 0));
    let bad: [&[u8]; 4] = [b"", b"0123456789abc", b"huc_fw\0", b"\0"];
    for name in bad {
        assert_eq!(cpd::seek(&blob, name), (14, 0, 0));
        assert_eq!(cpd::seek(&[], name), (14, 0, 0));
    }
    assert_eq!(cpd::seek(&blob[..19], b"huc_fw"), (15, 0, 0));
    assert_eq!(cpd::seek(&blob[..20], b"huc_fw"), (19, 0, 0));
    let mut wrong = blob.clone();
    wrong[3] = 0x45;
    assert_eq!(cpd::seek(&wrong, b"huc_fw"), (18, 0, 0));
    let mut short = blob.clone();
    short[10] = 19;
    assert_eq!(cpd::seek(&short, b"huc_fw"), (18, 0, 0));
    // 24 * 0x0AAAAAAB = 2^32 + 8.
    let mut many = blob.clone();
    many[4..8].copy_from_slice(&0x0AAA_AAABu32.to_le_bytes());
    assert_eq!(cpd::seek(&many, b"huc_fw"), (19, 0, 0));
}

#[test]
fn manifest() {
    for (length, expected) in [(43, Err(15)), (44, Ok([0x0201, 0x0403, 0x0605, 0x0807]))] {
        let mut blob = directory(&[(b"HUCP.man", 44, length)], 88);
        blob[80..88].copy_from_slice(&[1, 2, 3, 4, 5, 6, 7, 8]);
        assert_eq!(cpd::manifest_version(&blob), expected);
    }
    assert_eq!(cpd::manifest_version(&directory(&[(b"HUCP.man", 44, 45)], 88)), Err(21));
    assert_eq!(cpd::manifest_version(&directory(&[], 88)), Err(20));
}

#[test]
fn huc_image() {
    for (length, code, truncated) in
        [(127, 15, false), (4383, 17, false), (4384, 0, true), (4643, 0, true), (4644, 0, false)]
    {
        let mut blob = directory(&[(b"huc_fw", 50, length)], 50);
        blob.extend(image(SIZES, 5000));
        let found = cpd::huc_locate(&blob);
        assert_eq!((found.code, found.truncated), (code, truncated));
        let expect = |from: usize, to: usize| if code == 0 { (50 + from, 50 + to) } else { (0, 0) };
        assert_eq!(found.ucode, expect(128, 4128));
        assert_eq!(found.rsa, expect(4128, 4384));
        let shown = code == 0 && !truncated;
        assert_eq!(found.modulus, if shown { (4434, 4690) } else { (0, 0) });
        assert_eq!(found.exponent, if shown { (4690, 4694) } else { (0, 0) });
        let version = if code == 0 { Ok((7, 9, 3)) } else { Err(code) };
        assert_eq!(cpd::huc_version(&blob), version);
    }
}
