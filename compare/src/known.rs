//! Tests of the model: values that come from outside it (the paper, the draft, the standard).

use crate::model;

/// Draws 0 whose 64 remainders modulo 4 take three values only, so that the lowest bucket not
/// taken makes up the fourth place. All 2^32 were tried: there are 178 of these, and none at
/// sizes 1 to 4 that lacks one of three places. Each row lacks another bucket.
pub const DRAWS_THAT_LACK_A_PLACE: [u32; 24] = [
    0x24F0_7B16,
    0x318B_CF12,
    0x5EB4_08EA,
    0x9918_F5CE,
    0x9D2E_65C0,
    0xE3F8_9DED,
    0x1FA5_D1F9,
    0x21FF_1149,
    0x50AD_AB3B,
    0x9505_90D5,
    0x99B2_D255,
    0xE8A3_794B,
    0x27DF_F2FC,
    0x27FD_3B0B,
    0x4DF7_6CBE,
    0x812B_19E8,
    0x8D90_2642,
    0xE0F5_DDF0,
    0x2C99_61BF,
    0x2C99_D22F,
    0x5923_0E59,
    0xA1D7_D373,
    0xA781_0D0A,
    0xE1DB_7B63,
];

fn check(what: &str, right: bool) -> Result<(), String> {
    if right {
        Ok(())
    } else {
        Err(String::from(what))
    }
}

fn packed(counts: &[i64], w: u32) -> Vec<u8> {
    let mut out = vec![0xFF; 64];
    let end = model::pack(counts, w, &mut out, 0);
    out.truncate(end);
    out
}

fn as_one_number(counts: &[i64], w: u32) -> u64 {
    model::number_of(&model::counter_bits(counts, w))
}

/// Says which value the model gets wrong.
pub fn check_model() -> Result<(), String> {
    check(
        "CRC-32 of \"123456789\"",
        model::crc_bytes(b"123456789") == 0xCBF4_3926,
    )?;
    check("CRC-32 of nothing", model::crc_bytes(b"") == 0)?;
    check("CRC-32 of eight zero bytes", model::crc(0) == 0x6522_DF69)?;
    let (a, b, c) = (0x0123_4567_89AB_CDEF, 0x0F1E_2D3C_4B5A_6978, 77);
    check(
        "the XOR of three CRC-32s is that of the XOR",
        model::crc(a) ^ model::crc(b) ^ model::crc(c) == model::crc(a ^ b ^ c),
    )?;

    check("salting 0x80 by 1", model::salt(0x80, 1) == 1)?;
    check("salting 1 by 0", model::salt(1, 0) == 1)?;
    check("salting 1 by 9", model::salt(1, 9) == 2)?;
    check("unsalting 1 by 1", model::unsalt(1, 1) == 0x80)?;
    check("unsalting 1 by 0", model::unsalt(1, 0) == 1)?;
    check("unsalting 2 by 9", model::unsalt(2, 9) == 1)?;

    let draw0 = model::crc(0x0101_0101_0101_0101);
    check(
        "the places of 0x0101010101010101 at size 37",
        model::places(draw0, 37, 3) == [20, 19, 13],
    )?;
    check(
        "the places of draws that all repeat",
        model::places_of(&[5; 64], 37, 3) == [5, 0, 1],
    )?;
    check(
        "the places of draws that all hit bucket 0",
        model::places_of(&[0; 64], 37, 3) == [0, 1, 2],
    )?;
    check(
        "three places where draw 63 brings the second",
        model::places_of(&[&[1; 63][..], &[0]].concat(), 37, 3) == [1, 0, 2],
    )?;
    for draw0 in DRAWS_THAT_LACK_A_PLACE {
        let remainders = model::remainders(draw0, 4);
        let lacking: Vec<u32> = (0..4).filter(|place| !remainders.contains(place)).collect();
        let what = format!("four places of draw {draw0:#x} at size 4");
        check(&what, lacking.len() == 1)?;
        check(&what, model::places(draw0, 4, 4)[3] == lacking[0])?;
    }

    check("width of 0", model::width(0) == 1)?;
    check("width of 1", model::width(1) == 1)?;
    check("width of 255", model::width(255) == 8)?;
    check("width of 256", model::width(256) == 9)?;
    check("width of 2^32 - 1", model::width(u32::MAX) == 32)?;
    check("stratum of 1", model::stratum(1) == 0)?;
    check("stratum of 8", model::stratum(8) == 3)?;
    check("stratum of 0", model::stratum(0) == 31)?;

    check("1,2,0,1 at width 2", packed(&[1, 2, 0, 1], 2) == [0x61])?;
    check("5,0,7 at width 3", packed(&[5, 0, 7], 3) == [0xA3, 0x80])?;
    check("256,1 at width 9", packed(&[256, 1], 9) == [0x80, 0, 0x40])?;
    check(
        "the draft's counters at width 4",
        as_one_number(&[1, 8, 10, 6, 2], 4) == 0x18A62,
    )?;
    check(
        "the draft's counters at width 5",
        as_one_number(&[26, 17, 19, 15, 2, 8], 5) == 0x3519_BC48,
    )?;
    check(
        "the draft's counters at width 3",
        as_one_number(&[4, 2, 0, 1, 3], 3) == 0x440B,
    )?;
    check(
        "reading A3 80 at width 3",
        model::counters(&[0xA3, 0x80], 0, 3, 3) == Some(vec![5, 0, 7]),
    )?;
    check(
        "spare bits of A3 80 and A3 81",
        model::spare_is_zero(&[0xA3, 0x80], 0, 3, 3)
            && !model::spare_is_zero(&[0xA3, 0x81], 0, 3, 3),
    )?;
    // 37 buckets at width 2 are 470 bytes, 16 + 12 * 37 + the counters.
    check("37 counters at width 2", model::packed_len(37, 2) == 10)
}
