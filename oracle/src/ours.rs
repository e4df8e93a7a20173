//! The sine, cosine and arc tangent of two arguments that the oracle gets, since Rust leaves the precision of its own open: fdlibm 5.3's
//! algorithms and constants (NOTICE has its terms), ported so that the oracle calls nothing of the proved code. `compare fdlibm` holds them
//! to the proved ones. Sine and cosine are inlined, which the timings gain by.

/// The upper 32 bits of the magnitude.
fn high(x: f64) -> u32 {
    (x.to_bits() >> 32) as u32 & 0x7fff_ffff
}

fn exponent(x: f64) -> i32 {
    (x.to_bits() >> 52 & 0x7ff) as i32
}

/// `__kernel_sin`: `tail` is `iy`, whether y is to be used.
#[inline(always)]
fn kernel_sin(x: f64, y: f64, tail: bool) -> f64 {
    if high(x) < 0x3e40_0000 {
        return x;
    }
    let z = x * x;
    let v = z * x;
    let r = 8.333_333_333_322_489_461_24e-03
        + z * (-1.984_126_982_985_794_931_34e-04
            + z * (2.755_731_370_707_006_767_89e-06
                + z * (-2.505_076_025_340_686_341_95e-08 + z * 1.589_690_995_211_550_102_21e-10)));
    let s1 = -1.666_666_666_666_663_243_48e-01;
    if tail {
        x - ((z * (0.5 * y - v * r) - y) - v * s1)
    } else {
        x + v * (s1 + z * r)
    }
}

/// `__kernel_cos`.
#[inline(always)]
fn kernel_cos(x: f64, y: f64) -> f64 {
    let ix = high(x);
    if ix < 0x3e40_0000 {
        return 1.0;
    }
    let z = x * x;
    let r = z
        * (4.166_666_666_666_660_190_37e-02
            + z * (-1.388_888_888_887_410_957_49e-03
                + z * (2.480_158_728_947_672_941_78e-05
                    + z * (-2.755_731_435_139_066_330_35e-07
                        + z * (2.087_572_321_298_174_827_90e-09
                            + z * -1.135_964_755_778_819_482_65e-11)))));
    if ix < 0x3fd3_3333 {
        return 1.0 - (0.5 * z - (z * r - x * y));
    }
    let qx = if ix > 0x3fe9_0000 {
        0.28125
    } else {
        f64::from_bits(u64::from(ix - 0x0020_0000) << 32)
    };
    (1.0 - qx) - ((0.5 * z - qx) - (z * r - x * y))
}

/// `npio2_hw`: the upper bits of the multiples of a quarter turn.
const QUARTERS: [u32; 32] = [
    0x3ff9_21fb,
    0x4009_21fb,
    0x4012_d97c,
    0x4019_21fb,
    0x401f_6a7a,
    0x4022_d97c,
    0x4025_fdbb,
    0x4029_21fb,
    0x402c_463a,
    0x402f_6a7a,
    0x4031_475c,
    0x4032_d97c,
    0x4034_6b9c,
    0x4035_fdbb,
    0x4037_8fdb,
    0x4039_21fb,
    0x403a_b41b,
    0x403c_463a,
    0x403d_d85a,
    0x403f_6a7a,
    0x4040_7e4c,
    0x4041_475c,
    0x4042_106c,
    0x4042_d97c,
    0x4043_a28c,
    0x4044_6b9c,
    0x4045_34ac,
    0x4045_fdbb,
    0x4046_c6cb,
    0x4047_8fdb,
    0x4048_58eb,
    0x4049_21fb,
];
const PIO2_1: f64 = 1.570_796_326_734_125_614_17;
const PIO2_1T: f64 = 6.077_100_506_506_192_249_32e-11;
const PIO2_2: f64 = 6.077_100_506_303_965_976_60e-11;
const PIO2_2T: f64 = 2.022_266_248_795_950_631_54e-21;
const PIO2_3: f64 = 2.022_266_248_711_166_455_80e-21;
const PIO2_3T: f64 = 8.478_427_660_368_899_569_97e-32;

/// The greatest high word of a medium angle.
const MEDIUM: u32 = 0x4139_21fb;

/// `__ieee754_rem_pio2` of an angle above pi/4 in magnitude and at most a medium one: the quadrant (0 to 3) and the two parts of what is left.
#[inline(always)]
fn reduce(x: f64) -> (u32, f64, f64) {
    let ix = high(x);
    let negative = x.is_sign_negative();
    if ix < 0x4002_d97c {
        let s = if negative { -1.0 } else { 1.0 };
        let mut z = x - s * PIO2_1;
        let mut part = PIO2_1T;
        if ix == 0x3ff9_21fb {
            z -= s * PIO2_2;
            part = PIO2_2T;
        }
        let y = z - s * part;
        return (if negative { 3 } else { 1 }, y, (z - y) - s * part);
    }
    let t = x.abs();
    let n = (t * 6.366_197_723_675_813_824_33e-01 + 0.5) as u32;
    let f = f64::from(n);
    let mut r = t - f * PIO2_1;
    let mut w = f * PIO2_1T;
    let mut y = r - w;
    if n >= 32 || ix == QUARTERS[n as usize - 1] {
        let j = (ix >> 20) as i32;
        if j - exponent(y) > 16 {
            let t = r;
            w = f * PIO2_2;
            r = t - w;
            w = f * PIO2_2T - ((t - r) - w);
            y = r - w;
            if j - exponent(y) > 49 {
                let t = r;
                w = f * PIO2_3;
                r = t - w;
                w = f * PIO2_3T - ((t - r) - w);
                y = r - w;
            }
        }
    }
    let low = (r - y) - w;
    if negative {
        (n.wrapping_neg() & 3, -y, -low)
    } else {
        (n & 3, y, low)
    }
}

/// `two_over_pi`: 2/pi in digits of 24 bits.
const TWO_OVER_PI: [u32; 66] = [
    0xa2_f983, 0x6e_4e44, 0x15_29fc, 0x27_57d1, 0xf5_34dd, 0xc0_db62, 0x95_993c, 0x43_9041,
    0xfe_5163, 0xab_debb, 0xc5_61b7, 0x24_6e3a, 0x42_4dd2, 0xe0_0649, 0x2e_ea09, 0xd1_921c,
    0xfe_1deb, 0x1c_b129, 0xa7_3ee8, 0x82_35f5, 0x2e_bb44, 0x84_e99c, 0x70_26b4, 0x5f_7e41,
    0x39_91d6, 0x39_8353, 0x39_f49c, 0x84_5f8b, 0xbd_f928, 0x3b_1ff8, 0x97_ffde, 0x05_980f,
    0xef_2f11, 0x8b_5a0a, 0x6d_1f6d, 0x36_7ecf, 0x27_cb09, 0xb7_4f46, 0x3f_669e, 0x5f_ea2d,
    0x75_27ba, 0xc7_ebe5, 0xf1_7b3d, 0x07_39f7, 0x8a_5292, 0xea_6bfb, 0x5f_b11f, 0x8d_5d08,
    0x56_0330, 0x46_fc7b, 0x6b_abf0, 0xcf_bc20, 0x9a_f436, 0x1d_a9e3, 0x91_615e, 0xe6_1b08,
    0x65_9985, 0x5f_14a0, 0x68_408d, 0xff_d880, 0x4d_7327, 0x31_0606, 0x15_56ca, 0x73_a8c9,
    0x60_e27b, 0xc0_8c6b,
];
/// `PIo2`, as far as prec 2 reads it: pi/2 in parts of 24 bits.
const PIO2: [f64; 5] = [
    1.570_796_251_296_997_070_31,
    7.549_789_415_861_596_353_35e-08,
    5.390_302_529_957_764_765_54e-15,
    3.282_003_415_807_912_941_23e-22,
    1.270_655_753_080_676_073_49e-29,
];
const TWO_24: f64 = 16_777_216.0;

/// 2^n, the C's `scalbn(one, n)`; `scalbn(z, n)` is z times it, exact here.
fn power(n: i32) -> f64 {
    f64::from_bits(((1023 + n) as u64) << 52)
}

/// The last branch of `__ieee754_rem_pio2`, for a finite angle above the medium ones.
fn reduce_large(x: f64) -> (u32, f64, f64) {
    let e0 = exponent(x) - 1046;
    let mut z = f64::from_bits(x.abs().to_bits() & (1 << 52) - 1 | (1023 + 23) << 52);
    let mut tx = [0.0; 3];
    for t in &mut tx[..2] {
        *t = f64::from(z as i32);
        z = (z - *t) * TWO_24;
    }
    tx[2] = z;
    let mut nx = 3;
    while tx[nx - 1] == 0.0 {
        nx -= 1;
    }
    let (n, y, low) = kernel_rem_pio2(&tx[..nx], e0);
    if x < 0.0 {
        (n.wrapping_neg() & 3, -y, -low)
    } else {
        (n & 3, y, low)
    }
}

/// `__kernel_rem_pio2` with prec 2, of the number with the digits `x` of 24 bits, the first of which counts 2^e0: the quadrant (modulo 8) and
/// the two parts of what is left. Where the C would leave its arrays this panics; no number is known that gets there.
fn kernel_rem_pio2(x: &[f64], e0: i32) -> (u32, f64, f64) {
    const JK: usize = 4;
    let jv = ((e0 - 3) / 24).max(0);
    let mut q0 = e0 - 24 * (jv + 1);
    // q[i]: of x times 2/pi what counts 2^(q0 - 24 i).
    let term = |i: usize| {
        let mut fw = 0.0;
        for (j, x) in x.iter().enumerate() {
            let digit = (jv as usize + i)
                .checked_sub(j)
                .map_or(0, |k| TWO_OVER_PI[k]);
            fw += x * f64::from(digit);
        }
        fw
    };
    let mut q = [0.0; 20];
    let mut iq = [0i32; 20];
    for (i, q) in q[..=JK].iter_mut().enumerate() {
        *q = term(i);
    }
    let mut jz = JK;
    let (n, ih, z) = loop {
        // q as digits, the last one first; z is what counts 2^q0.
        let mut z = q[jz];
        for (i, j) in (0..jz).rev().enumerate() {
            let fw = f64::from((z / TWO_24) as i32);
            iq[i] = (z - TWO_24 * fw) as i32;
            z = q[j] + fw;
        }
        z *= power(q0);
        z -= 8.0 * (z * 0.125).floor();
        let mut n = z as i32;
        z -= f64::from(n);
        // The whole part; ih: whether the rest is at least a half.
        let top = &mut iq[jz - 1];
        let ih = if q0 > 0 {
            let i = *top >> (24 - q0);
            n += i;
            *top -= i << (24 - q0);
            *top >> (23 - q0)
        } else if q0 == 0 {
            *top >> 23
        } else if z >= 0.5 {
            2
        } else {
            0
        };
        if ih > 0 {
            n += 1;
            // 1 - q.
            let mut carry = false;
            for digit in &mut iq[..jz] {
                if carry {
                    *digit = 0xff_ffff - *digit;
                } else if *digit != 0 {
                    carry = true;
                    *digit = 0x100_0000 - *digit;
                }
            }
            match q0 {
                1 => iq[jz - 1] &= 0x7f_ffff,
                2 => iq[jz - 1] &= 0x3f_ffff,
                _ => {}
            }
            if ih == 2 {
                z = 1.0 - z;
                if carry {
                    z -= power(q0);
                }
            }
        }
        if z != 0.0 || iq[JK..jz].iter().any(|digit| *digit != 0) {
            break (n as u32, ih, z);
        }
        // Nothing but zeros at the front: as many digits more, and one.
        let mut k = 1;
        while iq[JK - k] == 0 {
            k += 1;
        }
        for i in jz + 1..=jz + k {
            q[i] = term(i);
        }
        jz += k;
    };
    if z == 0.0 {
        // Zeros at the front are left out.
        jz -= 1;
        q0 -= 24;
        while iq[jz] == 0 {
            jz -= 1;
            q0 -= 24;
        }
    } else {
        let z = z * power(-q0);
        if z >= TWO_24 {
            let fw = f64::from((z / TWO_24) as i32);
            iq[jz] = (z - TWO_24 * fw) as i32;
            jz += 1;
            q0 += 24;
            iq[jz] = fw as i32;
        } else {
            iq[jz] = z as i32;
        }
    }
    // The digits as numbers, times pi/2.
    let mut fw = power(q0);
    for i in (0..=jz).rev() {
        q[i] = fw * f64::from(iq[i]);
        fw /= TWO_24;
    }
    let mut fq = [0.0; 20];
    for i in (0..=jz).rev() {
        fq[jz - i] = PIO2
            .iter()
            .zip(&q[i..=jz])
            .fold(0.0, |fw, (p, q)| fw + p * q);
    }
    let y = fq[..=jz].iter().rev().fold(0.0, |fw, x| fw + x);
    let low = fq[1..=jz].iter().fold(fq[0] - y, |fw, x| fw + x);
    if ih == 0 { (n, y, low) } else { (n, -y, -low) }
}

#[inline(always)]
fn sin_of((n, y, low): (u32, f64, f64)) -> f64 {
    match n {
        0 => kernel_sin(y, low, true),
        1 => kernel_cos(y, low),
        2 => -kernel_sin(y, low, true),
        _ => -kernel_cos(y, low),
    }
}

#[inline(always)]
fn cos_of((n, y, low): (u32, f64, f64)) -> f64 {
    match n {
        0 => kernel_cos(y, low),
        1 => -kernel_sin(y, low, true),
        2 => -kernel_cos(y, low),
        _ => kernel_sin(y, low, true),
    }
}

/// The sine of an angle above the medium ones, or of no number.
#[cold]
#[inline(never)]
fn sin_large(x: f64) -> f64 {
    if high(x) >= 0x7ff0_0000 {
        return x - x;
    }
    sin_of(reduce_large(x))
}

/// The cosine, likewise.
#[cold]
#[inline(never)]
fn cos_large(x: f64) -> f64 {
    if high(x) >= 0x7ff0_0000 {
        return x - x;
    }
    cos_of(reduce_large(x))
}

#[inline(always)]
pub(crate) fn sin(x: f64) -> f64 {
    let ix = high(x);
    if ix <= 0x3fe9_21fb {
        return kernel_sin(x, 0.0, false);
    }
    if ix > MEDIUM {
        return sin_large(x);
    }
    sin_of(reduce(x))
}

#[inline(always)]
pub(crate) fn cos(x: f64) -> f64 {
    let ix = high(x);
    if ix <= 0x3fe9_21fb {
        return kernel_cos(x, 0.0);
    }
    if ix > MEDIUM {
        return cos_large(x);
    }
    cos_of(reduce(x))
}

const ATAN_HIGH: [f64; 4] = [
    4.636_476_090_008_060_935_15e-01,
    7.853_981_633_974_482_789_99e-01,
    9.827_937_232_473_290_540_82e-01,
    1.570_796_326_794_896_558_00,
];
const ATAN_LOW: [f64; 4] = [
    2.269_877_745_296_168_709_24e-17,
    3.061_616_997_868_383_017_93e-17,
    1.390_331_103_123_099_845_16e-17,
    6.123_233_995_736_766_035_87e-17,
];
const AT: [f64; 11] = [
    3.333_333_333_333_293_180_27e-01,
    -1.999_999_999_987_648_324_76e-01,
    1.428_571_427_250_346_637_11e-01,
    -1.111_111_040_546_235_578_80e-01,
    9.090_887_133_436_506_561_96e-02,
    -7.691_876_205_044_829_994_95e-02,
    6.661_073_137_387_531_206_69e-02,
    -5.833_570_133_790_573_486_45e-02,
    4.976_877_994_615_932_360_17e-02,
    -3.653_157_274_421_691_552_70e-02,
    1.628_582_011_536_578_236_23e-02,
];

fn atan(x: f64) -> f64 {
    let ix = high(x);
    let negative = x.is_sign_negative();
    if ix >= 0x4410_0000 {
        return if x.is_nan() {
            x + x
        } else if negative {
            -ATAN_HIGH[3] - ATAN_LOW[3]
        } else {
            ATAN_HIGH[3] + ATAN_LOW[3]
        };
    }
    if ix < 0x3e20_0000 {
        return x;
    }
    let t = x.abs();
    let (x, piece) = if ix < 0x3fdc_0000 {
        (x, None)
    } else if ix < 0x3fe6_0000 {
        ((2.0 * t - 1.0) / (2.0 + t), Some(0))
    } else if ix < 0x3ff3_0000 {
        ((t - 1.0) / (t + 1.0), Some(1))
    } else if ix < 0x4003_8000 {
        ((t - 1.5) / (1.0 + 1.5 * t), Some(2))
    } else {
        (-1.0 / t, Some(3))
    };
    let z = x * x;
    let w = z * z;
    let s1 = z * (AT[0] + w * (AT[2] + w * (AT[4] + w * (AT[6] + w * (AT[8] + w * AT[10])))));
    let s2 = w * (AT[1] + w * (AT[3] + w * (AT[5] + w * (AT[7] + w * AT[9]))));
    let Some(k) = piece else {
        return x - x * (s1 + s2);
    };
    let z = ATAN_HIGH[k] - ((x * (s1 + s2) - ATAN_LOW[k]) - x);
    if negative { -z } else { z }
}

pub(crate) fn atan2(y: f64, x: f64) -> f64 {
    const PI: f64 = 3.141_592_653_589_793_116_0;
    const PI_LOW: f64 = 1.224_646_799_147_353_177_2e-16;
    if x.is_nan() || y.is_nan() {
        return x + y;
    }
    if x == 1.0 {
        return atan(y);
    }
    let (down, back) = (y.is_sign_negative(), x.is_sign_negative());
    let signed = |z: f64| if down { -z } else { z };
    if y == 0.0 {
        return if back { signed(PI) } else { y };
    }
    if x == 0.0 {
        return signed(PI / 2.0);
    }
    if x.is_infinite() {
        let z = match (y.is_infinite(), back) {
            (true, false) => PI / 4.0,
            (true, true) => 3.0 * (PI / 4.0),
            (false, false) => 0.0,
            (false, true) => PI,
        };
        return signed(z);
    }
    if y.is_infinite() {
        return signed(PI / 2.0);
    }
    let k = (high(y) as i32 - high(x) as i32) >> 20;
    let z = if k > 60 {
        PI / 2.0 + 0.5 * PI_LOW
    } else if back && k < -60 {
        0.0
    } else {
        atan((y / x).abs())
    };
    match (down, back) {
        (false, false) => z,
        (true, false) => -z,
        (false, true) => PI - (z - PI_LOW),
        (true, true) => (z - PI_LOW) - PI,
    }
}

#[cfg(test)]
mod tests {
    use super::*;

    /// Some of StrictMath's answers: an angle, and the bits of its sine and cosine.
    const LARGE: [(f64, u64, u64); 6] = [
        (1_647_100.0, 0x3fe3_e479_a618_36eb, 0x3fe9_10d1_8d26_c0d4),
        (1e22, 0xbfeb_453a_b76b_f397, 0x3fe0_be2c_ef01_c8f4),
        (
            5.319_372_648_326_541e255,
            0x3ff0_0000_0000_0000,
            0xbc21_4ae7_2e6b_a22f,
        ),
        (
            8.988_465_674_311_58e307,
            0x3fe2_0524_8cbd_b760,
            0xbfea_719f_26c2_32be,
        ),
        (-1e300, 0x3fea_2c16_b010_e385, 0xbfe2_6990_22ad_c4c1),
        (f64::MAX, 0x3f74_52fc_98b3_4e97, 0xbfef_ffe6_2ecf_ab75),
    ];

    #[test]
    fn large_angles() {
        for (x, sine, cosine) in LARGE {
            assert_eq!((sin(x).to_bits(), cos(x).to_bits()), (sine, cosine), "{x}");
        }
    }

    #[test]
    fn no_angles() {
        for x in [f64::INFINITY, f64::NEG_INFINITY, f64::NAN] {
            assert!(sin(x).is_nan() && cos(x).is_nan());
        }
    }
}
