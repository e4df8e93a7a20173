// The same algorithms as crates/fdlibm in C, as the yardstick of the benchmark only: nothing links it but bench/speed_fdlibm.c.
// Algorithm and constants are fdlibm 5.3's (docs/parts/fdlibm.md has its notice), its scalbn and floor too; of the C library it calls fabs
// alone.
#include <math.h>
#include <stdint.h>
#include <string.h>

static uint64_t bits_of(double x) {
    uint64_t b;
    memcpy(&b, &x, 8);
    return b;
}

static double of_bits(uint64_t b) {
    double x;
    memcpy(&x, &b, 8);
    return x;
}

static uint32_t high(double x) {
    return (uint32_t)(bits_of(x) >> 32) & 0x7fffffff;
}

static double kernel_sin(double x, double y, int tail) {
    if (high(x) < 0x3e400000) {
        return x;
    }
    double z = x * x, v = z * x;
    double r = 8.33333333332248946124e-03 + z * (-1.98412698298579493134e-04 + z * (2.75573137070700676789e-06
        + z * (-2.50507602534068634195e-08 + z * 1.58969099521155010221e-10)));
    const double s1 = -1.66666666666666324348e-01;
    return tail ? x - ((z * (0.5 * y - v * r) - y) - v * s1) : x + v * (s1 + z * r);
}

static double kernel_cos(double x, double y) {
    uint32_t ix = high(x);
    if (ix < 0x3e400000) {
        return 1.0;
    }
    double z = x * x;
    double r = z * (4.16666666666666019037e-02 + z * (-1.38888888888741095749e-03 + z * (2.48015872894767294178e-05
        + z * (-2.75573143513906633035e-07 + z * (2.08757232129817482790e-09 + z * -1.13596475577881948265e-11)))));
    if (ix < 0x3fd33333) {
        return 1.0 - (0.5 * z - (z * r - x * y));
    }
    double qx = ix > 0x3fe90000 ? 0.28125 : of_bits((uint64_t)(ix - 0x00200000) << 32);
    return (1.0 - qx) - ((0.5 * z - qx) - (z * r - x * y));
}

static const uint32_t table[32] = {
    0x3ff921fb, 0x400921fb, 0x4012d97c, 0x401921fb, 0x401f6a7a, 0x4022d97c, 0x4025fdbb, 0x402921fb, 0x402c463a, 0x402f6a7a, 0x4031475c,
    0x4032d97c, 0x40346b9c, 0x4035fdbb, 0x40378fdb, 0x403921fb, 0x403ab41b, 0x403c463a, 0x403dd85a, 0x403f6a7a, 0x40407e4c, 0x4041475c,
    0x4042106c, 0x4042d97c, 0x4043a28c, 0x40446b9c, 0x404534ac, 0x4045fdbb, 0x4046c6cb, 0x40478fdb, 0x404858eb, 0x404921fb,
};
static const double pio2_1 = 1.57079632673412561417e+00, pio2_1t = 6.07710050650619224932e-11, pio2_2 = 6.07710050630396597660e-11,
    pio2_2t = 2.02226624879595063154e-21, pio2_3 = 2.02226624871116645580e-21, pio2_3t = 8.47842766036889956997e-32;

static const int32_t two_over_pi[66] = {
    0xa2f983, 0x6e4e44, 0x1529fc, 0x2757d1, 0xf534dd, 0xc0db62, 0x95993c, 0x439041, 0xfe5163, 0xabdebb, 0xc561b7,
    0x246e3a, 0x424dd2, 0xe00649, 0x2eea09, 0xd1921c, 0xfe1deb, 0x1cb129, 0xa73ee8, 0x8235f5, 0x2ebb44, 0x84e99c,
    0x7026b4, 0x5f7e41, 0x3991d6, 0x398353, 0x39f49c, 0x845f8b, 0xbdf928, 0x3b1ff8, 0x97ffde, 0x05980f, 0xef2f11,
    0x8b5a0a, 0x6d1f6d, 0x367ecf, 0x27cb09, 0xb74f46, 0x3f669e, 0x5fea2d, 0x7527ba, 0xc7ebe5, 0xf17b3d, 0x0739f7,
    0x8a5292, 0xea6bfb, 0x5fb11f, 0x8d5d08, 0x560330, 0x46fc7b, 0x6babf0, 0xcfbc20, 0x9af436, 0x1da9e3, 0x91615e,
    0xe61b08, 0x659985, 0x5f14a0, 0x68408d, 0xffd880, 0x4d7327, 0x310606, 0x1556ca, 0x73a8c9, 0x60e27b, 0xc08c6b,
};
static const double pio2[] = {1.57079625129699707031e+00, 7.54978941586159635335e-08, 5.39030252995776476554e-15,
    3.28200341580791294123e-22, 1.27065575308067607349e-29};
static const double two24 = 16777216.0, twon24 = 5.96046447753906250000e-08;

// fdlibm's scalbn, of zero and of normal numbers that stay normal.
static double scaled(double x, int n) {
    uint64_t b = bits_of(x);
    return b << 1 == 0 ? x : of_bits(b + ((uint64_t)(int64_t)n << 52));
}

// fdlibm's floor, of numbers that are not negative.
static double whole(double x) {
    uint64_t b = bits_of(x);
    int e = (int)(b >> 52) - 1023;
    return e < 0 ? 0.0 : e > 51 ? x : of_bits(b & ~(0x000fffffffffffffu >> e));
}

// __kernel_rem_pio2 with prec 2.
static int kernel_rem_pio2(const double *x, double *y, int e0, int nx) {
    enum { jk = 4, jp = jk };
    int jx = nx - 1, jv = e0 < 3 ? 0 : (e0 - 3) / 24, q0 = e0 - 24 * (jv + 1), jz = jk, iq[20], n, ih, carry, i, j, k;
    double f[20], q[20], fq[20], z, fw;
    for (i = 0, j = jv - jx; i <= jx + jk; i++, j++) {
        f[i] = j < 0 ? 0.0 : (double)two_over_pi[j];
    }
    for (i = 0; i <= jk; i++) {
        for (j = 0, fw = 0.0; j <= jx; j++) {
            fw += x[j] * f[jx + i - j];
        }
        q[i] = fw;
    }
recompute:
    for (i = 0, j = jz, z = q[jz]; j > 0; i++, j--) {
        fw = (double)(int)(twon24 * z);
        iq[i] = (int)(z - two24 * fw);
        z = q[j - 1] + fw;
    }
    z = scaled(z, q0);
    z -= 8.0 * whole(z * 0.125);
    n = (int)z;
    z -= (double)n;
    ih = 0;
    if (q0 > 0) {
        i = iq[jz - 1] >> (24 - q0);
        n += i;
        iq[jz - 1] -= i << (24 - q0);
        ih = iq[jz - 1] >> (23 - q0);
    } else if (q0 == 0) {
        ih = iq[jz - 1] >> 23;
    } else if (z >= 0.5) {
        ih = 2;
    }
    if (ih > 0) {
        n++;
        carry = 0;
        for (i = 0; i < jz; i++) {
            j = iq[i];
            if (carry) {
                iq[i] = 0xffffff - j;
            } else if (j != 0) {
                carry = 1;
                iq[i] = 0x1000000 - j;
            }
        }
        if (q0 == 1) {
            iq[jz - 1] &= 0x7fffff;
        } else if (q0 == 2) {
            iq[jz - 1] &= 0x3fffff;
        }
        if (ih == 2) {
            z = 1.0 - z;
            if (carry) {
                z -= scaled(1.0, q0);
            }
        }
    }
    if (z == 0.0) {
        for (i = jz - 1, j = 0; i >= jk; i--) {
            j |= iq[i];
        }
        if (j == 0) {
            for (k = 1; iq[jk - k] == 0; k++) {
            }
            for (i = jz + 1; i <= jz + k; i++) {
                f[jx + i] = (double)two_over_pi[jv + i];
                for (j = 0, fw = 0.0; j <= jx; j++) {
                    fw += x[j] * f[jx + i - j];
                }
                q[i] = fw;
            }
            jz += k;
            goto recompute;
        }
        for (jz--, q0 -= 24; iq[jz] == 0; jz--) {
            q0 -= 24;
        }
    } else {
        z = scaled(z, -q0);
        if (z >= two24) {
            fw = (double)(int)(twon24 * z);
            iq[jz] = (int)(z - two24 * fw);
            jz++;
            q0 += 24;
            iq[jz] = (int)fw;
        } else {
            iq[jz] = (int)z;
        }
    }
    fw = scaled(1.0, q0);
    for (i = jz; i >= 0; i--) {
        q[i] = fw * (double)iq[i];
        fw *= twon24;
    }
    for (i = jz; i >= 0; i--) {
        for (fw = 0.0, k = 0; k <= jp && k <= jz - i; k++) {
            fw += pio2[k] * q[i + k];
        }
        fq[jz - i] = fw;
    }
    for (fw = 0.0, i = jz; i >= 0; i--) {
        fw += fq[i];
    }
    y[0] = ih == 0 ? fw : -fw;
    fw = fq[0] - fw;
    for (i = 1; i <= jz; i++) {
        fw += fq[i];
    }
    y[1] = ih == 0 ? fw : -fw;
    return n & 7;
}

// The last branch of __ieee754_rem_pio2.
static int reduce_large(double x, double *y) {
    uint64_t b = bits_of(x) << 1 >> 1;
    int e0 = (int)(b >> 52) - 1046, nx = 3;
    double tx[3], z = of_bits(b - ((uint64_t)(int64_t)e0 << 52));
    for (int i = 0; i < 2; i++) {
        tx[i] = (double)(int)z;
        z = (z - tx[i]) * two24;
    }
    tx[2] = z;
    while (tx[nx - 1] == 0.0) {
        nx--;
    }
    int n = kernel_rem_pio2(tx, y, e0, nx);
    if (x < 0) {
        y[0] = -y[0];
        y[1] = -y[1];
        return -n & 3;
    }
    return n & 3;
}

// The quadrant, 0 to 3.
static int reduce(double x, double *y) {
    uint32_t ix = high(x);
    int negative = bits_of(x) >> 63;
    if (ix < 0x4002d97c) {
        double s = negative ? -1.0 : 1.0, z = x - s * pio2_1, part = pio2_1t;
        if (ix == 0x3ff921fb) {
            z -= s * pio2_2;
            part = pio2_2t;
        }
        y[0] = z - s * part;
        y[1] = (z - y[0]) - s * part;
        return negative ? 3 : 1;
    }
    if (ix > 0x413921fb) {
        return reduce_large(x, y);
    }
    double t = fabs(x);
    int n = (int)(t * 6.36619772367581382433e-01 + 0.5);
    double fn = n, r = t - fn * pio2_1, w = fn * pio2_1t;
    y[0] = r - w;
    if (n >= 32 || ix == table[n - 1]) {
        int j = ix >> 20;
        if (j - (int)(bits_of(y[0]) >> 52 & 0x7ff) > 16) {
            t = r;
            w = fn * pio2_2;
            r = t - w;
            w = fn * pio2_2t - ((t - r) - w);
            y[0] = r - w;
            if (j - (int)(bits_of(y[0]) >> 52 & 0x7ff) > 49) {
                t = r;
                w = fn * pio2_3;
                r = t - w;
                w = fn * pio2_3t - ((t - r) - w);
                y[0] = r - w;
            }
        }
    }
    y[1] = (r - y[0]) - w;
    if (negative) {
        y[0] = -y[0];
        y[1] = -y[1];
        return -n & 3;
    }
    return n & 3;
}

double c_sin(double x) {
    uint32_t ix = high(x);
    double y[2];
    if (ix <= 0x3fe921fb) {
        return kernel_sin(x, 0.0, 0);
    }
    if (ix >= 0x7ff00000) {
        return x - x;
    }
    switch (reduce(x, y)) {
    case 0:
        return kernel_sin(y[0], y[1], 1);
    case 1:
        return kernel_cos(y[0], y[1]);
    case 2:
        return -kernel_sin(y[0], y[1], 1);
    default:
        return -kernel_cos(y[0], y[1]);
    }
}

double c_cos(double x) {
    uint32_t ix = high(x);
    double y[2];
    if (ix <= 0x3fe921fb) {
        return kernel_cos(x, 0.0);
    }
    if (ix >= 0x7ff00000) {
        return x - x;
    }
    switch (reduce(x, y)) {
    case 0:
        return kernel_cos(y[0], y[1]);
    case 1:
        return -kernel_sin(y[0], y[1], 1);
    case 2:
        return -kernel_cos(y[0], y[1]);
    default:
        return kernel_sin(y[0], y[1], 1);
    }
}

static const double atan_hi[] = {4.63647609000806093515e-01, 7.85398163397448278999e-01, 9.82793723247329054082e-01, 1.57079632679489655800e+00};
static const double atan_lo[] = {2.26987774529616870924e-17, 3.06161699786838301793e-17, 1.39033110312309984516e-17, 6.12323399573676603587e-17};
static const double a[] = {3.33333333333329318027e-01, -1.99999999998764832476e-01, 1.42857142725034663711e-01, -1.11111104054623557880e-01,
    9.09088713343650656196e-02, -7.69187620504482999495e-02, 6.66107313738753120669e-02, -5.83357013379057348645e-02,
    4.97687799461593236017e-02, -3.65315727442169155270e-02, 1.62858201153657823623e-02};

double c_atan(double x) {
    uint32_t ix = high(x);
    int negative = bits_of(x) >> 63, id = -1;
    if (ix >= 0x44100000) {
        return x != x ? x + x : negative ? -atan_hi[3] - atan_lo[3] : atan_hi[3] + atan_lo[3];
    }
    if (ix < 0x3fdc0000) {
        if (ix < 0x3e200000) {
            return x;
        }
    } else {
        double t = fabs(x);
        if (ix < 0x3fe60000) {
            id = 0;
            x = (2.0 * t - 1.0) / (2.0 + t);
        } else if (ix < 0x3ff30000) {
            id = 1;
            x = (t - 1.0) / (t + 1.0);
        } else if (ix < 0x40038000) {
            id = 2;
            x = (t - 1.5) / (1.0 + 1.5 * t);
        } else {
            id = 3;
            x = -1.0 / t;
        }
    }
    double z = x * x, w = z * z;
    double s1 = z * (a[0] + w * (a[2] + w * (a[4] + w * (a[6] + w * (a[8] + w * a[10])))));
    double s2 = w * (a[1] + w * (a[3] + w * (a[5] + w * (a[7] + w * a[9]))));
    if (id < 0) {
        return x - x * (s1 + s2);
    }
    z = atan_hi[id] - ((x * (s1 + s2) - atan_lo[id]) - x);
    return negative ? -z : z;
}

double c_atan2(double y, double x) {
    const double pi = 3.1415926535897931160E+00, pi_lo = 1.2246467991473531772E-16, half_pi = pi / 2;
    uint64_t bx = bits_of(x), by = bits_of(y), mx = bx << 1 >> 1, my = by << 1 >> 1;
    if (x != x || y != y) {
        return x + y;
    }
    if (bx == 0x3ff0000000000000) {
        return c_atan(y);
    }
    int m = (int)(by >> 63) | (int)(bx >> 62 & 2);
    if (my == 0) {
        return m == 2 ? pi : m == 3 ? -pi : y;
    }
    if (mx == 0) {
        return m & 1 ? -half_pi : half_pi;
    }
    int32_t ix = mx >> 32, iy = my >> 32;
    if (ix == 0x7ff00000) {
        double z = iy == 0x7ff00000 ? pi / 4 : 0.0;
        z = m & 2 ? (iy == 0x7ff00000 ? 3.0 * (pi / 4) : pi) : z;
        return m & 1 ? -z : z;
    }
    if (iy == 0x7ff00000) {
        return m & 1 ? -half_pi : half_pi;
    }
    int k = (iy - ix) >> 20;
    double z = k > 60 ? half_pi + 0.5 * pi_lo : m & 2 && k < -60 ? 0.0 : c_atan(fabs(y / x));
    switch (m) {
    case 0:
        return z;
    case 1:
        return -z;
    case 2:
        return pi - (z - pi_lo);
    default:
        return (z - pi_lo) - pi;
    }
}
