// Arguments and the answers of Java's StrictMath, which is fdlibm 5.3 by its specification, as 8-byte big-endian words.
//
//   java StrictMathAnswers.java list                     the fixed list that the gate replays (`| tools/lists.py put fdlibm -`)
//   java StrictMathAnswers.java stream FUNCTION SEED N   N random records of one function: sin, cos, atan or atan2
//
// A record of the list is y, x and the bits of sin(x), cos(x), atan(x) and atan2(y, x); every NaN is 7ff8000000000000. A record of a
// stream is the argument (atan2: y, then x) and the answer. How many records there are goes to standard error.
import java.io.BufferedOutputStream;
import java.io.DataOutputStream;
import java.io.IOException;
import java.math.BigInteger;
import java.util.SplittableRandom;

public class StrictMathAnswers {
    static final long SIGN = 0x8000000000000000L;
    static final long INFINITY = 0x7ff0000000000000L;

    // The high words at which a case of the four functions begins or ends.
    static final int[] HIGH_WORDS = {
        0x00000000, 0x00080000, 0x00100000, 0x3e200000, 0x3e400000, 0x3fd33333, 0x3fdc0000, 0x3fe00000, 0x3fe60000,
        0x3fe90000, 0x3fe921fb, 0x3ff00000, 0x3ff30000, 0x3ff921fb, 0x4002d97c, 0x40038000, 0x400921fb, 0x404858eb,
        0x404921fb, 0x41300000, 0x413921fb, 0x41400000, 0x44100000, 0x7fe00000, 0x7ff00000,
    };

    static String function;
    static DataOutputStream out;
    static long written = 0;

    static double answer(double y, double x) {
        switch (function) {
            case "sin":
                return StrictMath.sin(x);
            case "cos":
                return StrictMath.cos(x);
            case "atan":
                return StrictMath.atan(x);
            default:
                return StrictMath.atan2(y, x);
        }
    }

    static boolean two() {
        return function.equals("atan2");
    }

    // A record of a stream.
    static void write(long y, long x) throws IOException {
        if (two()) {
            out.writeLong(y);
        }
        out.writeLong(x);
        out.writeLong(Double.doubleToLongBits(answer(Double.longBitsToDouble(y), Double.longBitsToDouble(x))));
        written++;
    }

    // A record of the list.
    static void record(long y, long x) throws IOException {
        double v = Double.longBitsToDouble(y);
        double u = Double.longBitsToDouble(x);
        out.writeLong(y);
        out.writeLong(x);
        out.writeLong(Double.doubleToLongBits(StrictMath.sin(u)));
        out.writeLong(Double.doubleToLongBits(StrictMath.cos(u)));
        out.writeLong(Double.doubleToLongBits(StrictMath.atan(u)));
        out.writeLong(Double.doubleToLongBits(StrictMath.atan2(v, u)));
        written++;
    }

    static long last = 0;

    // x with the x of the record before it as y.
    static void one(long x) throws IOException {
        record(last, x);
        last = x;
    }

    // x, the two numbers before it and the two after it, of either sign.
    static void around(long x) throws IOException {
        for (long d = -2; d <= 2; d++) {
            if (x + d >= 0) {
                one(x + d);
                one((x + d) | SIGN);
            }
        }
    }

    // Every exponent, the neighbours of every case boundary and of multiples of pi/4 and pi/2, and random angles.
    static void listOne(SplittableRandom random) throws IOException {
        for (int exponent = 0; exponent <= 2047; exponent++) {
            one(random.nextLong() & ~INFINITY | (long) exponent << 52);
        }
        for (int high : HIGH_WORDS) {
            around((long) high << 32);
            around((long) high << 32 | 0xffffffffL);
        }
        for (int n = 1; n <= 64; n++) {
            around(Double.doubleToLongBits(n * (Math.PI / 4)));
        }
        for (int k = 6; k <= 19; k++) {
            for (int d = -1; d <= 1; d++) {
                around(Double.doubleToLongBits(((1 << k) + d) * (Math.PI / 2)));
            }
        }
        for (int i = 0; i < 60; i++) {
            around(Double.doubleToLongBits(random.nextInt(1, 1 << 20) * (Math.PI / 4)));
        }
        for (int i = 0; i < 300; i++) {
            one(Double.doubleToLongBits((random.nextDouble() - 0.5) * (1 << 21)));
            one(Double.doubleToLongBits((random.nextDouble() - 0.5) * 16));
        }
    }

    static final double[] SPECIAL = {
        0.0, 4.9e-324, 2.2250738585072014e-308, 1e-300, 1e-20, 0.4375, 0.6875, 1.0, 1.1875, 2.4375, 7.378697629483821e19,
        1e300, 1.7976931348623157e308, Double.POSITIVE_INFINITY, Double.NaN, 0.9999999999999999, 1.0000000000000002,
    };

    static void signed(long y, long x) throws IOException {
        record(y, x);
        record(y | SIGN, x);
        record(y, x | SIGN);
        record(y | SIGN, x | SIGN);
    }

    // Every combination of the special values, quotients at every case boundary and at 2^60 and 2^-60, and random ones.
    static void listTwo(SplittableRandom random) throws IOException {
        for (double y : SPECIAL) {
            for (double x : SPECIAL) {
                signed(Double.doubleToLongBits(y), Double.doubleToLongBits(x));
            }
        }
        for (int high : HIGH_WORDS) {
            signed((long) high << 32, 0x3ff0000000000001L);
        }
        for (int i = 0; i < 40; i++) {
            long x = random.nextLong() & ~INFINITY & ~SIGN | (long) random.nextInt(70, 1970) << 52;
            for (int k = 60; k <= 61; k++) {
                for (int d = -1; d <= 0; d++) {
                    long word = ((long) k << 52) + ((long) d << 32);
                    signed(x + word, x);
                    signed(x, x + word);
                }
            }
        }
        for (int i = 0; i < 600; i++) {
            record(Double.doubleToLongBits(random.nextDouble() - 0.5), Double.doubleToLongBits(random.nextDouble() - 0.5));
        }
    }

    // The exponents of large angles, those that fdlibm reduces by the digits of 2/pi: the least, and the first that none has.
    static final int LARGE = 20;
    static final int LARGEST = 1024;

    // pi and 2/pi, times 2^BITS.
    static final int BITS = 1300;
    static final BigInteger ONE = BigInteger.ONE.shiftLeft(BITS);
    static final BigInteger PI = arctan(5).shiftLeft(2).subtract(arctan(239)).shiftLeft(2);
    static final BigInteger TWO_OVER_PI = ONE.shiftLeft(BITS + 1).divide(PI);

    // The arc tangent of 1/n, times 2^BITS.
    static BigInteger arctan(int n) {
        BigInteger term = ONE.divide(BigInteger.valueOf(n));
        BigInteger sum = term;
        for (int k = 3; term.signum() != 0; k += 2) {
            term = term.divide(BigInteger.valueOf(-n * n));
            sum = sum.add(term.divide(BigInteger.valueOf(k)));
        }
        return sum;
    }

    // The number nearest to n times pi/2.
    static long multiple(BigInteger n) {
        BigInteger product = n.multiply(PI);
        int below = product.bitLength() - 128;
        return Double.doubleToLongBits(Math.scalb(product.shiftRight(below).doubleValue(), below - BITS - 1));
    }

    // Near a random multiple of pi/2, of a random size.
    static long nearMultiple(SplittableRandom random) {
        BigInteger n = BigInteger.ZERO;
        for (int k = 0; k < 16; k++) {
            n = n.shiftLeft(64).add(BigInteger.valueOf(random.nextLong() >>> 1));
        }
        return multiple(n.shiftRight(n.bitLength() - random.nextInt(LARGE + 1, 1001)));
    }

    // The whole number below 2^53 that 2^exponent takes nearest to a multiple of pi/2, times that: the last convergent of 2^exponent times
    // 2/pi whose denominator is below 2^53.
    static long hardest(int exponent) {
        BigInteger before = ONE;
        BigInteger left = TWO_OVER_PI.shiftLeft(exponent).mod(ONE);
        BigInteger last = BigInteger.ZERO;
        BigInteger whole = BigInteger.ONE;
        while (true) {
            BigInteger[] step = before.divideAndRemainder(left);
            BigInteger next = last.add(step[0].multiply(whole));
            if (next.bitLength() > 53) {
                return Double.doubleToLongBits(Math.scalb(whole.doubleValue(), exponent));
            }
            before = left;
            left = step[1];
            last = whole;
            whole = next;
        }
    }

    // A number of this exponent whose digits of 24 bits are 0 behind the first (1), behind the second (2), or but for its last bits (3); a
    // power of two (0).
    static long someBits(SplittableRandom random, int exponent, int which) {
        long[] kept = {0, -1L << 29, -1L << 5, ~(-1L << 29)};
        return random.nextLong() & SIGN | 1023L + exponent << 52 | random.nextLong() >>> 12 & kept[which];
    }

    // Large angles: every power of two and every exponent with digits of 0; the neighbours of the powers at which fdlibm's e0 comes to the
    // next digit of 2/pi as its first, and q0 to -1, 0, 1 and 2; the nearest to multiples of pi/2, of every exponent and of random multiples.
    static void listLarge(SplittableRandom random) throws IOException {
        for (int exponent = LARGE; exponent < LARGEST; exponent++) {
            long power = someBits(random, exponent, 0);
            one(power);
            one(someBits(random, exponent, random.nextInt(1, 4)));
            int place = (exponent - 23) % 24;
            if (exponent >= 46 && (place == 23 || place <= 3)) {
                one(power - 1);
                one(power + 1);
            }
        }
        for (int exponent = LARGE - 52; exponent < LARGEST - 52; exponent++) {
            one(hardest(exponent) | random.nextLong() & SIGN);
        }
        for (int i = 0; i < 50; i++) {
            around(nearMultiple(random));
        }
        for (double x : new double[] {1e22, 1e300, 6381956970095103.0 * 0x1p797, Double.MAX_VALUE}) {
            around(Double.doubleToLongBits(x));
        }
    }

    static long withExponent(SplittableRandom random, int low, int high) {
        return (random.nextLong() & ~INFINITY) | ((long) (1023 + random.nextInt(low, high)) << 52);
    }

    // As many large angles as others, and any bits.
    static long randomAngle(SplittableRandom random) {
        if (random.nextBoolean()) {
            switch (random.nextInt(8)) {
                case 0:
                    return hardest(random.nextInt(LARGE - 52, LARGEST - 52)) + random.nextInt(-1, 2);
                case 1:
                case 2:
                case 3:
                    return nearMultiple(random) + random.nextInt(-3, 4) | random.nextLong() & SIGN;
                case 4:
                    return someBits(random, random.nextInt(LARGE, LARGEST), random.nextInt(4));
                default:
                    return withExponent(random, LARGE, LARGEST);
            }
        }
        switch (random.nextInt(8)) {
            case 0:
                return random.nextLong();
            case 1:
            case 2:
                return withExponent(random, -40, 21);
            case 3:
            case 4:
                return Double.doubleToLongBits((random.nextDouble() - 0.5) * (1 << 21));
            case 5:
                return Double.doubleToLongBits((random.nextDouble() - 0.5) * 16);
            default:
                return Double.doubleToLongBits((random.nextInt(1 << 22) - (1 << 21)) * (Math.PI / 4)) + random.nextInt(-3, 4);
        }
    }

    static void stream(SplittableRandom random, long count) throws IOException {
        for (long i = 0; i < count; i++) {
            if (two()) {
                if ((i & 3) == 0) {
                    write(random.nextLong(), random.nextLong());
                } else {
                    int exponent = random.nextInt(-900, 900);
                    write(withExponent(random, exponent - 70, exponent + 70), withExponent(random, exponent, exponent + 1));
                }
            } else if (function.equals("atan")) {
                write(0, (i & 1) == 0 ? withExponent(random, -32, 8) : random.nextLong());
            } else {
                write(0, randomAngle(random));
            }
        }
    }

    public static void main(String[] words) throws IOException {
        out = new DataOutputStream(new BufferedOutputStream(System.out, 1 << 16));
        if (words[0].equals("stream")) {
            function = words[1];
            stream(new SplittableRandom(Long.parseLong(words[2])), Long.parseLong(words[3]));
        } else {
            listOne(new SplittableRandom(1));
            listTwo(new SplittableRandom(2));
            listLarge(new SplittableRandom(3));
        }
        out.flush();
        System.err.println(written + " records");
    }
}
