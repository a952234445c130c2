// Copyright (C) 1993 by Sun Microsystems, Inc. All rights reserved.
// Developed at SunSoft, a Sun Microsystems, Inc. business. Permission to use, copy, modify, and distribute this
// software is freely granted, provided that this notice is preserved.
//
// Writes arguments and fdlibm's results for sin, cos, atan2 and hypot: N of each, as records of
// four 64-bit words, little-endian (function number, x, y, result). Usage: java Fdlibm.java N [SEED]
//
// StrictMath is specified as fdlibm 5.3. Two things are added to it here:
// - sin and cos of an angle beyond ±7 are not-a-number, as the port defines them;
// - StrictMath.hypot orders its arguments by their values, fdlibm's e_hypot.c by their high words
//   alone. So `hypot` below is e_hypot.c's steps, and wherever the two orders agree it is held to
//   StrictMath.hypot.
import java.io.BufferedOutputStream;
import java.io.DataOutputStream;
import java.io.IOException;
import java.util.SplittableRandom;

public class Fdlibm {
    static final int SIN = 0, COS = 1, ATAN2 = 2, HYPOT = 3;

    // The high words at which some step of fdlibm takes another way.
    static final int[] ANGLES = {
        0x3e400000, 0x3fd33333, 0x3fe90000, 0x3fe90001, 0x3fe921fb, 0x3fe921fc, 0x3ff921fb, 0x3ff921fc,
        0x4002d97b, 0x4002d97c, 0x400921fb, 0x400921fc, 0x4012d97c, 0x4012d97d, 0x401921fb, 0x401921fc, 0x401c0000,
    };
    static final int[] TANGENTS = {
        0x3e200000, 0x3fdc0000, 0x3fe60000, 0x3ff00000, 0x3ff30000, 0x40038000, 0x44100000, 0x7ff00000,
    };
    static final int[] SIZES = {
        0x00000000, 0x000fffff, 0x00100000, 0x03c00000, 0x20b00000, 0x3ff00000, 0x5f300000, 0x5f300001, 0x7fefffff, 0x7ff00000,
    };
    // Two pairs of one high word each, whose hypot turns on their order.
    static final double[][] ORDERED = {
        {0x1.01c79790ee11ap+0, 0x1.01c79dad7fa58p+0}, {0x1.ee453e6c7d9aep+0, 0x1.ee4537ef3fd9dp+0},
    };
    static final double[] ODD = {
        0.0, Double.MIN_VALUE, Double.MIN_NORMAL, Math.nextDown(Double.MIN_NORMAL), 1.0, 7.0, Math.nextUp(7.0),
        Double.MAX_VALUE, Double.POSITIVE_INFINITY, Double.NaN,
    };

    final SplittableRandom random;
    final DataOutputStream out;
    long apart = 0;

    Fdlibm(long seed, DataOutputStream out) {
        this.random = new SplittableRandom(seed);
        this.out = out;
    }

    static double ofWords(long high, long low) {
        return Double.longBitsToDouble(high << 32 | low & 0xffffffffL);
    }

    static int high(double x) {
        return (int) (Double.doubleToRawLongBits(x) >>> 32) & 0x7fffffff;
    }

    double signed(double x) {
        return random.nextBoolean() ? x : -x;
    }

    // a few units in the last place away: most often one or two, at times many
    double near(double x) {
        if (Double.isNaN(x) || Double.isInfinite(x)) {
            return x;
        }
        long away = random.nextLong() >> (random.nextInt(40) + 24);
        long bits = Double.doubleToRawLongBits(Math.abs(x)) + away;
        return bits < 0 ? x : Double.longBitsToDouble(bits);
    }

    // a value whose high word is one of these or next to it
    double atWord(int[] words) {
        long word = words[random.nextInt(words.length)] + random.nextInt(3) - 1;
        if (word < 0) {
            word = 0;
        }
        long low = random.nextInt(4) == 0 ? (random.nextBoolean() ? 0 : 0xffffffffL) : random.nextInt();
        return ofWords(word, low);
    }

    // 2^e for an e from -spread to spread, times a number from 1 to 2
    double scaled(int spread) {
        int e = random.nextInt(2 * spread + 1) - spread;
        return Math.scalb(1.0 + random.nextDouble(), e);
    }

    double anything() {
        return Double.longBitsToDouble(random.nextLong());
    }

    double angle() {
        switch (random.nextInt(8)) {
            case 0: return signed(ODD[random.nextInt(ODD.length)]);
            case 1: return signed(atWord(ANGLES));
            case 2: return signed(near((1 + random.nextInt(9)) * (Math.PI / 4)));
            case 3: return signed(near((1 + random.nextInt(4)) * (Math.PI / 2)));
            case 4: return signed(scaled(40));
            case 5: return anything();
            default: return signed(random.nextDouble() * 7.5);
        }
    }

    void write(int which, double x, double y, double result) throws IOException {
        out.writeLong(Long.reverseBytes(which));
        out.writeLong(Long.reverseBytes(Double.doubleToRawLongBits(x)));
        out.writeLong(Long.reverseBytes(Double.doubleToRawLongBits(y)));
        out.writeLong(Long.reverseBytes(Double.doubleToRawLongBits(result)));
    }

    void trig() throws IOException {
        double x = angle();
        boolean turn = Math.abs(x) <= 7.0;
        write(SIN, x, 0.0, turn ? StrictMath.sin(x) : Double.NaN);
        write(COS, x, 0.0, turn ? StrictMath.cos(x) : Double.NaN);
    }

    void atan2() throws IOException {
        double y, x;
        switch (random.nextInt(7)) {
            case 0: y = signed(ODD[random.nextInt(ODD.length)]); x = signed(ODD[random.nextInt(ODD.length)]); break;
            case 1: y = signed(atWord(TANGENTS)); x = signed(ODD[random.nextInt(ODD.length)]); break;
            case 2: y = signed(atWord(TANGENTS)); x = signed(1.0); break;
            case 3: x = signed(scaled(900)); y = signed(x * near(atWord(TANGENTS))); break;
            case 4: x = scaled(900); y = signed(near(Math.scalb(x, 57 + random.nextInt(7)) * (1 + random.nextDouble()))); x = signed(x);
                if (random.nextBoolean()) { double t = x; x = y; y = t; } break;
            case 5: y = anything(); x = anything(); break;
            default: y = signed(scaled(4)); x = signed(scaled(4));
        }
        write(ATAN2, y, x, StrictMath.atan2(y, x));
    }

    void hypot() throws IOException {
        double x, y;
        switch (random.nextInt(8)) {
            case 0: x = signed(ODD[random.nextInt(ODD.length)]); y = signed(ODD[random.nextInt(ODD.length)]); break;
            case 1: x = signed(atWord(SIZES)); y = signed(atWord(SIZES)); break;
            case 2: x = signed(atWord(SIZES)); y = signed(Math.scalb(near(x), random.nextInt(125) - 62)); break;
            case 3: x = anything(); y = signed(ofWords(high(x), random.nextInt()));
                if (random.nextInt(100) == 0) { double[] pair = ORDERED[random.nextInt(2)]; int i = random.nextInt(2); x = pair[i]; y = pair[1 - i]; } break;
            case 4: x = Double.longBitsToDouble(random.nextLong() >>> (12 + random.nextInt(40)));
                y = Double.longBitsToDouble(random.nextLong() >>> (8 + random.nextInt(40))); break;
            case 5: x = scaled(1000); y = signed(near(Math.scalb(x, random.nextInt(125) - 62))); break;
            case 6: x = anything(); y = anything(); break;
            default: x = signed(scaled(30)); y = signed(scaled(30));
        }
        write(HYPOT, x, y, hypot(x, y));
    }

    // e_hypot.c of fdlibm 5.3
    double hypot(double x, double y) {
        int ha = high(x), hb = high(y);
        double a = x, b = y;
        if (hb > ha) {
            a = y; b = x; int j = ha; ha = hb; hb = j;
        }
        double result = byWords(Math.abs(a), Math.abs(b), ha, hb);
        if (ha != hb || Math.abs(a) >= Math.abs(b)) {
            double strict = StrictMath.hypot(x, y);
            if (Double.doubleToLongBits(strict) != Double.doubleToLongBits(result)) {
                apart++;
            }
        }
        return result;
    }

    static double byWords(double a, double b, int ha, int hb) {
        if (ha - hb > 0x3c00000) {
            return a + b;
        }
        int k = 0;
        if (ha > 0x5f300000) {
            if (ha >= 0x7ff00000) {
                double w = a + b;
                if (a == Double.POSITIVE_INFINITY) w = a;
                if (b == Double.POSITIVE_INFINITY) w = b;
                return w;
            }
            ha -= 0x25800000; hb -= 0x25800000; k += 600;
            a = ofWords(ha, Double.doubleToRawLongBits(a)); b = ofWords(hb, Double.doubleToRawLongBits(b));
        }
        if (hb < 0x20b00000) {
            if (hb <= 0x000fffff) {
                if (b == 0.0) return a;
                double t1 = ofWords(0x7fd00000, 0);
                b *= t1; a *= t1; k -= 1022;
            } else {
                ha += 0x25800000; hb += 0x25800000; k -= 600;
                a = ofWords(ha, Double.doubleToRawLongBits(a)); b = ofWords(hb, Double.doubleToRawLongBits(b));
            }
        }
        double w = a - b;
        if (w > b) {
            double t1 = ofWords(ha, 0);
            double t2 = a - t1;
            w = Math.sqrt(t1 * t1 - (b * (-b) - t2 * (a + t1)));
        } else {
            a = a + a;
            double y1 = ofWords(hb, 0);
            double y2 = b - y1;
            double t1 = ofWords(ha + 0x00100000, 0);
            double t2 = a - t1;
            w = Math.sqrt(t1 * y1 - (w * (-w) - (t1 * y2 + t2 * b)));
        }
        return k == 0 ? w : ofWords(0x3ff00000 + (k << 20), 0) * w;
    }

    public static void main(String[] args) throws IOException {
        int count = Integer.parseInt(args[0]);
        long seed = args.length > 1 ? Long.parseLong(args[1]) : 1;
        try (DataOutputStream out = new DataOutputStream(new BufferedOutputStream(System.out, 1 << 16))) {
            Fdlibm all = new Fdlibm(seed, out);
            for (int i = 0; i < count; i++) {
                all.trig();
                all.atan2();
                all.hypot();
            }
            System.err.println("hypot by high words beside StrictMath.hypot: " + all.apart + " differences");
        }
    }
}
