// SPDX-License-Identifier: MIT
// The draws of the measure: those of `bench/common`, in Java.

import java.math.BigInteger;

/** How often each key comes: all alike, or by Zipf's law with the exponent 0.99, key 0 the most. */
final class Draws {
    private final int keys;
    private final long[] sums;

    Draws(int keys, boolean isZipf) {
        this.keys = keys;
        sums = new long[isZipf ? keys : 0];
        long weight = 1L << 48;
        long sum = 0;
        for (int place = 0; place < sums.length; ++place) {
            long rank = place + 1L;
            sum += weight;
            sums[place] = sum;
            // The product takes up to 75 bits.
            long high = Math.multiplyHigh(weight, 100 * rank + 1);
            long low = weight * (100 * rank + 1);
            weight = divide(high, low, 100 * (rank + 1));
        }
    }

    // A number of 128 bits divided by another one. The result has less than 64.
    private static long divide(long high, long low, long by) {
        return high == 0 && low >= 0
                ? low / by
                : BigInteger.valueOf(high)
                        .shiftLeft(64)
                        .add(new BigInteger(Long.toUnsignedString(low)))
                        .divide(BigInteger.valueOf(by))
                        .longValue();
    }

    int next(Generator generator) {
        int first = generator.next();
        if (sums.length == 0) {
            return first % keys;
        }
        long point = (long) first << 24 | generator.next();
        long total = sums[sums.length - 1];
        long target = Math.multiplyHigh(point, total) << 16 | point * total >>> 48;
        int low = 0;
        int high = sums.length;
        while (low < high) {
            int middle = (low + high) >>> 1;
            if (sums[middle] <= target) {
                low = middle + 1;
            } else {
                high = middle;
            }
        }
        return low;
    }
}
