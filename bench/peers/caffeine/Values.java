// SPDX-License-Identifier: MIT
// The values of the measure: those of `bench/common`, in Java.

import java.math.BigInteger;

/** The values from which each write draws one. */
final class Values {
    private static final BigInteger SPREAD = new BigInteger("9e3779b97f4a7c15f39cc0605cedc835", 16);
    private static final int BYTES = 16;

    private Values() {}

    static byte[][] toDraw() {
        byte[][] values = new byte[64][];
        for (int place = 0; place < values.length; ++place) {
            byte[] highestFirst = BigInteger.valueOf(place + 1).multiply(SPREAD).toByteArray();
            values[place] = new byte[BYTES];
            for (int at = 0; at < BYTES && at < highestFirst.length; ++at) {
                values[place][at] = highestFirst[highestFirst.length - 1 - at];
            }
        }
        return values;
    }
}
