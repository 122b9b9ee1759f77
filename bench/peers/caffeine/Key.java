// SPDX-License-Identifier: MIT
// A key as the measure keeps it: that of `bench/common`, in Java.

import java.util.Arrays;

/** A key: bytes, and their hash. */
final class Key {
    private final byte[] bytes;
    private final int hash;

    /** The key of a number: its four bytes, the lowest first. */
    Key(int number) {
        bytes = new byte[] {(byte) number, (byte) (number >> 8), (byte) (number >> 16), (byte) (number >> 24)};
        long fnv = 0xcbf29ce484222325L;
        for (byte each : bytes) {
            fnv = (fnv ^ (each & 0xff)) * 0x100000001b3L;
        }
        hash = (int) (fnv ^ fnv >>> 32);
    }

    @Override
    public int hashCode() {
        return hash;
    }

    @Override
    public boolean equals(Object other) {
        return other instanceof Key key && Arrays.equals(bytes, key.bytes);
    }
}
