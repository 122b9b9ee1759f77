// SPDX-License-Identifier: MIT
// The numbers of the measure: those of `bench/common`, in Java.

/** Numbers of 24 bits at random, by a linear congruential generator. */
final class Generator {
    private int state;

    Generator(int seed) {
        state = seed;
    }

    int next() {
        state = state * 1_664_525 + 1_013_904_223;
        return state >>> 8;
    }
}
