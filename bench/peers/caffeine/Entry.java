// SPDX-License-Identifier: MIT
// An entry as the measure keeps it.

/** What stands under a key. A cas compares the version. */
record Entry(byte[] value, int version) {
    /** The entry that a write leaves where one stands, or null. It has a copy of the value. */
    static Entry after(Entry present, byte[] value) {
        return new Entry(value.clone(), present == null ? 1 : present.version + 1);
    }
}
