// SPDX-License-Identifier: MIT
// What a thread does: the commands of a mix, as `bench/common/workload.hpp` has them.

import com.github.benmanes.caffeine.cache.Cache;
import java.lang.management.ManagementFactory;

/** A thread at work on the cache. */
final class Worker implements Runnable {
    private final Cache<Key, Entry> cache;
    private final String mix;
    private final byte[][] values;
    private final Generator generator;
    // Whether the mix has a cas, so that a set must count the version on.
    private final boolean hasVersions;
    private int[] numbers = {};
    private int version = 0;
    long hits;
    // The lengths and first bytes of the values that were read, added up.
    long read;
    // The processor time of the last round, in nanoseconds.
    long spent;

    Worker(Cache<Key, Entry> cache, String mix, byte[][] values, int seed) {
        this.cache = cache;
        this.mix = mix;
        this.values = values;
        generator = new Generator(seed);
        hasVersions = mix.equals("mixed") || mix.equals("f");
    }

    void drawKeys(Draws draws, int times) {
        numbers = new int[times];
        for (int place = 0; place < times; ++place) {
            numbers[place] = draws.next(generator);
        }
    }

    void work() {
        long before = ManagementFactory.getThreadMXBean().getCurrentThreadCpuTime();
        run();
        spent = ManagementFactory.getThreadMXBean().getCurrentThreadCpuTime() - before;
    }

    @Override
    public void run() {
        hits = 0;
        read = 0;
        for (int number : numbers) {
            Key key = new Key(number);
            int draw = generator.next();
            byte[] value = values[draw >>> 18];
            if (serve(key, value, draw)) {
                ++hits;
            }
        }
    }

    // Whether a command of the mix found its key or was done.
    private boolean serve(Key key, byte[] value, int draw) {
        switch (mix) {
            case "sets":
                return set(key, value);
            case "replaces":
                return replace(key, value);
            case "gets", "c":
                return get(key);
            case "a":
                return draw % 100 < 50 ? get(key) : set(key, value);
            case "b":
                return draw % 100 < 95 ? get(key) : set(key, value);
            case "f":
                return draw % 100 < 50 ? get(key) : gets(key) && cas(key, value);
            case "fetches":
                return get(key) || !set(key, value);
            default:
                break;
        }
        switch (draw % 8) {
            case 4:
                return gets(key);
            case 5:
                return set(key, value);
            case 6:
                return draw / 8 % 3 == 0 ? add(key, value) : draw / 8 % 3 == 1 ? replace(key, value) : cas(key, value);
            case 7:
                return cache.asMap().remove(key) != null;
            default:
                return get(key);
        }
    }

    private boolean get(Key key) {
        return found(cache.getIfPresent(key)) != null;
    }

    private boolean gets(Key key) {
        Entry entry = found(cache.getIfPresent(key));
        version = entry == null ? version : entry.version();
        return entry != null;
    }

    private Entry found(Entry entry) {
        if (entry != null) {
            read += entry.value().length + (entry.value()[0] & 0xff);
        }
        return entry;
    }

    private boolean set(Key key, byte[] value) {
        if (hasVersions) {
            cache.asMap().compute(key, (same, present) -> Entry.after(present, value));
        } else {
            cache.put(key, Entry.after(null, value));
        }
        return true;
    }

    private boolean add(Key key, byte[] value) {
        return cache.asMap().putIfAbsent(key, Entry.after(null, value)) == null;
    }

    private boolean replace(Key key, byte[] value) {
        return cache.asMap().computeIfPresent(key, (same, present) -> Entry.after(present, value)) != null;
    }

    private boolean cas(Key key, byte[] value) {
        boolean[] isDone = {false};
        cache.asMap().computeIfPresent(key, (same, present) -> {
            isDone[0] = present.version() == version;
            return isDone[0] ? Entry.after(present, value) : present;
        });
        return isDone[0];
    }
}
