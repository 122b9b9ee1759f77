// SPDX-License-Identifier: MIT
// Counts the hits of Caffeine over a trace with times to live: lines `TIME,KEY,OP,LIFE`. A get that misses puts its key.

import com.github.benmanes.caffeine.cache.Cache;
import com.github.benmanes.caffeine.cache.Caffeine;
import com.github.benmanes.caffeine.cache.Expiry;
import java.io.BufferedReader;
import java.io.IOException;
import java.nio.file.Files;
import java.nio.file.Path;
import java.util.concurrent.TimeUnit;

final class Lives {
    private long now = 0;

    private Lives() {}

    public static void main(String[] words) throws IOException {
        if (words.length != 3) {
            System.err.println("usage: Lives TRACE ITEMS each|SECONDS");
            System.exit(2);
        }
        new Lives().replay(Path.of(words[0]), Long.parseLong(words[1]), words[2]);
    }

    // A value is how long it lives. If all live as long, they expire by one queue, in the order in which they were written.
    private Cache<String, Long> cacheFor(long items, String life) {
        Caffeine<Object, Object> builder =
                Caffeine.newBuilder().maximumSize(items).executor(Runnable::run).ticker(() -> TimeUnit.SECONDS.toNanos(now));
        if (life.equals("0")) {
            return builder.build();
        }
        if (!life.equals("each")) {
            return builder.expireAfterWrite(Long.parseLong(life), TimeUnit.SECONDS).build();
        }
        return builder.expireAfter(new ByValue()).build();
    }

    private void replay(Path trace, long items, String life) throws IOException {
        Cache<String, Long> cache = cacheFor(items, life);
        long gets = 0;
        long hits = 0;
        try (BufferedReader lines = Files.newBufferedReader(trace)) {
            for (String line = lines.readLine(); line != null; line = lines.readLine()) {
                String[] fields = line.split(",");
                now = Long.parseLong(fields[0]);
                String key = fields[1];
                boolean isGet = fields[2].equals("get");
                boolean isHit = isGet && cache.getIfPresent(key) != null;
                gets += isGet ? 1 : 0;
                hits += isHit ? 1 : 0;
                if (fields[2].equals("delete")) {
                    cache.invalidate(key);
                } else if (!isHit) {
                    cache.put(key, Long.valueOf(fields[3]));
                }
            }
        }
        cache.cleanUp();
        System.out.printf("{\"items\": %d, \"gets\": %d, \"hits\": %d}%n", cache.estimatedSize(), gets, hits);
    }

    /** Each value's own time, from its write on. */
    private static final class ByValue implements Expiry<String, Long> {
        @Override
        public long expireAfterCreate(String key, Long life, long moment) {
            return TimeUnit.SECONDS.toNanos(life);
        }

        @Override
        public long expireAfterUpdate(String key, Long life, long moment, long left) {
            return TimeUnit.SECONDS.toNanos(life);
        }

        @Override
        public long expireAfterRead(String key, Long life, long moment, long left) {
            return left;
        }
    }
}
