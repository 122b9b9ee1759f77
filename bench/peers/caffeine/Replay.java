// SPDX-License-Identifier: MIT
// Counts the hits of Caffeine over a trace: lines `get KEY` or `set KEY`. A get that misses puts its key.

import com.github.benmanes.caffeine.cache.Cache;
import com.github.benmanes.caffeine.cache.Caffeine;
import java.io.BufferedReader;
import java.io.IOException;
import java.nio.file.Files;
import java.nio.file.Path;

final class Replay {
    private static final byte[] VALUE = "0123456789abcdef".getBytes();

    private Replay() {}

    public static void main(String[] words) throws IOException {
        if (words.length != 3) {
            System.err.println("usage: Replay TRACE WARM ITEMS");
            System.exit(2);
        }
        long warm = Long.parseLong(words[1]);
        // It evicts on the thread that calls, so that each command sees what the one before it did.
        Cache<String, byte[]> cache =
                Caffeine.newBuilder().maximumSize(Long.parseLong(words[2])).executor(Runnable::run).build();
        long place = 0;
        long gets = 0;
        long hits = 0;
        try (BufferedReader lines = Files.newBufferedReader(Path.of(words[0]))) {
            for (String line = lines.readLine(); line != null; line = lines.readLine()) {
                String key = line.substring(4);
                boolean isGet = line.startsWith("get");
                boolean isHit = isGet && cache.getIfPresent(key) != null;
                if (!isHit) {
                    cache.put(key, VALUE);
                }
                if (place++ >= warm && isGet) {
                    ++gets;
                    hits += isHit ? 1 : 0;
                }
            }
        }
        cache.cleanUp();
        System.out.printf("{\"items\": %d, \"gets\": %d, \"hits\": %d}%n", cache.estimatedSize(), gets, hits);
    }
}
