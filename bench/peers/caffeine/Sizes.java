// SPDX-License-Identifier: MIT
// Counts the hits of Caffeine over a trace with lengths: lines `VERB KEY LENGTH`. A get that misses puts its key.

import com.github.benmanes.caffeine.cache.Cache;
import com.github.benmanes.caffeine.cache.Caffeine;
import java.io.BufferedReader;
import java.io.IOException;
import java.nio.file.Files;
import java.nio.file.Path;

final class Sizes {
    // What the heap has for an item beside the bytes of its key and its value: the heads of two arrays, a string, a
    // node of Caffeine, one of its map, and that one's place.
    private static final int BESIDE = 16 + 16 + 24 + 40 + 32 + 8;

    private Sizes() {}

    public static void main(String[] words) throws IOException, InterruptedException {
        if (words.length != 3) {
            System.err.println("usage: Sizes TRACE WARM BYTES");
            System.exit(2);
        }
        long warm = Long.parseLong(words[1]);
        long bytes = -Measure.bytesInUse();
        // It evicts on the thread that calls, so that each command sees what the one before it did.
        Cache<String, byte[]> cache =
                Caffeine.newBuilder()
                        .maximumWeight(Long.parseLong(words[2]))
                        .weigher((String key, byte[] value) -> BESIDE + key.length() + value.length)
                        .executor(Runnable::run)
                        .build();
        long place = 0;
        long gets = 0;
        long hits = 0;
        try (BufferedReader lines = Files.newBufferedReader(Path.of(words[0]))) {
            for (String line = lines.readLine(); line != null; line = lines.readLine()) {
                int end = line.lastIndexOf(' ');
                String key = line.substring(4, end);
                boolean isGet = line.startsWith("get");
                boolean isHit = isGet && cache.getIfPresent(key) != null;
                if (!isHit) {
                    cache.put(key, new byte[Integer.parseInt(line.substring(end + 1))]);
                }
                if (place++ >= warm && isGet) {
                    ++gets;
                    hits += isHit ? 1 : 0;
                }
            }
        }
        cache.cleanUp();
        bytes += Measure.bytesInUse();
        System.out.printf(
                "{\"items\": %d, \"bytes\": %d, \"gets\": %d, \"hits\": %d}%n",
                cache.estimatedSize(), bytes, gets, hits);
    }
}
