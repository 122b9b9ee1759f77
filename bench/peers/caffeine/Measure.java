// SPDX-License-Identifier: MIT
// Measures Caffeine as `bench/common/measure.hpp` measures the stores in C++: the same words, lines, keys and commands.

import com.github.benmanes.caffeine.cache.Cache;
import com.github.benmanes.caffeine.cache.Caffeine;
import java.io.IOException;
import java.util.ArrayList;
import java.util.List;
import java.util.concurrent.CountDownLatch;

final class Measure {
    private static final List<String> MIXES = List.of("sets", "replaces", "gets", "mixed", "a", "b", "c", "f", "fetches");

    private Measure() {}

    public static void main(String[] words) throws IOException, InterruptedException {
        if (words.length < 5 || words.length > 7 || !MIXES.contains(words[0])) {
            System.err.println("usage: caffeine MIX uniform|zipf KEYS THREADS TIMES [SAMPLE [ROOM]]; the mixes: " + MIXES);
            System.exit(2);
        }
        int keys = Integer.parseInt(words[2]);
        int threads = Integer.parseInt(words[3]);
        int times = Integer.parseInt(words[4]);
        int room = words.length > 6 ? Integer.parseInt(words[6]) : 0;
        Draws draws = new Draws(keys, words[1].equals("zipf"));
        byte[][] values = Values.toDraw();
        long bytes = -bytesInUse();
        Cache<Key, Entry> cache = Caffeine.newBuilder().maximumSize(room == 0 ? keys : room).build();
        List<Worker> workers = new ArrayList<>();
        for (int number = 0; number < threads; ++number) {
            workers.add(new Worker(cache, words[0], values, number));
        }
        for (int number = 0; number < keys; ++number) {
            cache.put(new Key(number), Entry.after(null, values[number % values.length]));
        }
        cache.cleanUp();
        bytes += bytesInUse();
        while (waitForLine()) {
            for (Worker worker : workers) {
                worker.drawKeys(draws, times);
            }
            System.out.println("ready");
            waitForLine();
            round(workers, times, bytes);
        }
    }

    // The bytes of all objects that can be reached.
    static long bytesInUse() throws InterruptedException {
        for (int count = 0; count < 3; ++count) {
            System.gc();
            Thread.sleep(20);
        }
        return Runtime.getRuntime().totalMemory() - Runtime.getRuntime().freeMemory();
    }

    // Whether there is one more line of input.
    private static boolean waitForLine() throws IOException {
        int letter;
        do {
            letter = System.in.read();
        } while (letter != '\n' && letter != -1);
        return letter == '\n';
    }

    // All workers at once, each on a thread of its own, which begin together.
    private static void round(List<Worker> workers, int times, long bytes) throws InterruptedException {
        CountDownLatch ready = new CountDownLatch(workers.size());
        CountDownLatch start = new CountDownLatch(1);
        List<Thread> threads = new ArrayList<>();
        for (Worker worker : workers) {
            Thread thread = new Thread(() -> {
                ready.countDown();
                try {
                    start.await();
                } catch (InterruptedException fault) {
                    return;
                }
                worker.work();
            });
            thread.start();
            threads.add(thread);
        }
        ready.await();
        long before = System.nanoTime();
        start.countDown();
        for (Thread thread : threads) {
            thread.join();
        }
        double wall = (double) (System.nanoTime() - before) / times;
        long commands = (long) times * workers.size();
        long hits = 0;
        long read = 0;
        double spent = 0;
        for (Worker worker : workers) {
            hits += worker.hits;
            read += worker.read;
            spent += worker.spent;
        }
        System.out.printf("{\"thread_ns\": %.1f, \"wall_ns\": %.1f, \"commands\": %d, \"hits\": %d, \"misses\": %d, "
                + "\"busy\": 0, \"full\": 0, \"read\": %d, \"bytes\": %d}%n",
                spent / commands, wall, commands, hits, commands - hits, read, bytes);
    }
}
