// What java.hpp asks of JDK's skip list. A line is answered with a line: operations, seconds, and latencies in nanoseconds.
//   load FILE COUNT THREADS                                                     the keys of a file, of which so many are loaded
//   run FILE READS UPDATES CHANGES SCANS INSERTS THREADS MILLISECONDS           the drawn keys of a file, and a mix
// A file is an array of keys: 47 bytes, and how many of them count.
import java.io.IOException;
import java.nio.file.Files;
import java.nio.file.Path;
import java.util.Arrays;
import java.util.HashMap;
import java.util.Locale;
import java.util.Map;
import java.util.Scanner;
import java.util.concurrent.ConcurrentSkipListMap;
import java.util.concurrent.atomic.AtomicLong;

public class SkipList {
    static final int ROOM = 47, EVERY = 16, PART = 64, MOST_SCANNED = 100;
    static final Map<String, byte[]> files = new HashMap<>();
    static final AtomicLong fresh = new AtomicLong();
    static ConcurrentSkipListMap<byte[], Long> map;
    static byte[] keys;
    static int count;

    interface Work {
        long of(int thread, Latencies latencies);
    }

    static class Latencies {
        long[] all = new long[1 << 12];
        int size;

        void add(long nanoseconds) {
            if (size == all.length) all = Arrays.copyOf(all, 2 * size);
            all[size++] = nanoseconds;
        }
    }

    static byte[] file(String path) throws IOException {
        if (!files.containsKey(path)) files.put(path, Files.readAllBytes(Path.of(path)));
        return files.get(path);
    }

    static int size(byte[] keys) {
        return keys.length / (ROOM + 1);
    }

    static byte[] key(byte[] keys, int at) {
        int begin = at * (ROOM + 1);
        return Arrays.copyOfRange(keys, begin, begin + keys[begin + ROOM]);
    }

    static void measure(int threads, Work work) throws InterruptedException {
        Latencies[] latencies = new Latencies[threads];
        Thread[] all = new Thread[threads];
        AtomicLong total = new AtomicLong();
        long begin = System.nanoTime();
        for (int t = 0; t < threads; t++) {
            int thread = t;
            latencies[t] = new Latencies();
            all[t] = new Thread(() -> total.addAndGet(work.of(thread, latencies[thread])));
            all[t].start();
        }
        for (Thread thread : all) thread.join();
        double seconds = (System.nanoTime() - begin) / 1e9;
        long[] sorted = Arrays.stream(latencies).flatMapToLong(it -> Arrays.stream(it.all, 0, it.size)).sorted().toArray();
        long half = sorted[sorted.length / 2], most = sorted[(int) (sorted.length * 99L / 100)], rarest = sorted[(int) (sorted.length * 999L / 1000)];
        System.out.printf(Locale.ROOT, "%d %.6f %d %d %d%n", total.get(), seconds, half, most, rarest);
        System.out.flush();
    }

    static void load(int threads) throws InterruptedException {
        for (int round = 0; round < 5; round++) {
            map = new ConcurrentSkipListMap<>(Arrays::compareUnsigned);
            for (int i = 0; i < Math.min(count, 20000); i++) map.putIfAbsent(key(keys, i), (long) i);
        }
        map = new ConcurrentSkipListMap<>(Arrays::compareUnsigned);
        fresh.set(0);
        AtomicLong next = new AtomicLong();
        measure(threads, (thread, latencies) -> {
            long done = 0;
            for (long from; (from = next.getAndAdd(PART)) < count; )
                for (int i = (int) from; i < Math.min(from + PART, count); i++, done++) {
                    long begin = i % EVERY == 0 ? System.nanoTime() : 0;
                    map.putIfAbsent(key(keys, i), (long) i);
                    if (i % EVERY == 0) latencies.add(System.nanoTime() - begin);
                }
            return done;
        });
    }

    static long scan(byte[] from, int most) {
        int met = 0;
        long sum = 0;
        for (var pair : map.tailMap(from).entrySet()) {
            sum += pair.getValue() + pair.getKey()[0];
            if (++met == most) break;
        }
        return sum;
    }

    static long operate(int[] mix, byte[] key, long random) {
        int die = (int) ((random >>> 33) % 100);
        if (die < mix[0]) return map.get(key);
        if ((die -= mix[0]) < mix[1]) map.put(key, random);
        else if ((die -= mix[1]) < mix[2]) map.put(key, map.get(key) + 1);
        else if ((die -= mix[2]) < mix[3]) return scan(key, 1 + (int) ((random >>> 45) % MOST_SCANNED));
        else map.putIfAbsent(key(keys, count + (int) (fresh.getAndIncrement() % (size(keys) - count))), random);
        return 0;
    }

    static void run(byte[] drawn, int[] mix, int threads, int milliseconds) throws InterruptedException {
        long end = System.nanoTime() + milliseconds * 1_000_000L;
        AtomicLong used = new AtomicLong();
        measure(threads, (thread, latencies) -> {
            long random = 362436069L + thread * 7919L, done = 0, sum = 0;
            int all = size(drawn), at = thread * (all / 4);
            do {
                random ^= random << 13;
                random ^= random >>> 7;
                random ^= random << 17;
                long begin = done % EVERY == 0 ? System.nanoTime() : 0;
                sum += operate(mix, key(drawn, at++ % all), random);
                if (done++ % EVERY == 0) latencies.add(System.nanoTime() - begin);
            } while (done % EVERY != 0 || System.nanoTime() < end);
            used.addAndGet(sum);
            return done;
        });
    }

    public static void main(String[] words) throws IOException, InterruptedException {
        Scanner asked = new Scanner(System.in);
        while (asked.hasNext()) {
            boolean loads = asked.next().equals("load");
            byte[] of = file(asked.next());
            if (loads) {
                keys = of;
                count = asked.nextInt();
                load(asked.nextInt());
            } else {
                int[] mix = new int[5];
                for (int i = 0; i < mix.length; i++) mix[i] = asked.nextInt();
                run(of, mix, asked.nextInt(), asked.nextInt());
            }
        }
    }
}
