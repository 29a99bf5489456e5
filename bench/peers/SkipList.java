// What java.hpp asks of JDK's skip list. A line of three numbers is a cell: its kind, threads, milliseconds; -1 with a count fills the map anew. Each is
// answered with a line: operations a second.
import java.util.Arrays;
import java.util.Scanner;
import java.util.concurrent.ConcurrentSkipListMap;
import java.util.concurrent.atomic.AtomicLong;

public class SkipList {
    static final int SCANS = 2, SCANNED = 100;
    static byte[][] keys;
    static ConcurrentSkipListMap<byte[], byte[]> map;

    static byte[] bytes(int size, long... words) {
        byte[] all = new byte[size];
        for (int i = 0; i < size; i++) all[i] = (byte) (words[i / 8] >> (56 - 8 * (i % 8)));
        return all;
    }

    static double fill(int count) {
        keys = new byte[count][];
        map = new ConcurrentSkipListMap<>(Arrays::compareUnsigned);
        for (int i = 0; i < count; i++) {
            keys[i] = bytes(16, i * 0x9E3779B97F4A7C15L, i);
            map.put(keys[i], bytes(8, i));
        }
        return 0;
    }

    static long scan(byte[] from) {
        int met = 0;
        long sum = 0;
        for (var pair : map.tailMap(from).entrySet()) {
            sum += pair.getValue()[0] + pair.getKey()[0];
            if (++met == SCANNED) break;
        }
        return sum;
    }

    static long step(int kind, byte[] key, long random) {
        if (kind == SCANS) return scan(key);
        if (kind == 1 && (random >>> 40) % 2 == 1) {
            map.put(key, bytes(8, random));
            return 0;
        }
        return map.get(key)[0];
    }

    static double cell(int kind, int threads, int milliseconds) throws InterruptedException {
        AtomicLong total = new AtomicLong(), used = new AtomicLong();
        long begin = System.nanoTime(), end = begin + milliseconds * 1_000_000L;
        Thread[] all = new Thread[threads];
        for (int t = 0; t < threads; t++) {
            int thread = t;
            all[t] = new Thread(() -> {
                long random = 88172645463325252L + thread * 7919L, count = 0, mask = kind == SCANS ? 7 : 63, sum = 0;
                while ((count & mask) != 0 || System.nanoTime() < end) {
                    random ^= random << 13;
                    random ^= random >>> 7;
                    random ^= random << 17;
                    sum += step(kind, keys[(int) ((random >>> 1) % keys.length)], random);
                    count++;
                }
                total.addAndGet(count);
                used.addAndGet(sum);
            });
            all[t].start();
        }
        for (Thread thread : all) thread.join();
        return total.get() / ((System.nanoTime() - begin) / 1e9);
    }

    public static void main(String[] words) throws InterruptedException {
        Scanner asked = new Scanner(System.in);
        while (asked.hasNextInt()) {
            int first = asked.nextInt(), second = asked.nextInt(), third = asked.nextInt();
            System.out.printf(java.util.Locale.ROOT, "%.1f%n", first < 0 ? fill(second) : cell(first, second, third));
            System.out.flush();
        }
    }
}
