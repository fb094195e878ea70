// java.util.concurrent.ConcurrentHashMap<Long, Long>, and JCTools' NonBlockingHashMapLong<Long> (Nbhml.java), under the workloads of
// nb_bench: the same keys, the same random numbers, the same lines of output.
//   java -cp out:/usr/share/java/jctools-core.jar Bench MAP WORKLOAD THREADS SECONDS [--keys dense|spread|zipf] [--live N] [--calls N]
// MAP is chm or nbhml. Each line is   MAP WHAT THREADS OPS NUMBER  , where docs/speed.md says what is measured and NUMBER is in
// nanoseconds or bytes. A second at least goes by to warm up.
import java.util.ArrayList;
import java.util.Arrays;
import java.util.Comparator;
import java.util.concurrent.ConcurrentHashMap;
import java.util.concurrent.atomic.AtomicInteger;
import java.util.concurrent.atomic.AtomicLong;

public class Bench {
    static final int BATCH = 1024, SAMPLES = 1 << 20, TURNS = 8;
    static final long ONE_PLACE = 4242;

    static long scattered(long z) {
        z = (z ^ (z >>> 30)) * 0xbf58476d1ce4e5b9L;
        z = (z ^ (z >>> 27)) * 0x94d049bb133111ebL;
        return z ^ (z >>> 31);
    }

    static final class Random {
        long state;
        Random(long seed) { state = scattered(seed + 1); }
        Random(Random other) { state = other.state; }
        long draw() { state += 0x9e3779b97f4a7c15L; return scattered(state); }
    }

    /** A map that is measured; its class has a constructor of one size. */
    public interface Peer {
        /** The number of a key, 0 if it has none. */
        long get(long key);
        void put(long key, long number);
        void remove(long key);
    }

    /** The size of a map that grows from its smallest. */
    static final int SMALLEST = 4;

    public static final class Chm implements Peer {
        final ConcurrentHashMap<Long, Long> map;
        public Chm(int size) { map = new ConcurrentHashMap<>(size); }
        public long get(long key) { Long found = map.get(key); return found == null ? 0 : found; }
        public void put(long key, long number) { map.put(key, number); }
        public void remove(long key) { map.remove(key); }
    }

    // What is to be run.
    static String name;
    static char workload;
    static int threads;
    static long time, calls = Long.MAX_VALUE;
    static boolean spread, zipf;
    static int live;

    static Peer made(int size) {
        if (name.equals("chm")) return new Chm(size);
        try {
            return (Peer) Class.forName("Nbhml").getConstructor(int.class).newInstance(size);
        } catch (ReflectiveOperationException e) {
            throw new IllegalArgumentException("no map " + name, e);
        }
    }

    static long spreadKey(long place) { return scattered(place) >>> 1; }
    static long key(long place) { return spread ? spreadKey(place) : place; }

    /** The slots of a table that has two for each key, and more by the next power of two. */
    static int room() { return (int) Math.min(1 << 30, Long.highestOneBit(2L * live - 1) << 1); }

    static void print(String what, long calls, long number) {
        System.out.println(name + " " + what + " " + threads + " " + calls + " " + number);
    }

    static void shuffle(int[] places) {
        Random random = new Random(999);
        for (int i = places.length - 1; i > 0; i--) {
            int j = (int) Long.remainderUnsigned(random.draw(), i + 1);
            int kept = places[i]; places[i] = places[j]; places[j] = kept;
        }
    }

    static int[] shuffled(int count) {
        int[] places = new int[count];
        for (int i = 0; i < count; i++) places[i] = i;
        shuffle(places);
        return places;
    }

    /** The place of the key of a rank: by turns one from the first half, whose keys have numbers, and one from the second half. */
    static int ranked(int[] places, int rank) { return places[rank % 2 == 0 ? rank / 2 : places.length - 1 - rank / 2]; }

    /** Draws by zipf's law with exponent 1, in an order that looks random: the key of rank r, from 1 on, is there in proportion to
        1 / r. */
    static int[] samplesOf(int[] places) {
        long one = 1L << 36, all = 0, sum = 0;
        for (int rank = 0; rank < places.length; rank++) all += one / (rank + 1);
        int[] samples = new int[SAMPLES];
        int count = 0;
        for (int rank = 0; rank < places.length; rank++) {
            sum += one / (rank + 1);
            int end = (int) (SAMPLES * sum / all);
            Arrays.fill(samples, count, end, ranked(places, rank));
            count = end;
        }
        shuffle(samples);
        return samples;
    }

    interface Work { void work(int number) throws Exception; }

    /** Does the work in all threads. */
    static void inThreads(Work work) throws Exception {
        Thread[] all = new Thread[threads];
        for (int t = 0; t < threads; t++) {
            int number = t;
            all[t] = new Thread(() -> {
                try { work.work(number); } catch (Exception e) { throw new IllegalStateException(e); }
            });
            all[t].start();
        }
        for (Thread one : all) one.join();
    }

    /** Does the work in all threads, which begin at the same time. */
    static void together(Work work) throws Exception {
        AtomicInteger arrived = new AtomicInteger();
        inThreads(number -> {
            arrived.incrementAndGet();
            for (int look = 0; arrived.get() < threads; look++) if (look > 2000) Thread.yield(); else Thread.onSpinWait();
            work.work(number);
        });
    }

    // ---- A, B, C and E: calls at keys that are drawn, for a while.

    static long callDrawn(Peer map, long key, long drawn, int gets, int puts) {
        long percent = (drawn >>> 32) * 100 >>> 32;
        if (percent < gets) return map.get(key);
        if (percent < gets + puts) map.put(key, drawn >>> 32);
        else map.remove(key);
        return 0;
    }

    static long placeOf(long drawn) { return (drawn & 0xffffffffL) * live >>> 32; }

    // Each spacing has a loop of its own, which doesn't ask for it.

    static long denseBatch(Peer map, Random random, int gets, int puts) {
        long sum = 0;
        Random own = new Random(random);
        for (int i = 0; i < BATCH; i++) {
            long drawn = own.draw();
            sum += callDrawn(map, placeOf(drawn), drawn, gets, puts);
        }
        random.state = own.state;
        return sum;
    }

    static long spreadBatch(Peer map, Random random, int gets, int puts) {
        long sum = 0;
        Random own = new Random(random);
        for (int i = 0; i < BATCH; i++) {
            long drawn = own.draw();
            sum += callDrawn(map, spreadKey(placeOf(drawn)), drawn, gets, puts);
        }
        random.state = own.state;
        return sum;
    }

    static long sampleBatch(Peer map, Random random, int gets, int puts, int[] samples, int first) {
        long sum = 0;
        Random own = new Random(random);
        for (int i = first; i < first + BATCH; i++) sum += callDrawn(map, samples[i], own.draw(), gets, puts);
        random.state = own.state;
        return sum;
    }

    static void putBatch(Peer map) {
        long key = key(ONE_PLACE);
        for (int i = 0; i < BATCH; i++) map.put(key, i % 2);
    }

    static volatile long kept;

    /** What a thread draws, and how many calls it made in which time. */
    static final class Draws {
        final Random random;
        int sample;
        long calls, spent;
        Draws(int number) { random = new Random(number); sample = (int) ((long) SAMPLES / BATCH * number / threads * BATCH); }

        void callOn(Peer map, int[] samples, long time, long batches) {
            int gets = workload == 'B' ? 90 : workload == 'C' ? 50 : 100, puts = workload == 'B' ? 9 : workload == 'C' ? 25 : 0;
            long start = System.nanoTime(), sum = 0;
            calls = 0;
            for (long i = 0; i < batches; i++) {
                if (workload == 'E') putBatch(map);
                else if (zipf) {
                    sum += sampleBatch(map, random, gets, puts, samples, sample);
                    sample = (sample + BATCH) % SAMPLES;
                } else if (spread) sum += spreadBatch(map, random, gets, puts);
                else sum += denseBatch(map, random, gets, puts);
                calls += BATCH;
                spent = System.nanoTime() - start;
                if (spent >= time) break;
            }
            kept = sum;
        }
    }

    static void timed() throws Exception {
        Peer map = made(room());
        int[] places = shuffled(live);
        for (int i = 0; i < live / 2; i++) map.put(key(places[i]), places[i]);
        int[] samples = zipf ? samplesOf(places) : null;
        Draws[] all = new Draws[threads];
        inThreads(number -> {
            Draws draws = all[number] = new Draws(number);
            draws.callOn(map, samples, Math.max(time, 1_000_000_000L), Long.MAX_VALUE);   // the compiler's time, too
            draws.callOn(map, samples, time, calls / BATCH + (calls % BATCH == 0 ? 0 : 1));
        });
        long sum = 0, longest = 0;
        for (Draws one : all) { sum += one.calls; longest = Math.max(longest, one.spent); }
        print("" + workload, sum, longest);
    }

    // ---- D and F: calls at all keys, each thread at its part of them.

    enum Pass { PUTS, GETS, LONGEST_PUT, TIMED_PUTS }

    /** The sum of what the gets of a pass found. */
    static final AtomicLong found = new AtomicLong();

    static long timedPut(Peer map, int place) {
        long before = System.nanoTime();
        map.put(key(place), place);
        return System.nanoTime() - before;
    }

    /** What a thread measures of its part: how long its calls take, or the longest of its puts, or the time of each of them. */
    static long passOn(Peer map, Pass pass, int[] places, int first, int end, long[] times) {
        long start = System.nanoTime(), longest = 0, sum = 0;
        switch (pass) {
            case PUTS: for (int i = first; i < end; i++) map.put(key(places[i]), places[i]); break;
            case GETS: for (int i = first; i < end; i++) sum += map.get(key(places[i])); found.addAndGet(sum); break;
            case LONGEST_PUT:
                for (int i = first; i < end; i++) longest = Math.max(longest, timedPut(map, places[i]));
                return longest;
            default: for (int i = first; i < end; i++) times[i] = timedPut(map, places[i]);
        }
        return System.nanoTime() - start;
    }

    /** What the slowest thread measures. Gets have to find the number of each key, which is its place. */
    static long allPass(Peer map, Pass pass, int[] places, long[] times) throws Exception {
        long[] took = new long[threads];
        int size = (places.length + threads - 1) / threads;
        found.set(0);
        together(number -> {
            int first = (int) Math.min(places.length, (long) number * size), end = (int) Math.min(places.length, (long) first + size);
            took[number] = passOn(map, pass, places, first, end, times);
        });
        if (pass == Pass.GETS && found.get() != (long) places.length * (places.length - 1) / 2) {
            System.err.println("the sum isn't what was put");
            System.exit(2);
        }
        return Arrays.stream(took).max().getAsLong();
    }

    /** The time that so many thousandths of these sorted times are within. */
    static long within(long[] times, int thousandths) {
        return times[(int) Math.min((long) times.length * thousandths / 1000, times.length - 1)];
    }

    /** A round of D: how long all puts take in a new map, and in another one how long a put takes. */
    static long[] growOnce(int[] places) throws Exception {
        long whole = allPass(made(SMALLEST), Pass.PUTS, places, null);
        long[] times = new long[places.length];
        allPass(made(SMALLEST), Pass.TIMED_PUTS, places, times);
        Arrays.sort(times);
        return new long[] {whole, within(times, 500), within(times, 990), within(times, 999), within(times, 1000)};
    }

    /** The middle time of many rounds, for each of their times; some rounds before them are the compiler's. */
    static void growth() throws Exception {
        int[] places = shuffled(live), warm = shuffled(Math.min(live, 32768));
        for (int i = 0; i < 100; i++) growOnce(warm);
        ArrayList<long[]> rounds = new ArrayList<>();
        long most = calls / live + (calls % live == 0 ? 0 : 1), start = System.nanoTime();
        do rounds.add(growOnce(places)); while (System.nanoTime() - start < time && rounds.size() < most);
        String[] names = {"D", "p50", "p99", "p99.9", "max"};
        for (int which = 0; which < 5; which++) {
            int one = which;
            long[] times = rounds.stream().mapToLong(round -> round[one]).sorted().toArray();
            print(names[which], which == 0 ? live : 1, times[times.length / 2]);
        }
    }

    /** The bytes of the heap that are in use after the garbage is collected. */
    static long inUse() {
        for (int i = 0; i < 3; i++) System.gc();
        return Runtime.getRuntime().totalMemory() - Runtime.getRuntime().freeMemory();
    }

    /** The shortest times of maps of all keys, and what the first of them took of the heap; the round before them is the compiler's. */
    static void fill() throws Exception {
        int[] places = shuffled(live), warm = shuffled(Math.min(live, 1_000_000));
        Peer first = made(SMALLEST);
        for (Pass pass : new Pass[] {Pass.PUTS, Pass.GETS, Pass.LONGEST_PUT}) allPass(first, pass, warm, null);
        first = null;
        long[] least = {Long.MAX_VALUE, Long.MAX_VALUE, Long.MAX_VALUE, Long.MAX_VALUE};
        long base = inUse(), memory = -1, begin = System.nanoTime();
        do {
            long before = System.nanoTime();
            Peer map = made(SMALLEST);
            least[0] = Math.min(least[0], System.nanoTime() - before);
            least[1] = Math.min(least[1], allPass(map, Pass.PUTS, places, null));
            if (memory < 0) memory = Math.max(0, inUse() - base);
            least[2] = Math.min(least[2], allPass(map, Pass.GETS, places, null));
            map = null;
            least[3] = Math.min(least[3], allPass(made(SMALLEST), Pass.LONGEST_PUT, places, null));
        } while (System.nanoTime() - begin < time);
        String[] names = {"make", "fill", "read", "longest"};
        int[] counts = {1, live, live, 1};
        for (int i = 0; i < 4; i++) print(names[i], counts[i], least[i]);
        print("memory", live, memory);
    }

    // ---- G: keys come and go.

    /** Each thread of T has a T-th of the keys, every T-th number from its own on. In a step it puts its next key, and takes out its
        oldest one. It answers how long that took, and how many calls it was. */
    static long[] churnOnce() throws Exception {
        long part = Math.max(1, live / threads), steps = calls == Long.MAX_VALUE ? TURNS * part : calls / 2 + calls % 2;
        Peer map = made(room());
        for (long place = 0; place < part * threads; place++) map.put(key(place), place & 0xffffffffL);
        long[] took = new long[threads];
        together(number -> {
            long start = System.nanoTime();
            for (long step = 0; step < steps; step++) {
                long place = (part + step) * threads + number;
                map.put(key(place), place & 0xffffffffL);
                map.remove(key(step * threads + number));
            }
            took[number] = System.nanoTime() - start;
        });
        return new long[] {Arrays.stream(took).max().getAsLong(), 2 * steps * threads};
    }

    /** The round of middle time of many; some rounds before them are the compiler's. */
    static void churn() throws Exception {
        for (long start = System.nanoTime(); System.nanoTime() - start < 1_000_000_000L;) churnOnce();
        ArrayList<long[]> rounds = new ArrayList<>();
        long start = System.nanoTime();
        do rounds.add(churnOnce()); while (System.nanoTime() - start < time);
        rounds.sort(Comparator.comparingLong(round -> round[0]));
        long[] middle = rounds.get(rounds.size() / 2);
        print("G", middle[1], middle[0]);
    }

    // ---- The words.

    static void wrongWords() {
        System.err.println("MAP A|B|C|D|E|F|G THREADS SECONDS [--keys dense|spread|zipf] [--live N] [--calls N]");
        System.exit(3);
    }

    static void read(String[] words) {
        if (words.length < 4 || words.length % 2 != 0 || words[1].length() != 1) wrongWords();
        name = words[0];
        workload = words[1].charAt(0);
        threads = Integer.parseInt(words[2]);
        time = (long) (Double.parseDouble(words[3]) * 1e9);
        live = workload == 'D' ? 32768 : workload == 'F' ? 1_000_000 : 65536;
        for (int i = 4; i < words.length; i += 2) {
            String word = words[i + 1];
            if (words[i].equals("--live")) live = Integer.parseInt(word);
            else if (words[i].equals("--calls")) calls = Long.parseLong(word);
            else if (words[i].equals("--keys") && word.equals("spread")) spread = true;
            else if (words[i].equals("--keys") && word.equals("zipf")) zipf = true;
            else if (!words[i].equals("--keys") || !word.equals("dense")) wrongWords();
        }
        if (threads < 1 || live < 1) wrongWords();
    }

    public static void main(String[] words) throws Exception {
        read(words);
        switch (workload) {
            case 'D': growth(); break;
            case 'F': fill(); break;
            case 'G': churn(); break;
            case 'A': case 'B': case 'C': case 'E': timed(); break;
            default: wrongWords();
        }
    }
}
