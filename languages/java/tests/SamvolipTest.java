// The tests of the package: test.sh runs them.
import java.io.IOException;
import java.nio.file.Files;
import java.nio.file.Path;
import java.util.ArrayList;
import java.util.Arrays;
import java.util.Collection;
import java.util.Comparator;
import java.util.Iterator;
import java.util.List;
import java.util.Map;
import java.util.NoSuchElementException;
import java.util.OptionalLong;
import java.util.concurrent.CompletableFuture;
import java.util.concurrent.ConcurrentHashMap;
import java.util.concurrent.ConcurrentMap;
import java.util.concurrent.ExecutorService;
import java.util.concurrent.Executors;
import java.util.concurrent.ForkJoinPool;
import java.util.concurrent.Future;
import java.util.concurrent.atomic.AtomicLong;
import java.util.concurrent.atomic.AtomicReference;
import java.util.function.IntConsumer;
import samvolip.Code;
import samvolip.Entry;
import samvolip.Figures;
import samvolip.Keys;
import samvolip.Options;
import samvolip.Refused;
import samvolip.SamvolipMap;

/** Each call and refusal; many threads, through renewals; walks; the view of a ConcurrentMap; closing. */
public final class SamvolipTest {
    private static void expect(boolean holds) {
        if (!holds) throw new AssertionError();
    }

    private static void expect(Object is, Object shouldBe) {
        if (!is.equals(shouldBe)) throw new AssertionError(is + ", not " + shouldBe);
    }

    private static OptionalLong of(long number) {
        return OptionalLong.of(number);
    }

    private static final OptionalLong NONE = OptionalLong.empty();

    private static Code refused(Runnable call) {
        try {
            call.run();
        } catch (Refused refused) {
            return refused.code();
        }
        throw new AssertionError("it wasn't refused");
    }

    private static String textOf(Runnable call) {
        try {
            call.run();
        } catch (Refused refused) {
            return refused.getMessage();
        }
        throw new AssertionError("it wasn't refused");
    }

    private static String illegal(Runnable call) {
        try {
            call.run();
        } catch (IllegalStateException illegal) {
            return illegal.getMessage();
        }
        throw new AssertionError("it was taken");
    }

    /** Runs a task in so many threads, by their numbers, and hands on what one of them threw. */
    private static void threads(int number, IntConsumer task) throws InterruptedException {
        AtomicReference<Throwable> wrong = new AtomicReference<>();
        Thread[] threads = new Thread[number];
        for (int t = 0; t < number; t++) {
            final int me = t;
            threads[t] = new Thread(() -> {
                try {
                    task.accept(me);
                } catch (Throwable thrown) {
                    wrong.set(thrown);
                }
            });
            threads[t].start();
        }
        for (Thread thread : threads) thread.join();
        if (wrong.get() != null) throw new AssertionError(wrong.get());
    }

    private static void eachCall(SamvolipMap map) {
        expect(map.put(1, 2), NONE);
        expect(map.putIfAbsent(1, 3), of(2));
        expect(map.replace(1, 4), of(2));
        expect(map.replace(2, 4), NONE);
        expect(!map.replace(1, 2, 5) && map.replace(1, 4, 5));
        expect(map.size() == 1 && map.sizeEstimate() == 1 && !map.isEmpty());
        expect(map.add(1, 1), of(5));
        expect(!map.remove(1, 5) && map.remove(1, 6));
        expect(map.remove(1), NONE);
        expect(map.isEmpty() && map.sizeEstimate() == 0);
        expect(map.getOrDefault(1, 9), 9L);
        expect(map.computeIfAbsent(1, key -> key + 6), 7L);
        expect(map.computeIfAbsent(1, key -> 0), 7L);
        expect(map.computeIfPresent(1, (key, value) -> value + 1), of(8));
        expect(map.computeIfPresent(2, (key, value) -> 0), NONE);
        expect(map.merge(1, 2, Long::sum), 10L);
        expect(map.merge(2, 2, Long::sum), 2L);
        expect(map.update(2, found -> of(found.orElse(0) + map.get(1).orElse(0))), of(2));
        expect(map.update(1, found -> NONE), of(10));
        expect(map.compareAndSet(1, NONE, of(3)) && !map.compareAndSet(1, NONE, of(4)) && map.compareAndSet(1, of(3), of(5)));
        expect(!map.compareAndSet(1, NONE, NONE) && map.compareAndSet(1, of(5), NONE) && map.compareAndSet(1, NONE, NONE));
        expect(map.fetchMax(1, 5), NONE);
        expect(map.fetchMax(1, 4), of(5));
        expect(map.fetchMin(1, 3), of(5));
        expect(map.fetchMin(1, 4), of(3));
        expect(map.remove(1), of(3));
        expect(map.containsKey(2) && !map.containsKey(1));
        expect(refused(() -> map.get(-1)), Code.E_KEY_RANGE);
        expect(refused(() -> map.put(-2, 1)), Code.E_KEY_RANGE);
        expect(map.put(Keys.KEY_MAX, Keys.VALUE_MAX), NONE);
        expect(refused(() -> map.put(1, -1)), Code.E_VALUE_RANGE);
        expect(refused(() -> map.put(1, Keys.VALUE_MAX + 1)), Code.E_VALUE_RANGE);
        expect(refused(() -> map.add(Keys.KEY_MAX, 1)), Code.E_SUM_RANGE);
        expect(map.getOrDefault(Keys.KEY_MAX, 0), Keys.VALUE_MAX);
        List<Entry> entries = map.snapshot();
        entries.sort(Comparator.comparing(Entry::key));
        expect(entries.toString(), "[18446744073709551613=1152921504606846975, 2=12]");
        map.clear();
        expect(map.isEmpty() && map.snapshot().isEmpty() && !map.iterator().hasNext());
        map.leave();
        expect(map.put(3, 3), NONE);
    }

    private static void options() {
        for (Keys keys : Keys.values()) {
            try (SamvolipMap map = new SamvolipMap(new Options().withRoom(20).withGrowth(2).withThreads(2).withKeys(keys))) {
                eachCall(map);
            }
        }
        Options good = new Options();
        Options[] wrong = {
            good.withGrowth(1), good.withGrowth(65), good.withGrowth(-1), good.withThreads(241), good.withThreads(-1), good.withRoom(-1),
            good.withRoom(1L << 28), good.withMemory(1000), good.withMemory(2 * 2048 * 16 - 1),
        };
        for (Options options : wrong) expect(refused(() -> new SamvolipMap(options)), Code.E_OPTIONS);
        expect(textOf(() -> new SamvolipMap(good.withThreads(1000))), "threads: at most 240 (E_OPTIONS)");
        expect(textOf(() -> new SamvolipMap(good.withGrowth(65))), "growth: from 2 to 64 times (E_OPTIONS)");
        expect(textOf(() -> new SamvolipMap(good.withRoom(-1))), "room: for at most 178956970 keys (E_OPTIONS)");
        expect(textOf(() -> new SamvolipMap(good.withMemory(1000))).startsWith("memory: at least that of two first tables"));
        try (SamvolipMap map = new SamvolipMap(good.withRoom(20).withMemory(3 * 512))) { // a table of 32 slots, and one of 64
            expect(refused(() -> {
                for (long key = 0; key < 100; key++) map.put(key, key);
            }), Code.E_OUT_OF_MEMORY);
            long size = map.size();
            expect(size >= 32 && size <= 64);
            for (long key = 0; key < size; key++) expect(map.get(key), of(key));
            expect(map.figures().refused() > 0);
        }
        closesWithoutMemory(good.withRoom(100_000).withMemory(2 * 262_144 * 16));
    }

    /** Where there is no memory for an empty table a map is closed all the same. */
    private static void closesWithoutMemory(Options options) {
        SamvolipMap map = new SamvolipMap(options);
        expect(refused(() -> {
            for (long key = 0; ; key++) map.put(key, key);
        }), Code.E_OUT_OF_MEMORY);
        expect(refused(map::clear), Code.E_OUT_OF_MEMORY);
        map.close();
        expect(illegal(map::size), "the map was closed");
    }

    /** Batches of no key, of a few and of many parts; and where one of their calls is refused. */
    private static void batches() {
        for (Options options : new Options[] {new Options().withRoom(10), new Options().withMemory(1 << 24)}) {
            try (SamvolipMap map = new SamvolipMap(options)) {
                for (int count : new int[] {0, 1, 255, 256, 257, 4096, 10000}) {
                    long[] keys = new long[count], numbers = new long[count];
                    Arrays.setAll(keys, i -> i * 65536L);
                    Arrays.setAll(numbers, i -> i);
                    map.clear();
                    map.putMany(keys, numbers);
                    expect(map.size(), (long) count);
                    expect(Arrays.equals(map.getMany(keys, -7), numbers));
                    map.addMany(keys, numbers);
                    map.addMany(keys, 5);
                    Arrays.setAll(numbers, i -> 2 * i + 5);
                    expect(Arrays.equals(map.getMany(keys, -7), numbers));
                    map.putMany(keys, 9);
                    map.remove(0);
                    Arrays.setAll(numbers, i -> i == 0 ? -7 : 9);
                    expect(Arrays.equals(map.getMany(keys, -7), numbers));
                }
                map.clear();
                long[] keys = {1, 2, -1, 3};
                expect(refused(() -> map.putMany(keys, 1)), Code.E_KEY_RANGE);
                expect(refused(() -> map.getMany(keys, 0)), Code.E_KEY_RANGE);
                expect(map.snapshot().size(), 2);
                expect(refused(() -> map.putMany(new long[] {4}, -1)), Code.E_VALUE_RANGE);
                expect(refused(() -> map.addMany(new long[] {5, 1, 6}, new long[] {1, Keys.VALUE_MAX, 1})), Code.E_SUM_RANGE);
                expect(map.getMany(new long[] {1, 5, 6}, 0)[1] == 1 && !map.containsKey(6));
                expect(textOf(() -> map.addMany(new long[] {7, 7, 7}, new long[] {Keys.VALUE_MAX, 0, 1})),
                    "the sum at the key 7, with 1 more, is past 1152921504606846975, at place 2; the calls before it were made "
                        + "(E_SUM_RANGE)");
                expect(textOf(() -> map.getMany(new long[] {7, -2}, 0)), "the key 18446744073709551614 (-2 as a signed long) is past "
                    + "18446744073709551613, at place 1; the calls before it were made (E_KEY_RANGE)");
                expect(throwsAs(IllegalArgumentException.class, () -> map.putMany(new long[2], new long[3])));
                map.close();
                expect(illegal(() -> map.getMany(new long[0], 0)), "the map was closed");
                expect(illegal(() -> map.addMany(new long[0], 0)), "the map was closed");
            }
        }
        try (SamvolipMap map = new SamvolipMap(new Options().withRoom(20).withMemory(3 * 512))) { // a table of 32 slots, and one of 64
            long[] keys = new long[100];
            Arrays.setAll(keys, i -> i);
            expect(refused(() -> map.putMany(keys, keys)), Code.E_OUT_OF_MEMORY);
            int size = (int) map.size();
            expect(size >= 32 && size <= 64);
            for (int i = 0; i < 100; i++) expect(map.getMany(keys, -1)[i] == (i < size ? i : -1));
        }
    }

    /** Batches by eight threads through renewals: each sum is exact, and no read shows less than was there. */
    private static void batchesBesideThreads() throws InterruptedException {
        try (SamvolipMap map = new SamvolipMap(new Options().withRoom(10).withGrowth(2))) {
            threads(8, me -> {
                long[] keys = new long[1000], seen = new long[1000];
                for (int round = 0; round < 40; round++) {
                    for (int i = 0; i < 1000; i++) keys[i] = (round % 10 * 1000 + i) * 65536L;
                    map.addMany(keys, 1);
                    seen = map.getMany(keys, 0);
                    for (long number : seen) expect(number > round / 10 && number <= 32);
                }
            });
            long[] keys = new long[10000];
            Arrays.setAll(keys, i -> i * 65536L);
            expect(Arrays.stream(map.getMany(keys, 0)).allMatch(number -> number == 32) && map.size() == 10000);
            expect(map.figures().renewals() > 3);
        }
    }

    /** It grows from few slots and shrinks again, and no key is lost. */
    private static void growsAndShrinks() {
        try (SamvolipMap map = new SamvolipMap(new Options().withRoom(10))) {
            for (long key = 0; key < 100000; key++) expect(map.put(key << 16, key), NONE);
            Figures grown = map.figures();
            expect(grown.renewals() > 3 && grown.slots() >= 131072 && grown.keys() == 100000 && grown.threads() == 1);
            for (long key = 0; key < 100000; key++) expect(map.remove(key << 16), of(key));
            for (long key = 0; key < 300000; key++) {
                map.put(-10 - key, key);
                map.remove(-10 - key);
            }
            expect(map.isEmpty() && map.figures().slots() < grown.slots());
            map.renew(0);
            expect(map.figures().slots() <= 64);
            map.renew(1000);
            expect(map.figures().slots() >= 1500);
        }
    }

    /** Exact sums by eight threads, one of which makes the map anew by hand, too. */
    private static void eightThreads() throws InterruptedException {
        try (SamvolipMap map = new SamvolipMap(new Options().withRoom(10).withGrowth(2))) {
            threads(8, me -> {
                for (long i = 0; i < 40000; i++) {
                    long key = (i * 7 + me * 625) % 5000 * 65536;
                    map.add(key, 1);
                    expect(map.containsKey(key));
                    if (me == 0 && i % 1000 == 0) map.renew(i % 7919);
                    if (i % 10000 == 0) map.forEach((shown, value) -> expect(shown % 65536 == 0 && shown >= 0 && shown < 5000L * 65536));
                }
            });
            long[] shown = new long[2];
            map.forEach((key, value) -> {
                expect(value, 64L);
                shown[0]++;
                shown[1] += value;
            });
            expect(Arrays.toString(shown), "[5000, 320000]");
            expect(map.size() == 5000 && map.figures().renewals() >= 40);
        }
    }

    /** More threads than seats of their own, and threads that come and go. */
    private static void manyThreads() throws InterruptedException {
        try (SamvolipMap map = new SamvolipMap(new Options().withRoom(10).withThreads(16))) {
            threads(300, me -> {
                for (int i = 0; i < 300; i++) {
                    map.add(7, 1);
                    map.add(1000L * me + i, 1);
                }
            });
            expect(map.get(7), of(90001));
            expect(map.size(), 90000L);
            for (int round = 0; round < 50; round++) threads(4, me -> map.add(8, 1));
            expect(map.get(8), of(201));
        }
    }

    private static void pools() throws Exception {
        List<ExecutorService> pools = new ArrayList<>(List.of(Executors.newFixedThreadPool(8)));
        try { // virtual threads, of Java 21 and later
            pools.add((ExecutorService) Executors.class.getMethod("newVirtualThreadPerTaskExecutor").invoke(null));
        } catch (NoSuchMethodException older) {
            expect(Runtime.version().feature() < 21);
        }
        for (ExecutorService pool : pools) {
            try (SamvolipMap map = new SamvolipMap(new Options().withRoom(10).withThreads(2))) {
                List<Future<?>> tasks = new ArrayList<>();
                for (int i = 0; i < 2000; i++) {
                    final long key = i;
                    tasks.add(pool.submit(() -> {
                        map.add(-10, 1);
                        map.put(key, key);
                    }));
                }
                for (Future<?> task : tasks) task.get();
                expect(map.get(-10), of(2000));
                expect(map.size(), 2001L);
            } finally {
                pool.shutdown();
            }
        }
        try (SamvolipMap map = new SamvolipMap()) {
            for (int i = 0; i < 2000; i++) CompletableFuture.runAsync(() -> map.add(7, 1), ForkJoinPool.commonPool()).get();
            expect(map.get(7), of(2000));
        }
    }

    /**
     * Virtual threads walk, one walk within another, rest in the middle of it, and go on by whichever thread is free; others write
     * meanwhile.
     */
    private static void virtualThreads() throws Exception {
        if (Runtime.version().feature() < 21) return;
        ExecutorService pool = (ExecutorService) Executors.class.getMethod("newVirtualThreadPerTaskExecutor").invoke(null);
        try (SamvolipMap map = new SamvolipMap(new Options().withRoom(10).withGrowth(2).withThreads(2))) {
            long[] kept = new long[100];
            Arrays.setAll(kept, i -> i);
            map.putMany(kept, kept);
            List<Future<?>> tasks = new ArrayList<>();
            for (int i = 0; i < 300; i++) {
                final long me = i;
                tasks.add(pool.submit(() -> {
                    for (long key = 0; key < 50; key++) map.put(1000 + 50 * me + key, me);
                    int shown = 0;
                    for (Entry entry : map) {
                        if (entry.key() >= 100) continue;
                        shown++;
                        if (entry.key() % 25 == 0) {
                            Thread.sleep(1);
                            long[] all = new long[1];
                            map.forEach((key, value) -> all[0] += key < 100 ? 1 : 0);
                            expect(all[0], 100L);
                        }
                    }
                    expect(shown, 100);
                    expect(Arrays.equals(map.getMany(kept, -1), kept));
                    map.add(500, 1);
                    return null;
                }));
            }
            for (Future<?> task : tasks) task.get();
            expect(map.get(500), of(300));
            expect(map.size(), 100 + 1 + 300 * 50L);
            expect(map.figures().renewals() > 3);
        } finally {
            pool.shutdown();
        }
    }

    /** What a refusal says: the key, and the limit. */
    private static void refusals() {
        try (SamvolipMap map = new SamvolipMap()) {
            String key = "the key 18446744073709551615 (-1 as a signed long) is past 18446744073709551613 (E_KEY_RANGE)";
            List<Runnable> keys = List.of(() -> map.get(-1), () -> map.containsKey(-1), () -> map.put(-1, 1), () -> map.remove(-1),
                () -> map.remove(-1, 1), () -> map.replace(-1, 1, 1), () -> map.merge(-1, 1, Long::sum),
                () -> map.computeIfAbsent(-1, made -> 1));
            for (Runnable call : keys) expect(textOf(call), key);
            String value = "the value 1152921504606846976 for the key 18446744073709551613 is not from 0 to 1152921504606846975 "
                + "(E_VALUE_RANGE)";
            long past = Keys.VALUE_MAX + 1;
            List<Runnable> values = List.of(() -> map.put(Keys.KEY_MAX, past), () -> map.add(Keys.KEY_MAX, past),
                () -> map.replace(Keys.KEY_MAX, past, 1), () -> map.replace(Keys.KEY_MAX, 1, past), () -> map.remove(Keys.KEY_MAX, past),
                () -> map.fetchMax(Keys.KEY_MAX, past), () -> map.update(Keys.KEY_MAX, found -> of(past)));
            for (Runnable call : values) expect(textOf(call), value);
            expect(textOf(() -> map.put(7, -1)), "the value -1 for the key 7 is not from 0 to 1152921504606846975 (E_VALUE_RANGE)");
            map.put(7, Keys.VALUE_MAX);
            expect(textOf(() -> map.add(7, 3)), "the sum at the key 7, with 3 more, is past 1152921504606846975 (E_SUM_RANGE)");
        }
        try (SamvolipMap map = new SamvolipMap(new Options().withRoom(20).withMemory(2 * 512))) {
            for (long key = 0; key < 32; key++) map.put(key, key);
            expect(textOf(() -> map.put(32, 1)), "out of memory for the key 32 (E_OUT_OF_MEMORY)");
        }
    }

    /** A map is shown as a ConcurrentHashMap is, but no more than a hundred entries. */
    private static void texts() {
        try (SamvolipMap map = new SamvolipMap(new Options().withKeys(Keys.AS_THEY_ARE))) {
            ConcurrentHashMap<Long, Long> other = new ConcurrentHashMap<>();
            expect(map.toString(), "{}");
            for (long key = 1; key <= 100; key++) {
                map.put(key, key * 2);
                other.put(key, key * 2);
                if (key <= 2 || key == 100) expect(map.toString(), other.toString());
            }
            map.put(101, 1);
            String shown = map.toString();
            expect(shown.startsWith("{1=2, 2=4, ") && shown.endsWith(", 100=200, ..}"));
            map.clear();
            map.put(Keys.KEY_MAX, 5);
            expect(map.toString(), "{18446744073709551613=5}");
            map.close();
            expect(map.toString(), "closed");
        }
    }

    /** A walk removes what it showed last, once, as that of the view does. */
    private static void removesByWalks() {
        try (SamvolipMap map = new SamvolipMap()) {
            for (long key = 0; key < 300; key++) map.put(key, key);
            Iterator<Entry> walk = map.iterator();
            expect(illegal(walk::remove), "nothing was shown, or it was removed");
            while (walk.hasNext()) {
                Entry entry = walk.next();
                if (entry.key() % 3 != 0) continue;
                map.put(entry.key(), 1000);
                walk.hasNext();
                walk.remove();
                expect(!map.containsKey(entry.key()));
                expect(illegal(walk::remove), "nothing was shown, or it was removed");
            }
            expect(map.size(), 200L);
            expect(illegal(map.asConcurrentMap().keySet().iterator()::remove), "nothing was shown, or it was removed");
        }
    }

    private static void walks() {
        try (SamvolipMap map = new SamvolipMap()) {
            for (long key = 0; key < 100; key++) map.put(key * 65536, key);
            long[] shown = new long[3];
            map.forEach((key, value) -> {
                expect(map.get(key), of(value));
                expect(key, value * 65536);
                for (Entry other : map) {
                    expect(other.key(), other.value() * 65536);
                    shown[1]++;
                    if (other.value() % 50 == 0) map.forEach((third, its) -> shown[2]++);
                }
                map.put(key, value);
                shown[0]++;
            });
            expect(Arrays.toString(shown), "[100, 10000, 20000]");
            try {
                map.forEach((key, value) -> {
                    throw new ArithmeticException();
                });
                throw new AssertionError();
            } catch (ArithmeticException thrown) {
                expect(map.removeIf((key, value) -> value >= 10), 90L);
            }
            Iterator<Entry> walk = map.iterator();
            for (int i = 0; i < 10; i++) expect(walk.next().value() < 10);
            expect(!walk.hasNext() && !walk.hasNext());
            try {
                walk.next();
                throw new AssertionError();
            } catch (NoSuchElementException over) {
                expect(map.size(), 10L);
            }
        }
    }

    /** A walk stays with the keys among which it began: it goes on over renewals and a clear. */
    private static void walksOverRenewals() {
        try (SamvolipMap map = new SamvolipMap(new Options().withRoom(200))) {
            for (long key = 0; key < 200; key++) map.put(key, key);
            List<Iterator<Entry>> walks = new ArrayList<>();
            for (int i = 0; i < 40; i++) walks.add(map.iterator());
            for (Iterator<Entry> walk : walks) walk.next();
            for (long key = 1000; key < 11000; key++) map.put(key, key);
            for (Iterator<Entry> walk : walks.subList(0, 20)) walk.next();
            map.clear();
            int number = 0;
            for (Iterator<Entry> walk : walks) {
                long shown = number++ < 20 ? 2 : 1;
                for (; walk.hasNext(); shown++) {
                    Entry entry = walk.next();
                    expect(entry.key(), entry.value());
                }
                expect(shown >= 200);
            }
            expect(map.isEmpty());
        }
    }

    private static boolean throwsAs(Class<? extends RuntimeException> kind, Runnable call) {
        try {
            call.run();
        } catch (RuntimeException thrown) {
            return kind.isInstance(thrown);
        }
        return false;
    }

    /** What Guava's suite doesn't ask of the view: its ranges, and what a removal by a test leaves. */
    private static void view() {
        try (SamvolipMap map = new SamvolipMap()) {
            ConcurrentMap<Long, Long> view = map.asConcurrentMap();
            expect(view.putIfAbsent(1L, Keys.VALUE_MAX) == null && view.put(Keys.KEY_MAX, 0L) == null);
            expect(map.get(1), of(Keys.VALUE_MAX));
            List<Runnable> outOfRange = List.of(() -> view.put(-1L, 1L), () -> view.put(1L, -1L), () -> view.put(1L, Keys.VALUE_MAX + 1),
                () -> view.putIfAbsent(-2L, 1L), () -> view.replace(-2L, 1L), () -> view.replace(1L, Keys.VALUE_MAX, -1L),
                () -> view.replace(-1L, 1L, 1L), () -> view.merge(1L, 1L, Long::sum), () -> view.merge(2L, -1L, Long::sum),
                () -> view.compute(-1L, (key, value) -> 1L), () -> view.computeIfAbsent(2L, key -> -1L),
                () -> view.computeIfPresent(1L, (key, value) -> -1L), () -> view.entrySet().iterator().next().setValue(-1L));
            for (Runnable call : outOfRange) expect(throwsAs(IllegalArgumentException.class, call));
            List<Runnable> nulls = List.of(() -> view.compute(null, (key, value) -> 1L), () -> view.merge(1L, null, Long::sum),
                () -> view.merge(null, 1L, Long::sum), () -> view.computeIfAbsent(null, key -> 1L),
                () -> view.replaceAll((key, value) -> null),
                () -> view.replace(1L, null, 1L), () -> view.remove(1L, null), () -> view.containsValue(null), () -> view.forEach(null),
                () -> view.get(null), () -> view.remove(null), () -> view.containsKey(null), () -> view.getOrDefault(null, 1L));
            for (Runnable call : nulls) expect(throwsAs(NullPointerException.class, call));
            expect(view.get(-1L) == null && view.get("1") == null && view.remove(-2L) == null && !view.containsKey(-1L));
            expect(!view.containsValue(-1L) && !view.values().remove(-1L) && !view.remove(1L, -1L) && !view.replace(1L, -1L, 1L));
            for (Map.Entry<Long, Long> other :
                    List.of(Map.entry(-1L, 1L), Map.entry(1L, -1L), Map.entry(1L, 1L), Map.entry(2L, Keys.VALUE_MAX))) {
                expect(!view.entrySet().contains(other) && !view.entrySet().remove(other));
            }
            expect(view.equals(Map.of(1L, Keys.VALUE_MAX, Keys.KEY_MAX, 0L)));
            expect(!view.equals(Map.of(1L, 1L, 2L, 2L)) && !view.equals(Map.of("1", 1L, 1L, Keys.VALUE_MAX)));

            view.replaceAll((key, value) -> 5L);
            expect(view.values().stream().distinct().count(), 1L);
            expect(!view.entrySet().removeIf(entry -> view.merge(entry.getKey(), 1L, Long::sum) > 0));
            expect(!view.values().removeIf(value -> view.replace(1L, value + 1) != null & view.replace(Keys.KEY_MAX, value + 1) != null));
            expect(view.equals(Map.of(1L, 7L, Keys.KEY_MAX, 7L)));
            expect(view.keySet().removeIf(key -> view.merge(key, 1L, Long::sum) > 0) && view.isEmpty());
            for (Collection<Long> part : List.of(view.keySet(), view.values())) {
                expect(throwsAs(NullPointerException.class, () -> part.removeIf(null)));
            }

            for (long key = 0; key < 200; key++) view.put(key, key);
            expect(view.keySet().stream().peek(shown -> view.keySet().removeIf(key -> true)).toArray()
                    .length < 200); // a stream has no size
        }
    }

    /** The view's calls with functions are exact through renewals, and its views show what is there meanwhile. */
    private static void viewBesideThreads() throws InterruptedException {
        try (SamvolipMap map = new SamvolipMap(new Options().withRoom(10).withGrowth(2))) {
            ConcurrentMap<Long, Long> view = map.asConcurrentMap();
            AtomicLong takenOut = new AtomicLong();
            threads(8, me -> {
                for (long i = 0; i < 20000; i++) {
                    long key = (i * 7 + me * 625) % 5000 * 65536;
                    if (me % 2 == 0) view.merge(key, 1L, Long::sum);
                    else view.compute(key, (same, value) -> value == null ? 1 : value + 1);
                    if (i % 5000 != me) continue;
                    for (Object shown : view.keySet().stream().toArray()) expect((long) shown % 65536, 0L);
                    for (Long value : view.values().toArray(new Long[0])) expect(value >= 1);
                    expect(view.entrySet().stream().mapToLong(Map.Entry::getValue).sum() >= 1);
                    expect(!view.entrySet().removeIf(entry -> entry.getValue() < 1) && view.equals(view) && view.toString().length() > 2);
                    for (Map.Entry<Long, Long> entry : view.entrySet()) {
                        if (entry.getKey() % 3 != 0) continue;
                        if (view.remove(entry.getKey(), entry.getValue())) takenOut.addAndGet(entry.getValue());
                    }
                }
            });
            long[] left = new long[1];
            view.forEach((key, value) -> left[0] += value);
            expect(left[0] + takenOut.get(), 160000L);
            for (long number = 1; number < 5000; number++) if (number % 3 != 0) expect(view.get(number * 65536), 32L);
            threads(8, me -> {
                if (me % 2 == 0) view.keySet().removeIf(key -> true);
                else for (Iterator<Long> values = view.values().iterator(); values.hasNext(); values.remove()) values.next();
            });
            expect(view.isEmpty() && view.equals(Map.of()) && view.hashCode() == 0);
        }
    }

    /** A map that is closed while others call: they are refused, and nothing breaks. A lost map is freed, after its walks. */
    private static void closing() throws InterruptedException {
        for (int round = 0; round < 100; round++) {
            SamvolipMap map = new SamvolipMap();
            AtomicLong made = new AtomicLong();
            threads(4, me -> {
                if (me == 0) {
                    while (made.get() < 100) Thread.yield();
                    map.close();
                    map.close();
                    return;
                }
                expect(illegal(() -> {
                    while (true) {
                        map.add(me, 1);
                        made.incrementAndGet();
                    }
                }), "the map was closed");
            });
            expect(illegal(map::size), "the map was closed");
            expect(illegal(map::iterator), "the map was closed");
        }
        Iterator<Entry> walk = null;
        for (int i = 0; i < 200; i++) {
            SamvolipMap lost = new SamvolipMap(new Options().withRoom(100000));
            lost.put(i, i);
            if (i == 100) walk = lost.iterator();
            if (i % 50 == 0) System.gc();
        }
        expect(walk.next(), new Entry(100, 100));
    }

    /**
     * The texts of the codes are the headers', and the page's example is the one that is run. Where they aren't there, nothing is
     * compared.
     */
    private static void pages(Path here) throws IOException {
        Path headers = here.resolve("../c/include"), page = here.resolve("../../docs/java.md");
        if (Files.exists(headers)) {
            String text = Files.readString(headers.resolve("samvolip.h")) + Files.readString(headers.resolve("samvolip_map.h"));
            for (Code code : Code.values()) {
                expect(text.contains("case SAMVOLIP_" + code + ": return \"" + code.text() + "\";"));
                expect(text.contains("SAMVOLIP_" + code + " = " + code.number()));
            }
        }
        if (Files.exists(page)) {
            StringBuilder indented = new StringBuilder();
            for (String line : Files.readAllLines(here.resolve("examples/Visits.java")))
                indented.append(line.isEmpty() ? "" : "    ").append(line).append('\n');
            expect(Files.readString(page).contains(indented));
        }
    }

    public static void main(String[] words) throws Exception {
        try (SamvolipMap map = new SamvolipMap()) {
            eachCall(map);
        }
        options();
        batches();
        growsAndShrinks();
        eightThreads();
        batchesBesideThreads();
        manyThreads();
        pools();
        virtualThreads();
        refusals();
        texts();
        walks();
        removesByWalks();
        walksOverRenewals();
        view();
        viewBesideThreads();
        closing();
        pages(Path.of(words[0]));
        System.out.println("java: well");
    }
}
