// Measures what calls of the map take, beside other maps.
import java.io.IOException;
import java.lang.management.ManagementFactory;
import java.util.ArrayList;
import java.util.Arrays;
import java.util.Collections;
import java.util.List;
import java.util.Map;
import java.util.Random;
import java.util.concurrent.ConcurrentHashMap;
import java.util.function.LongUnaryOperator;
import java.util.stream.LongStream;
import samvolip.Keys;
import samvolip.Options;
import samvolip.SamvolipMap;

/**
 * What a call takes, in nanoseconds, beside other maps: Cost [KEYS [MILLISECONDS [TURNS]]]. A line is a call of a map, with its keys in
 * order and in none: the best round of all, and the middle one. Each case runs in a virtual machine of its own, so that nothing is
 * compiled for another one's calls, warms up for so many milliseconds, and is measured for as many, by rounds of 1,000 of so many keys,
 * 65,536 if nothing is said. The cases go by turns. JCTools' map is among them where it is in the class path.
 */
public final class Cost {
    private static final int ROUND = 1000;
    private static final List<String> MAPS =
        List.of("SamvolipMap", "the same by batches", "the same, keys as they are", "ConcurrentHashMap", "NonBlockingHashMapLong");
    private static final List<String> CALLS = List.of("get", "put", "add");
    /** What keeps the work from being left out. */
    private static volatile long kept;
    /** Which round it is: a put puts another number each time. */
    private static int round;
    private static int keyCount = 65_536;

    /** A call with each of these keys. */
    private interface Work {
        long with(long[] keys);
    }

    private static Work each(LongUnaryOperator call) {
        return keys -> {
            long sum = 0;
            for (long key : keys) sum += call.applyAsLong(key);
            return sum;
        };
    }

    private static Work ours(String call, Keys kind, boolean byBatches) {
        SamvolipMap map = new SamvolipMap(new Options().withKeys(kind));
        for (long key = 0; key < keyCount; key++) map.put(key, key);
        if (byBatches) {
            return keys -> {
                if (call.equals("get")) return map.getMany(keys, 0)[0];
                if (call.equals("put")) map.putMany(keys, round);
                else map.addMany(keys, 1);
                return 0;
            };
        }
        if (call.equals("get")) return each(key -> map.getOrDefault(key, 0));
        return call.equals("put") ? each(key -> map.put(key, round).orElse(0)) : each(key -> map.add(key, 1).orElse(0));
    }

    private static Work theirs(String call, Map<Long, Long> map) {
        for (long key = 0; key < keyCount; key++) map.put(key, key);
        if (call.equals("get")) return each(key -> map.getOrDefault(key, 0L));
        return call.equals("put") ? each(key -> map.put(key, (long) round)) : each(key -> map.merge(key, 1L, Long::sum));
    }

    private static void shuffle(long[] all, Random random) {
        for (int i = all.length - 1; i > 0; i--) {
            int j = random.nextInt(i + 1);
            long key = all[i];
            all[i] = all[j];
            all[j] = key;
        }
    }

    /** Prints the best and the middle round of a case. */
    @SuppressWarnings("unchecked")
    private static void measure(int map, String call, boolean inOrder, long milliseconds) throws ReflectiveOperationException {
        Work work = switch (map) {
            case 0, 1 -> ours(call, Keys.SECRET, map == 1);
            case 2 -> ours(call, Keys.AS_THEY_ARE, false);
            case 3 -> theirs(call, new ConcurrentHashMap<>());
            default -> theirs(call, (Map<Long, Long>) Class.forName("org.jctools.maps.NonBlockingHashMapLong")
                .getConstructor().newInstance());
        };
        long[] all = LongStream.range(0, keyCount).toArray();
        if (!inOrder) shuffle(all, new Random(7));
        long[][] keys = new long[keyCount / ROUND][];
        for (int i = 0; i < keys.length; i++) keys[i] = Arrays.copyOfRange(all, i * ROUND, (i + 1) * ROUND);
        List<Double> rounds = new ArrayList<>();
        long begun = System.nanoTime(), warm = begun + milliseconds * 1_000_000, end = warm + milliseconds * 1_000_000;
        for (long now = begun; now < end || rounds.isEmpty(); round++) {
            kept = work.with(keys[round % keys.length]);
            long after = System.nanoTime();
            if (now >= warm) rounds.add((after - now) / (double) ROUND);
            now = after;
        }
        Collections.sort(rounds);
        System.out.println(rounds.get(0) + " " + rounds.get(rounds.size() / 2));
    }

    /** The same by a virtual machine of its own, with the words that this one has. */
    private static double[] measured(int map, String call, boolean inOrder, long milliseconds) throws IOException {
        List<String> words = new ArrayList<>(List.of(System.getProperty("java.home") + "/bin/java"));
        words.addAll(ManagementFactory.getRuntimeMXBean().getInputArguments());
        words.addAll(List.of("-cp", System.getProperty("java.class.path"), "Cost", "case"));
        words.addAll(List.of(Integer.toString(map), call, Boolean.toString(inOrder),
            Long.toString(milliseconds), Integer.toString(keyCount)));
        Process process = new ProcessBuilder(words).redirectError(ProcessBuilder.Redirect.DISCARD).start();
        String[] told = new String(process.getInputStream().readAllBytes()).trim().split(" ");
        if (told.length != 2) throw new IOException("a case of " + MAPS.get(map) + " has failed");
        return new double[] {Double.parseDouble(told[0]), Double.parseDouble(told[1])};
    }

    private static boolean hasJCTools() {
        try {
            Class.forName("org.jctools.maps.NonBlockingHashMapLong");
            return true;
        } catch (ClassNotFoundException none) {
            return false;
        }
    }

    public static void main(String[] words) throws IOException, ReflectiveOperationException {
        if (words.length == 6) {
            keyCount = Integer.parseInt(words[5]);
            measure(Integer.parseInt(words[1]), words[2], Boolean.parseBoolean(words[3]), Long.parseLong(words[4]));
            return;
        }
        if (words.length > 0) keyCount = Math.max(ROUND, Integer.parseInt(words[0]));
        long milliseconds = words.length > 1 ? Long.parseLong(words[1]) : 1000;
        int turns = words.length > 2 ? Integer.parseInt(words[2]) : 3, maps = hasJCTools() ? 5 : 4;
        double[][][] all = new double[CALLS.size() * maps * 2][turns][];
        for (int turn = 0; turn < turns; turn++) {
            for (int i = 0; i < all.length; i++) all[i][turn] = measured(i / 2 % maps, CALLS.get(i / 2 / maps), i % 2 == 0, milliseconds);
        }
        System.out.printf("%-34s %16s %16s%n", "Java " + Runtime.version().feature(), "keys in order", "in no order");
        for (int i = 0; i < all.length; i += 2) {
            System.out.printf("%-34s %16s %16s%n", CALLS.get(i / 2 / maps) + ", " + MAPS.get(i / 2 % maps), told(all[i]), told(all[i + 1]));
        }
    }

    private static String told(double[][] turns) {
        double best = Arrays.stream(turns).mapToDouble(turn -> turn[0]).min().orElseThrow();
        double middle = Arrays.stream(turns).mapToDouble(turn -> turn[1]).sorted().skip(turns.length / 2).findFirst().orElseThrow();
        return String.format("%.1f (%.1f)", best, middle);
    }
}
