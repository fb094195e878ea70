package samvolip;

import java.lang.invoke.MethodHandle;
import java.lang.ref.Reference;
import java.util.Arrays;
import java.util.function.IntConsumer;

/** Calls for many keys: a downcall makes a part of them. */
final class Many {
    private Many() {}

    /** A part whose keys and values are copied to C's memory; and one of reads without a copy, during which the virtual machine waits. */
    private static final int COPIED = 4096, SHORT = 256;

    /** Makes the calls for so many keys from a place on, up to one that is refused, and answers how many those are. */
    @FunctionalInterface
    private interface Part {
        long make(int from, int count) throws Throwable;
    }

    /** Makes all calls. One that a part was refused is made alone, so as to hear why. */
    private static void all(SamvolipMap map, int calls, int most, Part part, IntConsumer alone) {
        int from = 0;
        try {
            while (from < calls) {
                int count = Math.min(most, calls - from), made = (int) part.make(from, count);
                from += made;
                if (made < count) {
                    alone.accept(from);
                    from++;
                }
            }
        } catch (Refused refused) {
            throw refused.atPlace(from);
        } catch (Throwable thrown) {
            throw Functions.wrong(thrown);
        } finally {
            Reference.reachabilityFence(map);
        }
    }

    /** The same by parts that are copied. C has the keys of a part at `words`, and its values behind them. */
    private static void copied(SamvolipMap map, long[] keys, CopiedPart part, IntConsumer alone) {
        if (keys.length == 0) return;
        int most = Math.min(COPIED, keys.length);
        long words = Native.allocate(16L * most), values = words + 8L * most;
        try {
            all(map, keys.length, most, (from, count) -> {
                Native.write(keys, from, count, words);
                return part.make(words, values, from, count);
            }, alone);
        } finally {
            Native.free(words);
        }
    }

    @FunctionalInterface
    private interface CopiedPart {
        long make(long words, long values, int from, int count) throws Throwable;
    }

    /** Writes the keys by C's function for many. */
    static void write(SamvolipMap map, MethodHandle call, long[] keys, long[] values, IntConsumer alone) {
        long at = map.at();
        if (keys.length != values.length)
            throw new IllegalArgumentException("there are " + keys.length + " keys, and " + values.length + " values");
        copied(map, keys, (words, into, from, count) -> {
            Native.write(values, from, count, into);
            return (long) call.invokeExact(at, words, into, (long) count);
        }, alone);
    }

    /** The same with one value for all keys. */
    static void write(SamvolipMap map, MethodHandle call, long[] keys, long value, IntConsumer alone) {
        long at = map.at();
        long[] same = new long[Math.min(COPIED, keys.length)];
        Arrays.fill(same, value);
        copied(map, keys, (words, into, from, count) -> {
            if (from == 0) Native.write(same, 0, count, into);
            return (long) call.invokeExact(at, words, into, (long) count);
        }, alone);
    }

    /** Reads the keys, into an array that it answers. */
    static long[] get(SamvolipMap map, long[] keys, long other, boolean isShort) {
        long at = map.at();
        long[] found = new long[keys.length];
        IntConsumer alone = place -> found[place] = map.getOrDefault(keys[place], other);
        if (Native.TAKES_ARRAYS && isShort) {
            all(map, keys.length, SHORT, (from, count) -> Native.getMany(at, keys, found, from, count, other), alone);
        } else {
            copied(map, keys, (words, values, from, count) -> {
                long made = (long) Functions.GET_MANY.invokeExact(at, words, values, (long) count, other);
                Native.read(values, found, from, (int) made);
                return made;
            }, alone);
        }
        return found;
    }
}
