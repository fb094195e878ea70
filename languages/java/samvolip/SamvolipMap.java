// The map that programs call. The other public types are what its calls take, answer and throw.
package samvolip;

import static samvolip.Functions.NONE;
import static samvolip.Functions.PRESENT;
import static samvolip.Functions.made;

import java.lang.invoke.MethodHandle;
import java.lang.ref.Cleaner;
import java.lang.ref.Reference;
import java.util.Arrays;
import java.util.Iterator;
import java.util.List;
import java.util.Objects;
import java.util.OptionalLong;
import java.util.StringJoiner;
import java.util.concurrent.ConcurrentMap;
import java.util.function.LongBinaryOperator;
import java.util.function.LongUnaryOperator;
import java.util.function.UnaryOperator;

/**
 * A map from whole numbers to whole numbers that any thread may call, platform or virtual, with the calls of
 * java.util.concurrent.ConcurrentMap on longs. It begins small, grows and shrinks, and its memory is outside of Java's heap.
 *
 * <p>Keys and values are unsigned: a key past {@link Keys#KEY_MAX} is refused as {@link Code#E_KEY_RANGE}, a value past
 * {@link Keys#VALUE_MAX} as {@link Code#E_VALUE_RANGE}. A write of a new key is refused as {@link Code#E_OUT_OF_MEMORY} if all slots are
 * taken and there is no memory for more.
 *
 * <p>Reads wait for nobody, but for a moment while a new table takes the place of an old one. Writes wait while its entries are copied,
 * and help.
 */
public final class SamvolipMap implements AutoCloseable, Iterable<Entry> {
    /** How many entries toString shows. */
    private static final int MOST_SHOWN = 100;

    private final long at;
    private final Cleaner.Cleanable freed;
    private volatile boolean isClosed;
    /** Whether its table may come to be full, as memory is bounded or was refused: then a read of a key that isn't there may take long. */
    private boolean mayBeFull;

    /** What a call does with each key and its value. */
    @FunctionalInterface
    public interface EntryConsumer {
        void accept(long key, long value);
    }

    /** What {@link #removeIf} asks of each key and its value. */
    @FunctionalInterface
    public interface EntryPredicate {
        boolean test(long key, long value);
    }

    /** An empty map. */
    public SamvolipMap() {
        this(new Options());
    }

    /** The same by options. Refused as {@link Code#E_OPTIONS} where one is out of its range. */
    public SamvolipMap(Options options) {
        Library.load();
        long at = open(options);
        this.at = at;
        mayBeFull = options.memory() != 0;
        freed = Cleaners.CLEANER.register(this, () -> free(at));
    }

    private static long open(Options options) {
        long words = Native.allocate(Functions.OPTIONS_SIZE + 8);
        try {
            Native.setLong(words, options.room());
            Native.setLong(words + 8, options.memory());
            Native.setInt(words + 16, options.growth());
            Native.setInt(words + 20, options.threads());
            Native.setInt(words + 24, options.keys().ordinal());
            int code = (int) Functions.OPEN.invokeExact(Functions.VERSION, (long) Functions.OPTIONS_SIZE, (long) Functions.FIGURES_SIZE,
                words, words + Functions.OPTIONS_SIZE);
            if (code == Code.E_OPTIONS.number())
                throw new Refused(Code.E_OPTIONS, Native.getText((long) Functions.WRONG_OPTION.invokeExact(words)));
            made(code);
            return Native.getLong(words + Functions.OPTIONS_SIZE);
        } catch (Throwable thrown) {
            throw Functions.wrong(thrown);
        } finally {
            Native.free(words);
        }
    }

    private static void free(long at) {
        try {
            Functions.FREE.invokeExact(at);
        } catch (Throwable thrown) {
            throw Functions.wrong(thrown);
        }
    }

    /** Where the map is. As long as the caller keeps this object, it isn't freed. */
    long at() {
        if (isClosed) throw new IllegalStateException("the map was closed");
        return at;
    }

    // the fences: as long as a call is under way the map isn't lost, so the cleaner doesn't free it

    private long word(MethodHandle call, long key) {
        try {
            return made((long) call.invokeExact(at(), key), key, 0);
        } catch (Throwable thrown) {
            throw Functions.wrong(thrown);
        } finally {
            Reference.reachabilityFence(this);
        }
    }

    private static boolean isValue(long value) {
        return value >= 0 && value <= Keys.VALUE_MAX;
    }

    private static OptionalLong found(long word) {
        return word == NONE ? OptionalLong.empty() : OptionalLong.of(word);
    }

    /** What is at a key. */
    public OptionalLong get(long key) {
        return found(getOrDefault(key, NONE));
    }

    private long read(long key) throws Throwable {
        long word = mayBeFull ? Functions.MAY_SCAN : (long) Functions.TRY_GET.invokeExact(at(), key);
        if (word == Functions.MAY_SCAN) mayBeFull = true;
        return word == Functions.MAY_SCAN || word == Functions.WOULD_WAIT ? (long) Functions.GET.invokeExact(at(), key) : word;
    }

    /** What is at a key, or another value. */
    public long getOrDefault(long key, long other) {
        try {
            long word = made(read(key), key, 0);
            return word == NONE ? other : word;
        } catch (Throwable thrown) {
            throw Functions.wrong(thrown);
        } finally {
            Reference.reachabilityFence(this);
        }
    }

    /** Whether there is a value at a key. */
    public boolean containsKey(long key) {
        return getOrDefault(key, NONE) != NONE;
    }

    /** Puts a value at a key, and answers what was there. */
    public OptionalLong put(long key, long value) {
        try {
            return found(made((long) Functions.PUT.invokeExact(at(), key, value), key, value));
        } catch (Throwable thrown) {
            throw Functions.wrong(thrown);
        } finally {
            Reference.reachabilityFence(this);
        }
    }

    /** Puts a value at a key that has none, and answers what was there. */
    public OptionalLong putIfAbsent(long key, long value) {
        try {
            return found(made((long) Functions.PUT_IF_ABSENT.invokeExact(at(), key, value), key, value));
        } catch (Throwable thrown) {
            throw Functions.wrong(thrown);
        } finally {
            Reference.reachabilityFence(this);
        }
    }

    /** Adds a value to what is at a key, or to 0, and answers what was there. May be refused as {@link Code#E_SUM_RANGE}, too. */
    public OptionalLong add(long key, long value) {
        try {
            return found(made((long) Functions.ADD.invokeExact(at(), key, value), key, value));
        } catch (Throwable thrown) {
            throw Functions.wrong(thrown);
        } finally {
            Reference.reachabilityFence(this);
        }
    }

    /** Puts a value at a key that has a smaller one or none, and answers what was there. */
    public OptionalLong fetchMax(long key, long value) {
        try {
            return found(made((long) Functions.FETCH_MAX.invokeExact(at(), key, value), key, value));
        } catch (Throwable thrown) {
            throw Functions.wrong(thrown);
        } finally {
            Reference.reachabilityFence(this);
        }
    }

    /** Puts a value at a key that has a greater one or none, and answers what was there. */
    public OptionalLong fetchMin(long key, long value) {
        try {
            return found(made((long) Functions.FETCH_MIN.invokeExact(at(), key, value), key, value));
        } catch (Throwable thrown) {
            throw Functions.wrong(thrown);
        } finally {
            Reference.reachabilityFence(this);
        }
    }

    /** Puts a value in place of another, and answers what was there. */
    public OptionalLong replace(long key, long value) {
        try {
            return found(made((long) Functions.REPLACE.invokeExact(at(), key, value), key, value));
        } catch (Throwable thrown) {
            throw Functions.wrong(thrown);
        } finally {
            Reference.reachabilityFence(this);
        }
    }

    /** Puts a value in place of this one, and answers whether it did. */
    public boolean replace(long key, long old, long value) {
        try {
            return made((int) Functions.REPLACE_IF.invokeExact(at(), key, old, value), key, isValue(old) ? value : old) == PRESENT;
        } catch (Throwable thrown) {
            throw Functions.wrong(thrown);
        } finally {
            Reference.reachabilityFence(this);
        }
    }

    /** Takes a key out, and answers what was there. */
    public OptionalLong remove(long key) {
        return found(word(Functions.REMOVE, key));
    }

    /** Takes out a key that has this value, and answers whether it did. */
    public boolean remove(long key, long value) {
        try {
            return made((int) Functions.REMOVE_IF.invokeExact(at(), key, value), key, value) == PRESENT;
        } catch (Throwable thrown) {
            throw Functions.wrong(thrown);
        } finally {
            Reference.reachabilityFence(this);
        }
    }

    /** Sets a key from one value to another by one step, and answers whether it did. Empty is no value. */
    public boolean compareAndSet(long key, OptionalLong old, OptionalLong now) {
        if (old.isPresent()) return now.isPresent() ? replace(key, old.getAsLong(), now.getAsLong()) : remove(key, old.getAsLong());
        return now.isPresent() ? putIfAbsent(key, now.getAsLong()).isEmpty() : !containsKey(key);
    }

    /**
     * Sets a key to what a function makes of its value, and answers what was there. Empty is no value. The function is called again if
     * another thread wrote the key meanwhile.
     */
    public OptionalLong update(long key, UnaryOperator<OptionalLong> next) {
        Objects.requireNonNull(next);
        while (true) {
            OptionalLong found = get(key);
            if (compareAndSet(key, found, next.apply(found))) return found;
        }
    }

    /** The value at a key. If there is none, what a function makes of the key is put there, unless another thread comes first. */
    public long computeIfAbsent(long key, LongUnaryOperator make) {
        Objects.requireNonNull(make);
        OptionalLong found = get(key);
        if (found.isPresent()) return found.getAsLong();
        long made = make.applyAsLong(key);
        return putIfAbsent(key, made).orElse(made);
    }

    /** Sets a key that has a value to what a function makes of the key and its value, and answers that; empty if it has none. */
    public OptionalLong computeIfPresent(long key, LongBinaryOperator next) {
        Objects.requireNonNull(next);
        while (true) {
            OptionalLong found = get(key);
            if (found.isEmpty()) return found;
            long made = next.applyAsLong(key, found.getAsLong());
            if (replace(key, found.getAsLong(), made)) return OptionalLong.of(made);
        }
    }

    /**
     * Puts a value at a key that has none; else sets it to what a function makes of its value and this one. Answers what is there
     * then.
     */
    public long merge(long key, long value, LongBinaryOperator join) {
        Objects.requireNonNull(join);
        while (true) {
            OptionalLong found = putIfAbsent(key, value);
            if (found.isEmpty()) return value;
            long made = join.applyAsLong(found.getAsLong(), value);
            if (replace(key, found.getAsLong(), made)) return made;
        }
    }

    /** The value at each key, or another one. Each is a read of its own. */
    public long[] getMany(long[] keys, long other) {
        return Many.get(this, keys, other, !mayBeFull);
    }

    /**
     * Puts at each key the value of the same place, one after another: each is a call of its own. If one is refused, those before it were
     * made, and the text says how many.
     */
    public void putMany(long[] keys, long[] values) {
        Many.write(this, Functions.PUT_MANY, keys, values, place -> put(keys[place], values[place]));
    }

    /** The same with one value for all. */
    public void putMany(long[] keys, long value) {
        Many.write(this, Functions.PUT_MANY, keys, value, place -> put(keys[place], value));
    }

    /** Adds at each key the value of the same place, as {@link #putMany(long[], long[])} puts it. */
    public void addMany(long[] keys, long[] values) {
        Many.write(this, Functions.ADD_MANY, keys, values, place -> add(keys[place], values[place]));
    }

    /** The same with one value for all. */
    public void addMany(long[] keys, long value) {
        Many.write(this, Functions.ADD_MANY, keys, value, place -> add(keys[place], value));
    }

    /** How many keys there are. Exact: writes wait for some microseconds. */
    public long size() {
        return whole(Functions.SIZE);
    }

    /** About how many keys there are: a guess while others write, and exact while nobody does. */
    public long sizeEstimate() {
        return whole(Functions.SIZE_ESTIMATE);
    }

    /** Whether there are no keys. */
    public boolean isEmpty() {
        return size() == 0;
    }

    private long whole(MethodHandle call) {
        try {
            return made((long) call.invokeExact(at()));
        } catch (Throwable thrown) {
            throw Functions.wrong(thrown);
        } finally {
            Reference.reachabilityFence(this);
        }
    }

    /** Takes all keys out in one step. */
    public void clear() {
        try {
            made((int) Functions.CLEAR.invokeExact(at(), 0L, 0L));
        } catch (Throwable thrown) {
            throw Functions.wrong(thrown);
        } finally {
            Reference.reachabilityFence(this);
        }
    }

    /** All entries of one moment, in no order. Writes wait meanwhile, and reads go on. */
    public List<Entry> snapshot() {
        for (long room = sizeEstimate() + 100; ; room *= 2) {
            long words = Native.allocate(8 + room * Functions.ENTRY_SIZE);
            try {
                int code = (int) Functions.SNAPSHOT.invokeExact(at(), words + 8, room, words);
                if (code == Code.E_ROOM.number()) continue;
                made(code);
                Entry[] entries = new Entry[Math.toIntExact(Native.getLong(words))];
                Arrays.setAll(entries, i -> entryAt(words + 8 + (long) i * Functions.ENTRY_SIZE));
                return Arrays.asList(entries);
            } catch (Throwable thrown) {
                throw Functions.wrong(thrown);
            } finally {
                Native.free(words);
                Reference.reachabilityFence(this);
            }
        }
    }

    private static Entry entryAt(long words) {
        return new Entry(Native.getLong(words), Native.getLong(words + 8));
    }

    /**
     * A walk over the map's keys, while all threads may write it, this one too; any number at a time, in one another or not. No key is
     * shown twice, and each key that the map has all the while is shown, with a value that it had meanwhile. One thread at a time
     * goes on with it. It can remove: the key that it showed last, whatever its value is by then.
     */
    @Override
    public Iterator<Entry> iterator() {
        return new Walk(this);
    }

    /** The same, shown to a function. */
    public void forEach(EntryConsumer shown) {
        Objects.requireNonNull(shown);
        any((key, value) -> {
            shown.accept(key, value);
            return false;
        });
    }

    /** Entries as those of a ConcurrentHashMap are shown; of a large map a hundred, and then '..'. */
    @Override
    public String toString() {
        if (isClosed) return "closed";
        StringJoiner all = new StringJoiner(", ", "{", "}");
        int[] shown = new int[1];
        any((key, value) -> {
            boolean isLast = ++shown[0] > MOST_SHOWN;
            all.add(isLast ? ".." : new Entry(key, value).toString());
            return isLast;
        });
        return all.toString();
    }

    /** Whether the test says so of an entry of a walk, which ends there. */
    boolean any(EntryPredicate test) {
        Walk walk = new Walk(this);
        try {
            while (walk.hasNext()) {
                long key = walk.key(), value = walk.value();
                walk.pass();
                if (test.test(key, value)) return true;
            }
            return false;
        } finally {
            walk.end();
        }
    }

    /** Takes out the keys of which the test says so, and answers how many. A key whose value was changed after the test stays. */
    public long removeIf(EntryPredicate test) {
        Objects.requireNonNull(test);
        long[] removed = new long[1];
        forEach((key, value) -> {
            if (test.test(key, value) && remove(key, value)) removed[0]++;
        });
        return removed[0];
    }

    /**
     * This map as Java's own interface: what one of the two does, the other shows. A null key or value is refused by NullPointerException,
     * and a write of a key or a value out of range by IllegalArgumentException; other calls find nothing there. A Long is a key if its bits
     * are, so -3 is the greatest and -1 is none. A function is called again if another thread wrote the key meanwhile; if it answers null,
     * the key is taken out.
     *
     * <p>The iterators of its views are walks ({@link #iterator}) that can remove, and their entries write to the map. A walk that a
     * program leaves before its end keeps its memory until it is collected.
     */
    public ConcurrentMap<Long, Long> asConcurrentMap() {
        return new BoxedMap(this);
    }

    /** Makes the map anew, with room for so many keys or for those that there are; 0 stands for what the options say. */
    public void renew(long room) {
        try {
            made((int) Functions.RENEW.invokeExact(at(), room));
        } catch (Throwable thrown) {
            throw Functions.wrong(thrown);
        } finally {
            Reference.reachabilityFence(this);
        }
    }

    /** What happened so far, and how large the map is. */
    public Figures figures() {
        long words = Native.allocate(Functions.FIGURES_SIZE);
        try {
            made((int) Functions.LOOK.invokeExact(at(), words));
            long[] all = new long[Functions.FIGURES_SIZE / 8];
            Arrays.setAll(all, i -> Native.getLong(words + 8L * i));
            return new Figures(all[0], all[1], all[2], all[3], all[4], all[5], all[6], all[7]);
        } catch (Throwable thrown) {
            throw Functions.wrong(thrown);
        } finally {
            Native.free(words);
            Reference.reachabilityFence(this);
        }
    }

    /** Gives back this thread's seat before the thread ends. It may call again later. */
    public void leave() {
        try {
            Functions.LEAVE.invokeExact(at());
        } catch (Throwable thrown) {
            throw Functions.wrong(thrown);
        } finally {
            Reference.reachabilityFence(this);
        }
    }

    /**
     * Empties the map, which may not be called any more. Other threads may be in the middle of a call: so an empty table of the first room
     * stays, and goes once nobody has the map any more. Where there is no memory for that table, all entries stay as long.
     */
    @Override
    public void close() {
        if (isClosed) return;
        try {
            clear();
        } catch (Refused refused) {
            if (refused.code() != Code.E_OUT_OF_MEMORY) throw refused;
        }
        isClosed = true;
    }
}
