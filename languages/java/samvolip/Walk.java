// The iterator of a map's entries.
package samvolip;

import static samvolip.Functions.made;
import static samvolip.Functions.wrong;

import java.lang.ref.Cleaner;
import java.lang.ref.Reference;
import java.util.Iterator;
import java.util.NoSuchElementException;

/** A walk over a map, by one thread at a time. It takes many entries at once. */
final class Walk implements Iterator<Entry> {
    private static final int SOME = 64;

    /** What a walk has of C's: its own address, and that of the entries which it took. */
    private static final class Held implements Runnable {
        /** The map isn't freed before its walks. */
        private final SamvolipMap map;
        private final long walk, entries;

        private Held(SamvolipMap map) {
            this.map = map;
            entries = Native.allocate((long) SOME * Functions.ENTRY_SIZE);
            try {
                made((int) Functions.WALK_BEGIN.invokeExact(map.at(), entries));
            } catch (Throwable thrown) {
                Native.free(entries);
                throw wrong(thrown);
            }
            walk = Native.getLong(entries);
        }

        @Override
        public void run() {
            try {
                Functions.WALK_END.invokeExact(walk);
            } catch (Throwable thrown) {
                throw wrong(thrown);
            } finally {
                Native.free(entries);
                Reference.reachabilityFence(map);
            }
        }
    }

    private final Held held;
    private final Cleaner.Cleanable ended;
    /** What it took last, keys and values by turns. */
    private final long[] some = new long[2 * SOME];
    private int next, count;
    private boolean isOver;
    /** The key that was shown last, and whether it can be removed. */
    private long last;
    private boolean canRemove;

    Walk(SamvolipMap map) {
        held = new Held(map);
        ended = Cleaners.CLEANER.register(this, held);
    }

    /** Ends it. */
    void end() {
        count = next;
        letGo();
    }

    private void letGo() {
        isOver = true;
        ended.clean();
    }

    /** Whether there is another entry. What C has of the walk goes as soon as the last entries were taken. */
    @Override
    public boolean hasNext() {
        if (next < count) return true;
        if (isOver) return false;
        try {
            next = 0;
            count = made((int) Functions.WALK_SOME.invokeExact(held.walk, held.entries, SOME));
            Native.read(held.entries, some, 0, 2 * count);
        } catch (Throwable thrown) {
            throw wrong(thrown);
        } finally {
            Reference.reachabilityFence(this);
        }
        if (count < SOME) letGo();
        return count > 0;
    }

    /** The key and the value of the next entry, which there is; only then the next one is next. */
    long key() {
        return some[2 * next];
    }

    long value() {
        return some[2 * next + 1];
    }

    void pass() {
        next++;
    }

    @Override
    public Entry next() {
        if (!hasNext()) throw new NoSuchElementException();
        Entry entry = new Entry(key(), value());
        pass();
        last = entry.key();
        canRemove = true;
        return entry;
    }

    @Override
    public void remove() {
        if (!canRemove) throw new IllegalStateException("nothing was shown, or it was removed");
        held.map.remove(last);
        canRemove = false;
    }
}
