package samvolip;

import java.util.Objects;

/**
 * How a map is opened. 0 stands for the default.
 *
 * @param room for how many keys there is room at first, and at least: 1,000 by default
 * @param memory how many bytes tables take at most, old and new ones together: any number by default. At least two first tables, 64 KiB
 *     with the default room
 * @param growth a renewal makes room for so many times the keys that there are, 2 to 64: 4 by default
 * @param threads how many threads have a seat of their own, up to 240: 64 by default. Others share six
 * @param keys what becomes of a key
 */
public record Options(long room, long memory, int growth, int threads, Keys keys) {
    public Options {
        Objects.requireNonNull(keys);
    }

    /** The defaults. */
    public Options() {
        this(0, 0, 0, 0, Keys.SECRET);
    }

    public Options withRoom(long room) {
        return new Options(room, memory, growth, threads, keys);
    }

    public Options withMemory(long memory) {
        return new Options(room, memory, growth, threads, keys);
    }

    public Options withGrowth(int growth) {
        return new Options(room, memory, growth, threads, keys);
    }

    public Options withThreads(int threads) {
        return new Options(room, memory, growth, threads, keys);
    }

    public Options withKeys(Keys keys) {
        return new Options(room, memory, growth, threads, keys);
    }
}
