package samvolip;

import java.lang.invoke.MethodHandle;

/** The functions of samvolip_map.h. Addresses are longs. */
final class Functions {
    private Functions() {}

    /** The version of the samvolip_map.h that this package tells of, and the sizes of its structs. */
    static final int VERSION = 0x000900, OPTIONS_SIZE = 32, FIGURES_SIZE = 64, ENTRY_SIZE = 16;

    static final int PRESENT = 1;

    /** What a call answers where there is no value. */
    static final long NONE = Long.MIN_VALUE;

    /** What TRY_GET answers where GET is the call to make, of which the virtual machine is told: it may wait, or look at many slots. */
    static final long WOULD_WAIT = -24, MAY_SCAN = -25;

    private static final Class<?> I = int.class, L = long.class;
    static final MethodHandle OPEN = Native.function("samvolip_map_open_with", false, I, I, L, L, L, L);
    static final MethodHandle WRONG_OPTION = Native.function("samvolip_map_wrong_option", false, L, L);
    static final MethodHandle FREE = Native.function("samvolip_map_free", false, void.class, L);
    static final MethodHandle LEAVE = Native.function("samvolip_map_leave", false, void.class, L);
    static final MethodHandle TRY_GET = Native.function("samvolip_map_try_get_word", true, L, L, L);
    static final MethodHandle GET = Native.function("samvolip_map_get_word", false, L, L, L);
    static final MethodHandle PUT = Native.function("samvolip_map_put_word", false, L, L, L, L);
    static final MethodHandle PUT_IF_ABSENT = Native.function("samvolip_map_put_if_absent_word", false, L, L, L, L);
    static final MethodHandle FETCH_MAX = Native.function("samvolip_map_fetch_max_word", false, L, L, L, L);
    static final MethodHandle FETCH_MIN = Native.function("samvolip_map_fetch_min_word", false, L, L, L, L);
    static final MethodHandle ADD = Native.function("samvolip_map_add_word", false, L, L, L, L);
    static final MethodHandle REPLACE = Native.function("samvolip_map_replace_word", false, L, L, L, L);
    static final MethodHandle REPLACE_IF = Native.function("samvolip_map_replace_if", false, I, L, L, L, L);
    static final MethodHandle REMOVE = Native.function("samvolip_map_remove_word", false, L, L, L);
    static final MethodHandle REMOVE_IF = Native.function("samvolip_map_remove_if", false, I, L, L, L);
    static final MethodHandle GET_MANY = Native.function("samvolip_map_get_many", false, L, L, L, L, L, L);
    static final MethodHandle PUT_MANY = Native.function("samvolip_map_put_many", false, L, L, L, L, L);
    static final MethodHandle ADD_MANY = Native.function("samvolip_map_add_many", false, L, L, L, L, L);
    static final MethodHandle SIZE = Native.function("samvolip_map_size_word", false, L, L);
    static final MethodHandle SIZE_ESTIMATE = Native.function("samvolip_map_size_estimate_word", false, L, L);
    static final MethodHandle CLEAR = Native.function("samvolip_map_clear", false, I, L, L, L);
    static final MethodHandle SNAPSHOT = Native.function("samvolip_map_snapshot", false, I, L, L, L, L);
    static final MethodHandle RENEW = Native.function("samvolip_map_renew", false, I, L, L);
    static final MethodHandle LOOK = Native.function("samvolip_map_look", false, I, L, L);
    static final MethodHandle WALK_BEGIN = Native.function("samvolip_map_walk_begin", false, I, L, L);
    static final MethodHandle WALK_SOME = Native.function("samvolip_map_walk_some", false, I, L, L, I);
    static final MethodHandle WALK_END = Native.function("samvolip_map_walk_end", false, void.class, L);

    /** Finds all of them. */
    static void touch() {}

    /** A code below zero as the exception that it is. */
    static int made(int code) {
        if (code < 0) throw new Refused(Code.of(code));
        return code;
    }

    /** The same of an answer in one word. */
    static long made(long word) {
        if (word < 0 && word != NONE) throw new Refused(Code.of((int) word));
        return word;
    }

    /** The same of a call of a key, with a value if it has one. */
    static long made(long word, long key, long value) {
        if (word < 0 && word != NONE) throw Refused.at(Code.of((int) word), key, value);
        return word;
    }

    /** What a method handle threw, to be thrown on. */
    static RuntimeException wrong(Throwable thrown) {
        if (thrown instanceof RuntimeException runtime) return runtime;
        if (thrown instanceof Error error) throw error;
        return new IllegalStateException(thrown);
    }
}
