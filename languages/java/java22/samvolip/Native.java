// How Java 22 and later call the library of C.
package samvolip;

import java.lang.foreign.FunctionDescriptor;
import java.lang.foreign.Linker;
import java.lang.foreign.MemoryLayout;
import java.lang.foreign.MemorySegment;
import java.lang.foreign.SymbolLookup;
import java.lang.foreign.ValueLayout;
import java.lang.invoke.MethodHandle;
import java.util.Arrays;
import java.util.NoSuchElementException;

/** Functions of C and memory of C's, by java.lang.foreign of Java 22 and later. Of this package only this file is another for Java 17. */
final class Native {
    private Native() {}

    private static final Linker LINKER = Linker.nativeLinker();
    /** All memory, by its addresses. */
    private static final MemorySegment ALL = MemorySegment.NULL.reinterpret(Long.MAX_VALUE);
    private static final MethodHandle CALLOC = linked(LINKER.defaultLookup(), "calloc", false, long.class, long.class, long.class);
    private static final MethodHandle FREE = linked(LINKER.defaultLookup(), "free", false, void.class, long.class);

    /**
     * A function of the library. It takes and answers ints and longs, and an address is a long. A quick one ends soon, whatever others
     * do.
     */
    static MethodHandle function(String name, boolean quick, Class<?> answer, Class<?>... takes) {
        return linked(SymbolLookup.loaderLookup(), name, quick, answer, takes);
    }

    private static MethodHandle linked(SymbolLookup library, String name, boolean quick, Class<?> answer, Class<?>... takes) {
        MemorySegment at = library.find(name).orElseThrow(() -> new NoSuchElementException(name));
        MemoryLayout[] all = Arrays.stream(takes).map(Native::layout).toArray(MemoryLayout[]::new);
        FunctionDescriptor function = answer == void.class ? FunctionDescriptor.ofVoid(all) : FunctionDescriptor.of(layout(answer), all);
        return quick ? LINKER.downcallHandle(at, function, Linker.Option.critical(false)) : LINKER.downcallHandle(at, function);
    }

    /** Whether {@link #getMany} is there. */
    static final boolean TAKES_ARRAYS = true;

    private static final MethodHandle GET_MANY =
        LINKER.downcallHandle(SymbolLookup.loaderLookup().find("samvolip_map_try_get_many").orElseThrow(),
        FunctionDescriptor.of(ValueLayout.JAVA_LONG, ValueLayout.JAVA_LONG, ValueLayout.ADDRESS, ValueLayout.ADDRESS,
            ValueLayout.JAVA_LONG, ValueLayout.JAVA_LONG),
        Linker.Option.critical(true));

    /** C's samvolip_map_try_get_many for so many keys from a place on: it reads and writes the arrays where they are. */
    static long getMany(long map, long[] keys, long[] values, int from, int count, long other) throws Throwable {
        MemorySegment of = MemorySegment.ofArray(keys).asSlice(8L * from), into = MemorySegment.ofArray(values).asSlice(8L * from);
        return (long) GET_MANY.invokeExact(map, of, into, (long) count, other);
    }

    private static MemoryLayout layout(Class<?> type) {
        return type == int.class ? ValueLayout.JAVA_INT : ValueLayout.JAVA_LONG;
    }

    /** The address of so many bytes, all 0. */
    static long allocate(long bytes) {
        try {
            long at = (long) CALLOC.invokeExact(1L, bytes);
            if (at == 0) throw new Refused(Code.E_OUT_OF_MEMORY);
            return at;
        } catch (Throwable thrown) {
            throw Functions.wrong(thrown);
        }
    }

    static void free(long at) {
        try {
            FREE.invokeExact(at);
        } catch (Throwable thrown) {
            throw Functions.wrong(thrown);
        }
    }

    /** A text of C's. */
    static String getText(long at) {
        return ALL.getString(at);
    }

    static long getLong(long at) {
        return ALL.get(ValueLayout.JAVA_LONG, at);
    }

    /** So many longs of C's memory, from the first on, into an array from a place on. */
    static void read(long at, long[] into, int from, int count) {
        MemorySegment.copy(ALL, ValueLayout.JAVA_LONG, at, into, from, count);
    }

    /** The other way round. */
    static void write(long[] of, int from, int count, long at) {
        MemorySegment.copy(of, from, ALL, ValueLayout.JAVA_LONG, at, count);
    }

    static void setLong(long at, long value) {
        ALL.set(ValueLayout.JAVA_LONG, at, value);
    }

    static void setInt(long at, int value) {
        ALL.set(ValueLayout.JAVA_INT, at, value);
    }
}
