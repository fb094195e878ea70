// How Java 17 calls the library of C.
package samvolip;

import java.lang.invoke.MethodHandle;
import java.lang.invoke.MethodType;
import java.util.Arrays;
import java.util.NoSuchElementException;
import jdk.incubator.foreign.CLinker;
import jdk.incubator.foreign.FunctionDescriptor;
import jdk.incubator.foreign.MemoryAccess;
import jdk.incubator.foreign.MemoryAddress;
import jdk.incubator.foreign.MemoryLayout;
import jdk.incubator.foreign.MemorySegment;
import jdk.incubator.foreign.SymbolLookup;

/**
 * Functions of C and memory of C's, by the incubator module jdk.incubator.foreign of Java 17. Of this package only this file is
 * another for Java 22.
 */
final class Native {
    private Native() {}

    private static final CLinker LINKER = CLinker.getInstance();
    /** All memory, by its addresses. */
    private static final MemorySegment ALL = MemorySegment.globalNativeSegment();
    private static final MethodHandle CALLOC = linked(CLinker.systemLookup(), "calloc", false, long.class, long.class, long.class);
    private static final MethodHandle FREE = linked(CLinker.systemLookup(), "free", false, void.class, long.class);

    /**
     * A function of the library. It takes and answers ints and longs, and an address is a long. A quick one ends soon, whatever others
     * do.
     */
    static MethodHandle function(String name, boolean quick, Class<?> answer, Class<?>... takes) {
        return linked(SymbolLookup.loaderLookup(), name, quick, answer, takes);
    }

    private static MethodHandle linked(SymbolLookup library, String name, boolean quick, Class<?> answer, Class<?>... takes) {
        MemoryAddress at = library.lookup(name).orElseThrow(() -> new NoSuchElementException(name));
        MemoryLayout[] all = Arrays.stream(takes).map(Native::layout).toArray(MemoryLayout[]::new);
        FunctionDescriptor function = answer == void.class ? FunctionDescriptor.ofVoid(all) : FunctionDescriptor.of(layout(answer), all);
        if (quick) function = function.withAttribute(FunctionDescriptor.TRIVIAL_ATTRIBUTE_NAME, true);
        return LINKER.downcallHandle(at, MethodType.methodType(answer, takes), function);
    }

    /** Whether a function of C can read and write an array where it is. */
    static final boolean TAKES_ARRAYS = false;

    static long getMany(long map, long[] keys, long[] values, int from, int count, long other) {
        throw new UnsupportedOperationException();
    }

    private static MemoryLayout layout(Class<?> type) {
        return type == int.class ? CLinker.C_INT : CLinker.C_LONG;
    }

    /** The address of so many bytes, all 0. */
    static long allocate(long bytes) {
        try {
            long at = (long) CALLOC.invokeExact(1L, bytes);
            if (at == 0) throw new Refused(Code.E_OUT_OF_MEMORY);
            return at;
        } catch (Throwable thrown) {
            throw Functions.wrong(thrown);
        }
    }

    static void free(long at) {
        try {
            FREE.invokeExact(at);
        } catch (Throwable thrown) {
            throw Functions.wrong(thrown);
        }
    }

    /** A text of C's. */
    static String getText(long at) {
        return CLinker.toJavaString(MemoryAddress.ofLong(at));
    }

    static long getLong(long at) {
        return MemoryAccess.getLongAtOffset(ALL, at);
    }

    /** So many longs of C's memory, from the first on, into an array from a place on. */
    static void read(long at, long[] into, int from, int count) {
        part(into, from, count).copyFrom(ALL.asSlice(at, 8L * count));
    }

    /** The other way round. */
    static void write(long[] of, int from, int count, long at) {
        ALL.asSlice(at, 8L * count).copyFrom(part(of, from, count));
    }

    private static MemorySegment part(long[] all, int from, int count) {
        return MemorySegment.ofArray(all).asSlice(8L * from, 8L * count);
    }

    static void setLong(long at, long value) {
        MemoryAccess.setLongAtOffset(ALL, at, value);
    }

    static void setInt(long at, int value) {
        MemoryAccess.setIntAtOffset(ALL, at, value);
    }
}
