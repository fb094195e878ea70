// Runs Guava's suite of a ConcurrentMap on the view of a map.
import com.google.common.collect.testing.ConcurrentMapTestSuiteBuilder;
import com.google.common.collect.testing.SampleElements;
import com.google.common.collect.testing.TestMapGenerator;
import com.google.common.collect.testing.features.CollectionFeature;
import com.google.common.collect.testing.features.CollectionSize;
import com.google.common.collect.testing.features.Feature;
import com.google.common.collect.testing.features.FeatureUtil;
import com.google.common.collect.testing.features.MapFeature;
import java.util.EnumSet;
import java.util.Enumeration;
import java.util.HashSet;
import java.util.List;
import java.util.Map;
import java.util.Set;
import java.util.concurrent.ConcurrentMap;
import junit.framework.TestFailure;
import junit.framework.TestResult;
import junit.framework.TestSuite;
import samvolip.Keys;
import samvolip.SamvolipMap;

/** Guava's tests of a ConcurrentMap and its views, of each size, on the view of a map. */
public final class GuavaTest {
    /** Maps of the smallest and the greatest keys and values, and of some between. */
    private static final class Maps implements TestMapGenerator<Long, Long> {
        @Override
        public SampleElements<Map.Entry<Long, Long>> samples() {
            return SampleElements.mapEntries(new SampleElements<>(0L, Keys.KEY_MAX, 1L << 40, Long.MIN_VALUE, 7L),
                new SampleElements<>(Keys.VALUE_MAX, 0L, 10L, 1L << 32, 11L));
        }

        @Override
        public Map<Long, Long> create(Object... entries) {
            ConcurrentMap<Long, Long> map = new SamvolipMap().asConcurrentMap();
            for (Object entry : entries) map.put((Long) ((Map.Entry<?, ?>) entry).getKey(), (Long) ((Map.Entry<?, ?>) entry).getValue());
            return map;
        }

        @Override
        @SuppressWarnings("unchecked")
        public Map.Entry<Long, Long>[] createArray(int length) {
            return (Map.Entry<Long, Long>[]) new Map.Entry<?, ?>[length];
        }

        @Override
        public Iterable<Map.Entry<Long, Long>> order(List<Map.Entry<Long, Long>> entries) {
            return entries;
        }

        @Override
        public Long[] createKeyArray(int length) {
            return new Long[length];
        }

        @Override
        public Long[] createValueArray(int length) {
            return new Long[length];
        }
    }

    private static final List<Feature<?>> SET =
        List.of(MapFeature.GENERAL_PURPOSE, CollectionFeature.SUPPORTS_ITERATOR_REMOVE, CollectionSize.ANY);

    /** Guava's other flags, with the reason. Where a flag isn't set, the suite asks for the contrary, if that is one of a map's rules. */
    private static final List<Feature<?>> LEFT_OUT = List.of(
        // a ConcurrentMap refuses null
        MapFeature.ALLOWS_NULL_KEYS, MapFeature.ALLOWS_NULL_VALUES, MapFeature.ALLOWS_NULL_KEY_QUERIES,
        MapFeature.ALLOWS_NULL_VALUE_QUERIES,
        MapFeature.ALLOWS_NULL_ENTRY_QUERIES, MapFeature.ALLOWS_ANY_NULL_QUERIES, CollectionFeature.ALLOWS_NULL_VALUES,
        CollectionFeature.ALLOWS_NULL_QUERIES,
        // its iterators go on while others write
        MapFeature.FAILS_FAST_ON_CONCURRENT_MODIFICATION, CollectionFeature.FAILS_FAST_ON_CONCURRENT_MODIFICATION,
        // keys are mixed with a secret
        CollectionFeature.KNOWN_ORDER, CollectionFeature.DESCENDING_VIEW,
        // its entries are outside of Java's heap
        CollectionFeature.SERIALIZABLE, CollectionFeature.SERIALIZABLE_INCLUDING_VIEWS,
        // each Long here is in range; what is refused is in SamvolipTest
        MapFeature.RESTRICTS_KEYS, MapFeature.RESTRICTS_VALUES, CollectionFeature.RESTRICTS_ELEMENTS,
        // the suite itself sets it for the views, where the map supports removals
        CollectionFeature.REMOVE_OPERATIONS,
        // these are no rules of such a map, nor of its views
        MapFeature.REJECTS_DUPLICATES_AT_CREATION, CollectionFeature.REJECTS_DUPLICATES_AT_CREATION,
        CollectionFeature.NON_STANDARD_TOSTRING,
        CollectionFeature.SUPPORTS_ADD, CollectionFeature.GENERAL_PURPOSE, CollectionFeature.SUBSET_VIEW, CollectionFeature.NONE);

    /** Each flag of maps and of their views is set, follows from one that is, or is left out. */
    private static void looksAtEachFlag() {
        Set<Feature<?>> all = new HashSet<>(EnumSet.allOf(MapFeature.class)), named = new HashSet<>(SET);
        all.addAll(EnumSet.allOf(CollectionFeature.class));
        named.addAll(LEFT_OUT);
        all.removeAll(FeatureUtil.addImpliedFeatures(named));
        if (!all.isEmpty()) throw new AssertionError("these flags of Guava's are neither set nor left out: " + all);
    }

    public static void main(String[] words) {
        looksAtEachFlag();
        TestSuite suite = ConcurrentMapTestSuiteBuilder.using(new Maps()).named("asConcurrentMap").withFeatures(SET).createTestSuite();
        TestResult result = new TestResult();
        suite.run(result);
        for (Enumeration<TestFailure> wrong : List.of(result.failures(), result.errors())) {
            while (wrong.hasMoreElements()) System.out.println(wrong.nextElement().trace());
        }
        if (!result.wasSuccessful()) System.exit(1);
        System.out.println("the " + result.runCount() + " tests of Guava's suite for a ConcurrentMap pass");
    }
}
