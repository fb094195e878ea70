// The map as a java.util.concurrent.ConcurrentMap<Long, Long>.
package samvolip;

import static java.util.Objects.requireNonNull;

import java.util.AbstractCollection;
import java.util.AbstractMap;
import java.util.Collection;
import java.util.Iterator;
import java.util.Map;
import java.util.OptionalLong;
import java.util.Set;
import java.util.Spliterator;
import java.util.Spliterators;
import java.util.concurrent.ConcurrentMap;
import java.util.function.BiConsumer;
import java.util.function.Predicate;

/**
 * What {@link SamvolipMap#asConcurrentMap} answers. Functions are called by ConcurrentMap's own loops; all else that isn't here is
 * AbstractMap's.
 */
final class BoxedMap extends AbstractMap<Long, Long> implements ConcurrentMap<Long, Long> {
    private final SamvolipMap map;

    BoxedMap(SamvolipMap map) {
        this.map = map;
    }

    private static boolean isKey(Object key) {
        return key instanceof Long number && Long.compareUnsigned(number, Keys.KEY_MAX) <= 0;
    }

    private static boolean isValue(Object value) {
        return value instanceof Long number && number >= 0 && number <= Keys.VALUE_MAX;
    }

    /** A key that is to be written. */
    private static long key(Long key) {
        if (isKey(requireNonNull(key))) return key;
        throw new IllegalArgumentException("the key " + key + " is, unsigned, greater than 2^64 - 3");
    }

    /** A value that is to be written. */
    private static long value(Long value) {
        if (isValue(requireNonNull(value))) return value;
        throw new IllegalArgumentException("the value " + value + " isn't in 0 to 2^60 - 1");
    }

    private static Long boxed(OptionalLong found) {
        return found.isPresent() ? (Long) found.getAsLong() : null;
    }

    @Override
    public Long get(Object key) {
        return isKey(requireNonNull(key)) ? boxed(map.get((Long) key)) : null;
    }

    @Override
    public boolean containsKey(Object key) {
        return get(key) != null;
    }

    @Override
    public boolean containsValue(Object value) {
        return isValue(requireNonNull(value)) && map.any((key, there) -> there == (Long) value);
    }

    @Override
    public Long put(Long key, Long value) {
        return boxed(map.put(key(key), value(value)));
    }

    @Override
    public Long putIfAbsent(Long key, Long value) {
        return boxed(map.putIfAbsent(key(key), value(value)));
    }

    @Override
    public Long replace(Long key, Long value) {
        return boxed(map.replace(key(key), value(value)));
    }

    @Override
    public boolean replace(Long key, Long old, Long value) {
        long at = key(key), next = value(value);
        return isValue(requireNonNull(old)) && map.replace(at, old, next);
    }

    @Override
    public Long remove(Object key) {
        return isKey(requireNonNull(key)) ? boxed(map.remove((Long) key)) : null;
    }

    @Override
    public boolean remove(Object key, Object value) {
        return isKey(requireNonNull(key)) & isValue(requireNonNull(value)) && map.remove((Long) key, (Long) value);
    }

    @Override
    public int size() {
        return (int) Math.min(map.size(), Integer.MAX_VALUE);
    }

    @Override
    public void clear() {
        map.clear();
    }

    @Override
    public void forEach(BiConsumer<? super Long, ? super Long> action) {
        map.forEach(action::accept);
    }

    /** AbstractMap's would leave a walk before its end. */
    @Override
    public boolean equals(Object other) {
        return other == this || other instanceof Map<?, ?> its && entrySet().equals(its.entrySet());
    }

    /** One of the three views, which shows a part of each entry. */
    private abstract class View<E> extends AbstractCollection<E> {
        abstract E part(long key, long value);

        @Override
        public Iterator<E> iterator() {
            Walk walk = new Walk(map);
            return new Iterator<>() {
                @Override
                public boolean hasNext() {
                    return walk.hasNext();
                }

                @Override
                public E next() {
                    samvolip.Entry next = walk.next();
                    return part(next.key(), next.value());
                }

                @Override
                public void remove() {
                    walk.remove();
                }
            };
        }

        /** It has no size, which would have to stay the same meanwhile. */
        @Override
        public Spliterator<E> spliterator() {
            int distinct = this instanceof Set ? Spliterator.DISTINCT : 0;
            return Spliterators.spliteratorUnknownSize(iterator(), Spliterator.CONCURRENT | Spliterator.NONNULL | distinct);
        }

        @Override
        public int size() {
            return BoxedMap.this.size();
        }

        @Override
        public void clear() {
            map.clear();
        }

        /** What is changed after the test stays. */
        @Override
        public boolean removeIf(Predicate<? super E> test) {
            requireNonNull(test);
            return map.removeIf((key, value) -> test.test(part(key, value))) > 0;
        }
    }

    private abstract class SetView<E> extends View<E> implements Set<E> {
        @Override
        public boolean equals(Object other) {
            return other == this || other instanceof Set<?> its && its.size() == size()
                && its.stream().allMatch(one -> one != null && contains(one));
        }

        @Override
        public int hashCode() {
            return stream().mapToInt(Object::hashCode).sum();
        }
    }

    @Override
    public Set<Long> keySet() {
        return new SetView<>() {
            @Override
            Long part(long key, long value) {
                return key;
            }

            @Override
            public boolean contains(Object key) {
                return containsKey(key);
            }

            @Override
            public boolean remove(Object key) {
                return BoxedMap.this.remove(key) != null;
            }

            /** Whatever their values are by then. */
            @Override
            public boolean removeIf(Predicate<? super Long> test) {
                requireNonNull(test);
                boolean[] removed = new boolean[1];
                BoxedMap.this.forEach((key, value) -> removed[0] |= test.test(key) && remove(key));
                return removed[0];
            }
        };
    }

    @Override
    public Collection<Long> values() {
        return new View<>() {
            @Override
            Long part(long key, long value) {
                return value;
            }

            @Override
            public boolean contains(Object value) {
                return containsValue(value);
            }

            @Override
            public boolean remove(Object value) {
                return isValue(value) && map.any((key, there) -> there == (Long) value && map.remove(key, there));
            }
        };
    }

    @Override
    public Set<Map.Entry<Long, Long>> entrySet() {
        return new SetView<>() {
            @Override
            Map.Entry<Long, Long> part(long key, long value) {
                return new SimpleEntry<>(key, value) {
                    @Override
                    public Long setValue(Long value) {
                        put(getKey(), value);
                        return super.setValue(value);
                    }
                };
            }

            @Override
            public boolean contains(Object object) {
                return object instanceof Map.Entry<?, ?> entry && isKey(entry.getKey()) && isValue(entry.getValue())
                    && entry.getValue().equals(get(entry.getKey()));
            }

            @Override
            public boolean remove(Object object) {
                return object instanceof Map.Entry<?, ?> entry && isKey(entry.getKey()) && isValue(entry.getValue())
                    && BoxedMap.this.remove(entry.getKey(), entry.getValue());
            }
        };
    }
}
