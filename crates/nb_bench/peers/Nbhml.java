// JCTools' NonBlockingHashMapLong<Long> under the workloads of Bench.java.
import org.jctools.maps.NonBlockingHashMapLong;

public final class Nbhml implements Bench.Peer {
    final NonBlockingHashMapLong<Long> map;
    public Nbhml(int size) { map = new NonBlockingHashMapLong<>(size); }
    public long get(long key) { Long found = map.get(key); return found == null ? 0 : found; }
    public void put(long key, long number) { map.put(key, (Long) number); }
    public void remove(long key) { map.remove(key); }
}
