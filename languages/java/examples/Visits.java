import java.util.Comparator;
import java.util.List;
import samvolip.Entry;
import samvolip.SamvolipMap;

/** Counts visits: eight threads add to one map, and the three busiest visitors are printed. */
public final class Visits {
    public static void main(String[] words) throws InterruptedException {
        try (SamvolipMap visits = new SamvolipMap()) {
            Thread[] threads = new Thread[8];
            for (int t = 0; t < 8; t++) {
                threads[t] = new Thread(() -> count(visits));
                threads[t].start();
            }
            for (Thread thread : threads) thread.join();

            visits.removeIf((visitor, times) -> times < 100); // who came rarely is forgotten
            List<Entry> busiest = visits.snapshot();
            busiest.sort(Comparator.comparing(Entry::value).reversed());
            for (Entry visit : busiest.subList(0, 3)) System.out.println("visitor " + visit.key() + " came " + visit.value() + " times");
        }
    }

    /** What one thread sees: visitor v comes v times. */
    private static void count(SamvolipMap visits) {
        for (long visitor = 1; visitor < 1000; visitor++) {
            for (int i = 0; i < visitor; i++) visits.add(visitor, 1);
        }
    }
}
