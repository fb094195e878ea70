package samvolip;

/**
 * What happened to a map so far, and how large it is. Times are in nanoseconds.
 *
 * @param renewals how often a new table took the place of an old one
 * @param refused renewals that were refused memory
 * @param longestWriteStop the longest time that writes had to wait for a renewal or the like
 * @param longestReadStop the same of reads
 * @param allWriteStops all those times of writes together
 * @param slots how many slots the table has; each takes 16 bytes
 * @param keys about how many keys there are
 * @param threads how many threads have a seat of their own
 */
public record Figures(
    long renewals, long refused, long longestWriteStop, long longestReadStop, long allWriteStops, long slots, long keys, long threads) {}
