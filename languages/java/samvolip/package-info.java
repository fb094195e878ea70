/**
 * A map from whole numbers to whole numbers that many threads read and write at the same time. It calls the library of samvolip_map.h,
 * whose core is proved in Rattle; the layer over it, and this package, are only tested.
 *
 * <p>{@link samvolip.SamvolipMap} is the map. Keys and values are unsigned: keys up to 2^64 - 3, values up to 2^60 - 1.
 */
package samvolip;
