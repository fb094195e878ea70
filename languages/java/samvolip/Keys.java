package samvolip;

/** What becomes of a key before it is looked for. All calls and walks speak of the keys that were given. */
public enum Keys {
    /** It is mixed with a secret of the map, so that keys which somebody else chooses don't pile up in few places. */
    SECRET,
    /** It is mixed by a formula that is known. */
    MIXED,
    /** Nothing. That is faster for keys that are numbered from 0 on, and slow for keys that share their low bits. */
    AS_THEY_ARE;

    /** The greatest key and the greatest value, both unsigned. */
    public static final long KEY_MAX = -3L, VALUE_MAX = (1L << 60) - 1;
}
