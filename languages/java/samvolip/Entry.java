package samvolip;

/** A key and its value, both unsigned. */
public record Entry(long key, long value) {
    @Override
    public String toString() {
        return Long.toUnsignedString(key) + "=" + value;
    }
}
