package samvolip;

/** A call was refused. It has changed nothing, but a call of many keys may have made some of its changes. */
public final class Refused extends RuntimeException {
    private static final long serialVersionUID = 1;

    private final Code code;
    private final String text;

    Refused(Code code) {
        this(code, code.text());
    }

    Refused(Code code, String text) {
        super(text + " (" + code + ")");
        this.code = code;
        this.text = text;
    }

    /** Of a call of this key, with this value if it has one. */
    static Refused at(Code code, long key, long value) {
        return new Refused(code, switch (code) {
            case E_KEY_RANGE -> "the key " + Long.toUnsignedString(key) + " (" + key + " as a signed long) is past "
                + Long.toUnsignedString(Keys.KEY_MAX);
            case E_VALUE_RANGE -> "the value " + value + " for the key " + Long.toUnsignedString(key) + " is not from 0 to "
                + Keys.VALUE_MAX;
            case E_SUM_RANGE -> "the sum at the key " + Long.toUnsignedString(key) + ", with " + value + " more, is past " + Keys.VALUE_MAX;
            case E_OUT_OF_MEMORY -> "out of memory for the key " + Long.toUnsignedString(key);
            default -> code.text();
        });
    }

    /** Of a call of many keys, one of which was refused so. */
    Refused atPlace(int place) {
        return new Refused(code, text + ", at place " + place + "; the calls before it were made");
    }

    /** Why. */
    public Code code() {
        return code;
    }
}
