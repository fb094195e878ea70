package samvolip;

/** Why a call was refused: those codes of samvolip.h and samvolip_map.h that a map may answer, with their texts. */
public enum Code {
    E_OUT_OF_MEMORY(-8, "out of memory"),
    E_KEY_RANGE(-9, "key too large"),
    E_VALUE_RANGE(-10, "value too large"),
    E_SUM_RANGE(-15, "sum too large"),
    E_ROOM(-18, "the array is too small"),
    E_VERSION(-20, "the header isn't the library's"),
    E_NESTED(-22, "in the middle of a call of its own thread"),
    E_OPTIONS(-23, "an option out of range");

    private final int number;
    private final String text;

    Code(int number, String text) {
        this.number = number;
        this.text = text;
    }

    /** The number in the header, below zero. */
    public int number() {
        return number;
    }

    /** What it means, for people. */
    public String text() {
        return text;
    }

    static Code of(int number) {
        for (Code code : values()) if (code.number == number) return code;
        throw new IllegalStateException("code " + number + " of libsamvolip.so");
    }
}
