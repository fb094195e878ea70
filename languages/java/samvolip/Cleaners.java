package samvolip;

import java.lang.ref.Cleaner;

/** Frees what a program has lost without closing it. */
final class Cleaners {
    private Cleaners() {}

    static final Cleaner CLEANER = Cleaner.create();
}
