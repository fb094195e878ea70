// How the library of C is found: by -Dsamvolip or SAMVOLIP_LIB, in the jar, in java.library.path.
package samvolip;

import java.io.File;
import java.io.IOException;
import java.io.InputStream;
import java.nio.file.Files;
import java.nio.file.Path;
import java.nio.file.StandardCopyOption;
import java.util.NoSuchElementException;

/** Finds libsamvolip.so, and says what is missing where it can't. */
final class Library {
    private Library() {}

    private static boolean ready;

    /** Loads the library, if it isn't loaded. */
    static synchronized void load() {
        if (ready) return;
        find();
        try {
            Functions.touch();
        } catch (ExceptionInInitializerError failed) {
            if (failed.getCause() instanceof NoSuchElementException missing)
                throw wrong("the libsamvolip.so that was found has no function " + missing.getMessage()
                    + ": it is of another version", missing);
            throw wrong(linker(), failed);
        } catch (NoClassDefFoundError failed) {
            throw wrong(linker(), failed);
        }
        ready = true;
    }

    private static void find() {
        String file = System.getProperty("samvolip");
        String told = "-Dsamvolip=" + file;
        if (file == null) {
            file = System.getenv("SAMVOLIP_LIB");
            told = "SAMVOLIP_LIB=" + file;
        }
        if (file == null && loadFromJar()) return;
        try {
            if (file == null) System.loadLibrary("samvolip");
            else System.load(inFolder(new File(file)).getAbsolutePath());
        } catch (UnsatisfiedLinkError failed) {
            throw wrong(file == null
                ? "libsamvolip.so isn't found. Say where it is by -Dsamvolip=FILE or by SAMVOLIP_LIB=FILE, "
                    + "or put it into a folder of java.library.path, which is "
                    + System.getProperty("java.library.path")
                : told + " is no libsamvolip.so that can be loaded: " + failed.getMessage(), failed);
        }
    }

    /** Loads the library that the jar has in it, and answers whether it has one. It is a file for as long as that takes. */
    private static boolean loadFromJar() {
        try (InputStream library = Library.class.getResourceAsStream("libsamvolip.so")) {
            if (library == null) return false;
            Path file = Files.createTempFile("libsamvolip", ".so");
            try {
                Files.copy(library, file, StandardCopyOption.REPLACE_EXISTING);
                System.load(file.toString());
            } finally {
                Files.delete(file);
            }
            return true;
        } catch (IOException | UnsatisfiedLinkError failed) {
            throw wrong("the jar's libsamvolip.so can't be loaded from java.io.tmpdir; -Dsamvolip=FILE names another one: "
                + failed.getMessage(), failed);
        }
    }

    private static File inFolder(File place) {
        return place.isDirectory() ? new File(place, "libsamvolip.so") : place;
    }

    private static String linker() {
        int version = Runtime.version().feature();
        Module module = Library.class.getModule();
        String access = "--enable-native-access=" + (module.isNamed() ? module.getName() : "ALL-UNNAMED");
        if (version == 17) return "Java 17 has to be started with --add-modules jdk.incubator.foreign " + access;
        if (version < 22) return "this is Java " + version + ": the package samvolip runs on Java 17, and on 22 and later";
        return "the foreign linker can't be used: the package samvolip has to be built for Java 22 and later, and started with " + access;
    }

    private static UnsatisfiedLinkError wrong(String text, Throwable cause) {
        UnsatisfiedLinkError error = new UnsatisfiedLinkError(text);
        error.initCause(cause);
        return error;
    }
}
