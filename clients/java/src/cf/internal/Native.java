package cf.internal;

import java.io.File;
import java.io.IOException;
import java.io.InputStream;
import java.nio.file.Files;
import java.nio.file.Path;
import java.nio.file.Paths;
import java.util.Locale;
import java.util.concurrent.atomic.AtomicInteger;

/**
 * The methods of native/cf_java.c but for those of {@code cf.service.Machine}, and how it is found: by the property {@code cf.native}, which names the
 * file; else in the jar; else where {@link System#loadLibrary} looks for {@code cf_java}. Each class loader has a library of its own.
 */
public final class Native {
    static {
        loadLibrary();
    }

    /** How many requests have memory outside the heap. */
    public static final AtomicInteger LIVE = new AtomicInteger();

    private Native() {}

    /** Sees to it that the library is loaded. */
    public static void load() {}

    public static native long ticks();

    /** Whether this thread's stack has place for all that a word leads to, but for functions. Where it hasn't, nothing is begun. */
    public static native boolean hasStack();

    public static native double nanosPerTick();

    /** A plan, or a code negated. */
    public static native long plan(int[] rows);

    public static native void forget(long plan);

    /**
     * What words did to the plan of these rows, as a text of a kind of {@link Tale}, which gets the place of {@code told}. The texts stand one
     * behind the other, and of each {@link Tale.Label} their number and lengths in bytes. There are times for all words, or none. A code.
     */
    public static native int tale(int[] rows, int room, long[] words, long[] times, byte[] texts, int[] lengths, int kind, byte[][] told);

    public static native String version();

    /** What is thrown where the library refuses with a code. */
    public static Error refusal(int code) {
        return code == Layout.NO_MEMORY ? noMemory() : new AssertionError("the library refused with code " + code);
    }

    /** What is thrown where the system refuses memory. */
    public static OutOfMemoryError noMemory() {
        return new OutOfMemoryError("cf.service: the system refuses memory outside the heap, where " + LIVE.get() + " requests have some: close"
                + " those that are done");
    }

    private static void loadLibrary() {
        String named = System.getProperty("cf.native");
        String machine = System.getProperty("os.name").toLowerCase(Locale.ROOT) + "-" + System.getProperty("os.arch");
        String within = "native/" + ("linux-amd64".equals(machine) ? "linux-x86_64" : machine) + "/libcf_java.so";
        try (InputStream library = named != null ? null : Native.class.getResourceAsStream(within)) {
            if (library != null) {
                loadCopy(library, "libcf_java.so, which the jar has,");
            } else if (named != null) {
                loadFile(Paths.get(named).toAbsolutePath());
            } else {
                loadFound(machine);
            }
        } catch (IOException fault) {
            throw refusal("libcf_java.so can't be copied to the folder java.io.tmpdir", fault);
        }
    }

    private static void loadFile(Path file) throws IOException {
        try {
            System.load(file.toString());
        } catch (UnsatisfiedLinkError refused) {
            loadAgain(file, refused);
        }
    }

    private static void loadFound(String machine) throws IOException {
        try {
            System.loadLibrary("cf_java");
        } catch (UnsatisfiedLinkError refused) {
            for (String folder : System.getProperty("java.library.path", "").split(File.pathSeparator)) {
                Path file = Paths.get(folder, System.mapLibraryName("cf_java"));
                if (Files.isRegularFile(file)) {
                    loadAgain(file, refused);
                    return;
                }
            }
            throw refusal("the jar has no library for " + machine, refused);
        }
    }

    /** One class loader at a time has a file loaded, so where another one has it, a copy is loaded. */
    private static void loadAgain(Path file, UnsatisfiedLinkError refused) throws IOException {
        if (!Files.isReadable(file)) {
            throw refusal("there is no file " + file + " that can be read", refused);
        }
        try (InputStream library = Files.newInputStream(file)) {
            loadCopy(library, file.toString());
        } catch (UnsatisfiedLinkError copy) {
            copy.addSuppressed(refused);
            throw copy;
        }
    }

    /** What is copied to a file of its own for this class loader. */
    private static void loadCopy(InputStream library, String of) throws IOException {
        Path folder = Files.createTempDirectory("cf"); // Nobody else can write there.
        Path copy = folder.resolve("libcf_java.so");
        try {
            Files.copy(library, copy);
            System.load(copy.toString());
        } catch (UnsatisfiedLinkError refused) {
            throw refusal(of + " can't be loaded as " + copy, refused);
        } finally {
            Files.deleteIfExists(copy); // What is mapped stays.
            Files.deleteIfExists(folder);
        }
    }

    private static UnsatisfiedLinkError refusal(String what, Throwable cause) {
        UnsatisfiedLinkError error = new UnsatisfiedLinkError("cf.service: " + what + ": " + cause.getMessage() + ". The jar's library is for"
                + " x86-64 Linux with glibc, and is copied to java.io.tmpdir (" + System.getProperty("java.io.tmpdir") + "), where programs have"
                + " to be allowed; -Dcf.native=FILE loads a libcf_java.so from its place, which clients/java/build makes");
        error.initCause(cause);
        return error;
    }
}
