package cf.service;

import cf.internal.Tale;
import cf.internal.Teller;
import java.io.ByteArrayOutputStream;
import java.io.IOException;
import java.io.InputStream;
import java.io.InterruptedIOException;
import java.nio.charset.StandardCharsets;
import java.nio.file.Files;
import java.nio.file.Path;

/**
 * The history of a request, in memory or in a store, up to the moment when it was taken. Each text takes time by the number of events:
 * the library does them once more, and tells the same in each language.
 *
 * <p>Values and exceptions are told by the request's {@link Describe}; names are always told. The words of {@link #toString} and {@link #line} are
 * for people, and any version may change them: a program should read {@link #account} or {@link #script}, which are JSON on one line.
 */
public abstract class RequestHistory {
    /** @hidden */
    protected RequestHistory() {}

    /** @hidden Makes its texts. */
    protected abstract Teller teller();

    /** The events in their order, each as a word of 64 bits. */
    public long[] words() {
        return teller().words.clone();
    }

    /** A line for each event with its time, and one for each stage that it settled. Names and texts can't add a line: see {@link Describe}. */
    @Override
    public String toString() {
        return teller().text(Tale.Format.LINES);
    }

    /**
     * A sum in one line, for a log: the name, how many events and stages there were, which stage failed first, and which one is open, with semicolons
     * between. A semicolon of a name or a text is escaped as in JSON.
     */
    public String line() {
        return teller().text(Tale.Format.LINE);
    }

    /**
     * What {@code cf_look check} judges, and {@code cf_look page} shows: the events, with the replies and outcomes that they have by the graph.
     * Names, times in nanoseconds from the first event on, and the texts of values and exceptions aren't judged.
     */
    public String account() {
        return withoutEnd(teller().text(Tale.Format.ACCOUNT));
    }

    /**
     * A script that {@code cf run} does again, and that {@code cf_look} draws or makes a page of. None of your functions is called then: the script
     * has what they returned or threw. It is of version 3 if an event times a stage out, else of version 2.
     */
    public String script() {
        return withoutEnd(teller().text(Tale.Format.SCRIPT));
    }

    /**
     * A page for a browser, which loads nothing, as {@code cf_look page} makes it of the account. The program is found on the path, or the
     * property {@code cf.look} names it.
     *
     * @throws IOException where the program isn't there, or fails
     */
    public String page() throws IOException {
        Path input = Files.createTempFile("cf", ".json");
        try {
            Files.write(input, account().getBytes(StandardCharsets.UTF_8));
            Process look = new ProcessBuilder(System.getProperty("cf.look", "cf_look"), "page").redirectInput(input.toFile()).start();
            String page = text(look.getInputStream()), fault = text(look.getErrorStream());
            int status = look.waitFor();
            if (status != 0) {
                throw new IOException("cf_look page ended with status " + status + ": " + fault);
            }
            return page;
        } catch (InterruptedException interrupted) {
            Thread.currentThread().interrupt();
            throw new InterruptedIOException("interrupted while cf_look made a page");
        } finally {
            Files.delete(input);
        }
    }

    private static String text(InputStream from) throws IOException {
        ByteArrayOutputStream all = new ByteArrayOutputStream();
        byte[] part = new byte[8192];
        for (int n; (n = from.read(part)) >= 0;) {
            all.write(part, 0, n);
        }
        return all.toString("UTF-8");
    }

    private static String withoutEnd(String line) {
        return line.substring(0, line.length() - 1);
    }
}
