package cf.internal;

import java.util.Arrays;
import java.util.stream.IntStream;

/** Tells a request's history, in memory or in a store: its words, and what things are called there. */
public abstract class Teller {
    public final long[] words;
    private final String name;

    protected Teller(String name, long[] words) {
        this.name = name;
        this.words = words;
    }

    /** The library's text of this format. */
    public final String text(Tale.Format kind) {
        Tale tale = newTale(kind);
        if (kind != Tale.Format.SCRIPT && kind != Tale.Format.REPORT) {
            tale.setLabels(Tale.Label.NAME, name);
            addLabels(tale);
        }
        return tale.text(kind);
    }

    /** The words, for a text of this format. */
    protected abstract Tale newTale(Tale.Format kind);

    /** Adds the names of stages and callers, and the texts of values and exceptions. */
    protected abstract void addLabels(Tale tale);

    /** The name of a caller. */
    protected abstract String callerName(int who);

    /** The names of callers, up to the last one in these words. */
    protected final String[] callerNames(long[] words) {
        int count = Arrays.stream(words).mapToInt(Words::caller).max().orElse(-1) + 1;
        return IntStream.range(0, count).mapToObj(this::callerName).toArray(String[]::new);
    }
}
