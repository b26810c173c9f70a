package cf.testing;

import java.util.ArrayList;
import java.util.Collections;
import java.util.HashMap;
import java.util.List;
import java.util.Locale;
import java.util.Map;

/** The result of a search. */
public final class Report {
    int orders, byChance, leftOut, cut;
    boolean whole;
    double seconds;
    List<Failure> failed = new ArrayList<>();
    final Map<Object, Long> ends = new HashMap<>();

    Report() {}

    /** How many orders were tried to their end, those by chance too. */
    public int orders() {
        return orders;
    }

    /** How many of them by chance. */
    public int byChance() {
        return byChance;
    }

    /** How many runs were given up on the way, since they could come to nothing else. */
    public int cut() {
        return cut;
    }

    /** How many moves weren't tried where they could come to nothing else. Behind each are one or more orders. */
    public int leftOut() {
        return leftOut;
    }

    /** Whether no further order can come to anything else. */
    public boolean whole() {
        return whole;
    }

    /** How long it took. */
    public double seconds() {
        return seconds;
    }

    /** The orders that failed. */
    public List<Failure> failed() {
        return Collections.unmodifiableList(failed);
    }

    /** How many orders came to each end, if {@link Orders#ends} said what an end is. */
    public Map<Object, Long> ends() {
        return Collections.unmodifiableMap(ends);
    }

    @Override
    public String toString() {
        StringBuilder text = new StringBuilder(String.format(Locale.ROOT, "%d orders, %s; %d failed; %.2f s", orders,
                whole ? "which are all that differ" : "which aren't all", failed.size(), seconds));
        failed.forEach(failure -> text.append("\n\n").append(failure));
        return text.toString();
    }
}
