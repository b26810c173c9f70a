package cf.testing;

import cf.service.RequestHistory;
import java.io.IOException;
import java.util.ArrayList;
import java.util.Collections;
import java.util.List;

/** An order that failed: what doesn't hold, who did what in which order, which two moves decide, and the row that runs it again. */
public final class Failure {
    final List<Move> moves;
    List<Pair> pairs = Collections.emptyList();
    private final String reason;
    private final Throwable cause;
    private final List<ToldMove> toldMoves;
    private final List<RequestHistory> histories;

    /** A move in words, and what it settled. */
    public static final class ToldMove {
        private final String text;
        private final List<String> settled;

        ToldMove(String text, List<String> settled) {
            this.text = text;
            this.settled = Collections.unmodifiableList(settled);
        }

        /** The move. */
        public String text() {
            return text;
        }

        /** The stages that it settled, and their outcomes. */
        public List<String> settled() {
            return settled;
        }

        @Override
        public String toString() {
            return settled.isEmpty() ? text : text + "; " + String.join("; ", settled);
        }
    }

    /** Two moves of a row, by their places from 0 on, that decide: in the other order the same row doesn't fail. */
    public static final class Pair {
        private final int first, second;

        Pair(int first, int second) {
            this.first = first;
            this.second = second;
        }

        /** The place of the move that comes first in the row. */
        public int first() {
            return first;
        }

        /** The place of the move that comes second. */
        public int second() {
            return second;
        }

        @Override
        public String toString() {
            return first + ", " + second;
        }
    }

    Failure(String why, Throwable cause, List<Move> moves, List<ToldMove> told, List<RequestHistory> histories) {
        this.reason = why;
        this.cause = cause;
        this.moves = new ArrayList<>(moves);
        this.toldMoves = Collections.unmodifiableList(told);
        this.histories = Collections.unmodifiableList(histories);
    }

    /** The condition that doesn't hold, or what was thrown. */
    public String why() {
        return reason;
    }

    /** The exception of a function, a check or the test itself, if that is the reason; else null. */
    public Throwable cause() {
        return cause;
    }

    /** The order as a text, which {@link Orders#row} takes. */
    public String row() {
        return Move.rowText(moves);
    }

    /** The moves in words. */
    public List<ToldMove> told() {
        return toldMoves;
    }

    /** The pairs of moves that decide. */
    public List<Pair> pairs() {
        return pairs;
    }

    /**
     * The history of each request: first of those in memory, whose times are the world's, then of those in the store, by all words that stand. Each
     * of the two has the order in which they were opened. A store's process is called by its name there.
     */
    public List<RequestHistory> histories() {
        return histories;
    }

    /** The account of the first request, for {@code cf_look check}. */
    public String account() {
        return histories.get(0).account();
    }

    /** The script of the first request, for {@code cf run}. */
    public String script() {
        return histories.get(0).script();
    }

    /** The page of the first request for a browser: see {@link RequestHistory#page}. */
    public String page() throws IOException {
        return histories.get(0).page();
    }

    /** How often another one goes on than before. */
    int switches() {
        int switches = 0;
        for (int k = 1; k < moves.size(); k++) {
            switches += moves.get(k - 1).actor().equals(moves.get(k).actor()) ? 0 : 1;
        }
        return switches;
    }

    @Override
    public String toString() {
        StringBuilder text = new StringBuilder(reason).append(": not so in this order of ").append(toldMoves.size()).append(" moves\n");
        for (int k = 0; k < toldMoves.size(); k++) {
            text.append(String.format("%5d. %s%n", k + 1, toldMoves.get(k)));
        }
        for (Pair pair : pairs) {
            text.append("It is so if ").append(pair.second + 1).append(" (").append(toldMoves.get(pair.second).text).append(") comes before ")
                    .append(pair.first + 1).append(" (").append(toldMoves.get(pair.first).text).append(").\n");
        }
        return text.append("This order alone: .row(\"").append(row()).append("\")").toString();
    }
}
