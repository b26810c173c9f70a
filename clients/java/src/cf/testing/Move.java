package cf.testing;

import java.util.ArrayList;
import java.util.List;
import java.util.Locale;

/**
 * A move: a word and numbers.
 *
 * <pre>
 * begin r s     a ready function is claimed for an executor: stage s of request r
 * call r s      a function is called. With all that it does, up to where it waits, this is one move
 * go r s        a function that waited goes on
 * choose r s k  a function that waits for a choice goes on with its kth way
 * end r s       a function that was called is finished with what it gave or threw
 * come n k      arrival n comes, in its way k
 * by n k        caller n makes its call k
 * limit r s k   the next limit of request r passes, which was the kth
 * stop          no limit passes any more
 * </pre>
 *
 * <p>Where a function is no stage's, {@code main}, {@code caller} or {@code job} stands for r. Over a store, with p for a process:
 *
 * <pre>
 * job p n       thread n of process p begins: it works on a request, or does what a test says
 * ask p n m k   what it asked of the store is answered in way k, or a function is called, and it goes on; it is the mth time. What a test has
 *               a process call goes on in a move of its own once something was changed
 * go p n        it goes on with what it waited for, or by {@code choose}
 * look p        the process looks what is new, and one of its threads begins with that
 * due p r s n   the process finds that the limit of stage s of request r is over, which was the nth
 * gone p q      the process takes q for gone, and one of its threads abandons what q has claimed
 * kill p        the process is killed
 * land n        the nth put that was on its way comes to the store
 * spare         nobody is killed any more, or taken for gone while it is there
 * </pre>
 */
final class Move {
    enum Action {
        BEGIN(2), CALL(2), GO(2), CHOOSE(3), END(2), COME(2), BY(2), LIMIT(3), STOP(0), JOB(2, true), ASK(4, true), LOOK(1, true), DUE(4, true),
        GONE(2, true), KILL(1, true), LAND(1), SPARE(0);

        final int count;
        /** Whether it is of a process of a store. */
        final boolean isOfProcess;

        Action(int count) {
            this(count, false);
        }

        Action(int count, boolean isOfProcess) {
            this.count = count;
            this.isOfProcess = isOfProcess;
        }

        /** Whether it is made by what shares a store, and not by a thread. */
        boolean isOfStore() {
            return compareTo(JOB) >= 0 && this != ASK;
        }
    }

    /** What stands for a request; for process 0, and one less for each further one. */
    static final int MAIN = -1, CALLER = -2, JOB = -3, OUTSIDE = -4, PROCESS = -5;

    private static final String[] NAMES = {"", "main", "caller", "job", "outside"};

    final Action action;
    final int a, b, c, d;

    Move(Action action, int a, int b, int c) {
        this(action, a, b, c, 0);
    }

    Move(Action action, int a, int b, int c, int d) {
        this.action = action;
        this.a = a;
        this.b = b;
        this.c = c;
        this.d = d;
    }

    Move(Action action, long place) {
        this(action, (int) (place >> 32), (int) place, 0);
    }

    /** A stage, or another function, by two numbers. */
    static long place(int a, int b) {
        return (long) a << 32 | b;
    }

    long place() {
        return place(a, b);
    }

    /** Whether it is a call of a store that isn't answered. */
    boolean isFault() {
        return action == Action.ASK && d > 0;
    }

    /** Who makes it. */
    Object actor() {
        switch (action) {
            case BEGIN:
            case CALL:
            case GO:
            case CHOOSE:
            case END:
            case JOB:
            case ASK:
                return place();
            case STOP:
            case SPARE:
                return action;
            default:
                return action + " " + a;
        }
    }

    @Override
    public boolean equals(Object other) {
        if (!(other instanceof Move)) {
            return false;
        }
        Move move = (Move) other;
        return action == move.action && a == move.a && b == move.b && c == move.c && d == move.d;
    }

    @Override
    public int hashCode() {
        return (((action.ordinal() * 31 + a) * 31 + b) * 31 + c) * 31 + d;
    }

    @Override
    public String toString() {
        int[] numbers = {a, b, c, d};
        StringBuilder text = new StringBuilder(action.toString().toLowerCase(Locale.ROOT));
        for (int k = 0; k < action.count; k++) {
            text.append('.').append(numbers[k] <= PROCESS ? "p" + (PROCESS - numbers[k]) : numbers[k] < 0 ? NAMES[-numbers[k]] : "" + numbers[k]);
        }
        return text.toString();
    }

    /** The moves as a text, which {@link #parseRow} reads. */
    static String rowText(List<Move> moves) {
        StringBuilder text = new StringBuilder();
        for (Move move : moves) {
            text.append(text.length() == 0 ? "" : " ").append(move);
        }
        return text.toString();
    }

    static List<Move> parseRow(String row) {
        List<Move> moves = new ArrayList<>();
        for (String text : row.trim().isEmpty() ? new String[0] : row.trim().split("\\s+")) {
            moves.add(parseMove(text));
        }
        return moves;
    }

    private static Move parseMove(String text) {
        String[] parts = text.split("\\.");
        try {
            Action action = Action.valueOf(parts[0].toUpperCase(Locale.ROOT));
            int[] numbers = new int[4];
            for (int k = 0; k < action.count; k++) {
                numbers[k] = parseNumber(parts[k + 1]);
            }
            return new Move(action, numbers[0], numbers[1], numbers[2], numbers[3]);
        } catch (IllegalArgumentException | IndexOutOfBoundsException none) {
            throw new IllegalArgumentException("there is no move " + text, none);
        }
    }

    private static int parseNumber(String text) {
        for (int k = 1; k < NAMES.length; k++) {
            if (NAMES[k].equals(text)) {
                return -k;
            }
        }
        return text.startsWith("p") ? PROCESS - Integer.parseInt(text.substring(1)) : Integer.parseInt(text);
    }
}
