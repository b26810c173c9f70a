package cf.testing;

import java.util.ArrayList;
import java.util.HashMap;
import java.util.HashSet;
import java.util.List;
import java.util.Map;
import java.util.Random;
import java.util.Set;

/**
 * Orders by chance: each who moves has a priority, and a few changes of these come at random places (as PCT does it). An order that few switches
 * make is so found with a likelihood that doesn't shrink as the number of orders grows.
 */
final class Chance {
    /** A fault that so many moves in the right order make; and moves, which a row has at first by guess. */
    private static final int DEPTH = 3, SHORT = 20;
    /** A priority below all others. */
    private static final double NEVER = -1e9;

    private final Runner runner;
    private final Report report;
    private final Random random;
    private int longest = SHORT;
    private Map<Object, Double> levels;
    private Set<Integer> changes;

    Chance(Runner runner, Report report, long seed) {
        this.runner = runner;
        this.report = report;
        random = new Random(seed);
    }

    /** So many orders, until the moment comes or so many have failed. */
    void search(int times, long until, int failures) {
        for (int k = 0; k < times && System.nanoTime() < until && report.failed.size() < failures; k++) {
            levels = new HashMap<>();
            changes = new HashSet<>();
            for (int n = 1; n < DEPTH; n++) {
                changes.add(random.nextInt(longest));
            }
            RunResult result = runner.run(this::choose, null, false);
            longest = Math.max(longest, result.moves.size());
            report.orders++;
            report.byChance++;
            if (result.hasFailed()) {
                report.failed.add(result.failure());
            }
        }
    }

    private Move choose(int place, List<Move> moves) {
        if (moves.isEmpty()) {
            return null;
        }
        for (Move move : moves) {
            if (!levels.containsKey(actorOf(move))) {
                levels.put(actorOf(move), !move.isFault() ? random.nextDouble() : random.nextDouble() * longest < 1 ? 1
                        : NEVER); // (about once in an order)
            }
        }
        Move best = highest(moves);
        if (changes.contains(place)) {
            levels.put(actorOf(best), -place - 1.0);
            best = highest(moves);
        }
        return best;
    }

    /** Whose priority decides on a move. */
    private static Object actorOf(Move move) {
        return move.isFault() ? move : move.actor();
    }

    /** The one of the highest priority. Of the ways of one and the same, any. */
    private Move highest(List<Move> moves) {
        double highest = moves.stream().mapToDouble(move -> levels.get(actorOf(move))).max().getAsDouble();
        List<Move> best = new ArrayList<>(moves);
        best.removeIf(move -> levels.get(actorOf(move)) != highest);
        return best.size() == 1 ? best.get(0) : best.get(random.nextInt(best.size()));
    }
}
