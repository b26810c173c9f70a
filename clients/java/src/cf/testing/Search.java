package cf.testing;

import java.util.ArrayList;
import java.util.Arrays;
import java.util.BitSet;
import java.util.LinkedHashMap;
import java.util.LinkedHashSet;
import java.util.List;
import java.util.Map;
import java.util.Set;
import java.util.function.Function;

/**
 * All orders, but those that can come to nothing else.
 *
 * <p>The search is stateless: each order is a run from the start. It goes through a tree of moves, depth first, of which it has the path to the
 * last run. What is left out stands on what moves touched ({@link Footprint}):
 *
 * <ul>
 * <li><em>Races.</em> Two moves of a run race if they touch the same thing, and nothing between them makes them wait for one another. At the
 *     earlier one a move is added that leads to the other order, unless one of those that do so is there already (source sets). What no race
 *     asks for isn't tried.
 * <li><em>Sleep sets.</em> A move that was tried at a place isn't tried again behind a sibling that is independent of it.
 * <li>A move that takes another one away races with it, though that one was never made: both are tried.
 * <li>A move that fails the order takes all others away, and touches all that any other does: what would have come behind it isn't known.
 * </ul>
 *
 * <p>A workers' bound makes moves wait for one another in ways that races don't see; sleep sets alone are used then. It can be stopped and gone
 * on with.
 */
final class Search {
    private final Runner runner;
    private final Report report;
    private final Function<World, ?> ends;
    private final boolean reduces, races;
    private final List<Node> stack = new ArrayList<>();
    private Map<Move, Footprint> sleep = new LinkedHashMap<>();
    private int place, runs, watched;

    /** A place in the path: the moves that were possible, and those that were or are to be tried. */
    private static final class Node {
        final List<Move> moves;
        final Map<Move, Footprint> sleep, done = new LinkedHashMap<>();
        final Set<Move> todo = new LinkedHashSet<>();
        /** The places of the moves that this one has to come after. */
        BitSet before = new BitSet();
        Move chosen;
        Footprint footprint;

        Node(List<Move> moves, Map<Move, Footprint> sleep, Move chosen) {
            this.moves = moves;
            this.sleep = sleep;
            this.chosen = chosen;
            todo.add(chosen);
        }
    }

    Search(Runner runner, Report report, Function<World, ?> ends) {
        this.runner = runner;
        this.report = report;
        this.ends = ends;
        reduces = runner.settings.isReduced;
        races = reduces && runner.settings.workers == 0;
    }

    /** Makes so many runs more, until all orders are tried, the moment comes, or so many have failed. */
    void search(int most, long until, int failures) {
        for (int left = most; left > 0 && !report.whole && report.failed.size() < failures && System.nanoTime() < until; left--) {
            place = 0;
            sleep = new LinkedHashMap<>();
            RunResult result = runner.run(this::choose, this::moveMade, false);
            if (runner.watched.size() > watched && reduces && !result.run.checks.isEmpty()) {
                // Checks have looked at something new, so what moves touched before isn't known whole.
                watched = runner.watched.size();
                stack.clear();
                continue;
            }
            countRun(result);
            backtrack();
        }
    }

    private void countRun(RunResult result) {
        if (result.outcome == RunResult.Outcome.CUT) {
            report.cut++;
            return;
        }
        if (result.moves.size() < stack.size()) {
            throw new NotDeterministicError("after the moves\n    " + Move.rowText(result.moves) + "\nit fails now, and didn't before: "
                    + result.run.reason);
        }
        report.orders++;
        runs++;
        if ((runs & runs - 1) == 0) { // the first, second, fourth, eighth ..
            runner.checkRepeatable(result);
        }
        if (result.hasFailed()) {
            addOthersOfLastMove();
            report.failed.add(result.failure());
        } else if (ends != null) {
            report.ends.merge(ends.apply(result.run.world), result.run.weight, Long::sum);
        }
    }

    /** Where the last move has failed the order, has the others tried in its place and before it. Behind the last move of all there are none. */
    private void addOthersOfLastMove() {
        Node last = stack.isEmpty() ? null : stack.get(stack.size() - 1);
        if (races && last != null && last.footprint == null) {
            last.todo.addAll(last.moves);
            addRacingMoves(Footprint.ofUnknownMove());
        }
    }

    // One run.

    private Move choose(int depth, List<Move> moves) {
        if (races && depth > 0 && depth == stack.size()) {
            Node last = stack.get(depth - 1);
            for (Move move : last.moves) {
                if (!move.equals(last.chosen) && !moves.contains(move)) {
                    last.todo.add(move);
                }
            }
        }
        if (depth < stack.size()) {
            if (!stack.get(depth).moves.equals(moves)) {
                throw new NotDeterministicError("after the moves\n    " + Move.rowText(path(depth)) + "\nthere were\n    "
                        + Move.rowText(stack.get(depth).moves)
                        + "\nbefore, and now\n    " + Move.rowText(moves));
            }
            return stack.get(depth).chosen;
        }
        for (Move move : moves) {
            if (!sleep.containsKey(move)) {
                stack.add(new Node(moves, new LinkedHashMap<>(sleep), move));
                return move;
            }
        }
        return null;
    }

    private List<Move> path(int length) {
        List<Move> path = new ArrayList<>();
        stack.subList(0, length).forEach(node -> path.add(node.chosen));
        return path;
    }

    private void moveMade(Move move, Footprint footprint) {
        Node node = stack.get(place++);
        if (place < stack.size()) {
            if (!footprint.isSame(node.footprint)) {
                throw new NotDeterministicError("at the end of\n    " + Move.rowText(path(place)) + "\nit touched " + node.footprint
                        + " before, and now "
                        + footprint);
            }
            return;
        }
        if (races) {
            addRacingMoves(footprint);
        }
        node.footprint = footprint;
        if (reduces) {
            sleep = new LinkedHashMap<>();
            for (Map<Move, Footprint> known : Arrays.asList(node.sleep, node.done)) {
                known.forEach((other, touched) -> {
                    if (!other.equals(move) && touched.isIndependent(footprint)) {
                        sleep.put(other, touched);
                    }
                });
            }
        }
    }

    /** Finds with which moves before the last one races, and has the other orders tried, too. */
    private void addRacingMoves(Footprint footprint) {
        int last = stack.size() - 1;
        BitSet before = new BitSet();
        List<Integer> racing = new ArrayList<>();
        for (int at = last - 1; at >= 0; at--) {
            if (!before.get(at) && !stack.get(at).footprint.isIndependent(footprint)) {
                before.or(stack.get(at).before);
                before.set(at);
                racing.add(at);
            }
        }
        stack.get(last).before = before;
        for (int at : racing) {
            List<Move> firsts = possibleFirsts(at, last);
            Node node = stack.get(at);
            if (firsts.stream().noneMatch(move -> node.todo.contains(move) || node.sleep.containsKey(move))) {
                // Where none is possible there, the later move waits for the earlier one, and there is no other order.
                firsts.stream().filter(node.moves::contains).findFirst().ifPresent(node.todo::add);
            }
        }
    }

    /** Of the moves behind a place that needn't come after it, those that can come first and lead to the last one. */
    private List<Move> possibleFirsts(int at, int last) {
        BitSet inside = new BitSet();
        List<Move> firsts = new ArrayList<>();
        for (int k = at + 1; k <= last; k++) {
            if (k < last && stack.get(k).before.get(at)) {
                continue;
            }
            if (!stack.get(k).before.intersects(inside)) {
                firsts.add(stack.get(k).chosen);
            }
            inside.set(k);
        }
        return firsts;
    }

    /** Goes back to the last place at which another move is to be tried. */
    private void backtrack() {
        while (!stack.isEmpty()) {
            Node node = stack.get(stack.size() - 1);
            node.done.put(node.chosen, node.footprint == null ? Footprint.ofUnknownMove() : node.footprint);
            for (Move move : node.moves) {
                if (!node.done.containsKey(move) && !node.sleep.containsKey(move) && (!races || node.todo.contains(move))) {
                    node.chosen = move;
                    node.footprint = null;
                    return;
                }
            }
            report.leftOut += node.moves.size() - node.done.size();
            stack.remove(stack.size() - 1);
        }
        report.whole = true;
    }
}
