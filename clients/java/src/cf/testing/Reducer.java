package cf.testing;

import java.util.ArrayList;
import java.util.BitSet;
import java.util.List;

/** A failing order made smaller: fewer moves first, then fewer switches from one who moves to another. And the pairs of its moves that decide. */
final class Reducer {
    private static final int MOST = 400;

    private final Runner runner;
    private Failure best;
    private List<Move> given;
    /** So many tries more. */
    private int triesLeft = MOST;

    private Reducer(Runner runner, Failure failure) {
        this.runner = runner;
        best = failure;
        given = new ArrayList<>(failure.moves);
    }

    /** The smallest that was found. */
    static Failure reduce(Runner runner, Failure failure) {
        Reducer reducer = new Reducer(runner, failure);
        while (reducer.triesLeft > 0 && reducer.isShorter() | reducer.hasFewerSwitches()) {
            continue;
        }
        return reducer.best;
    }

    /** Whether an order without some moves that stand together is smaller; what is left out may come later. */
    private boolean isShorter() {
        boolean found = false;
        for (int length = given.size(); length > 0; length /= 2) {
            for (int place = 0; place < given.size() && triesLeft > 0;) {
                List<Move> row = new ArrayList<>(given.subList(0, place));
                row.addAll(given.subList(Math.min(place + length, given.size()), given.size()));
                if (isBetter(row)) {
                    found = true;
                } else {
                    place += length;
                }
            }
        }
        return found;
    }

    /** Whether one is smaller in which a move comes right behind the last one of the same. */
    private boolean hasFewerSwitches() {
        boolean found = false;
        for (int late = 0; late < given.size(); late++) {
            for (int early = 0; early < late - 1; early++) {
                if (late < given.size() && triesLeft > 0 && given.get(early).actor().equals(given.get(late).actor())) {
                    List<Move> row = new ArrayList<>(given);
                    row.add(early + 1, row.remove(late));
                    found |= isBetter(row);
                }
            }
        }
        return found;
    }

    private boolean isBetter(List<Move> row) {
        triesLeft--;
        RunResult result = runner.replay(row);
        if (!result.hasFailed() || !result.run.reason.equals(best.why())) {
            return false;
        }
        Failure made = result.failure();
        int fewer = made.moves.size() - best.moves.size();
        if (fewer > 0 || fewer == 0 && made.switches() >= best.switches()) {
            return false;
        }
        best = made;
        given = new ArrayList<>(made.moves);
        return true;
    }

    /** The pairs of moves that decide: the same row with the second before the first doesn't fail. */
    static List<Failure.Pair> decidingPairs(Runner runner, Failure failure) {
        List<Move> row = failure.moves;
        List<Footprint> footprints = new ArrayList<>();
        runner.runInOrder(row, (move, footprint) -> footprints.add(footprint));
        while (footprints.size() < row.size()) {
            footprints.add(Footprint.ofUnknownMove());
        }
        List<BitSet> before = new ArrayList<>();
        List<Failure.Pair> pairs = new ArrayList<>();
        for (int second = 0; second < row.size(); second++) {
            List<Integer> racing = new ArrayList<>();
            before.add(racingMoves(row, footprints, before, second, racing));
            for (int first : racing) {
                if (decides(runner, row, before, first, second)) {
                    pairs.add(new Failure.Pair(first, second));
                }
            }
        }
        return pairs;
    }

    private static boolean decides(Runner runner, List<Move> row, List<BitSet> before, int first, int second) {
        List<Move> other = new ArrayList<>(row.subList(0, first)), late = new ArrayList<>();
        for (int k = first + 1; k < second; k++) {
            (before.get(k).get(first) ? late : other).add(row.get(k));
        }
        other.add(row.get(second));
        other.add(row.get(first));
        other.addAll(late);
        other.addAll(row.subList(second + 1, row.size()));
        RunResult result = runner.runInOrder(other, null);
        int at = result.moves.indexOf(row.get(second));
        return result.outcome == RunResult.Outcome.END && at >= 0 && !result.moves.subList(0, at).contains(row.get(first));
    }

    /** The moves that the last one has to come after, and those of others among them with which it races. */
    private static BitSet racingMoves(List<Move> row, List<Footprint> footprints, List<BitSet> before, int last, List<Integer> racing) {
        BitSet mine = new BitSet();
        for (int place = last - 1; place >= 0; place--) {
            boolean isOwn = row.get(place).actor().equals(row.get(last).actor());
            if (!mine.get(place) && (isOwn || !footprints.get(place).isIndependent(footprints.get(last)))) {
                mine.or(before.get(place));
                mine.set(place);
                if (!isOwn) {
                    racing.add(place);
                }
            }
        }
        return mine;
    }
}
