package cf.testing;

import java.util.ArrayList;
import java.util.HashSet;
import java.util.LinkedList;
import java.util.List;
import java.util.Set;

/** Runs a test: with any choice of moves, or again by a row, with texts of its moves. */
final class Runner {
    final Settings settings;
    /** The things that checks have read. */
    final Set<Object> watched = new HashSet<>();
    private final Scenario scenario;

    /** Chooses one of the moves that are possible at a place of the row; null ends the run. */
    @FunctionalInterface
    interface Chooser {
        Move choose(int place, List<Move> moves);
    }

    @FunctionalInterface
    interface MoveListener {
        void moveMade(Move move, Footprint footprint);
    }

    Runner(Scenario scenario, Settings settings) {
        this.scenario = scenario;
        this.settings = settings;
    }

    /** One run. */
    RunResult run(Chooser chooser, MoveListener listener, boolean tells) {
        Run run = new Run(settings, watched);
        List<Move> row = new ArrayList<>();
        List<Failure.ToldMove> told = new ArrayList<>();
        RunResult.Outcome outcome = RunResult.Outcome.END;
        if (tells) {
            run.tellMoves();
        }
        try {
            run.start(scenario);
            while (true) {
                List<Move> moves = run.moves();
                Move move = chooser.choose(row.size(), moves);
                if (moves.isEmpty()) {
                    run.checkEnd();
                    break;
                }
                if (move == null) {
                    outcome = RunResult.Outcome.CUT;
                    break;
                }
                row.add(move);
                String text = tells ? run.text(move) : null;
                try {
                    Footprint footprint = run.make(move);
                    if (listener != null) {
                        listener.moveMade(move, footprint);
                    }
                } finally {
                    if (tells) {
                        told.add(new Failure.ToldMove(text, run.settledTexts()));
                    }
                }
            }
        } catch (Leaving leaving) {
            if (leaving.reason == Leaving.Reason.NEEDS_THREADS) {
                throw leaving;
            }
            outcome = RunResult.Outcome.FAILED;
        } finally {
            run.close();
        }
        return new RunResult(outcome, run, row, told);
    }

    /** Follows a row as far as it can be followed, and goes on with whoever went on last, else with the first. */
    RunResult replay(List<Move> row) {
        LinkedList<Move> left = new LinkedList<>(row);
        Move[] last = new Move[1];
        return run((place, moves) -> {
            for (Move move; !moves.isEmpty() && (move = left.poll()) != null;) {
                if (moves.contains(move)) {
                    return last[0] = move;
                }
            }
            for (Move move : moves) {
                if (last[0] != null && move.actor().equals(last[0].actor())) {
                    return last[0] = move;
                }
            }
            return last[0] = moves.isEmpty() ? null : moves.get(0);
        }, null, true);
    }

    /** Makes the moves of a row, each as soon as those that stand before it have come or can't come yet. */
    RunResult runInOrder(List<Move> row, MoveListener listener) {
        List<Move> left = new ArrayList<>(row);
        return run((place, moves) -> {
            for (Move move : left) {
                if (moves.contains(move)) {
                    left.remove(move);
                    return move;
                }
            }
            return moves.isEmpty() ? null : moves.get(0);
        }, listener, false);
    }

    /** Does a run again, and throws where the row doesn't decide it. */
    void checkRepeatable(RunResult result) {
        RunResult again = run((place, moves) -> place < result.moves.size() && moves.contains(result.moves.get(place)) ? result.moves.get(place)
                : null, null, false);
        if (!again.moves.equals(result.moves) || again.outcome != result.outcome
                || !String.valueOf(again.run.reason).equals(String.valueOf(result.run.reason))
                || !again.run.words().equals(result.run.words())) {
            throw new NotDeterministicError("done again, the order\n    " + Move.rowText(result.moves) + "\nwas\n    " + Move.rowText(again.moves)
                    + "\nand came to "
                    + endText(again) + ", before to " + endText(result));
        }
    }

    private static String endText(RunResult result) {
        return result.run.reason != null ? result.run.reason : result.outcome.toString();
    }

}
