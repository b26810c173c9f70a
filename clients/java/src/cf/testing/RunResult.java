package cf.testing;

import java.util.List;

/** How a run ended: by itself, cut short by its chooser, or failed; and its moves. */
final class RunResult {
    enum Outcome { END, CUT, FAILED }

    final Outcome outcome;
    final Run run;
    final List<Move> moves;
    final List<Failure.ToldMove> toldMoves;

    RunResult(Outcome outcome, Run run, List<Move> row, List<Failure.ToldMove> told) {
        this.outcome = outcome;
        this.run = run;
        this.moves = row;
        this.toldMoves = told;
    }

    boolean hasFailed() {
        return outcome == Outcome.FAILED;
    }

    /** The failure, of a run whose moves were told. */
    Failure failure() {
        return new Failure(run.reason, run.cause, moves, toldMoves, run.histories());
    }
}
