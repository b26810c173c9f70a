package cf.testing;

import java.util.function.BooleanSupplier;

/** What is due at a moment. */
final class WorldTimer {
    final long due;
    /** Which one of its request it is. */
    final int number;
    final long place;
    final Runnable act;
    final BooleanSupplier isLost;
    final String text;

    WorldTimer(long due, int number, long place, Runnable act, BooleanSupplier isLost, String text) {
        this.due = due;
        this.number = number;
        this.place = place;
        this.act = act;
        this.isLost = isLost;
        this.text = text;
    }

    int request() {
        return (int) (place >> 32);
    }

    Move move() {
        return new Move(Move.Action.LIMIT, request(), (int) place, number);
    }
}
