package cf.testing;

import cf.service.Stage;
import java.util.ArrayList;
import java.util.List;
import java.util.Objects;
import java.util.function.Consumer;

/** Another caller, each of whose calls comes at any moment, in the order in which they were added. {@link World#caller} makes it. */
public final class Caller {
    final String name;
    final List<CallerCall> calls = new ArrayList<>();
    /** How many of them were made. */
    int callsMade;

    /** What it calls; of a method of a stage nothing else is touched. */
    static final class CallerCall {
        final World.Act act;
        final boolean isOfStage;

        CallerCall(World.Act act, boolean isOfStage) {
            this.act = act;
            this.isOfStage = isOfStage;
        }
    }

    Caller(String name) {
        this.name = name;
    }

    /** It calls this, of which nothing is known. Functions that become ready by it are called within the same move. */
    public Caller calls(World.Act act) {
        calls.add(new CallerCall(Objects.requireNonNull(act), false));
        return this;
    }

    /**
     * It calls one method of a stage, such as {@code it -> it.cancel(true)}, and does nothing else. So the move touches this stage alone, and
     * functions that become ready by it are called in moves of their own.
     */
    public <T> Caller calls(Stage<T> stage, Consumer<? super Stage<T>> call) {
        Objects.requireNonNull(stage);
        Objects.requireNonNull(call);
        calls.add(new CallerCall(() -> call.accept(stage), true));
        return this;
    }

    /** The call that is next, or null. */
    CallerCall nextCall() {
        return callsMade < calls.size() ? calls.get(callsMade) : null;
    }
}
