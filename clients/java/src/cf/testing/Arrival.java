package cf.testing;

import cf.service.Stage;
import java.util.List;

/** A stage of the world outside, which the search settles. */
final class Arrival {
    final Stage<Object> stage;
    final String name;
    final List<Way> ways;
    /** It was chosen that it never comes. */
    boolean isNever;

    /** What may come: a value, an exception or nothing. */
    static final class Way {
        final Object value;
        final Throwable error;
        final boolean isNever;

        Way(Object value, Throwable error, boolean isNever) {
            this.value = value;
            this.error = error;
            this.isNever = isNever;
        }
    }

    Arrival(Stage<Object> stage, String name, List<Way> ways) {
        this.stage = stage;
        this.name = name;
        this.ways = ways;
    }
}
