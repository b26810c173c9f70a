package cf.service;

import java.time.Duration;
import java.util.Arrays;
import java.util.Collections;
import java.util.List;
import java.util.concurrent.ThreadLocalRandom;

/**
 * How often something is tried, after which exceptions, and with which pauses. It is immutable: each method gives a changed one. At first there are
 * no pauses, and what threw an {@link Exception} is tried again, but not what threw an {@link Error}.
 *
 * <pre>{@code Retry.of(5).delay(Duration.ofMillis(100)).factor(2).jitter(true).on(IOException.class)}</pre>
 */
public final class Retry {
    private static final double MOST_NANOS = Long.MAX_VALUE;

    private final int times;
    private final long delay;
    private final double factor;
    private final boolean hasJitter;
    private final List<Class<? extends Throwable>> kinds;

    private Retry(int times, long delay, double factor, boolean hasJitter, List<Class<? extends Throwable>> kinds) {
        this.times = times;
        this.delay = delay;
        this.factor = factor;
        this.hasJitter = hasJitter;
        this.kinds = kinds;
    }

    /**
     * So many tries, the first one included.
     *
     * @throws IllegalArgumentException where there is none
     */
    public static Retry of(int times) {
        if (times < 1) {
            throw new IllegalArgumentException(times + " tries: at least one is made");
        }
        return new Retry(times, 0, 1, false, Collections.singletonList(Exception.class));
    }

    /**
     * With this pause before the second try.
     *
     * @throws IllegalArgumentException it is negative
     */
    public Retry delay(Duration pause) {
        if (pause.isNegative()) {
            throw new IllegalArgumentException("the pause is " + pause);
        }
        return new Retry(times, Scope.nanos(pause), factor, hasJitter, kinds);
    }

    /**
     * With each further pause so many times as long as the one before.
     *
     * @throws IllegalArgumentException it is below 1, or no number
     */
    public Retry factor(double growth) {
        if (!(growth >= 1)) {
            throw new IllegalArgumentException("the factor is " + growth + ": no pause is shorter than the one before");
        }
        return new Retry(times, delay, growth, hasJitter, kinds);
    }

    /** With pauses of a random part, between half and all, so that those who failed at once don't all come again at once; not so in tests of all orders. */
    public Retry jitter(boolean isWanted) {
        return new Retry(times, delay, factor, isWanted, kinds);
    }

    /** After exceptions of these kinds alone. Others fail the stage at once. */
    @SafeVarargs
    @SuppressWarnings("varargs")
    public final Retry on(Class<? extends Throwable>... kinds) {
        return new Retry(times, delay, factor, hasJitter, Collections.unmodifiableList(Arrays.asList(kinds.clone())));
    }

    /** Whether there is a further try behind this one, of which the first is 1, that failed so. */
    boolean goesOn(int number, Throwable error) {
        return number < times && kinds.stream().anyMatch(kind -> kind.isInstance(error));
    }

    /** The nanoseconds of the pause behind this try. */
    long pauseAfter(int number, boolean isRandom) {
        double pause = Math.min(MOST_NANOS, delay * Math.pow(factor, number - 1.0));
        return (long) (hasJitter && isRandom ? pause * ThreadLocalRandom.current().nextDouble(0.5, 1) : pause);
    }
}
