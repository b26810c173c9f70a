package cf.internal;

import java.util.Objects;
import java.util.concurrent.CompletionStage;
import java.util.function.BiConsumer;
import java.util.function.BiFunction;
import java.util.function.Consumer;
import java.util.function.Function;
import java.util.function.Supplier;

/** The forms of stages, with their numbers in words. */
public enum Form {
    SOURCE("source"), SUPPLY("supply"), RUN_ASYNC("runAsync"), APPLY("apply"), ACCEPT("accept"), THEN_RUN("thenRun"), COMBINE("combine"),
    ACCEPT_BOTH("acceptBoth"), RUN_BOTH("runBoth"), APPLY_EITHER("applyEither"), ACCEPT_EITHER("acceptEither"), RUN_EITHER("runEither"),
    COMPOSE("compose"), HANDLE("handle"), WHEN_COMPLETE("whenComplete"), EXCEPTIONALLY("exceptionally"), ALL_OF("allOf"), ANY_OF("anyOf"),
    EXCEPTIONALLY_COMPOSE("exceptionallyCompose");

    private static final Form[] ALL = values();

    /** Its name in scripts. */
    public final String text;
    /** Whether it has a function. */
    public final boolean calls;
    /** Whether its function makes a stage. */
    public final boolean composes;
    /** Whether its function is called with its source's fault, as that is. */
    public final boolean handles;
    /** Whether it needs but one of its sources. */
    public final boolean isEither;

    Form(String text) {
        this.text = text;
        calls = !text.equals("source") && !text.equals("allOf") && !text.equals("anyOf");
        composes = text.equals("compose") || text.equals("exceptionallyCompose");
        isEither = text.equals("anyOf") || text.endsWith("Either");
        handles = text.equals("handle") || text.equals("whenComplete") || text.startsWith("exceptionally");
    }

    public static Form byNumber(int number) {
        return ALL[number];
    }

    /** Calls a function of this form with what it takes of a value, or two, or a value and an exception. */
    @SuppressWarnings("unchecked")
    public Object call(Object function, Object first, Object second) {
        switch (this) {
            case SUPPLY:
                return ((Supplier<Object>) function).get();
            case APPLY:
            case APPLY_EITHER:
                return ((Function<Object, Object>) function).apply(first);
            case EXCEPTIONALLY:
                return ((Function<Object, Object>) function).apply(second);
            case COMBINE:
            case HANDLE:
                return ((BiFunction<Object, Object, Object>) function).apply(first, second);
            case COMPOSE:
                return Objects.requireNonNull(((Function<Object, CompletionStage<?>>) function).apply(first));
            case EXCEPTIONALLY_COMPOSE:
                return Objects.requireNonNull(((Function<Object, CompletionStage<?>>) function).apply(second));
            case ACCEPT:
            case ACCEPT_EITHER:
                ((Consumer<Object>) function).accept(first);
                return null;
            case ACCEPT_BOTH:
            case WHEN_COMPLETE:
                ((BiConsumer<Object, Object>) function).accept(first, second);
                return null;
            default:
                ((Runnable) function).run();
                return null;
        }
    }
}
