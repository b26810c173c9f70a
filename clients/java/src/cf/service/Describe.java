package cf.service;

import cf.internal.Text;
import java.lang.reflect.Array;
import java.util.Collection;
import java.util.Map;

/**
 * Says what histories, the texts of stages and flight recordings tell of a value or an exception. {@link Service#withDescribe} and
 * {@link Service#request(String, Describe)} choose it. Names of requests, stages and threads are told whatever it says.
 *
 * <pre>{@code
 * Describe safe = value -> value instanceof Card ? "a card" : Describe.TYPES.describe(value);
 * }</pre>
 */
@FunctionalInterface
public interface Describe {
    /** The first 60 characters of {@code toString}. */
    Describe ALL = value -> {
        String text;
        try {
            text = String.valueOf(value.toString());
        } catch (Throwable unspeakable) {
            text = "a " + value.getClass().getSimpleName();
        }
        return Text.cut(text, 60);
    };

    /** The name of its class, as {@code java.lang.String of 12}: with the length of what has one. Of an exception the name alone. */
    Describe TYPES = value -> {
        int length = value instanceof CharSequence ? ((CharSequence) value).length()
                : value instanceof Collection ? ((Collection<?>) value).size() : value instanceof Map ? ((Map<?, ?>) value).size()
                : value.getClass().isArray() ? Array.getLength(value) : -1;
        return value.getClass().getTypeName() + (length < 0 ? "" : " of " + length);
    };

    /** Nothing: {@code -}. */
    Describe NOTHING = value -> "-";

    /**
     * The text of a value or an exception, never of null. If it throws, the text is {@code ?}. The thread that takes a history or its text calls
     * this, and of a recording the thread that settles the stage; no lock is held. Control characters, line separators and characters that turn
     * the direction of a text are escaped as in JSON, so no text can add a line to a history.
     *
     * @param value the value or the exception
     * @return the text that is told
     */
    String describe(Object value);
}
