package cf.internal;

import cf.service.Describe;
import java.nio.charset.StandardCharsets;
import java.util.function.IntPredicate;

/** Texts of users, as they are told: none can look like a further line or event, nor turn what stands beside it around. */
public final class Text {
    private Text() {}

    /** What is told of a value or an exception, not escaped yet. */
    public static String describe(Describe describe, Object thing) {
        if (thing == null) {
            return "null";
        }
        try {
            return String.valueOf(describe.describe(thing));
        } catch (Throwable thrown) {
            return "?";
        }
    }

    /** With control and format characters, separators of lines, and halves of surrogate pairs written as JSON does. */
    public static String escape(String text) {
        return escape(text, c -> isHidden(c) || isHalf(c));
    }

    /** In UTF-8, which has no halves of surrogate pairs: they are written as JSON does. The library escapes all else. */
    public static byte[] utf8(String text) {
        return escape(text, Text::isHalf).getBytes(StandardCharsets.UTF_8);
    }

    private static String escape(String text, IntPredicate which) {
        StringBuilder escaped = null;
        for (int k = 0, wide; k < text.length(); k += wide) {
            int c = text.codePointAt(k);
            wide = Character.charCount(c);
            boolean is = which.test(c);
            if (is && escaped == null) {
                escaped = new StringBuilder(text.length() + 16).append(text, 0, k);
            }
            for (int i = k; escaped != null && i < k + wide; i++) {
                char half = text.charAt(i);
                if (!is) {
                    escaped.append(half);
                } else {
                    escaped.append(half == '\n' ? "\\n" : half == '\r' ? "\\r" : half == '\t' ? "\\t" : String.format("\\u%04x", (int) half));
                }
            }
        }
        return escaped == null ? text : escaped.toString();
    }

    /** Whether it is a control or format character, or separates lines or paragraphs. */
    public static boolean isHidden(int c) {
        int type = Character.getType(c);
        return type == Character.CONTROL || type == Character.FORMAT || type == Character.LINE_SEPARATOR || type == Character.PARAGRAPH_SEPARATOR;
    }

    private static boolean isHalf(int c) {
        return Character.getType(c) == Character.SURROGATE;
    }

    /** At most so many characters, and no half of a surrogate pair where it is cut. */
    public static String cut(String text, int most) {
        if (text.length() <= most) {
            return text;
        }
        int end = most - 3;
        return text.substring(0, Character.isHighSurrogate(text.charAt(end - 1)) ? end - 1 : end) + "...";
    }
}
