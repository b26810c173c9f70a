package cf.store;

import java.math.BigInteger;
import java.nio.charset.StandardCharsets;
import java.util.ArrayList;
import java.util.LinkedHashMap;
import java.util.List;
import java.util.Map;
import java.util.regex.Pattern;

/**
 * JSON as bytes, and back. A value is null, a Boolean, a Long, a BigInteger or a Double, a String, a List, or a Map by Strings. Other numbers are
 * written as what they are.
 */
final class Json {
    private static final int DEEPEST = 500;
    private static final Pattern NUMBER = Pattern.compile("-?(0|[1-9][0-9]*)(\\.[0-9]+)?([eE][+-]?[0-9]+)?"), WHOLE = Pattern.compile("-?[0-9]+");

    private final String text;
    private int at;
    private int depth;

    private Json(String text) {
        this.text = text;
    }

    /** The bytes of a value. {@code IllegalArgumentException} where it has what JSON hasn't. */
    static byte[] write(Object value) {
        StringBuilder out = new StringBuilder();
        write(value, out, 0);
        return out.toString().getBytes(StandardCharsets.UTF_8);
    }

    /** The value of bytes. {@code IllegalArgumentException} where they aren't JSON. */
    static Object read(byte[] bytes) {
        Json json = new Json(new String(bytes, StandardCharsets.UTF_8));
        Object value = json.value();
        json.space();
        if (json.at < json.text.length()) {
            throw json.refusal("nothing more");
        }
        return value;
    }

    private static void write(Object value, StringBuilder out, int depth) {
        if (depth > DEEPEST) {
            throw new IllegalArgumentException("a value is nested more than " + DEEPEST + " times");
        }
        if (value == null || value instanceof Boolean) {
            out.append(value);
        } else if (value instanceof CharSequence) {
            quote((CharSequence) value, out);
        } else if (value instanceof Double || value instanceof Float) {
            double number = ((Number) value).doubleValue();
            if (Double.isNaN(number) || Double.isInfinite(number)) {
                throw new IllegalArgumentException("JSON has no " + number);
            }
            out.append(value);
        } else if (value instanceof Number) {
            out.append(value);
        } else if (value instanceof Map) {
            String between = "{";
            for (Map.Entry<?, ?> it : ((Map<?, ?>) value).entrySet()) {
                if (!(it.getKey() instanceof CharSequence)) {
                    throw new IllegalArgumentException("JSON has no map by " + it.getKey());
                }
                quote((CharSequence) it.getKey(), out.append(between));
                write(it.getValue(), out.append(':'), depth + 1);
                between = ",";
            }
            out.append(between.equals("{") ? "{}" : "}");
        } else if (value instanceof Iterable) {
            String between = "[";
            for (Object it : (Iterable<?>) value) {
                write(it, out.append(between), depth + 1);
                between = ",";
            }
            out.append(between.equals("[") ? "[]" : "]");
        } else {
            throw new IllegalArgumentException("JSON has no " + value.getClass().getName());
        }
    }

    private static void quote(CharSequence text, StringBuilder out) {
        out.append('"');
        for (int k = 0; k < text.length(); k++) {
            char letter = text.charAt(k);
            boolean isHalf = Character.isSurrogate(letter) && !(k + 1 < text.length() && Character.isSurrogatePair(letter, text.charAt(k + 1)))
                    && !(k > 0 && Character.isSurrogatePair(text.charAt(k - 1), letter));
            if (letter == '"' || letter == '\\') {
                out.append('\\').append(letter);
            } else if (letter < ' ' || isHalf) {
                out.append(String.format("\\u%04x", (int) letter));
            } else {
                out.append(letter);
            }
        }
        out.append('"');
    }

    private Object value() {
        space();
        char first = at < text.length() ? text.charAt(at) : 0;
        switch (first) {
            case '{':
                return members();
            case '[':
                return elements();
            case '"':
                return string();
            case 't':
                return word("true", true);
            case 'f':
                return word("false", false);
            case 'n':
                return word("null", null);
            default:
                return number();
        }
    }

    private Map<String, Object> members() {
        Map<String, Object> members = new LinkedHashMap<>();
        deeper();
        for (boolean goesOn = !opens('}'); goesOn; goesOn = goesOn('}')) {
            space();
            String name = string();
            space();
            expect(':');
            members.put(name, value());
        }
        depth--;
        return members;
    }

    private List<Object> elements() {
        List<Object> elements = new ArrayList<>();
        deeper();
        for (boolean goesOn = !opens(']'); goesOn; goesOn = goesOn(']')) {
            elements.add(value());
        }
        depth--;
        return elements;
    }

    private void deeper() {
        if (++depth > DEEPEST) {
            throw refusal("fewer brackets");
        }
    }

    /** Takes the opening bracket, and says whether it is closed at once. */
    private boolean opens(char end) {
        at++;
        space();
        boolean isEmpty = at < text.length() && text.charAt(at) == end;
        at += isEmpty ? 1 : 0;
        return isEmpty;
    }

    private boolean goesOn(char end) {
        space();
        if (at < text.length() && text.charAt(at) == end) {
            at++;
            return false;
        }
        expect(',');
        return true;
    }

    private String string() {
        expect('"');
        StringBuilder found = new StringBuilder();
        while (true) {
            char letter = next();
            if (letter == '"') {
                return found.toString();
            }
            if (letter < ' ') {
                throw refusal("a letter");
            }
            found.append(letter == '\\' ? escaped() : letter);
        }
    }

    private char escaped() {
        char letter = next();
        int known = "\"\\/bfnrt".indexOf(letter);
        if (known >= 0) {
            return "\"\\/\b\f\n\r\t".charAt(known);
        }
        if (letter != 'u' || at + 4 > text.length() || !text.substring(at, at + 4).matches("[0-9a-fA-F]{4}")) {
            throw refusal("an escaped letter");
        }
        at += 4;
        return (char) Integer.parseInt(text.substring(at - 4, at), 16);
    }

    private Object word(String word, Object value) {
        if (!text.startsWith(word, at)) {
            throw refusal(word);
        }
        at += word.length();
        return value;
    }

    private Object number() {
        int from = at;
        while (at < text.length() && "+-.eE0123456789".indexOf(text.charAt(at)) >= 0) {
            at++;
        }
        String number = text.substring(from, at);
        if (!NUMBER.matcher(number).matches()) {
            at = from;
            throw refusal("a value");
        }
        if (!WHOLE.matcher(number).matches()) {
            return Double.valueOf(number);
        }
        BigInteger whole = new BigInteger(number);
        return whole.bitLength() < 64 ? (Object) whole.longValue() : whole;
    }

    private char next() {
        if (at == text.length()) {
            throw refusal("more");
        }
        return text.charAt(at++);
    }

    private void expect(char wanted) {
        if (at == text.length() || text.charAt(at) != wanted) {
            throw refusal(String.valueOf(wanted));
        }
        at++;
    }

    private void space() {
        while (at < text.length() && " \t\n\r".indexOf(text.charAt(at)) >= 0) {
            at++;
        }
    }

    private IllegalArgumentException refusal(String wanted) {
        return new IllegalArgumentException("at letter " + at + " JSON wants " + wanted);
    }
}
