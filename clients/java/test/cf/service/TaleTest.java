package cf.service;

import static cf.service.Checks.is;
import static cf.service.Checks.thrown;

import cf.internal.Form;
import cf.internal.Layout;
import cf.internal.Native;
import cf.internal.Tale;
import cf.internal.Words;
import java.nio.charset.StandardCharsets;
import java.nio.file.Files;
import java.nio.file.Path;
import java.nio.file.Paths;
import java.util.ArrayList;
import java.util.Arrays;
import java.util.Collections;
import java.util.LinkedHashMap;
import java.util.List;
import java.util.Locale;
import java.util.Map;

/** What the library tells of words is what conformance/requests/told.json has, byte for byte; and what it refuses. */
final class TaleTest {
    private TaleTest() {}

    /** All cases but those with limits, which no plan of Java's has. */
    static void told() throws Exception {
        int cases = 0;
        for (Object each : (List<?>) new Json(text()).value()) {
            Map<?, ?> one = (Map<?, ?>) each;
            if (one.containsKey("limits")) {
                continue;
            }
            cases++;
            Tale tale = new Tale(rows((List<?>) one.get("stages")), number(one.get("room")), longs(one.get("words")));
            tale.setTimes(longs(one.get("times")));
            for (Tale.Label what : Tale.Label.values()) {
                tale.setLabels(what, ((List<?>) ((Map<?, ?>) one.get("said")).get(name(what))).toArray(new String[0]));
            }
            for (Tale.Format kind : Tale.Format.values()) {
                Object wanted = ((Map<?, ?>) one.get("texts")).get(name(kind));
                StringBuilder lines = new StringBuilder();
                if (wanted instanceof List<?>) {
                    ((List<?>) wanted).forEach(line -> lines.append(line).append('\n'));
                }
                is(tale.text(kind), wanted instanceof List<?> ? lines.toString() : wanted);
            }
        }
        is(cases > 5, true);
    }

    /** Where a test runs: at the top, or in the folder of this client. */
    private static String text() throws Exception {
        Path told = Paths.get("conformance/requests/told.json");
        return new String(Files.readAllBytes(Files.exists(told) ? told : Paths.get("../..").resolve(told)), StandardCharsets.UTF_8);
    }

    private static String name(Enum<?> of) {
        return of.name().toLowerCase(Locale.ROOT);
    }

    private static int number(Object number) {
        return (int) Long.parseLong((String) number);
    }

    private static long[] longs(Object numbers) {
        return ((List<?>) numbers).stream().mapToLong(each -> Long.parseUnsignedLong((String) each)).toArray();
    }

    /** Rows of a plan, in which the function of a stage has the stage's number. */
    private static int[] rows(List<?> stages) {
        List<Integer> rows = new ArrayList<>();
        for (int k = 0; k < stages.size(); k++) {
            Map<?, ?> stage = (Map<?, ?>) stages.get(k);
            List<?> of = stage.containsKey("of") ? (List<?>) stage.get("of") : Collections.emptyList();
            rows.add((int) Arrays.stream(Form.values()).takeWhile(form -> !form.text.equals(stage.get("form"))).count());
            rows.add(stage.containsKey("fn") ? k : -1);
            rows.add(of.size());
            of.forEach(source -> rows.add(number(source)));
        }
        return rows.stream().mapToInt(each -> each).toArray();
    }

    /** A text that is longer than the buffer which is tried first; and halves of pairs, which UTF-8 hasn't. */
    static void texts() {
        String[] names = new String[4096];
        Arrays.fill(names, "");
        StringBuilder words = new StringBuilder();
        for (int k = 0; k < 1000; k++) {
            words.append("long \ud83d\ude00 ");
        }
        Tale tale = new Tale(new int[0], 1, new long[] {Words.attach(3, Form.SOURCE, 0, 0, 0, 0)});
        names[0] = words.toString();
        tale.setLabels(Tale.Label.NAME, "\ude00\ud83d");
        tale.setLabels(Tale.Label.STAGES, names);
        is(tale.text(Tale.Format.LINES), "\\ude00\\ud83d: 1 event, 1 stage\ncaller 3 attaches 0 " + words + ", source\n");
    }

    /** What doesn't fit is refused with a code, and nothing is read past what there is. */
    static void refused() {
        long[] none = {}, attach = {Words.attach(0, Form.SOURCE, 0, 0, 0, 0)};
        thrown(AssertionError.class, () -> new Tale(new int[0], 0, new long[] {-1}).text(Tale.Format.LINES));
        thrown(AssertionError.class, () -> new Tale(new int[0], 0, new long[] {Words.cancel(0, 0)}).text(Tale.Format.LINES));
        for (int room : new int[] {-1, 4097, Integer.MAX_VALUE, Integer.MIN_VALUE}) {
            thrown(AssertionError.class, () -> new Tale(new int[0], room, none).text(Tale.Format.LINES));
        }
        thrown(AssertionError.class, () -> new Tale(new int[] {0, -1, 7}, 0, none).text(Tale.Format.LINES));
        byte[][] told = new byte[1][];
        byte[] text = {'r', 's', 't'}, half = {'r', (byte) 0xc3};
        int[][] wrong = {{-1}, {Integer.MAX_VALUE, 1}, {Integer.MIN_VALUE}, {2, 1, 1}, {1, 4}, {1, -1}, {1, Integer.MIN_VALUE}, {0, 2, 2, 2}, {0, 2, 2, -1},
            {0, 2, 1}, {0, 4097}, {0, 0, 65}};
        for (int[] lengths : wrong) {
            is(Native.tale(new int[0], 1, attach, none, text, lengths, 0, told) != Layout.OK && told[0] == null, true);
        }
        is(Native.tale(new int[0], 1, attach, none, half, new int[] {1, 2}, 0, told) != Layout.OK && told[0] == null, true);
        for (int kind : new int[] {-1, 5, Integer.MAX_VALUE}) {
            is(Native.tale(new int[0], 1, attach, none, text, new int[] {1, 1}, kind, told) != Layout.OK && told[0] == null, true);
        }
        is(Native.tale(new int[0], 1, attach, new long[2], text, new int[] {1, 1}, 0, told) != Layout.OK && told[0] == null, true);
        is(Native.tale(new int[0], 1, attach, none, text, new int[] {1, 1, 1, 1, 0, 0, 0, 9, 9}, 0, told), Layout.OK);
        is(new String(told[0], StandardCharsets.UTF_8), "r: 1 event, 1 stage\ncaller 0 attaches 0 s, source\n");
    }

    /** JSON of which all is known: lists, maps, and as texts all else. */
    private static final class Json {
        private final String text;
        private int at;

        Json(String text) {
            this.text = text;
        }

        Object value() {
            char next = peek();
            return next == '[' ? list() : next == '{' ? map() : next == '"' ? string() : word();
        }

        private char peek() {
            while (Character.isWhitespace(text.charAt(at))) {
                at++;
            }
            return text.charAt(at);
        }

        /** Whether there is one more behind the one that was read last. */
        private boolean goesOn(char end, boolean isFirst) {
            boolean ends = peek() == end;
            at += ends || !isFirst ? 1 : 0;
            return !ends;
        }

        private List<Object> list() {
            List<Object> all = new ArrayList<>();
            at++;
            while (goesOn(']', all.isEmpty())) {
                all.add(value());
            }
            return all;
        }

        private Map<String, Object> map() {
            Map<String, Object> all = new LinkedHashMap<>();
            at++;
            while (goesOn('}', all.isEmpty())) {
                peek();
                String key = string();
                peek();
                at++;
                all.put(key, value());
            }
            return all;
        }

        private String string() {
            StringBuilder all = new StringBuilder();
            while (text.charAt(++at) != '"') {
                char c = text.charAt(at);
                if (c != '\\') {
                    all.append(c);
                } else if ((c = text.charAt(++at)) == 'u') {
                    all.append((char) Integer.parseInt(text.substring(at + 1, at + 5), 16));
                    at += 4;
                } else {
                    all.append(c == 'n' ? '\n' : c == 'r' ? '\r' : c == 't' ? '\t' : c == 'b' ? '\b' : c == 'f' ? '\f' : c);
                }
            }
            at++;
            return all.toString();
        }

        private String word() {
            int from = at;
            while (Character.isLetterOrDigit(text.charAt(at)) || text.charAt(at) == '-') {
                at++;
            }
            return text.substring(from, at);
        }
    }
}
