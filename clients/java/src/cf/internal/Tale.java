package cf.internal;

import java.io.ByteArrayOutputStream;
import java.nio.charset.StandardCharsets;
import java.util.Arrays;

/** What words did to a plan, as a text that the library tells (docs/FORMATS.md, "Histories in words"). At first nothing is said of it. */
public final class Tale {
    /** As what it is told, by the numbers of cf.h. */
    public enum Format { LINES, LINE, ACCOUNT, SCRIPT, REPORT }

    /** What texts are said of, by the numbers of cf.h. */
    public enum Label { NAME, STAGES, CALLERS, VALUES, ERRORS }

    private final int[] plan;
    private final int room;
    public final long[] words;
    private long[] times = {};
    private final String[][] labels = new String[Label.values().length][0];

    /** Of these words, and of a plan of these rows, as {@link Native#plan} has them, with room for so many stages that are attached. */
    public Tale(int[] rows, int room, long[] words) {
        this.plan = rows;
        this.room = room;
        this.words = words;
    }

    /** Says when each event was done, in nanoseconds from any moment on. */
    public void setTimes(long... times) {
        this.times = times;
    }

    /** Says what things are called, or stand for, by their numbers. */
    public void setLabels(Label what, String... texts) {
        labels[what.ordinal()] = texts;
    }

    /** All of it. The library does the words in the same call. */
    public String text(Format kind) {
        if (!Native.hasStack()) {
            throw new StackOverflowError("cf.service: the stack is nearly full, and nothing is told");
        }
        ByteArrayOutputStream texts = new ByteArrayOutputStream();
        int[] lengths = new int[Arrays.stream(labels).mapToInt(each -> 1 + each.length).sum()];
        int at = 0;
        for (String[] each : labels) {
            lengths[at++] = each.length;
            for (String text : each) {
                byte[] bytes = Text.utf8(text);
                texts.write(bytes, 0, bytes.length);
                lengths[at++] = bytes.length;
            }
        }
        byte[][] told = new byte[1][];
        int code = Native.tale(plan, room, words, times, texts.toByteArray(), lengths, kind.ordinal(), told);
        if (code != Layout.OK) {
            throw Native.refusal(code);
        }
        return new String(told[0], StandardCharsets.UTF_8);
    }
}
