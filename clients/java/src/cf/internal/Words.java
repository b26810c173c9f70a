package cf.internal;

/** Events as words of 64 bits: kind, who (bit 48), stage (36), tag (32), and 32 bits more (docs/FORMATS.md). */
public final class Words {
    public static final int COMPLETE = Layout.CALL_COMPLETE + 1, FAIL = Layout.CALL_FAIL + 1, CANCEL = Layout.CALL_CANCEL + 1,
            CLAIM = Layout.CALL_CLAIM + 1,
            FINISH = Layout.CALL_FINISH + 1, ATTACH = Layout.CALL_ATTACH + 1, FAIL_AS = Layout.CALL_FAIL_AS + 1;

    /** As what FAIL_AS fails a stage. */
    public static final int TIMED_OUT = 0, BAD_ANSWER = 1;

    /** What stands for null where the number of a value is asked for. */
    public static final int NIL = -1;

    private static final long NUMBER = 1L << 32, THROWS = 2L << 32, LINKS = 3L << 32;

    private Words() {}

    public static long complete(int who, int stage, int value) {
        return head(COMPLETE, who, stage) | given(value);
    }

    public static long fail(int who, int stage, int code) {
        return head(FAIL, who, stage) | low(code);
    }

    /** Of {@link #TIMED_OUT} or {@link #BAD_ANSWER}, with a code; 0 where none is given. */
    public static long failAs(int who, int stage, int failure, int code) {
        return head(FAIL_AS, who, stage) | (long) failure << 32 | low(code);
    }

    public static long cancel(int who, int stage) {
        return head(CANCEL, who, stage);
    }

    public static long claim(int who, int stage) {
        return head(CLAIM, who, stage);
    }

    public static long finish(int who, int stage, int value) {
        return head(FINISH, who, stage) | given(value);
    }

    public static long finishThrowing(int who, int stage, int code) {
        return head(FINISH, who, stage) | THROWS | low(code);
    }

    public static long finishLinking(int who, int stage, int to) {
        return head(FINISH, who, stage) | LINKS | to;
    }

    public static long attach(int who, Form form, int sources, int first, int second, int function) {
        return head(ATTACH, who, first) | (long) sources << 32 | (long) form.ordinal() << 24 | (long) second << 12 | function;
    }

    /** The sources of a stage that a word attaches. */
    public static int[] sources(long word) {
        int second = lowBits(word) >>> 12 & 0xfff;
        return tag(word) == 0 ? new int[0] : tag(word) == 1 ? new int[] {stage(word)} : new int[] {stage(word), second};
    }

    /** The same event, of another caller. */
    public static long withCaller(int who, long word) {
        return word & ~(0xffL << 48) | (long) who << 48;
    }

    private static final String[] NAMES = {"", "complete", "fail", "cancel", "claim", "finish", "tick", "attach", "failAs"};

    /** Its call's name in scripts. */
    public static String kindName(long word) {
        return NAMES[kind(word)];
    }

    public static int kind(long word) {
        return (int) (word >>> 56);
    }

    public static int caller(long word) {
        return (int) (word >>> 48) & 0xff;
    }

    public static int stage(long word) {
        return (int) (word >>> 36) & 0xfff;
    }

    public static int tag(long word) {
        return (int) (word >>> 32) & 0xf;
    }

    public static int lowBits(long word) {
        return (int) word;
    }

    /** Whether a finish throws. */
    public static boolean isThrowing(long word) {
        return kind(word) == FINISH && tag(word) == 2;
    }

    /** Whether a finish links its stage to another one. */
    public static boolean isLinking(long word) {
        return kind(word) == FINISH && tag(word) == 3;
    }

    private static long head(int kind, int who, int stage) {
        return (long) kind << 56 | (long) who << 48 | (long) stage << 36;
    }

    private static long given(int value) {
        return value == NIL ? 0 : NUMBER | low(value);
    }

    private static long low(int number) {
        return Integer.toUnsignedLong(number);
    }
}
