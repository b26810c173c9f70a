package cf.store;

import cf.internal.Layout;
import cf.internal.Native;
import java.nio.ByteBuffer;
import java.nio.ByteOrder;
import java.util.function.ObjIntConsumer;

/**
 * What one session knows of a row of words in a store, as the library's view of it does (docs/C.md, "A row in a store"). One thread at a time
 * has it. It is closed once.
 */
final class NativeRow implements AutoCloseable {
    /** Bits of a token that count; those above them are the session. */
    static final int COUNT_BITS = 23;
    /** Bits of a session's number. */
    static final int SESSION_BITS = 39;
    static {
        Native.load();
    }

    private long view;
    /** The memory of a view: struct view_block of native/block.h. */
    private final ByteBuffer memory;
    /** How many stages the last entry changed. */
    private int changed;

    /** A view of the row of a plan's request, which is given as {@link Native#plan} has it. */
    NativeRow(int[] plan, int room, int first, long session) {
        view = open(plan, room, first, session);
        if (view < 0) {
            throw new Refusal((int) -view);
        }
        memory = memoryOf(view);
    }

    private static ByteBuffer memoryOf(long view) {
        try {
            return memory(view).order(ByteOrder.nativeOrder());
        } catch (OutOfMemoryError none) {
            close(view);
            throw none;
        }
    }

    /** How a stage or a source ended: with the place of its value, or of its failure; 0 where no payload says more. */
    static final class Outcome {
        static final Outcome PENDING = new Outcome(Layout.PENDING, false, 0);
        final int kind, place;
        final boolean isWrapped;

        private Outcome(int kind, boolean isWrapped, int place) {
            this.kind = kind;
            this.isWrapped = isWrapped;
            this.place = place;
        }

        private static Outcome of(ByteBuffer memory, int at) {
            int kind = memory.getInt(at + Layout.OUTCOME_KIND);
            return new Outcome(kind, memory.getInt(at + Layout.OUTCOME_WRAPPED) != 0,
                    kind == Layout.VALUE ? place(memory, at + Layout.OUTCOME_VALUE) : memory.getInt(at + Layout.OUTCOME_CODE));
        }

        /** The number of a value, which the library has as 0 where it is null. */
        private static int place(ByteBuffer memory, int at) {
            return memory.getInt(at + Layout.VALUE_NUMBER);
        }

        boolean isValue() {
            return kind == Layout.VALUE;
        }
    }

    /** The reply to an entry; of a claim, with what the stage's function is called with: the places of values, 0 for null, or its source's outcome. */
    static final class Reply {
        final int answer, number, arguments, first, second;
        final Outcome source;

        private Reply(ByteBuffer memory, int at) {
            int args = at + Layout.REPLY_ARGS;
            answer = memory.getInt(at + Layout.REPLY_ANSWER);
            number = memory.getInt(at + Layout.REPLY_NUMBER);
            arguments = memory.getInt(args + Layout.ARGS_KIND);
            first = Outcome.place(memory, args + Layout.ARGS_FIRST);
            second = Outcome.place(memory, args + Layout.ARGS_SECOND);
            source = Outcome.of(memory, args + Layout.ARGS_OUTCOME);
        }
    }

    /** A claim that is open: its stage, and the session to which it was granted. */
    static final class OpenClaim {
        final int stage;
        final long session;

        private OpenClaim(ByteBuffer memory, int at) {
            stage = memory.getShort(at + Layout.CLAIM_STAGE);
            session = memory.getLong(at + Layout.CLAIM_SESSION);
        }
    }

    /** The code with which the library refuses a call. */
    static final class Refusal extends RuntimeException {
        private static final long serialVersionUID = 1;
        final int code;

        Refusal(int code) {
            super("the library refuses it with code " + code, null, false, false);
            this.code = code;
        }
    }

    /** Plans a put of these words, and gives the token of the first one. */
    long planPut(long[] words) {
        long token = planPut(view, words);
        if (token < 0) {
            throw new Refusal((int) -token);
        }
        return token;
    }

    /** Whether the planned put has landed, where this entry stands at its first place. */
    boolean landed(long word, long token) {
        return landed(view, word, token) == 1;
    }

    void giveUpPut() {
        giveUpPut(view);
    }

    /** Sees an entry. */
    Reply takeIn(long word, long token) {
        int count = takeIn(view, word, token);
        if (count < 0) {
            throw new Refusal(-count);
        }
        changed = count;
        return new Reply(memory, Layout.VIEW_REPLY);
    }

    /** Hands over each stage, by rising number, that the last entry changed and that is settled, with its outcome. */
    void forEachSettled(ObjIntConsumer<Outcome> act) {
        for (int k = 0; k < changed; k++) {
            if (k > 0 && k % Layout.MOST_NEWS == 0) {
                fetchNews(view, k);
            }
            int news = Layout.VIEW_NEWS + Layout.NEWS_SIZE * (k % Layout.MOST_NEWS);
            if (memory.getInt(news + Layout.NEWS_KIND) == Layout.IS_SETTLED) {
                act.accept(Outcome.of(memory, news + Layout.NEWS_OUTCOME), memory.getShort(news + Layout.NEWS_STAGE));
            }
        }
    }

    /** Makes room for so many stages more, and says whether there could be so many. */
    boolean grow(int more) {
        int refused = -grow(view, more);
        if (refused != Layout.OK && refused != Layout.ROOM) {
            throw new Refusal(refused);
        }
        return refused == Layout.OK;
    }

    /** The caller's number of this session. */
    int callerNumber() {
        int number = callerNumber(view);
        if (number < 0) {
            throw new Refusal(-number);
        }
        return number;
    }

    /** The lowest ready stage from this one on, or -1. */
    int lowestReady(int from) {
        return lowestReady(view, from);
    }

    /** The word that finishes a stage of this session with an answer of a kind, and its number, -1 for null; or -1 where it hasn't the stage. */
    long finishWord(int stage, int kind, int number) {
        return finishWord(view, stage, kind, number);
    }

    /** The lowest stage from a number on that this session could claim behind such a finish, or next where the stage is -1; or -1. */
    int nextClaim(int stage, int kind, int number, int from) {
        return nextClaim(view, stage, kind, number, from);
    }

    /** That of the lowest stage from this one on whose claim is open; or null. */
    OpenClaim nextOpenClaim(int from) {
        return nextOpenClaim(view, from) ? new OpenClaim(memory, Layout.VIEW_CLAIM) : null;
    }

    /** The word that fails the lowest stage from this one on that a session has, which names no exception yet; or -1 where it has none. */
    long abandonWord(long session, int from) {
        return abandonWord(view, session, from);
    }

    @Override
    public void close() {
        if (view != 0) {
            close(view);
            view = 0;
        }
    }

    private static native long open(int[] plan, int room, int first, long session);

    private static native ByteBuffer memory(long view);

    private static native void close(long view);

    private static native long planPut(long view, long[] words);

    private static native int landed(long view, long word, long token);

    private static native void giveUpPut(long view);

    /** How many stages it changed, or a code negated. The reply is in the memory then, and the first of the stages. */
    private static native int takeIn(long view, long word, long token);

    /** Brings the stages that the last entry changed, from this one in their row on. */
    private static native void fetchNews(long view, int from);

    private static native int grow(long view, int more);

    private static native int callerNumber(long view);

    private static native int lowestReady(long view, int from);

    private static native long finishWord(long view, int stage, int kind, int number);

    private static native int nextClaim(long view, int held, int kind, int number, int from);

    private static native boolean nextOpenClaim(long view, int from);

    private static native long abandonWord(long view, long session, int from);
}
