package cf.internal;

/** Numbers of cf.h, and places of fields in bytes, as native/layout.c writes them. */
public final class Layout {
    // Codes.
    public static final int OK = 0;
    public static final int NO_MEMORY = 8;
    public static final int ROOM = 16;
    // Calls: the kind of a word is one more.
    public static final int CALL_COMPLETE = 0;
    public static final int CALL_FAIL = 1;
    public static final int CALL_CANCEL = 2;
    public static final int CALL_CLAIM = 3;
    public static final int CALL_FINISH = 4;
    public static final int CALL_TICK = 5;
    public static final int CALL_ATTACH = 6;
    public static final int CALL_FAIL_AS = 7;
    // Answers of claims, finishes and attaches.
    public static final int GRANTED = 0;
    public static final int WON = 0;
    public static final int AT = 0;
    // Kinds of outcomes, of what functions are called with, and of what they answer; and of a stage that is settled.
    public static final int PENDING = 0;
    public static final int VALUE = 1;
    public static final int THROWN = 2;
    public static final int CANCELLED = 3;
    public static final int TIMED_OUT = 4;
    public static final int BAD_ANSWER = 5;
    public static final int NIL = 0;
    public static final int NO_ARGS = 0;
    public static final int ONE = 1;
    public static final int TWO = 2;
    public static final int GOT = 3;
    public static final int GIVE = 0;
    public static final int THROW = 1;
    public static final int LINK = 2;
    public static final int IS_SETTLED = 4;
    // An outcome, arguments and a reply.
    public static final int OUTCOME_KIND = 0;
    public static final int OUTCOME_WRAPPED = 4;
    public static final int OUTCOME_CODE = 8;
    public static final int OUTCOME_VALUE = 12;
    public static final int VALUE_KIND = 0;
    public static final int VALUE_NUMBER = 4;
    public static final int ARGS_KIND = 0;
    public static final int ARGS_FIRST = 4;
    public static final int ARGS_SECOND = 12;
    public static final int ARGS_OUTCOME = 20;
    public static final int REPLY_ANSWER = 0;
    public static final int REPLY_NUMBER = 4;
    public static final int REPLY_ARGS = 8;
    // Lanes, the machine's own caller, and what stands beside a form in a plan.
    public static final int HERE = 0;
    public static final int BY_EXECUTOR = 1;
    public static final int CLOCK = 1;
    public static final int FOR_EXECUTOR = 256;
    // The memory of a core.
    public static final int CORE_DONE = 0;
    public static final int CORE_EVENTS = 4;
    public static final int CORE_MOMENTS = 8;
    public static final int CORE_ANSWER = 12;
    public static final int CORE_SETTLED_COUNT = 16;
    public static final int CORE_CLAIMED_COUNT = 20;
    public static final int CORE_READY_COUNT = 24;
    public static final int CORE_HAS_MORE = 28;
    public static final int CORE_HAS_WORDS = 32;
    public static final int CORE_REPLY = 36;
    public static final int CORE_DUE = 96;
    public static final int CORE_WORDS = 176;
    public static final int CORE_LANES = 688;
    public static final int CORE_SETTLED = 752;
    public static final int CORE_CLAIMED = 1712;
    public static final int CORE_READY = 2224;
    public static final int MOST_WORDS = 64;
    public static final int MOST_READY = 64;
    public static final int TOLD_STAGE = 0;
    public static final int TOLD_OUTCOME = 4;
    public static final int TOLD_SIZE = 24;
    public static final int CLAIMED_STAGE = 0;
    public static final int CLAIMED_KIND = 2;
    public static final int CLAIMED_OUTCOME = 3;
    public static final int CLAIMED_WRAPPED = 4;
    public static final int CLAIMED_FIRST = 8;
    public static final int CLAIMED_SECOND = 12;
    public static final int CLAIMED_SIZE = 16;
    // The memory of a view.
    public static final int VIEW_REPLY = 0;
    public static final int VIEW_NEWS = 48;
    public static final int VIEW_CLAIM = 2352;
    public static final int MOST_NEWS = 64;
    public static final int NEWS_STAGE = 0;
    public static final int NEWS_KIND = 4;
    public static final int NEWS_OUTCOME = 16;
    public static final int NEWS_SIZE = 36;
    public static final int CLAIM_SESSION = 0;
    public static final int CLAIM_STAGE = 8;

    private Layout() {}
}
