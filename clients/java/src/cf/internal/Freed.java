package cf.internal;

import java.lang.ref.PhantomReference;
import java.lang.ref.ReferenceQueue;

/**
 * What is freed once its owner can't be reached any more, if it wasn't before; as Cleaner does, which Java 8 hasn't. Whoever opens a request
 * frees some of it: a thread of its own would keep its class loader for good. What nobody has freed when that goes, the library frees then.
 */
public final class Freed extends PhantomReference<Object> {
    private static final ReferenceQueue<Object> GONE = new ReferenceQueue<>();
    private static final Freed FIRST = new Freed();
    /** How much is freed at once, so that nobody pays for all that a collection has found. */
    public static final int SOME = 16;

    private Runnable free;
    private Freed before, after;

    private Freed() {
        super(FIRST, GONE);
        before = after = this;
    }

    /** The act must not reach the owner. */
    public Freed(Object owner, Runnable free) {
        super(owner, GONE);
        this.free = free;
        synchronized (FIRST) {
            before = FIRST;
            after = FIRST.after;
            after.before = this;
            FIRST.after = this;
        }
    }

    /** Frees now, once. */
    public void freeNow() {
        Runnable act = takeFirst();
        if (act != null) {
            act.run();
        }
    }

    /** What frees, for the one who calls it; null where somebody has it. */
    private Runnable takeFirst() {
        synchronized (FIRST) {
            Runnable act = free;
            if (act != null) {
                free = null;
                before.after = after;
                after.before = before;
            }
            return act;
        }
    }

    /** What frees something that can't be reached any more, or null. */
    public static Runnable poll() {
        Runnable act = null;
        for (Freed gone; act == null && (gone = (Freed) GONE.poll()) != null;) {
            act = gone.takeFirst();
        }
        return act;
    }

    /** Frees some of what can't be reached any more. */
    public static void freeSome() {
        free(SOME);
    }

    /** Frees all of it. */
    public static void freeAll() {
        free(Integer.MAX_VALUE);
    }

    private static void free(int most) {
        Runnable gone;
        for (int k = 0; k < most && (gone = poll()) != null; k++) {
            gone.run();
        }
    }
}
