package cf.service;

import cf.internal.Form;
import cf.internal.Layout;

/** A function that was claimed, and its arguments. The object is used again once the function was called. */
final class ClaimedCall {
    Request request;
    int number;
    /** Null of a flow's stage that nobody has asked for. */
    Stage<?> stage;
    Form form;
    Object function, first, second;
    /** How its source ended; where it failed, the exception is an argument, which may have to be made, without a lock. */
    int sourceKind, failureCode;
    boolean isSourceWrapped;
    /** The next call of the same thread. */
    ClaimedCall next;

    /** The second argument. */
    Object secondArgument() {
        if (sourceKind != Layout.VALUE) {
            second = request.failure(this);
            sourceKind = Layout.VALUE;
        }
        return second;
    }

    /** Drops all references. */
    void release() {
        request = null;
        stage = null;
        function = first = second = null;
    }
}
