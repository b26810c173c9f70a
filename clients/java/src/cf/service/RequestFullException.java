package cf.service;

import cf.internal.Full;

/**
 * A stage finds no room: a request or a flow has at most 4,096 stages, which name other stages as their sources at most 16,384 times. Nothing was
 * changed. {@link Request#isContinued} lets further stages go to a further request.
 */
public final class RequestFullException extends IllegalStateException {
    private static final long serialVersionUID = 1;

    /** @hidden A program makes none. */
    public RequestFullException(Full full) {
        super(full.text);
    }
}
